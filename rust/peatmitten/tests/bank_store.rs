//! A terminal with owners whose state is in storage: A and C belong to zone 5, B to zone 6.

use std::convert::Infallible;

use peatmitten::bank::{Config, State, GIC_OWNER};
use peatmitten::{Part, Region, Request, Side, Store, Table, TABLE_WORDS};

const A: Region = Region::new(0x4000_0000, 0x8000_0000, 0x20_0000, 3);
const B: Region = Region::new(0x4000_0000, 0x8020_0000, 0x20_0000, 3);
const C: Region = Region::new(0x4010_0000, 0x9000_0000, 0x20_0000, 3);
const G: Region = Region::new(0x0800_0000, 0x0800_0000, 0x1_0000, 3);

const OWN_PLAN: &[u8] = include_bytes!("../../../examples/bank/own.plan");
const ANOTHERS_PLAN: &[u8] = include_bytes!("../../../examples/bank/anothers.plan");
const WRONG_OWNER_PLAN: &[u8] = include_bytes!("../../../examples/bank/wrong_owner.plan");
const FIRST_PLAN: &[u8] = include_bytes!("../../../examples/first.plan");

/// The terminal that the examples are for.
fn state() -> State {
    let config = Config::new(&[(A, 5), (B, 6), (C, 5), (G, GIC_OWNER)], 3).expect("four regions");
    let mut table = Table::new();
    for request in [
        Request::add_zone(5),
        Request::insert(5, Side::Cpu, A),
        Request::insert(5, Side::Iommu, A),
        Request::insert(5, Side::Iommu, G),
    ] {
        assert_eq!(config.request(&mut table, request), Ok(()));
    }
    State { config, table, edition: 7 }
}

/// A part that is never cut.
struct Memory;

impl Part for Memory {
    type Fault = Infallible;

    fn write_words(&mut self, _slot: usize, _table: &Table) -> Result<(), Infallible> {
        Ok(())
    }

    fn write_mark(&mut self, _mark: u32) -> Result<(), Infallible> {
        Ok(())
    }

    fn wait(&mut self) -> Result<(), Infallible> {
        Ok(())
    }
}

#[test]
fn a_store_with_owners_answers_as_a_state_does() {
    let mut state = state();
    let slots = [Table::from_words([7; TABLE_WORDS]), state.table.clone()];
    let mut store = Store::start(state.config.clone(), slots, Memory, state.edition).expect("a part that never fails");
    for plan in [WRONG_OWNER_PLAN, ANOTHERS_PLAN, FIRST_PLAN, OWN_PLAN, OWN_PLAN] {
        assert_eq!(store.deliver(plan), Ok(state.apply(plan)));
        assert_eq!((store.edition(), store.table()), (Some(state.edition), Some(&state.table)));
    }
    assert_eq!(state.edition, 8);
}
