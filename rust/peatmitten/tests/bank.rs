//! Terminals with owners through the types of this crate: A and C belong to zone 5, B to zone 6.

use std::mem::{offset_of, size_of};

use peatmitten::bank::{read_plan, Config, ConfigFault, State, GIC_OWNER, LONGEST_PLAN};
use peatmitten::{
    limits, raw, ByteCount, Guest, Physical, PlanRefusal, ReadFault, Refusal, Region, Request, Side, Table, CONFIG_WORDS,
    TABLE_WORDS,
};

const A: Region = Region::new(0x4000_0000, 0x8000_0000, 0x20_0000, 3);
const B: Region = Region::new(0x4000_0000, 0x8020_0000, 0x20_0000, 3);
const C: Region = Region::new(0x4010_0000, 0x9000_0000, 0x20_0000, 3);
const G: Region = Region::new(0x0800_0000, 0x0800_0000, 0x1_0000, 3);

const OWN_PLAN: &[u8] = include_bytes!("../../../examples/bank/own.plan");
const ANOTHERS_PLAN: &[u8] = include_bytes!("../../../examples/bank/anothers.plan");
const WRONG_OWNER_PLAN: &[u8] = include_bytes!("../../../examples/bank/wrong_owner.plan");
const FIRST_PLAN: &[u8] = include_bytes!("../../../examples/first.plan");

fn config() -> Config {
    Config::new(&[(A, 5), (B, 6), (C, 5), (G, GIC_OWNER)], 3).expect("four regions")
}

/// The terminal that the examples are for.
fn state() -> State {
    let mut table = Table::new();
    for request in [
        Request::add_zone(5),
        Request::insert(5, Side::Cpu, A),
        Request::insert(5, Side::Iommu, A),
        Request::insert(5, Side::Iommu, G),
    ] {
        assert_eq!(config().request(&mut table, request), Ok(()));
    }
    State { config: config(), table, edition: 7 }
}

#[test]
fn the_memory_is_that_of_the_header() {
    assert_eq!(offset_of!(State, config), 0);
    assert_eq!(size_of::<Config>(), 8 * CONFIG_WORDS + 4 * limits::MOST_REGIONS);
    assert_eq!(offset_of!(State, table), size_of::<Config>());
    assert_eq!(offset_of!(State, edition), size_of::<Config>() + 8 * TABLE_WORDS);
    assert_eq!(size_of::<State>(), offset_of!(State, edition) + 8);
}

#[test]
fn configurations() {
    let with = |owner: u32| Config::new(&[(A, 5), (B, owner), (G, GIC_OWNER)], 2).expect("three regions").check();
    assert_eq!(config().check(), Ok(()));
    assert_eq!(with(255), Ok(()));
    assert_eq!(with(256), Err(ConfigFault::Owner { place: 1 }));
    assert_eq!(with(GIC_OWNER).map_err(|fault| (fault.number(), fault.places())), Err((7, [1, 0])));
    assert_eq!(with(256).map_err(|fault| fault.to_string()), Err("the owner of region 1 is wrong".into()));
    let mut owners = *config().owners();
    owners[4] = 1;
    let unused = Config::from_parts(config().plain().clone(), owners);
    let not_zero = ConfigFault::Plain(peatmitten::ConfigFault::NotZero { place: 4 });
    assert_eq!(unused.check(), Err(not_zero));
    assert_eq!(not_zero.to_string(), "record 4 or its owner is past the count and not all zero");
}

#[test]
fn requests() {
    let State { config, mut table, .. } = state();
    let mut ask = |request| config.request(&mut table, request);
    assert_eq!(ask(Request::add_zone(6)), Ok(()));
    assert_eq!(ask(Request::insert(6, Side::Cpu, A)), Err(Refusal::NotConfigured));
    assert_eq!(ask(Request::insert(6, Side::Iommu, A)), Err(Refusal::NotConfigured));
    assert_eq!(ask(Request::insert(6, Side::Cpu, G)), Err(Refusal::NotConfigured));
    assert_eq!(ask(Request::insert(6, Side::Iommu, G)), Ok(()));
    assert_eq!(ask(Request::insert(6, Side::Cpu, B)), Ok(()));
    assert_eq!(ask(Request::insert(5, Side::Cpu, C)), Err(Refusal::GuestOverlap));
    assert_eq!(ask(Request::remove_zone(6)), Err(Refusal::ZoneInUse));
    assert!(config.is_sound(&table));
    assert!(!Config::new(&[(A, 6), (B, 6), (C, 5), (G, GIC_OWNER)], 3).expect("four regions").is_sound(&table));
    let found = config.translate(&table, 6, Side::Cpu, Guest(B.v.0 + 1)).expect("the region covers it");
    assert_eq!((found.physical, found.remaining), (Physical(B.p.0 + 1), ByteCount(B.size - 1)));
    assert_eq!(config.translate(&table, 6, Side::Iommu, Guest(B.v.0)), Err(Refusal::NotCovered));
}

#[test]
fn plans() {
    let mut state = state();
    let before = state.clone();
    assert_eq!(state.apply(ANOTHERS_PLAN), Err(PlanRefusal::Request { index: 2, refusal: Refusal::NotConfigured }));
    assert_eq!(state.apply(WRONG_OWNER_PLAN), Err(PlanRefusal::OtherConfig));
    assert_eq!(state.apply(FIRST_PLAN), Err(PlanRefusal::Read(ReadFault::Count { offset: 52 })));
    assert_eq!(state, before);
    assert_eq!(state.apply(OWN_PLAN), Ok(3));
    assert_eq!((state.edition, state.table.zones().count()), (8, 2));
    assert_eq!(state.apply(OWN_PLAN), Err(PlanRefusal::OtherEdition));
    assert_eq!(read_plan(OWN_PLAN), Ok(OWN_PLAN.len() as u64 - 3 * 40));
    assert_eq!(read_plan(FIRST_PLAN), Err(ReadFault::Count { offset: 52 }));
}

#[test]
fn the_limits_are_the_librarys() {
    let shared =
        [limits::MOST_REGIONS, limits::MOST_ZONES, limits::MOST_IN_SET, limits::MOST_REQUESTS, Region::WORDS, LONGEST_PLAN];
    for (which, limit) in (0..).zip(shared) {
        assert_eq!(raw::bank::layout(which), limit as u64, "number {which} of the layout");
    }
    assert_eq!(raw::bank::layout(shared.len() as u32), 0);
}
