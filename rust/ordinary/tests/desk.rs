//! The desk examples of document 01 and its whole plan.

mod desk_regions;
mod request_kinds;

use ordinary::layout::LONGEST_LISTING;
use ordinary::limits::{GUEST_REACH, MAX_IN_SET, MAX_REGIONS, MAX_REQUESTS, MAX_ZONES, PAGE, PHYS_REACH};
use ordinary::{
    encode, Config, Guest, Phys, Plan, PlanRefusal, ReadFault, Record, Refusal, Region, Rights, Side, State, Table, Translated,
    Zone,
};

use desk_regions::{A, B, C, G};
use request_kinds::{ADD, CPU_INSERT, CPU_REMOVE, IOMMU_INSERT, IOMMU_REMOVE, REMOVE_ZONE};

/// The desk's configuration, and zones 5 and 6, empty.
struct Desk {
    config: Config,
    table: Table,
}

impl Desk {
    fn new() -> Desk {
        Desk::with(&[A, B, C, G], 3)
    }

    fn with(regions: &[Region], gic: usize) -> Desk {
        let config = Config { regions: regions.to_vec(), gic };
        Desk { config, table: Table { zones: vec![Zone::empty(5), Zone::empty(6)] } }
    }

    /// The number that a request answers. A refusal must leave the table as it was, and an accepted one keep it sound.
    fn ask(&mut self, kind: u32, zone: u32, region: Region) -> u32 {
        let before = self.table.clone();
        match self.table.request(&self.config, &Record { kind, zone, region }) {
            Ok(()) => {
                assert!(self.table.is_sound(&self.config));
                0
            }
            Err(refusal) => {
                assert_eq!(self.table, before);
                refusal.number()
            }
        }
    }

    fn zone(&mut self, kind: u32, zone: u32) -> u32 {
        self.ask(kind, zone, Region::ZERO)
    }
}

#[test]
fn zones() {
    let mut desk = Desk::new();
    assert_eq!(desk.zone(ADD, 5), 5);
    assert_eq!(desk.zone(ADD, 256), 4);
    assert_eq!(desk.zone(ADD, 255), 0);
    assert_eq!(desk.zone(REMOVE_ZONE, 7), 6);
}

#[test]
fn the_same_region_on_both_sides_and_in_another_zone() {
    let mut desk = Desk::new();
    assert_eq!(desk.ask(CPU_INSERT, 5, A), 0);
    assert_eq!(desk.ask(CPU_INSERT, 5, A), 13);
    assert_eq!(desk.ask(IOMMU_INSERT, 5, A), 0);
    assert_eq!(desk.ask(IOMMU_INSERT, 6, A), 14);
    assert_eq!(desk.ask(CPU_INSERT, 6, A), 14);
    assert_eq!(desk.ask(CPU_INSERT, 6, B), 0);
}

#[test]
fn the_gic() {
    let mut desk = Desk::new();
    assert_eq!(desk.ask(CPU_INSERT, 5, G), 12);
    assert_eq!(desk.ask(IOMMU_INSERT, 5, G), 0);
    assert_eq!(desk.ask(IOMMU_INSERT, 6, G), 0);
    assert_eq!(desk.ask(IOMMU_INSERT, 5, G), 13);
}

#[test]
fn guest_overlap() {
    let mut desk = Desk::new();
    assert_eq!(desk.ask(CPU_INSERT, 5, A), 0);
    assert_eq!(desk.ask(CPU_INSERT, 5, C), 15);
    assert_eq!(desk.ask(CPU_INSERT, 6, C), 0);
}

#[test]
fn a_zone_is_removed_when_it_holds_nothing() {
    let mut desk = Desk::new();
    assert_eq!(desk.ask(IOMMU_INSERT, 5, G), 0);
    assert_eq!(desk.zone(REMOVE_ZONE, 5), 8);
    assert_eq!(desk.ask(IOMMU_REMOVE, 5, G), 0);
    assert_eq!(desk.zone(REMOVE_ZONE, 5), 0);
    assert_eq!(desk.table.zones, [Zone::empty(6)]);
}

#[test]
fn a_zone_too_many() {
    let mut desk = Desk::new();
    let next = 10 + MAX_ZONES as u32 - 2;
    for id in 10..next {
        assert_eq!(desk.zone(ADD, id), 0);
    }
    assert_eq!(desk.zone(ADD, next), 7);
    assert_eq!(desk.zone(ADD, next - 1), 5);
    assert_eq!(desk.zone(REMOVE_ZONE, 12), 0);
    assert_eq!(desk.zone(ADD, next), 0);
    let ids = desk.table.zones.iter().map(|zone| zone.id);
    assert!(ids.eq([5, 6, 10, 11].into_iter().chain(13..=next)));
}

#[test]
fn form_reach_and_configured() {
    let mut desk = Desk::new();
    assert_eq!(desk.ask(CPU_INSERT, 5, Region { size: 0, ..A }), 9);
    assert_eq!(desk.ask(CPU_INSERT, 5, Region { size: 0x1800, ..A }), 9);
    assert_eq!(desk.ask(CPU_INSERT, 5, Region::new(0, PAGE.wrapping_neg(), 2 * PAGE, 3)), 10);
    assert_eq!(desk.ask(CPU_INSERT, 5, Region::new(0, PHYS_REACH - PAGE, PAGE, 3)), 11);
    assert_eq!(desk.ask(CPU_INSERT, 5, Region::new(0, PHYS_REACH, PAGE, 3)), 10);
    assert_eq!(desk.ask(CPU_INSERT, 5, Region::new(GUEST_REACH - PAGE, 0, PAGE, 3)), 11);
    assert_eq!(desk.ask(CPU_INSERT, 5, Region::new(GUEST_REACH, 0, PAGE, 3)), 10);
    assert_eq!(desk.ask(CPU_INSERT, 5, Region { size: 0x1000, ..A }), 11);
}

#[test]
fn ends_exactly_at_both_reaches() {
    let last = Region::new(GUEST_REACH - PAGE, PHYS_REACH - PAGE, PAGE, 3);
    let mut desk = Desk::with(&[last, G], 1);
    assert_eq!(desk.ask(CPU_INSERT, 5, last), 0);
    let answer = desk.table.translate(&desk.config, 5, Side::Cpu, Guest(GUEST_REACH - 1));
    assert_eq!(answer, Ok(Translated { physical: Phys(PHYS_REACH - 1), remaining: 1 }));
}

#[test]
fn numbers_that_make_no_request() {
    let mut desk = Desk::new();
    for kind in [0, 7, 0x101, u32::MAX] {
        assert_eq!(desk.zone(kind, 256), 3);
    }
    for region in [Region::new(1, 0, 0, 0), Region::new(0, 1, 0, 0), Region::new(0, 0, 1, 0), Region::new(0, 0, 0, 1)] {
        assert_eq!(desk.ask(ADD, 9, region), 3);
        assert_eq!(desk.ask(REMOVE_ZONE, 5, region), 3);
    }
}

#[test]
fn a_full_set() {
    let pages: Vec<Region> = (1..=18).map(|n| Region::new(n * PAGE, n * PAGE, PAGE, 3)).collect();
    let mut desk = Desk::with(&pages, 17);
    for page in &pages[..16] {
        assert_eq!(desk.ask(CPU_INSERT, 5, *page), 0);
    }
    assert_eq!(desk.ask(CPU_INSERT, 5, pages[16]), 16);
    assert_eq!(desk.ask(CPU_INSERT, 5, pages[0]), 13);
    assert_eq!(desk.ask(CPU_REMOVE, 5, pages[16]), 17);
    assert_eq!(desk.ask(CPU_REMOVE, 5, pages[3]), 0);
    assert_eq!(desk.ask(CPU_INSERT, 5, pages[16]), 0);
    let expected: Vec<Region> = pages[..17].iter().filter(|&&page| page != pages[3]).copied().collect();
    assert_eq!(desk.table.zones[0].cpu, expected);
}

#[test]
fn a_removal_asks_nothing_of_the_region() {
    let mut desk = Desk::new();
    assert_eq!(desk.ask(CPU_REMOVE, 5, Region::ZERO), 17);
    assert_eq!(desk.ask(IOMMU_REMOVE, 7, Region::ZERO), 6);
}

/// What the processor must not have, and what devices must not have.
#[test]
fn rights() {
    let with = |region: Region, rights: u64| Region { rights: Rights(rights), ..region };
    for (rights, cpu, iommu) in [(1, 0, 0), (2, 0, 0), (3, 0, 0), (4, 0, 19), (5, 0, 19), (6, 19, 19), (7, 19, 19)] {
        let region = with(A, rights);
        assert_eq!(Desk::with(&[region, G], 1).ask(CPU_INSERT, 5, region), cpu, "CPU, rights {rights}");
        assert_eq!(Desk::with(&[region, G], 1).ask(IOMMU_INSERT, 5, region), iommu, "IOMMU, rights {rights}");
    }
    for rights in [0, 8, 11, 1 << 63 | 3] {
        assert_eq!(Desk::new().ask(CPU_INSERT, 5, with(A, rights)), 9, "rights {rights}");
    }
}

#[test]
fn rights_in_the_order_of_the_numbers() {
    let with = |region: Region, rights: u64| Region { rights: Rights(rights), ..region };
    let gic = with(G, 7);
    let mut desk = Desk::with(&[A, gic], 1);
    assert_eq!(desk.ask(CPU_INSERT, 5, with(A, 7)), 11);
    assert_eq!(desk.ask(CPU_INSERT, 5, gic), 19);
    assert_eq!(desk.ask(IOMMU_INSERT, 5, gic), 19);
    assert_eq!(desk.ask(CPU_INSERT, 5, A), 0);
    assert_eq!(desk.ask(CPU_REMOVE, 5, with(A, 1)), 17);
    assert_eq!(desk.ask(CPU_INSERT, 5, with(A, 1)), 11);
}

#[test]
fn an_unsound_base() {
    let record = Record { kind: ADD, zone: 9, region: Region::ZERO };
    let mut desk = Desk::new();
    desk.config.gic = 4;
    assert_eq!(desk.table.request(&desk.config, &record), Err(Refusal::UnsoundConfig));
    let mut desk = Desk::new();
    desk.table.zones[1].id = 5;
    assert_eq!(desk.table.request(&desk.config, &record), Err(Refusal::UnsoundTable));
}

#[test]
fn sound_tables() {
    let zone = |id: u32, cpu: &[Region], iommu: &[Region]| Zone { id, cpu: cpu.to_vec(), iommu: iommu.to_vec() };
    let sound = |zones: &[Zone]| Table { zones: zones.to_vec() }.is_sound(&Desk::new().config);
    assert!(sound(&[]));
    assert!(sound(&[zone(5, &[A], &[A, G]), zone(6, &[B], &[G])]));
    assert!(!sound(&[zone(256, &[], &[])]));
    assert!(!sound(&[zone(5, &[], &[]), zone(5, &[], &[])]));
    assert!(!sound(&[zone(5, &[A, A], &[])]));
    assert!(!sound(&[zone(5, &[A, C], &[])]));
    assert!(!sound(&[zone(5, &[], &[G, G])]));
    assert!(!sound(&[zone(5, &[G], &[])]));
    assert!(!sound(&[zone(5, &[A], &[]), zone(6, &[], &[A])]));
    assert!(!sound(&[zone(5, &[Region { size: 0x1000, ..A }], &[])]));
    assert!(!sound(&[zone(5, &[Region { rights: Rights(1), ..A }], &[])]));
    assert!(!sound(&(0..=MAX_ZONES as u32).map(Zone::empty).collect::<Vec<_>>()));
}

#[test]
fn translation() {
    let mut desk = Desk::new();
    assert_eq!(desk.ask(CPU_INSERT, 5, A), 0);
    let ask = |zone, side, address| desk.table.translate(&desk.config, zone, side, Guest(address));
    let goes_on = |physical, remaining| Ok(Translated { physical: Phys(physical), remaining });
    assert_eq!(ask(5, Side::Cpu, 0x4000_0000), goes_on(0x8000_0000, 0x20_0000));
    assert_eq!(ask(5, Side::Cpu, 0x4000_0001), goes_on(0x8000_0001, 0x1f_ffff));
    assert_eq!(ask(5, Side::Cpu, 0x401f_ffff), goes_on(0x801f_ffff, 1));
    assert_eq!(ask(5, Side::Cpu, 0x4020_0000), Err(Refusal::NotCovered));
    assert_eq!(ask(5, Side::Cpu, 0x3fff_ffff), Err(Refusal::NotCovered));
    assert_eq!(ask(5, Side::Iommu, 0x4000_0000), Err(Refusal::NotCovered));
    assert_eq!(ask(7, Side::Cpu, 0x4000_0000), Err(Refusal::NoZone));
    assert_eq!(ask(256, Side::Cpu, 0x4000_0000), Err(Refusal::ZoneId));
}

/// The document's whole plan in the second format, without the 32 zero bytes of its request's region.
const WHOLE_PLAN: &str = "03000000 00000000 00000000 02000000 01000000 0000000800000000 0000000800000000 0000010000000000 \
                          0300000000000000 00000000 01000000 01000000 05000000";

/// The same as it stood in the first format, without its 24 zero bytes.
const FIRST_FORMAT: &str = "02000000 00000000 00000000 01000000 0000000800000000 0000000800000000 0000010000000000 \
                            00000000 01000000 01000000 05000000";

/// The bytes that the digits spell, and so many zeros.
fn spelled(digits: &str, zeros: usize) -> Vec<u8> {
    let digits: String = digits.split_whitespace().collect();
    let pairs = digits.as_bytes().chunks_exact(2).map(|pair| std::str::from_utf8(pair).expect("hexadecimal digits"));
    let mut bytes: Vec<u8> = pairs.map(|pair| u8::from_str_radix(pair, 16).expect("a byte")).collect();
    bytes.resize(bytes.len() + zeros, 0);
    bytes
}

fn whole_plan() -> Vec<u8> {
    spelled(WHOLE_PLAN, 32)
}

fn first_state() -> State {
    State { config: Config { regions: vec![G], gic: 0 }, table: Table::default(), edition: 0 }
}

#[test]
fn the_whole_plan_twice() {
    let plan = whole_plan();
    assert_eq!(plan.len(), 100);
    let mut state = first_state();
    assert_eq!(state.apply(&plan), Ok(1));
    assert_eq!((state.edition, &state.table.zones[..]), (1, &[Zone::empty(5)][..]));
    assert_eq!(state.apply(&plan), Err(PlanRefusal::OtherEdition));
}

#[test]
fn the_encoder_writes_the_whole_plan() {
    let add = Record { kind: ADD, zone: 5, region: Region::ZERO };
    assert_eq!(encode(&first_state(), &[add]), whole_plan());
}

#[test]
fn a_plan_cut_anywhere_ends_at_the_field_that_is_cut() {
    let plan = whole_plan();
    for length in 0..plan.len() {
        let field = [0, 4, 8, 12, 16, 20, 52, 56, 60].into_iter().rev().find(|&start| start <= length);
        assert_eq!(Plan::read(&plan[..length]).err(), field.map(ReadFault::Cut), "{length} bytes");
    }
}

#[test]
fn counts_out_of_range() {
    let [regions, zones, requests] = [MAX_REGIONS, MAX_ZONES, MAX_REQUESTS].map(|most| most as u32 + 1);
    for (offset, bad) in [(0, 2), (0, 4), (16, 0), (16, regions), (52, zones), (56, requests)] {
        let mut plan = whole_plan();
        plan[offset..offset + 4].copy_from_slice(&u32::to_le_bytes(bad));
        assert_eq!(Plan::read(&plan).err(), Some(ReadFault::Count(offset)), "{bad} at {offset}");
    }
}

#[test]
fn the_third_mark() {
    for bad in [0, 1, 3, 0x102, u32::MAX] {
        let mut plan = whole_plan();
        plan[12..16].copy_from_slice(&u32::to_le_bytes(bad));
        assert_eq!(Plan::read(&plan).err(), Some(ReadFault::Count(12)), "{bad}");
        plan[16..20].fill(0);
        assert_eq!(Plan::read(&plan).err(), Some(ReadFault::Count(12)), "{bad} before a count that is out of range");
        assert_eq!(Plan::read(&plan[..16]).err(), Some(ReadFault::Count(12)), "{bad} and nothing behind it");
    }
}

#[test]
fn a_plan_of_the_first_format() {
    let plan = spelled(FIRST_FORMAT, 24);
    assert_eq!(plan.len(), 80);
    let mut state = first_state();
    assert_eq!(state.apply(&plan), Err(PlanRefusal::Read(ReadFault::Count(0))));
    assert_eq!(state, first_state());
}

#[test]
fn bytes_after_the_plan() {
    let mut plan = whole_plan();
    plan.push(0);
    assert_eq!(Plan::read(&plan).err(), Some(ReadFault::Trailing(100)));
}

#[test]
fn the_least_and_the_longest_plan() {
    assert_eq!(encode(&first_state(), &[]).len(), 60);
    let zone = Zone { id: 0, cpu: vec![A; MAX_IN_SET], iommu: vec![A; MAX_IN_SET] };
    let config = Config { regions: vec![A; MAX_REGIONS], gic: 0 };
    let full = State { config, table: Table { zones: vec![zone; MAX_ZONES] }, edition: 0 };
    let add = Record { kind: ADD, zone: 5, region: Region::ZERO };
    let longest = encode(&full, &[add; MAX_REQUESTS]);
    assert_eq!(longest.len(), 61_852);
    assert!(Plan::read(&longest).is_ok());
}

#[test]
fn the_numbers_of_a_plan_in_order() {
    let base = first_state();
    let plan = encode(&base, &[]);
    let other_config = State { config: Config { regions: vec![A], gic: 0 }, edition: 1, ..base.clone() };
    assert_eq!(other_config.clone().apply(&plan), Err(PlanRefusal::OtherConfig));
    let last = State { edition: u32::MAX, ..base.clone() };
    assert_eq!(last.clone().apply(&plan), Err(PlanRefusal::OtherEdition));
    let other_zones = State { table: Table { zones: vec![Zone::empty(1)] }, ..last.clone() };
    assert_eq!(other_zones.clone().apply(&encode(&last, &[])), Err(PlanRefusal::LastEdition));
    let other_zones = State { edition: 0, ..other_zones };
    assert_eq!(other_zones.clone().apply(&plan), Err(PlanRefusal::OtherZones));
    let unsound = State { config: Config { regions: vec![], gic: 0 }, ..base };
    assert_eq!(unsound.clone().apply(&[]), Err(PlanRefusal::Own(Refusal::UnsoundConfig)));
}

#[test]
fn the_first_refused_request_undoes_the_plan() {
    let mut state = first_state();
    let add = |zone| Record { kind: ADD, zone, region: Region::ZERO };
    let plan = encode(&state, &[add(1), add(2), add(1), add(256)]);
    let refusal = PlanRefusal::Request { index: 2, refusal: Refusal::ZoneThere };
    assert_eq!(state.apply(&plan), Err(refusal));
    assert_eq!((refusal.number(), refusal.found()), (27, (2, 5)));
    assert_eq!(state, first_state());
}

#[test]
fn an_empty_plan_raises_the_edition() {
    let mut state = first_state();
    let plan = encode(&state, &[]);
    assert_eq!(state.apply(&plan), Ok(0));
    assert_eq!(state, State { edition: 1, ..first_state() });
}

#[test]
fn a_repeat_that_fits_the_base_table_is_stopped_by_the_edition() {
    let mut state = first_state();
    let add = encode(&state, &[Record { kind: ADD, zone: 5, region: Region::ZERO }]);
    assert_eq!(state.apply(&add), Ok(1));
    let back = encode(&state, &[Record { kind: REMOVE_ZONE, zone: 5, region: Region::ZERO }]);
    assert_eq!(state.apply(&back), Ok(1));
    assert_eq!(state.table, Table::default());
    assert_eq!(state.apply(&add), Err(PlanRefusal::OtherEdition));
}

#[test]
fn the_listing_has_the_documents_line() {
    let low = Region::new(GUEST_REACH - PAGE, 0, PAGE, 5);
    let zone = |id, cpu: &[Region], iommu: &[Region]| Zone { id, cpu: cpu.to_vec(), iommu: iommu.to_vec() };
    let table = Table { zones: vec![zone(5, &[A], &[G]), Zone::empty(6), zone(255, &[low], &[])] };
    let lines = [
        "5 CPU 0x0000000040000000 0x0000000080000000 0x0000000000200000 3 262144",
        "5 IOMMU 0x0000000008000000 0x0000000008000000 0x0000000000010000 3 0",
        "255 CPU 0x000000fffffff000 0x0000000000000000 0x0000000000001000 5 -268435455",
    ];
    assert_eq!(table.listing().lines().collect::<Vec<_>>(), lines);
    assert_eq!(LONGEST_LISTING, 81920);
}
