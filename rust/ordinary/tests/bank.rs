//! Terminals with owners, by hand: the document's regions, of which A and C belong to zone 5 and B to zone 6.

mod desk_regions;

use ordinary::bank::{apply_alone, encode, owners_at, Config, ConfigFault, Plan, State, GIC_OWNER, LONGEST_BANK_PLAN};
use ordinary::limits::{MAX_IN_SET, MAX_REGIONS, MAX_REQUESTS, MAX_ZONES, PAGE};
use ordinary::{Guest, PlanRefusal, ReadFault, Record, Refusal, Region, Side, Table, Zone};

use desk_regions::{A, B, C, G};

fn owned_by(owners: &[u32]) -> Config {
    Config { plain: ordinary::Config { regions: vec![A, B, C, G], gic: 3 }, owners: owners.to_vec() }
}

fn bank() -> Config {
    owned_by(&[5, 6, 5, GIC_OWNER])
}

fn zone(id: u32, cpu: &[Region], iommu: &[Region]) -> Zone {
    Zone { id, cpu: cpu.to_vec(), iommu: iommu.to_vec() }
}

fn record(kind: u32, zone: u32, region: Region) -> Record {
    Record { kind, zone, region }
}

#[test]
fn owners_are_judged_before_regions() {
    let owner = |place: usize| Err(ConfigFault::Owner { place });
    assert_eq!(bank().check(), Ok(()));
    assert_eq!(owned_by(&[255, 0, 7, GIC_OWNER]).check(), Ok(()));
    assert_eq!(owned_by(&[5, 6, 256, GIC_OWNER]).check(), owner(2));
    assert_eq!(owned_by(&[5, GIC_OWNER, 5, GIC_OWNER]).check(), owner(1));
    assert_eq!(owned_by(&[5, 6, 5, 5]).check(), owner(3));
    assert_eq!(owned_by(&[256, 6, 5, 5]).check(), owner(0));
    let mut two_faults = owned_by(&[5, 256, 5, GIC_OWNER]);
    two_faults.plain.regions[0] = Region::new(1, 0, PAGE, 3);
    assert_eq!(two_faults.check(), owner(1));
    two_faults.plain.gic = 4;
    assert_eq!(two_faults.check(), Err(ConfigFault::Plain(ordinary::ConfigFault::GicPosition)));
}

#[test]
fn unused_owners_are_zero() {
    let words = bank().plain.to_words();
    let not_zero = |place: usize| Err(ConfigFault::Plain(ordinary::ConfigFault::NotZero { place }));
    let mut owners = bank().owner_words();
    assert_eq!(Config::from_words(&words, &owners), Ok(bank()));
    owners[MAX_REGIONS - 1] = GIC_OWNER;
    assert_eq!(Config::from_words(&words, &owners), not_zero(MAX_REGIONS - 1));
    let mut used = words;
    used[ordinary::layout::config_record(9)] = 1;
    assert_eq!(Config::from_words(&used, &owners), not_zero(9));
    owners[4] = 1;
    assert_eq!(Config::from_words(&used, &owners), not_zero(4));
}

#[test]
fn a_zone_gets_what_it_owns() {
    let mut table = Table { zones: vec![Zone::empty(5), Zone::empty(6)] };
    for (kind, zone, region, answer) in [
        (3, 5, A, Ok(())),
        (3, 6, A, Err(Refusal::NotConfigured)),
        (5, 5, B, Err(Refusal::NotConfigured)),
        (3, 5, G, Err(Refusal::NotConfigured)),
        (3, 5, C, Err(Refusal::GuestOverlap)),
        (5, 5, G, Ok(())),
        (5, 6, G, Ok(())),
        (2, 5, Region::ZERO, Err(Refusal::ZoneInUse)),
        (6, 5, A, Err(Refusal::NoRegion)),
        (4, 6, A, Err(Refusal::NoRegion)),
        (4, 5, A, Ok(())),
        (3, 5, A, Ok(())),
    ] {
        assert_eq!(bank().request(&mut table, &record(kind, zone, region)), answer, "{kind} {zone} {region:x?}");
    }
    assert_eq!(table.zones, [zone(5, &[A], &[G]), zone(6, &[], &[G])]);
    let found = bank().translate(&table, 5, Side::Cpu, Guest(A.v.0 + 1)).map(|found| (found.physical.0, found.remaining));
    assert_eq!(found, Ok((A.p.0 + 1, A.size - 1)));
}

#[test]
fn a_table_with_anothers_region_is_unsound() {
    for zones in [[zone(5, &[B], &[])], [zone(5, &[], &[B])], [zone(5, &[G], &[])], [zone(7, &[A], &[])]] {
        assert_eq!(bank().check_table(&Table { zones: zones.to_vec() }), Err(Refusal::UnsoundTable), "{zones:x?}");
    }
    assert_eq!(bank().check_table(&Table { zones: vec![zone(5, &[A], &[A, G]), zone(6, &[B], &[G])] }), Ok(()));
}

/// A terminal whose only region is the GIC.
fn least() -> State {
    let config = Config { plain: ordinary::Config { regions: vec![G], gic: 0 }, owners: vec![GIC_OWNER] };
    State { config, table: Table::default(), edition: 0 }
}

#[test]
fn the_owners_stand_behind_the_regions() {
    let plan = encode(&least(), &[record(1, 5, Region::ZERO)]);
    let at = owners_at(1);
    assert_eq!(plan[at..at + 8], [1, 0, 0, 0, 255, 255, 255, 255]);
    assert_eq!(apply_alone(&plan), Ok(1));
    let with = |place: usize, byte: u8| {
        let mut other = plan.clone();
        other[place] = byte;
        other
    };
    assert_eq!(least().apply(&with(at + 4, 5)), Err(PlanRefusal::OtherConfig));
    assert_eq!(apply_alone(&with(at + 4, 5)), Err(PlanRefusal::Own(Refusal::UnsoundConfig)));
    assert_eq!(apply_alone(&with(at, 2)), Err(ReadFault::Count(at).into()));
    assert_eq!(apply_alone(&plan[..at + 3]), Err(ReadFault::Cut(at).into()));
    assert_eq!(apply_alone(&plan[..at + 7]), Err(ReadFault::Cut(at + 4).into()));
    let plain = ordinary::State { config: least().config.plain, table: Table::default(), edition: 0 };
    assert_eq!(apply_alone(&ordinary::encode(&plain, &[])), Err(ReadFault::Count(at).into()));
}

#[test]
fn the_longest_plan() {
    let zones = vec![zone(0, &[A; MAX_IN_SET], &[A; MAX_IN_SET]); MAX_ZONES];
    let config = Config { plain: ordinary::Config { regions: vec![A; MAX_REGIONS], gic: 0 }, owners: vec![0; MAX_REGIONS] };
    let plan = encode(&State { config, table: Table { zones }, edition: 0 }, &[record(1, 9, Region::ZERO); MAX_REQUESTS]);
    assert_eq!((plan.len(), LONGEST_BANK_PLAN), (62_880, 62_880));
    assert!(Plan::read(&plan).is_ok());
}
