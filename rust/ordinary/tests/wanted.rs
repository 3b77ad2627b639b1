//! Requests worked out from two tables: the lists by hand, where they lead, and what is refused.

mod desk_regions;
mod request_kinds;

use ordinary::layout::REQUEST_BYTES;
use ordinary::limits::{MAX_REGIONS, MAX_REQUESTS, MAX_ZONES, PAGE};
use ordinary::{encode, Config, ListRefusal, Record, Refusal, Region, State, Table, Zone};

use desk_regions::{A, B, C, G};
use request_kinds::{ADD, CPU_INSERT, CPU_REMOVE, IOMMU_INSERT, IOMMU_REMOVE, REMOVE_ZONE};

fn desk() -> Config {
    Config { regions: vec![A, B, C, G], gic: 3 }
}

fn zone(id: u32, cpu: &[Region], iommu: &[Region]) -> Zone {
    Zone { id, cpu: cpu.to_vec(), iommu: iommu.to_vec() }
}

fn table(zones: &[Zone]) -> Table {
    Table { zones: zones.to_vec() }
}

/// Requests by kind, zone and region.
fn requests(list: &[(u32, u32, Region)]) -> Vec<Record> {
    list.iter().map(|&(kind, zone, region)| Record { kind, zone, region }).collect()
}

/// Zones by id, and each set by its regions' numbers, so that only order is lost.
fn sorted(table: &Table) -> Table {
    let mut zones = table.zones.clone();
    zones.sort_by_key(|zone| zone.id);
    for zone in &mut zones {
        zone.cpu.sort_by_key(Region::numbers);
        zone.iommu.sort_by_key(Region::numbers);
    }
    Table { zones }
}

/// The list from one table to the other. Each of its requests must be accepted in turn, alone and as a plan, and the table
/// then have the wanted zones and sets, from which nothing is left to do.
fn list(config: &Config, from: &Table, to: &Table) -> Vec<Record> {
    let list = from.requests_to(config, to).expect("a list");
    let mut end = from.clone();
    for request in &list {
        assert_eq!(end.request(config, request), Ok(()), "{request:?}");
    }
    assert_eq!(sorted(&end), sorted(to));
    assert_eq!(end.requests_to(config, to), Ok(vec![]));

    let mut terminal = State { config: config.clone(), table: from.clone(), edition: 7 };
    let plan = encode(&terminal, &list);
    assert_eq!(terminal.apply(&plan), Ok(list.len()));
    assert_eq!((terminal.table, terminal.edition), (end, 8));
    list
}

#[test]
fn equal_tables() {
    let tables = [table(&[]), table(&[zone(5, &[], &[])]), table(&[zone(5, &[A], &[A, G]), zone(6, &[B], &[G])])];
    for held in &tables {
        assert_eq!(list(&desk(), held, held), []);
    }
}

#[test]
fn another_order_is_no_difference() {
    let from = table(&[zone(5, &[A], &[A, G]), zone(6, &[B], &[G])]);
    let to = table(&[zone(6, &[B], &[G]), zone(5, &[A], &[G, A])]);
    assert_eq!(list(&desk(), &from, &to), []);
}

#[test]
fn nothing_in_common() {
    let from = table(&[zone(5, &[A], &[G]), zone(6, &[], &[])]);
    let to = table(&[zone(8, &[B], &[]), zone(7, &[], &[C])]);
    let expected = requests(&[
        (CPU_REMOVE, 5, A),
        (IOMMU_REMOVE, 5, G),
        (REMOVE_ZONE, 5, Region::ZERO),
        (REMOVE_ZONE, 6, Region::ZERO),
        (ADD, 8, Region::ZERO),
        (ADD, 7, Region::ZERO),
        (CPU_INSERT, 8, B),
        (IOMMU_INSERT, 7, C),
    ]);
    assert_eq!(list(&desk(), &from, &to), expected);
}

#[test]
fn one_region_moves_to_another_zone() {
    let from = table(&[zone(5, &[A], &[G]), zone(6, &[], &[G])]);
    let to = table(&[zone(5, &[], &[G]), zone(6, &[A], &[G])]);
    assert_eq!(list(&desk(), &from, &to), requests(&[(CPU_REMOVE, 5, A), (CPU_INSERT, 6, A)]));
}

#[test]
fn one_region_moves_to_the_other_side() {
    let from = table(&[zone(5, &[A], &[G])]);
    let to = table(&[zone(5, &[], &[G, A])]);
    assert_eq!(list(&desk(), &from, &to), requests(&[(CPU_REMOVE, 5, A), (IOMMU_INSERT, 5, A)]));
}

#[test]
fn two_zones_exchange_what_they_hold() {
    let from = table(&[zone(5, &[A], &[G, A]), zone(6, &[B], &[])]);
    let to = table(&[zone(5, &[B], &[]), zone(6, &[A], &[G, A])]);
    let expected = requests(&[
        (CPU_REMOVE, 5, A),
        (IOMMU_REMOVE, 5, G),
        (IOMMU_REMOVE, 5, A),
        (CPU_REMOVE, 6, B),
        (CPU_INSERT, 5, B),
        (CPU_INSERT, 6, A),
        (IOMMU_INSERT, 6, G),
        (IOMMU_INSERT, 6, A),
    ]);
    assert_eq!(list(&desk(), &from, &to), expected);
}

/// A goes from 5 to the new zone 9, C from 7, which goes, to 5; and B changes sides in 6.
#[test]
fn all_of_it_at_once() {
    let from = table(&[zone(5, &[A], &[A, G]), zone(6, &[B], &[G]), zone(7, &[C], &[])]);
    let to = table(&[zone(9, &[A], &[]), zone(6, &[], &[B, G]), zone(5, &[C], &[G])]);
    let expected = requests(&[
        (CPU_REMOVE, 5, A),
        (IOMMU_REMOVE, 5, A),
        (CPU_REMOVE, 6, B),
        (CPU_REMOVE, 7, C),
        (REMOVE_ZONE, 7, Region::ZERO),
        (ADD, 9, Region::ZERO),
        (CPU_INSERT, 9, A),
        (IOMMU_INSERT, 6, B),
        (CPU_INSERT, 5, C),
    ]);
    assert_eq!(list(&desk(), &from, &to), expected);
}

/// A full configuration, whose GIC is the last region.
fn full() -> Config {
    let region = |at: u64| Region::new(at * PAGE, (1 << 32) + at * PAGE, PAGE, 3);
    Config { regions: (0..MAX_REGIONS as u64).map(region).collect(), gic: MAX_REGIONS - 1 }
}

/// All zones, with ids from the first on, that hold so many regions: one after another for the processor, then once more from
/// the beginning for devices.
fn spread(config: &Config, first: u32, held: usize) -> Table {
    let mut zones: Vec<Zone> = (0..MAX_ZONES as u32).map(|id| Zone::empty(first + id)).collect();
    let private = &config.regions[..config.gic];
    for (at, region) in private.iter().enumerate() {
        let zone = &mut zones[at % MAX_ZONES];
        if at < held {
            zone.cpu.push(*region);
        }
        if at + private.len() < held {
            zone.iommu.push(*region);
        }
    }
    Table { zones }
}

#[test]
fn a_list_that_a_plan_has_just_room_for_and_one_request_more() {
    let config = full();
    let held = (MAX_REQUESTS - 2 * MAX_ZONES) / 2;
    let from = spread(&config, 0, held);
    assert_eq!(list(&config, &from, &spread(&config, 100, held)).len(), MAX_REQUESTS);

    let to = spread(&config, 100, held + 1);
    assert_eq!(from.requests_to(&config, &to), Err(ListRefusal::TooMany));
    assert_eq!(ListRefusal::TooMany.number(), 29);
    assert_eq!(list(&config, &spread(&config, 100, 0), &to).len(), held + 1);
}

#[test]
fn an_unsound_configuration_comes_first_and_either_table_before_the_length() {
    let config = full();
    let many = spread(&config, 0, 2 * (MAX_REGIONS - 1));
    let more = spread(&config, 100, 2 * (MAX_REGIONS - 1));
    let twice = table(&[zone(5, &[], &[]), zone(5, &[], &[])]);
    assert_eq!(many.requests_to(&config, &more), Err(ListRefusal::TooMany));

    let unsound = Config { gic: MAX_REGIONS, ..config.clone() };
    let refused = |number| Err(ListRefusal::Unsound(number));
    assert_eq!(twice.requests_to(&unsound, &more), refused(Refusal::UnsoundConfig));
    assert_eq!(twice.requests_to(&config, &more), refused(Refusal::UnsoundTable));
    assert_eq!(many.requests_to(&config, &twice), refused(Refusal::UnsoundTable));
}

#[test]
fn in_a_buffer() {
    let from = table(&[zone(7, &[B], &[]), zone(6, &[], &[])]);
    let to = table(&[zone(6, &[], &[G])]);
    let length = 3 * REQUEST_BYTES;
    let mut expected = Vec::new();
    for (kind, zone, region) in [(CPU_REMOVE, 7_u32, B), (REMOVE_ZONE, 7, Region::ZERO), (IOMMU_INSERT, 6, G)] {
        expected.extend(kind.to_le_bytes());
        expected.extend(zone.to_le_bytes());
        region.numbers().iter().for_each(|number| expected.extend(number.to_le_bytes()));
    }

    let mut buffer = vec![0xEE; length + 2];
    assert_eq!(from.write_requests_to(&desk(), &to, &mut buffer), Ok(3));
    assert_eq!(buffer[..length], expected);
    assert_eq!(buffer[length..], [0xEE; 2]);

    let mut exact = vec![0xEE; length];
    assert_eq!(from.write_requests_to(&desk(), &to, &mut exact), Ok(3));
    assert_eq!(exact, expected);
    assert_eq!(to.write_requests_to(&desk(), &to, &mut []), Ok(0));
}

#[test]
fn a_buffer_that_is_too_short_and_what_comes_before_it() {
    let from = table(&[zone(5, &[A], &[])]);
    let to = table(&[zone(5, &[], &[])]);
    let mut short = vec![0xEE; REQUEST_BYTES - 1];
    assert_eq!(from.write_requests_to(&desk(), &to, &mut short), Err(ListRefusal::Buffer));
    assert_eq!(short, [0xEE; REQUEST_BYTES - 1]);
    assert_eq!(ListRefusal::Buffer.number(), 28);

    let config = full();
    let many = spread(&config, 0, 2 * (MAX_REGIONS - 1));
    let more = spread(&config, 100, 2 * (MAX_REGIONS - 1));
    assert_eq!(many.write_requests_to(&config, &more, &mut short), Err(ListRefusal::TooMany));
    assert_eq!(short, [0xEE; REQUEST_BYTES - 1]);
}

/// Numbers that look drawn, the same in every run.
struct Drawn(u64);

impl Drawn {
    fn below(&mut self, end: usize) -> usize {
        self.0 = self.0.wrapping_mul(6_364_136_223_846_793_005).wrapping_add(1_442_695_040_888_963_407);
        (self.0 >> 33) as usize % end
    }

    /// A sound table, by requests of which the refused ones change nothing.
    fn table(&mut self, config: &Config) -> Table {
        let mut table = Table::default();
        for _ in 0..self.below(80) {
            let region = config.regions[self.below(config.regions.len())];
            let kind = [ADD, CPU_INSERT, CPU_INSERT, IOMMU_INSERT, IOMMU_INSERT][self.below(5)];
            let region = if kind == ADD { Region::ZERO } else { region };
            let _ = table.request(config, &Record { kind, zone: self.below(6) as u32, region });
        }
        table
    }

    fn shuffle<T>(&mut self, items: &mut [T]) {
        for end in (1..items.len()).rev() {
            items.swap(end, self.below(end + 1));
        }
    }
}

#[test]
fn drawn_pairs() {
    let region = |at: u64| Region::new((at % 5) * PAGE, (1 << 32) + at * PAGE, PAGE, 3);
    let config = Config { regions: (0..12).map(region).collect(), gic: 4 };
    let mut drawn = Drawn(11);
    let mut longest = 0;
    for _ in 0..2000 {
        let (from, to) = (drawn.table(&config), drawn.table(&config));
        let there = list(&config, &from, &to).len();
        assert_eq!(list(&config, &to, &from).len(), there, "as many lead back");
        longest = longest.max(there);

        let mut other = to.clone();
        drawn.shuffle(&mut other.zones);
        for zone in &mut other.zones {
            drawn.shuffle(&mut zone.cpu);
            drawn.shuffle(&mut zone.iommu);
        }
        assert_eq!(list(&config, &to, &other), []);
        assert_eq!(list(&config, &from, &other).len(), there);
    }
    assert!(longest > 20, "{longest}");
}
