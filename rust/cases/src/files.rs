//! Plan files for the program `apply`, each with its answer: every number, and every way in which a file can be damaged.

use ordinary::layout::REQUEST_BYTES;
use ordinary::limits::{GUEST_REACH, MAX_ID, MAX_IN_SET, MAX_REGIONS, MAX_REQUESTS, MAX_ZONES, PAGE, PHYS_REACH};
use ordinary::{apply_alone, bank, Config, Record, Region, State, Table, Zone};

use crate::case::{Case, Outcome};
use crate::fields::{Field, Plan};
use crate::given::{of_region, of_zone, with_p, with_rights, with_size, with_v, zone};
use crate::given::{A, ADD_ZONE, B, C, CPU_INSERT, CPU_REMOVE, G, IOMMU_INSERT, IOMMU_REMOVE, REMOVE_ZONE};
use crate::rng::Rng;
use crate::Machine;

pub const LAST_EDITION: u32 = u32::MAX;

/// The last page of 64-bit addresses.
const LAST_PAGE: u64 = PAGE.wrapping_neg();

// The document's lengths.
const LEAST_LENGTH: usize = 60;
const MOST_LENGTH: usize = 61_852;

/// A region whose numbers need more than 32 bits, beside the desk's.
pub const H: Region = Region::new(0x1_0000_0000, 0x12_3456_7000, 0x5000, 3);

/// A region that no zone may hold: it may be written and executed.
pub const X: Region = Region::new(0x6000_0000, 0xC000_0000, PAGE, 6);

/// A plan file, with what the program prints of it by the ordinary implementation and, where it is known without that, by hand.
#[derive(Clone, Debug)]
pub struct PlanFile {
    pub machine: Machine,
    pub name: String,
    pub bytes: Vec<u8>,
    pub answer: Outcome,
    pub known: Option<Outcome>,
}

impl PlanFile {
    /// What is wrong, if the ordinary implementation does not answer what was worked out by hand.
    pub fn fault(&self) -> Option<String> {
        let known = self.known.filter(|&known| known != self.answer)?;
        Some(format!("{}: {known} by hand, {} by rust/ordinary", self.name, self.answer))
    }

    /// The question that has the same answer: what the bytes read to, or what they do at their own base.
    pub fn case(&self) -> Case {
        let bytes = self.bytes.clone();
        match self.machine {
            Machine::First => match ordinary::Plan::read(&self.bytes) {
                Err(_) => Case::read(bytes),
                Ok(plan) => Case::apply(plan.config.to_words(), plan.table.to_words(), plan.edition, bytes),
            },
            Machine::Bank => match bank::Plan::read(&self.bytes) {
                Err(_) => Case::read(bytes).owned([0; MAX_REGIONS]),
                Ok(plan) => Case::apply(plan.config.plain.to_words(), plan.table.to_words(), plan.edition, bytes)
                    .owned(plan.config.owner_words()),
            },
        }
    }

    /// The answer was worked out by hand.
    pub fn known(&mut self, number: u32, place: usize, inner: u32) {
        self.known = Some(Outcome { number, place, inner });
    }

    /// The same where there is no inner number.
    pub fn is(&mut self, number: u32, place: usize) {
        self.known(number, place, 0);
    }

    /// The same for a request that is refused.
    pub fn refused(&mut self, place: usize, inner: u32) {
        self.known(27, place, inner);
    }
}

/// Files for the program of one machine.
pub struct PlanFiles {
    machine: Machine,
    pub all: Vec<PlanFile>,
}

impl PlanFiles {
    pub fn new(machine: Machine) -> PlanFiles {
        PlanFiles { machine, all: Vec::new() }
    }

    pub fn add(&mut self, name: impl Into<String>, bytes: Vec<u8>) -> &mut PlanFile {
        let apply = match self.machine {
            Machine::First => apply_alone,
            Machine::Bank => bank::apply_alone,
        };
        let answer = apply(&bytes).into();
        self.all.push(PlanFile { machine: self.machine, name: name.into(), bytes, answer, known: None });
        self.all.last_mut().expect("the file just added")
    }
}

pub fn add(files: &mut PlanFiles, rng: &mut Rng) {
    accepted_plans(files);
    lengths(files);
    formats(files);
    cuts(files);
    counts(files);
    too_many(files);
    after_the_end(files);
    unsound_configurations(files);
    unsound_zones(files);
    editions(files);
    refusals_at_places(files);
    requests_as_bytes(files);
    requests_in_turn(files);
    two_faults(files);
    all_later_faults(files);
    other_byte_order(files);
    flipped_bits(files, rng, &rich().bytes(), &rich().fields());
}

// ---- the plans that the files are made from

/// Regions of a page each, apart from one another and from the others.
pub fn page(k: usize) -> Region {
    let offset = k as u64 * 2 * PAGE;
    Region::new(0x5000_0000 + offset, 0xA000_0000 + offset, PAGE, 3)
}

fn pages(positions: std::ops::Range<usize>) -> Vec<Region> {
    positions.map(page).collect()
}

/// A plan with all there is to damage: three zones, both sets in use, and a request of each kind.
pub fn rich() -> Plan {
    let config = Config { regions: vec![A, B, C, G, H, X], gic: 3 };
    let zones = vec![zone(9, &[A, H], &[A, G]), zone(200, &[B], &[G]), zone(0, &[], &[])];
    let requests = vec![
        of_zone(ADD_ZONE, 77),
        of_region(CPU_INSERT, 77, C),
        of_region(IOMMU_INSERT, 77, C),
        of_region(CPU_REMOVE, 9, H),
        of_region(IOMMU_REMOVE, 200, G),
        of_zone(REMOVE_ZONE, 0),
    ];
    Plan { base: State { config, table: Table { zones }, edition: 41 }, requests }
}

/// The rich plan's regions with another at a position.
pub fn rich_regions_with(at: usize, region: Region) -> Vec<Region> {
    let mut regions = rich().base.config.regions;
    regions[at] = region;
    regions
}

/// The rich plan's zones: 9, 200 and 0.
pub fn rich_zones() -> [Zone; 3] {
    rich().base.table.zones.try_into().expect("three zones")
}

pub fn least() -> Plan {
    let config = Config { regions: vec![G], gic: 0 };
    Plan { base: State { config, table: Table::default(), edition: 0 }, requests: Vec::new() }
}

/// Document 01's whole plan.
pub fn first() -> Plan {
    least().with_requests(&[of_zone(ADD_ZONE, 5)])
}

/// All zones in use.
pub fn all_zones() -> Plan {
    let mut zones = rich_zones().to_vec();
    zones.extend((1..9).chain(10..).take(MAX_ZONES - 3).map(Zone::empty));
    rich().with_zones(&zones)
}

/// A full set.
fn full() -> Plan {
    let regions = [rich().base.config.regions, pages(0..MAX_IN_SET + 1)].concat();
    rich().with_regions(&regions).with_zones(&[zone(0, &pages(0..MAX_IN_SET), &[])])
}

/// Requests that are accepted at the rich plan's base, with all zones in use and with a full set.
pub fn in_and_out() -> [Record; 2] {
    [of_region(IOMMU_INSERT, 0, C), of_region(IOMMU_REMOVE, 0, C)]
}

/// As many regions as there can be: the GIC and others.
fn all_regions() -> Vec<Region> {
    [vec![G], pages(0..MAX_REGIONS - 1)].concat()
}

/// Every count at its limit. There are too few regions to fill all CPU sets without two zones that share some: 2.
pub fn longest() -> Plan {
    let held = |z: usize| -> Vec<Region> { (0..MAX_IN_SET).map(|k| page((MAX_IN_SET * z + k) % (MAX_REGIONS - 1))).collect() };
    let zones: Vec<Zone> = (0..MAX_ZONES).map(|z| zone(z as u32, &held(z), &held(z))).collect();
    let requests: Vec<Record> = (0..MAX_REQUESTS as u32).map(|n| of_zone(ADD_ZONE, n % 256)).collect();
    least().with_edition(1).with_regions(&all_regions()).with_zones(&zones).with_requests(&requests)
}

/// All regions, each but the GIC on both sides of one zone, the GIC on the IOMMU side of all; every request is accepted.
pub fn longest_sound() -> Plan {
    let others = pages(0..MAX_REGIONS - 1);
    let shares: Vec<&[Region]> = others.chunks(others.len().div_ceil(MAX_ZONES)).collect();
    let zones: Vec<Zone> = shares.iter().zip(0..).map(|(own, id)| zone(id, own, &[*own, &[G]].concat())).collect();
    let mut requests = Vec::new();
    for n in 0..MAX_REQUESTS / 4 {
        let z = n % MAX_ZONES;
        let region = shares[z][n / MAX_ZONES % shares[z].len()];
        let kinds = [CPU_REMOVE, IOMMU_REMOVE, IOMMU_INSERT, CPU_INSERT];
        requests.extend(kinds.map(|kind| of_region(kind, z as u32, region)));
    }
    least().with_edition(1).with_regions(&all_regions()).with_zones(&zones).with_requests(&requests)
}

// ---- whole plans and their lengths

fn accepted_plans(files: &mut PlanFiles) {
    files.add("first-of-document-01", first().bytes()).is(0, 1);
    files.add("rich", rich().bytes()).is(0, 6);
    files.add("rich-without-requests", rich().with_requests(&[]).bytes()).is(0, 0);
}

fn lengths(files: &mut PlanFiles) {
    let (least, most, sound) = (least().bytes(), longest().bytes(), longest_sound());
    files.add("empty-file", Vec::new()).is(20, 0);
    files.add("least", least).is(0, 0);
    files.add("longest", most.clone()).is(2, 0);
    files.add("longest-and-one-byte", [&most[..], &[0]].concat()).is(22, MOST_LENGTH);
    files.add("longest-and-many-bytes", [&most[..], &most[..20_000]].concat()).is(22, MOST_LENGTH);
    files.add("longest-without-its-last-byte", most[..most.len() - 1].to_vec()).is(20, MOST_LENGTH - REQUEST_BYTES);
    files.add("longest-sound", sound.bytes()).is(0, MAX_REQUESTS);
    let every_region_held = sound.clone().with_requests(&[]);
    files.add(format!("{MAX_ZONES}-zones-that-hold-all-{MAX_REGIONS}-regions"), every_region_held.bytes()).is(0, 0);
    let last = MAX_REQUESTS - 1;
    let last_refused = [&sound.requests[..last], &[of_zone(ADD_ZONE, MAX_ZONES as u32)]].concat();
    files.add("longest-sound-last-request-refused", sound.with_requests(&last_refused).bytes()).refused(last, 7);
}

// ---- formats

/// Document 01's whole plan as it stood in the first format; and another third mark before a regions' count that is out of range too.
fn formats(files: &mut PlanFiles) {
    let second = first().bytes();
    let region = first().field("region-0");
    let request = first().field("request-0");
    let three_numbers = |bytes: &[u8]| bytes[..bytes.len() - 8].to_vec();
    let of_first = [
        &[2, 0, 0, 0],
        &second[4..12],
        &second[16..region.start],
        &three_numbers(&second[region.start..region.end]),
        &second[region.end..request.start],
        &three_numbers(&second[request.start..]),
    ];
    files.add("first-of-document-01-in-the-first-format", of_first.concat()).is(21, 0);
    let no_regions = with_number(&second, 16, 0);
    files.add("third-mark-of-a-log", with_number(&second, 12, 3)).is(21, 12);
    files.add("third-mark-and-no-regions", with_number(&no_regions, 12, 1)).is(21, 12);
    files.add("no-regions", no_regions).is(21, 16);
}

// ---- cut files

/// One count of each kind in the rich plan, and the third mark.
const COUNTS: [&str; 6] = ["marks-count", "third-mark", "regions-count", "zones-count", "zone-1-cpu-count", "requests-count"];

/// Before each field of the rich plan, and before the field's last byte: 20 at the field's offset.
fn cuts(files: &mut PlanFiles) {
    let (plan, bytes) = (rich(), rich().bytes());
    for Field { name, start, end, .. } in plan.fields() {
        files.add(format!("cut-before-{name}"), bytes[..start].to_vec()).is(20, start);
        files.add(format!("cut-in-{name}"), bytes[..end - 1].to_vec()).is(20, start);
    }
    for (name, numbers) in [
        ("region-2", &[("v", 8), ("p", 8), ("size", 8)][..]),
        ("request-3", &[("kind", 4), ("zone-id", 4), ("v", 8), ("p", 8), ("size", 8)]),
    ] {
        let start = plan.field(name).start;
        let mut end = start;
        for (number, length) in numbers {
            end += length;
            files.add(format!("cut-after-{number}-of-{name}"), bytes[..end].to_vec()).is(20, start);
        }
    }
    for name in COUNTS {
        let start = plan.field(name).start;
        files.add(format!("cut-in-{name}-all-bits-set"), [&bytes[..start], &[0xff; 3]].concat()).is(20, start);
    }
}

// ---- counts

/// The bytes with another number in a field of four bytes.
pub fn with_number(bytes: &[u8], start: usize, number: u32) -> Vec<u8> {
    [&bytes[..start], &number.to_le_bytes(), &bytes[start + 4..]].concat()
}

/// Each count of the rich plan made another number. Out of range it is 21 at its offset, whatever follows.
fn counts(files: &mut PlanFiles) {
    let (plan, bytes) = (rich(), rich().bytes());
    for Field { name, start, limits, .. } in plan.fields() {
        let Some(limits) = limits else { continue };
        let count = u32::from_le_bytes(bytes[start..start + 4].try_into().expect("four bytes"));
        for (what, other) in other_counts(count, *limits.start(), *limits.end()) {
            let file = files.add(format!("{name}-{what}"), with_number(&bytes, start, other));
            if !limits.contains(&other) {
                file.is(21, start);
            }
        }
    }
    for name in COUNTS {
        let Field { start, end, limits, .. } = plan.field(name);
        let past = limits.expect("a count").end() + 1;
        files.add(format!("{name}-past-its-limit-and-cut-after-it"), with_number(&bytes[..end], start, past)).is(21, start);
        let high = [&bytes[..end - 1], &[1], &bytes[end..]].concat();
        files.add(format!("{name}-with-its-highest-byte-set"), high).is(21, start);
    }
}

/// By what they show. A number that shows two things has the name of the first.
fn other_counts(count: u32, least: u32, most: u32) -> Vec<(&'static str, u32)> {
    let mut shown: Vec<(&str, u32)> = Vec::new();
    for (what, other) in [
        ("past-its-limit", Some(most + 1)),
        ("below-its-least", least.checked_sub(1)),
        ("one-more", Some(count + 1)),
        ("one-less", count.checked_sub(1)),
        ("highest", Some(u32::MAX)),
    ] {
        if let Some(other) = other.filter(|other| shown.iter().all(|(_, number)| number != other)) {
            shown.push((what, other));
        }
    }
    shown
}

/// As many elements as the limit allows, and one more, of regions and zones one fewer too; all of them are there.
fn too_many(files: &mut PlanFiles) {
    let regions_at = least().field("regions-count").start;
    for (count, number, place) in [(MAX_REGIONS - 1, 0, 0), (MAX_REGIONS, 0, 0), (MAX_REGIONS + 1, 21, regions_at)] {
        let regions = [vec![G], pages(0..count - 1)].concat();
        files.add(format!("{count}-regions"), least().with_regions(&regions).bytes()).is(number, place);
    }
    let zones_at = least().field("zones-count").start;
    for (count, number, place) in [(MAX_ZONES - 1, 0, 0), (MAX_ZONES, 0, 0), (MAX_ZONES + 1, 21, zones_at)] {
        let zones: Vec<Zone> = (0..count as u32).map(Zone::empty).collect();
        files.add(format!("{count}-zones"), least().with_zones(&zones).bytes()).is(number, place);
    }
    let wide = least().with_regions(&all_regions());
    for (count, is_in_range) in [(MAX_IN_SET, true), (MAX_IN_SET + 1, false)] {
        let held = pages(0..count);
        for (side, zones) in [("cpu", [zone(5, &held, &[])]), ("iommu", [zone(5, &[], &held)])] {
            let plan = wide.clone().with_zones(&zones);
            let at = plan.field(&format!("zone-0-{side}-count")).start;
            let (number, place) = if is_in_range { (0, 0) } else { (21, at) };
            files.add(format!("{count}-{side}-regions"), plan.bytes()).is(number, place);
        }
    }
    let turns = [of_zone(ADD_ZONE, 5), of_zone(REMOVE_ZONE, 5)].repeat(512);
    let many = least().with_requests(&[&turns[..], &[of_zone(ADD_ZONE, 5)]].concat());
    files.add("1025-requests", many.bytes()).is(21, many.field("requests-count").start);
}

fn after_the_end(files: &mut PlanFiles) {
    let (rich, least) = (rich().bytes(), least().bytes());
    for (name, more) in [
        ("one-byte", &[0][..]),
        ("four-bytes", &[0; 4]),
        ("a-request", &rich[rich.len() - REQUEST_BYTES..]),
        ("a-second-plan", &least),
    ] {
        files.add(format!("rich-and-{name}"), [&rich[..], more].concat()).is(22, rich.len());
    }
    files.add("least-and-one-byte", [&least[..], &[0xff]].concat()).is(22, LEAST_LENGTH);
    let as_many = [&least[..], &[0; MOST_LENGTH + 1 - LEAST_LENGTH]].concat();
    files.add("least-and-as-many-as-are-read", as_many).is(22, LEAST_LENGTH);
}

// ---- what the plan says of its base

fn unsound_configurations(files: &mut PlanFiles) {
    files.add("gic-position-at-the-count", rich().with_gic(6).bytes()).is(1, 0);
    files.add("gic-position-highest", rich().with_gic(u32::MAX).bytes()).is(1, 0);
    files.add("gic-position-256-more", rich().with_gic(256 + 3).bytes()).is(1, 0);
    for (name, at, region) in [
        ("first-region-of-size-0", 0, with_size(A, 0)),
        ("middle-region-off-by-a-byte", 2, with_v(C, C.v.0 + 1)),
        ("last-region-out-of-reach", 4, with_p(H, PHYS_REACH - PAGE)),
        ("last-region-out-of-guest-reach", 4, with_v(H, GUEST_REACH - PAGE)),
        ("last-region-with-an-end-that-wraps", 4, with_p(H, LAST_PAGE)),
        ("two-regions-equal", 4, A),
        ("a-region-around-another", 4, Region::new(0, B.p.0 - PAGE, 0x40_0000, 3)),
        ("a-region-over-the-gic", 4, Region::new(0, G.p.0, PAGE, 3)),
        ("first-region-without-rights", 0, with_rights(A, 0)),
        ("last-region-with-a-fourth-right", 4, with_rights(H, 3 + 8)),
        ("last-region-with-rights-past-their-low-half", 4, with_rights(H, 3 + (1 << 32))),
    ] {
        files.add(name, rich().with_regions(&rich_regions_with(at, region)).bytes()).is(1, 0);
    }
    files.add("all-regions-zero", least().with_regions(&[Region::ZERO]).bytes()).is(1, 0);
    let last = Region::new(GUEST_REACH - PAGE, PHYS_REACH - PAGE, PAGE, 3);
    for (name, number, region) in [
        ("a-region-that-ends-where-reach-ends", 0, last),
        ("a-region-a-page-past-the-guest-reach", 1, with_v(last, GUEST_REACH)),
        ("a-region-a-page-past-the-physical-reach", 1, with_p(last, PHYS_REACH)),
    ] {
        files.add(name, least().with_regions(&[G, region]).bytes()).is(number, 0);
    }
}

fn unsound_zones(files: &mut PlanFiles) {
    let [nine, two_hundred, zero] = &rich_zones();
    let with_last = |last: Zone| [nine.clone(), two_hundred.clone(), last];
    let with_middle = |middle: Zone| [nine.clone(), middle, zero.clone()];
    let with_first = |first: Zone| [first, two_hundred.clone(), zero.clone()];
    let low_half = with_p(H, H.p.0 - (1 << 32));
    for (name, zones) in [
        ("zone-id-256", with_last(zone(MAX_ID + 1, &[], &[]))),
        ("zone-id-highest", with_first(Zone { id: u32::MAX, ..nine.clone() })),
        ("zone-id-twice", with_last(zone(9, &[], &[]))),
        ("zone-id-twice-but-for-a-high-byte", with_last(zone(256 + 9, &[], &[]))),
        ("cpu-region-not-configured", with_middle(zone(200, &[with_size(B, PAGE)], &[G]))),
        ("iommu-region-not-configured", with_middle(zone(200, &[B], &[with_v(G, 0)]))),
        ("region-differs-in-the-high-half-only", with_first(zone(9, &[A, low_half], &[A, G]))),
        ("zero-region-in-a-set", with_last(zone(0, &[Region::ZERO], &[]))),
        ("cpu-region-with-other-rights", with_first(zone(9, &[with_rights(A, 1), H], &[A, G]))),
        ("iommu-region-with-other-rights", with_middle(zone(200, &[B], &[with_rights(G, 1)]))),
        ("cpu-region-with-too-many-rights", with_last(zone(0, &[X], &[]))),
        ("iommu-region-with-too-many-rights", with_last(zone(0, &[], &[X]))),
        ("guest-overlap-in-a-cpu-set", with_first(zone(9, &[A, C], &[A, G]))),
        ("guest-overlap-in-an-iommu-set", with_last(zone(0, &[], &[C, B]))),
        ("region-twice-in-a-set", with_first(zone(9, &[A, H, A], &[A, G]))),
        ("gic-twice-in-a-set", with_middle(zone(200, &[B], &[G, G]))),
        ("gic-in-a-cpu-set", with_last(zone(0, &[G], &[]))),
        ("region-in-two-cpu-sets", with_last(zone(0, &[H], &[]))),
        ("region-in-a-cpu-and-an-iommu-set-of-two-zones", with_middle(zone(200, &[B], &[G, H]))),
        ("region-in-two-iommu-sets", [zone(9, &[H], &[A]), two_hundred.clone(), zone(0, &[], &[A])]),
    ] {
        files.add(name, rich().with_zones(&zones).bytes()).is(2, 0);
    }
    let sides = [zone(9, &[A, H], &[C, G]), zone(MAX_ID, &[B], &[B, G])];
    files.add("guest-overlap-of-two-sides", rich().with_zones(&sides).with_requests(&[]).bytes()).is(0, 0);
}

fn editions(files: &mut PlanFiles) {
    for (name, edition, number, place) in [
        ("0", 0, 0, 6),
        ("1", 1, 0, 6),
        ("2-to-the-31", 1 << 31, 0, 6),
        ("last-but-one", LAST_EDITION - 1, 0, 6),
        ("last", LAST_EDITION, 25, 0),
    ] {
        files.add(format!("edition-{name}"), rich().with_edition(edition).bytes()).is(number, place);
    }
    let without_requests = rich().with_edition(LAST_EDITION).with_requests(&[]);
    files.add("edition-last-without-requests", without_requests.bytes()).is(25, 0);
}

// ---- requests

/// Each inner number as the first, the middle and the last of five requests; all others are accepted.
fn refusals_at_places(files: &mut PlanFiles) {
    let accepted = in_and_out().repeat(2);
    for (number, base, request) in [
        (3, rich(), of_zone(7, 9)),
        (4, rich(), of_zone(ADD_ZONE, MAX_ID + 1)),
        (5, rich(), of_zone(ADD_ZONE, 200)),
        (6, rich(), of_region(CPU_REMOVE, 8, A)),
        (7, all_zones(), of_zone(ADD_ZONE, 100)),
        (8, rich(), of_zone(REMOVE_ZONE, 200)),
        (9, rich(), of_region(CPU_INSERT, 0, with_size(C, 0x1800))),
        (10, rich(), of_region(IOMMU_INSERT, 0, Region::new(0, LAST_PAGE, 2 * PAGE, 3))),
        (11, rich(), of_region(CPU_INSERT, 0, with_size(C, PAGE))),
        (19, rich(), of_region(CPU_INSERT, 0, X)),
        (12, rich(), of_region(CPU_INSERT, 0, G)),
        (13, rich(), of_region(CPU_INSERT, 9, A)),
        (14, rich(), of_region(IOMMU_INSERT, 0, A)),
        (15, rich(), of_region(CPU_INSERT, 9, C)),
        (16, full(), of_region(CPU_INSERT, 0, page(MAX_IN_SET))),
        (17, rich(), of_region(IOMMU_REMOVE, 200, B)),
    ] {
        for (name, place) in [("first", 0), ("middle", 2), ("last", 4)] {
            let requests = [&accepted[..place], &[request], &accepted[place..]].concat();
            let plan = base.clone().with_requests(&requests);
            files.add(format!("refused-with-{number}-{name}"), plan.bytes()).refused(place, number);
        }
    }
}

/// Numbers that must be looked at whole, after one accepted request.
fn requests_as_bytes(files: &mut PlanFiles) {
    let [accepted, _] = in_and_out();
    for (name, number, request) in [
        ("kind-0", 3, of_zone(0, 9)),
        ("kind-0x101", 3, of_zone(0x101, 77)),
        ("kind-with-its-highest-byte-set", 3, of_zone(ADD_ZONE + (1 << 24), 77)),
        ("kind-highest-and-zone-id-highest", 3, of_zone(u32::MAX, u32::MAX)),
        ("zone-id-256-more", 4, of_region(CPU_REMOVE, 256 + 9, A)),
        ("zone-id-with-its-highest-byte-set", 4, of_region(CPU_REMOVE, (1 << 24) + 9, A)),
        ("add-with-v", 3, of_region(ADD_ZONE, 77, Region::new(1 << 63, 0, 0, 3))),
        ("add-with-p", 3, of_region(ADD_ZONE, 77, Region::new(0, 1 << 32, 0, 3))),
        ("add-with-size", 3, of_region(ADD_ZONE, 77, Region::new(0, 0, 1, 0))),
        ("add-with-rights", 3, of_region(ADD_ZONE, 77, Region::new(0, 0, 0, 1))),
        ("add-with-rights-past-their-low-half", 3, of_region(ADD_ZONE, 77, Region::new(0, 0, 0, 1 << 63))),
        ("remove-zone-with-a-region", 3, of_region(REMOVE_ZONE, 0, A)),
        ("insert-off-by-a-byte-and-out-of-reach", 9, of_region(CPU_INSERT, 0, with_v(C, GUEST_REACH + 1))),
        ("insert-where-the-guest-reach-ends", 11, of_region(CPU_INSERT, 0, with_v(C, GUEST_REACH - C.size))),
        ("insert-a-page-past-the-guest-reach", 10, of_region(CPU_INSERT, 0, with_v(C, GUEST_REACH - C.size + PAGE))),
        ("insert-where-the-physical-reach-ends", 11, of_region(IOMMU_INSERT, 0, with_p(C, PHYS_REACH - C.size))),
        ("insert-a-page-past-the-physical-reach", 10, of_region(IOMMU_INSERT, 0, with_p(C, PHYS_REACH - C.size + PAGE))),
        ("insert-with-its-highest-bit-set", 10, of_region(CPU_INSERT, 0, with_v(C, C.v.0 + (1 << 63)))),
        ("insert-without-its-high-half", 11, of_region(IOMMU_INSERT, 0, with_p(H, H.p.0 % (1 << 32)))),
        ("insert-without-rights", 9, of_region(CPU_INSERT, 0, with_rights(C, 0))),
        ("insert-with-a-fourth-right", 9, of_region(IOMMU_INSERT, 0, with_rights(C, 3 + 8))),
        ("insert-with-other-rights", 11, of_region(CPU_INSERT, 0, with_rights(C, 1))),
        ("insert-with-too-many-rights", 19, of_region(IOMMU_INSERT, 0, X)),
        ("remove-with-other-rights", 17, of_region(CPU_REMOVE, 9, with_rights(A, 1))),
        ("remove-without-its-high-half", 17, of_region(CPU_REMOVE, 9, with_v(H, 0))),
    ] {
        let plan = rich().with_requests(&[accepted, request]);
        files.add(format!("request-{name}"), plan.bytes()).refused(1, number);
    }
}

/// Requests that find what the earlier ones of the plan left.
fn requests_in_turn(files: &mut PlanFiles) {
    let add: Vec<Record> = (0..=MAX_ZONES as u32).map(|id| of_zone(ADD_ZONE, id)).collect();
    let remove = |id: u32| of_zone(REMOVE_ZONE, id);
    let c_to = |id: u32| of_region(CPU_INSERT, id, C);
    let [c_in, c_out] = in_and_out();
    let a_out = of_region(CPU_REMOVE, 9, A);
    let b_for_c = [of_region(CPU_REMOVE, 200, B), c_to(200)];
    let emptied = [a_out, of_region(CPU_REMOVE, 9, H), of_region(IOMMU_REMOVE, 9, A), of_region(IOMMU_REMOVE, 9, G)];
    let used_again = [&add[..MAX_ZONES], &[remove(3), add[MAX_ZONES]]].concat();
    let one_too_many: Vec<Record> = pages(0..MAX_IN_SET + 1).into_iter().map(|page| of_region(IOMMU_INSERT, 0, page)).collect();
    for (name, base, requests, number, place, inner) in [
        ("zone-added-twice", least(), vec![add[5], add[5]], 27, 1, 5),
        ("zone-removed-then-used", rich(), vec![remove(0), c_to(0)], 27, 1, 6),
        ("zone-removed-then-added", rich(), vec![remove(0), add[0], c_to(0)], 0, 3, 0),
        ("all-zones-added", least(), add[..MAX_ZONES].to_vec(), 0, MAX_ZONES, 0),
        ("one-zone-too-many-added", least(), add.clone(), 27, MAX_ZONES, 7),
        ("zone-too-many-after-one-is-removed", least(), used_again, 0, MAX_ZONES + 2, 0),
        ("zone-filled-then-removed", rich(), vec![c_in, remove(0)], 27, 1, 8),
        ("zone-emptied-then-removed", rich(), [&emptied[..], &[remove(9)]].concat(), 0, 5, 0),
        ("region-inserted-twice", rich(), vec![c_in, c_in], 27, 1, 13),
        ("region-inserted-in-two-zones", rich(), vec![c_in, c_to(200)], 27, 1, 14),
        ("region-moved-to-another-zone", rich(), vec![of_region(CPU_REMOVE, 9, H), of_region(CPU_INSERT, 0, H)], 0, 2, 0),
        ("region-inserted-where-another-was", rich(), b_for_c.to_vec(), 0, 2, 0),
        ("guest-overlap-of-two-inserts", rich(), [&b_for_c[..], &[of_region(CPU_INSERT, 200, B)]].concat(), 27, 2, 15),
        ("set-filled-then-one-more", full(), one_too_many, 27, MAX_IN_SET, 16),
        ("region-removed-twice", rich(), vec![a_out, a_out], 27, 1, 17),
        ("two-requests-refused", rich(), vec![c_in, c_out, of_zone(ADD_ZONE, 9), of_zone(0, 0)], 27, 2, 5),
        ("gic-given-to-every-zone", rich(), vec![of_region(IOMMU_INSERT, 0, G)], 0, 1, 0),
    ] {
        files.add(name, base.with_requests(&requests).bytes()).known(number, place, inner);
    }
}

// ---- two faults at once: the one that stands first in the program's order is the answer

fn bad_zones() -> [Zone; 1] {
    [zone(MAX_ID + 1, &[], &[])]
}

const BAD_REQUEST: Record = Record { kind: 0, zone: 0, region: Region::ZERO };

fn two_faults(files: &mut PlanFiles) {
    let bad_config = rich().with_gic(6);
    let bad_zones = rich().with_zones(&bad_zones());
    let last = rich().with_edition(LAST_EDITION);
    let bad_request = rich().with_requests(&[BAD_REQUEST]);
    for (name, plan) in [
        ("unsound-configuration", bad_config),
        ("unsound-zones", bad_zones),
        ("last-edition", last),
        ("refused-request", bad_request),
    ] {
        let bytes = plan.bytes();
        let end = bytes.len();
        files.add(format!("byte-after-the-end-and-{name}"), [bytes, vec![0]].concat()).is(22, end);
    }
}

fn all_later_faults(files: &mut PlanFiles) {
    let bad_config = rich().with_gic(6);
    let all_later = bad_config.clone().with_edition(LAST_EDITION).with_zones(&bad_zones()).with_requests(&[BAD_REQUEST]);
    let (bytes, requests) = (all_later.bytes(), all_later.field("requests-count").start);
    files.add("cut-and-all-later-faults", bytes[..bytes.len() - 1].to_vec()).is(20, requests + 4);
    files.add("count-highest-and-all-later-faults", [&bytes[..requests], &[0xff; 4]].concat()).is(21, requests);
    let zones = bad_zones();
    let (with_bad_zones, last) = (rich().with_zones(&zones), rich().with_edition(LAST_EDITION));
    for (name, plan, number) in [
        ("unsound-configuration-before-unsound-zones", bad_config.clone().with_zones(&zones), 1),
        ("unsound-configuration-before-last-edition", bad_config.clone().with_edition(LAST_EDITION), 1),
        ("unsound-configuration-before-refused-request", bad_config.with_requests(&[BAD_REQUEST]), 1),
        ("unsound-zones-before-last-edition", with_bad_zones.clone().with_edition(LAST_EDITION), 2),
        ("unsound-zones-before-refused-request", with_bad_zones.with_requests(&[BAD_REQUEST]), 2),
        ("last-edition-before-refused-request", last.with_requests(&[BAD_REQUEST]), 25),
    ] {
        files.add(name, plan.bytes()).is(number, 0);
    }
}

// ---- damage

/// Every four bytes turned round.
fn other_byte_order(files: &mut PlanFiles) {
    let mut bytes = first().bytes();
    bytes.chunks_exact_mut(4).for_each(<[u8]>::reverse);
    files.add("other-byte-order", bytes).is(21, 0);
}

pub fn flipped(bytes: &[u8], bit: usize) -> Vec<u8> {
    let mut damaged = bytes.to_vec();
    damaged[bit / 8] ^= 1 << (bit % 8);
    damaged
}

/// One bit of each field of a plan.
pub fn flipped_bits(files: &mut PlanFiles, rng: &mut Rng, plan: &[u8], fields: &[Field]) {
    for Field { name, start, end, .. } in fields {
        let bit = 8 * start + rng.below(8 * (end - start));
        files.add(format!("bit-flipped-in-{name}"), flipped(plan, bit));
    }
}

#[cfg(test)]
mod tests {
    use super::*;

    /// The longest of a plan that is accepted: 255 regions twice and the GIC 32 times is all that sound zones can hold.
    const MOST_SOUND_LENGTH: usize = 46_428;

    #[test]
    fn the_lengths_are_the_documents() {
        let lengths = [least(), longest(), longest_sound()].map(|plan| plan.bytes().len());
        assert_eq!(lengths, [LEAST_LENGTH, MOST_LENGTH, MOST_SOUND_LENGTH]);
    }
}
