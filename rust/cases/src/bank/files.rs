//! Plan files for the program `bank_apply`, each with its answer: what owners bring, and every way in which their section can be damaged.

use ordinary::bank::{owners_at, Owners, GIC_OWNER};
use ordinary::layout::REQUEST_BYTES;
use ordinary::limits::{MAX_ID, MAX_REGIONS, MAX_REQUESTS};
use ordinary::{Record, Region, Zone};

use super::plan::Plan;
use crate::fields::Field;
use crate::files::{self, flipped_bits, with_number, PlanFiles, H, LAST_EDITION, X};
use crate::given::{of_region, of_zone, with_rights, with_size, with_v, zone};
use crate::given::{A, ADD_ZONE, B, C, CPU_INSERT, CPU_REMOVE, G, IOMMU_INSERT, IOMMU_REMOVE, REMOVE_ZONE};
use crate::rng::Rng;

// The document's lengths.
const LEAST_LENGTH: usize = 68;
const MOST_LENGTH: usize = 62_880;

pub fn add(files: &mut PlanFiles, rng: &mut Rng) {
    accepted(files);
    lengths(files);
    cuts(files);
    counts(files);
    other_machine(files);
    wrong_owners(files);
    first_machines_faults(files);
    anothers_regions(files);
    editions(files);
    refusals_at_places(files);
    in_the_place_of_12_and_14(files);
    requests_in_turn(files);
    two_faults(files);
    flipped_bits(files, rng, &rich().bytes(), &rich().fields());
}

/// Plans to have at hand: examples/README.md says what each holds.
pub fn add_examples(files: &mut PlanFiles) {
    let desk = rich().with_edition(7).with_regions(&[A, B, C, G]).with_owners(&[5, 6, 5, GIC_OWNER]);
    let desk = desk.with_zones(&[zone(5, &[A], &[A, G])]);
    let own = [of_zone(ADD_ZONE, 6), of_region(CPU_INSERT, 6, B), of_region(IOMMU_INSERT, 6, G)];
    files.add("own", desk.clone().with_requests(&own).bytes()).is(0, 3);
    let anothers = [of_zone(ADD_ZONE, 6), of_region(CPU_INSERT, 6, B), of_region(CPU_INSERT, 6, C), of_zone(ADD_ZONE, 7)];
    files.add("anothers", desk.clone().with_requests(&anothers).bytes()).refused(2, 11);
    files.add("wrong_owner", desk.with_owner(2, 256).with_requests(&[]).bytes()).is(1, 0);
}

// ---- the plans that the files are made from

/// As a terminal keeps them: 0 past the last.
pub fn owners_to(owners: &[u32]) -> Owners {
    std::array::from_fn(|place| owners.get(place).copied().unwrap_or(0))
}

/// The first machine's rich plan: A and H belong to zone 9, B to 200, C to 77, which it adds, and X to 0.
pub fn rich() -> Plan {
    Plan { plain: files::rich(), owners: vec![9, 200, 77, GIC_OWNER, 9, 0] }
}

pub fn least() -> Plan {
    Plan { plain: files::least(), owners: vec![GIC_OWNER] }
}

/// Document 01's whole plan, with an owner for its region.
pub fn first() -> Plan {
    Plan { plain: files::first(), owners: vec![GIC_OWNER] }
}

/// Every count at its limit. No sets could be full everywhere with regions that their zones own: 2.
pub fn longest() -> Plan {
    let mut owners = vec![0; MAX_REGIONS];
    owners[0] = GIC_OWNER;
    Plan { plain: files::longest(), owners }
}

/// All regions, each on both sides of the zone that owns it, the GIC on the IOMMU side of all; every request is accepted.
pub fn longest_sound() -> Plan {
    let plain = files::longest_sound();
    let holder =
        |region: &Region| plain.base.table.zones.iter().find(|zone| zone.cpu.contains(region)).map_or(GIC_OWNER, |zone| zone.id);
    let owners = plain.base.config.regions.iter().map(holder).collect();
    Plan { plain, owners }
}

/// The same without requests.
pub fn every_region_held() -> Plan {
    longest_sound().with_requests(&[])
}

// ---- whole plans and their lengths

fn accepted(files: &mut PlanFiles) {
    files.add("first-with-owners", first().bytes()).is(0, 1);
    files.add("rich", rich().bytes()).is(0, 6);
    files.add("rich-without-requests", rich().with_requests(&[]).bytes()).is(0, 0);
    files.add("an-owner-that-is-no-zone", rich().with_owner(2, MAX_ID).with_requests(&[]).bytes()).is(0, 0);
    let one_owns_all = rich().with_owners(&[0, 0, 0, GIC_OWNER, 0, 0]).with_zones(&[zone(0, &[A, H], &[B, G])]);
    files.add("one-zone-owns-all", one_owns_all.with_requests(&[]).bytes()).is(0, 0);
}

fn lengths(files: &mut PlanFiles) {
    let most = longest().bytes();
    files.add("empty-file", Vec::new()).is(20, 0);
    files.add("least", least().bytes()).is(0, 0);
    files.add("least-and-one-byte", [least().bytes(), vec![0]].concat()).is(22, LEAST_LENGTH);
    files.add("longest", most.clone()).is(2, 0);
    files.add("longest-and-one-byte", [&most[..], &[0]].concat()).is(22, MOST_LENGTH);
    files.add("longest-and-many-bytes", [&most[..], &most[..20_000]].concat()).is(22, MOST_LENGTH);
    files.add("longest-without-its-last-byte", most[..most.len() - 1].to_vec()).is(20, MOST_LENGTH - REQUEST_BYTES);
    files.add("longest-sound", longest_sound().bytes()).is(0, MAX_REQUESTS);
    files.add("every-region-held", every_region_held().bytes()).is(0, 0);
    let last = MAX_REGIONS - 1;
    files.add("every-region-held-but-the-last-by-another", every_region_held().with_owner(last, 0).bytes()).is(2, 0);
    files.add("as-many-owners-the-last-wrong", every_region_held().with_owner(last, MAX_ID + 1).bytes()).is(1, 0);
}

// ---- damage to the owners' section, and about it

/// Before each field that owners touch, and before its last byte: 20 at the field's offset.
fn cuts(files: &mut PlanFiles) {
    let (plan, bytes) = (rich(), rich().bytes());
    let touched = |name: &str| name.starts_with("owner") || ["region-5", "zones-count", "zone-0-id", "request-0"].contains(&name);
    for Field { name, start, end, .. } in plan.fields().into_iter().filter(|field| touched(&field.name)) {
        files.add(format!("cut-before-{name}"), bytes[..start].to_vec()).is(20, start);
        files.add(format!("cut-in-{name}"), bytes[..end - 1].to_vec()).is(20, start);
    }
    let at = plan.field("owners-count").start;
    files.add("cut-in-owners-count-all-bits-set", [&bytes[..at], &[0xff; 3]].concat()).is(20, at);
}

/// Any count but the regions' is 21 where it stands, whatever follows.
fn counts(files: &mut PlanFiles) {
    let (plan, bytes) = (rich(), rich().bytes());
    let Field { start, end, .. } = plan.field("owners-count");
    for (name, count) in [
        ("0", 0),
        ("one-less", 5),
        ("one-more", 7),
        ("as-many-as-there-can-be", MAX_REGIONS as u32),
        ("right-but-for-its-highest-byte", 6 + (1 << 24)),
        ("highest", u32::MAX),
    ] {
        files.add(format!("owners-count-{name}"), with_number(&bytes, start, count)).is(21, start);
        files.add(format!("owners-count-{name}-and-cut-after-it"), with_number(&bytes[..end], start, count)).is(21, start);
    }
    let fewer_owners = rich().with_owners(&rich().owners[..5]);
    files.add("an-owner-less-and-so-counted", fewer_owners.bytes()).is(21, start);
    let more_owners = rich().with_owners(&[&rich().owners[..], &[0]].concat());
    files.add("an-owner-more-and-so-counted", more_owners.bytes()).is(21, start);
    let regions = plan.field("regions-count").start;
    files.add("a-region-more-counted", with_number(&bytes, regions, 7));
    files.add("a-region-less-counted", with_number(&bytes, regions, 5));
    let zones = plan.field("zones-count").start;
    files.add("zones-count-past-its-limit", with_number(&bytes, zones, 33)).is(21, zones);
}

/// A plan of the first machine, where the count of its zones is read as that of owners.
fn other_machine(files: &mut PlanFiles) {
    files.add("first-without-owners", files::first().bytes()).is(21, owners_at(1));
    files.add("rich-without-owners", files::rich().bytes()).is(21, owners_at(6));
    files.add("a-log", with_number(&rich().bytes(), 12, 3)).is(21, 12);
}

// ---- what the plan says of its base

/// C7 makes the configuration unsound: 1.
fn wrong_owners(files: &mut PlanFiles) {
    for (name, place, owner) in [
        ("first-owner-256", 0, MAX_ID + 1),
        ("last-owner-256", 5, MAX_ID + 1),
        ("owner-9-but-for-its-second-byte", 0, 256 + 9),
        ("owner-9-but-for-its-highest-byte", 4, 9 + (1 << 24)),
        ("first-owner-the-gics", 0, GIC_OWNER),
        ("last-owner-the-gics", 5, GIC_OWNER),
        ("owner-one-below-the-gics", 2, GIC_OWNER - 1),
        ("the-gics-owner-0", 3, 0),
        ("the-gics-owner-a-zone", 3, 9),
        ("the-gics-owner-one-less", 3, GIC_OWNER - 1),
    ] {
        files.add(name, rich().with_owner(place, owner).bytes()).is(1, 0);
    }
    files.add("the-gic-elsewhere", rich().with_gic(2).bytes()).is(1, 0);
    let moved = rich().with_gic(2).with_owner(2, GIC_OWNER).with_owner(3, 9);
    files.add("the-gic-elsewhere-with-its-owner", moved.with_zones(&[zone(9, &[A], &[C])]).with_requests(&[]).bytes()).is(0, 0);
}

/// C1 to C6 as without owners.
fn first_machines_faults(files: &mut PlanFiles) {
    files.add("gic-position-at-the-count", rich().with_gic(6).bytes()).is(1, 0);
    for (name, at, region) in [
        ("region-of-size-0", 0, with_size(A, 0)),
        ("region-off-by-a-byte", 2, with_v(C, C.v.0 + 1)),
        ("region-out-of-reach", 4, with_v(H, 1 << 40)),
        ("two-regions-equal", 4, A),
    ] {
        files.add(name, rich().with_regions(&files::rich_regions_with(at, region)).bytes()).is(1, 0);
    }
}

/// A zone that holds what it may not: 2, also where the first machine has nothing against it.
fn anothers_regions(files: &mut PlanFiles) {
    let [nine, two_hundred, zero] = &files::rich_zones();
    let with_last = |last: Zone| [nine.clone(), two_hundred.clone(), last];
    for (name, zones) in [
        ("anothers-region-on-the-cpu-side", with_last(zone(0, &[C], &[]))),
        ("anothers-region-on-the-iommu-side", with_last(zone(0, &[], &[C]))),
        ("gic-on-the-cpu-side", with_last(zone(0, &[G], &[]))),
        ("region-of-two-zones", with_last(zone(0, &[H], &[]))),
        ("zones-exchanged", [Zone { id: 200, ..nine.clone() }, Zone { id: 9, ..two_hundred.clone() }, zero.clone()]),
        ("its-own-with-other-rights", with_last(zone(0, &[with_rights(X, 1)], &[]))),
        ("its-own-with-too-many-rights", with_last(zone(0, &[X], &[]))),
        ("zone-id-twice", with_last(zone(9, &[], &[]))),
        ("zone-id-256", with_last(zone(MAX_ID + 1, &[], &[]))),
    ] {
        files.add(name, rich().with_zones(&zones).bytes()).is(2, 0);
    }
    files.add("owners-of-two-regions-exchanged", rich().with_owner(0, 200).with_owner(1, 9).bytes()).is(2, 0);
    let everywhere = [zone(9, &[], &[G]), zone(200, &[], &[G]), zone(0, &[], &[G]), zone(8, &[], &[G])];
    files.add("gic-on-the-iommu-side-of-all", rich().with_zones(&everywhere).with_requests(&[]).bytes()).is(0, 0);
}

fn editions(files: &mut PlanFiles) {
    for (name, edition, number, place) in [("0", 0, 0, 6), ("last-but-one", LAST_EDITION - 1, 0, 6), ("last", LAST_EDITION, 25, 0)]
    {
        files.add(format!("edition-{name}"), rich().with_edition(edition).bytes()).is(number, place);
    }
}

// ---- requests

/// Inner numbers as the first, the middle and the last of five requests; all others are accepted.
fn refusals_at_places(files: &mut PlanFiles) {
    let accepted = [of_region(CPU_REMOVE, 9, A), of_region(CPU_INSERT, 9, A)].repeat(2);
    let full = |count: usize| -> Vec<Record> { (100..100 + count as u32).map(|id| of_zone(ADD_ZONE, id)).collect() };
    for (number, request) in [
        (3, of_zone(7, 9)),
        (4, of_zone(ADD_ZONE, MAX_ID + 1)),
        (5, of_zone(ADD_ZONE, 200)),
        (6, of_region(CPU_INSERT, 77, C)),
        (8, of_zone(REMOVE_ZONE, 200)),
        (9, of_region(CPU_INSERT, 0, with_size(C, 0x1800))),
        (10, of_region(IOMMU_INSERT, 0, with_v(C, 1 << 40))),
        (11, of_region(CPU_INSERT, 0, C)),
        (19, of_region(IOMMU_INSERT, 0, X)),
        (13, of_region(IOMMU_INSERT, 9, G)),
        (17, of_region(IOMMU_REMOVE, 200, B)),
    ] {
        for (name, place) in [("first", 0), ("middle", 2), ("last", 4)] {
            let requests = [&accepted[..place], &[request], &accepted[place..]].concat();
            files.add(format!("refused-with-{number}-{name}"), rich().with_requests(&requests).bytes()).refused(place, number);
        }
    }
    files.add("refused-with-7", rich().with_requests(&full(30)).bytes()).refused(29, 7);
    let nines = rich().with_owner(2, 9).with_requests(&[of_region(IOMMU_INSERT, 9, C)]);
    files.add("refused-with-15", nines.bytes()).refused(0, 15);
    let set: Vec<Region> = (0..17).map(files::page).collect();
    let crowded = rich().with_regions(&[&[G], &set[..]].concat()).with_gic(0).with_owners(&[&[GIC_OWNER], &[9; 17][..]].concat());
    let inserts: Vec<Record> = set.iter().map(|region| of_region(CPU_INSERT, 9, *region)).collect();
    files.add("refused-with-16", crowded.with_zones(&[zone(9, &[], &[])]).with_requests(&inserts).bytes()).refused(16, 16);
}

/// What the first machine refuses with 12 or 14 is 11 here.
fn in_the_place_of_12_and_14(files: &mut PlanFiles) {
    for (name, request) in [
        ("the-gic-for-a-cpu-set", of_region(CPU_INSERT, 0, G)),
        ("the-gic-for-a-cpu-set-beside-its-own", of_region(CPU_INSERT, 9, G)),
        ("held-by-another-for-a-cpu-set", of_region(CPU_INSERT, 200, A)),
        ("held-by-another-for-an-iommu-set", of_region(IOMMU_INSERT, 0, H)),
    ] {
        files.add(name, rich().with_requests(&[request]).bytes()).refused(0, 11);
    }
}

/// Requests that find what the earlier ones of the plan left.
fn requests_in_turn(files: &mut PlanFiles) {
    let a_out = [of_region(CPU_REMOVE, 9, A), of_region(IOMMU_REMOVE, 9, A)];
    for (name, requests, number, place, inner) in [
        ("given-back-and-taken-again", vec![a_out[0], of_region(CPU_INSERT, 9, A)], 0, 2, 0),
        ("given-back-and-asked-for-by-another", [&a_out[..], &[of_region(CPU_INSERT, 200, A)]].concat(), 27, 2, 11),
        ("zone-added-and-given-its-own", vec![of_zone(ADD_ZONE, 77), of_region(CPU_INSERT, 77, C)], 0, 2, 0),
        ("its-own-before-the-zone-is-added", vec![of_region(CPU_INSERT, 77, C), of_zone(ADD_ZONE, 77)], 27, 0, 6),
        (
            "zone-removed-and-added-again",
            vec![of_zone(REMOVE_ZONE, 0), of_zone(ADD_ZONE, 0), of_region(IOMMU_INSERT, 0, G)],
            0,
            3,
            0,
        ),
        ("gic-given-to-every-zone", vec![of_region(IOMMU_INSERT, 0, G)], 0, 1, 0),
        ("gic-given-twice", vec![of_region(IOMMU_INSERT, 0, G), of_region(IOMMU_INSERT, 0, G)], 27, 1, 13),
        ("two-requests-refused", vec![of_region(CPU_INSERT, 0, C), of_zone(0, 0)], 27, 0, 11),
    ] {
        files.add(name, rich().with_requests(&requests).bytes()).known(number, place, inner);
    }
}

// ---- two faults at once: the one that stands first in the program's order is the answer

fn two_faults(files: &mut PlanFiles) {
    let wrong = rich().with_owner(0, 256);
    let bytes = wrong.bytes();
    files.add("byte-after-the-end-and-wrong-owner", [&bytes[..], &[0]].concat()).is(22, bytes.len());
    let request = wrong.field("request-5").start;
    files.add("cut-and-wrong-owner", bytes[..bytes.len() - 1].to_vec()).is(20, request);
    let anothers = [zone(0, &[C], &[])];
    let stranger = [of_region(CPU_INSERT, 0, C)];
    for (name, plan, number) in [
        ("wrong-owner-before-anothers-region", wrong.clone().with_zones(&anothers), 1),
        ("wrong-owner-before-last-edition", wrong.clone().with_edition(LAST_EDITION), 1),
        ("wrong-owner-before-refused-request", wrong.with_requests(&stranger), 1),
        ("anothers-region-before-last-edition", rich().with_zones(&anothers).with_edition(LAST_EDITION), 2),
        ("anothers-region-before-refused-request", rich().with_zones(&anothers).with_requests(&stranger), 2),
        ("last-edition-before-refused-request", rich().with_edition(LAST_EDITION).with_requests(&stranger), 25),
    ] {
        files.add(name, plan.bytes()).is(number, 0);
    }
}

#[cfg(test)]
mod tests {
    use super::*;
    use ordinary::bank::LONGEST_BANK_PLAN;

    #[test]
    fn the_lengths_are_the_documents() {
        assert_eq!([least(), longest()].map(|plan| plan.bytes().len()), [LEAST_LENGTH, MOST_LENGTH]);
        assert_eq!(LONGEST_BANK_PLAN, MOST_LENGTH);
    }
}
