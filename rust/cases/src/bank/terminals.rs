//! Cases for plans with owners at a terminal: each number, the order of the numbers, the state afterwards, and random damage.

use ordinary::bank::{owners_at, GIC_OWNER};
use ordinary::limits::MAX_REGIONS;
use ordinary::{Record, Region};

use super::files::{first, least, longest, longest_sound, owners_to, rich};
use super::plan::Plan;
use crate::book::Book;
use crate::files::{flipped, LAST_EDITION, X};
use crate::given::{of_region, of_zone, zone, A, ADD_ZONE, B, C, CPU_INSERT, CPU_REMOVE, G, IOMMU_INSERT};
use crate::rng::Rng;

const REFUSED: Record = Record { kind: 0, zone: 0, region: Region::ZERO };

pub fn add(book: &mut Book, rng: &mut Rng) {
    desk(book);
    unsound(book);
    unread(book);
    other_owners(book);
    orders(book);
    refused(book);
    other_machines(book);
    long_plans(book);
    damaged(book, rng);
}

/// The terminal's state becomes the one that the plan is for.
fn stand_at(book: &mut Book, plan: &Plan) {
    book.owners = Some(owners_to(&plan.owners));
    book.change_to(plan.plain.base.config.to_words(), plan.plain.base.table.to_words());
    book.edition = plan.plain.base.edition;
}

/// A plan at the state that another is for, with the number that must come and its places.
fn ask(book: &mut Book, base: &Plan, name: impl Into<String>, bytes: Vec<u8>, number: u32, places: [u64; 2]) {
    stand_at(book, base);
    book.ask_plan(name, bytes).known_with(number, places);
}

/// The whole plan with owners, twice; then the rich one.
fn desk(book: &mut Book) {
    stand_at(book, &least());
    book.ask_plan("the whole plan with owners", first().bytes()).known_with(0, [1, 0]);
    book.ask_plan("the whole plan with owners again", first().bytes()).known_with(24, [0, 0]);
    ask(book, &rich(), "every kind of request", rich().bytes(), 0, [6, 0]);
    ask(book, &rich(), "no requests", rich().with_requests(&[]).bytes(), 0, [0, 0]);
}

/// 1 and 2 are about the terminal, before any byte.
fn unsound(book: &mut Book) {
    for (name, number, terminal) in [
        ("a wrong owner", 1, rich().with_owner(1, 256)),
        ("the GIC owned by a zone", 1, rich().with_owner(3, 9)),
        ("two owners of the GIC's number", 1, rich().with_owner(5, GIC_OWNER)),
        ("an unused owner", 1, rich().with_owners(&[&rich().owners[..], &[1]].concat())),
        ("what a zone holds owned by another", 2, rich().with_owner(0, 200)),
        ("what a zone holds owned by nobody there", 2, rich().with_owner(1, 8)),
        ("the GIC on the CPU side", 2, rich().with_zones(&[zone(9, &[G], &[])])),
    ] {
        for (what, bytes) in [
            ("its own plan", terminal.bytes()),
            ("another's plan", rich().bytes()),
            ("no bytes", vec![]),
            ("a bad count", vec![0xff; 4]),
        ] {
            ask(book, &terminal, format!("{name}, {what}"), bytes, number, [0, 0]);
        }
    }
}

/// 20, 21 and 22, whatever base the plan is for.
fn unread(book: &mut Book) {
    let (plan, bytes) =
        (rich().with_owner(2, 7).with_edition(LAST_EDITION), rich().with_owner(2, 7).with_edition(LAST_EDITION).bytes());
    for name in ["region-5", "owners-count", "owner-0", "owner-5", "zones-count", "request-5"] {
        let field = plan.field(name);
        for (what, length) in [("before", field.start), ("in", field.end - 1)] {
            ask(book, &rich(), format!("cut {what} {name}"), bytes[..length].to_vec(), 20, [field.start as u64, 0]);
        }
    }
    let at = plan.field("owners-count").start;
    for count in [0, 5, 7, 6 + 256, 6 + (1 << 24), u32::MAX] {
        let other = [&bytes[..at], &u32::to_le_bytes(count), &bytes[at + 4..]].concat();
        ask(book, &rich(), format!("{count} owners counted"), other, 21, [at as u64, 0]);
    }
    ask(book, &rich(), "a byte after the end", [&bytes[..], &[0]].concat(), 22, [bytes.len() as u64, 0]);
}

/// 23: any owner, or the regions, or the GIC's position. An owner that is wrong is only compared.
fn other_owners(book: &mut Book) {
    for place in 0..6 {
        for owner in [0, 256, GIC_OWNER] {
            let other = rich().with_owner(place, owner);
            if other.owners != rich().owners {
                ask(book, &rich(), format!("owner {place} is {owner}"), other.bytes(), 23, [0, 0]);
            }
        }
    }
    let high = rich().owners[0] + (1 << 24);
    ask(book, &rich(), "an owner differs in its highest byte", rich().with_owner(0, high).bytes(), 23, [0, 0]);
    let mut turned = rich();
    turned.owners.swap(0, 1);
    ask(book, &rich(), "two owners exchanged", turned.bytes(), 23, [0, 0]);
    ask(book, &rich(), "another GIC position", rich().with_gic(2).bytes(), 23, [0, 0]);
    let mut regions = rich().plain.base.config.regions;
    regions.swap(0, 1);
    ask(book, &rich(), "two regions exchanged, owners left", rich().with_regions(&regions).bytes(), 23, [0, 0]);
    let fewer = rich().with_regions(&regions[..5]).with_owners(&rich().owners[..5]);
    ask(book, &rich(), "a region and its owner less", fewer.bytes(), 23, [0, 0]);
}

/// 23 before 24, 25, 26 and 27; 24, 25 and 26 as without owners.
fn orders(book: &mut Book) {
    let last = rich().with_edition(LAST_EDITION);
    let other_zones = [zone(9, &[], &[G])];
    for (name, base, plan, number) in [
        ("another owner and edition", rich(), rich().with_owner(2, 7).with_edition(1), 23),
        ("another owner at the last edition", last.clone(), last.clone().with_owner(2, 7), 23),
        ("another owner and other zones", rich(), rich().with_owner(2, 7).with_zones(&other_zones), 23),
        ("another owner and a refused request", rich(), rich().with_owner(2, 7).with_requests(&[REFUSED]), 23),
        ("another edition and other zones", rich(), rich().with_edition(1).with_zones(&other_zones), 24),
        ("the last edition and other zones", last.clone(), last.clone().with_zones(&other_zones), 25),
        ("the last edition and a refused request", last.clone(), last.with_requests(&[REFUSED]), 25),
        ("other zones and a refused request", rich(), rich().with_zones(&other_zones).with_requests(&[REFUSED]), 26),
        ("zones in another order", rich(), rich().with_zones(&turned_zones()), 26),
    ] {
        ask(book, &base, name, plan.bytes(), number, [0, 0]);
    }
}

fn turned_zones() -> Vec<ordinary::Zone> {
    let mut zones = rich().plain.base.table.zones;
    zones.reverse();
    zones
}

/// 27 with 11 where the first machine accepts, or has 12 or 14; all that was done before it is undone.
fn refused(book: &mut Book) {
    let accepted = of_region(CPU_REMOVE, 9, A);
    for (name, inner, request) in [
        ("free, another's", 11, of_region(CPU_INSERT, 9, C)),
        ("held by its owner", 11, of_region(IOMMU_INSERT, 9, B)),
        ("just given back by its owner", 11, of_region(CPU_INSERT, 200, A)),
        ("the GIC, CPU", 11, of_region(CPU_INSERT, 0, G)),
        ("too many rights, another's", 11, of_region(CPU_INSERT, 9, X)),
        ("too many rights, its own", 19, of_region(CPU_INSERT, 0, X)),
        ("the GIC, which is there", 13, of_region(IOMMU_INSERT, 9, G)),
        ("a zone that is there", 5, of_zone(ADD_ZONE, 9)),
    ] {
        for (what, requests, place) in [("first", vec![request, accepted], 0), ("last", vec![accepted, request], 1)] {
            ask(book, &rich(), format!("{name}, {what}"), rich().with_requests(&requests).bytes(), 27, [place, inner]);
        }
    }
    let zone_and_its_own = [of_zone(ADD_ZONE, 77), of_region(CPU_INSERT, 77, C), of_region(IOMMU_INSERT, 77, G)];
    ask(book, &rich(), "a zone is added and gets its own", rich().with_requests(&zone_and_its_own).bytes(), 0, [3, 0]);
}

/// A plan of the first machine has no owners' count where one is read.
fn other_machines(book: &mut Book) {
    let at = owners_at(6) as u64;
    ask(book, &rich(), "a plan of the first machine", rich().plain.bytes(), 21, [at, 0]);
    // Three zones, and so three regions with them, would be as many owners.
    let three = rich().with_regions(&[A, B, G]).with_gic(2).with_owners(&[9, 200, GIC_OWNER]).with_zones(&[
        zone(9, &[A], &[]),
        zone(200, &[B], &[]),
        zone(0, &[], &[]),
    ]);
    stand_at(book, &three);
    book.ask_plan("a plan of the first machine, whose zones' count is the owners'", three.plain.bytes());
}

fn long_plans(book: &mut Book) {
    ask(book, &longest_sound(), "the longest sound plan", longest_sound().bytes(), 0, [512, 0]);
    ask(book, &longest(), "the longest plan at its own terminal", longest().bytes(), 2, [0, 0]);
    ask(book, &longest_sound(), "the longest plan elsewhere", longest().bytes(), 23, [0, 0]);
    let bytes = [longest().bytes(), vec![0]].concat();
    ask(book, &longest_sound(), "one byte longer than the longest", bytes, 22, [62_880, 0]);
    let moved = longest_sound().with_owner(MAX_REGIONS - 1, 0);
    ask(book, &longest_sound(), "the last owner differs", moved.bytes(), 23, [0, 0]);
}

/// One bit anywhere in a plan, most often among its owners.
fn damaged(book: &mut Book, rng: &mut Rng) {
    let (plan, bytes) = (rich(), rich().bytes());
    let owners = plan.field("owners-count").start..plan.field("zones-count").start;
    for n in 0..80 {
        let byte = if n % 2 == 0 { owners.start + rng.below(owners.len()) } else { rng.below(bytes.len()) };
        let bit = 8 * byte + rng.below(8);
        stand_at(book, &rich());
        book.ask_plan(format!("bit {bit} flipped"), flipped(&bytes, bit));
    }
}
