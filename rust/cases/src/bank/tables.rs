//! Cases for the table check with owners, chosen by hand.

use ordinary::bank::{Owners, GIC_OWNER};
use ordinary::layout::{set_record, zone_id, TABLE_COUNT};
use ordinary::limits::{MAX_IN_SET, MAX_REGIONS, MAX_ZONES};
use ordinary::{Region, Side, Zone};

use super::files::{every_region_held, owners_to};
use crate::book::Book;
use crate::given::{config_words, table_words, with_rights, with_word, zone, A, B, C, G, P};

/// Zone 5's, zone 6's, zone 5's, everybody's.
const REGIONS: [Region; 4] = [A, B, C, G];
const OWNERS: [u32; 4] = [5, 6, 5, GIC_OWNER];

pub fn add(book: &mut Book) {
    held(book);
    first_machines(book);
    unsound_configurations(book);
    full(book);
}

fn owners(owners: &[u32]) -> Owners {
    owners_to(owners)
}

fn ask(book: &mut Book, name: &str, owned: &[u32], zones: &[Zone], is_sound: bool) {
    book.owners = Some(owners(owned));
    book.ask_table(name, config_words(&REGIONS, 3), table_words(zones)).known(is_sound.into());
}

fn held(book: &mut Book) {
    for (name, zones, is_sound) in [
        ("no zone", vec![], true),
        ("empty zones", vec![zone(5, &[], &[]), zone(6, &[], &[])], true),
        ("its own on the CPU side", vec![zone(5, &[A], &[])], true),
        ("its own on the IOMMU side", vec![zone(5, &[], &[C])], true),
        ("its own on both sides", vec![zone(5, &[A], &[A, G])], true),
        ("two zones with theirs", vec![zone(6, &[B], &[G, B]), zone(5, &[C], &[A])], true),
        ("the GIC on the IOMMU side of all", vec![zone(0, &[], &[G]), zone(5, &[], &[G]), zone(255, &[], &[G])], true),
        ("another's on the CPU side", vec![zone(5, &[B], &[])], false),
        ("another's on the IOMMU side", vec![zone(6, &[], &[A])], false),
        ("another's, which that one holds too", vec![zone(5, &[A], &[]), zone(6, &[], &[A])], false),
        ("another's behind its own", vec![zone(5, &[], &[A]), zone(6, &[B], &[G, C])], false),
        ("what belongs to a zone that is not there", vec![zone(7, &[A], &[])], false),
        ("the GIC on the CPU side", vec![zone(5, &[G], &[])], false),
        ("the GIC on the CPU side of the last", vec![zone(5, &[A], &[G]), zone(6, &[B, G], &[])], false),
    ] {
        ask(book, name, &OWNERS, &zones, is_sound);
    }
    let two = [zone(5, &[A], &[]), zone(6, &[B], &[])];
    for (name, owned, is_sound) in [
        ("A and B exchanged", [6, 5, 5, GIC_OWNER], false),
        ("both owned by 5", [5, 5, 5, GIC_OWNER], false),
        ("both owned by nobody that is there", [0, 255, 5, GIC_OWNER], false),
        ("only C owned by another", [5, 6, 7, GIC_OWNER], true),
    ] {
        ask(book, name, &owned, &two, is_sound);
    }
    for (name, id) in [("0", 0), ("255", 255)] {
        ask(book, &format!("zone {name} with its own"), &[id, 6, id, GIC_OWNER], &[zone(id, &[A], &[C])], true);
    }
}

/// What makes a table unsound without owners makes it so here too.
fn first_machines(book: &mut Book) {
    for (name, zones) in [
        ("an id twice", vec![zone(5, &[A], &[]), zone(5, &[], &[])]),
        ("id 256", vec![zone(256, &[], &[])]),
        ("guest overlap of its own", vec![zone(5, &[A, C], &[])]),
        ("its own twice in a set", vec![zone(5, &[], &[A, A])]),
        ("the GIC twice in a set", vec![zone(5, &[], &[G, G])]),
        ("its own with other rights", vec![zone(5, &[with_rights(A, 1)], &[])]),
        ("a region that is not configured", vec![zone(5, &[Region::new(0, 0x7000_0000, 4096, 3)], &[])]),
        ("a zero region", vec![zone(5, &[Region::ZERO], &[])]),
    ] {
        ask(book, name, &OWNERS, &zones, false);
    }
    let sound = table_words(&[zone(5, &[A], &[G])]);
    for (name, at, word) in [
        ("an unused record", set_record(0, Side::Cpu, MAX_IN_SET - 1) + P, 1),
        ("an unused zone", zone_id(MAX_ZONES - 1), 5),
        ("a zone too many counted", TABLE_COUNT, MAX_ZONES as u64 + 1),
        ("an id that is 5 in its low half", zone_id(0), (1 << 32) + 5),
    ] {
        book.owners = Some(owners(&OWNERS));
        book.ask_table(name, config_words(&REGIONS, 3), with_word(sound, at, word)).known(0);
    }
    for (name, rights, side, is_sound) in [
        ("execute, on the CPU side", 5, Side::Cpu, true),
        ("execute, on the IOMMU side", 5, Side::Iommu, false),
        ("all, on the CPU side", 7, Side::Cpu, false),
    ] {
        let a = with_rights(A, rights);
        let zones = match side {
            Side::Cpu => [zone(5, &[a], &[])],
            Side::Iommu => [zone(5, &[], &[a])],
        };
        book.owners = Some(owners(&OWNERS));
        book.ask_table(format!("its own with {name}"), config_words(&[a, B, C, G], 3), table_words(&zones)).known(is_sound.into());
    }
}

fn unsound_configurations(book: &mut Book) {
    for (name, owned) in [
        ("an owner 256", &[5, 256, 5, GIC_OWNER][..]),
        ("an owner 2^32 - 1", &[5, 6, GIC_OWNER, GIC_OWNER]),
        ("the GIC owned by a zone", &[5, 6, 5, 5]),
        ("an unused owner", &[5, 6, 5, GIC_OWNER, 5]),
    ] {
        ask(book, &format!("{name}, no zone"), owned, &[], false);
        ask(book, &format!("{name}, its own"), owned, &[zone(5, &[A], &[])], false);
    }
    ask(book, "a zone of id 256 that owns", &[256, 6, 5, GIC_OWNER], &[zone(256, &[A], &[])], false);
    ask(book, "a zone of the GIC's number", &OWNERS, &[zone(u32::MAX, &[G], &[])], false);
}

/// As many zones as there can be, which hold all regions.
fn full(book: &mut Book) {
    let full = every_region_held();
    let (config, table) = (full.plain.base.config.to_words(), full.plain.base.table.to_words());
    let mut ask = |name: &str, owned: &[u32], is_sound: bool| {
        book.owners = Some(owners(owned));
        book.ask_table(format!("all regions held, {name}"), config, table).known(is_sound.into());
    };
    ask("each by its owner", &full.owners, true);
    for place in [1, MAX_REGIONS / 2, MAX_REGIONS - 1] {
        let other = (full.owners[place] + 1) % MAX_ZONES as u32;
        ask(&format!("{place} by another"), &full.clone().with_owner(place, other).owners, false);
    }
}
