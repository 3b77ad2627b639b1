//! Cases for requests: each number, each two numbers that can apply at once, what a request does to the table, and random runs.

use ordinary::layout::{config_record, zone_id, CONFIG_GIC};
use ordinary::limits::{GUEST_REACH, MAX_ID, MAX_IN_SET, MAX_ZONES, PAGE, PHYS_REACH};
use ordinary::{ConfigWords, Record, Region, TableWords, Zone};

use crate::book::Book;
use crate::drawn::{poke_config, poke_table, sound_config};
use crate::given::{
    all_empty, config_words, held_words, of_region, of_zone, reach_of, table_words, with_p, with_rights, with_size, with_v,
    with_word, zone, Held, A, ADD_ZONE, ALL_RIGHTS, AT_THE_REACHES, B, C, CPU_INSERT, CPU_REMOVE, EXCESSIVE, G, IOMMU_INSERT,
    IOMMU_REMOVE, P, REMOVE_ZONE, RIGHTS,
};
use crate::rng::Rng;

const INSERTS: [(&str, u32); 2] = [("CPU", CPU_INSERT), ("IOMMU", IOMMU_INSERT)];
const REMOVES: [(&str, u32); 2] = [("CPU", CPU_REMOVE), ("IOMMU", IOMMU_REMOVE)];

/// The last page of 64-bit addresses.
const LAST_PAGE: u64 = PAGE.wrapping_neg();

// Up to the first of these, regions of a page each, apart from one another; then two that share guest addresses, and one that
// shares the GIC's.
const PLAIN: u64 = 19;
const TWIN: u64 = 20;
const OTHER_TWIN: u64 = 21;
const GIC_TWIN: u64 = 22;

const GIC: Region = Region::new(0x0800_0000, 0x0800_0000, 2 * PAGE, 3);

pub fn add(book: &mut Book, rng: &mut Rng) {
    desk(book);
    unsound(book);
    no_requests(book);
    zones(book);
    form(book);
    rights(book);
    rights_in_order(book);
    reaches(book);
    insertions(book);
    gic(book);
    full_sets(book);
    removals(book);
    zones_in_order(book);
    regions_in_order(book);
    runs(book, rng);
}

/// Configured region k; 0 is the GIC.
fn region(k: u64) -> Region {
    let v = match k {
        0 => return GIC,
        1..=PLAIN => 0x4000_0000 + k * 2 * PAGE,
        GIC_TWIN => GIC.v.0 + PAGE,
        _ => 0x6000_0000,
    };
    Region::new(v, 0x8000_0000 + k * 2 * PAGE, PAGE, 3)
}

fn config() -> ConfigWords {
    config_words(&(0..=GIC_TWIN).map(region).collect::<Vec<_>>(), 0)
}

const FIVE: Held = (5, &[1, 2], &[1, 0]);
const SIX: Held = (6, &[3], &[0, 4]);

/// As many as a set can hold.
const ALL: [u64; MAX_IN_SET] = [1, 2, 3, 4, 5, 6, 7, 8, 9, 10, 11, 12, 13, 14, 15, 16];

fn table(zones: &[Held]) -> TableWords {
    held_words(zones, region)
}

fn base() -> TableWords {
    table(&[FIVE, SIX])
}

/// All zones in use, with ids from 0 on.
fn all() -> TableWords {
    table_words(&all_empty())
}

fn ask(book: &mut Book, words: TableWords, name: &str, request: Record) {
    book.change_to(config(), words);
    book.ask_request(name, request);
}

// ---- the document's desk examples, with its numbers

/// Requests one after another from zones 5 and 6, both empty; each with the document's number.
fn in_turn(book: &mut Book, steps: &[(&str, u32, Record)]) {
    book.change_to(config_words(&[A, B, C, G], 3), table_words(&[Zone::empty(5), Zone::empty(6)]));
    for &(name, number, request) in steps {
        book.ask_request(name, request).known(number);
    }
}

fn desk(book: &mut Book) {
    in_turn(book, &[("add 5 again", 5, of_zone(ADD_ZONE, 5))]);
    in_turn(book, &[("add 256", 4, of_zone(ADD_ZONE, 256))]);
    in_turn(book, &[("add 255", 0, of_zone(ADD_ZONE, 255))]);
    in_turn(
        book,
        &[
            ("CPU A to 5", 0, of_region(CPU_INSERT, 5, A)),
            ("again", 13, of_region(CPU_INSERT, 5, A)),
            ("then IOMMU A to 5", 0, of_region(IOMMU_INSERT, 5, A)),
            ("then IOMMU A to 6", 14, of_region(IOMMU_INSERT, 6, A)),
            ("then CPU A to 6", 14, of_region(CPU_INSERT, 6, A)),
            ("then CPU B to 6", 0, of_region(CPU_INSERT, 6, B)),
        ],
    );
    in_turn(
        book,
        &[
            ("CPU G to 5", 12, of_region(CPU_INSERT, 5, G)),
            ("IOMMU G to 5", 0, of_region(IOMMU_INSERT, 5, G)),
            ("and to 6", 0, of_region(IOMMU_INSERT, 6, G)),
            ("to 5 again", 13, of_region(IOMMU_INSERT, 5, G)),
        ],
    );
    in_turn(
        book,
        &[
            ("CPU A to 5", 0, of_region(CPU_INSERT, 5, A)),
            ("CPU C to 5 holding A", 15, of_region(CPU_INSERT, 5, C)),
            ("CPU C to 6", 0, of_region(CPU_INSERT, 6, C)),
        ],
    );
    in_turn(
        book,
        &[
            ("IOMMU G to 5", 0, of_region(IOMMU_INSERT, 5, G)),
            ("remove 5 holding only G", 8, of_zone(REMOVE_ZONE, 5)),
            ("G removed", 0, of_region(IOMMU_REMOVE, 5, G)),
            ("remove 5", 0, of_zone(REMOVE_ZONE, 5)),
        ],
    );
    desk_zones(book);
    desk_regions(book);
}

fn desk_zones(book: &mut Book) {
    in_turn(book, &[]);
    let next = 10 + MAX_ZONES as u32 - 2;
    for id in 10..next {
        book.ask_request(format!("add {id}"), of_zone(ADD_ZONE, id)).known(0);
    }
    for (name, number, request) in [
        ("a zone too many", 7, of_zone(ADD_ZONE, next)),
        ("remove an empty one", 0, of_zone(REMOVE_ZONE, 12)),
        ("the same zone again", 0, of_zone(ADD_ZONE, next)),
    ] {
        book.ask_request(name, request).known(number);
    }
}

fn desk_regions(book: &mut Book) {
    in_turn(
        book,
        &[
            ("size 0", 9, of_region(CPU_INSERT, 5, with_size(A, 0))),
            ("size 0x1800", 9, of_region(CPU_INSERT, 5, with_size(A, 0x1800))),
            ("p 2^64 - 4096, size 8192, v 0", 10, of_region(CPU_INSERT, 5, Region::new(0, LAST_PAGE, 8192, 3))),
            ("physical end exactly 2^48", 11, of_region(CPU_INSERT, 5, Region::new(0, (1 << 48) - PAGE, PAGE, 3))),
            ("guest end exactly 2^40", 11, of_region(CPU_INSERT, 5, Region::new((1 << 40) - PAGE, 0, PAGE, 3))),
            ("guest end a page above 2^40", 10, of_region(CPU_INSERT, 5, Region::new(1 << 40, 0, PAGE, 3))),
            ("A with size 0x1000", 11, of_region(CPU_INSERT, 5, with_size(A, 0x1000))),
        ],
    );
}

// ---- the numbers for all kinds

fn unsound(book: &mut Book) {
    let bad_config = with_word(config(), CONFIG_GIC, 23);
    let overlapping = with_word(config(), config_record(19) + P, region(18).p.0);
    let bad_id = with_word(base(), zone_id(1), 256);
    let left = with_word(base(), zone_id(MAX_ZONES - 1), 1);
    for (name, config, words) in [
        ("unsound configuration", bad_config, base()),
        ("configured regions overlap", overlapping, base()),
        ("both unsound", bad_config, bad_id),
        ("unsound table", config(), bad_id),
        ("an unused zone not zero", config(), left),
    ] {
        for (what, request) in [
            ("add", of_zone(ADD_ZONE, 7)),
            ("kind 0, id 256", of_zone(0, 256)),
            ("kind 7", of_zone(7, 5)),
            ("insert, id 256", of_zone(CPU_INSERT, 256)),
            ("remove a region", of_region(CPU_REMOVE, 5, region(1))),
        ] {
            book.change_to(config, words);
            book.ask_request(format!("{name}, {what}"), request);
        }
    }
    ask(book, base(), "both sound, add", of_zone(ADD_ZONE, 7));
}

fn no_requests(book: &mut Book) {
    for (text, kind) in [("0", 0), ("7", 7), ("0x101", 0x101), ("0x100", 0x100), ("2^32 - 1", u32::MAX), ("3 * 2^24", 3 << 24)] {
        ask(book, base(), &format!("kind {text}"), of_zone(kind, 7));
        ask(book, base(), &format!("kind {text}, id 256, a region"), of_region(kind, 256, region(9)));
    }
    for (text, region) in [
        ("v 1", Region::new(1, 0, 0, 0)),
        ("p 1", Region::new(0, 1, 0, 0)),
        ("size 1", Region::new(0, 0, 1, 0)),
        ("rights 1", Region::new(0, 0, 0, 1)),
        ("rights 2^63", Region::new(0, 0, 0, 1 << 63)),
        ("v 2^63", Region::new(1 << 63, 0, 0, 3)),
        ("p 2^32", Region::new(0, 1 << 32, 0, 3)),
        ("size 2^40", Region::new(0, 0, 1 << 40, 3)),
        ("a configured region", region(9)),
    ] {
        ask(book, base(), &format!("add with {text}"), of_region(ADD_ZONE, 7, region));
        ask(book, base(), &format!("remove a zone with {text}"), of_region(REMOVE_ZONE, 5, region));
    }
    ask(book, base(), "add with a region, id 256", of_region(ADD_ZONE, 256, region(9)));
    ask(book, base(), "remove with a region, id 256", of_region(REMOVE_ZONE, 256, region(9)));
    ask(book, base(), "add 5 with a region", of_region(ADD_ZONE, 5, region(9)));
    ask(book, base(), "remove 7 with a region", of_region(REMOVE_ZONE, 7, region(9)));
}

// ---- zones

/// The region where the kind takes one, else none.
fn of_kind(kind: u32, zone: u32, region: Region) -> Record {
    of_region(kind, zone, if kind <= REMOVE_ZONE { Region::ZERO } else { region })
}

fn zones(book: &mut Book) {
    for (text, id) in [("256", 256), ("256 + 5", 256 + 5), ("2^32 - 1", u32::MAX)] {
        for kind in ADD_ZONE..=IOMMU_REMOVE {
            ask(book, base(), &format!("kind {kind}, id {text}"), of_kind(kind, id, region(9)));
        }
    }
    ask(book, base(), "id 256, size 0", of_zone(CPU_INSERT, 256));
    ask(book, base(), "id 256, CPU GIC", of_region(CPU_INSERT, 256, GIC));
    for id in [0, 7, 255] {
        ask(book, base(), &format!("add {id}"), of_zone(ADD_ZONE, id));
    }
    ask(book, base(), "add 5, there", of_zone(ADD_ZONE, 5));
    ask(book, base(), "add 6, there", of_zone(ADD_ZONE, 6));
    for kind in REMOVE_ZONE..=IOMMU_REMOVE {
        ask(book, base(), &format!("kind {kind}, no zone 7"), of_kind(kind, 7, region(1)));
    }
    ask(book, base(), "remove a zone with regions", of_zone(REMOVE_ZONE, 5));
    ask(book, table(&[(5, &[1], &[])]), "remove a zone with a CPU region", of_zone(REMOVE_ZONE, 5));
    ask(book, table(&[(5, &[], &[1])]), "remove a zone with an IOMMU region", of_zone(REMOVE_ZONE, 5));
    ask(book, table(&[(5, &[], &[])]), "remove the only zone", of_zone(REMOVE_ZONE, 5));
    ask(book, table(&[]), "remove 0, no zone", of_zone(REMOVE_ZONE, 0));
    ask(book, table(&[]), "insert into 0, no zone", of_region(CPU_INSERT, 0, region(1)));
    let next = MAX_ZONES as u32;
    ask(book, all(), "a zone too many", of_zone(ADD_ZONE, next));
    ask(book, all(), "a zone too many, id 256", of_zone(ADD_ZONE, 256));
    ask(book, all(), "a zone too many with a region", of_region(ADD_ZONE, next, region(9)));
    ask(book, all(), "first id again, all zones in use", of_zone(ADD_ZONE, 0));
    ask(book, all(), "last id again, all zones in use", of_zone(ADD_ZONE, next - 1));
    ask(book, all(), "remove an empty zone with a region", of_region(REMOVE_ZONE, 0, region(9)));
}

// ---- insertions

fn form(book: &mut Book) {
    let r = region(9);
    for (text, bad) in [
        ("size 0", with_size(r, 0)),
        ("all zero", Region::ZERO),
        ("size 0x1800", with_size(r, 0x1800)),
        ("v 1 more", with_v(r, r.v.0 + 1)),
        ("p 1 more", with_p(r, r.p.0 + 1)),
        ("p 2^64 - 1", with_p(r, u64::MAX)),
        ("v 2^40 + 1", with_v(r, GUEST_REACH + 1)),
        ("size 0 at 2^40 + 4096", Region::new(GUEST_REACH + PAGE, 0, 0, 3)),
        ("size 2^64 - 1", with_size(r, u64::MAX)),
        ("v 2^40", with_v(r, GUEST_REACH)),
        ("p 2^48", with_p(r, PHYS_REACH)),
        ("v 2^64 - 4096", with_v(r, LAST_PAGE)),
        ("size 2^64 - 4096", with_size(r, LAST_PAGE)),
        ("rights 0", with_rights(r, 0)),
        ("rights 8", with_rights(r, 8)),
        ("rights 3 + 8", with_rights(r, 3 + 8)),
        ("rights 3 + 2^32", with_rights(r, 3 + (1 << 32))),
        ("rights 2^64 - 1", with_rights(r, u64::MAX)),
        ("rights 0, p 2^48", with_rights(with_p(r, PHYS_REACH), 0)),
        ("other rights", with_rights(r, 1)),
        ("all rights", with_rights(r, ALL_RIGHTS)),
        ("all rights, p 2^48", with_rights(with_p(r, PHYS_REACH), ALL_RIGHTS)),
        ("held, other rights", with_rights(region(1), 1)),
        ("both ends a page past reach", Region::new(GUEST_REACH - PAGE, PHYS_REACH - PAGE, 2 * PAGE, 3)),
        ("both ends where reach ends", Region::new(GUEST_REACH - PAGE, PHYS_REACH - PAGE, PAGE, 3)),
        ("another v", with_v(r, r.v.0 + PAGE)),
        ("another p", with_p(r, r.p.0 + PAGE)),
        ("another size", with_size(r, 2 * PAGE)),
        ("held, another size", with_size(region(1), 2 * PAGE)),
        ("the GIC's start, size 0", with_size(GIC, 0)),
        ("the GIC's start, size 0x1800", with_size(GIC, 0x1800)),
        ("the GIC's p, v 2^40", with_v(GIC, GUEST_REACH)),
        ("the GIC's p, v 2^40 + 1", with_v(GIC, GUEST_REACH + 1)),
        ("the GIC's last page", Region::new(GIC.v.0, GIC.p.0 + PAGE, PAGE, 3)),
        ("around the GIC", Region::new(GIC.v.0, GIC.p.0 - PAGE, 4 * PAGE, 3)),
    ] {
        for (side, kind) in INSERTS {
            ask(book, base(), &format!("{side} {text}"), of_region(kind, 5, bad));
        }
        ask(book, base(), &format!("CPU {text}, no zone"), of_region(CPU_INSERT, 7, bad));
    }
}

/// The desk's A with each of the rights, on each side.
fn rights(book: &mut Book) {
    for rights in 1..=ALL_RIGHTS {
        let a = with_rights(A, rights);
        for ((side, kind), excessive) in INSERTS.into_iter().zip(EXCESSIVE) {
            book.change_to(config_words(&[a, B, C, G], 3), table_words(&[Zone::empty(5), Zone::empty(6)]));
            let number = if excessive.contains(&rights) { 19 } else { 0 };
            book.ask_request(format!("{side} rights {rights}"), of_region(kind, 5, a)).known(number);
        }
    }
}

/// 19 with each number that can apply at once: after 6 and 9 to 11, before 12 and 14 to 16. What has 13 too stands in an unsound table.
fn rights_in_order(book: &mut Book) {
    let a = with_rights(A, 5);
    let c = with_rights(C, ALL_RIGHTS);
    let gic = with_rights(G, ALL_RIGHTS);
    let config = config_words(&[a, B, c, gic], 3);
    let five = |cpu: &[Region], iommu: &[Region]| table_words(&[zone(5, cpu, iommu), Zone::empty(6)]);
    for (name, words, number, request) in [
        ("6 before 19", five(&[], &[]), 6, of_region(CPU_INSERT, 7, c)),
        ("11 before 19", five(&[], &[]), 11, of_region(CPU_INSERT, 5, with_rights(B, ALL_RIGHTS))),
        ("19 before 12", five(&[], &[]), 19, of_region(CPU_INSERT, 5, gic)),
        ("19, the GIC on the IOMMU side", five(&[], &[]), 19, of_region(IOMMU_INSERT, 5, gic)),
        ("2 before 19 and 13", five(&[c], &[]), 2, of_region(CPU_INSERT, 5, c)),
        ("2 before 19 and 13, IOMMU", five(&[], &[a]), 2, of_region(IOMMU_INSERT, 5, a)),
        ("19, on the own CPU side", five(&[a], &[]), 19, of_region(IOMMU_INSERT, 5, a)),
        ("19 before 14", five(&[a], &[]), 19, of_region(IOMMU_INSERT, 6, a)),
        ("19 before 15", five(&[B], &[]), 19, of_region(CPU_INSERT, 5, c)),
        ("13, rights that its side may have", five(&[a], &[]), 13, of_region(CPU_INSERT, 5, a)),
        ("17, held with other rights", five(&[a], &[]), 17, of_region(CPU_REMOVE, 5, A)),
        ("out, with its rights", five(&[a], &[]), 0, of_region(CPU_REMOVE, 5, a)),
    ] {
        book.change_to(config, words);
        book.ask_request(name, request).known(number);
    }
    let mut regions: Vec<Region> = (0..=GIC_TWIN).map(region).collect();
    regions[17] = with_rights(region(17), ALL_RIGHTS);
    for ((side, kind), words) in INSERTS.into_iter().zip([table(&[(5, &ALL, &[])]), table(&[(5, &[], &ALL)])]) {
        book.change_to(config_words(&regions, 0), words);
        book.ask_request(format!("19 before 16, {side}"), of_region(kind, 5, regions[17])).known(19);
    }
}

/// A region at an edge of a reach: at the desk, where it is not configured, and where it is beside the GIC.
fn reaches(book: &mut Book) {
    for (side, kind) in INSERTS {
        for (text, region, is_in_reach) in AT_THE_REACHES {
            for (what, regions, in_reach, out_of_reach) in
                [("not configured", &[A, B, C, G][..], 11, 10), ("configured", &[region, G], 0, 1)]
            {
                book.change_to(config_words(regions, regions.len() - 1), table_words(&[Zone::empty(5)]));
                let number = if is_in_reach { in_reach } else { out_of_reach };
                book.ask_request(format!("{side} {text}, {what}"), of_region(kind, 5, region)).known(number);
            }
        }
    }
}

fn insertions(book: &mut Book) {
    for (side, kind) in INSERTS {
        for (text, id, k) in [
            ("held by nobody", 5, 9),
            ("in the own CPU set", 5, 2),
            ("in both own sets", 5, 1),
            ("in the own IOMMU set", 6, 4),
            ("in another CPU set", 6, 2),
            ("in another IOMMU set", 5, 4),
            ("in both sets of another", 6, 1),
        ] {
            ask(book, base(), &format!("{side} {text}"), of_region(kind, id, region(k)));
        }
        ask(book, table(&[FIVE, SIX, (7, &[], &[])]), &format!("{side} to a third zone"), of_region(kind, 7, region(2)));
    }
    let other_twin = region(OTHER_TWIN);
    let twin_and_twin = table(&[(5, &[TWIN], &[TWIN]), (6, &[OTHER_TWIN], &[])]);
    ask(book, twin_and_twin, "CPU of another zone and a guest overlap", of_region(CPU_INSERT, 5, other_twin));
    ask(book, twin_and_twin, "IOMMU of another zone and a guest overlap", of_region(IOMMU_INSERT, 5, other_twin));
    let held = table(&[(5, &[TWIN], &[9]), (6, &[], &[TWIN + 2])]);
    ask(book, held, "CPU guest overlap", of_region(CPU_INSERT, 5, other_twin));
    ask(book, held, "IOMMU guest overlap with the CPU set only", of_region(IOMMU_INSERT, 5, other_twin));
    ask(book, held, "guest overlap with another zone only", of_region(CPU_INSERT, 6, other_twin));
}

fn gic(book: &mut Book) {
    let none = table(&[(5, &[], &[]), (6, &[], &[])]);
    let in_five = table(&[(5, &[], &[0]), (6, &[], &[])]);
    let gic_twin = region(GIC_TWIN);
    ask(book, none, "CPU GIC", of_region(CPU_INSERT, 5, GIC));
    ask(book, none, "CPU GIC, no zone", of_region(CPU_INSERT, 7, GIC));
    ask(book, in_five, "CPU GIC, held by the zone", of_region(CPU_INSERT, 5, GIC));
    ask(book, in_five, "CPU GIC, held by another", of_region(CPU_INSERT, 6, GIC));
    ask(book, table(&[(5, &[GIC_TWIN], &[])]), "CPU GIC and a guest overlap", of_region(CPU_INSERT, 5, GIC));
    ask(book, none, "IOMMU GIC", of_region(IOMMU_INSERT, 5, GIC));
    ask(book, table(&[(5, &[], &[]), (6, &[1], &[0])]), "IOMMU GIC, held by another", of_region(IOMMU_INSERT, 5, GIC));
    ask(book, base(), "IOMMU GIC, held by both", of_region(IOMMU_INSERT, 6, GIC));
    ask(book, table(&[(5, &[], &[GIC_TWIN])]), "IOMMU GIC and a guest overlap", of_region(IOMMU_INSERT, 5, GIC));
    ask(book, table(&[(5, &[], &[0])]), "IOMMU guest overlap with the GIC", of_region(IOMMU_INSERT, 5, gic_twin));
    ask(book, table(&[(5, &[], &[0])]), "CPU guest overlap with the GIC", of_region(CPU_INSERT, 5, gic_twin));
    let in_both = table(&[(5, &[], &[0]), (6, &[], &[0])]);
    ask(book, in_both, "IOMMU plain, others hold the GIC", of_region(IOMMU_INSERT, 5, region(1)));
}

fn full_sets(book: &mut Book) {
    let with_twin = [&ALL[..15], &[TWIN]].concat();
    for (side, kind) in INSERTS {
        let other_side = CPU_INSERT + IOMMU_INSERT - kind;
        let full = |held: &[u64], other: &[u64]| match kind {
            CPU_INSERT => table(&[(5, held, &[]), (6, other, &[])]),
            _ => table(&[(5, &[], held), (6, other, &[])]),
        };
        let mut to_five = |words: TableWords, name: String, kind: u32, region: Region| {
            ask(book, words, &name, of_region(kind, 5, region));
        };
        to_five(full(&ALL, &[]), format!("{side} to a full set"), kind, region(17));
        to_five(full(&ALL, &[]), format!("{side} GIC to a full set"), kind, GIC);
        to_five(full(&ALL, &[]), format!("{side} first of a full set again"), kind, region(1));
        to_five(full(&ALL, &[]), format!("{side} last of a full set again"), kind, region(16));
        to_five(full(&ALL, &[]), format!("{side} size 0 to a full set"), kind, with_size(region(17), 0));
        to_five(full(&ALL, &[]), format!("{side} not configured to a full set"), kind, with_v(region(17), 0));
        to_five(full(&ALL, &[17]), format!("{side} of another zone to a full set"), kind, region(17));
        to_five(full(&ALL[..15], &[]), format!("{side} to a set of 15"), kind, region(17));
        to_five(full(&ALL, &[]), format!("the other side of a full {side} set"), other_side, region(17));
        to_five(full(&with_twin, &[]), format!("{side} guest overlap in a full set"), kind, region(OTHER_TWIN));
        to_five(full(&with_twin, &[OTHER_TWIN]), format!("{side} both, in a full set"), kind, region(OTHER_TWIN));
    }
    let with_gic = [&ALL[..15], &[0]].concat();
    ask(book, table(&[(5, &[], &with_gic)]), "IOMMU GIC of a full set again", of_region(IOMMU_INSERT, 5, GIC));
}

// ---- removals

fn removals(book: &mut Book) {
    let r = region(1);
    for (text, bad) in [
        ("nobody's", region(9)),
        ("another zone's", region(3)),
        ("zero", Region::ZERO),
        ("size 0", with_size(r, 0)),
        ("another size", with_size(r, 2 * PAGE)),
        ("another v", with_v(r, region(2).v.0)),
        ("another p", with_p(r, region(2).p.0)),
        ("other rights", with_rights(r, 1)),
        ("all rights", with_rights(r, ALL_RIGHTS)),
        ("v off by 1", with_v(r, r.v.0 + 1)),
        ("p 2^64 - 4096", with_p(r, LAST_PAGE)),
        ("all 2^64 - 1", Region::new(u64::MAX, u64::MAX, u64::MAX, 3)),
    ] {
        for (side, kind) in REMOVES {
            ask(book, base(), &format!("{side} out, {text}"), of_region(kind, 5, bad));
        }
    }
    ask(book, base(), "CPU out, on the IOMMU side only", of_region(CPU_REMOVE, 5, GIC));
    ask(book, base(), "IOMMU out, on the CPU side only", of_region(IOMMU_REMOVE, 5, region(2)));
    ask(book, table(&[(5, &[], &[])]), "zero out of an empty set", of_zone(CPU_REMOVE, 5));
    for (side, kind) in REMOVES {
        ask(book, base(), &format!("{side} out, on both sides"), of_region(kind, 5, r));
        ask(book, base(), &format!("{side} out, no zone"), of_region(kind, 7, r));
    }
    ask(book, base(), "IOMMU GIC out, another holds it too", of_region(IOMMU_REMOVE, 5, GIC));
}

// ---- order kept, and room used again: one request after another

/// All zones in use, most of them empty; zones go from the front, the middle and the end, and others come.
fn zones_in_order(book: &mut Book) {
    let mut zones: Vec<Held> = vec![
        (10, &[], &[]),
        (11, &[1], &[0]),
        (12, &[], &[]),
        (13, &[3, 2], &[]),
        (14, &[4], &[4]),
        (15, &[], &[]),
        (16, &[6], &[0, 7]),
        (17, &[], &[]),
    ];
    zones.extend((100..).take(MAX_ZONES - zones.len()).map(|id| (id, &[][..], &[][..])));
    book.change_to(config(), table(&zones));
    for (name, kind, id) in [
        ("all zones in use, add 20", ADD_ZONE, 20),
        ("remove the first", REMOVE_ZONE, 10),
        ("add 20", ADD_ZONE, 20),
        ("add 21", ADD_ZONE, 21),
        ("remove the last", REMOVE_ZONE, 20),
        ("remove a middle one", REMOVE_ZONE, 12),
        ("remove it again", REMOVE_ZONE, 12),
        ("remove one that is not empty", REMOVE_ZONE, 14),
        ("add the first again", ADD_ZONE, 10),
        ("add 0", ADD_ZONE, 0),
        ("remove a middle one", REMOVE_ZONE, 15),
        ("add 255", ADD_ZONE, 255),
        ("add 1", ADD_ZONE, 1),
    ] {
        book.ask_request(name, of_zone(kind, id));
    }
}

fn regions_in_order(book: &mut Book) {
    for ((side, insert), (_, remove)) in INSERTS.into_iter().zip(REMOVES) {
        book.change_to(config(), table(&[(5, &[], &[]), (6, &[18], &[18]), (7, &[], &[])]));
        for k in ALL {
            book.ask_request(format!("{side} {k} to 7"), of_region(insert, 7, region(k)));
        }
        for (what, kind, k) in [
            ("to a full set", insert, 17),
            ("out, first", remove, 1),
            ("in again", insert, 17),
            ("to a full set", insert, 1),
            ("out, last", remove, 17),
            ("out, middle", remove, 8),
            ("out, gone", remove, 8),
            ("in again", insert, 8),
            ("in again", insert, 1),
            ("to a full set", insert, 17),
        ] {
            book.ask_request(format!("{side} {k} {what}"), of_region(kind, 7, region(k)));
        }
        for k in (2..17).chain([1]) {
            book.ask_request(format!("{side} {k} out of 7"), of_region(remove, 7, region(k)));
        }
        book.ask_request("remove 7", of_zone(REMOVE_ZONE, 7));
    }
}

// ---- random runs

fn poked(rng: &mut Rng, region: Region) -> Region {
    let mut numbers = region.numbers();
    let at = rng.below(numbers.len());
    let more = numbers[at].wrapping_add(PAGE);
    let reach = reach_of(at);
    numbers[at] = match at {
        RIGHTS => rng.below(10) as u64,
        _ => *rng.pick(&[0, 1, PAGE, more, reach - PAGE, reach, reach + 1, LAST_PAGE, u64::MAX]),
    };
    Region::from_numbers(numbers)
}

/// A request of one of these kinds, for one of these zones, with one of these regions; now and then with another number.
pub fn random_request(rng: &mut Rng, kinds: &[u32], ids: &[u32], regions: &[Region]) -> Record {
    let kind = if rng.one_in(40) { *rng.pick(&[0, 7, 0x101]) } else { *rng.pick(kinds) };
    let id = if rng.one_in(30) { *rng.pick(&[MAX_ID + 1, u32::MAX]) } else { *rng.pick(ids) };
    let region = *rng.pick(regions);
    if kind <= REMOVE_ZONE {
        return of_region(kind, id, if rng.one_in(15) { region } else { Region::ZERO });
    }
    of_region(kind, id, if rng.one_in(10) { poked(rng, region) } else { region })
}

/// What a run of requests draws from.
struct Run<'a> {
    name: &'a str,
    config: ConfigWords,
    regions: &'a [Region],
    steps: usize,
    kinds: &'a [u32],
    ids: &'a [u32],
}

impl Run<'_> {
    fn add(&self, book: &mut Book, rng: &mut Rng) {
        book.change_to(self.config, table(&[]));
        for n in 0..self.steps {
            let request = random_request(rng, self.kinds, self.ids, self.regions);
            let name = format!("{}, {n}", self.name);
            if rng.one_in(30) {
                self.add_poked(book, rng, name, request);
            } else {
                book.ask_request(name, request);
            }
        }
    }

    /// The request at other words, after which the run goes on from its own.
    fn add_poked(&self, book: &mut Book, rng: &mut Rng, name: String, request: Record) {
        let before = book.table;
        if rng.one_in(3) {
            book.change_to(poke_config(rng, &self.config), before);
        } else {
            book.change_to(self.config, poke_table(rng, &before));
        }
        book.ask_request(name + ", poked", request);
        book.change_to(self.config, before);
    }
}

fn runs(book: &mut Book, rng: &mut Rng) {
    let (inserts, removes) = ([CPU_INSERT, IOMMU_INSERT], [CPU_REMOVE, IOMMU_REMOVE]);
    let mixed = [&[ADD_ZONE, REMOVE_ZONE], &removes[..], &inserts, &inserts].concat();
    for n in 0..5 {
        let config = sound_config(rng, 7);
        let name = format!("run {n}");
        let words = config.to_words();
        let run = Run { name: &name, config: words, regions: &config.regions, steps: 40, kinds: &mixed, ids: &[0, 5, MAX_ID] };
        run.add(book, rng);
    }
    let regions: Vec<Region> = (0..=GIC_TWIN).map(region).collect();
    let kinds = [&[ADD_ZONE; 4][..], &[REMOVE_ZONE, CPU_INSERT, IOMMU_REMOVE]].concat();
    let ids: Vec<u32> = (0..2 * MAX_ZONES as u32).collect();
    Run { name: "zones", config: config(), regions: &regions, steps: 4 * MAX_ZONES, kinds: &kinds, ids: &ids }.add(book, rng);
    let kinds = [&[ADD_ZONE], &removes[..], &inserts.repeat(6)].concat();
    Run { name: "sets", config: config(), regions: &regions, steps: 140, kinds: &kinds, ids: &[3, 3, 3, 9] }.add(book, rng);
}
