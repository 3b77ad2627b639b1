//! Cases for requests and translations with owners: 11 and its place in the order, what stands in the place of 12 and 14, and random runs.

use ordinary::bank::{Config, GIC_OWNER};
use ordinary::limits::{MAX_ID, MAX_IN_SET, MAX_ZONES, PAGE};
use ordinary::{ConfigWords, Record, Region, TableWords, Zone};

use super::files::owners_to;
use crate::book::Book;
use crate::drawn::{poke_config, poke_table, sound_config};
use crate::given::{
    all_empty, config_words, of_region, of_zone, table_words, with_rights, with_size, with_v, zone, A, ADD_ZONE, ALL_RIGHTS, B, C,
    CPU_INSERT, CPU_REMOVE, G, IOMMU_INSERT, IOMMU_REMOVE, REMOVE_ZONE,
};
use crate::requests::random_request;
use crate::rng::Rng;

const INSERTS: [(&str, u32); 2] = [("CPU", CPU_INSERT), ("IOMMU", IOMMU_INSERT)];

/// The desk's regions, and one that may be written and executed: 5's, 6's, 5's, everybody's, 6's.
const X: Region = Region::new(0x6000_0000, 0xC000_0000, PAGE, ALL_RIGHTS);
const REGIONS: [Region; 5] = [A, B, C, G, X];
const OWNERS: [u32; 5] = [5, 6, 5, GIC_OWNER, 6];

pub fn add(book: &mut Book, rng: &mut Rng) {
    desk(book);
    unsound(book);
    earlier_numbers(book);
    strangers(book);
    later_numbers(book);
    the_gic(book);
    removals(book);
    zones(book);
    full_sets(book);
    translations(book);
    runs(book, rng);
}

fn stand_at(book: &mut Book, owners: &[u32], zones: &[Zone]) {
    book.owners = Some(owners_to(owners));
    book.change_to(config_words(&REGIONS, 3), table_words(zones));
}

fn ask(book: &mut Book, zones: &[Zone], name: impl Into<String>, number: u32, request: Record) {
    stand_at(book, &OWNERS, zones);
    book.ask_request(name, request).known(number);
}

fn empty() -> [Zone; 2] {
    [Zone::empty(5), Zone::empty(6)]
}

/// Both zones hold what they can.
fn held() -> [Zone; 2] {
    [zone(5, &[A], &[A, G]), zone(6, &[B], &[G])]
}

/// The document's examples, with owners: one after another from zones 5 and 6, both empty.
fn desk(book: &mut Book) {
    stand_at(book, &OWNERS, &empty());
    for (name, number, request) in [
        ("CPU A to 5", 0, of_region(CPU_INSERT, 5, A)),
        ("again", 13, of_region(CPU_INSERT, 5, A)),
        ("IOMMU A to 5", 0, of_region(IOMMU_INSERT, 5, A)),
        ("IOMMU A to 6, not 14", 11, of_region(IOMMU_INSERT, 6, A)),
        ("CPU A to 6, not 14", 11, of_region(CPU_INSERT, 6, A)),
        ("CPU B to 6", 0, of_region(CPU_INSERT, 6, B)),
        ("CPU G to 5, not 12", 11, of_region(CPU_INSERT, 5, G)),
        ("IOMMU G to 5", 0, of_region(IOMMU_INSERT, 5, G)),
        ("and to 6", 0, of_region(IOMMU_INSERT, 6, G)),
        ("to 5 again", 13, of_region(IOMMU_INSERT, 5, G)),
        ("CPU C to 5 holding A", 15, of_region(CPU_INSERT, 5, C)),
        ("CPU C to 6", 11, of_region(CPU_INSERT, 6, C)),
        ("remove 6 holding B and G", 8, of_zone(REMOVE_ZONE, 6)),
        ("B removed", 0, of_region(CPU_REMOVE, 6, B)),
        ("remove 6 holding only G", 8, of_zone(REMOVE_ZONE, 6)),
        ("G removed", 0, of_region(IOMMU_REMOVE, 6, G)),
        ("remove 6", 0, of_zone(REMOVE_ZONE, 6)),
        ("B to 5, whose owner is gone", 11, of_region(CPU_INSERT, 5, B)),
        ("add 6", 0, of_zone(ADD_ZONE, 6)),
        ("CPU B to 6, back again", 0, of_region(CPU_INSERT, 6, B)),
    ] {
        book.ask_request(format!("desk: {name}"), request).known(number);
    }
}

/// 1 and 2 come before everything.
fn unsound(book: &mut Book) {
    let anothers = [zone(5, &[B], &[])];
    for (name, number, owners, zones) in [
        ("a wrong owner", 1, &[5, 6, 256, GIC_OWNER, 6][..], &empty()[..]),
        ("the GIC owned by 5", 1, &[5, 6, 5, 5, 6], &empty()),
        ("an unused owner", 1, &[5, 6, 5, GIC_OWNER, 6, 0, 1], &empty()),
        ("a wrong owner and another's region", 1, &[5, 6, 256, GIC_OWNER, 6], &anothers),
        ("another's region", 2, &OWNERS, &anothers),
        ("the GIC on the CPU side", 2, &OWNERS, &[zone(5, &[G], &[])]),
        ("what 5 holds given to 6", 2, &[6, 6, 5, GIC_OWNER, 6], &held()),
    ] {
        for (what, request) in [
            ("add", of_zone(ADD_ZONE, 7)),
            ("kind 0, id 256", of_zone(0, 256)),
            ("insert its own", of_region(CPU_INSERT, 5, C)),
            ("insert another's", of_region(CPU_INSERT, 5, X)),
            ("remove another's", of_region(CPU_REMOVE, 5, B)),
        ] {
            stand_at(book, owners, zones);
            book.ask_request(format!("{name}, {what}"), request).known(number);
        }
    }
}

/// 3, 4, 6, 9 and 10 come before 11, also of a region that another owns.
fn earlier_numbers(book: &mut Book) {
    for (side, kind) in INSERTS {
        for (name, number, request) in [
            ("id 256", 4, of_region(kind, 256, B)),
            ("id 2^32 - 1, the GIC's owner", 4, of_region(kind, u32::MAX, G)),
            ("no zone 7", 6, of_region(kind, 7, B)),
            ("size 0x1800", 9, of_region(kind, 5, with_size(B, 0x1800))),
            ("no rights", 9, of_region(kind, 5, with_rights(B, 0))),
            ("out of reach", 10, of_region(kind, 5, with_v(B, 1 << 40))),
            ("not configured", 11, of_region(kind, 5, with_size(A, PAGE))),
            ("other rights", 11, of_region(kind, 5, with_rights(A, 1))),
        ] {
            ask(book, &empty(), format!("{side} {name}"), number, request);
        }
    }
    ask(book, &empty(), "kind 7 of another's", 3, of_region(7, 5, B));
    ask(book, &empty(), "add with another's", 3, of_region(ADD_ZONE, 7, B));
}

/// 11 where an insert names what the zone does not own, before all that comes after it.
fn strangers(book: &mut Book) {
    let full_of_nothing = [zone(5, &[A], &[A, G]), zone(6, &[], &[])];
    for (side, kind) in INSERTS {
        ask(book, &empty(), format!("{side} another's"), 11, of_region(kind, 5, B));
        ask(book, &held(), format!("{side} another's, which it holds"), 11, of_region(kind, 6, A));
        ask(book, &held(), format!("{side} another's, over guest addresses of its own"), 11, of_region(kind, 5, B));
        ask(book, &full_of_nothing, format!("{side} another's, which nobody holds"), 11, of_region(kind, 5, B));
        ask(book, &empty(), format!("{side} another's, with too many rights"), 11, of_region(kind, 5, X));
        for (name, owner) in [("0", 0), ("7, which is not there", 7), ("255", MAX_ID)] {
            stand_at(book, &[owner, 6, 5, GIC_OWNER, 6], &empty());
            book.ask_request(format!("{side} what belongs to {name}"), of_region(kind, 5, A)).known(11);
        }
    }
    for id in [0, MAX_ID] {
        stand_at(book, &[id, 6, 5, GIC_OWNER, 6], &[Zone::empty(id)]);
        book.ask_request(format!("{id} gets its own"), of_region(CPU_INSERT, id, A)).known(0);
    }
}

/// 19, 13, 15 and 16 come as without owners, of what the zone owns.
fn later_numbers(book: &mut Book) {
    for (side, kind) in INSERTS {
        ask(book, &empty(), format!("{side} its own, with too many rights"), 19, of_region(kind, 6, X));
        ask(book, &held(), format!("{side} its own, which is there"), 13, of_region(kind, 5, A));
        ask(book, &held(), format!("{side} its own, over guest addresses"), 15, of_region(kind, 5, C));
    }
    ask(book, &[zone(5, &[], &[A]), zone(6, &[B], &[])], "CPU its own, which the IOMMU side has", 0, of_region(CPU_INSERT, 5, A));
}

/// On the IOMMU side any zone may hold the GIC; on the CPU side none.
fn the_gic(book: &mut Book) {
    let zones = [zone(0, &[], &[G]), zone(5, &[A], &[]), zone(255, &[], &[])];
    for id in [5, 255] {
        ask(book, &zones, format!("IOMMU GIC to {id}"), 0, of_region(IOMMU_INSERT, id, G));
        ask(book, &zones, format!("CPU GIC to {id}"), 11, of_region(CPU_INSERT, id, G));
    }
    ask(book, &zones, "IOMMU GIC, which is there", 13, of_region(IOMMU_INSERT, 0, G));
    ask(book, &zones, "CPU GIC, which the IOMMU side has", 11, of_region(CPU_INSERT, 0, G));
    ask(book, &zones, "IOMMU GIC with other rights", 11, of_region(IOMMU_INSERT, 5, with_rights(G, 1)));
    ask(book, &zones, "IOMMU GIC to no zone", 6, of_region(IOMMU_INSERT, 7, G));
    for (name, rights, number) in [("5", 5, 19), ("2", 2, 0)] {
        let gic = with_rights(G, rights);
        book.owners = Some(owners_to(&OWNERS));
        book.change_to(config_words(&[A, B, C, gic, X], 3), table_words(&empty()));
        book.ask_request(format!("IOMMU GIC of rights {name}"), of_region(IOMMU_INSERT, 5, gic)).known(number);
        book.ask_request(format!("CPU GIC of rights {name}"), of_region(CPU_INSERT, 5, gic)).known(11);
    }
    let beside = Region::new(G.v.0, 0x7000_0000, PAGE, 3);
    book.owners = Some(owners_to(&[5, 6, 5, GIC_OWNER, 5]));
    book.change_to(config_words(&[A, B, C, G, beside], 3), table_words(&[zone(5, &[], &[beside])]));
    book.ask_request("IOMMU GIC over guest addresses", of_region(IOMMU_INSERT, 5, G)).known(15);
}

/// A removal asks nothing about owners.
fn removals(book: &mut Book) {
    for (side, kind) in [("CPU", CPU_REMOVE), ("IOMMU", IOMMU_REMOVE)] {
        ask(book, &held(), format!("{side} remove another's"), 17, of_region(kind, 6, A));
        ask(book, &held(), format!("{side} remove its own"), 0, of_region(kind, 5, A));
        ask(book, &held(), format!("{side} remove what is not configured"), 17, of_region(kind, 5, Region::ZERO));
        ask(book, &held(), format!("{side} remove from no zone"), 6, of_region(kind, 7, A));
    }
    ask(book, &held(), "IOMMU remove the GIC", 0, of_region(IOMMU_REMOVE, 6, G));
    ask(book, &held(), "CPU remove the GIC", 17, of_region(CPU_REMOVE, 6, G));
}

/// 5, 6, 7 and 8. A zone that holds something stays, although upstream drops it.
fn zones(book: &mut Book) {
    ask(book, &held(), "add what owns nothing", 0, of_zone(ADD_ZONE, 9));
    ask(book, &held(), "add 5 again", 5, of_zone(ADD_ZONE, 5));
    ask(book, &held(), "remove no zone", 6, of_zone(REMOVE_ZONE, 9));
    ask(book, &held(), "remove what holds its own", 8, of_zone(REMOVE_ZONE, 5));
    ask(book, &[zone(5, &[], &[G])], "remove what holds the GIC", 8, of_zone(REMOVE_ZONE, 5));
    ask(book, &empty(), "remove an owner that holds nothing", 0, of_zone(REMOVE_ZONE, 5));
    ask(book, &all_empty(), "a zone too many", 7, of_zone(ADD_ZONE, MAX_ZONES as u32));
    ask(book, &all_empty(), "remove one of all", 0, of_zone(REMOVE_ZONE, 3));
}

/// Seventeen pages, all zone 5's but the GIC, and what does not fit any more.
fn full_sets(book: &mut Book) {
    let page = |k: usize| Region::new(0x5000_0000 + k as u64 * PAGE, 0xA000_0000 + k as u64 * PAGE, PAGE, 3);
    let own: Vec<Region> = (0..=MAX_IN_SET).map(page).collect();
    let config = config_words(&[&own[..], &[G, B]].concat(), own.len());
    let owners = [&vec![5; own.len()][..], &[GIC_OWNER, 6]].concat();
    let full = [zone(5, &own[..MAX_IN_SET], &own[..MAX_IN_SET]), zone(6, &[], &[])];
    for (name, number, request) in [
        ("CPU one more", 16, of_region(CPU_INSERT, 5, own[MAX_IN_SET])),
        ("IOMMU one more", 16, of_region(IOMMU_INSERT, 5, own[MAX_IN_SET])),
        ("IOMMU the GIC", 16, of_region(IOMMU_INSERT, 5, G)),
        ("CPU the GIC", 11, of_region(CPU_INSERT, 5, G)),
        ("CPU another's", 11, of_region(CPU_INSERT, 5, B)),
        ("CPU what is there", 13, of_region(CPU_INSERT, 5, own[0])),
        ("CPU one less", 0, of_region(CPU_REMOVE, 5, own[3])),
    ] {
        book.owners = Some(owners_to(&owners));
        book.change_to(config, table_words(&full));
        book.ask_request(format!("a full set, {name}"), request).known(number);
    }
}

fn translations(book: &mut Book) {
    for (name, zone, side, address, number, places) in [
        ("its own, CPU", 5, 0, A.v.0 + 5, 0, [A.p.0 + 5, A.size - 5]),
        ("its own, IOMMU", 5, 1, A.v.0, 0, [A.p.0, A.size]),
        ("the GIC", 6, 2, G.v.0 + G.size - 1, 0, [G.p.0 + G.size - 1, 1]),
        ("what it owns and does not hold", 6, 1, B.v.0, 18, [0, 0]),
        ("past the end", 5, 0, A.v.0 + A.size, 18, [0, 0]),
        ("no zone", 7, 0, A.v.0, 6, [0, 0]),
        ("id 256", 256, 0, A.v.0, 4, [0, 0]),
    ] {
        stand_at(book, &OWNERS, &held());
        book.ask_translation(format!("translated: {name}"), zone, side, address).known_with(number, places);
    }
    for (name, number, owners, zones) in
        [("a wrong owner", 1, [5, 6, 5, 5, 6], held().to_vec()), ("another's region", 2, OWNERS, vec![zone(5, &[B], &[])])]
    {
        stand_at(book, &owners, &zones);
        book.ask_translation(format!("translated: {name}"), 5, 0, A.v.0).known_with(number, [0, 0]);
    }
}

// ---- random runs

/// A drawn configuration with owners: most regions belong to one of three zones.
fn owned_config(rng: &mut Rng, ids: &[u32]) -> Config {
    let plain = sound_config(rng, 8);
    let mut owners: Vec<u32> = plain.regions.iter().map(|_| *rng.pick(ids)).collect();
    owners[plain.gic] = GIC_OWNER;
    Config { plain, owners }
}

/// Another owner, of a region or past the count; most often a wrong one.
fn poke_owners(rng: &mut Rng, book: &mut Book, count: usize) {
    let owners = book.owners.as_mut().expect("owners");
    let place = rng.below(count + 2);
    owners[place] = *rng.pick(&[0, 5, MAX_ID, MAX_ID + 1, GIC_OWNER - 1, GIC_OWNER]);
}

fn runs(book: &mut Book, rng: &mut Rng) {
    let ids = [0, 5, MAX_ID];
    let inserts = [CPU_INSERT, IOMMU_INSERT];
    let kinds = [&[ADD_ZONE, REMOVE_ZONE, CPU_REMOVE, IOMMU_REMOVE][..], &inserts.repeat(3)].concat();
    for n in 0..8 {
        let config = owned_config(rng, &ids);
        let words = config.plain.to_words();
        book.change_to(words, table_words(&[Zone::empty(0), Zone::empty(5)]));
        for step in 0..40 {
            book.owners = Some(config.owner_words());
            let request = random_request(rng, &kinds, &ids, &config.plain.regions);
            let name = format!("run {n}, {step}");
            if rng.one_in(12) {
                ask_poked(book, rng, &words, config.owners.len(), name, request);
            } else {
                book.ask_request(name, request);
            }
        }
    }
}

/// The request at other words or owners, after which the run goes on from its own.
fn ask_poked(book: &mut Book, rng: &mut Rng, config: &ConfigWords, count: usize, name: String, request: Record) {
    let before: TableWords = book.table;
    match rng.below(3) {
        0 => book.change_to(poke_config(rng, config), before),
        1 => book.change_to(*config, poke_table(rng, &before)),
        _ => poke_owners(rng, book, count),
    }
    book.ask_request(name + ", poked", request);
    book.change_to(*config, before);
}
