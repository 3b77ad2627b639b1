//! Cases for the table check, chosen by hand.

use ordinary::layout::{config_record, set_count, set_record, zone_id, CONFIG_COUNT, CONFIG_GIC, TABLE_COUNT};
use ordinary::limits::{MAX_IN_SET, MAX_REGIONS, MAX_ZONES, PAGE};
use ordinary::{ConfigWords, Region, Side, TableWords, Zone, TABLE_WORDS};

use crate::book::Book;
use crate::given::{
    all_empty, config_words, held_words, table_words, with_rights, with_size, with_word, zone, Held, A, ALL_RIGHTS, AT_THE_REACHES,
    B, C, EXCESSIVE, G, P, RIGHTS, SIZE, V,
};
use crate::rng::Rng;

pub fn add(book: &mut Book) {
    configurations(book);
    counts(book);
    ids(book);
    unused(book);
    configured(book);
    reaches(book);
    rights(book);
    guests(book);
    shared(book);
    full(book);
    any_words(book);
    desk(book);
    desk_zones(book);
}

/// The last position of a configuration.
const LAST: u64 = MAX_REGIONS as u64 - 1;

/// The last zone of a table, and the last record of a set.
const LAST_ZONE: usize = MAX_ZONES - 1;
const LAST_IN_SET: usize = MAX_IN_SET - 1;

/// Configured region k, of a page: 0 is the GIC, and the last two share guest addresses.
fn region(k: u64) -> Region {
    let p = if k == 0 { 0x0800_0000 } else { 0x8000_0000 + k * 2 * PAGE };
    Region::new(0x4000_0000 + k.min(LAST - 1) * 2 * PAGE, p, PAGE, 3)
}

fn config() -> ConfigWords {
    config_of(MAX_REGIONS as u64)
}

fn config_of(count: u64) -> ConfigWords {
    config_words(&(0..count).map(region).collect::<Vec<_>>(), 0)
}

const FIVE: Held = (5, &[1, 2], &[1, 0]);
const SIX: Held = (6, &[3], &[0]);

fn table(zones: &[Held]) -> TableWords {
    held_words(zones, region)
}

fn base() -> TableWords {
    table(&[FIVE, SIX])
}

fn ask(book: &mut Book, name: &str, words: TableWords) {
    book.ask_table(name, config(), words);
}

// One table for each reason to be unsound, and the same repaired.

fn configurations(book: &mut Book) {
    let (none, config) = (table(&[]), config());
    ask(book, "no zone", none);
    book.ask_table("no zone, 0 configured", with_word(config, CONFIG_COUNT, 0), none);
    ask(book, "two zones with regions", base());
    let most = MAX_REGIONS as u64;
    book.ask_table(format!("{} configured", most + 1), with_word(config, CONFIG_COUNT, most + 1), base());
    book.ask_table("GIC at the count", with_word(config, CONFIG_GIC, most), base());
    book.ask_table("two configured regions overlap", with_word(config, config_record(9) + P, region(8).p.0), base());
    book.ask_table("another GIC, which a CPU set holds", with_word(config, CONFIG_GIC, 2), base());
    book.ask_table("another GIC, and 0 in two zones", with_word(config, CONFIG_GIC, 9), base());
    ask(book, "repaired", base());
}

fn counts(book: &mut Book) {
    let (zones, all) = (MAX_ZONES as u64, table_words(&all_empty()));
    let fewer: Vec<Zone> = all_empty().into_iter().take(LAST_ZONE).collect();
    book.ask_table(format!("{LAST_ZONE} zones"), config(), table_words(&fewer)).known(1);
    for (count, is_sound) in [(zones - 1, 0), (zones, 1), (zones + 1, 0)] {
        book.ask_table(format!("{count} zones counted, {zones} there"), config(), with_word(all, TABLE_COUNT, count))
            .known(is_sound);
    }
    ask(book, &format!("2^32 + {zones} zones counted"), with_word(all, TABLE_COUNT, (1 << 32) + zones));
    ask(book, "2^64 - 1 zones counted", with_word(all, TABLE_COUNT, u64::MAX));
    let most = MAX_IN_SET as u64;
    let (low, high): (Vec<u64>, Vec<u64>) = ((1..1 + most).collect(), (1 + most..1 + 2 * most).collect());
    let full = table(&[(1, &low, &high)]);
    for (side, name) in [(Side::Cpu, "CPU"), (Side::Iommu, "IOMMU")] {
        for (count, text) in [(most + 1, &*(most + 1).to_string()), (1 << 32, "2^32"), (u64::MAX, "2^64 - 1")] {
            ask(book, &format!("{text} regions counted, {name}"), with_word(full, set_count(0, side), count));
        }
    }
    ask(book, &format!("{most} and {most} regions counted"), full);
}

fn ids(book: &mut Book) {
    ask(book, "id 256", with_word(base(), zone_id(0), 256));
    ask(book, "id 2^32 + 5", with_word(base(), zone_id(0), (1 << 32) + 5));
    ask(book, "id 255", with_word(base(), zone_id(0), 255));
    ask(book, "id 256 at the second zone", with_word(base(), zone_id(1), 256));
    ask(book, "id 0 at the second zone", with_word(base(), zone_id(1), 0));
    ask(book, "the first id again", with_word(base(), zone_id(1), 5));
    ask(book, "the first id again at the third", table(&[FIVE, SIX, (5, &[], &[])]));
    ask(book, "the second id again at the third", table(&[FIVE, SIX, (6, &[], &[])]));
    ask(book, "another id at the third", table(&[FIVE, SIX, (7, &[], &[])]));
}

fn unused(book: &mut Book) {
    for (name, at) in [
        ("v in an unused record", set_record(0, Side::Cpu, 2) + V),
        ("p in an unused record", set_record(1, Side::Iommu, 1) + P),
        ("size in an unused record", set_record(0, Side::Iommu, 2) + SIZE),
        ("rights in an unused record", set_record(1, Side::Cpu, 1) + RIGHTS),
        ("size in a set's last record", set_record(1, Side::Cpu, LAST_IN_SET) + SIZE),
        ("id in an unused zone", zone_id(2)),
        ("CPU count in an unused zone", set_count(2, Side::Cpu)),
        ("IOMMU count in the last zone", set_count(LAST_ZONE, Side::Iommu)),
        ("v in an unused zone", set_record(2, Side::Cpu, 0) + V),
        ("p in the last zone", set_record(LAST_ZONE, Side::Cpu, LAST_IN_SET) + P),
        ("the last word", TABLE_WORDS - 1),
    ] {
        ask(book, name, with_word(base(), at, 1));
        ask(book, "repaired", base());
    }
    ask(book, "one region less counted", with_word(base(), set_count(0, Side::Cpu), 1));
    ask(book, "one zone less counted", with_word(base(), TABLE_COUNT, 1));
    ask(book, "its words gone too", table(&[FIVE]));
}

fn configured(book: &mut Book) {
    let held = set_record(0, Side::Cpu, 1);
    for (name, at, x) in [
        ("v of a held region off by a page", held + V, region(2).v.0 + PAGE),
        ("p of a held region off by a page", held + P, region(2).p.0 + PAGE),
        ("size of a held region doubled", held + SIZE, 2 * PAGE),
        ("rights of a held region 1", held + RIGHTS, 1),
        ("rights of a held region 3 + 2^32", held + RIGHTS, 3 + (1 << 32)),
        ("v of one, p of another", held + P, region(9).p.0),
        ("v of a held region 0", set_record(1, Side::Cpu, 0) + V, 0),
        ("an IOMMU region not configured", set_record(1, Side::Iommu, 0) + P, 4 * PAGE),
    ] {
        ask(book, name, with_word(base(), at, x));
        ask(book, "repaired", base());
    }
    let zero_held = with_word(base(), set_count(1, Side::Cpu), 2);
    ask(book, "a zero record counted", zero_held);
    book.ask_table("the same with an unused configured record", config_of(MAX_REGIONS as u64 - 1), zero_held);
    book.ask_table("held but no longer configured", with_word(config(), config_record(3) + V, 0), base());
    ask(book, "repaired", base());
}

/// A zone that holds a region at an edge of a reach on both sides, where the region is configured.
fn reaches(book: &mut Book) {
    for (name, region, is_in_reach) in AT_THE_REACHES {
        let words = table_words(&[zone(5, &[region], &[region])]);
        book.ask_table(format!("{name}, held"), config_words(&[G, region], 0), words).known(is_in_reach.into());
    }
}

/// A zone that holds a region of each rights, on one side; the GIC is not exempt.
fn rights(book: &mut Book) {
    for rights in 1..=ALL_RIGHTS {
        let (region, gic) = (with_rights(A, rights), with_rights(G, rights));
        for (side, held, excessive) in [
            ("CPU", zone(5, &[region], &[]), EXCESSIVE[0]),
            ("IOMMU", zone(5, &[], &[region]), EXCESSIVE[1]),
            ("IOMMU GIC", zone(5, &[], &[gic]), EXCESSIVE[1]),
        ] {
            let is_sound = !excessive.contains(&rights);
            let words = table_words(&[held]);
            book.ask_table(format!("{side}, rights {rights}"), config_words(&[gic, region], 0), words).known(is_sound.into());
        }
    }
}

/// The last two configured regions share guest addresses.
fn guests(book: &mut Book) {
    const TWIN: u64 = LAST - 1;
    ask(book, "the last two in a CPU set", table(&[(5, &[1, TWIN, LAST], &[1, 0]), SIX]));
    ask(book, "the last two in an IOMMU set, the last first", table(&[(5, &[1], &[LAST, 0, TWIN]), SIX]));
    ask(book, "the last but one CPU, the last IOMMU", table(&[(5, &[1, TWIN], &[1, 0, LAST]), SIX]));
    ask(book, "the last two in two zones", table(&[(5, &[1, TWIN], &[1, 0]), (6, &[3, LAST], &[0])]));
    ask(book, "a region twice in a set", table(&[(5, &[1, 2, 1], &[1, 0]), SIX]));
    ask(book, "the GIC twice in a set", table(&[(5, &[1, 2], &[0, 1, 0]), SIX]));
    ask(book, "each once", table(&[(5, &[1, 2], &[1, 0]), SIX]));
}

fn shared(book: &mut Book) {
    ask(book, "the GIC on the CPU side", table(&[FIVE, (6, &[3, 0], &[])]));
    ask(book, "the GIC on the IOMMU side", table(&[FIVE, (6, &[3], &[0])]));
    ask(book, "CPU region CPU elsewhere", table(&[FIVE, (6, &[3, 2], &[0])]));
    ask(book, "CPU region IOMMU elsewhere", table(&[FIVE, (6, &[3], &[0, 2])]));
    ask(book, "IOMMU region CPU elsewhere", table(&[(5, &[1, 2], &[1, 0, 3]), SIX]));
    ask(book, "IOMMU region IOMMU elsewhere", table(&[(5, &[2], &[0, 1]), (6, &[3], &[0, 1])]));
    ask(book, "shared by first and third zone", table(&[FIVE, SIX, (7, &[], &[0, 1])]));
    ask(book, "shared by second and third zone", table(&[FIVE, SIX, (7, &[4, 3], &[0])]));
    ask(book, "held by nobody else", table(&[FIVE, SIX, (7, &[4], &[0, 4])]));
    ask(book, "a region on both sides of a zone", table(&[(5, &[1, 2], &[1, 0, 2]), SIX]));
}

/// Zones with both sets full, as far as the regions but the GIC go, and one more; the last two regions do not go together.
fn full(book: &mut Book) {
    const IN_SET: u64 = MAX_IN_SET as u64;
    const FULL: u64 = LAST / IN_SET;
    let shares: Vec<Vec<u64>> = (0..FULL).map(|z| (1 + IN_SET * z..1 + IN_SET * (z + 1)).collect()).collect();
    let full: Vec<Held> = shares.iter().zip(0..).map(|(own, id)| (id, &own[..], &own[..])).collect();
    let left: Vec<u64> = (1 + IN_SET * FULL..LAST).collect();
    let most = [&[LAST], &left[..left.len() - 1], &[0]].concat();
    let with_last = |iommu: &[u64]| table(&[&full[..], &[(FULL as u32, &left[..], iommu)]].concat());
    ask(book, &format!("{FULL} full zones"), table(&full));
    ask(book, "and one more with all that is left", with_last(&most));
    ask(book, "and the first region again", with_last(&[&most[..], &[1]].concat()));
    ask(book, &format!("{MAX_ZONES} full zones, some regions shared"), full_of_regions());
}

fn full_of_regions() -> TableWords {
    let zones: Vec<Zone> = (0..MAX_ZONES)
        .map(|z| {
            let held: Vec<Region> = (0..MAX_IN_SET).map(|i| region((MAX_IN_SET * z + i) as u64 % (LAST - 2) + 1)).collect();
            zone(z as u32, &held, &held)
        })
        .collect();
    table_words(&zones)
}

/// Words without a plan in the first zones, and what the last table left in the others; then they get ever closer to a table.
fn any_words(book: &mut Book) {
    let mut rng = Rng::new(0);
    let mut words = full_of_regions();
    words[..zone_id(2)].fill_with(|| rng.word());
    ask(book, "any words", words);
    words[TABLE_COUNT] = 2;
    ask(book, "any words, 2 zones", words);
    for z in [0, 1] {
        for side in [Side::Cpu, Side::Iommu] {
            words[set_count(z, side)] = 1;
        }
    }
    ask(book, "any words, counts 2 and 1", words);
}

/// The document's desk examples, as the tables that their requests would give, with its own answers.
fn desk(book: &mut Book) {
    let config = config_words(&[A, B, C, G], 3);
    let short = with_size(A, 0x1000);
    for (name, is_sound, five, six) in [
        ("CPU A to 5", true, zone(5, &[A], &[]), zone(6, &[], &[])),
        ("CPU A to 5 again", false, zone(5, &[A, A], &[]), zone(6, &[], &[])),
        ("CPU A and IOMMU A to 5", true, zone(5, &[A], &[A]), zone(6, &[], &[])),
        ("then IOMMU A to 6", false, zone(5, &[A], &[A]), zone(6, &[], &[A])),
        ("CPU A to 5 and to 6", false, zone(5, &[A], &[]), zone(6, &[A], &[])),
        ("CPU A to 5, CPU B to 6", true, zone(5, &[A], &[]), zone(6, &[B], &[])),
        ("CPU G to 5", false, zone(5, &[G], &[]), zone(6, &[], &[])),
        ("IOMMU G to 5 and to 6", true, zone(5, &[], &[G]), zone(6, &[], &[G])),
        ("IOMMU G to 5 again", false, zone(5, &[], &[G, G]), zone(6, &[], &[G])),
        ("CPU A and C to 5", false, zone(5, &[A, C], &[]), zone(6, &[], &[])),
        ("CPU A to 5, CPU C to 6", true, zone(5, &[A], &[]), zone(6, &[C], &[])),
        ("CPU A with size 0x1000 to 5", false, zone(5, &[short], &[]), zone(6, &[], &[])),
    ] {
        book.ask_table(name, config, table_words(&[five, six])).known(is_sound.into());
    }
}

/// The desk's zones, empty; under four regions, and under none counted.
fn desk_zones(book: &mut Book) {
    let four = config_words(&[A, B, C, G], 3);
    let none = with_word(four, CONFIG_COUNT, 0);
    for (name, is_sound, config, ids) in [
        ("no zones", true, four, &[][..]),
        ("5 and 6", true, four, &[5, 6]),
        ("5 and 6 under no regions", false, none, &[5, 6]),
        ("6 and 6", false, four, &[6, 6]),
        ("255 and 6", true, four, &[255, 6]),
        ("256 and 6", false, four, &[256, 6]),
    ] {
        let zones: Vec<Zone> = ids.iter().copied().map(Zone::empty).collect();
        book.ask_table(format!("desk: {name}"), config, table_words(&zones)).known(is_sound.into());
    }
}
