//! Cases for the configuration check, chosen by hand.

use ordinary::layout::{config_record, CONFIG_COUNT, CONFIG_GIC};
use ordinary::limits::{GUEST_REACH, MAX_REGIONS, PAGE, PHYS_REACH};
use ordinary::{ConfigWords, Region, CONFIG_WORDS};

use crate::book::Book;
use crate::given::{config_words, with_rights, with_word, A, ALL_RIGHTS, AT_THE_REACHES, B, C, G, P, RIGHTS, SIZE, V};

/// The last page of 64-bit addresses.
const LAST_PAGE: u64 = PAGE.wrapping_neg();

/// The last position.
const LAST: usize = MAX_REGIONS - 1;

pub fn add(book: &mut Book) {
    few(book);
    past_the_count(book);
    many(book);
    for (place, i) in [("first", 0), ("middle", LAST / 2), ("last", LAST)] {
        one_fault(book, place, i);
    }
    reaches(book);
    rights(book);
    overlaps(book);
    two_faults(book);
    desk(book);
}

/// So many regions of one page each, every second page left free, all at guest address 0; position 0 is the GIC.
fn sound(count: usize) -> ConfigWords {
    let regions: Vec<Region> = (0..count).map(|i| Region::new(0, start(i), PAGE, 3)).collect();
    config_words(&regions, 0)
}

/// Where region i of these starts.
fn start(i: usize) -> u64 {
    i as u64 * 2 * PAGE
}

/// As many as a configuration can have.
fn all() -> ConfigWords {
    sound(MAX_REGIONS)
}

/// Other numbers in records; each poke is a position, a word of the record and a number.
fn poked(words: ConfigWords, pokes: &[(usize, usize, u64)]) -> ConfigWords {
    pokes.iter().fold(words, |words, &(i, word, x)| with_word(words, config_record(i) + word, x))
}

fn few(book: &mut Book) {
    book.ask_config("all zero", [0; CONFIG_WORDS]);
    book.ask_config("no region, GIC at 2^64 - 1", with_word(sound(0), CONFIG_GIC, u64::MAX));
    book.ask_config("one region", sound(1));
    book.ask_config("two regions", sound(2));
}

fn past_the_count(book: &mut Book) {
    for (name, word) in [("v", V), ("p", P), ("size", SIZE), ("rights", RIGHTS)] {
        book.ask_config(format!("{name} after the count"), poked(sound(3), &[(3, word, 1)]));
        book.ask_config(format!("{name} in the last record"), poked(sound(3), &[(LAST, word, u64::MAX)]));
    }
    book.ask_config("two used records past the count", poked(sound(3), &[(40, V, 1), (5, P, 1)]));
    book.ask_config("a whole region past the count", poked(sound(3), &[(3, P, start(3)), (3, SIZE, PAGE)]));
    book.ask_config("a used record, GIC at the count", with_word(poked(sound(3), &[(3, V, 1)]), CONFIG_GIC, 3));
    book.ask_config("a used record, size 0 at 0", poked(sound(3), &[(9, V, 1), (0, SIZE, 0)]));
}

fn many(book: &mut Book) {
    let most = MAX_REGIONS as u64;
    book.ask_config(format!("{LAST} regions"), sound(LAST)).known(0);
    book.ask_config(format!("{most} regions"), all()).known(0);
    for (text, count) in [
        ("0".into(), 0),
        (format!("{}", most - 2), most - 2),
        (format!("2^32 + {most}"), (1 << 32) + most),
        ("2^64 - 1".into(), u64::MAX),
    ] {
        book.ask_config(format!("{text} counted"), with_word(all(), CONFIG_COUNT, count));
    }
    for (count, number) in [(most - 1, 3), (most, 0), (most + 1, 1)] {
        book.ask_config(format!("{count} counted, all there"), with_word(all(), CONFIG_COUNT, count)).known(number);
    }
    for (text, gic) in [(&*LAST.to_string(), most - 1), ("the count", most), ("2^32", 1 << 32), ("2^64 - 1", u64::MAX)] {
        book.ask_config(format!("GIC at {text}"), with_word(all(), CONFIG_GIC, gic));
    }
}

/// One fault at position i of as many as there can be, or a number that is just no fault.
fn one_fault(book: &mut Book, place: &str, i: usize) {
    for (name, word, x) in [
        ("size 0", SIZE, 0),
        ("size 0x1800", SIZE, 0x1800),
        ("size 2^40", SIZE, GUEST_REACH),
        ("size 2^48", SIZE, PHYS_REACH),
        ("size 2^64 - 4096", SIZE, LAST_PAGE),
        ("v 1", V, 1),
        ("p 2^64 - 1", P, u64::MAX),
        ("v 2^40", V, GUEST_REACH),
        ("v 2^48", V, PHYS_REACH),
        ("p 2^48", P, PHYS_REACH),
        ("p 2^64 - 4096", P, LAST_PAGE),
        ("v ends at 2^40", V, GUEST_REACH - PAGE),
        ("v ends at 2^48", V, PHYS_REACH - PAGE),
        ("p ends at 2^48", P, PHYS_REACH - PAGE),
        ("rights 0", RIGHTS, 0),
        ("all rights", RIGHTS, ALL_RIGHTS),
        ("rights 8", RIGHTS, 8),
        ("rights 3 + 2^32", RIGHTS, 3 + (1 << 32)),
        ("rights 2^64 - 1", RIGHTS, u64::MAX),
    ] {
        book.ask_config(format!("{place}, {name}"), poked(all(), &[(i, word, x)]));
    }
}

/// The GIC, and a region at an edge of a reach.
fn reaches(book: &mut Book) {
    for (name, region, is_in_reach) in AT_THE_REACHES {
        book.ask_config(name, config_words(&[G, region], 0)).known(if is_in_reach { 0 } else { 5 });
    }
}

/// The GIC with each number as its rights: a configuration may have what no zone may hold.
fn rights(book: &mut Book) {
    for rights in 0..=2 * ALL_RIGHTS {
        let number = if (1..=ALL_RIGHTS).contains(&rights) { 0 } else { 4 };
        book.ask_config(format!("rights {rights}"), config_words(&[with_rights(G, rights)], 0)).known(number);
    }
}

fn overlaps(book: &mut Book) {
    for (name, pokes) in [
        ("1 equals 0", &[(1, P, 0)][..]),
        ("31 equals 30", &[(31, P, start(30))]),
        ("the last equals 0", &[(LAST, P, 0)]),
        ("the last equals the one before", &[(LAST, P, start(LAST - 1))]),
        ("the last equals 40 and 7 encloses 8", &[(LAST, P, start(40)), (7, SIZE, 4 * PAGE)]),
        ("40 encloses 3 to 5", &[(40, P, 5 * PAGE), (40, SIZE, 7 * PAGE)]),
        ("40 lies in 3", &[(3, SIZE, 2 * PAGE), (40, P, 7 * PAGE)]),
        ("40 meets the end of 3", &[(3, SIZE, 2 * PAGE), (40, P, 5 * PAGE), (40, SIZE, 2 * PAGE)]),
        ("3 encloses 4", &[(3, SIZE, 4 * PAGE)]),
        ("3 ends where 4 starts", &[(3, SIZE, 2 * PAGE)]),
        ("guest addresses shared by all", &[]),
    ] {
        book.ask_config(name, poked(all(), pokes));
    }
}

/// The lower position counts, and at one position the lower number.
fn two_faults(book: &mut Book) {
    let faults = [("form", SIZE, 0), ("rights", RIGHTS, 0), ("reach", P, PHYS_REACH), ("overlap", P, 0)];
    for (first, at_3, x) in faults {
        for (second, at_5, y) in faults.into_iter().filter(|fault| fault.0 != first) {
            book.ask_config(format!("{first} at 3, {second} at 5"), poked(all(), &[(3, at_3, x), (5, at_5, y)]));
        }
    }
    book.ask_config("form and reach at 3", poked(all(), &[(3, V, 1), (3, P, PHYS_REACH)]));
    book.ask_config("form and overlap at 3", poked(all(), &[(3, V, 1), (3, P, 0)]));
    book.ask_config("reach and overlap at 3", poked(all(), &[(3, V, GUEST_REACH), (3, P, 0)]));
    let no_size = poked(all(), &[(0, SIZE, 0)]);
    book.ask_config("none counted, size 0 at 0", with_word(no_size, CONFIG_COUNT, 0));
    book.ask_config("GIC at the count, size 0 at 0", with_word(no_size, CONFIG_GIC, MAX_REGIONS as u64));
}

/// The desk's A, B, C and G, so many counted, with the GIC at a position and a region put at another.
fn desk(book: &mut Book) {
    let no_form = Region::new(0, 0, 0x1800, 3);
    let at_reach = Region::new((1 << 40) - PAGE, (1 << 48) - PAGE, PAGE, 3);
    for (name, number, places, count, gic, at, region) in [
        ("as it is", 0, [0, 0], 4, 3, 0, A),
        ("none counted", 1, [0, 0], 0, 3, 0, A),
        ("one too many counted", 1, [0, 0], MAX_REGIONS as u64 + 1, 3, 0, A),
        ("GIC at the count", 2, [0, 0], 4, 4, 0, A),
        ("size 0x1800 past the count", 3, [4, 0], 4, 3, 4, no_form),
        ("size 0x1800 for C", 4, [2, 0], 4, 3, 2, no_form),
        ("an end past 2^64 for C", 5, [2, 0], 4, 3, 2, Region::new(0, LAST_PAGE, 2 * PAGE, 3)),
        ("both ends at the reaches for C", 0, [0, 0], 4, 3, 2, at_reach),
        ("a guest end past its reach for C", 5, [2, 0], 4, 3, 2, Region::new(GUEST_REACH, 0, PAGE, 3)),
        ("a physical end past its reach for C", 5, [2, 0], 4, 3, 2, Region::new(0, PHYS_REACH, PAGE, 3)),
        ("B for C", 6, [2, 1], 4, 3, 2, B),
    ] {
        let mut regions = vec![A, B, C, G, Region::ZERO];
        regions[at] = region;
        let words = with_word(config_words(&regions, gic), CONFIG_COUNT, count);
        book.ask_config(format!("desk: {name}"), words).known_with(number, places);
    }
}
