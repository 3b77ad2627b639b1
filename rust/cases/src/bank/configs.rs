//! Cases for the configuration check with owners, chosen by hand: C7, what it comes before and after, and C3 of owners.

use ordinary::bank::{Owners, GIC_OWNER};
use ordinary::layout::{config_record, CONFIG_COUNT, CONFIG_GIC};
use ordinary::limits::{MAX_ID, MAX_REGIONS, PAGE, PHYS_REACH};
use ordinary::{ConfigWords, Region};

use crate::book::Book;
use crate::given::{config_words, with_word, P, RIGHTS, SIZE, V};

/// The last position.
const LAST: usize = MAX_REGIONS - 1;

/// Numbers that are no id, the GIC's own left out.
const NO_IDS: [(&str, u32); 5] =
    [("256", MAX_ID + 1), ("2^16 + 5", (1 << 16) + 5), ("2^31", 1 << 31), ("5 + 2^24", 5 + (1 << 24)), ("2^32 - 2", GIC_OWNER - 1)];

pub fn add(book: &mut Book) {
    sound(book);
    wrong(book);
    the_gics(book);
    past_the_count(book);
    before(book);
    after(book);
}

/// So many regions of one page each, all at guest address 0.
fn config(count: usize, gic: usize) -> ConfigWords {
    let regions: Vec<Region> = (0..count as u64).map(|i| Region::new(0, i * 2 * PAGE, PAGE, 3)).collect();
    config_words(&regions, gic)
}

/// Owners of as many: ids in turn, and the GIC's own.
fn owners(count: usize, gic: usize) -> Owners {
    std::array::from_fn(|place| match place {
        _ if place == gic => GIC_OWNER,
        _ if place < count => place as u32 % (MAX_ID + 1),
        _ => 0,
    })
}

fn with(mut owners: Owners, place: usize, owner: u32) -> Owners {
    owners[place] = owner;
    owners
}

/// Asks for the number and place of the check.
fn ask(book: &mut Book, name: impl Into<String>, config: ConfigWords, owners: Owners, number: u32, place: usize) {
    book.owners = Some(owners);
    book.ask_config(name, config).known_with(number, [place as u64, 0]);
}

fn sound(book: &mut Book) {
    ask(book, "the GIC alone", config(1, 0), owners(1, 0), 0, 0);
    for (name, gic) in [("first", 0), ("middle", LAST / 2), ("last", LAST)] {
        ask(book, format!("{MAX_REGIONS} regions, the GIC {name}"), config(MAX_REGIONS, gic), owners(MAX_REGIONS, gic), 0, 0);
    }
    for (name, owner) in [("0", 0), ("255", MAX_ID)] {
        let all = owners(MAX_REGIONS, 0).map(|of| if of == GIC_OWNER { of } else { owner });
        ask(book, format!("zone {name} owns all"), config(MAX_REGIONS, 0), all, 0, 0);
    }
}

/// C7 of a region that is not the GIC's: it has no id, or the GIC's own number.
fn wrong(book: &mut Book) {
    let gic = 7;
    for (at, place) in [("first", 0), ("before the GIC", gic - 1), ("behind the GIC", gic + 1), ("last", LAST)] {
        for (name, owner) in NO_IDS.into_iter().chain([("2^32 - 1", GIC_OWNER)]) {
            let owners = with(owners(MAX_REGIONS, gic), place, owner);
            ask(book, format!("{at}, owner {name}"), config(MAX_REGIONS, gic), owners, 7, place);
        }
    }
    for (name, places) in [("3 and 5", [3, 5]), ("5 and the GIC's", [5, gic]), ("the GIC's and 9", [gic, 9])] {
        let two = places.into_iter().fold(owners(MAX_REGIONS, gic), |owners, place| with(owners, place, 256));
        ask(book, format!("wrong owners at {name}"), config(MAX_REGIONS, gic), two, 7, places[0]);
    }
}

/// C7 of the GIC's region: it has an id, or any number but its own.
fn the_gics(book: &mut Book) {
    for (at, gic) in [("first", 0), ("in the middle", 100), ("last", LAST)] {
        for (name, owner) in [("0", 0), ("5", 5), ("255", MAX_ID)].into_iter().chain(NO_IDS) {
            let owners = with(owners(MAX_REGIONS, gic), gic, owner);
            ask(book, format!("the GIC {at}, its owner {name}"), config(MAX_REGIONS, gic), owners, 7, gic);
        }
    }
    for (name, to, place) in [("up", 9, 7), ("down", 3, 3)] {
        ask(book, format!("the GIC moved {name}, its owner left behind"), config(20, to), owners(20, 7), 7, place);
    }
}

/// C3: the first position past the count where the record is used, or the owner.
fn past_the_count(book: &mut Book) {
    let (three, of_three) = (config(3, 0), owners(3, 0));
    for (name, place) in [("after the count", 3), ("in the middle", 100), ("last", LAST)] {
        for (text, owner) in [("1", 1), ("256", 256), ("2^32 - 1", GIC_OWNER)] {
            ask(book, format!("an unused owner {name} is {text}"), three, with(of_three, place, owner), 3, place);
        }
    }
    for (record, owner) in [(3, 4), (4, 3), (9, 9), (LAST, 3), (3, LAST)] {
        let words = with_word(three, config_record(record) + RIGHTS, 1);
        let name = format!("record {record} used, and owner {owner}");
        ask(book, name, words, with(of_three, owner, 5), 3, record.min(owner));
    }
    ask(book, "a record used, no owner", with_word(three, config_record(8) + V, 1), of_three, 3, 8);
    ask(book, "an unused owner before a wrong one", three, with(with(of_three, 1, 256), 200, 1), 3, 200);
    ask(book, "an owner too many", config(3, 0), owners(4, 0), 3, 3);
    ask(book, "an owner 0 is none too many", config(3, 0), with(owners(4, 0), 3, 0), 0, 0);
}

/// C1 and C2 come before owners.
fn before(book: &mut Book) {
    let wrong = with(owners(20, 7), 3, 256);
    let used = with(wrong, 30, 1);
    for (name, owners) in [("right owners", owners(20, 7)), ("a wrong owner", wrong), ("a wrong and an unused owner", used)] {
        let count = |count: u64| with_word(config(20, 7), CONFIG_COUNT, count);
        ask(book, format!("none counted, {name}"), count(0), owners, 1, 0);
        ask(book, format!("a region too many counted, {name}"), count(MAX_REGIONS as u64 + 1), owners, 1, 0);
        ask(book, format!("2^64 - 1 counted, {name}"), count(u64::MAX), owners, 1, 0);
        for (text, gic) in [("the count", 20), ("2^32 + 7", (1 << 32) + 7), ("2^64 - 1", u64::MAX)] {
            ask(book, format!("GIC at {text}, {name}"), with_word(config(20, 7), CONFIG_GIC, gic), owners, 2, 0);
        }
    }
}

/// C4 to C6 come after owners, wherever they stand.
fn after(book: &mut Book) {
    let faults = [("form", 4, SIZE, 0), ("rights", 4, RIGHTS, 8), ("reach", 5, P, PHYS_REACH), ("overlap", 6, P, 0)];
    for (name, number, word, x) in faults {
        for place in [3, LAST] {
            let words = with_word(config(MAX_REGIONS, 7), config_record(place) + word, x);
            ask(book, format!("{name} at {place}, right owners"), words, owners(MAX_REGIONS, 7), number, place);
            for wrong in [0, 3, 7, LAST] {
                let owners = with(owners(MAX_REGIONS, 7), wrong, 300);
                ask(book, format!("{name} at {place}, a wrong owner at {wrong}"), words, owners, 7, wrong);
            }
        }
    }
}
