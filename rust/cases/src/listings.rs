//! Cases for the map listing, chosen by hand, with the lengths of their lines.

use ordinary::limits::{GUEST_REACH, PAGE, PHYS_REACH};
use ordinary::{Region, Zone};

use crate::book::Book;
use crate::given::{config_words, table_words, zone, A, B, C, G};

/// Physical start and guest start as far apart as they can be, either way.
const LOW: Region = Region::new(GUEST_REACH - PAGE, 0, PAGE, 5);
const HIGH: Region = Region::new(0, PHYS_REACH - PAGE, PAGE, 1);

/// The document's line: `5 CPU 0x0000000040000000 0x0000000080000000 0x0000000000200000 3 262144`.
const LINE: u64 = 2 + 4 + 3 * 19 + 2 + 7;

pub fn add(book: &mut Book) {
    let config = config_words(&[A, B, C, G, LOW, HIGH], 3);
    let mut ask = |name: &str, zones: &[Zone], room: u64, number: u32, length: u64| {
        book.change_to(config, table_words(zones));
        book.ask_listing(format!("listed: {name}"), room as usize).known_with(number, [length, 0]);
    };
    let five = [zone(5, &[A], &[])];
    ask("the document's line", &five, LINE, 0, LINE);
    ask("the same into a longer buffer", &five, LINE + 9, 0, LINE);
    ask("into one a byte too short", &five, LINE - 1, 28, 0);
    ask("into one of no bytes", &five, 0, 28, 0);
    ask("no zones, no line, no room needed", &[], 0, 0, 0);
    ask("a zone without regions has no line", &[zone(5, &[], &[]), zone(6, &[], &[])], 0, 0, 0);
    // `6 IOMMU .. 3 0`
    ask("devices after the processor, and shift 0", &[zone(5, &[A], &[G]), zone(6, &[], &[G])], 300, 0, LINE + 2 * (LINE + 2 - 5));
    // `255 CPU .. 5 -268435455` and `255 CPU .. 1 68719476735`
    ask("the lowest shift and the highest", &[zone(255, &[LOW, HIGH], &[])], 300, 0, (LINE + 2 + 4) + (LINE + 2 + 5));
    ask("a region that is not configured comes before the room", &[zone(5, &[Region::new(PAGE, PAGE, PAGE, 3)], &[])], 0, 2, 0);
    book.change_to(config_words(&[A, A], 0), table_words(&[zone(256, &[], &[])]));
    book.ask_listing("listed: an unsound configuration comes before an unsound table", 0).known_with(1, [0, 0]);
}
