//! Cases for translation: the edges of regions on both sides, with how far each goes on, and what is refused before any region is looked
//! at.

use std::collections::BTreeSet;

use ordinary::layout::{zone_id, CONFIG_COUNT, CONFIG_GIC};
use ordinary::limits::{GUEST_REACH, MAX_ID, MAX_ZONES, PAGE, PHYS_REACH};
use ordinary::{ConfigWords, Region, TableWords};

use crate::book::Book;
use crate::case::Case;
use crate::drawn::{sound_config, sound_zones};
use crate::given::{config_words, table_words, with_word, zone, G};
use crate::rng::Rng;

const ZEROTH: Region = Region::new(0, 0x7000_0000, PAGE, 3);
const LOW: Region = Region::new(0x4000_0000, 0x8000_0000, 2 * PAGE, 3);
/// Its guest addresses adjoin those of LOW, its physical ones do not.
const NEXT: Region = Region::new(0x4000_2000, 0x7fff_0000, PAGE, 3);
/// Shares guest addresses with LOW and NEXT.
const SHIFTED: Region = Region::new(0x4000_1000, 0x9000_0000, 4 * PAGE, 3);
/// Shares guest addresses with LOW and NEXT too, and goes on past the end of LOW.
const WHOLE: Region = Region::new(0x4000_0000, 0xa000_0000, 3 * PAGE, 3);
/// Both its ends are where reach ends.
const LAST: Region = Region::new(GUEST_REACH - PAGE, PHYS_REACH - PAGE, PAGE, 3);

/// The sides with their numbers.
const SIDES: [(&str, u32); 2] = [("cpu", 0), ("iommu", 1)];

/// Zone, side and address, then the number, the physical address and what remains, worked out by hand: the first byte of a region, the next,
/// the last, and the end, at which a region that adjoins it goes on elsewhere; each side as far as its own region.
const BY_HAND: [(u32, u32, u64, u32, [u64; 2]); 16] = [
    (5, 0, 0x4000_0000, 0, [0x8000_0000, 0x2000]),
    (5, 0, 0x4000_0001, 0, [0x8000_0001, 0x1fff]),
    (5, 0, 0x4000_1fff, 0, [0x8000_1fff, 1]),
    (5, 0, 0x4000_2000, 0, [0x7fff_0000, 0x1000]),
    (5, 0, 0x4000_2001, 0, [0x7fff_0001, 0xfff]),
    (5, 0, 0x4000_2fff, 0, [0x7fff_0fff, 1]),
    (5, 0, 0x4000_3000, 18, [0, 0]),
    (5, 1, 0x4000_0000, 0, [0xa000_0000, 0x3000]),
    (5, 1, 0x4000_0001, 0, [0xa000_0001, 0x2fff]),
    (5, 1, 0x4000_1fff, 0, [0xa000_1fff, 0x1001]),
    (5, 1, 0x4000_2000, 0, [0xa000_2000, 0x1000]),
    (5, 1, 0x4000_2fff, 0, [0xa000_2fff, 1]),
    (5, 1, 0x4000_3000, 18, [0, 0]),
    (5, 0, GUEST_REACH - 1, 0, [PHYS_REACH - 1, 1]),
    (5, 0, GUEST_REACH, 18, [0, 0]),
    (0, 1, 0, 0, [0x7000_0000, PAGE]),
];

pub fn add(book: &mut Book, rng: &mut Rng) {
    edges(book);
    refused_early(book);
    random_addresses(book, rng);
}

fn config() -> ConfigWords {
    config_words(&[ZEROTH, LOW, G, NEXT, SHIFTED, LAST, WHOLE], 2)
}

fn table() -> TableWords {
    table_words(&[zone(5, &[LOW, NEXT, LAST], &[WHOLE, G]), zone(0, &[], &[G, ZEROTH]), zone(MAX_ID, &[SHIFTED], &[SHIFTED])])
}

/// The first and the last address, one before and one after, and one inside.
fn edges_of(region: Region) -> Vec<u64> {
    let v = region.v.0;
    v.checked_sub(1).into_iter().chain([v, v + 1, v + region.size - 1, v + region.size]).collect()
}

fn edges(book: &mut Book) {
    book.change_to(config(), table());
    for (id, regions) in [(5, &[LOW, NEXT, LAST, WHOLE, G][..]), (0, &[G, ZEROTH]), (MAX_ID, &[SHIFTED])] {
        let mut addresses = BTreeSet::from([0, LOW.p.0, PHYS_REACH, 1 << 63, PAGE.wrapping_neg(), u64::MAX]);
        addresses.extend(regions.iter().flat_map(|&region| edges_of(region)));
        for address in addresses {
            for (name, side) in SIDES {
                book.ask_translation(format!("{name} of {id}, {address:#x}"), id, side, address);
            }
        }
    }
    for side in [2, 0x80, 255] {
        book.ask_translation(format!("side {side}"), 5, side, G.v.0);
    }
    for (id, side, address, number, places) in BY_HAND {
        let edge = Case::translate(config(), table(), id, side, address);
        book.named.iter_mut().find(|named| named.case == edge).expect("an edge of a region").known_with(number, places);
    }
}

fn refused_early(book: &mut Book) {
    let bad_config = with_word(config(), CONFIG_GIC, 7);
    let bad_table = with_word(table(), zone_id(0), 256);
    let left = with_word(table(), zone_id(MAX_ZONES - 1), 1);
    for (name, config, table) in [
        ("sound", config(), table()),
        ("unsound configuration", bad_config, table()),
        ("none configured", with_word(config(), CONFIG_COUNT, 0), table()),
        ("unsound table", config(), bad_table),
        ("an unused zone not zero", config(), left),
        ("both unsound", bad_config, bad_table),
        ("no zone", config(), table_words(&[])),
    ] {
        book.change_to(config, table);
        for id in [5, 7, 256 + 5, u32::MAX] {
            book.ask_translation(format!("{name}, cpu of {id}"), id, 0, LOW.v.0);
            book.ask_translation(format!("{name}, iommu of {id}"), id, 1, u64::MAX);
        }
    }
}

fn random_addresses(book: &mut Book, rng: &mut Rng) {
    for n in 0..5 {
        let config = sound_config(rng, 6);
        let zones = sound_zones(rng, &config, 16);
        book.change_to(config.to_words(), table_words(&zones));
        for k in 0..16 {
            let zone = rng.pick(&zones);
            let (_, side) = *rng.pick(&SIDES);
            let held = [&zone.cpu[..], &zone.iommu].concat();
            let mut address = rng.below(40 * PAGE as usize) as u64;
            if !held.is_empty() && !rng.one_in(3) {
                let region = *rng.pick(&held);
                let inside = region.v.0 + rng.below(region.size as usize) as u64;
                address = *rng.pick(&[edges_of(region), vec![inside]].concat());
            }
            let id = if rng.one_in(12) { rng.below(MAX_ID as usize + 3) as u32 } else { zone.id };
            book.ask_translation(format!("random {n}, {k}"), id, side, address);
        }
    }
}
