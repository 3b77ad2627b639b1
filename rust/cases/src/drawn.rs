//! Pseudo-random cases of the two checks: sound configurations and tables, made unsound now and then by small changes.

use ordinary::layout::{config_record, set_count, set_record, zone_id, CONFIG_COUNT, CONFIG_GIC, REGION_WORDS, TABLE_COUNT};
use ordinary::limits::{MAX_ID, MAX_IN_SET, MAX_REGIONS, MAX_ZONES, PAGE};
use ordinary::{Config, ConfigWords, Region, Side, Table, TableWords, Zone, TABLE_WORDS};

use crate::book::Book;
use crate::given::{reach_of, table_words, with_p, with_v, with_word, P, RIGHTS, SIZE, V};
use crate::rng::Rng;

const SIDES: [Side; 2] = [Side::Cpu, Side::Iommu];

pub fn add(book: &mut Book, rng: &mut Rng) {
    config_pokes(book, rng);
    table_pokes(book, rng);
    changes_in_turn(book, rng);
    small_tables(book, rng);
}

// ---- configurations

/// Most often to read and write; each of the others now and then.
fn some_rights(rng: &mut Rng) -> u64 {
    *rng.pick(&[1, 2, 3, 3, 3, 3, 3, 3, 4, 5, 6, 7])
}

/// Up to `most` regions: some adjoin, some share guest addresses, some end where reach ends, some have other rights.
pub fn sound_config(rng: &mut Rng, most: usize) -> Config {
    let mut regions = Vec::new();
    let mut p = *rng.pick(&[0, PAGE, 0x8000_0000]);
    for _ in 0..1 + rng.below(most) {
        p += rng.pick(&[0, 0, PAGE, 16 * PAGE]);
        let size = rng.pick(&[1, 1, 2, 3, 16]) * PAGE;
        regions.push(Region::new(rng.below(24) as u64 * PAGE, p, size, some_rights(rng)));
        p += size;
    }
    let last = regions.last_mut().expect("at least one region");
    if rng.one_in(4) {
        *last = with_p(*last, reach_of(P) - last.size);
    }
    if rng.one_in(4) {
        *last = with_v(*last, reach_of(V) - last.size);
    }
    rng.shuffle(&mut regions);
    let gic = rng.below(regions.len());
    Config { regions, gic }
}

/// Another number in a word that matters: a count, the GIC's position, a record in use, the first and the last that is not.
pub fn poke_config(rng: &mut Rng, words: &ConfigWords) -> ConfigWords {
    let used = (words[CONFIG_COUNT] as usize).min(MAX_REGIONS);
    let mut places = (0..used).collect::<Vec<_>>().repeat(4);
    places.extend([used.min(MAX_REGIONS - 1), MAX_REGIONS - 1]);
    let record = config_record(*rng.pick(&places));
    let of_record = [record + V, record + P, record + P, record + SIZE, record + RIGHTS].repeat(4);
    let at = *rng.pick(&[&[CONFIG_COUNT, CONFIG_GIC], &of_record[..]].concat());
    if at == CONFIG_COUNT || at == CONFIG_GIC {
        const MOST: u64 = MAX_REGIONS as u64;
        let used = used as u64;
        return with_word(*words, at, *rng.pick(&[0, 1, used.max(1) - 1, used, used + 1, MOST, MOST + 1, u64::MAX]));
    }
    if at == record + RIGHTS {
        return with_word(*words, at, rng.below(10) as u64);
    }
    let other = config_record(*rng.pick(&places));
    let near = [words[other + at - record], words[other + rng.below(REGION_WORDS)], words[at].wrapping_add(PAGE)];
    let reach = reach_of(at - record);
    let edges = [0, 1, PAGE, reach - PAGE, reach, PAGE.wrapping_neg(), u64::MAX];
    with_word(*words, at, *rng.pick(&[&near[..], &near, &edges].concat()))
}

fn config_pokes(book: &mut Book, rng: &mut Rng) {
    for base in 0..10 {
        let words = sound_config(rng, 8).to_words();
        book.ask_config(format!("sound {base}"), words).known(0);
        for n in 0..12 {
            let mut bad = poke_config(rng, &words);
            if n % 2 == 1 {
                bad = poke_config(rng, &bad);
            }
            book.ask_config(format!("sound {base}, poke {n}"), bad);
        }
    }
}

// ---- tables: zones as lists, which may hold anything that there is room for

fn is_sound(config: &Config, zones: &[Zone]) -> bool {
    Table { zones: zones.to_vec() }.is_sound(config)
}

/// Now and then an id that is there, or one too high.
fn some_id(rng: &mut Rng, zones: &[Zone]) -> u32 {
    if rng.one_in(4) {
        let odd: Vec<u32> = zones.iter().map(|zone| zone.id).chain([MAX_ID + 1]).collect();
        return *rng.pick(&odd);
    }
    let any = rng.below(MAX_ID as usize) as u32;
    *rng.pick(&[0, MAX_ID, any])
}

fn some_set<'a>(rng: &mut Rng, zones: &'a mut [Zone]) -> &'a mut Vec<Region> {
    let z = rng.below(zones.len());
    match rng.pick(&SIDES) {
        Side::Cpu => &mut zones[z].cpu,
        Side::Iommu => &mut zones[z].iommu,
    }
}

/// Puts some configured region at the end of some set, whether or not the rules allow it.
fn insert(rng: &mut Rng, config: &Config, zones: &mut [Zone]) {
    let set = some_set(rng, zones);
    set.push(*rng.pick(&config.regions));
}

/// A small change at random.
fn changed(rng: &mut Rng, config: &Config, zones: &[Zone]) -> Vec<Zone> {
    let mut zones = zones.to_vec();
    if zones.is_empty() || zones.len() < MAX_ZONES && rng.one_in(6) {
        let id = some_id(rng, &zones);
        zones.push(Zone::empty(id));
    } else if rng.one_in(6) {
        some_set(rng, &mut zones).pop();
    } else {
        insert(rng, config, &mut zones);
    }
    zones
}

/// One empty zone after some changes, those left out that would make the table unsound.
pub fn sound_zones(rng: &mut Rng, config: &Config, changes: usize) -> Vec<Zone> {
    let mut zones = vec![Zone::empty(rng.below(MAX_ID as usize + 1) as u32)];
    for _ in 0..changes {
        let after = changed(rng, config, &zones);
        if is_sound(config, &after) {
            zones = after;
        }
    }
    zones
}

/// Another number in a word that matters, in a zone that is in use or just past those.
pub fn poke_table(rng: &mut Rng, words: &TableWords) -> TableWords {
    let just_past = |count: u64, most: usize| count.saturating_add(1).min(most as u64) as usize;
    let z = rng.below(just_past(words[TABLE_COUNT], MAX_ZONES));
    let side = *rng.pick(&SIDES);
    let count = set_count(z, side);
    let record = set_record(z, side, rng.below(just_past(words[count], MAX_IN_SET)));
    let of_record = [record + V, record + P, record + SIZE, record + RIGHTS].repeat(3);
    let at = *rng.pick(&[&[TABLE_COUNT, zone_id(z), count, TABLE_WORDS - 1], &of_record[..]].concat());
    if at == TABLE_COUNT || at == count {
        let (more, less) = (words[at].wrapping_add(1), words[at].saturating_sub(1));
        let [zones, in_set] = [MAX_ZONES, MAX_IN_SET].map(|most| most as u64);
        return with_word(*words, at, *rng.pick(&[0, 1, more, less, zones, zones + 1, in_set, in_set + 1, u64::MAX]));
    }
    if at == zone_id(z) {
        return with_word(*words, at, *rng.pick(&[0, 1, 255, 256, u64::MAX, words[zone_id(0)]]));
    }
    if at == record + RIGHTS {
        return with_word(*words, at, rng.below(10) as u64);
    }
    let other = set_record(rng.below(2), *rng.pick(&SIDES), rng.below(2)) + rng.below(REGION_WORDS);
    let reach = reach_of(at - record);
    with_word(*words, at, *rng.pick(&[0, 1, PAGE, reach - PAGE, reach, u64::MAX, words[other], words[at]]))
}

fn table_pokes(book: &mut Book, rng: &mut Rng) {
    for base in 0..8 {
        let config = sound_config(rng, 6);
        let table = table_words(&sound_zones(rng, &config, 12));
        let config = config.to_words();
        book.ask_table(format!("base {base}"), config, table).known(1);
        for n in 0..14 {
            let name = format!("base {base}, poke {n}");
            if n % 7 == 6 {
                book.ask_table(name, poke_config(rng, &config), table);
                continue;
            }
            let mut bad = poke_table(rng, &table);
            if n % 2 == 1 {
                bad = poke_table(rng, &bad);
            }
            book.ask_table(name, config, bad);
        }
    }
}

/// One change after another, each that made the table unsound taken back.
fn changes_in_turn(book: &mut Book, rng: &mut Rng) {
    for walk in 0..5 {
        let config = sound_config(rng, 8);
        let mut zones = Vec::new();
        for n in 0..24 {
            let after = changed(rng, &config, &zones);
            book.ask_table(format!("walk {walk}, {n}"), config.to_words(), table_words(&after));
            if is_sound(&config, &after) {
                zones = after;
            }
        }
    }
}

/// Small sound tables, most with one region more in some set, which leaves about half of them sound.
fn small_tables(book: &mut Book, rng: &mut Rng) {
    let mut config = Config { regions: Vec::new(), gic: 0 };
    for n in 0..40 {
        if n % 8 == 0 {
            config = sound_config(rng, 4);
        }
        let mut zones = sound_zones(rng, &config, 5);
        if n % 4 != 0 {
            insert(rng, &config, &mut zones);
        }
        book.ask_table(format!("table {n}"), config.to_words(), table_words(&zones));
    }
}
