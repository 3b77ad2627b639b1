//! What many cases are made from: the document's regions, and short ways to write words, zones and requests.

use ordinary::limits::{GUEST_REACH, MAX_ZONES, PAGE, PHYS_REACH};
use ordinary::{Config, ConfigWords, Guest, Phys, Record, Region, Rights, Table, TableWords, Zone};

// The desk's regions; G is the GIC's.
pub const A: Region = Region::new(0x4000_0000, 0x8000_0000, 0x20_0000, 3);
pub const B: Region = Region::new(0x4000_0000, 0x8020_0000, 0x20_0000, 3);
pub const C: Region = Region::new(0x4010_0000, 0x9000_0000, 0x20_0000, 3);
pub const G: Region = Region::new(0x0800_0000, 0x0800_0000, 0x1_0000, 3);

/// Regions on both sides of each reach, and whether they are in reach, all by the document's own numbers. None overlaps the desk's.
pub const AT_THE_REACHES: [(&str, Region, bool); 9] = [
    ("guest end 2^40", Region::new((1 << 40) - PAGE, 0x7000_0000, PAGE, 3), true),
    ("guest end 2^40 + 4096", Region::new(1 << 40, 0x7000_0000, PAGE, 3), false),
    ("guest end 2^48", Region::new((1 << 48) - PAGE, 0x7000_0000, PAGE, 3), false),
    ("physical end 2^40 + 4096", Region::new(0, 1 << 40, PAGE, 3), true),
    ("physical end 2^48", Region::new(0, (1 << 48) - PAGE, PAGE, 3), true),
    ("physical end 2^48 + 4096", Region::new(0, 1 << 48, PAGE, 3), false),
    ("guest end 2^40, physical end 2^48", Region::new((1 << 40) - PAGE, (1 << 48) - PAGE, PAGE, 3), true),
    ("size 2^40", Region::new(0, 1 << 40, 1 << 40, 3), true),
    ("size 2^40 + 4096", Region::new(0, 1 << 40, (1 << 40) + PAGE, 3), false),
];

// The kinds of a request.
pub const ADD_ZONE: u32 = 1;
pub const REMOVE_ZONE: u32 = 2;
pub const CPU_INSERT: u32 = 3;
pub const CPU_REMOVE: u32 = 4;
pub const IOMMU_INSERT: u32 = 5;
pub const IOMMU_REMOVE: u32 = 6;

/// Read, write and execute together.
pub const ALL_RIGHTS: u64 = 7;

/// The rights that are too many on the CPU side, and on the IOMMU side.
pub const EXCESSIVE: [&[u64]; 2] = [&[6, 7], &[4, 5, 6, 7]];

// The words of a record, in order.
pub const V: usize = 0;
pub const P: usize = 1;
pub const SIZE: usize = 2;
pub const RIGHTS: usize = 3;

/// The reach that a word of a record meets first: the physical one for p; the guest one, which is the lower, for the others.
pub fn reach_of(word: usize) -> u64 {
    if word == P {
        PHYS_REACH
    } else {
        GUEST_REACH
    }
}

pub fn config_words(regions: &[Region], gic: usize) -> ConfigWords {
    Config { regions: regions.to_vec(), gic }.to_words()
}

pub fn table_words(zones: &[Zone]) -> TableWords {
    Table { zones: zones.to_vec() }.to_words()
}

pub fn zone(id: u32, cpu: &[Region], iommu: &[Region]) -> Zone {
    Zone { id, cpu: cpu.to_vec(), iommu: iommu.to_vec() }
}

/// A zone: its id and the configured regions of its CPU and of its IOMMU set, by their positions.
pub type Held<'a> = (u32, &'a [u64], &'a [u64]);

/// The words of zones whose regions are given by position; `region` says which one stands there.
pub fn held_words(zones: &[Held], region: fn(u64) -> Region) -> TableWords {
    let regions = |positions: &[u64]| positions.iter().map(|&k| region(k)).collect::<Vec<_>>();
    let zones: Vec<Zone> = zones.iter().map(|(id, cpu, iommu)| zone(*id, &regions(cpu), &regions(iommu))).collect();
    table_words(&zones)
}

/// As many zones as there can be, with ids from 0 on, all of them empty.
pub fn all_empty() -> Vec<Zone> {
    (0..MAX_ZONES as u32).map(Zone::empty).collect()
}

/// A request for a whole zone, or one whose region is zero.
pub fn of_zone(kind: u32, zone: u32) -> Record {
    Record { kind, zone, region: Region::ZERO }
}

pub fn of_region(kind: u32, zone: u32, region: Region) -> Record {
    Record { kind, zone, region }
}

/// The same words but for one.
pub fn with_word<const N: usize>(mut words: [u64; N], at: usize, word: u64) -> [u64; N] {
    words[at] = word;
    words
}

// The same region but for one of its numbers.

pub fn with_v(region: Region, v: u64) -> Region {
    Region { v: Guest(v), ..region }
}

pub fn with_p(region: Region, p: u64) -> Region {
    Region { p: Phys(p), ..region }
}

pub fn with_size(region: Region, size: u64) -> Region {
    Region { size, ..region }
}

pub fn with_rights(region: Region, rights: u64) -> Region {
    Region { rights: Rights(rights), ..region }
}
