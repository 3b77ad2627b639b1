use std::fmt;

use crate::answers::Refusal;
use crate::config::Config;
use crate::limits::{MOST_IN_SET, MOST_ZONES};
use crate::raw;
use crate::region::{ByteCount, Guest, Physical, Region};
use crate::request::{Request, Side};

const SET_WORDS: usize = 1 + MOST_IN_SET * Region::WORDS;
const ZONE_WORDS: usize = 1 + 2 * SET_WORDS;
const COUNT: usize = 0;
const ZONES: usize = 1;

/// How many words a table is.
pub const TABLE_WORDS: usize = ZONES + MOST_ZONES * ZONE_WORDS;

/// The zones and the regions that they hold, as words of memory: the count, then [`MOST_ZONES`] zones, each an id, a CPU set and an
/// IOMMU set, a set being a count and [`MOST_IN_SET`] regions. It may hold any numbers; [`Table::is_sound`] says whether it is sound.
///
/// ```
/// use peatmitten::{ByteCount, Config, Guest, Physical, Refusal, Region, Request, Side, Table};
///
/// let memory = Region::new(0x4000_0000, 0x8000_0000, 0x20_0000, 3);
/// let gic = Region::new(0x0800_0000, 0x0800_0000, 0x1_0000, 3);
/// let config = Config::new(&[memory, gic], 1).expect("few enough regions");
///
/// let mut table = Table::new();
/// assert_eq!(table.request(&config, Request::add_zone(5)), Ok(()));
/// assert_eq!(table.request(&config, Request::insert(5, Side::Cpu, memory)), Ok(()));
/// assert_eq!(table.request(&config, Request::insert(5, Side::Cpu, gic)), Err(Refusal::OverGic));
///
/// let address = Guest(0x4000_1234);
/// let translated = table.translate(&config, 5, Side::Cpu, address).expect("the region covers it");
/// assert_eq!(translated.physical, Physical(0x8000_1234));
/// assert_eq!(translated.remaining, ByteCount(0x20_0000 - 0x1234));
/// assert_eq!(table.translate(&config, 5, Side::Iommu, address), Err(Refusal::NotCovered));
/// ```
#[derive(Clone, PartialEq, Eq)]
#[repr(transparent)]
pub struct Table {
    words: [u64; TABLE_WORDS],
}

/// Where a guest address of a zone comes out, and how far that goes on.
#[derive(Clone, Copy, Debug, PartialEq, Eq, Hash)]
pub struct Translated {
    /// The physical address.
    pub physical: Physical,
    /// How many bytes of the covering region there are from the address on, itself counted: at least 1. For every `i` below it, the
    /// guest address plus `i` comes out at the physical address plus `i`, and no such sum wraps. At its end another region may go on,
    /// elsewhere in physical addresses: who needs more asks again there, as `examples/copy_stretch.rs` does.
    pub remaining: ByteCount,
}

/// A zone of a table, to look at.
#[derive(Clone, Copy)]
pub struct Zone<'a> {
    words: &'a [u64],
}

impl Table {
    /// A table without zones.
    pub const fn new() -> Table {
        Table { words: [0; TABLE_WORDS] }
    }

    /// A table of any words.
    pub const fn from_words(words: [u64; TABLE_WORDS]) -> Table {
        Table { words }
    }

    /// The words.
    pub const fn words(&self) -> &[u64; TABLE_WORDS] {
        &self.words
    }

    /// Whether the configuration is sound and the table is sound under it.
    pub fn is_sound(&self, config: &Config) -> bool {
        raw::check_table(config, self) == 1
    }

    /// Makes one request. The table is changed if it is accepted, and else as it was.
    pub fn request(&mut self, config: &Config, request: Request) -> Result<(), Refusal> {
        let number = raw::request(config, self, request.kind(), request.zone(), request.region().words());
        Refusal::from_library(number)
    }

    /// Where a guest address of a zone comes out, and how far that goes on.
    pub fn translate(&self, config: &Config, zone: u32, side: Side, address: Guest) -> Result<Translated, Refusal> {
        let (number, [physical, remaining]) = raw::translate_words(config, self, zone, side.number(), address.0);
        Refusal::from_library(number).map(|()| Translated { physical: Physical(physical), remaining: ByteCount(remaining) })
    }

    /// The zones in order, at most [`MOST_ZONES`].
    pub fn zones(&self) -> impl Iterator<Item = Zone<'_>> {
        let count = usize::try_from(self.words[COUNT]).unwrap_or(MOST_ZONES);
        self.words[ZONES..].chunks_exact(ZONE_WORDS).take(count).map(|words| Zone { words })
    }
}

impl Default for Table {
    fn default() -> Table {
        Table::new()
    }
}

impl fmt::Debug for Table {
    fn fmt(&self, f: &mut fmt::Formatter) -> fmt::Result {
        let zones: Vec<Zone> = self.zones().collect();
        f.debug_struct("Table").field("count", &self.words[COUNT]).field("zones", &zones).finish()
    }
}

impl<'a> Zone<'a> {
    /// Its id.
    pub fn id(&self) -> u64 {
        self.words[0]
    }

    /// The regions of one of its sets in order, at most 16.
    pub fn regions(&self, side: Side) -> impl Iterator<Item = Region> + 'a {
        let set = match side {
            Side::Cpu => &self.words[1..1 + SET_WORDS],
            Side::Iommu => &self.words[1 + SET_WORDS..],
        };
        let count = usize::try_from(set[0]).unwrap_or(MOST_IN_SET);
        Region::in_words(&set[1..]).take(count)
    }
}

impl fmt::Debug for Zone<'_> {
    fn fmt(&self, f: &mut fmt::Formatter) -> fmt::Result {
        let set = |side: Side| self.regions(side).collect::<Vec<Region>>();
        f.debug_struct("Zone").field("id", &self.id()).field("cpu", &set(Side::Cpu)).field("iommu", &set(Side::Iommu)).finish()
    }
}
