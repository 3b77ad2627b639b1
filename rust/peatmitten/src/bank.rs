//! Terminals with owners, the bank variant: each region but the GIC's belongs to one zone, and no other zone may hold it. This is the second library;
//! a plan for its terminals has an owners section, and no mark that says so.
//!
//! ```
//! use peatmitten::bank::{Config, State, GIC_OWNER};
//! use peatmitten::{Refusal, Region, Request, Side, Table};
//!
//! let memory = Region::new(0x4000_0000, 0x8000_0000, 0x20_0000, 3);
//! let gic = Region::new(0x0800_0000, 0x0800_0000, 0x1_0000, 3);
//! let config = Config::new(&[(memory, 5), (gic, GIC_OWNER)], 1).expect("few enough regions");
//! assert_eq!(config.check(), Ok(()));
//!
//! let mut table = Table::new();
//! for zone in [5, 6] {
//!     assert_eq!(config.request(&mut table, Request::add_zone(zone)), Ok(()));
//!     assert_eq!(config.request(&mut table, Request::insert(zone, Side::Iommu, gic)), Ok(()));
//! }
//! assert_eq!(config.request(&mut table, Request::insert(5, Side::Cpu, memory)), Ok(()));
//! assert_eq!(config.request(&mut table, Request::insert(6, Side::Cpu, memory)), Err(Refusal::NotConfigured));
//! ```

use std::error::Error;
use std::fmt;

use crate::answers::{self, PlanRefusal, ReadFault, Refusal};
use crate::config;
use crate::limits::MOST_REGIONS;
use crate::raw::bank as raw;
use crate::region::{ByteCount, Guest, Physical, Region};
use crate::request::{Request, Side};
use crate::storage::Stored;
use crate::table::{Table, Translated};

/// What stands as owner of the GIC's region, and of it only.
pub const GIC_OWNER: u32 = u32::MAX;

/// How long a plan with owners can be; a longer file is none.
pub const LONGEST_PLAN: usize = 62880;

/// Owners as numbers of memory: one for each region that there can be, 0 past the count.
pub type Owners = [u32; MOST_REGIONS];

/// The regions that zones may be given, which of them is the GIC's, and an owner for each. It may hold any numbers; [`Config::check`] says whether
/// it is sound.
#[derive(Clone, Debug, PartialEq, Eq)]
#[repr(C)]
pub struct Config {
    plain: config::Config,
    owners: Owners,
}

/// The first fault of a configuration with owners: C1 to C7.
#[derive(Clone, Copy, Debug, PartialEq, Eq, Hash)]
pub enum ConfigFault {
    /// C1 to C6. C3 is also an owner past the count that is not 0.
    Plain(answers::ConfigFault),
    /// C7: an owner is not the id of a zone; or, at the GIC's position, not [`GIC_OWNER`].
    Owner {
        /// The region.
        place: u64,
    },
}

impl ConfigFault {
    const OWNER: u32 = 7;

    fn from_library(number: u32, places: [u64; 2]) -> Result<(), ConfigFault> {
        match number {
            ConfigFault::OWNER => Err(ConfigFault::Owner { place: places[0] }),
            _ => answers::ConfigFault::from_library(number, places).map_err(ConfigFault::Plain),
        }
    }

    /// The document's number: 1 for C1.
    pub fn number(&self) -> u32 {
        match self {
            ConfigFault::Plain(fault) => fault.number(),
            ConfigFault::Owner { .. } => ConfigFault::OWNER,
        }
    }

    /// The document's two places, 0 where it uses none.
    pub fn places(&self) -> [u64; 2] {
        match *self {
            ConfigFault::Plain(fault) => fault.places(),
            ConfigFault::Owner { place } => [place, 0],
        }
    }
}

impl fmt::Display for ConfigFault {
    fn fmt(&self, f: &mut fmt::Formatter) -> fmt::Result {
        match self {
            ConfigFault::Plain(answers::ConfigFault::NotZero { place }) => {
                write!(f, "record {place} or its owner is past the count and not all zero")
            }
            ConfigFault::Plain(fault) => fault.fmt(f),
            ConfigFault::Owner { place } => write!(f, "the owner of region {place} is wrong"),
        }
    }
}

impl Error for ConfigFault {}

impl Config {
    /// A configuration of these regions with their owners, of which the GIC's stands at the position `gic`. None if there are more than
    /// [`MOST_REGIONS`].
    pub fn new(owned: &[(Region, u32)], gic: u64) -> Option<Config> {
        let regions: Vec<Region> = owned.iter().map(|(region, _)| *region).collect();
        let plain = config::Config::new(&regions, gic)?;
        let mut owners = [0; MOST_REGIONS];
        for (place, (_, owner)) in owners.iter_mut().zip(owned) {
            *place = *owner;
        }
        Some(Config { plain, owners })
    }

    /// A configuration of any words and owners.
    pub const fn from_parts(plain: config::Config, owners: Owners) -> Config {
        Config { plain, owners }
    }

    /// The regions and the GIC's position.
    pub const fn plain(&self) -> &config::Config {
        &self.plain
    }

    /// The owners.
    pub const fn owners(&self) -> &Owners {
        &self.owners
    }

    /// The first fault, if the configuration is not sound.
    pub fn check(&self) -> Result<(), ConfigFault> {
        let (number, places) = raw::check_config(&self.plain, &self.owners);
        ConfigFault::from_library(number, places)
    }

    /// Whether the configuration is sound and the table is sound under it, each zone with regions that it owns alone, but for the GIC's on the
    /// IOMMU side.
    pub fn is_sound(&self, table: &Table) -> bool {
        raw::check_table(&self.plain, &self.owners, table) == 1
    }

    /// Makes one request. The table is changed if it is accepted, and else as it was. An insert of a region that the zone does not own is
    /// [`Refusal::NotConfigured`]; [`Refusal::OverGic`] and [`Refusal::PhysicalOverlap`] do not occur.
    pub fn request(&self, table: &mut Table, request: Request) -> Result<(), Refusal> {
        let number = raw::request(&self.plain, &self.owners, table, request.kind(), request.zone(), &request.region().words());
        Refusal::from_library(number)
    }

    /// Where a guest address of a zone comes out, and how far that goes on.
    pub fn translate(&self, table: &Table, zone: u32, side: Side, address: Guest) -> Result<Translated, Refusal> {
        let (number, [physical, remaining]) =
            raw::translate_words(&self.plain, &self.owners, table, zone, side.number(), address.0);
        Refusal::from_library(number).map(|()| Translated { physical: Physical(physical), remaining: ByteCount(remaining) })
    }
}

impl Stored for Config {
    type Refusal = PlanRefusal;

    fn beside(&self, current: &Table, other: &mut Table, mark: u32, plan: &[u8]) -> Result<(u32, u64), PlanRefusal> {
        let (number, [next, place, inner]) = raw::beside_words(&self.plain, &self.owners, current, other, mark, plan);
        // A mark has 32 bits.
        PlanRefusal::from_library(number, place, inner).map(|()| (next as u32, place))
    }
}

/// What a terminal keeps. Its memory is that of the C library's `peatmitten_bank_state`.
#[derive(Clone, Debug, PartialEq, Eq)]
#[repr(C)]
pub struct State {
    /// Its configuration, with owners.
    pub config: Config,
    /// Its zones.
    pub table: Table,
    /// Its edition, which each accepted plan raises by one.
    pub edition: u32,
}

impl State {
    /// A terminal that has applied nothing: edition 0, no zones.
    pub const fn new(config: Config) -> State {
        State { config, table: Table::new(), edition: 0 }
    }

    /// Applies a plan with owners and says how many requests it had. A refused plan leaves the state as it was.
    ///
    /// A plan that was damaged in its requests alone may still be accepted: check a signature first.
    pub fn apply(&mut self, plan: &[u8]) -> Result<u64, PlanRefusal> {
        let Config { plain, owners } = &self.config;
        let (number, [place, inner]) = raw::apply_words(plain, owners, &mut self.table, &mut self.edition, plan);
        PlanRefusal::from_library(number, place, inner).map(|()| place)
    }
}

/// Reads a plan with owners, without a terminal, and says at which offset its first request record stands or would stand.
pub fn read_plan(plan: &[u8]) -> Result<u64, ReadFault> {
    let (number, place) = raw::read(plan);
    ReadFault::from_library(number, place).map(|()| place)
}
