//! The library's answers as enums. Each has the document's number, and says in words what it means.

use std::error::Error;
use std::fmt;

/// The first fault of a configuration: C1 to C6. Places are positions from 0.
#[derive(Clone, Copy, Debug, PartialEq, Eq, Hash)]
pub enum ConfigFault {
    /// C1: there is no region, or there are more than a configuration can have.
    Count,
    /// C2: the GIC's position is not below the count.
    Gic,
    /// C3: a record past the count is not all zero.
    NotZero {
        /// The record.
        place: u64,
    },
    /// C4: a region is not well formed.
    Form {
        /// The region.
        place: u64,
    },
    /// C5: a region ends above 2^40 in guest addresses, or above 2^48 in physical ones.
    Reach {
        /// The region.
        place: u64,
    },
    /// C6: a region overlaps an earlier one physically.
    Overlap {
        /// The region.
        place: u64,
        /// The lowest earlier one that it overlaps.
        earlier: u64,
    },
}

impl ConfigFault {
    pub(crate) fn from_library(number: u32, [place, earlier]: [u64; 2]) -> Result<(), ConfigFault> {
        Err(match number {
            0 => return Ok(()),
            1 => ConfigFault::Count,
            2 => ConfigFault::Gic,
            3 => ConfigFault::NotZero { place },
            4 => ConfigFault::Form { place },
            5 => ConfigFault::Reach { place },
            6 => ConfigFault::Overlap { place, earlier },
            _ => not_an_answer(number),
        })
    }

    /// The document's number: 1 for C1.
    pub fn number(&self) -> u32 {
        match self {
            ConfigFault::Count => 1,
            ConfigFault::Gic => 2,
            ConfigFault::NotZero { .. } => 3,
            ConfigFault::Form { .. } => 4,
            ConfigFault::Reach { .. } => 5,
            ConfigFault::Overlap { .. } => 6,
        }
    }

    /// The document's two places, 0 where it uses none.
    pub fn places(&self) -> [u64; 2] {
        match *self {
            ConfigFault::Count | ConfigFault::Gic => [0, 0],
            ConfigFault::NotZero { place } | ConfigFault::Form { place } | ConfigFault::Reach { place } => [place, 0],
            ConfigFault::Overlap { place, earlier } => [place, earlier],
        }
    }
}

impl fmt::Display for ConfigFault {
    fn fmt(&self, f: &mut fmt::Formatter) -> fmt::Result {
        match self {
            ConfigFault::Count => write!(f, "the configuration has no region, or more than it can have"),
            ConfigFault::Gic => write!(f, "the GIC's position is not below the count of regions"),
            ConfigFault::NotZero { place } => write!(f, "record {place} is past the count and not all zero"),
            ConfigFault::Form { place } => write!(f, "region {place} is not well formed"),
            ConfigFault::Reach { place } => write!(f, "region {place} is out of reach"),
            ConfigFault::Overlap { place, earlier } => write!(f, "region {place} overlaps region {earlier} physically"),
        }
    }
}

impl Error for ConfigFault {}

/// Why a request or a translation is refused: 1 to 19.
#[derive(Clone, Copy, Debug, PartialEq, Eq, PartialOrd, Ord, Hash)]
#[repr(u32)]
pub enum Refusal {
    /// 1: the configuration is unsound.
    UnsoundConfig = 1,
    /// 2: the table is unsound.
    UnsoundTable = 2,
    /// 3: the kind is not 1 to 6, or there is a nonzero region with kind 1 or 2.
    NoRequest = 3,
    /// 4: the zone id is above 255.
    ZoneIdTooHigh = 4,
    /// 5: the zone is already there.
    ZoneThere = 5,
    /// 6: there is no such zone.
    NoZone = 6,
    /// 7: all zones of the table are in use.
    ZonesFull = 7,
    /// 8: either set of the zone holds a region.
    ZoneInUse = 8,
    /// 9: the region is not well formed.
    Form = 9,
    /// 10: the region ends above 2^40 in guest addresses, or above 2^48 in physical ones.
    Reach = 10,
    /// 11: the region is not equal to a configured one.
    NotConfigured = 11,
    /// 12: the CPU region overlaps the GIC physically.
    OverGic = 12,
    /// 13: the region is already in that set.
    RegionThere = 13,
    /// 14: a forbidden physical overlap.
    PhysicalOverlap = 14,
    /// 15: a guest overlap within that set.
    GuestOverlap = 15,
    /// 16: that set has as many regions as it can.
    SetFull = 16,
    /// 17: the region is not in that set.
    NoRegion = 17,
    /// 18: no region covers the address.
    NotCovered = 18,
    /// 19: a CPU region with write and execute, or an IOMMU region with execute.
    TooManyRights = 19,
}

impl Refusal {
    const ALL: [Refusal; 19] = [
        Refusal::UnsoundConfig,
        Refusal::UnsoundTable,
        Refusal::NoRequest,
        Refusal::ZoneIdTooHigh,
        Refusal::ZoneThere,
        Refusal::NoZone,
        Refusal::ZonesFull,
        Refusal::ZoneInUse,
        Refusal::Form,
        Refusal::Reach,
        Refusal::NotConfigured,
        Refusal::OverGic,
        Refusal::RegionThere,
        Refusal::PhysicalOverlap,
        Refusal::GuestOverlap,
        Refusal::SetFull,
        Refusal::NoRegion,
        Refusal::NotCovered,
        Refusal::TooManyRights,
    ];

    pub(crate) fn from_library(number: u32) -> Result<(), Refusal> {
        if number == 0 {
            return Ok(());
        }
        match Refusal::ALL.into_iter().find(|refusal| refusal.number() == number) {
            Some(refusal) => Err(refusal),
            None => not_an_answer(number),
        }
    }

    /// The document's number.
    pub const fn number(self) -> u32 {
        self as u32
    }
}

impl fmt::Display for Refusal {
    fn fmt(&self, f: &mut fmt::Formatter) -> fmt::Result {
        f.write_str(match self {
            Refusal::UnsoundConfig => "the configuration is unsound",
            Refusal::UnsoundTable => "the table is unsound",
            Refusal::NoRequest => "the numbers make no request",
            Refusal::ZoneIdTooHigh => "the zone id is above 255",
            Refusal::ZoneThere => "the zone is already there",
            Refusal::NoZone => "there is no such zone",
            Refusal::ZonesFull => "all zones of the table are in use",
            Refusal::ZoneInUse => "the zone still holds a region",
            Refusal::Form => "the region is not well formed",
            Refusal::Reach => "the region is out of reach",
            Refusal::NotConfigured => "the region is not a configured one",
            Refusal::OverGic => "the CPU region overlaps the GIC physically",
            Refusal::RegionThere => "the region is already in that set",
            Refusal::PhysicalOverlap => "the region overlaps another one physically",
            Refusal::GuestOverlap => "the region overlaps one of that set in guest addresses",
            Refusal::SetFull => "that set has as many regions as it can",
            Refusal::NoRegion => "the region is not in that set",
            Refusal::NotCovered => "no region covers the address",
            Refusal::TooManyRights => "the region has more rights than that set may give",
        })
    }
}

impl Error for Refusal {}

/// Why bytes are no plan: 20 to 22, with the offset at which that shows.
#[derive(Clone, Copy, Debug, PartialEq, Eq, Hash)]
pub enum ReadFault {
    /// 20: a field is not wholly there.
    Cut {
        /// Where the field begins.
        offset: u64,
    },
    /// 21: a count is out of range, or the third mark is another format's.
    Count {
        /// Where the count or the mark stands.
        offset: u64,
    },
    /// 22: there are bytes after the last section.
    Trailing {
        /// Where the first such byte stands.
        offset: u64,
    },
}

impl ReadFault {
    pub(crate) fn from_library(number: u32, offset: u64) -> Result<(), ReadFault> {
        Err(match number {
            0 => return Ok(()),
            20 => ReadFault::Cut { offset },
            21 => ReadFault::Count { offset },
            22 => ReadFault::Trailing { offset },
            _ => not_an_answer(number),
        })
    }

    /// The document's number.
    pub fn number(&self) -> u32 {
        match self {
            ReadFault::Cut { .. } => 20,
            ReadFault::Count { .. } => 21,
            ReadFault::Trailing { .. } => 22,
        }
    }

    /// The offset.
    pub fn offset(&self) -> u64 {
        match *self {
            ReadFault::Cut { offset } | ReadFault::Count { offset } | ReadFault::Trailing { offset } => offset,
        }
    }
}

impl fmt::Display for ReadFault {
    fn fmt(&self, f: &mut fmt::Formatter) -> fmt::Result {
        match self {
            ReadFault::Cut { offset } => write!(f, "the field at offset {offset} is not wholly there"),
            ReadFault::Count { offset } => write!(f, "the count or mark at offset {offset} is out of range"),
            ReadFault::Trailing { offset } => write!(f, "the plan ends at offset {offset}, but there are bytes after it"),
        }
    }
}

impl Error for ReadFault {}

/// Why a plan is refused: 1, 2, 20 to 27; and 28 of one that came in pieces.
#[derive(Clone, Copy, Debug, PartialEq, Eq, Hash)]
pub enum PlanRefusal {
    /// 1: the terminal's own configuration is unsound.
    UnsoundConfig,
    /// 2: the terminal's own table is unsound.
    UnsoundTable,
    /// 20 to 22: the bytes are no plan.
    Read(ReadFault),
    /// 23: the configuration or the GIC's position differs from the terminal's.
    OtherConfig,
    /// 24: the edition differs.
    OtherEdition,
    /// 25: the edition is the last one, 2^32 - 1.
    NoNextEdition,
    /// 26: the base zones differ, order included.
    OtherZones,
    /// 27: a request is refused.
    Request {
        /// Which, from 0.
        index: u64,
        /// Why.
        refusal: Refusal,
    },
    /// 28: the buffer of its pieces is shorter than the longest plan.
    BufferShort,
}

impl PlanRefusal {
    pub(crate) fn from_library(number: u32, place: u64, inner: u64) -> Result<(), PlanRefusal> {
        Err(match number {
            0 => return Ok(()),
            1 => PlanRefusal::UnsoundConfig,
            2 => PlanRefusal::UnsoundTable,
            23 => PlanRefusal::OtherConfig,
            24 => PlanRefusal::OtherEdition,
            25 => PlanRefusal::NoNextEdition,
            26 => PlanRefusal::OtherZones,
            27 => PlanRefusal::Request { index: place, refusal: inner_refusal(inner) },
            28 => PlanRefusal::BufferShort,
            _ => return ReadFault::from_library(number, place).map_err(PlanRefusal::Read),
        })
    }

    /// The document's number.
    pub fn number(&self) -> u32 {
        match self {
            PlanRefusal::UnsoundConfig => 1,
            PlanRefusal::UnsoundTable => 2,
            PlanRefusal::Read(fault) => fault.number(),
            PlanRefusal::OtherConfig => 23,
            PlanRefusal::OtherEdition => 24,
            PlanRefusal::NoNextEdition => 25,
            PlanRefusal::OtherZones => 26,
            PlanRefusal::Request { .. } => 27,
            PlanRefusal::BufferShort => BufferShort.number(),
        }
    }

    /// The document's place: an offset or a request's index, else 0.
    pub fn place(&self) -> u64 {
        match self {
            PlanRefusal::Read(fault) => fault.offset(),
            PlanRefusal::Request { index, .. } => *index,
            _ => 0,
        }
    }

    /// The document's inner number: why a request is refused, else 0.
    pub fn inner(&self) -> u32 {
        match self {
            PlanRefusal::Request { refusal, .. } => refusal.number(),
            _ => 0,
        }
    }
}

impl fmt::Display for PlanRefusal {
    fn fmt(&self, f: &mut fmt::Formatter) -> fmt::Result {
        match self {
            PlanRefusal::UnsoundConfig => write!(f, "the terminal's own configuration is unsound"),
            PlanRefusal::UnsoundTable => write!(f, "the terminal's own table is unsound"),
            PlanRefusal::Read(fault) => fault.fmt(f),
            PlanRefusal::OtherConfig => write!(f, "the plan is for another configuration"),
            PlanRefusal::OtherEdition => write!(f, "the plan is for another edition"),
            PlanRefusal::NoNextEdition => write!(f, "the terminal is at the last edition"),
            PlanRefusal::OtherZones => write!(f, "the plan is for other zones"),
            PlanRefusal::Request { index, refusal } => write!(f, "request {index} is refused: {refusal}"),
            PlanRefusal::BufferShort => BufferShort.fmt(f),
        }
    }
}

impl Error for PlanRefusal {
    fn source(&self) -> Option<&(dyn Error + 'static)> {
        match self {
            PlanRefusal::Read(fault) => Some(fault),
            PlanRefusal::Request { refusal, .. } => Some(refusal),
            _ => None,
        }
    }
}

/// Why no plan is written: 1, 2, 25, 29, 27 and 28, in this order.
#[derive(Clone, Copy, Debug, PartialEq, Eq, Hash)]
pub enum WriteRefusal {
    /// 1: the configuration is unsound.
    UnsoundConfig,
    /// 2: the table is unsound.
    UnsoundTable,
    /// 25: the edition is the last one, 2^32 - 1.
    NoNextEdition,
    /// 29: there are more requests than a plan can have.
    TooManyRequests,
    /// 27: a request is refused.
    Request {
        /// Which, from 0.
        index: u64,
        /// Why.
        refusal: Refusal,
    },
    /// 28: the buffer is shorter than the plan.
    BufferShort,
}

impl WriteRefusal {
    pub(crate) fn from_library(number: u32, place: u64, inner: u64) -> Result<(), WriteRefusal> {
        Err(match number {
            0 => return Ok(()),
            1 => WriteRefusal::UnsoundConfig,
            2 => WriteRefusal::UnsoundTable,
            25 => WriteRefusal::NoNextEdition,
            27 => WriteRefusal::Request { index: place, refusal: inner_refusal(inner) },
            28 => WriteRefusal::BufferShort,
            29 => WriteRefusal::TooManyRequests,
            _ => not_an_answer(number),
        })
    }

    /// The document's number.
    pub fn number(&self) -> u32 {
        match self {
            WriteRefusal::UnsoundConfig => 1,
            WriteRefusal::UnsoundTable => 2,
            WriteRefusal::NoNextEdition => 25,
            WriteRefusal::Request { .. } => 27,
            WriteRefusal::BufferShort => BufferShort.number(),
            WriteRefusal::TooManyRequests => 29,
        }
    }

    /// The document's place: the index of a refused request, else 0.
    pub fn place(&self) -> u64 {
        match self {
            WriteRefusal::Request { index, .. } => *index,
            _ => 0,
        }
    }

    /// The document's inner number: why a request is refused, else 0.
    pub fn inner(&self) -> u32 {
        match self {
            WriteRefusal::Request { refusal, .. } => refusal.number(),
            _ => 0,
        }
    }
}

impl fmt::Display for WriteRefusal {
    fn fmt(&self, f: &mut fmt::Formatter) -> fmt::Result {
        match self {
            WriteRefusal::UnsoundConfig => write!(f, "the configuration is unsound"),
            WriteRefusal::UnsoundTable => write!(f, "the table is unsound"),
            WriteRefusal::NoNextEdition => write!(f, "the edition is the last one"),
            WriteRefusal::TooManyRequests => write!(f, "there are more requests than a plan can have"),
            WriteRefusal::Request { index, refusal } => write!(f, "request {index} is refused: {refusal}"),
            WriteRefusal::BufferShort => BufferShort.fmt(f),
        }
    }
}

impl Error for WriteRefusal {
    fn source(&self) -> Option<&(dyn Error + 'static)> {
        match self {
            WriteRefusal::Request { refusal, .. } => Some(refusal),
            _ => None,
        }
    }
}

/// Why there is no list of requests from one table to another: 1, 2, 29 and 28, in this order.
#[derive(Clone, Copy, Debug, PartialEq, Eq, Hash)]
pub enum ListRefusal {
    /// 1: the configuration is unsound.
    UnsoundConfig,
    /// 2: one of the two tables is unsound.
    UnsoundTable,
    /// 29: the list is longer than that of a plan can be.
    TooManyRequests,
    /// 28: the buffer is shorter than the list.
    BufferShort,
}

impl ListRefusal {
    pub(crate) fn from_library(number: u32) -> Result<(), ListRefusal> {
        Err(match number {
            0 => return Ok(()),
            1 => ListRefusal::UnsoundConfig,
            2 => ListRefusal::UnsoundTable,
            28 => ListRefusal::BufferShort,
            29 => ListRefusal::TooManyRequests,
            _ => not_an_answer(number),
        })
    }

    /// The document's number.
    pub fn number(&self) -> u32 {
        match self {
            ListRefusal::UnsoundConfig => 1,
            ListRefusal::UnsoundTable => 2,
            ListRefusal::BufferShort => BufferShort.number(),
            ListRefusal::TooManyRequests => 29,
        }
    }
}

impl fmt::Display for ListRefusal {
    fn fmt(&self, f: &mut fmt::Formatter) -> fmt::Result {
        match self {
            ListRefusal::UnsoundConfig => write!(f, "the configuration is unsound"),
            ListRefusal::UnsoundTable => write!(f, "one of the tables is unsound"),
            ListRefusal::TooManyRequests => write!(f, "there are more requests than a plan can have"),
            ListRefusal::BufferShort => BufferShort.fmt(f),
        }
    }
}

impl Error for ListRefusal {}

/// Why no listing is written: 1, 2 and 28, in this order.
#[derive(Clone, Copy, Debug, PartialEq, Eq, Hash)]
pub enum ListingRefusal {
    /// 1: the configuration is unsound.
    UnsoundConfig,
    /// 2: the table is unsound.
    UnsoundTable,
    /// 28: the buffer is shorter than the listing.
    BufferShort,
}

impl ListingRefusal {
    pub(crate) fn from_library(number: u32) -> Result<(), ListingRefusal> {
        Err(match number {
            0 => return Ok(()),
            1 => ListingRefusal::UnsoundConfig,
            2 => ListingRefusal::UnsoundTable,
            28 => ListingRefusal::BufferShort,
            _ => not_an_answer(number),
        })
    }

    /// The document's number.
    pub fn number(&self) -> u32 {
        match self {
            ListingRefusal::UnsoundConfig => 1,
            ListingRefusal::UnsoundTable => 2,
            ListingRefusal::BufferShort => BufferShort.number(),
        }
    }
}

impl fmt::Display for ListingRefusal {
    fn fmt(&self, f: &mut fmt::Formatter) -> fmt::Result {
        match self {
            ListingRefusal::UnsoundConfig => write!(f, "the configuration is unsound"),
            ListingRefusal::UnsoundTable => write!(f, "the table is unsound"),
            ListingRefusal::BufferShort => BufferShort.fmt(f),
        }
    }
}

impl Error for ListingRefusal {}

/// What the check of a log finds where not all is well: 20 to 22, 1, 2, 30 and 28, in this order.
#[derive(Clone, Copy, Debug, PartialEq, Eq, Hash)]
pub enum LogRefusal {
    /// 20 to 22: the bytes are no log.
    Read(ReadFault),
    /// 1: the log's own configuration is unsound.
    UnsoundConfig,
    /// 2: the zones that the log begins with are unsound.
    UnsoundTable,
    /// 30: a claim is false, and none before it is.
    FalseClaim {
        /// Of which request, from 0.
        index: u64,
        /// The answer that the log claims: any number.
        claimed: u32,
        /// What the rules answer to that request, at the table that those before it leave.
        right: Result<(), Refusal>,
    },
    /// 28: all claims hold, and the buffer is shorter than the section of the end zones.
    BufferShort,
}

impl LogRefusal {
    pub(crate) fn from_library(number: u32, [place, right, claimed]: [u64; 3]) -> Result<(), LogRefusal> {
        Err(match number {
            0 => return Ok(()),
            1 => LogRefusal::UnsoundConfig,
            2 => LogRefusal::UnsoundTable,
            28 => LogRefusal::BufferShort,
            30 => LogRefusal::FalseClaim { index: place, claimed: short(claimed), right: Refusal::from_library(short(right)) },
            _ => return ReadFault::from_library(number, place).map_err(LogRefusal::Read),
        })
    }

    /// The number.
    pub fn number(&self) -> u32 {
        match self {
            LogRefusal::Read(fault) => fault.number(),
            LogRefusal::UnsoundConfig => 1,
            LogRefusal::UnsoundTable => 2,
            LogRefusal::FalseClaim { .. } => 30,
            LogRefusal::BufferShort => BufferShort.number(),
        }
    }

    /// The place: an offset or a claim's index, else 0.
    pub fn place(&self) -> u64 {
        match self {
            LogRefusal::Read(fault) => fault.offset(),
            LogRefusal::FalseClaim { index, .. } => *index,
            _ => 0,
        }
    }

    /// What the rules answer where a claim is false, else 0.
    pub fn right(&self) -> u32 {
        match self {
            LogRefusal::FalseClaim { right: Err(refusal), .. } => refusal.number(),
            _ => 0,
        }
    }

    /// What the log claims where that is false, else 0.
    pub fn claimed(&self) -> u32 {
        match self {
            LogRefusal::FalseClaim { claimed, .. } => *claimed,
            _ => 0,
        }
    }
}

impl fmt::Display for LogRefusal {
    fn fmt(&self, f: &mut fmt::Formatter) -> fmt::Result {
        match self {
            LogRefusal::Read(ReadFault::Trailing { offset }) => {
                write!(f, "the log ends at offset {offset}, but there are bytes after it")
            }
            LogRefusal::Read(fault) => fault.fmt(f),
            LogRefusal::UnsoundConfig => write!(f, "the log's own configuration is unsound"),
            LogRefusal::UnsoundTable => write!(f, "the zones that the log begins with are unsound"),
            LogRefusal::FalseClaim { index, claimed, right } => {
                write!(f, "the claim for request {index} is false: it is {claimed}, and the rules say {}: ", self.right())?;
                match right {
                    Ok(()) => write!(f, "accepted"),
                    Err(refusal) => refusal.fmt(f),
                }
            }
            LogRefusal::BufferShort => BufferShort.fmt(f),
        }
    }
}

impl Error for LogRefusal {
    fn source(&self) -> Option<&(dyn Error + 'static)> {
        match self {
            LogRefusal::Read(fault) => Some(fault),
            LogRefusal::FalseClaim { right: Err(refusal), .. } => Some(refusal),
            _ => None,
        }
    }
}

/// 28: a buffer that was lent is too short.
#[derive(Clone, Copy, Debug, PartialEq, Eq, Hash)]
pub struct BufferShort;

impl BufferShort {
    pub(crate) fn from_library(number: u32) -> Result<(), BufferShort> {
        match number {
            0 => Ok(()),
            28 => Err(BufferShort),
            _ => not_an_answer(number),
        }
    }

    /// The document's number.
    pub fn number(&self) -> u32 {
        28
    }
}

impl fmt::Display for BufferShort {
    fn fmt(&self, f: &mut fmt::Formatter) -> fmt::Result {
        write!(f, "the buffer that was lent is too short")
    }
}

impl Error for BufferShort {}

fn inner_refusal(inner: u64) -> Refusal {
    let number = short(inner);
    Refusal::from_library(number).err().unwrap_or_else(|| not_an_answer(number))
}

/// A number that the library gives in a word and that has 32 bits; one that has more is none of its answers.
fn short(word: u64) -> u32 {
    u32::try_from(word).unwrap_or_else(|_| panic!("the library answered {word}, which is none of its answers"))
}

/// The library's answers are proved, so this is a library that does not belong to this crate.
fn not_an_answer(number: u32) -> ! {
    panic!("the library answered {number}, which is none of its answers")
}
