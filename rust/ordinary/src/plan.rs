use std::ops::{Range, RangeInclusive};

use crate::config::Config;
use crate::layout::{NUMBER_BYTES, REGION_BYTES, REQUEST_BYTES};
use crate::limits::{MAX_IN_SET, MAX_REGIONS, MAX_REQUESTS, MAX_ZONES};
use crate::region::Region;
use crate::request::Record;
use crate::table::{Table, Zone};
use crate::terminal::State;

/// How many marks a plan of the second format has, and a log too; and the third, by which they are told apart.
const MARKS: u32 = 3;
pub(crate) const FORMAT: u32 = 2;
pub(crate) const LOG_FORMAT: u32 = 3;

/// A plan that was read whole. The requests stay where they are in its bytes.
#[derive(Clone, Debug)]
pub struct Plan<'a> {
    /// The configuration that it is for.
    pub config: Config,
    /// The edition that it is for.
    pub edition: u32,
    /// The zones that it is for.
    pub table: Table,
    /// Where the section of these zones stands, from its count on.
    pub zones: Range<usize>,
    /// What it asks.
    pub requests: Requests<'a>,
    /// Where the first request record stands, or would stand.
    pub requests_at: usize,
}

/// The request records of a plan.
#[derive(Clone, Copy, Debug)]
pub struct Requests<'a>(&'a [u8]);

/// Why bytes are no plan, and the offset at which that shows.
#[derive(Clone, Copy, Debug, PartialEq, Eq)]
pub enum ReadFault {
    /// 20: a field is not wholly there.
    Cut(usize),
    /// 21: a count is out of range, or the third mark is another format's.
    Count(usize),
    /// 22: there are bytes after the last section.
    Trailing(usize),
}

impl ReadFault {
    /// The document's number.
    pub fn number(&self) -> u32 {
        match self {
            ReadFault::Cut(_) => 20,
            ReadFault::Count(_) => 21,
            ReadFault::Trailing(_) => 22,
        }
    }

    /// The offset.
    pub fn offset(&self) -> usize {
        match *self {
            ReadFault::Cut(offset) | ReadFault::Count(offset) | ReadFault::Trailing(offset) => offset,
        }
    }
}

impl<'a> Plan<'a> {
    /// Reads a plan, up to the first fault in file order.
    pub fn read(bytes: &'a [u8]) -> Result<Plan<'a>, ReadFault> {
        let mut reader = Reader::new(bytes);
        let plan = reader.sections(FORMAT)?;
        reader.end()?;
        Ok(plan)
    }
}

/// The edition that a plan is for, by its marks alone.
pub fn base_edition(bytes: &[u8]) -> Result<u32, ReadFault> {
    let (_, edition) = Reader::new(bytes).marks(FORMAT)?;
    Ok(edition)
}

impl<'a> Requests<'a> {
    /// The records that stand one after another in these bytes.
    pub fn in_bytes(bytes: &'a [u8]) -> Requests<'a> {
        Requests(bytes)
    }

    /// How many there are.
    pub fn len(&self) -> usize {
        self.0.len() / REQUEST_BYTES
    }

    /// Whether there is none.
    pub fn is_empty(&self) -> bool {
        self.0.is_empty()
    }

    /// The requests in order.
    pub fn iter(&self) -> impl Iterator<Item = Record> + 'a {
        self.0.chunks_exact(REQUEST_BYTES).map(|record| Record {
            kind: u32_at(record, 0),
            zone: u32_at(record, 4),
            region: region_at(record, 8),
        })
    }
}

/// The bytes of a plan or a log and how far they are read.
pub(crate) struct Reader<'a> {
    bytes: &'a [u8],
    at: usize,
}

impl<'a> Reader<'a> {
    pub(crate) fn new(bytes: &'a [u8]) -> Reader<'a> {
        Reader { bytes, at: 0 }
    }

    /// A plan's four sections, with this as third mark.
    pub(crate) fn sections(&mut self, format: u32) -> Result<Plan<'a>, ReadFault> {
        let (gic, edition) = self.marks(format)?;
        let regions = self.regions(1..=MAX_REGIONS as u32)?;
        let zones_at = self.at;
        let table = self.table()?;
        let zones = zones_at..self.at;
        let (requests_at, requests) = self.requests()?;
        let config = Config { regions, gic: gic as usize };
        Ok(Plan { config, edition, table, zones, requests, requests_at })
    }

    /// As many numbers as are asked for, after a count that must say so.
    pub(crate) fn numbers(&mut self, count: usize) -> Result<Vec<u32>, ReadFault> {
        self.count(count as u32..=count as u32)?;
        (0..count).map(|_| self.number()).collect()
    }

    fn field(&mut self, size: usize) -> Result<&'a [u8], ReadFault> {
        let field = self.bytes[self.at..].get(..size).ok_or(ReadFault::Cut(self.at))?;
        self.at += size;
        Ok(field)
    }

    fn number(&mut self) -> Result<u32, ReadFault> {
        Ok(u32_at(self.field(4)?, 0))
    }

    fn count(&mut self, range: RangeInclusive<u32>) -> Result<usize, ReadFault> {
        let offset = self.at;
        let count = self.number()?;
        if !range.contains(&count) {
            return Err(ReadFault::Count(offset));
        }
        Ok(count as usize)
    }

    /// The GIC's position and the base edition. The mark behind them is judged as it is read.
    pub(crate) fn marks(&mut self, format: u32) -> Result<(u32, u32), ReadFault> {
        self.count(MARKS..=MARKS)?;
        let marks = (self.number()?, self.number()?);
        self.count(format..=format)?;
        Ok(marks)
    }

    pub(crate) fn regions(&mut self, range: RangeInclusive<u32>) -> Result<Vec<Region>, ReadFault> {
        let count = self.count(range)?;
        let records = self.records(count, REGION_BYTES)?;
        Ok(records.chunks_exact(REGION_BYTES).map(|record| region_at(record, 0)).collect())
    }

    pub(crate) fn table(&mut self) -> Result<Table, ReadFault> {
        let count = self.count(0..=MAX_ZONES as u32)?;
        let mut zones = Vec::with_capacity(MAX_ZONES);
        for _ in 0..count {
            zones.push(self.zone()?);
        }
        Ok(Table { zones })
    }

    fn zone(&mut self) -> Result<Zone, ReadFault> {
        let id = self.number()?;
        let cpu = self.regions(0..=MAX_IN_SET as u32)?;
        let iommu = self.regions(0..=MAX_IN_SET as u32)?;
        Ok(Zone { id, cpu, iommu })
    }

    pub(crate) fn requests(&mut self) -> Result<(usize, Requests<'a>), ReadFault> {
        let count = self.count(0..=MAX_REQUESTS as u32)?;
        let start = self.at;
        Ok((start, Requests(self.records(count, REQUEST_BYTES)?)))
    }

    /// The bytes of so many records. Where they are cut, the fault is at the first record that is not wholly there.
    fn records(&mut self, count: usize, size: usize) -> Result<&'a [u8], ReadFault> {
        let whole = (self.bytes.len() - self.at) / size;
        if whole < count {
            return Err(ReadFault::Cut(self.at + whole * size));
        }
        self.field(count * size)
    }

    pub(crate) fn end(&self) -> Result<(), ReadFault> {
        if self.at < self.bytes.len() {
            return Err(ReadFault::Trailing(self.at));
        }
        Ok(())
    }
}

fn u32_at(bytes: &[u8], at: usize) -> u32 {
    u32::from_le_bytes(bytes[at..at + 4].try_into().expect("four bytes"))
}

fn u64_at(bytes: &[u8], at: usize) -> u64 {
    u64::from_le_bytes(bytes[at..at + 8].try_into().expect("eight bytes"))
}

fn region_at(bytes: &[u8], at: usize) -> Region {
    Region::from_numbers(std::array::from_fn(|number| u64_at(bytes, at + number * NUMBER_BYTES)))
}

/// The plan that asks this of a terminal in this state.
pub fn encode(base: &State, requests: &[Record]) -> Vec<u8> {
    encode_sections(FORMAT, base, requests)
}

/// A plan's four sections, with this as third mark.
pub(crate) fn encode_sections(format: u32, base: &State, requests: &[Record]) -> Vec<u8> {
    let mut plan = Vec::new();
    put_u32(&mut plan, MARKS);
    put_u32(&mut plan, base.config.gic as u32);
    put_u32(&mut plan, base.edition);
    put_u32(&mut plan, format);
    put_regions(&mut plan, &base.config.regions);
    plan.extend(encode_zones(&base.table));
    put_u32(&mut plan, requests.len() as u32);
    for request in requests {
        put_request(&mut plan, request);
    }
    plan
}

/// The section of these zones, from its count on.
pub fn encode_zones(table: &Table) -> Vec<u8> {
    let mut section = Vec::new();
    put_u32(&mut section, table.zones.len() as u32);
    for zone in &table.zones {
        put_u32(&mut section, zone.id);
        put_regions(&mut section, &zone.cpu);
        put_regions(&mut section, &zone.iommu);
    }
    section
}

/// A request's bytes, at the end of others.
pub(crate) fn put_request(plan: &mut Vec<u8>, request: &Record) {
    put_u32(plan, request.kind);
    put_u32(plan, request.zone);
    put_region(plan, &request.region);
}

pub(crate) fn put_u32(plan: &mut Vec<u8>, number: u32) {
    plan.extend_from_slice(&number.to_le_bytes());
}

fn put_region(plan: &mut Vec<u8>, region: &Region) {
    for number in region.numbers() {
        plan.extend_from_slice(&number.to_le_bytes());
    }
}

fn put_regions(plan: &mut Vec<u8>, regions: &[Region]) {
    put_u32(plan, regions.len() as u32);
    for region in regions {
        put_region(plan, region);
    }
}
