//! The rules in ordinary Rust on the library's own memory: fixed arrays with counts, laid out as the library's header lays out its
//! words. So it has what growing vectors do not have, unused words that must be looked at; and where a plan is applied it works on a
//! copy of the table, which takes the table's place when every request is done. It is written from the document, plainly, and shares
//! nothing with the library or with `ordinary` but the limits.

pub mod bank;

use ordinary::limits::{GUEST_REACH, MAX_ID, MAX_IN_SET, MAX_REGIONS, MAX_REQUESTS, MAX_ZONES, PAGE, PHYS_REACH};

const MARKS: usize = 3;
const FORMAT: usize = 2;
const REGION_BYTES: usize = Region::NUMBERS * 8;
const REQUEST_BYTES: usize = 4 + 4 + REGION_BYTES;

/// A number of the document and its two places, 0 where unused.
pub type Answer = (u32, [u64; 2]);

#[derive(Clone, Copy, Debug, PartialEq, Eq)]
#[repr(C)]
pub struct Region {
    pub v: u64,
    pub p: u64,
    pub size: u64,
    pub rights: u64,
}

#[derive(Clone, Debug)]
#[repr(C)]
pub struct Config {
    count: u64,
    gic: u64,
    records: [Region; MAX_REGIONS],
}

#[derive(Clone, Copy, Debug)]
#[repr(C)]
struct Set {
    count: u64,
    records: [Region; MAX_IN_SET],
}

#[derive(Clone, Copy, Debug)]
#[repr(C)]
struct Zone {
    id: u64,
    cpu: Set,
    iommu: Set,
}

#[derive(Clone, Debug)]
#[repr(C)]
pub struct Table {
    count: u64,
    zones: [Zone; MAX_ZONES],
}

#[derive(Clone, Debug)]
#[repr(C)]
pub struct State {
    pub config: Config,
    pub table: Table,
    pub edition: u32,
}

#[derive(Clone, Copy, Debug, PartialEq, Eq)]
pub enum Side {
    Cpu,
    Iommu,
}

/// A request's numbers.
#[derive(Clone, Copy, Debug)]
pub struct Request {
    pub kind: u32,
    pub zone: u32,
    pub region: Region,
}

impl Request {
    /// Its record, into bytes of its own.
    fn put(&self, record: &mut [u8]) {
        record[..4].copy_from_slice(&self.kind.to_le_bytes());
        record[4..8].copy_from_slice(&self.zone.to_le_bytes());
        let Region { v, p, size, rights } = self.region;
        for (bytes, number) in record[8..].chunks_exact_mut(8).zip([v, p, size, rights]) {
            bytes.copy_from_slice(&number.to_le_bytes());
        }
    }
}

impl Region {
    pub const NUMBERS: usize = 4;

    pub const ZERO: Region = Region::from_numbers([0; Region::NUMBERS]);

    pub const fn from_numbers([v, p, size, rights]: [u64; Region::NUMBERS]) -> Region {
        Region { v, p, size, rights }
    }

    fn is_well_formed(&self) -> bool {
        self.size > 0 && (self.v | self.p | self.size) % PAGE == 0 && (1..=7).contains(&self.rights)
    }

    /// Whether it may be executed by devices, or written and executed by the processor.
    fn is_excessive(&self, side: Side) -> bool {
        let forbidden = match side {
            Side::Cpu => 6,
            Side::Iommu => 4,
        };
        self.rights & forbidden == forbidden
    }

    fn is_in_reach(&self) -> bool {
        let ends_by = |reach: u64, start: u64| start.checked_add(self.size).is_some_and(|end| end <= reach);
        ends_by(GUEST_REACH, self.v) && ends_by(PHYS_REACH, self.p)
    }

    fn overlaps_physically(&self, other: &Region) -> bool {
        overlap(self.p, self.size, other.p, other.size)
    }

    fn overlaps_in_guest(&self, other: &Region) -> bool {
        overlap(self.v, self.size, other.v, other.size)
    }
}

/// Whether two stretches share an address, where ends may be above 2^64.
fn overlap(a: u64, a_size: u64, b: u64, b_size: u64) -> bool {
    if a <= b {
        b - a < a_size && b_size > 0
    } else {
        a - b < b_size && a_size > 0
    }
}

fn are_zero(records: &[Region]) -> bool {
    records.iter().all(|record| *record == Region::ZERO)
}

impl Config {
    fn regions(&self) -> &[Region] {
        &self.records[..self.count as usize]
    }

    fn gic(&self) -> &Region {
        &self.records[self.gic as usize]
    }

    /// The number of the first fault, 1 for C1, and its places.
    pub fn check(&self) -> Result<(), Answer> {
        if self.count == 0 || self.count > MAX_REGIONS as u64 {
            return Err((1, [0, 0]));
        }
        if self.gic >= self.count {
            return Err((2, [0, 0]));
        }
        let count = self.count as usize;
        if let Some(past) = self.records[count..].iter().position(|record| *record != Region::ZERO) {
            return Err((3, [(count + past) as u64, 0]));
        }
        if self.stands_apart() {
            return Ok(());
        }
        let regions = self.regions();
        for (place, region) in regions.iter().enumerate() {
            if !region.is_well_formed() {
                return Err((4, [place as u64, 0]));
            }
            if !region.is_in_reach() {
                return Err((5, [place as u64, 0]));
            }
            if let Some(earlier) = regions[..place].iter().position(|earlier| earlier.overlaps_physically(region)) {
                return Err((6, [place as u64, earlier as u64]));
            }
        }
        Ok(())
    }

    /// Whether every region is well formed and in reach and, in the order of their starts, ends before the next one begins.
    fn stands_apart(&self) -> bool {
        let regions = self.regions();
        if !regions.iter().all(|region| region.is_well_formed() && region.is_in_reach()) {
            return false;
        }
        let mut spans = [(0, 0); MAX_REGIONS];
        let spans = &mut spans[..regions.len()];
        for (span, region) in spans.iter_mut().zip(regions) {
            *span = (region.p, region.p + region.size);
        }
        spans.sort_unstable();
        spans.windows(2).all(|pair| pair[0].1 <= pair[1].0)
    }
}

impl Set {
    const EMPTY: Set = Set { count: 0, records: [Region::ZERO; MAX_IN_SET] };

    fn regions(&self) -> &[Region] {
        &self.records[..self.count as usize]
    }

    fn is_sound(&self, config: &Config) -> bool {
        if self.count > MAX_IN_SET as u64 || !are_zero(&self.records[self.count as usize..]) {
            return false;
        }
        let held = self.regions();
        held.iter().all(|region| config.regions().contains(region))
            && held.iter().enumerate().all(|(place, region)| !held[..place].iter().any(|earlier| earlier.overlaps_in_guest(region)))
    }

    fn push(&mut self, region: Region) {
        self.records[self.count as usize] = region;
        self.count += 1;
    }

    fn remove(&mut self, place: usize) {
        let count = self.count as usize;
        self.records.copy_within(place + 1..count, place);
        self.records[count - 1] = Region::ZERO;
        self.count -= 1;
    }
}

impl Zone {
    const EMPTY: Zone = Zone { id: 0, cpu: Set::EMPTY, iommu: Set::EMPTY };

    fn is_zero(&self) -> bool {
        let is_zero = |set: &Set| set.count == 0 && are_zero(&set.records);
        self.id == 0 && is_zero(&self.cpu) && is_zero(&self.iommu)
    }

    fn is_sound(&self, config: &Config) -> bool {
        self.id <= u64::from(MAX_ID)
            && self.cpu.is_sound(config)
            && self.iommu.is_sound(config)
            && !self.cpu.regions().iter().any(|region| region.overlaps_physically(config.gic()) || region.is_excessive(Side::Cpu))
            && !self.iommu.regions().iter().any(|region| region.is_excessive(Side::Iommu))
    }

    fn is_empty(&self) -> bool {
        self.cpu.count == 0 && self.iommu.count == 0
    }

    fn set(&self, side: Side) -> &Set {
        match side {
            Side::Cpu => &self.cpu,
            Side::Iommu => &self.iommu,
        }
    }

    fn set_mut(&mut self, side: Side) -> &mut Set {
        match side {
            Side::Cpu => &mut self.cpu,
            Side::Iommu => &mut self.iommu,
        }
    }

    /// The regions of both sets.
    fn regions(&self) -> impl Iterator<Item = &Region> {
        self.cpu.regions().iter().chain(self.iommu.regions())
    }

    /// Whether no region of one overlaps one of the other physically, the GIC's left out.
    fn is_apart_from(&self, other: &Zone, gic: &Region) -> bool {
        let mut own = self.regions().filter(|&region| region != gic);
        own.all(|region| !other.regions().any(|held| held != gic && held.overlaps_physically(region)))
    }
}

impl Table {
    fn zones(&self) -> &[Zone] {
        &self.zones[..self.count as usize]
    }

    fn is_sound_under(&self, config: &Config) -> bool {
        if self.count > MAX_ZONES as u64 || !self.zones[self.count as usize..].iter().all(Zone::is_zero) {
            return false;
        }
        let zones = self.zones();
        zones.iter().all(|zone| zone.is_sound(config))
            && zones.iter().enumerate().all(|(place, zone)| {
                zones[..place].iter().all(|earlier| earlier.id != zone.id && earlier.is_apart_from(zone, config.gic()))
            })
    }

    /// 1 or 2, if the configuration or the table is unsound.
    pub fn check(&self, config: &Config) -> Result<(), u32> {
        config.check().map_err(|_| 1u32)?;
        if self.is_sound_under(config) {
            Ok(())
        } else {
            Err(2)
        }
    }

    fn position(&self, id: u32) -> Option<usize> {
        self.zones().iter().position(|zone| zone.id == u64::from(id))
    }

    /// The requests that lead to the wanted table, put into the buffer, and how many there are. They are counted first, and then written.
    pub fn list_to(&self, config: &Config, wanted: &Table, buffer: &mut [u8]) -> Result<usize, u32> {
        config.check().map_err(|_| 1u32)?;
        if !self.is_sound_under(config) || !wanted.is_sound_under(config) {
            return Err(2);
        }
        let mut count = 0;
        self.each_to(wanted, |_| count += 1);
        if count > MAX_REQUESTS {
            return Err(29);
        }
        let mut records = buffer.get_mut(..count * REQUEST_BYTES).ok_or(28u32)?.chunks_exact_mut(REQUEST_BYTES);
        self.each_to(wanted, |request| request.put(records.next().expect("as many records as were counted")));
        Ok(count)
    }

    /// The requests that lead to the wanted table, one after another.
    fn each_to(&self, wanted: &Table, mut take: impl FnMut(&Request)) {
        self.each_lacked_by(wanted, [4, 6], &mut take);
        self.each_missing_in(wanted, 2, &mut take);
        wanted.each_missing_in(self, 1, &mut take);
        wanted.each_lacked_by(self, [3, 5], &mut take);
    }

    /// A request, of these kinds for the two sides, for each region that the other table has not in that set.
    fn each_lacked_by(&self, other: &Table, kinds: [u32; 2], take: &mut impl FnMut(&Request)) {
        for zone in self.zones() {
            let id = zone.id as u32;
            let there = other.position(id).map(|place| &other.zones[place]);
            for (side, kind) in [Side::Cpu, Side::Iommu].into_iter().zip(kinds) {
                let held = there.map_or(&[][..], |zone| zone.set(side).regions());
                for region in zone.set(side).regions().iter().filter(|region| !held.contains(region)) {
                    take(&Request { kind, zone: id, region: *region });
                }
            }
        }
    }

    /// A request of this kind for each zone that the other table has not.
    fn each_missing_in(&self, other: &Table, kind: u32, take: &mut impl FnMut(&Request)) {
        for zone in self.zones().iter().filter(|zone| other.position(zone.id as u32).is_none()) {
            take(&Request { kind, zone: zone.id as u32, region: Region::ZERO });
        }
    }

    /// One request from outside.
    pub fn request(&mut self, config: &Config, request: &Request) -> Result<(), u32> {
        self.check(config)?;
        self.perform(config, request)
    }

    /// One request, where the configuration and the table are known to be sound.
    fn perform(&mut self, config: &Config, request: &Request) -> Result<(), u32> {
        let &Request { kind, zone, region } = request;
        if !(1..=6).contains(&kind) || kind <= 2 && region != Region::ZERO {
            return Err(3);
        }
        if zone > MAX_ID {
            return Err(4);
        }
        match kind {
            1 => self.add_zone(zone),
            2 => self.remove_zone(zone),
            3 => self.insert(config, zone, Side::Cpu, region),
            4 => self.remove(zone, Side::Cpu, &region),
            5 => self.insert(config, zone, Side::Iommu, region),
            _ => self.remove(zone, Side::Iommu, &region),
        }
    }

    fn add_zone(&mut self, id: u32) -> Result<(), u32> {
        if self.position(id).is_some() {
            return Err(5);
        }
        if self.count == MAX_ZONES as u64 {
            return Err(7);
        }
        self.zones[self.count as usize].id = id.into();
        self.count += 1;
        Ok(())
    }

    fn remove_zone(&mut self, id: u32) -> Result<(), u32> {
        let position = self.position(id).ok_or(6u32)?;
        if !self.zones[position].is_empty() {
            return Err(8);
        }
        let count = self.count as usize;
        self.zones.copy_within(position + 1..count, position);
        self.zones[count - 1] = Zone::EMPTY;
        self.count -= 1;
        Ok(())
    }

    fn insert(&mut self, config: &Config, id: u32, side: Side, region: Region) -> Result<(), u32> {
        let position = self.position(id).ok_or(6u32)?;
        if !region.is_well_formed() {
            return Err(9);
        }
        if !region.is_in_reach() {
            return Err(10);
        }
        if !config.regions().contains(&region) {
            return Err(11);
        }
        if region.is_excessive(side) {
            return Err(19);
        }
        if side == Side::Cpu && region.overlaps_physically(config.gic()) {
            return Err(12);
        }
        let set = self.zones[position].set(side);
        if set.regions().contains(&region) {
            return Err(13);
        }
        if self.has_forbidden_overlap(config, position, side, &region) {
            return Err(14);
        }
        if set.regions().iter().any(|held| held.overlaps_in_guest(&region)) {
            return Err(15);
        }
        if set.count == MAX_IN_SET as u64 {
            return Err(16);
        }
        self.zones[position].set_mut(side).push(region);
        Ok(())
    }

    fn has_forbidden_overlap(&self, config: &Config, position: usize, side: Side, region: &Region) -> bool {
        let overlaps = |held: &Region| held.overlaps_physically(region);
        let gic = config.gic();
        let mut zones = self.zones().iter().enumerate();
        match side {
            Side::Cpu => zones.any(|(at, zone)| {
                zone.cpu.regions().iter().any(overlaps) || at != position && zone.iommu.regions().iter().any(overlaps)
            }),
            Side::Iommu => {
                region != gic && zones.any(|(at, zone)| at != position && zone.regions().any(|held| held != gic && overlaps(held)))
            }
        }
    }

    fn remove(&mut self, id: u32, side: Side, region: &Region) -> Result<(), u32> {
        let position = self.position(id).ok_or(6u32)?;
        let set = self.zones[position].set_mut(side);
        let place = set.regions().iter().position(|held| held == region).ok_or(17u32)?;
        set.remove(place);
        Ok(())
    }

    /// The physical address behind a guest address of a zone, and how many bytes of the covering region there are from it on.
    pub fn translate(&self, config: &Config, id: u32, side: Side, address: u64) -> Result<[u64; 2], u32> {
        self.check(config)?;
        if id > MAX_ID {
            return Err(4);
        }
        let position = self.position(id).ok_or(6u32)?;
        let set = self.zones[position].set(side);
        let covering = set.regions().iter().find(|region| region.v <= address && address - region.v < region.size);
        covering.map(|region| [region.p + (address - region.v), region.size - (address - region.v)]).ok_or(18)
    }
}

/// What a plan says, where its bytes lie.
pub struct Plan<'a> {
    gic: u32,
    edition: u32,
    regions: &'a [u8],
    /// The base zones, their count before them.
    zones: &'a [u8],
    requests: &'a [u8],
    pub requests_at: usize,
}

/// The bytes of a plan and how far they are read. A fault is its number and its offset.
struct Reader<'a> {
    bytes: &'a [u8],
    at: usize,
}

type Fault = (u32, usize);

impl<'a> Reader<'a> {
    fn number(&mut self) -> Result<u32, Fault> {
        let field = self.bytes[self.at..].first_chunk().ok_or((20, self.at))?;
        self.at += field.len();
        Ok(u32::from_le_bytes(*field))
    }

    fn count(&mut self, least: usize, most: usize) -> Result<usize, Fault> {
        let at = self.at;
        let count = self.number()? as usize;
        if count < least || count > most {
            return Err((21, at));
        }
        Ok(count)
    }

    /// The bytes of so many records. Where they are cut, the fault is at the first record that is not wholly there.
    fn records(&mut self, count: usize, size: usize) -> Result<&'a [u8], Fault> {
        let left = &self.bytes[self.at..];
        let Some(records) = left.get(..count * size) else {
            return Err((20, self.at + left.len() / size * size));
        };
        self.at += records.len();
        Ok(records)
    }

    fn regions(&mut self, least: usize, most: usize) -> Result<&'a [u8], Fault> {
        let count = self.count(least, most)?;
        self.records(count, REGION_BYTES)
    }

    /// The id of a zone and the records of its two sets.
    fn zone(&mut self) -> Result<(u32, &'a [u8], &'a [u8]), Fault> {
        Ok((self.number()?, self.regions(0, MAX_IN_SET)?, self.regions(0, MAX_IN_SET)?))
    }
}

impl<'a> Plan<'a> {
    pub fn read(bytes: &'a [u8]) -> Result<Plan<'a>, Fault> {
        Plan::read_with(bytes, |_, _| Ok(()))
    }

    /// With something between the regions, which are so many, and the zones.
    fn read_with(bytes: &'a [u8], between: impl FnOnce(&mut Reader<'a>, usize) -> Result<(), Fault>) -> Result<Plan<'a>, Fault> {
        let mut reader = Reader { bytes, at: 0 };
        reader.count(MARKS, MARKS)?;
        let (gic, edition) = (reader.number()?, reader.number()?);
        reader.count(FORMAT, FORMAT)?;
        let regions = reader.regions(1, MAX_REGIONS)?;
        between(&mut reader, regions.len() / REGION_BYTES)?;
        let zones_at = reader.at;
        for _ in 0..reader.count(0, MAX_ZONES)? {
            reader.zone()?;
        }
        let zones = &bytes[zones_at..reader.at];
        let count = reader.count(0, MAX_REQUESTS)?;
        let requests_at = reader.at;
        let requests = reader.records(count, REQUEST_BYTES)?;
        if reader.at < bytes.len() {
            return Err((22, reader.at));
        }
        Ok(Plan { gic, edition, regions, zones, requests, requests_at })
    }

    fn is_for_config(&self, config: &Config) -> bool {
        u64::from(self.gic) == config.gic && are_these(self.regions, config.regions())
    }

    fn is_for_zones(&self, table: &Table) -> Result<bool, Fault> {
        let mut reader = Reader { bytes: self.zones, at: 0 };
        if reader.count(0, MAX_ZONES)? as u64 != table.count {
            return Ok(false);
        }
        for zone in table.zones() {
            let (id, cpu, iommu) = reader.zone()?;
            if u64::from(id) != zone.id || !are_these(cpu, zone.cpu.regions()) || !are_these(iommu, zone.iommu.regions()) {
                return Ok(false);
            }
        }
        Ok(true)
    }

    fn requests(&self) -> impl Iterator<Item = Request> + 'a {
        self.requests.chunks_exact(REQUEST_BYTES).map(|record| Request {
            kind: u32_at(record, 0),
            zone: u32_at(record, 4),
            region: region_at(record, 8),
        })
    }
}

fn u32_at(bytes: &[u8], at: usize) -> u32 {
    u32::from_le_bytes(bytes[at..at + 4].try_into().expect("four bytes"))
}

fn u64_at(bytes: &[u8], at: usize) -> u64 {
    u64::from_le_bytes(bytes[at..at + 8].try_into().expect("eight bytes"))
}

fn region_at(bytes: &[u8], at: usize) -> Region {
    Region::from_numbers(std::array::from_fn(|number| u64_at(bytes, at + number * 8)))
}

/// Whether the records are these regions.
fn are_these(records: &[u8], regions: &[Region]) -> bool {
    records.chunks_exact(REGION_BYTES).map(|record| region_at(record, 0)).eq(regions.iter().copied())
}

impl State {
    /// Applies a plan: its number, its place and its inner number.
    pub fn apply(&mut self, plan: &[u8]) -> Answer {
        answered(self.try_apply(plan))
    }

    fn try_apply(&mut self, plan: &[u8]) -> Result<usize, Refused> {
        self.table.check(&self.config).map_err(|number| (number, 0, 0))?;
        let plan = Plan::read(plan).map_err(unread)?;
        if !plan.is_for_config(&self.config) {
            return Err((23, 0, 0));
        }
        let config = &self.config;
        plan.carry_out(&mut self.table, &mut self.edition, |table, request| table.perform(config, request))
    }
}

/// The number of a refused plan, its place and its inner number.
type Refused = (u32, usize, u32);

fn answered(applied: Result<usize, Refused>) -> Answer {
    match applied {
        Ok(count) => (0, [count as u64, 0]),
        Err((number, place, inner)) => (number, [place as u64, inner.into()]),
    }
}

fn unread((number, at): Fault) -> Refused {
    (number, at, 0)
}

impl Plan<'_> {
    /// What comes after the configuration is compared: 24 to 27, and how many requests there are.
    fn carry_out(
        &self,
        table: &mut Table,
        edition: &mut u32,
        perform: impl Fn(&mut Table, &Request) -> Result<(), u32>,
    ) -> Result<usize, Refused> {
        if self.edition != *edition {
            return Err((24, 0, 0));
        }
        let next = edition.checked_add(1).ok_or((25, 0, 0))?;
        if !self.is_for_zones(table).map_err(unread)? {
            return Err((26, 0, 0));
        }
        let mut changed = table.clone();
        let mut count = 0;
        for request in self.requests() {
            perform(&mut changed, &request).map_err(|inner| (27, count, inner))?;
            count += 1;
        }
        *table = changed;
        *edition = next;
        Ok(count)
    }
}

impl State {
    /// The state that the library's words are.
    pub fn from_words(config: &ordinary::ConfigWords, table: &ordinary::TableWords, edition: u32) -> Box<State> {
        let mut words = config.iter().copied();
        let mut next = || words.next().expect("a word");
        let (count, gic) = (next(), next());
        let config = Config { count, gic, records: records(&mut next) };
        let mut words = table.iter().copied();
        let mut next = || words.next().expect("a word");
        let table = Table { count: next(), zones: std::array::from_fn(|_| zone(&mut next)) };
        Box::new(State { config, table, edition })
    }
}

fn zone(next: &mut impl FnMut() -> u64) -> Zone {
    Zone { id: next(), cpu: Set { count: next(), records: records(next) }, iommu: Set { count: next(), records: records(next) } }
}

fn records<const N: usize>(next: &mut impl FnMut() -> u64) -> [Region; N] {
    std::array::from_fn(|_| Region::from_numbers(std::array::from_fn(|_| next())))
}

#[cfg(test)]
pub mod tests {
    use super::*;
    use cases::{Case, Question};
    use ordinary::{CONFIG_WORDS, TABLE_WORDS};

    const WORD: usize = 8;

    pub fn table_words(table: &Table) -> Vec<u64> {
        let mut words = vec![table.count];
        for zone in &table.zones {
            words.push(zone.id);
            for set in [&zone.cpu, &zone.iommu] {
                words.push(set.count);
                words.extend(set.records.iter().flat_map(numbers_of));
            }
        }
        words
    }

    fn numbers_of(region: &Region) -> [u64; Region::NUMBERS] {
        [region.v, region.p, region.size, region.rights]
    }

    fn ask(case: &Case, state: &mut State) -> Answer {
        let number_of = |done: Result<(), u32>| done.err().unwrap_or(0);
        let with_place = |answer: Result<u64, (u32, u64)>| match answer {
            Ok(place) => (0, [place, 0]),
            Err((number, place)) => (number, [place, 0]),
        };
        match case.question {
            Question::Config => state.config.check().err().unwrap_or((0, [0, 0])),
            Question::Table => (state.table.check(&state.config).is_ok().into(), [0, 0]),
            Question::Request => {
                let ordinary::Record { kind, zone, region } = case.record();
                let request = Request { kind, zone, region: Region::from_numbers(region.numbers()) };
                (number_of(state.table.request(&state.config, &request)), [0, 0])
            }
            Question::Translate => {
                let side = if case.number(1) == 0 { Side::Cpu } else { Side::Iommu };
                let found = state.table.translate(&state.config, case.number(0), side, case.numbers[2]);
                found.map_or_else(|number| (number, [0, 0]), |found| (0, found))
            }
            Question::Read => {
                let read = Plan::read(&case.plan);
                with_place(read.map(|plan| plan.requests_at as u64).map_err(|(number, at)| (number, at as u64)))
            }
            Question::Apply => state.apply(&case.plan),
            Question::List => {
                let wanted = State::from_words(&case.config, &case.wanted(), 0).table;
                let mut buffer = case.buffer.clone();
                let listed = state.table.list_to(&state.config, &wanted, &mut buffer);
                assert!(buffer == case.ordinary().left[0].buffer, "the buffer afterwards");
                with_place(listed.map(|count| count as u64).map_err(|number| (number, 0)))
            }
            _ => unreachable!("no job asks it"),
        }
    }

    /// Numbers, places and the words afterwards are those of `rust/ordinary`, on every case by name and every stored plan.
    #[test]
    fn it_answers_as_the_other_ordinary_implementation() {
        let named = cases::named().into_iter().map(|named| (named.name, named.case));
        let files = cases::plan_files().into_iter().map(|file| (file.name.clone(), file.case()));
        let mut asked = 0;
        let asked_by_a_job = |case: &cases::Case| {
            let asked =
                [Question::Config, Question::Table, Question::Request, Question::Translate, Question::Read, Question::Apply];
            asked.contains(&case.question)
        };
        for (name, case) in named.chain(files).filter(|(_, case)| asked_by_a_job(case)) {
            let mut state = State::from_words(&case.config, &case.table, case.edition());
            let answer = ask(&case, &mut state);
            let expected = case.ordinary();
            assert_eq!(answer, (expected.number, expected.places), "{name}");
            assert_eq!(state.edition, expected.edition, "{name}");
            assert!(table_words(&state.table) == expected.table, "{name}: the table afterwards");
            asked += 1;
        }
        assert!(asked > 2000);
    }

    #[test]
    fn the_memory_is_as_large_as_the_librarys() {
        assert_eq!(size_of::<Config>(), CONFIG_WORDS * WORD);
        assert_eq!(size_of::<Table>(), TABLE_WORDS * WORD);
        assert_eq!(size_of::<State>(), size_of::<peatmitten::State>());
    }
}
