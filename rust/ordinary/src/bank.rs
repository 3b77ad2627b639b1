//! Terminals with owners, the bank variant: request 6 of document 02. Each zone was given its own regions at the factory.
//!
//! It is the document's second machine over the first, so what does not differ is taken from there. What a zone owns no other zone may hold: of the
//! tests on a region to be inserted 12 and 14 are left out here, and of a sound table the clauses about the GIC on the CPU side and about regions
//! of two zones. The document says that 12 and 14 no longer occur; the library asks them, and the comparison shows that it answers the same.

use crate::config;
use crate::layout::{CONFIG_COUNT, LONGEST_PLAN, REGION_BYTES};
use crate::limits::{MAX_ID, MAX_IN_SET, MAX_REGIONS, MAX_ZONES};
use crate::plan::{self, ReadFault, Reader, Requests};
use crate::region::{Guest, Region};
use crate::request::{Action, Record, Refusal};
use crate::table::{all_pairs, Side, Table, Translated, Zone};
use crate::terminal::{self, PlanRefusal};
use crate::words::ConfigWords;

/// What stands as owner of the GIC's region, and of it only.
pub const GIC_OWNER: u32 = u32::MAX;

/// How many bytes an owner, and the owners' count, is in a plan.
pub const OWNER_BYTES: usize = 4;

/// How many bytes the longest plan has: the first machine's, and as many owners as there can be after their count.
pub const LONGEST_BANK_PLAN: usize = LONGEST_PLAN + OWNER_BYTES + MAX_REGIONS * OWNER_BYTES;

/// Owners as numbers of memory: one for each record of a configuration.
pub type Owners = [u32; MAX_REGIONS];

/// A configuration, and an owner for each of its regions.
#[derive(Clone, Debug, PartialEq, Eq)]
pub struct Config {
    /// What the first machine's configuration has too.
    pub plain: config::Config,
    /// As many owners as there are regions.
    pub owners: Vec<u32>,
}

/// The first fault of a configuration.
#[derive(Clone, Copy, Debug, PartialEq, Eq)]
pub enum ConfigFault {
    /// C1 to C6.
    Plain(config::ConfigFault),
    /// C7: a wrong owner.
    Owner {
        /// The region's position.
        place: usize,
    },
}

impl ConfigFault {
    /// The document's number, 1 for C1.
    pub fn number(&self) -> u32 {
        match self {
            ConfigFault::Plain(fault) => fault.number(),
            ConfigFault::Owner { .. } => 7,
        }
    }

    /// The two place numbers, 0 where unused.
    pub fn places(&self) -> [usize; 2] {
        match *self {
            ConfigFault::Plain(fault) => fault.places(),
            ConfigFault::Owner { place } => [place, 0],
        }
    }
}

impl From<config::ConfigFault> for ConfigFault {
    fn from(fault: config::ConfigFault) -> ConfigFault {
        ConfigFault::Plain(fault)
    }
}

// ---- configurations

impl Config {
    /// The configuration that these words and owners are, or why they are none: C1 to C3. A position past the count is unused where its record is
    /// zero and its owner too.
    pub fn from_words(words: &ConfigWords, owners: &Owners) -> Result<Config, ConfigFault> {
        let plain = config::Config::from_words(words);
        if let Err(fault @ (config::ConfigFault::Count | config::ConfigFault::GicPosition)) = plain {
            return Err(fault.into());
        }
        let count = words[CONFIG_COUNT] as usize;
        let owner = owners[count..].iter().position(|&owner| owner != 0).map(|past| count + past);
        match (plain, owner) {
            (Ok(plain), None) => Ok(Config { plain, owners: owners[..count].to_vec() }),
            (Ok(_), Some(place)) => Err(config::ConfigFault::NotZero { place }.into()),
            (Err(fault), owner) => {
                let [record, _] = fault.places();
                Err(config::ConfigFault::NotZero { place: owner.map_or(record, |owner| owner.min(record)) }.into())
            }
        }
    }

    /// The owners of a configuration of at most so many regions as it can have.
    pub fn owner_words(&self) -> Owners {
        let mut owners = [0; MAX_REGIONS];
        owners[..self.owners.len()].copy_from_slice(&self.owners);
        owners
    }

    /// The first fault, if there is one: C1 and C2, then C7 at the first bad position, then C4 to C6.
    pub fn check(&self) -> Result<(), ConfigFault> {
        let plain = self.plain.check();
        if let Err(fault @ (config::ConfigFault::Count | config::ConfigFault::GicPosition)) = plain {
            return Err(fault.into());
        }
        match (0..self.plain.regions.len()).find(|&place| !self.has_right_owner(place)) {
            Some(place) => Err(ConfigFault::Owner { place }),
            None => Ok(plain?),
        }
    }

    fn has_right_owner(&self, place: usize) -> bool {
        let owner = self.owners[place];
        if place == self.plain.gic {
            owner == GIC_OWNER
        } else {
            owner <= MAX_ID
        }
    }

    /// Whether the region is a configured one that the zone owns; or the GIC's, on the IOMMU side.
    fn may_hold(&self, zone: u32, side: Side, region: &Region) -> bool {
        let is_own = |(own, &owner): (&Region, &u32)| own == region && owner == zone;
        self.plain.regions.iter().zip(&self.owners).any(is_own) || side == Side::Iommu && region == self.plain.gic_region()
    }
}

// ---- tables and requests

impl Config {
    /// The first of 1 and 2 that applies.
    pub fn check_table(&self, table: &Table) -> Result<(), Refusal> {
        self.check().map_err(|_| Refusal::UnsoundConfig)?;
        let is_sound = table.zones.len() <= MAX_ZONES
            && table.zones.iter().all(|zone| self.is_sound_zone(zone))
            && all_pairs(&table.zones, |a, b| a.id != b.id);
        if is_sound {
            Ok(())
        } else {
            Err(Refusal::UnsoundTable)
        }
    }

    fn is_sound_zone(&self, zone: &Zone) -> bool {
        let is_sound_set = |side: Side| {
            let set = zone.set(side);
            set.len() <= MAX_IN_SET
                && set.iter().all(|region| self.may_hold(zone.id, side, region) && !region.is_excessive(side))
                && all_pairs(set, |a, b| !a.overlaps_in_guest(b))
        };
        zone.id <= MAX_ID && is_sound_set(Side::Cpu) && is_sound_set(Side::Iommu)
    }

    /// One request from outside. The table is changed if it is accepted, and else as it was.
    pub fn request(&self, table: &mut Table, record: &Record) -> Result<(), Refusal> {
        self.check_table(table)?;
        self.perform(table, record)
    }

    /// One request, where the configuration and the table are known to be sound. Of the first machine's, inserts are other ones.
    pub fn perform(&self, table: &mut Table, record: &Record) -> Result<(), Refusal> {
        match record.action() {
            Some(Action::Insert(side, region)) if record.zone <= MAX_ID => self.insert(table, record.zone, side, region),
            _ => table.perform(&self.plain, record),
        }
    }

    fn insert(&self, table: &mut Table, id: u32, side: Side, region: Region) -> Result<(), Refusal> {
        let position = table.position(id).ok_or(Refusal::NoZone)?;
        let set = table.zones[position].set_mut(side);
        if !region.is_well_formed() {
            return Err(Refusal::Form);
        }
        if !region.is_in_reach() {
            return Err(Refusal::Reach);
        }
        if !self.may_hold(id, side, &region) {
            return Err(Refusal::NotConfigured);
        }
        if region.is_excessive(side) {
            return Err(Refusal::TooManyRights);
        }
        if set.contains(&region) {
            return Err(Refusal::RegionThere);
        }
        if set.iter().any(|held| held.overlaps_in_guest(&region)) {
            return Err(Refusal::GuestOverlap);
        }
        if set.len() >= MAX_IN_SET {
            return Err(Refusal::SetFull);
        }
        set.push(region);
        Ok(())
    }

    /// Where a guest address of a zone comes out, and how far that goes on.
    pub fn translate(&self, table: &Table, zone: u32, side: Side, address: Guest) -> Result<Translated, Refusal> {
        self.check_table(table)?;
        table.comes_out(zone, side, address)
    }
}

// ---- plans

/// A plan that was read whole. The requests stay where they are in its bytes.
#[derive(Clone, Debug)]
pub struct Plan<'a> {
    /// The configuration that it is for.
    pub config: Config,
    /// The edition that it is for.
    pub edition: u32,
    /// The zones that it is for.
    pub table: Table,
    /// What it asks.
    pub requests: Requests<'a>,
    /// Where the first request record stands, or would stand.
    pub requests_at: usize,
}

impl<'a> Plan<'a> {
    /// Reads a plan, up to the first fault in file order. The owners stand between the regions and the base zones, after a count that is theirs;
    /// which they are is not judged.
    pub fn read(bytes: &'a [u8]) -> Result<Plan<'a>, ReadFault> {
        let mut reader = Reader::new(bytes);
        let (gic, edition) = reader.marks(plan::FORMAT)?;
        let regions = reader.regions(1..=MAX_REGIONS as u32)?;
        let owners = reader.numbers(regions.len())?;
        let table = reader.table()?;
        let (requests_at, requests) = reader.requests()?;
        reader.end()?;
        let config = Config { plain: config::Config { regions, gic: gic as usize }, owners };
        Ok(Plan { config, edition, table, requests, requests_at })
    }
}

/// Where a plan of so many regions has the count of its owners.
pub const fn owners_at(regions: usize) -> usize {
    let marks = 4 * 4;
    marks + 4 + regions * REGION_BYTES
}

/// The section of these owners, from its count on.
pub fn encode_owners(owners: &[u32]) -> Vec<u8> {
    let count = owners.len() as u32;
    [count].iter().chain(owners).flat_map(|number| number.to_le_bytes()).collect()
}

/// The plan that asks this of a terminal in this state.
pub fn encode(base: &State, requests: &[Record]) -> Vec<u8> {
    let State { config: Config { plain, owners }, table, edition } = base.clone();
    let at = owners_at(plain.regions.len());
    let mut plan = plan::encode(&terminal::State { config: plain, table, edition }, requests);
    plan.splice(at..at, encode_owners(&owners));
    plan
}

// ---- terminals

/// What a terminal keeps.
pub type State = terminal::State<Config>;

/// What the program `bank_apply` answers: the plan is applied to the configuration, owners, edition and zones that it holds.
pub fn apply_alone(bytes: &[u8]) -> Result<usize, PlanRefusal> {
    let Plan { config, edition, table, .. } = Plan::read(bytes)?;
    State { config, table, edition }.apply(bytes)
}

impl State {
    /// Applies a plan and says how many requests it had. A refused plan leaves the state as it was.
    pub fn apply(&mut self, bytes: &[u8]) -> Result<usize, PlanRefusal> {
        self.config.check_table(&self.table).map_err(PlanRefusal::Own)?;
        let plan = Plan::read(bytes)?;
        let next = self.next_edition(&plan.config, plan.edition, &plan.table)?;
        let mut table = plan.table;
        for (index, request) in plan.requests.iter().enumerate() {
            self.config.perform(&mut table, &request).map_err(|refusal| PlanRefusal::Request { index, refusal })?;
        }
        self.table = table;
        self.edition = next;
        Ok(plan.requests.len())
    }
}
