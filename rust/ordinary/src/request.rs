use crate::config::Config;
use crate::limits::{MAX_ID, MAX_IN_SET, MAX_ZONES};
use crate::region::Region;
use crate::table::{Side, Table, Zone};

/// The numbers of a request, as a plan has them.
#[derive(Clone, Copy, Debug, PartialEq, Eq)]
pub struct Record {
    /// What is asked, 1 to 6.
    pub kind: u32,
    /// The zone's id.
    pub zone: u32,
    /// The region; all zero where the kind takes none.
    pub region: Region,
}

/// What a request asks of its zone.
#[derive(Clone, Copy, Debug, PartialEq, Eq)]
pub enum Action {
    /// Kind 1.
    AddZone,
    /// Kind 2.
    RemoveZone,
    /// Kinds 3 and 5.
    Insert(Side, Region),
    /// Kinds 4 and 6.
    Remove(Side, Region),
}

/// Why a request or a translation is refused.
#[derive(Clone, Copy, Debug, PartialEq, Eq, PartialOrd, Ord)]
pub enum Refusal {
    /// The configuration is unsound.
    UnsoundConfig = 1,
    /// The table is unsound.
    UnsoundTable = 2,
    /// The numbers make no request.
    NoRequest = 3,
    /// The zone id is above 255.
    ZoneId = 4,
    /// The zone is already there.
    ZoneThere = 5,
    /// There is no such zone.
    NoZone = 6,
    /// Eight zones are in use.
    ZonesFull = 7,
    /// A set of the zone holds a region.
    ZoneInUse = 8,
    /// The region is not well formed.
    Form = 9,
    /// The region is out of reach.
    Reach = 10,
    /// The region is not a configured one.
    NotConfigured = 11,
    /// A CPU region overlaps the GIC physically.
    OverGic = 12,
    /// The region is already in that set.
    RegionThere = 13,
    /// A forbidden physical overlap.
    PhysicalOverlap = 14,
    /// An overlap in guest addresses within that set.
    GuestOverlap = 15,
    /// Sixteen regions are in that set.
    SetFull = 16,
    /// The region is not in that set.
    NoRegion = 17,
    /// No region covers the address.
    NotCovered = 18,
    /// The region has too many rights for its side.
    TooManyRights = 19,
}

impl Refusal {
    /// The document's number.
    pub fn number(self) -> u32 {
        self as u32
    }
}

impl Record {
    /// What is asked, or nothing where the numbers make no request.
    pub fn action(&self) -> Option<Action> {
        match self.kind {
            1 if self.region == Region::ZERO => Some(Action::AddZone),
            2 if self.region == Region::ZERO => Some(Action::RemoveZone),
            3 => Some(Action::Insert(Side::Cpu, self.region)),
            4 => Some(Action::Remove(Side::Cpu, self.region)),
            5 => Some(Action::Insert(Side::Iommu, self.region)),
            6 => Some(Action::Remove(Side::Iommu, self.region)),
            _ => None,
        }
    }
}

impl Table {
    /// One request from outside. The table is changed if it is accepted, and else as it was.
    pub fn request(&mut self, config: &Config, record: &Record) -> Result<(), Refusal> {
        self.check(config)?;
        self.perform(config, record)
    }

    /// One request, where the configuration and the table are known to be sound.
    pub fn perform(&mut self, config: &Config, record: &Record) -> Result<(), Refusal> {
        let action = record.action().ok_or(Refusal::NoRequest)?;
        if record.zone > MAX_ID {
            return Err(Refusal::ZoneId);
        }
        match action {
            Action::AddZone => self.add_zone(record.zone),
            Action::RemoveZone => self.remove_zone(record.zone),
            Action::Insert(side, region) => self.insert(config, record.zone, side, region),
            Action::Remove(side, region) => self.remove(record.zone, side, &region),
        }
    }

    fn add_zone(&mut self, id: u32) -> Result<(), Refusal> {
        if self.position(id).is_some() {
            return Err(Refusal::ZoneThere);
        }
        if self.zones.len() >= MAX_ZONES {
            return Err(Refusal::ZonesFull);
        }
        self.zones.push(Zone::empty(id));
        Ok(())
    }

    fn remove_zone(&mut self, id: u32) -> Result<(), Refusal> {
        let position = self.position(id).ok_or(Refusal::NoZone)?;
        if !self.zones[position].is_empty() {
            return Err(Refusal::ZoneInUse);
        }
        self.zones.remove(position);
        Ok(())
    }

    fn insert(&mut self, config: &Config, id: u32, side: Side, region: Region) -> Result<(), Refusal> {
        let position = self.position(id).ok_or(Refusal::NoZone)?;
        check_region(config, side, &region)?;
        let set = self.zones[position].set(side);
        if set.contains(&region) {
            return Err(Refusal::RegionThere);
        }
        if self.has_forbidden_overlap(config, position, side, &region) {
            return Err(Refusal::PhysicalOverlap);
        }
        if set.iter().any(|held| held.overlaps_in_guest(&region)) {
            return Err(Refusal::GuestOverlap);
        }
        if set.len() >= MAX_IN_SET {
            return Err(Refusal::SetFull);
        }
        self.zones[position].set_mut(side).push(region);
        Ok(())
    }

    fn remove(&mut self, id: u32, side: Side, region: &Region) -> Result<(), Refusal> {
        let position = self.position(id).ok_or(Refusal::NoZone)?;
        let set = self.zones[position].set_mut(side);
        let place = set.iter().position(|held| held == region).ok_or(Refusal::NoRegion)?;
        set.remove(place);
        Ok(())
    }

    /// Number 14. A CPU region may overlap no CPU region and no IOMMU region of another zone; an IOMMU region may overlap no
    /// region of another zone, unless one of the two is the GIC.
    fn has_forbidden_overlap(&self, config: &Config, position: usize, side: Side, region: &Region) -> bool {
        let gic = config.gic_region();
        let overlaps = |held: &Region| held.overlaps_physically(region);
        let mut zones = self.zones.iter().enumerate();
        match side {
            Side::Cpu => zones.any(|(at, zone)| zone.cpu.iter().any(overlaps) || at != position && zone.iommu.iter().any(overlaps)),
            Side::Iommu => {
                region != gic && zones.any(|(at, zone)| at != position && zone.regions().any(|held| held != gic && overlaps(held)))
            }
        }
    }
}

/// What is asked of a region that is to be inserted, whatever the table holds: 9 to 12.
fn check_region(config: &Config, side: Side, region: &Region) -> Result<(), Refusal> {
    if !region.is_well_formed() {
        return Err(Refusal::Form);
    }
    if !region.is_in_reach() {
        return Err(Refusal::Reach);
    }
    if !config.has(region) {
        return Err(Refusal::NotConfigured);
    }
    if region.is_excessive(side) {
        return Err(Refusal::TooManyRights);
    }
    if side == Side::Cpu && region.overlaps_physically(config.gic_region()) {
        return Err(Refusal::OverGic);
    }
    Ok(())
}
