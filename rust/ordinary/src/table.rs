use crate::config::Config;
use crate::limits::{MAX_ID, MAX_IN_SET, MAX_ZONES};
use crate::region::{Guest, Phys, Region};
use crate::request::Refusal;

/// Which of a zone's two sets.
#[derive(Clone, Copy, Debug, PartialEq, Eq)]
pub enum Side {
    /// The processor's.
    Cpu,
    /// The devices'.
    Iommu,
}

/// A zone and the regions that it holds.
#[derive(Clone, Debug, PartialEq, Eq)]
pub struct Zone {
    /// Its id.
    pub id: u32,
    /// The processor's regions.
    pub cpu: Vec<Region>,
    /// The devices' regions.
    pub iommu: Vec<Region>,
}

/// Where a guest address comes out.
#[derive(Clone, Copy, Debug, PartialEq, Eq)]
pub struct Translated {
    /// The physical address.
    pub physical: Phys,
    /// How many bytes of the covering region there are from the address on, itself among them.
    pub remaining: u64,
}

/// The zones, in their order.
#[derive(Clone, Debug, Default, PartialEq, Eq)]
pub struct Table {
    /// The zones.
    pub zones: Vec<Zone>,
}

impl Zone {
    /// A zone that holds nothing.
    pub fn empty(id: u32) -> Zone {
        Zone { id, cpu: Vec::new(), iommu: Vec::new() }
    }

    pub(crate) fn is_empty(&self) -> bool {
        self.cpu.is_empty() && self.iommu.is_empty()
    }

    pub(crate) fn set(&self, side: Side) -> &[Region] {
        match side {
            Side::Cpu => &self.cpu,
            Side::Iommu => &self.iommu,
        }
    }

    pub(crate) fn set_mut(&mut self, side: Side) -> &mut Vec<Region> {
        match side {
            Side::Cpu => &mut self.cpu,
            Side::Iommu => &mut self.iommu,
        }
    }

    /// The regions of both sets.
    pub(crate) fn regions(&self) -> impl Iterator<Item = &Region> {
        self.cpu.iter().chain(&self.iommu)
    }

    fn is_sound(&self, config: &Config) -> bool {
        let gic = config.gic_region();
        self.id <= MAX_ID
            && is_sound_set(config, &self.cpu)
            && is_sound_set(config, &self.iommu)
            && !self.cpu.iter().any(|region| region.overlaps_physically(gic) || region.is_excessive(Side::Cpu))
            && !self.iommu.iter().any(|region| region.is_excessive(Side::Iommu))
    }
}

impl Table {
    /// The first of 1 and 2 that applies.
    pub fn check(&self, config: &Config) -> Result<(), Refusal> {
        config.check().map_err(|_| Refusal::UnsoundConfig)?;
        if self.is_sound_under(config) {
            Ok(())
        } else {
            Err(Refusal::UnsoundTable)
        }
    }

    /// Whether the table is sound under the configuration; no, where that is unsound.
    pub fn is_sound(&self, config: &Config) -> bool {
        self.check(config).is_ok()
    }

    fn is_sound_under(&self, config: &Config) -> bool {
        self.zones.len() <= MAX_ZONES
            && self.zones.iter().all(|zone| zone.is_sound(config))
            && all_pairs(&self.zones, |a, b| a.id != b.id && are_apart(a, b, config.gic_region()))
    }

    /// Where the zone with this id stands.
    pub(crate) fn position(&self, id: u32) -> Option<usize> {
        self.zones.iter().position(|zone| zone.id == id)
    }

    /// Where a guest address of a zone comes out, and how far that goes on.
    pub fn translate(&self, config: &Config, zone: u32, side: Side, address: Guest) -> Result<Translated, Refusal> {
        self.check(config)?;
        self.comes_out(zone, side, address)
    }

    /// The same, where the configuration and the table are known to be sound.
    pub(crate) fn comes_out(&self, zone: u32, side: Side, address: Guest) -> Result<Translated, Refusal> {
        if zone > MAX_ID {
            return Err(Refusal::ZoneId);
        }
        let position = self.position(zone).ok_or(Refusal::NoZone)?;
        self.zones[position]
            .set(side)
            .iter()
            .find_map(|region| region.offset_of(address).map(|offset| goes_on(region, offset)))
            .ok_or(Refusal::NotCovered)
    }
}

/// What is answered for the address that is so far into the region.
fn goes_on(region: &Region, offset: u64) -> Translated {
    Translated { physical: Phys(region.p.0 + offset), remaining: region.size - offset }
}

fn is_sound_set(config: &Config, set: &[Region]) -> bool {
    set.len() <= MAX_IN_SET && set.iter().all(|region| config.has(region)) && all_pairs(set, |a, b| !a.overlaps_in_guest(b))
}

/// Whether no region of one zone overlaps one of the other physically, the GIC's left out.
fn are_apart(a: &Zone, b: &Zone, gic: &Region) -> bool {
    a.regions()
        .filter(|&region| region != gic)
        .all(|region| !b.regions().any(|other| other != gic && other.overlaps_physically(region)))
}

/// Whether every item and every later one are as asked.
pub(crate) fn all_pairs<T>(items: &[T], mut asked: impl FnMut(&T, &T) -> bool) -> bool {
    items.iter().enumerate().all(|(place, later)| items[..place].iter().all(|earlier| asked(earlier, later)))
}
