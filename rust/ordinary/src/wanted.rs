use crate::config::Config;
use crate::layout::REQUEST_BYTES;
use crate::limits::MAX_REQUESTS;
use crate::plan::put_request;
use crate::region::Region;
use crate::request::{Record, Refusal};
use crate::table::{Side, Table, Zone};

/// Why there is no list of requests from one table to another, or why a buffer does not get it.
#[derive(Clone, Copy, Debug, PartialEq, Eq)]
pub enum ListRefusal {
    /// 1 or 2: the configuration is unsound, or one of the two tables is.
    Unsound(Refusal),
    /// 28: the buffer is too short.
    Buffer,
    /// 29: a plan has no room for the list.
    TooMany,
}

impl ListRefusal {
    /// The document's number.
    pub fn number(&self) -> u32 {
        match self {
            ListRefusal::Unsound(refusal) => refusal.number(),
            ListRefusal::Buffer => 28,
            ListRefusal::TooMany => 29,
        }
    }
}

impl Table {
    /// The requests that lead from this table to the wanted zones and sets.
    pub fn requests_to(&self, config: &Config, wanted: &Table) -> Result<Vec<Record>, ListRefusal> {
        self.check(config).map_err(ListRefusal::Unsound)?;
        wanted.check(config).map_err(ListRefusal::Unsound)?;
        let list = self.list_to(wanted);
        if list.len() > MAX_REQUESTS {
            return Err(ListRefusal::TooMany);
        }
        Ok(list)
    }

    /// Puts those requests into the buffer, as a plan has them, and says how many there are. A refusal changes no byte.
    pub fn write_requests_to(&self, config: &Config, wanted: &Table, buffer: &mut [u8]) -> Result<usize, ListRefusal> {
        let list = self.requests_to(config, wanted)?;
        let start = buffer.get_mut(..list.len() * REQUEST_BYTES).ok_or(ListRefusal::Buffer)?;
        let mut bytes = Vec::with_capacity(start.len());
        for request in &list {
            put_request(&mut bytes, request);
        }
        start.copy_from_slice(&bytes);
        Ok(list.len())
    }

    /// The rule: regions that are not wanted go, zones that are not wanted go, zones that are missing come, regions that are
    /// missing come.
    fn list_to(&self, wanted: &Table) -> Vec<Record> {
        let mut list = Vec::new();
        for (zone, side, region) in self.held().filter(|held| !wanted.holds(held)) {
            list.push(Record { kind: removal_from(side), zone, region });
        }
        for zone in self.zones.iter().filter(|zone| wanted.position(zone.id).is_none()) {
            list.push(Record { kind: 2, zone: zone.id, region: Region::ZERO });
        }
        for zone in wanted.zones.iter().filter(|zone| self.position(zone.id).is_none()) {
            list.push(Record { kind: 1, zone: zone.id, region: Region::ZERO });
        }
        for (zone, side, region) in wanted.held().filter(|held| !self.holds(held)) {
            list.push(Record { kind: insert_into(side), zone, region });
        }
        list
    }

    /// All that is held, zone by zone, a zone's CPU set before its IOMMU set.
    fn held(&self) -> impl Iterator<Item = (u32, Side, Region)> + '_ {
        self.zones.iter().flat_map(|zone| held_on(zone, Side::Cpu).chain(held_on(zone, Side::Iommu)))
    }

    /// Whether that set of that zone has the region.
    fn holds(&self, (zone, side, region): &(u32, Side, Region)) -> bool {
        self.position(*zone).is_some_and(|position| self.zones[position].set(*side).contains(region))
    }
}

fn held_on(zone: &Zone, side: Side) -> impl Iterator<Item = (u32, Side, Region)> + '_ {
    zone.set(side).iter().map(move |region| (zone.id, side, *region))
}

fn insert_into(side: Side) -> u32 {
    match side {
        Side::Cpu => 3,
        Side::Iommu => 5,
    }
}

fn removal_from(side: Side) -> u32 {
    match side {
        Side::Cpu => 4,
        Side::Iommu => 6,
    }
}
