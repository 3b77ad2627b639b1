//! A plan as what it says, and where its fields stand among its bytes.

use std::ops::RangeInclusive;

use ordinary::layout::{REGION_BYTES, REQUEST_BYTES};
use ordinary::limits::{MAX_IN_SET, MAX_REGIONS, MAX_REQUESTS, MAX_ZONES};
use ordinary::{encode, Record, Region, State, Zone};

const NUMBER_BYTES: usize = 4;

#[derive(Clone, Debug)]
pub struct Plan {
    pub base: State,
    pub requests: Vec<Record>,
}

impl Plan {
    pub fn bytes(&self) -> Vec<u8> {
        encode(&self.base, &self.requests)
    }

    // The same plan with one thing changed.

    pub fn with_gic(mut self, gic: u32) -> Plan {
        self.base.config.gic = gic as usize;
        self
    }

    pub fn with_edition(mut self, edition: u32) -> Plan {
        self.base.edition = edition;
        self
    }

    pub fn with_regions(mut self, regions: &[Region]) -> Plan {
        self.base.config.regions = regions.to_vec();
        self
    }

    pub fn with_zones(mut self, zones: &[Zone]) -> Plan {
        self.base.table.zones = zones.to_vec();
        self
    }

    pub fn with_requests(mut self, requests: &[Record]) -> Plan {
        self.requests = requests.to_vec();
        self
    }

    /// Every field in file order.
    pub fn fields(&self) -> Vec<Field> {
        let mut fields = Fields::default();
        fields.count("marks-count", 3..=3);
        fields.add("gic-position", NUMBER_BYTES);
        fields.add("edition", NUMBER_BYTES);
        fields.count("third-mark", 2..=2);
        fields.count("regions-count", 1..=MAX_REGIONS as u32);
        fields.elements("region", self.base.config.regions.len(), REGION_BYTES);
        fields.count("zones-count", 0..=MAX_ZONES as u32);
        for (at, zone) in self.base.table.zones.iter().enumerate() {
            fields.add(format!("zone-{at}-id"), NUMBER_BYTES);
            fields.set(&format!("zone-{at}-cpu"), &zone.cpu);
            fields.set(&format!("zone-{at}-iommu"), &zone.iommu);
        }
        fields.count("requests-count", 0..=MAX_REQUESTS as u32);
        fields.elements("request", self.requests.len(), REQUEST_BYTES);
        fields.all
    }

    pub fn field(&self, name: &str) -> Field {
        self.fields().into_iter().find(|field| field.name == name).expect("a field of this name")
    }
}

#[derive(Clone, Debug)]
pub struct Field {
    pub name: String,
    pub start: usize,
    pub end: usize,
    /// Of a count, and of the third mark, what it may be.
    pub limits: Option<RangeInclusive<u32>>,
}

#[derive(Default)]
struct Fields {
    all: Vec<Field>,
    at: usize,
}

impl Fields {
    fn add(&mut self, name: impl Into<String>, size: usize) {
        let start = self.at;
        self.at += size;
        self.all.push(Field { name: name.into(), start, end: self.at, limits: None });
    }

    fn count(&mut self, name: impl Into<String>, limits: RangeInclusive<u32>) {
        let (name, start) = (name.into(), self.at);
        self.at += NUMBER_BYTES;
        self.all.push(Field { name, start, end: self.at, limits: Some(limits) });
    }

    fn elements(&mut self, name: &str, count: usize, size: usize) {
        for at in 0..count {
            self.add(format!("{name}-{at}"), size);
        }
    }

    fn set(&mut self, name: &str, set: &[Region]) {
        self.count(format!("{name}-count"), 0..=MAX_IN_SET as u32);
        self.elements(&format!("{name}-region"), set.len(), REGION_BYTES);
    }
}

#[cfg(test)]
mod tests {
    use crate::files::rich;

    #[test]
    fn the_fields_are_the_whole_plan() {
        let plan = rich();
        assert_eq!(plan.fields().last().map(|field| field.end), Some(plan.bytes().len()));
    }
}
