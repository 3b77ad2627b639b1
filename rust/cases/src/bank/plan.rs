//! A plan with owners as what it says, and where its fields stand among its bytes.

use ordinary::bank::{encode, owners_at, Config, State, OWNER_BYTES};
use ordinary::{Record, Region, Zone};

use crate::fields::{self, Field};

/// The first machine's plan, and its owners.
#[derive(Clone, Debug)]
pub struct Plan {
    pub plain: fields::Plan,
    pub owners: Vec<u32>,
}

impl Plan {
    pub fn base(&self) -> State {
        let ordinary::State { config, table, edition } = self.plain.base.clone();
        State { config: Config { plain: config, owners: self.owners.clone() }, table, edition }
    }

    pub fn bytes(&self) -> Vec<u8> {
        encode(&self.base(), &self.plain.requests)
    }

    // The same plan with one thing changed.

    pub fn with_owners(self, owners: &[u32]) -> Plan {
        Plan { owners: owners.to_vec(), ..self }
    }

    pub fn with_owner(mut self, place: usize, owner: u32) -> Plan {
        self.owners[place] = owner;
        self
    }

    pub fn with_gic(self, gic: u32) -> Plan {
        Plan { plain: self.plain.with_gic(gic), ..self }
    }

    pub fn with_edition(self, edition: u32) -> Plan {
        Plan { plain: self.plain.with_edition(edition), ..self }
    }

    pub fn with_regions(self, regions: &[Region]) -> Plan {
        Plan { plain: self.plain.with_regions(regions), ..self }
    }

    pub fn with_zones(self, zones: &[Zone]) -> Plan {
        Plan { plain: self.plain.with_zones(zones), ..self }
    }

    pub fn with_requests(self, requests: &[Record]) -> Plan {
        Plan { plain: self.plain.with_requests(requests), ..self }
    }

    /// Every field in file order: the owners stand between the last region and the zones' count.
    pub fn fields(&self) -> Vec<Field> {
        let at = owners_at(self.plain.base.config.regions.len());
        let length = OWNER_BYTES * (1 + self.owners.len());
        let mut fields = self.plain.fields();
        let behind = fields.iter().position(|field| field.start == at).expect("the zones' count");
        for field in &mut fields[behind..] {
            field.start += length;
            field.end += length;
        }
        let count = self.owners.len() as u32;
        let mut owners = vec![Field { name: "owners-count".into(), start: at, end: at + OWNER_BYTES, limits: Some(count..=count) }];
        for place in 0..self.owners.len() {
            let start = at + OWNER_BYTES * (1 + place);
            owners.push(Field { name: format!("owner-{place}"), start, end: start + OWNER_BYTES, limits: None });
        }
        fields.splice(behind..behind, owners);
        fields
    }

    pub fn field(&self, name: &str) -> Field {
        self.fields().into_iter().find(|field| field.name == name).expect("a field of this name")
    }
}

#[cfg(test)]
mod tests {
    use crate::bank::files::rich;

    #[test]
    fn the_fields_are_the_whole_plan() {
        let (fields, bytes) = (rich().fields(), rich().bytes());
        assert!(fields.windows(2).all(|pair| pair[0].end == pair[1].start));
        assert_eq!((fields[0].start, fields.last().map(|field| field.end)), (0, Some(bytes.len())));
    }
}
