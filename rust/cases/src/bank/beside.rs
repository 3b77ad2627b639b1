//! The first machine's cases with owners beside them.

use ordinary::bank::{encode_owners, owners_at, Owners, GIC_OWNER};
use ordinary::layout::{CONFIG_COUNT, CONFIG_GIC, CONFIG_RECORDS, REGION_WORDS};
use ordinary::limits::{MAX_ID, MAX_REGIONS};
use ordinary::{Action, Plan, Record, Region, Table};

use super::QUESTIONS;
use crate::case::{Case, Question};

/// Where a plan of the second format has the count of its regions.
const REGIONS_AT: usize = 16;

/// The same question to the second machine, if it has it, with these owners. A plan has as many of them as it counts regions, behind those.
pub fn with_owners(case: &Case, owners: Owners) -> Option<Case> {
    let plan = plan_with_owners(&case.plan, &owners);
    QUESTIONS.contains(&case.question).then(|| Case { owners: Some(owners), plan, ..case.clone() })
}

/// A plan that does not reach so far stays as it is.
fn plan_with_owners(plan: &[u8], owners: &Owners) -> Vec<u8> {
    let count = plan.get(REGIONS_AT..).and_then(|bytes| bytes.first_chunk()).map_or(0, |count| u32::from_le_bytes(*count) as usize);
    let at = owners_at(count.min(MAX_REGIONS));
    if count > MAX_REGIONS || plan.len() < at {
        return plan.to_vec();
    }
    [&plan[..at], &encode_owners(&owners[..count]), &plan[at..]].concat()
}

/// Owners under which the case is much as it is without: the zone that holds a region owns it; one that nobody holds belongs to the zone that it is
/// first inserted into, or to any.
pub fn owners_of(case: &Case, mut any: impl FnMut() -> u32) -> Owners {
    let mut owners = [0; MAX_REGIONS];
    let zones = Table::from_words(&case.table).unwrap_or_default().zones;
    let wanted = inserts(case);
    let regions = case.config[CONFIG_RECORDS..]
        .chunks_exact(REGION_WORDS)
        .map(|record| Region::from_numbers(record.try_into().expect("a record")));
    let count = usize::try_from(case.config[CONFIG_COUNT]).unwrap_or(MAX_REGIONS);
    for (place, (owner, region)) in owners.iter_mut().zip(regions).take(count).enumerate() {
        let holder = zones.iter().find(|zone| zone.cpu.contains(&region) || zone.iommu.contains(&region)).map(|zone| zone.id);
        let wanting = || wanted.iter().find(|(_, inserted)| *inserted == region).map(|(zone, _)| *zone);
        *owner = match holder.or_else(wanting) {
            _ if place as u64 == case.config[CONFIG_GIC] => GIC_OWNER,
            Some(zone) if zone <= MAX_ID => zone,
            _ => any(),
        };
    }
    owners
}

/// The regions that are to be inserted, each with its zone.
fn inserts(case: &Case) -> Vec<(u32, Region)> {
    let records: Vec<Record> = match case.question {
        Question::Request => vec![case.record()],
        _ => Plan::read(&case.plan).map_or(Vec::new(), |plan| plan.requests.iter().collect()),
    };
    let insert = |record: &Record| match record.action() {
        Some(Action::Insert(_, region)) => Some((record.zone, region)),
        _ => None,
    };
    records.iter().filter_map(insert).collect()
}
