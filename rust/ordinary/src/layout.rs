//! Where numbers stand among the words of a configuration and of a table, and how long records are in a plan. A record is a region's numbers.

use crate::limits::{MAX_IN_SET, MAX_REGIONS, MAX_REQUESTS, MAX_ZONES};
use crate::region::Region;
use crate::table::Side;

/// How many words a record is.
pub const REGION_WORDS: usize = Region::NUMBERS;
/// How many words a set is: its count, then its records.
pub const SET_WORDS: usize = 1 + MAX_IN_SET * REGION_WORDS;
/// How many words a zone is: its id, then its CPU and its IOMMU set.
pub const ZONE_WORDS: usize = 1 + 2 * SET_WORDS;

/// How many bytes a number of a region is in a plan.
pub const NUMBER_BYTES: usize = 8;
/// How many bytes a region is in a plan: its numbers.
pub const REGION_BYTES: usize = Region::NUMBERS * NUMBER_BYTES;
/// How many bytes a request is in a plan: its kind and its zone id have 4 each, then its region.
pub const REQUEST_BYTES: usize = 4 + 4 + REGION_BYTES;

/// How many bytes the longest plan has: the three marks after their count, then regions, zones and requests, each after theirs, as many as there
/// can be.
pub const LONGEST_PLAN: usize = {
    let set = 4 + MAX_IN_SET * REGION_BYTES;
    let zones = 4 + MAX_ZONES * (4 + 2 * set);
    4 * 4 + (4 + MAX_REGIONS * REGION_BYTES) + zones + (4 + MAX_REQUESTS * REQUEST_BYTES)
};

/// How many bytes a claimed answer is in a log.
pub const CLAIM_BYTES: usize = 4;

/// How many bytes the longest log has: those of the longest plan, then the claims after their count.
pub const LONGEST_LOG: usize = LONGEST_PLAN + 4 + MAX_REQUESTS * CLAIM_BYTES;

/// How many bytes a listing can have: two full sets in as many zones as there can be, and each line the longest of its side.
pub const LONGEST_LISTING: usize = {
    let id = "255 ".len();
    let numbers = 3 * "0x0000000000000000 ".len();
    let rights = "7 ".len();
    let shift = "68719476735\n".len();
    let line = id + numbers + rights + shift;
    MAX_ZONES * MAX_IN_SET * ((line + "CPU ".len()) + (line + "IOMMU ".len()))
};

/// Where a configuration has its count.
pub const CONFIG_COUNT: usize = 0;
/// Where a configuration has the GIC's position.
pub const CONFIG_GIC: usize = 1;
/// Where the records of a configuration begin.
pub const CONFIG_RECORDS: usize = 2;

/// Where a table has its count.
pub const TABLE_COUNT: usize = 0;
/// Where the zones of a table begin.
pub const TABLE_ZONES: usize = 1;

/// Where the record of a configuration at this position begins.
pub const fn config_record(position: usize) -> usize {
    CONFIG_RECORDS + position * REGION_WORDS
}

/// Where the zone at this position has its id.
pub const fn zone_id(zone: usize) -> usize {
    TABLE_ZONES + zone * ZONE_WORDS
}

/// Where a set of the zone at this position has its count.
pub const fn set_count(zone: usize, side: Side) -> usize {
    let set = match side {
        Side::Cpu => 0,
        Side::Iommu => 1,
    };
    zone_id(zone) + 1 + set * SET_WORDS
}

/// Where a record of such a set begins.
pub const fn set_record(zone: usize, side: Side, place: usize) -> usize {
    set_count(zone, side) + 1 + place * REGION_WORDS
}
