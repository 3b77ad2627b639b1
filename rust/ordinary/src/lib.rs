//! The rules of document 01, as the landed requests of document 02 amend them, in ordinary Rust: regions, configurations, tables,
//! requests, translation, plans, terminals and receivers, requests from two tables, and field logs; and, in [`bank`], the second machine:
//! terminals with owners.
//!
//! It is the second reading of the rules, written from the document alone and sharing nothing with the proved code, so that the
//! two can be compared (`rust/compare`) and measured against each other (`rust/bench`). By it `rust/cases` makes the stored plan
//! files with their answers.

#![forbid(unsafe_code)]
#![deny(missing_docs)]

pub mod bank;
mod config;
mod differing;
pub mod layout;
mod listing;
mod log;
mod plan;
mod receiver;
mod region;
mod request;
mod table;
mod terminal;
mod wanted;
mod words;
mod writer;

pub use config::{Config, ConfigFault};
pub use differing::{base_zones, lacking_part};
pub use listing::ListingRefusal;
pub use log::{check_log, encode_log, true_claims, Audit, Log, LogRefusal};
pub use plan::{base_edition, encode, encode_zones, Plan, ReadFault, Requests};
pub use receiver::{BufferShort, Receiver};
pub use region::{Guest, Phys, Region, Rights};
pub use request::{Action, Record, Refusal};
pub use table::{Side, Table, Translated, Zone};
pub use terminal::{apply_alone, PlanRefusal, State};
pub use wanted::ListRefusal;
pub use words::{ConfigWords, TableWords, CONFIG_WORDS, TABLE_WORDS};
pub use writer::WriteRefusal;

/// The limits that the document sets.
pub mod limits {
    /// Every start and every size is a multiple of this.
    pub const PAGE: u64 = 4096;
    /// No region ends above this in guest addresses.
    pub const GUEST_REACH: u64 = 1 << 40;
    /// No region ends above this in physical addresses.
    pub const PHYS_REACH: u64 = 1 << 48;
    /// The most regions of a configuration.
    pub const MAX_REGIONS: usize = 256;
    /// The most zones of a table.
    pub const MAX_ZONES: usize = 32;
    /// The most regions of one set.
    pub const MAX_IN_SET: usize = 16;
    /// The highest zone id.
    pub const MAX_ID: u32 = 255;
    /// The most requests of a plan.
    pub const MAX_REQUESTS: usize = 512;
}
