//! Safe Rust over Peatmitten's verified library for update agents of card terminals.
//!
//! A terminal's hypervisor gives each zone regions of memory: one set for the processor, one for devices. A plan is a file that
//! changes them. An agent keeps one [`State`] and gives it each plan that arrives:
//!
//! ```
//! use peatmitten::{Config, PlanRefusal, Region, State};
//!
//! let gic = Region::new(0x0800_0000, 0x0800_0000, 0x1_0000, 3);
//! let mut state = State::new(Config::new(&[gic], 0).expect("few enough regions"));
//!
//! // A plan for edition 0 of this terminal: add zone 5.
//! let mut plan = Vec::new();
//! for number in [3u32, 0, 0, 2, 1] {
//!     plan.extend(number.to_le_bytes());
//! }
//! for number in [0x0800_0000u64, 0x0800_0000, 0x1_0000, 3] {
//!     plan.extend(number.to_le_bytes());
//! }
//! for number in [0u32, 1, 1, 5] {
//!     plan.extend(number.to_le_bytes());
//! }
//! plan.extend([0; 32]);
//!
//! assert_eq!(state.apply(&plan), Ok(1));
//! assert_eq!(state.edition, 1);
//! assert_eq!(state.table.zones().next().map(|zone| zone.id()), Some(5));
//!
//! // The same plan again is for an edition that the terminal has left.
//! assert_eq!(state.apply(&plan), Err(PlanRefusal::OtherEdition));
//! ```
//!
//! Every function is total: it answers for any numbers whatever, sound or not. A refusal leaves what it was given as it was.

#![deny(missing_docs)]
#![deny(unsafe_code)]

mod answers;
pub mod bank;
mod config;
mod differing;
pub mod limits;
mod listing;
mod log;
mod plan;
pub mod raw;
mod reading;
mod receiver;
mod region;
mod request;
mod storage;
mod store;
mod table;
mod wanted;
mod writer;

pub use answers::{
    BufferShort, ConfigFault, ListRefusal, ListingRefusal, LogRefusal, PlanRefusal, ReadFault, Refusal, WriteRefusal,
};
pub use config::{Config, CONFIG_WORDS};
pub use differing::{base_zones, first_difference, lacking_part, Difference};
pub use log::{check_log, log_zones};
pub use plan::{base_edition, read_plan, State};
pub use reading::{claims_of, Counted, Field, Reading};
pub use receiver::Receiver;
pub use region::{ByteCount, Guest, Physical, Region, Rights};
pub use request::{Request, Side};
pub use storage::{Delivered, Part, Store, StoreFault, Stored};
pub use store::{replace_file, STATE_BYTES};
pub use table::{Table, Translated, Zone, TABLE_WORDS};
