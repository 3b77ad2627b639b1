//! The limits that this crate shares with the library it is for: those of `include/peatmitten.h`.

/// The most regions of a configuration.
pub const MOST_REGIONS: usize = 256;
/// The most zones of a table.
pub const MOST_ZONES: usize = 32;
/// The most regions of one set of a zone.
pub const MOST_IN_SET: usize = 16;
/// The most requests of a plan.
pub const MOST_REQUESTS: usize = 512;
/// How long a plan can be; a longer file is none.
pub const LONGEST_PLAN: usize = 61852;
/// How long a listing can be: a buffer of so many bytes is never too short for one.
pub const LONGEST_LISTING: usize = 81920;
/// How long a log can be; a longer file is none.
pub const LONGEST_LOG: usize = 63904;
