//! Field logs: the sections of a plan, then for each request the answer that a terminal claims to have given.

use crate::answers::LogRefusal;
use crate::config::{Config, CONFIG_WORDS};
use crate::limits::LONGEST_PLAN;
use crate::raw;
use crate::table::Table;

/// Checks a log: runs its requests by the rules, from its own configuration and zones, and holds each claim against the answer. A claimed refusal
/// leaves the table, and the log goes on. Where all claims hold, the end zones are written, their count with them, and it is said how many
/// bytes that is: so many from the buffer's start are then the section, and those behind them are what they were. Else no byte changes.
///
/// `config` and `table` are room to work in, whatever they hold. After a log that reads whole they are its configuration and the table at which
/// the check ended: that after all requests, that before the request of a false claim, or on 1 and 2 the one that the log begins with. After
/// bytes that are no log they are what they were.
///
/// ```
/// use peatmitten::{check_log, Config, LogRefusal, Refusal, Table, CONFIG_WORDS};
///
/// // One region, the GIC; edition 0; no zones; two requests, add zone 5 and once more; and what is claimed of them.
/// let log = |claims: [u32; 2]| {
///     let mut log = Vec::new();
///     let mut short = |numbers: &[u32]| log.extend(numbers.iter().flat_map(|number| number.to_le_bytes()));
///     short(&[3, 0, 0, 3]);
///     short(&[1, 0x0800_0000, 0, 0x0800_0000, 0, 0x1_0000, 0, 3, 0]);
///     short(&[0]);
///     short(&[2, 1, 5, 0, 0, 0, 0, 0, 0, 0, 0, 1, 5, 0, 0, 0, 0, 0, 0, 0, 0]);
///     short(&[2, claims[0], claims[1]]);
///     log
/// };
/// let (mut config, mut table) = (Config::from_words([0; CONFIG_WORDS]), Table::new());
/// let mut zones = [7; 20];
///
/// assert_eq!(check_log(&mut config, &mut table, &log([0, 5]), &mut zones), Ok(16));
/// assert_eq!(zones[..8], [1, 0, 0, 0, 5, 0, 0, 0]);
/// assert_eq!(table.zones().count(), 1);
///
/// let refusal = check_log(&mut config, &mut table, &log([0, 0]), &mut zones).unwrap_err();
/// assert_eq!(refusal, LogRefusal::FalseClaim { index: 1, claimed: 0, right: Err(Refusal::ZoneThere) });
/// assert_eq!(refusal.to_string(), "the claim for request 1 is false: it is 0, and the rules say 5: the zone is already there");
/// assert_eq!(check_log(&mut config, &mut table, &log([0, 5]), &mut []), Err(LogRefusal::BufferShort));
/// ```
pub fn check_log(config: &mut Config, table: &mut Table, log: &[u8], buffer: &mut [u8]) -> Result<usize, LogRefusal> {
    let (number, places) = raw::check_log(config, table, log, buffer);
    // A section's length is that of bytes in memory.
    LogRefusal::from_library(number, places).map(|()| places[0] as usize)
}

/// The end zones of a log whose claims all hold, as a section in bytes of its own.
///
/// ```
/// use peatmitten::{log_zones, LogRefusal, ReadFault};
///
/// assert_eq!(log_zones(&[2, 0, 0, 0]), Err(LogRefusal::Read(ReadFault::Count { offset: 0 })));
/// ```
pub fn log_zones(log: &[u8]) -> Result<Vec<u8>, LogRefusal> {
    let (mut config, mut table) = (Config::from_words([0; CONFIG_WORDS]), Table::new());
    // The zones of a log are those of a plan.
    let mut section = vec![0; LONGEST_PLAN];
    let length = check_log(&mut config, &mut table, log, &mut section)?;
    section.truncate(length);
    Ok(section)
}
