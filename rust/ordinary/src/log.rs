//! The checker for field logs: request 13 of document 02.

use crate::config::Config;
use crate::plan::{encode_sections, encode_zones, put_u32, Plan, ReadFault, Reader, LOG_FORMAT};
use crate::receiver::BufferShort;
use crate::request::{Record, Refusal};
use crate::table::Table;
use crate::terminal::State;

/// A log that was read whole: what a plan says, and for each request the answer that the terminal claims to have given.
#[derive(Clone, Debug)]
pub struct Log<'a> {
    /// The first four sections.
    pub plan: Plan<'a>,
    /// The fifth.
    pub claims: Vec<u32>,
}

/// What a log is answered where not all is well, in the order in which it is asked.
#[derive(Clone, Copy, Debug, PartialEq, Eq)]
pub enum LogRefusal {
    /// 20 to 22: the bytes are no log.
    Read(ReadFault),
    /// 1 or 2: what the log itself starts from is unsound.
    Own(Refusal),
    /// 30: a claim is false.
    FalseClaim {
        /// Which, from 0.
        index: usize,
        /// What is claimed.
        claimed: u32,
        /// What the rules answer: 0 where they accept.
        right: u32,
    },
    /// 28: all claims hold, and the zones do not fit into the buffer.
    BufferShort,
}

impl LogRefusal {
    /// The number.
    pub fn number(&self) -> u32 {
        match self {
            LogRefusal::Read(fault) => fault.number(),
            LogRefusal::Own(refusal) => refusal.number(),
            LogRefusal::FalseClaim { .. } => 30,
            LogRefusal::BufferShort => BufferShort.number(),
        }
    }

    /// The place, what the rules answer and what was claimed, 0 where unused.
    pub fn found(&self) -> (usize, u32, u32) {
        match *self {
            LogRefusal::Read(fault) => (fault.offset(), 0, 0),
            LogRefusal::FalseClaim { index, claimed, right } => (index, right, claimed),
            LogRefusal::Own(_) | LogRefusal::BufferShort => (0, 0, 0),
        }
    }
}

impl<'a> Log<'a> {
    /// Reads a log, up to the first fault in file order.
    pub fn read(bytes: &'a [u8]) -> Result<Log<'a>, ReadFault> {
        let mut reader = Reader::new(bytes);
        let plan = reader.sections(LOG_FORMAT)?;
        let claims = reader.numbers(plan.requests.len())?;
        reader.end()?;
        Ok(Log { plan, claims })
    }

    /// Compares each claim in turn with what the rules answer. A refused request leaves the table, and the next one follows.
    pub fn audit(&self) -> Audit {
        let config = &self.plan.config;
        let mut table = self.plan.table.clone();
        if let Err(refusal) = table.check(config) {
            return Audit { table, finding: Err(LogRefusal::Own(refusal)) };
        }
        for (index, (request, &claimed)) in self.plan.requests.iter().zip(&self.claims).enumerate() {
            let mut next = table.clone();
            let right = answer(&mut next, config, &request);
            if claimed != right {
                return Audit { table, finding: Err(LogRefusal::FalseClaim { index, claimed, right }) };
            }
            table = next;
        }
        Audit { table, finding: Ok(()) }
    }
}

/// How the check of a log ended.
#[derive(Clone, Debug)]
pub struct Audit {
    /// The table at which it ended: the log's own, that before the first false claim, or that after all requests.
    pub table: Table,
    /// What was found.
    pub finding: Result<(), LogRefusal>,
}

impl Audit {
    /// Writes the end zones, with their count, into the buffer's start if all claims hold, and says how long that is. A refusal leaves the buffer as
    /// it was.
    pub fn write_zones(&self, buffer: &mut [u8]) -> Result<usize, LogRefusal> {
        self.finding?;
        let section = encode_zones(&self.table);
        let place = buffer.get_mut(..section.len()).ok_or(LogRefusal::BufferShort)?;
        place.copy_from_slice(&section);
        Ok(section.len())
    }
}

/// Checks a log and writes its end zones.
pub fn check_log(bytes: &[u8], buffer: &mut [u8]) -> Result<usize, LogRefusal> {
    Log::read(bytes).map_err(LogRefusal::Read)?.audit().write_zones(buffer)
}

/// The log of a terminal that began in this state, was asked this and claims these answers.
pub fn encode_log(base: &State, requests: &[Record], claims: &[u32]) -> Vec<u8> {
    let mut log = encode_sections(LOG_FORMAT, base, requests);
    put_u32(&mut log, claims.len() as u32);
    claims.iter().for_each(|&claim| put_u32(&mut log, claim));
    log
}

/// What the rules answer to these requests in turn, from this table on: the claims of an honest terminal.
pub fn true_claims(config: &Config, table: &Table, requests: &[Record]) -> Vec<u32> {
    let mut table = table.clone();
    requests.iter().map(|request| answer(&mut table, config, request)).collect()
}

/// The number of a request, 0 where it is accepted. The table is then changed.
fn answer(table: &mut Table, config: &Config, request: &Record) -> u32 {
    table.perform(config, request).map_or_else(Refusal::number, |()| 0)
}
