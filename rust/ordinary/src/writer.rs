//! The planner's writer: request 1 of document 02.

use crate::limits::MAX_REQUESTS;
use crate::plan::{encode, Requests};
use crate::receiver::BufferShort;
use crate::request::{Record, Refusal};
use crate::terminal::State;

/// Why no plan is written, in the order in which it is asked.
#[derive(Clone, Copy, Debug, PartialEq, Eq)]
pub enum WriteRefusal {
    /// 1 or 2: the state is unsound.
    Own(Refusal),
    /// 25: there is no next edition.
    LastEdition,
    /// 29: there are more requests than a plan may have.
    TooManyRequests,
    /// 27: a request is refused.
    Request {
        /// Which, from 0.
        index: usize,
        /// Why.
        refusal: Refusal,
    },
    /// 28: the plan does not fit into the buffer.
    BufferShort,
}

impl WriteRefusal {
    /// The document's number.
    pub fn number(&self) -> u32 {
        match self {
            WriteRefusal::Own(refusal) => refusal.number(),
            WriteRefusal::LastEdition => 25,
            WriteRefusal::TooManyRequests => 29,
            WriteRefusal::Request { .. } => 27,
            WriteRefusal::BufferShort => BufferShort.number(),
        }
    }

    /// The place and the inner number, 0 where unused.
    pub fn found(&self) -> (usize, u32) {
        match self {
            WriteRefusal::Request { index, refusal } => (*index, refusal.number()),
            _ => (0, 0),
        }
    }
}

impl State {
    /// Writes the plan that asks for these requests in this state into the buffer's start, and says how long it is. The requests are
    /// records as a plan has them; bytes after the last whole one do not count. A refusal leaves the buffer as it was.
    pub fn write(&self, requests: &[u8], buffer: &mut [u8]) -> Result<usize, WriteRefusal> {
        self.table.check(&self.config).map_err(WriteRefusal::Own)?;
        if self.edition == u32::MAX {
            return Err(WriteRefusal::LastEdition);
        }
        let records: Vec<Record> = Requests::in_bytes(requests).iter().collect();
        if records.len() > MAX_REQUESTS {
            return Err(WriteRefusal::TooManyRequests);
        }
        let mut table = self.table.clone();
        for (index, record) in records.iter().enumerate() {
            table.perform(&self.config, record).map_err(|refusal| WriteRefusal::Request { index, refusal })?;
        }
        let plan = encode(self, &records);
        let place = buffer.get_mut(..plan.len()).ok_or(WriteRefusal::BufferShort)?;
        place.copy_from_slice(&plan);
        Ok(plan.len())
    }
}
