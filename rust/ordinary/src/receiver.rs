//! Plans that arrive in pieces: request 8 of document 02.

use crate::layout::LONGEST_PLAN;

/// 28: the buffer is shorter than the longest plan.
#[derive(Clone, Copy, Debug, PartialEq, Eq)]
pub struct BufferShort;

/// What is kept between the pieces of a plan. Their bytes are in a buffer that is lent at each call.
#[derive(Clone, Copy, Debug, Default, PartialEq, Eq)]
pub struct Receiver {
    /// How many bytes are stored.
    pub stored: u64,
    /// Not 0 where more came than the longest plan has.
    pub more: u64,
}

impl Receiver {
    /// Stores as much of a piece as the longest plan has room for.
    pub fn take(&mut self, buffer: &mut [u8], piece: &[u8]) -> Result<(), BufferShort> {
        if buffer.len() < LONGEST_PLAN {
            return Err(BufferShort);
        }
        let stored = self.length();
        for (place, byte) in buffer[..LONGEST_PLAN].iter_mut().skip(stored).zip(piece) {
            *place = *byte;
        }
        let came = stored + piece.len();
        let is_over = self.is_over() || came > LONGEST_PLAN;
        self.stored = came.min(LONGEST_PLAN) as u64;
        self.more = is_over.into();
        Ok(())
    }

    /// Hands out what came, to be applied, and is empty. Of bytes past the longest plan one stands for all: no plan is so long.
    pub fn end(&mut self, buffer: &[u8]) -> Result<Vec<u8>, BufferShort> {
        if buffer.len() < LONGEST_PLAN {
            return Err(BufferShort);
        }
        let mut plan = buffer[..self.length()].to_vec();
        if self.is_over() {
            plan.push(0);
        }
        *self = Receiver::default();
        Ok(plan)
    }

    /// Also where the numbers are none that a call leaves.
    fn is_over(&self) -> bool {
        self.more != 0 || self.stored > LONGEST_PLAN as u64
    }

    fn length(&self) -> usize {
        if self.is_over() {
            LONGEST_PLAN
        } else {
            self.stored as usize
        }
    }
}

impl BufferShort {
    /// The document's number.
    pub fn number(&self) -> u32 {
        28
    }
}
