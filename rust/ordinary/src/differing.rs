//! Where a plan's base differs from a terminal's: request 9 of document 02.

use crate::plan::{encode_zones, Plan};
use crate::terminal::State;
use crate::writer::WriteRefusal;

impl State {
    /// Writes the zones of this state as a plan has them, with their count, into the buffer's start, and says how long that is: 1, 2 or 28
    /// otherwise. A refusal leaves the buffer as it was.
    pub fn write_zones(&self, buffer: &mut [u8]) -> Result<usize, WriteRefusal> {
        self.table.check(&self.config).map_err(WriteRefusal::Own)?;
        let section = encode_zones(&self.table);
        let place = buffer.get_mut(..section.len()).ok_or(WriteRefusal::BufferShort)?;
        place.copy_from_slice(&section);
        Ok(section.len())
    }
}

/// The part of a plan's bytes that is its zones section, with its count; nothing of bytes that are no plan.
pub fn base_zones(plan: &[u8]) -> &[u8] {
    Plan::read(plan).map_or(&[], |read| &plan[read.zones])
}

/// The part of the first stretch from the first place where the second lacks the same byte.
pub fn lacking_part<'a>(first: &'a [u8], second: &[u8]) -> &'a [u8] {
    let alike = first.iter().zip(second).take_while(|(one, other)| one == other).count();
    &first[alike..]
}
