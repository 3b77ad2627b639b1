//! Where a plan's base differs from a terminal's: for the service desk, after 26.

use std::ops::Range;

use crate::answers::{ReadFault, WriteRefusal};
use crate::limits::LONGEST_PLAN;
use crate::plan::State;
use crate::raw;

impl State {
    /// Writes this terminal's zones as a plan holds its base, their count with them, and says how many bytes that is: so many from the buffer's
    /// start are then the section, and those behind them are what they were. A refusal is 1, 2 or 28, and changes no byte.
    ///
    /// ```
    /// use peatmitten::{Config, Region, State, WriteRefusal};
    ///
    /// let gic = Region::new(0x0800_0000, 0x0800_0000, 0x1_0000, 3);
    /// let state = State::new(Config::new(&[gic], 0).expect("few enough regions"));
    /// let mut buffer = [7; 6];
    /// assert_eq!(state.write_zones(&mut buffer), Ok(4));
    /// assert_eq!(buffer, [0, 0, 0, 0, 7, 7]);
    /// assert_eq!(state.write_zones(&mut [7; 3]), Err(WriteRefusal::BufferShort));
    /// ```
    pub fn write_zones(&self, buffer: &mut [u8]) -> Result<usize, WriteRefusal> {
        let (number, place) = raw::zones_words(&self.config, &self.table, buffer);
        // A section's length is that of bytes in memory.
        WriteRefusal::from_library(number, place, 0).map(|()| place as usize)
    }

    /// The same section in bytes of its own.
    pub fn zones_section(&self) -> Result<Vec<u8>, WriteRefusal> {
        let mut section = vec![0; LONGEST_PLAN];
        let length = self.write_zones(&mut section)?;
        section.truncate(length);
        Ok(section)
    }
}

/// Where a plan's own zones section stands among its bytes, its count with it.
///
/// ```
/// use peatmitten::{base_zones, ReadFault};
///
/// assert_eq!(base_zones(&[2, 0, 0, 0]), Err(ReadFault::Count { offset: 0 }));
/// ```
pub fn base_zones(plan: &[u8]) -> Result<Range<usize>, ReadFault> {
    let (number, [start, length]) = raw::base_zones(plan);
    // On 0 both are within the plan, which is in memory.
    ReadFault::from_library(number, start).map(|()| start as usize..(start + length) as usize)
}

/// The part of the first stretch from the first place where the second lacks the same byte. It is empty exactly where the second begins with
/// the first.
///
/// ```
/// use peatmitten::lacking_part;
///
/// assert_eq!(lacking_part(&[1, 2, 3], &[1, 7, 3]), [2, 3]);
/// assert_eq!(lacking_part(&[1, 2, 3], &[1]), [2, 3]);
/// assert_eq!(lacking_part(&[1, 2], &[1, 2, 3]), []);
/// ```
pub fn lacking_part<'a>(first: &'a [u8], second: &[u8]) -> &'a [u8] {
    let (place, _) = raw::lacking(first, second);
    &first[place as usize..]
}

/// The first byte of a plan's zones section that another section lacks.
#[derive(Clone, Copy, Debug, PartialEq, Eq, Hash)]
pub struct Difference {
    /// Its offset in the plan.
    pub offset: usize,
    /// Its place in the zones section.
    pub place: usize,
    /// The byte.
    pub planned: u8,
    /// What the other section has at that place, if it goes on so far. A terminal's section always does.
    pub held: Option<u8>,
}

/// Where a plan's base differs from a terminal's zones, which are given as a section ([`State::zones_section`]). For two sections that are equal
/// it is none; two that are not differ at a byte that both have.
///
/// ```
/// use peatmitten::{first_difference, ReadFault};
///
/// assert_eq!(first_difference(&[2, 0, 0, 0], &[]), Err(ReadFault::Count { offset: 0 }));
/// ```
pub fn first_difference(plan: &[u8], section: &[u8]) -> Result<Option<Difference>, ReadFault> {
    let base = base_zones(plan)?;
    let (place, [planned, held]) = raw::lacking(&plan[base.clone()], section);
    let place = place as usize;
    // What is no byte is told by a number above all bytes.
    let byte = |number: u64| u8::try_from(number).ok();
    Ok(byte(planned).map(|planned| Difference { offset: base.start + place, place, planned, held: byte(held) }))
}
