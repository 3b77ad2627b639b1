use crate::answers::{PlanRefusal, ReadFault};
use crate::config::Config;
use crate::raw;
use crate::table::Table;

/// What a terminal keeps. Its memory is that of the C library's `peatmitten_state`.
#[derive(Clone, Debug, PartialEq, Eq)]
#[repr(C)]
pub struct State {
    /// Its configuration.
    pub config: Config,
    /// Its zones.
    pub table: Table,
    /// Its edition, which each accepted plan raises by one.
    pub edition: u32,
}

impl State {
    /// A terminal that has applied nothing: edition 0, no zones.
    pub const fn new(config: Config) -> State {
        State { config, table: Table::new(), edition: 0 }
    }

    /// Applies a plan and says how many requests it had. A refused plan leaves the state as it was.
    ///
    /// A plan that was damaged in its requests alone may still be accepted: check a signature first.
    ///
    /// ```
    /// use peatmitten::{Config, PlanRefusal, ReadFault, Region, State};
    ///
    /// let gic = Region::new(0x0800_0000, 0x0800_0000, 0x1_0000, 3);
    /// let mut state = State::new(Config::new(&[gic], 0).expect("few enough regions"));
    /// let refusal = state.apply(&[3, 0, 0, 0, 0]).unwrap_err();
    /// assert_eq!(refusal, PlanRefusal::Read(ReadFault::Cut { offset: 4 }));
    /// assert_eq!(refusal.number(), 20);
    /// assert_eq!(refusal.to_string(), "the field at offset 4 is not wholly there");
    /// ```
    pub fn apply(&mut self, plan: &[u8]) -> Result<u64, PlanRefusal> {
        let (number, [place, inner]) = raw::apply(self, plan);
        PlanRefusal::from_library(number, place, inner).map(|()| place)
    }
}

/// Says which base edition a plan is for, before anything else of it is looked at: a terminal at a lower edition has missed the plans
/// between. The marks alone are read, so what follows them may still be no plan; a fault is [`ReadFault::Cut`] or [`ReadFault::Count`].
///
/// ```
/// use peatmitten::{base_edition, ReadFault};
///
/// assert_eq!(base_edition(&[3, 0, 0, 0, 0, 0, 0, 0, 7, 0, 0, 0, 2, 0, 0, 0]), Ok(7));
/// assert_eq!(base_edition(&[3, 0, 0, 0, 0, 0, 0, 0, 7]), Err(ReadFault::Cut { offset: 8 }));
/// ```
pub fn base_edition(plan: &[u8]) -> Result<u32, ReadFault> {
    let (number, answer) = raw::edition(plan);
    // An edition has 32 bits.
    ReadFault::from_library(number, answer).map(|()| answer as u32)
}

/// Reads a plan, without a terminal, and says at which offset its first request record stands or would stand.
///
/// ```
/// use peatmitten::{read_plan, ReadFault};
///
/// assert_eq!(read_plan(&[2, 0, 0, 0]), Err(ReadFault::Count { offset: 0 }));
/// ```
pub fn read_plan(plan: &[u8]) -> Result<u64, ReadFault> {
    let (number, place) = raw::read(plan);
    ReadFault::from_library(number, place).map(|()| place)
}
