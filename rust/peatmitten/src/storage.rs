//! A terminal's state in storage where the power may be cut at any time: a mark and two slots.

use std::borrow::BorrowMut;
use std::error::Error;
use std::fmt;

use crate::answers::PlanRefusal;
use crate::config::Config;
use crate::raw;
use crate::receiver::Receiver;
use crate::table::Table;

/// The driver of a part that keeps a terminal's state: FRAM, flash, eMMC. `docs/STORAGE.md` says what is assumed of it, and which parts will do.
pub trait Part {
    /// Why a call was not done.
    type Fault;

    /// Writes a table into slot 0 or 1. Where the store was given the part's own memory as its slots, there is nothing to do.
    fn write_words(&mut self, slot: usize, table: &Table) -> Result<(), Self::Fault>;

    /// Writes the mark.
    fn write_mark(&mut self, mark: u32) -> Result<(), Self::Fault>;

    /// Returns when all that was written since the power came lasts, the words of a mapped slot among it.
    fn wait(&mut self) -> Result<(), Self::Fault>;
}

/// A configuration of a terminal whose state can be in storage: [`Config`], and with owners [`bank::Config`](crate::bank::Config).
pub trait Stored {
    /// Why a plan is refused.
    type Refusal;

    /// Applies a plan beside the current table, and says which mark is to be written and how many requests the plan had. Then the next table lies
    /// in `other`, and else what nobody may rely on.
    fn beside(&self, current: &Table, other: &mut Table, mark: u32, plan: &[u8]) -> Result<(u32, u64), Self::Refusal>;
}

impl Stored for Config {
    type Refusal = PlanRefusal;

    fn beside(&self, current: &Table, other: &mut Table, mark: u32, plan: &[u8]) -> Result<(u32, u64), PlanRefusal> {
        let (number, [next, place, inner]) = raw::beside_words(self, current, other, mark, plan);
        // A mark has 32 bits.
        PlanRefusal::from_library(number, place, inner).map(|()| (next as u32, place))
    }
}

/// Why nothing may be told: the terminal starts anew, as after a cut.
#[derive(Clone, Copy, Debug, PartialEq, Eq, Hash)]
pub enum StoreFault<F> {
    /// A call of the part was not done. Nobody knows what it has left.
    Part(F),
    /// A call of the part was not done before, and the terminal has not started anew since.
    NotStarted,
}

impl<F: fmt::Display> fmt::Display for StoreFault<F> {
    fn fmt(&self, f: &mut fmt::Formatter) -> fmt::Result {
        match self {
            StoreFault::Part(fault) => write!(f, "the storage failed: {fault}"),
            StoreFault::NotStarted => write!(f, "the storage failed before, and the terminal has not started anew"),
        }
    }
}

impl<F: Error + 'static> Error for StoreFault<F> {
    fn source(&self) -> Option<&(dyn Error + 'static)> {
        match self {
            StoreFault::Part(fault) => Some(fault),
            StoreFault::NotStarted => None,
        }
    }
}

/// What a delivery answers: how many requests a plan had, or why it is refused; and where nothing may be told, why.
pub type Delivered<R, F> = Result<Result<u64, R>, StoreFault<F>>;

/// A terminal whose state is in storage, from its start on. The mark is the edition, and the table of edition e is in slot e mod 2; the other
/// slot may hold anything at all. A cut in power at any time leaves a state that the terminal held, and never takes back an edition that was
/// told. `include/peatmitten_store.h` is the same in C.
///
/// Slots are tables, or anything that lends one: `&mut Table` over the part's own memory where that is mapped. Else they are copies; at the start
/// the one of the mark has been read from the part, and the other is room to work in.
///
/// ```
/// use peatmitten::{Config, Part, PlanRefusal, Region, Request, State, Store, Table};
///
/// /// A part that is memory, and never fails.
/// struct Memory {
///     mark: u32,
///     slots: [Table; 2],
/// }
///
/// impl Part for &mut Memory {
///     type Fault = std::convert::Infallible;
///
///     fn write_words(&mut self, slot: usize, table: &Table) -> Result<(), Self::Fault> {
///         self.slots[slot] = table.clone();
///         Ok(())
///     }
///
///     fn write_mark(&mut self, mark: u32) -> Result<(), Self::Fault> {
///         self.mark = mark;
///         Ok(())
///     }
///
///     fn wait(&mut self) -> Result<(), Self::Fault> {
///         Ok(())
///     }
/// }
///
/// let config = Config::new(&[Region::new(0x0800_0000, 0x0800_0000, 0x1_0000, 3)], 0).expect("few enough regions");
/// let plan = State::new(config.clone()).plan(&[Request::add_zone(5)])?;
///
/// // A new terminal has mark 0, and a slot 0 without zones.
/// let mut memory = Memory { mark: 0, slots: [Table::new(), Table::new()] };
/// let (mark, slots) = (memory.mark, memory.slots.clone());
/// let mut store = Store::start(config, slots, &mut memory, mark)?;
/// assert_eq!(store.deliver(&plan)?, Ok(1));
/// assert_eq!(store.edition(), Some(1));
/// assert_eq!(store.deliver(&plan)?, Err(PlanRefusal::OtherEdition));
/// assert_eq!(memory.mark, 1);
/// assert_eq!(memory.slots[1].zones().next().map(|zone| zone.id()), Some(5));
/// # Ok::<(), Box<dyn std::error::Error>>(())
/// ```
#[derive(Debug)]
pub struct Store<P, C = Config, S = Table> {
    config: C,
    slots: [S; 2],
    part: P,
    mark: u32,
    is_started: bool,
}

impl<P: Part, C: Stored, S: BorrowMut<Table>> Store<P, C, S> {
    /// Starts a terminal with the mark as it was read, once, since the power came. It is written again and waited for: a mark whose write was cut
    /// may read new now and old after the next cut, and until it lasts nothing may be told or worked on.
    pub fn start(config: C, slots: [S; 2], part: P, mark: u32) -> Result<Store<P, C, S>, StoreFault<P::Fault>> {
        let mut store = Store { config, slots, part, mark, is_started: true };
        store.write_mark(mark)?;
        Ok(store)
    }

    /// Delivers a plan and says how many requests it had, or why it is refused. When this returns an answer, it may be given, and no cut takes
    /// it back. A refusal programs nothing. After a fault nothing may be told, and every later delivery is one too.
    pub fn deliver(&mut self, plan: &[u8]) -> Delivered<C::Refusal, P::Fault> {
        self.keep(|config, current, other, mark| config.beside(current, other, mark, plan))
    }

    /// Delivers what is prepared beside the current table: the mark to write, and how many requests there were.
    fn keep<R>(&mut self, prepare: impl FnOnce(&C, &Table, &mut Table, u32) -> Result<(u32, u64), R>) -> Delivered<R, P::Fault> {
        if !self.is_started {
            return Err(StoreFault::NotStarted);
        }
        let [first, second] = &mut self.slots;
        let (slot, current, other) = match self.mark % 2 {
            0 => (1, first.borrow(), second.borrow_mut()),
            _ => (0, second.borrow(), first.borrow_mut()),
        };
        let (next, requests) = match prepare(&self.config, current, other, self.mark) {
            Ok(prepared) => prepared,
            Err(refusal) => return Ok(Err(refusal)),
        };
        let written = self.part.write_words(slot, other).and_then(|()| self.part.wait());
        self.held_to(written)?;
        self.write_mark(next)?;
        Ok(Ok(requests))
    }

    /// The edition, which may be told; none after a fault.
    pub fn edition(&self) -> Option<u32> {
        self.is_started.then_some(self.mark)
    }

    /// The table of the edition; none after a fault.
    pub fn table(&self) -> Option<&Table> {
        let [first, second] = &self.slots;
        self.is_started.then(|| if self.mark % 2 == 0 { first.borrow() } else { second.borrow() })
    }

    /// Gives back the driver, for one who starts anew.
    pub fn into_part(self) -> P {
        self.part
    }

    /// Writes the mark and waits. Only then does the store have that edition.
    fn write_mark(&mut self, mark: u32) -> Result<(), StoreFault<P::Fault>> {
        let written = self.part.write_mark(mark).and_then(|()| self.part.wait());
        self.held_to(written)?;
        self.mark = mark;
        Ok(())
    }

    /// A call of the part that was not done ends what may be told.
    fn held_to(&mut self, done: Result<(), P::Fault>) -> Result<(), StoreFault<P::Fault>> {
        self.is_started = done.is_ok();
        done.map_err(StoreFault::Part)
    }
}

impl<P: Part, S: BorrowMut<Table>> Store<P, Config, S> {
    /// Ends a plan that came in pieces: delivers it as [`Store::deliver`] delivers the whole plan, however it was cut. The receiver is then empty, after
    /// a refusal too, unless the buffer is too short.
    pub fn end(&mut self, receiver: &mut Receiver, buffer: &[u8]) -> Delivered<PlanRefusal, P::Fault> {
        self.keep(|config, current, other, mark| receiver.end_beside(config, current, other, mark, buffer))
    }
}
