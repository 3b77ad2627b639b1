use crate::answers::{BufferShort, PlanRefusal};
use crate::config::Config;
use crate::plan::State;
use crate::raw;
use crate::table::Table;

/// What takes a plan in pieces of any length, as a modem hands them over. Their bytes go into one buffer, of
/// [`LONGEST_PLAN`](crate::limits::LONGEST_PLAN) bytes at least, which is lent the same at each call.
///
/// ```
/// use peatmitten::{limits::LONGEST_PLAN, Config, PlanRefusal, ReadFault, Receiver, Region, State};
///
/// let gic = Region::new(0x0800_0000, 0x0800_0000, 0x1_0000, 3);
/// let mut state = State::new(Config::new(&[gic], 0).expect("few enough regions"));
/// let mut receiver = Receiver::new();
/// let mut buffer = vec![0; LONGEST_PLAN];
///
/// for piece in [&[3, 0][..], &[], &[0, 0, 0]] {
///     receiver.take(&mut buffer, piece).expect("a buffer that is long enough");
/// }
/// let refusal = state.end(&mut receiver, &buffer).unwrap_err();
/// assert_eq!(refusal, PlanRefusal::Read(ReadFault::Cut { offset: 4 }));
/// assert_eq!(receiver, Receiver::new());
/// ```
#[derive(Clone, Copy, Debug, Default, PartialEq, Eq, Hash)]
pub struct Receiver {
    words: [u64; 2],
}

impl Receiver {
    /// One to which nothing came.
    pub const fn new() -> Receiver {
        Receiver { words: [0; 2] }
    }

    /// One from the words that C keeps: how many bytes are stored, and 0 unless more came than the longest plan has. Words that no call
    /// left are one to which more came.
    pub const fn from_words(words: [u64; 2]) -> Receiver {
        Receiver { words }
    }

    /// The words that C keeps.
    pub const fn words(&self) -> &[u64; 2] {
        &self.words
    }

    /// Takes a piece; nothing is applied. Bytes past the longest plan are not stored. A buffer that is too short stays as it is, and so does
    /// the receiver.
    pub fn take(&mut self, buffer: &mut [u8], piece: &[u8]) -> Result<(), BufferShort> {
        BufferShort::from_library(raw::take_piece(&mut self.words, buffer, piece))
    }

    /// Ends a plan on a copy of the current table, and says which mark is to be written and how many requests the plan had.
    pub(crate) fn end_beside(
        &mut self,
        config: &Config,
        current: &Table,
        other: &mut Table,
        mark: u32,
        buffer: &[u8],
    ) -> Result<(u32, u64), PlanRefusal> {
        other.clone_from(current);
        let mut edition = mark;
        let (number, [place, inner]) = raw::end_words(config, other, &mut edition, &mut self.words, buffer);
        PlanRefusal::from_library(number, place, inner).map(|()| (edition, place))
    }
}

impl State {
    /// Ends a plan that came in pieces: applies it as [`State::apply`] applies the whole plan, however it was cut. The receiver is then
    /// empty, after a refusal too, unless the buffer is too short.
    pub fn end(&mut self, receiver: &mut Receiver, buffer: &[u8]) -> Result<u64, PlanRefusal> {
        let (number, [place, inner]) = raw::end(self, &mut receiver.words, buffer);
        PlanRefusal::from_library(number, place, inner).map(|()| place)
    }
}
