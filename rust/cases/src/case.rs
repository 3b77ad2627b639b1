//! One question with all that it is asked about, and what the ordinary implementation answers.

use std::fmt;

use ordinary::bank::Owners;
use ordinary::TableWords;
use ordinary::{
    base_edition, base_zones, lacking_part, BufferShort, Config, ConfigWords, Guest, Log, LogRefusal, Plan, PlanRefusal, Receiver,
    Record, Region, Side, State, Table,
};
use ordinary::{CONFIG_WORDS, TABLE_WORDS};

use crate::{bank, Machine};

/// Which function is asked.
#[derive(Clone, Copy, Debug, PartialEq, Eq, PartialOrd, Ord)]
pub enum Question {
    Config,
    Table,
    Request,
    Translate,
    Edition,
    Read,
    Apply,
    Pieces,
    Write,
    Zones,
    Base,
    Lacking,
    List,
    Listing,
    Log,
}

/// How many numbers a question can take: a request has its kind, its zone and those of its region.
pub const NUMBERS: usize = 2 + Region::NUMBERS;

/// A question and its input. What the question does not take is zero or empty.
#[derive(Clone, Debug, PartialEq, Eq)]
pub struct Case {
    pub question: Question,
    pub config: ConfigWords,
    /// Where the second machine is asked: the owners beside that configuration.
    pub owners: Option<Owners>,
    pub table: TableWords,
    /// Of a request its kind, its zone and its region's numbers; of a translation its zone, side and address; of a plan the terminal's edition,
    /// and where it comes in pieces also the two words of the receiver.
    pub numbers: [u64; NUMBERS],
    /// Of two stretches of bytes the first; or a log.
    pub plan: Vec<u8>,
    /// Where requests are listed: the words of the wanted table.
    pub wanted: Vec<u64>,
    /// Where the plan comes in pieces: how long they are, one after another, the rest of the plan being the last one.
    pub lengths: Vec<usize>,
    /// The buffer that is lent; of two stretches of bytes the second.
    pub buffer: Vec<u8>,
}

/// What a call leaves: its number, two words (the receiver's, of two stretches the byte that each has at the place, or of a log what was claimed),
/// and the buffer.
#[derive(Clone, Debug, PartialEq, Eq)]
pub struct Left {
    pub number: u32,
    pub words: [u64; 2],
    pub buffer: Vec<u8>,
}

/// What is said of a place that has no byte.
const NO_BYTE: u64 = 256;

/// What is answered, and what the configuration, the table and the edition then are.
#[derive(Clone, Debug, PartialEq, Eq)]
pub struct Answer {
    pub number: u32,
    pub places: [u64; 2],
    pub config: ConfigWords,
    pub table: TableWords,
    pub edition: u32,
    /// Of a plan in pieces what each call leaves, the end call last; of what is written, compared or checked what the one call leaves.
    pub left: Vec<Left>,
}

/// What is answered to a plan: the number, the place and the inner number.
#[derive(Clone, Copy, Debug, PartialEq, Eq)]
pub struct Outcome {
    pub number: u32,
    pub place: usize,
    pub inner: u32,
}

impl From<Result<usize, PlanRefusal>> for Outcome {
    fn from(applied: Result<usize, PlanRefusal>) -> Outcome {
        match applied {
            Ok(count) => Outcome { number: 0, place: count, inner: 0 },
            Err(refusal) => {
                let (place, inner) = refusal.found();
                Outcome { number: refusal.number(), place, inner }
            }
        }
    }
}

impl Case {
    /// The numbers that are not given are 0.
    fn new(question: Question, config: ConfigWords, table: TableWords, given: &[u64], plan: Vec<u8>) -> Case {
        let mut numbers = [0; NUMBERS];
        numbers[..given.len()].copy_from_slice(given);
        Case { question, config, owners: None, table, numbers, plan, wanted: Vec::new(), lengths: Vec::new(), buffer: Vec::new() }
    }

    pub fn config(config: ConfigWords) -> Case {
        Case::new(Question::Config, config, [0; TABLE_WORDS], &[], Vec::new())
    }

    pub fn table(config: ConfigWords, table: TableWords) -> Case {
        Case::new(Question::Table, config, table, &[], Vec::new())
    }

    pub fn request(config: ConfigWords, table: TableWords, record: Record) -> Case {
        let Record { kind, zone, region } = record;
        let numbers = [&[kind.into(), zone.into()], &region.numbers()[..]].concat();
        Case::new(Question::Request, config, table, &numbers, Vec::new())
    }

    pub fn translate(config: ConfigWords, table: TableWords, zone: u32, side: u32, address: u64) -> Case {
        Case::new(Question::Translate, config, table, &[zone.into(), side.into(), address], Vec::new())
    }

    pub fn base_edition(plan: Vec<u8>) -> Case {
        Case::new(Question::Edition, [0; CONFIG_WORDS], [0; TABLE_WORDS], &[], plan)
    }

    pub fn read(plan: Vec<u8>) -> Case {
        Case::new(Question::Read, [0; CONFIG_WORDS], [0; TABLE_WORDS], &[], plan)
    }

    pub fn apply(config: ConfigWords, table: TableWords, edition: u32, plan: Vec<u8>) -> Case {
        Case::new(Question::Apply, config, table, &[edition.into()], plan)
    }

    /// The same plan in pieces of these lengths.
    pub fn pieces(apply: Case, receiver: [u64; 2], lengths: Vec<usize>, buffer: Vec<u8>) -> Case {
        let mut numbers = apply.numbers;
        numbers[1..3].copy_from_slice(&receiver);
        Case { question: Question::Pieces, numbers, lengths, buffer, ..apply }
    }

    /// The writer at a state, with the bytes of request records and a buffer.
    pub fn write(config: ConfigWords, table: TableWords, edition: u32, requests: Vec<u8>, buffer: Vec<u8>) -> Case {
        let case = Case::new(Question::Write, config, table, &[edition.into()], requests);
        Case { buffer, ..case }
    }

    /// The zones of a state into a buffer.
    pub fn zones(config: ConfigWords, table: TableWords, buffer: Vec<u8>) -> Case {
        let case = Case::new(Question::Zones, config, table, &[], Vec::new());
        Case { buffer, ..case }
    }

    /// Where a plan's own zones section stands.
    pub fn base(plan: Vec<u8>) -> Case {
        Case::new(Question::Base, [0; CONFIG_WORDS], [0; TABLE_WORDS], &[], plan)
    }

    /// Two stretches of bytes.
    pub fn lacking(first: Vec<u8>, second: Vec<u8>) -> Case {
        let case = Case::new(Question::Lacking, [0; CONFIG_WORDS], [0; TABLE_WORDS], &[], first);
        Case { buffer: second, ..case }
    }

    /// Which of three ways two stretches go, by the byte that each has at the place: 0 where the first ends there, 1 where both have one, 2
    /// where only the second has ended.
    pub fn way(bytes: [u64; 2]) -> u32 {
        match bytes {
            [NO_BYTE, _] => 0,
            [_, NO_BYTE] => 2,
            _ => 1,
        }
    }

    /// The list from one table to another, into a buffer.
    pub fn list(config: ConfigWords, table: TableWords, wanted: &TableWords, buffer: Vec<u8>) -> Case {
        let case = Case::new(Question::List, config, table, &[], Vec::new());
        Case { wanted: wanted.to_vec(), buffer, ..case }
    }

    /// The words of the wanted table.
    pub fn wanted(&self) -> TableWords {
        self.wanted[..].try_into().expect("a table's words")
    }

    /// The listing of a table into a buffer.
    pub fn listing(config: ConfigWords, table: TableWords, buffer: Vec<u8>) -> Case {
        Case { buffer, ..Case::new(Question::Listing, config, table, &[], Vec::new()) }
    }

    /// The check of a log, with any words as room to work in, and a buffer.
    pub fn log(config: ConfigWords, table: TableWords, log: Vec<u8>, buffer: Vec<u8>) -> Case {
        Case { buffer, ..Case::new(Question::Log, config, table, &[], log) }
    }

    /// The pieces, which together are the plan.
    pub fn cut(&self) -> Vec<&[u8]> {
        let mut rest = &self.plan[..];
        let mut pieces = Vec::new();
        for &length in &self.lengths {
            let (piece, behind) = rest.split_at(length.min(rest.len()));
            pieces.push(piece);
            rest = behind;
        }
        pieces.push(rest);
        pieces
    }

    /// Which machine is asked.
    pub fn machine(&self) -> Machine {
        match self.owners {
            None => Machine::First,
            Some(_) => Machine::Bank,
        }
    }

    /// The same question, asked of the second machine.
    pub fn owned(self, owners: Owners) -> Case {
        Case { owners: Some(owners), ..self }
    }

    /// One of the numbers that the function takes as 32 bits.
    pub fn number(&self, at: usize) -> u32 {
        u32::try_from(self.numbers[at]).expect("a 32-bit number")
    }

    /// The terminal's edition, where a plan is applied.
    pub fn edition(&self) -> u32 {
        match self.question {
            Question::Apply | Question::Pieces | Question::Write => self.number(0),
            _ => 0,
        }
    }

    /// The request's numbers.
    pub fn record(&self) -> Record {
        let [_, _, region @ ..] = self.numbers;
        Record { kind: self.number(0), zone: self.number(1), region: Region::from_numbers(region) }
    }

    /// The answer that leaves everything as it was.
    pub(crate) fn unchanged(&self, number: u32, places: [u64; 2]) -> Answer {
        Answer { number, places, config: self.config, table: self.table, edition: self.edition(), left: Vec::new() }
    }

    /// What the ordinary implementation answers.
    pub fn ordinary(&self) -> Answer {
        if let Some(owners) = &self.owners {
            return bank::ordinary(self, owners);
        }
        match self.question {
            Question::Config => match Config::from_words(&self.config).and_then(|config| config.check()) {
                Ok(()) => self.unchanged(0, [0, 0]),
                Err(fault) => self.unchanged(fault.number(), fault.places().map(|place| place as u64)),
            },
            Question::Table => {
                let is_sound = self.base_state().is_ok_and(|state| state.table.is_sound(&state.config));
                self.unchanged(is_sound.into(), [0, 0])
            }
            Question::Edition => match base_edition(&self.plan) {
                Ok(edition) => self.unchanged(0, [edition.into(), 0]),
                Err(fault) => self.unchanged(fault.number(), [fault.offset() as u64, 0]),
            },
            Question::Read => match Plan::read(&self.plan) {
                Ok(plan) => self.unchanged(0, [plan.requests_at as u64, 0]),
                Err(fault) => self.unchanged(fault.number(), [fault.offset() as u64, 0]),
            },
            Question::Request | Question::Translate | Question::Apply => match self.base_state() {
                Ok(state) => self.ask_ordinary(state),
                Err(number) => self.unchanged(number, [0, 0]),
            },
            Question::Pieces => self.pieces_ordinary(),
            Question::Write => self.write_ordinary(),
            Question::Zones => self.written_ordinary(|state, buffer| state.write_zones(buffer).map_err(|refusal| refusal.number())),
            Question::Base => match Plan::read(&self.plan) {
                Ok(plan) => self.unchanged(0, [plan.zones.start as u64, base_zones(&self.plan).len() as u64]),
                Err(fault) => self.unchanged(fault.number(), [fault.offset() as u64, base_zones(&self.plan).len() as u64]),
            },
            Question::Lacking => self.lacking_ordinary(),
            Question::List => self.list_ordinary(),
            Question::Listing => {
                self.written_ordinary(|state, buffer| state.table.list(&state.config, buffer).map_err(|refusal| refusal.number()))
            }
            Question::Log => self.log_ordinary(),
        }
    }

    /// The log checked, and its end zones in the buffer. What was there to work in is kept where the bytes are no log; else it holds the log's
    /// configuration, and the table at which the check ended.
    fn log_ordinary(&self) -> Answer {
        let mut buffer = self.buffer.clone();
        let (room, checked) = match Log::read(&self.plan) {
            Err(fault) => (None, Err(LogRefusal::Read(fault))),
            Ok(log) => {
                let audit = log.audit();
                (Some((log.plan.config.to_words(), audit.table.to_words())), audit.write_zones(&mut buffer))
            }
        };
        let (number, (place, right, claimed)) = match checked {
            Ok(length) => (0, (length, 0, 0)),
            Err(refusal) => (refusal.number(), refusal.found()),
        };
        let (config, table) = room.unwrap_or((self.config, self.table));
        let left = vec![Left { number, words: [claimed.into(), 0], buffer }];
        Answer { config, table, left, ..self.unchanged(number, [place as u64, right.into()]) }
    }

    /// The plan taken in pieces, and then applied whole.
    fn pieces_ordinary(&self) -> Answer {
        let mut buffer = self.buffer.clone();
        let [_, stored, more, ..] = self.numbers;
        let mut receiver = Receiver { stored, more };
        let mut left = Vec::new();
        for piece in self.cut() {
            let number = receiver.take(&mut buffer, piece).map_or_else(|short| short.number(), |()| 0);
            left.push(Left { number, words: [receiver.stored, receiver.more], buffer: buffer.clone() });
        }
        let answer = match receiver.end(&buffer) {
            Err(short @ BufferShort) => self.unchanged(short.number(), [0, 0]),
            Ok(plan) => Case { question: Question::Apply, plan, ..self.clone() }.ordinary(),
        };
        left.push(Left { number: answer.number, words: [receiver.stored, receiver.more], buffer });
        Answer { left, ..answer }
    }

    /// The plan written into the buffer.
    fn write_ordinary(&self) -> Answer {
        let mut buffer = self.buffer.clone();
        let answer = match self.base_state() {
            Err(number) => self.unchanged(number, [0, 0]),
            Ok(state) => match state.write(&self.plan, &mut buffer) {
                Ok(length) => self.unchanged(0, [length as u64, 0]),
                Err(refusal) => {
                    let (place, inner) = refusal.found();
                    self.unchanged(refusal.number(), [place as u64, inner.into()])
                }
            },
        };
        let left = vec![Left { number: answer.number, words: [0, 0], buffer }];
        Answer { left, ..answer }
    }

    /// What is written of a state into the buffer, the zones or the listing, and how long it is.
    fn written_ordinary(&self, write: impl FnOnce(&State, &mut [u8]) -> Result<usize, u32>) -> Answer {
        let mut buffer = self.buffer.clone();
        let answer = match self.base_state().and_then(|state| write(&state, &mut buffer)) {
            Ok(length) => self.unchanged(0, [length as u64, 0]),
            Err(number) => self.unchanged(number, [0, 0]),
        };
        let left = vec![Left { number: answer.number, words: [0, 0], buffer }];
        Answer { left, ..answer }
    }

    /// The place where two stretches differ, and their bytes there.
    fn lacking_ordinary(&self) -> Answer {
        let place = self.plan.len() - lacking_part(&self.plan, &self.buffer).len();
        let words = [&self.plan, &self.buffer].map(|bytes| bytes.get(place).map_or(NO_BYTE, |&byte| byte.into()));
        let number = Case::way(words);
        let left = vec![Left { number, words, buffer: self.buffer.clone() }];
        Answer { left, ..self.unchanged(number, [place as u64, 0]) }
    }

    /// The list put into the buffer. A table whose words are none is unsound, and so counts for 2.
    fn list_ordinary(&self) -> Answer {
        let mut buffer = self.buffer.clone();
        let answer = match (self.base_state(), Table::from_words(&self.wanted())) {
            (Err(number), _) => self.unchanged(number, [0, 0]),
            (Ok(State { config, .. }), None) => self.unchanged(config.check().map_or(1, |()| 2), [0, 0]),
            (Ok(State { config, table, .. }), Some(wanted)) => match table.write_requests_to(&config, &wanted, &mut buffer) {
                Ok(count) => self.unchanged(0, [count as u64, 0]),
                Err(refusal) => self.unchanged(refusal.number(), [0, 0]),
            },
        };
        let left = vec![Left { number: answer.number, words: [0, 0], buffer }];
        Answer { left, ..answer }
    }

    /// The state that the words are, or the first of 1 and 2 where they are none. Whether a state is sound, whatever is asked next says
    /// itself.
    fn base_state(&self) -> Result<State, u32> {
        let config = Config::from_words(&self.config).map_err(|_| 1u32)?;
        match Table::from_words(&self.table) {
            Some(table) => Ok(State { config, table, edition: self.edition() }),
            None => Err(config.check().map_or(1, |()| 2)),
        }
    }

    fn ask_ordinary(&self, mut state: State) -> Answer {
        let (number, places) = match self.question {
            Question::Request => match state.table.request(&state.config, &self.record()) {
                Ok(()) => (0, [0, 0]),
                Err(refusal) => (refusal.number(), [0, 0]),
            },
            Question::Translate => {
                let side = if self.number(1) == 0 { Side::Cpu } else { Side::Iommu };
                match state.table.translate(&state.config, self.number(0), side, Guest(self.numbers[2])) {
                    Ok(found) => (0, [found.physical.0, found.remaining]),
                    Err(refusal) => (refusal.number(), [0, 0]),
                }
            }
            _ => {
                let Outcome { number, place, inner } = state.apply(&self.plan).into();
                (number, [place as u64, inner.into()])
            }
        };
        Answer { number, places, config: self.config, table: state.table.to_words(), edition: state.edition, left: Vec::new() }
    }
}

impl fmt::Display for Outcome {
    fn fmt(&self, f: &mut fmt::Formatter) -> fmt::Result {
        write!(f, "{} {} {}", self.number, self.place, self.inner)
    }
}

impl fmt::Display for Answer {
    fn fmt(&self, f: &mut fmt::Formatter) -> fmt::Result {
        writeln!(f, "number {}, places {:#x} {:#x}", self.number, self.places[0], self.places[1])?;
        write_words(f, "  config", &self.config)?;
        write_words(f, "  table", &self.table)?;
        writeln!(f, "  edition {}", self.edition)?;
        for (at, left) in self.left.iter().enumerate() {
            writeln!(f, "  call {at}: number {}, words {:?}, buffer {}", left.number, left.words, hex(&left.buffer))?;
        }
        Ok(())
    }
}

impl fmt::Display for Case {
    fn fmt(&self, f: &mut fmt::Formatter) -> fmt::Result {
        writeln!(f, "question: {:?}", self.question)?;
        write_words(f, "  config", &self.config)?;
        if let Some(owners) = self.owners {
            write_words(f, "  owners", &owners.map(u64::from))?;
        }
        write_words(f, "  table", &self.table)?;
        write_words(f, "  numbers", &self.numbers)?;
        writeln!(f, "  plan of {} bytes: {}", self.plan.len(), hex(&self.plan))?;
        if self.question == Question::Write {
            writeln!(f, "  as requests, into a buffer of {}: {}", self.buffer.len(), hex(&self.buffer))?;
        }
        match self.question {
            Question::Zones | Question::Listing | Question::Log => {
                writeln!(f, "  into a buffer of {}: {}", self.buffer.len(), hex(&self.buffer))?
            }
            Question::Lacking => writeln!(f, "  beside a stretch of {}: {}", self.buffer.len(), hex(&self.buffer))?,
            _ => {}
        }
        if self.question == Question::List {
            write_words(f, "  wanted", &self.wanted)?;
            writeln!(f, "  into a buffer of {}: {}", self.buffer.len(), hex(&self.buffer))?;
        }
        if self.question == Question::Pieces {
            writeln!(
                f,
                "  in pieces of {:?} bytes and the rest, into a buffer of {}: {}",
                self.lengths,
                self.buffer.len(),
                hex(&self.buffer)
            )?;
        }
        Ok(())
    }
}

/// All bytes up to the last that is not zero.
fn hex(bytes: &[u8]) -> String {
    let end = bytes.iter().rposition(|&byte| byte != 0).map_or(0, |last| last + 1);
    bytes[..end].iter().map(|byte| format!("{byte:02x}")).collect::<Vec<_>>().join(" ")
}

/// The words that are not zero, each with its index.
fn write_words(f: &mut fmt::Formatter, name: &str, words: &[u64]) -> fmt::Result {
    for (at, word) in words.iter().enumerate().filter(|(_, &word)| word != 0) {
        writeln!(f, "{name}[{at}] = {word:#x}")?;
    }
    Ok(())
}
