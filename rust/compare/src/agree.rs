//! What the library answers to a case, and whether the ordinary implementation answers the same.

use std::fmt;
use std::hint::black_box;

use cases::{Answer, Case, Left, Machine, Named, Outcome, PlanFile, Question};
use ordinary::bank::Owners;
use ordinary::limits::MAX_REGIONS;
use ordinary::{Record, TABLE_WORDS};
use peatmitten::raw;

use crate::shrink::shrink;

/// Why a run ends early.
pub struct Trouble {
    text: String,
    case: Box<Case>,
}

impl Trouble {
    pub fn new(text: impl Into<String>, case: Case) -> Trouble {
        Trouble { text: text.into(), case: Box::new(case) }
    }

    /// The same, with the name of the case that it began with.
    fn named(self, name: &str) -> Trouble {
        Trouble { text: format!("{name}: {}", self.text), ..self }
    }
}

/// What lies beside a state before a call, and after it.
const BESIDE: u64 = 0xa5a5_a5a5_a5a5_a5a5;
const PADDING: u32 = BESIDE as u32;

/// A state as the second library's header has it, with a name for its padding, and a word on either side. The first library is lent what is its own.
#[repr(C)]
struct Lent {
    before: u64,
    config: peatmitten::Config,
    owners: Owners,
    table: peatmitten::Table,
    edition: u32,
    padding: u32,
    behind: u64,
}

impl Lent {
    fn new(case: &Case) -> Lent {
        let config = peatmitten::Config::from_words(case.config);
        let table = peatmitten::Table::from_words(case.table);
        let owners = owners_lent(case);
        Lent { before: BESIDE, config, owners, table, edition: case.edition(), padding: PADDING, behind: BESIDE }
    }

    fn is_kept_beside(&self, case: &Case) -> bool {
        (self.before, self.owners, self.padding, self.behind) == (BESIDE, owners_lent(case), PADDING, BESIDE)
    }
}

/// The owners, which are only read; beside the first machine's configuration anything.
fn owners_lent(case: &Case) -> Owners {
    case.owners.unwrap_or([PADDING; MAX_REGIONS])
}

/// What the library answers; none where it wrote beside what it was lent.
fn library(case: &Case) -> Option<Answer> {
    let mut lent = Lent::new(case);
    // Only parts are lent, by which a compiler may take the rest for unchanged without a look.
    let mut left = Vec::new();
    let (number, places) = match case.machine() {
        Machine::First => ask_library(case, black_box(&mut lent), &mut left),
        Machine::Bank => ask_bank(case, black_box(&mut lent)),
    };
    let lent = black_box(&lent);
    lent.is_kept_beside(case).then(|| Answer {
        number,
        places,
        config: *lent.config.words(),
        table: *lent.table.words(),
        edition: lent.edition,
        left,
    })
}

fn ask_library(case: &Case, state: &mut Lent, left: &mut Vec<Left>) -> (u32, [u64; 2]) {
    match case.question {
        Question::Config => raw::check_config(&state.config),
        Question::Table => (raw::check_table(&state.config, &state.table), [0, 0]),
        Question::Request => {
            let Record { kind, zone, region } = case.record();
            (raw::request(&state.config, &mut state.table, kind, zone, region.numbers()), [0, 0])
        }
        Question::Translate => raw::translate_words(&state.config, &state.table, case.number(0), case.number(1), case.numbers[2]),
        Question::Edition => {
            let (number, answer) = raw::edition(&case.plan);
            (number, [answer, 0])
        }
        Question::Read => {
            let (number, place) = raw::read(&case.plan);
            (number, [place, 0])
        }
        Question::Apply => raw::apply_words(&state.config, &mut state.table, &mut state.edition, &case.plan),
        Question::Pieces => {
            let mut buffer = case.buffer.clone();
            let [_, stored, more, ..] = case.numbers;
            let mut receiver = [stored, more];
            for piece in case.cut() {
                let number = raw::take_piece(&mut receiver, &mut buffer, piece);
                left.push(Left { number, words: receiver, buffer: buffer.clone() });
            }
            let (number, places) = raw::end_words(&state.config, &mut state.table, &mut state.edition, &mut receiver, &buffer);
            left.push(Left { number, words: receiver, buffer });
            (number, places)
        }
        Question::Write => {
            let mut buffer = case.buffer.clone();
            let (number, places) =
                raw::write_words(&state.config, &mut state.table, case.edition(), &case.plan, black_box(&mut buffer));
            left.push(Left { number, words: [0, 0], buffer });
            (number, places)
        }
        Question::Zones => {
            let mut buffer = case.buffer.clone();
            let (number, place) = raw::zones_words(&state.config, &state.table, black_box(&mut buffer));
            left.push(Left { number, words: [0, 0], buffer });
            (number, [place, 0])
        }
        Question::Base => raw::base_zones(&case.plan),
        Question::Lacking => {
            let (place, bytes) = raw::lacking(&case.plan, &case.buffer);
            let number = Case::way(bytes);
            left.push(Left { number, words: bytes, buffer: case.buffer.clone() });
            (number, [place, 0])
        }
        Question::List => {
            let mut buffer = case.buffer.clone();
            let wanted = peatmitten::Table::from_words(case.wanted());
            let (number, count) = raw::list_words(&state.config, &state.table, black_box(&wanted), black_box(&mut buffer));
            assert!(*black_box(&wanted).words() == case.wanted(), "the wanted table is only read");
            left.push(Left { number, words: [0, 0], buffer });
            (number, [count, 0])
        }
        Question::Listing => {
            let mut buffer = case.buffer.clone();
            let (number, length) = raw::list(&state.config, &state.table, black_box(&mut buffer));
            left.push(Left { number, words: [0, 0], buffer });
            (number, [length, 0])
        }
        Question::Log => {
            let mut buffer = case.buffer.clone();
            let (number, [place, right, claimed]) =
                raw::check_log(&mut state.config, &mut state.table, &case.plan, black_box(&mut buffer));
            left.push(Left { number, words: [claimed, 0], buffer });
            (number, [place, right])
        }
    }
}

fn ask_bank(case: &Case, state: &mut Lent) -> (u32, [u64; 2]) {
    let Lent { config, owners, table, edition, .. } = state;
    match case.question {
        Question::Config => raw::bank::check_config(config, owners),
        Question::Table => (raw::bank::check_table(config, owners, table), [0, 0]),
        Question::Request => {
            let Record { kind, zone, region } = case.record();
            (raw::bank::request(config, owners, table, kind, zone, &region.numbers()), [0, 0])
        }
        Question::Translate => raw::bank::translate_words(config, owners, table, case.number(0), case.number(1), case.numbers[2]),
        Question::Read => {
            let (number, place) = raw::bank::read(&case.plan);
            (number, [place, 0])
        }
        Question::Apply => raw::bank::apply_words(config, owners, table, edition, &case.plan),
        _ => unreachable!("the second machine has no such function"),
    }
}

/// A slot with a word on either side. What is in it before does not matter.
#[repr(C)]
struct LentSlot {
    before: u64,
    table: peatmitten::Table,
    behind: u64,
}

/// Whether the same plan, applied beside the table, is answered the same: the mark to write is the edition afterwards; after 0 the other slot has
/// the next table, after 20 to 26 what lay there; and nothing else is written.
fn is_same_beside(case: &Case, answer: &Answer) -> bool {
    let lent = Lent::new(case);
    let lain = [BESIDE; TABLE_WORDS];
    let mut slot = LentSlot { before: BESIDE, table: peatmitten::Table::from_words(lain), behind: BESIDE };
    let LentSlot { table: other, .. } = black_box(&mut slot);
    let Lent { config, owners, table, edition, .. } = black_box(&lent);
    let (number, [mark, place, inner]) = match case.machine() {
        Machine::First => raw::beside_words(config, table, other, *edition, &case.plan),
        Machine::Bank => raw::bank::beside_words(config, owners, table, other, *edition, &case.plan),
    };
    let LentSlot { before, table: other, behind } = black_box(&slot);
    let lies = match number {
        0 => other.words() == &answer.table,
        20..=26 => other.words() == &lain,
        _ => true,
    };
    let is_kept = (*before, *behind, *table.words(), *edition) == (BESIDE, BESIDE, case.table, case.edition());
    lies && is_kept && (number, mark, [place, inner]) == (answer.number, answer.edition.into(), answer.places)
}

fn differs_beside(case: &Case) -> bool {
    library(case).is_some_and(|answer| !is_same_beside(case, &answer))
}

fn differ(case: &Case) -> bool {
    library(case) != Some(case.ordinary())
}

fn writes_beside(case: &Case) -> bool {
    library(case).is_none()
}

/// The answer of both or, if they differ, the smallest case like this one in which they do.
pub fn agreed(case: &Case) -> Result<Answer, Trouble> {
    match library(case) {
        None => Err(Trouble::new("the library wrote beside the state", shrink(case, writes_beside))),
        Some(answer) if answer == case.ordinary() => match case.question {
            Question::Apply if !is_same_beside(case, &answer) => {
                Err(Trouble::new("applied beside the table, the plan is answered otherwise", shrink(case, differs_beside)))
            }
            _ => Ok(answer),
        },
        Some(_) => Err(Trouble::new("the library and the ordinary implementation differ", shrink(case, differ))),
    }
}

/// The answer of both to a named case, which is the one worked out by hand where there is one.
pub fn agreed_by_name(named: &Named) -> Result<Answer, Trouble> {
    let answer = agreed(&named.case).map_err(|trouble| trouble.named(&named.name))?;
    match named.fault() {
        Some(fault) => Err(Trouble::new(fault, named.case.clone())),
        None => Ok(answer),
    }
}

/// The answer of both to a plan file, which is the one stored with it.
pub fn agreed_on_file(file: &PlanFile) -> Result<Answer, Trouble> {
    let case = file.case();
    let answer = agreed(&case).map_err(|trouble| trouble.named(&file.name))?;
    let Outcome { number, place, inner } = file.answer;
    if (answer.number, answer.places) != (number, [place as u64, inner.into()]) {
        return Err(Trouble::new(format!("the program's answer is {}", file.answer), case).named(&file.name));
    }
    Ok(answer)
}

impl fmt::Display for Trouble {
    fn fmt(&self, f: &mut fmt::Formatter) -> fmt::Result {
        writeln!(f, "DIFFERENCE: {}", self.text)?;
        write!(f, "{}", self.case)?;
        if let Some(answer) = library(&self.case) {
            write!(f, "library answers: {answer}")?;
        }
        write!(f, "ordinary answers: {}", self.case.ordinary())
    }
}
