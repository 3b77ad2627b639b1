//! Cases for the second machine, terminals with owners: request 6 of document 02. A case with owners is asked of it.
//!
//! - [`named`]: their answers are stored in `vectors/bank/cases.txt`.
//! - [`plan_files`], [`examples`]: the plan files of `vectors/bank/plans` and `examples/bank`, with what the program `bank_apply` prints of each.
//! - [`with_owners`]: the first machine's cases, asked of the second.

mod beside;
mod configs;
mod files;
mod plan;
mod requests;
mod tables;
mod terminals;

use ordinary::bank::{Config, Owners, Plan, State};
use ordinary::{Guest, Side, Table};

use crate::book::{Book, Named};
use crate::case::{Answer, Case, Outcome, Question};
use crate::files::{PlanFile, PlanFiles};
use crate::rng::Rng;
use crate::{Machine, SEED};

pub use beside::{owners_of, with_owners};

/// What the second machine can be asked.
pub const QUESTIONS: [Question; 6] =
    [Question::Config, Question::Table, Question::Request, Question::Translate, Question::Read, Question::Apply];

/// All cases but the plan files, in the order of `vectors/bank/cases.txt`.
pub fn named() -> Vec<Named> {
    let mut book = Book::new();
    configs::add(&mut book);
    tables::add(&mut book);
    requests::add(&mut book, &mut Rng::new(SEED));
    terminals::add(&mut book, &mut Rng::new(SEED));
    book.named
}

/// The plans of `vectors/bank/plans`.
pub fn plan_files() -> Vec<PlanFile> {
    let mut files = PlanFiles::new(Machine::Bank);
    files::add(&mut files, &mut Rng::new(SEED));
    files.all
}

/// The plans of `examples/bank`.
pub fn examples() -> Vec<PlanFile> {
    let mut files = PlanFiles::new(Machine::Bank);
    files::add_examples(&mut files);
    files.all
}

/// What the ordinary implementation answers to a case with these owners.
pub(crate) fn ordinary(case: &Case, owners: &Owners) -> Answer {
    match case.question {
        Question::Config => match Config::from_words(&case.config, owners).and_then(|config| config.check()) {
            Ok(()) => case.unchanged(0, [0, 0]),
            Err(fault) => case.unchanged(fault.number(), fault.places().map(|place| place as u64)),
        },
        Question::Table => {
            let is_sound = base_state(case, owners).is_ok_and(|state| state.config.check_table(&state.table).is_ok());
            case.unchanged(is_sound.into(), [0, 0])
        }
        Question::Read => match Plan::read(&case.plan) {
            Ok(plan) => case.unchanged(0, [plan.requests_at as u64, 0]),
            Err(fault) => case.unchanged(fault.number(), [fault.offset() as u64, 0]),
        },
        Question::Request | Question::Translate | Question::Apply => match base_state(case, owners) {
            Ok(state) => ask(case, state),
            Err(number) => case.unchanged(number, [0, 0]),
        },
        _ => unreachable!("the second machine has no such function"),
    }
}

/// The state that the words are, or the first of 1 and 2 where they are none.
fn base_state(case: &Case, owners: &Owners) -> Result<State, u32> {
    let config = Config::from_words(&case.config, owners).map_err(|_| 1u32)?;
    match Table::from_words(&case.table) {
        Some(table) => Ok(State { config, table, edition: case.edition() }),
        None => Err(config.check().map_or(1, |()| 2)),
    }
}

fn ask(case: &Case, mut state: State) -> Answer {
    let (number, places) = match case.question {
        Question::Request => (state.config.request(&mut state.table, &case.record()).map_or_else(|no| no.number(), |()| 0), [0, 0]),
        Question::Translate => {
            let side = if case.number(1) == 0 { Side::Cpu } else { Side::Iommu };
            match state.config.translate(&state.table, case.number(0), side, Guest(case.numbers[2])) {
                Ok(found) => (0, [found.physical.0, found.remaining]),
                Err(refusal) => (refusal.number(), [0, 0]),
            }
        }
        _ => {
            let Outcome { number, place, inner } = state.apply(&case.plan).into();
            (number, [place as u64, inner.into()])
        }
    };
    Answer { table: state.table.to_words(), edition: state.edition, ..case.unchanged(number, places) }
}

#[cfg(test)]
mod tests {
    use super::*;
    use std::collections::BTreeSet;

    #[test]
    fn answers_worked_out_by_hand() {
        assert_eq!(named().iter().find_map(Named::fault), None);
    }

    #[test]
    fn plan_files_worked_out_by_hand() {
        let files = [plan_files(), examples()].concat();
        assert_eq!(files.iter().find_map(PlanFile::fault), None);
    }

    #[test]
    fn plan_files_have_names_of_their_own() {
        for files in [plan_files(), examples()] {
            let names: BTreeSet<&str> = files.iter().map(|file| file.name.as_str()).collect();
            assert_eq!(names.len(), files.len());
        }
    }

    /// Document 02: 11 comes in the place of every later number of an insert and of acceptance, and nothing else differs.
    #[test]
    fn every_answer_is_the_first_machines_or_11() {
        let mut accepted = 0;
        let lifted = crate::named().into_iter().map(|named| with_owners(&named.case, owners_of(&named.case, || 5)));
        for case in lifted.flatten().chain(named().into_iter().map(|named| named.case)) {
            if case.question != Question::Request {
                continue;
            }
            let (here, there) = (case.ordinary(), Case { owners: None, ..case.clone() }.ordinary());
            assert!(![12, 14].contains(&here.number), "{case}");
            match here.number {
                0 => assert_eq!(here, there, "{case}"),
                1 | 2 => {}
                11 => assert!(there.number == 0 || there.number >= 11, "{case}"),
                number => assert_eq!(number, there.number, "{case}"),
            }
            accepted += usize::from(here.number == 0);
        }
        assert!(accepted > 100);
    }
}
