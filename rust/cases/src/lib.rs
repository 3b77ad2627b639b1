//! Cases for the rules of document 01. Each has a name that says what it shows; where its answer was worked out by hand, that
//! stands beside the case, and the ordinary implementation must answer the same.
//!
//! - [`named`]: configurations, tables, requests, translations, plans at a terminal, listings and logs, chosen or drawn from a fixed seed. The
//!   answers are stored in `vectors/cases.txt`; `rust/compare` asks the library too.
//! - [`plan_files`], [`examples`]: the plan files of `vectors/plans` and `examples`, with what the program `apply` prints of each.
//! - [`log_files`], [`example_logs`]: the log files of `vectors/logs` and `examples`, with what the program `log_check` prints of each.
//! - [`bank`]: cases and plan files for the second machine.
//!
//! The program `plans` of this crate makes the stored files, on any processor and without the library.

#![forbid(unsafe_code)]

pub mod bank;
mod book;
mod case;
mod configs;
mod desk;
mod drawn;
mod examples;
mod fields;
mod files;
mod given;
mod listings;
mod log_files;
mod logs;
mod requests;
pub mod rng;
mod tables;
mod terminals;
mod translations;

pub use book::Named;
pub use case::{Answer, Case, Left, Outcome, Question, NUMBERS};
pub use files::PlanFile;
pub use log_files::{LogFile, LogOutcome};

use book::Book;
use files::PlanFiles;
use log_files::LogFiles;
use rng::Rng;

/// Which machine is asked: the first, or that of terminals with owners.
#[derive(Clone, Copy, Debug, PartialEq, Eq)]
pub enum Machine {
    First,
    Bank,
}

/// Each kind of case draws its own numbers from this seed.
const SEED: u64 = 1;

/// All cases but the plan files, in the order of `vectors/cases.txt`.
pub fn named() -> Vec<Named> {
    let mut book = Book::new();
    configs::add(&mut book);
    tables::add(&mut book);
    drawn::add(&mut book, &mut Rng::new(SEED));
    requests::add(&mut book, &mut Rng::new(SEED));
    translations::add(&mut book, &mut Rng::new(SEED));
    terminals::add(&mut book, &mut Rng::new(SEED));
    listings::add(&mut book);
    logs::add(&mut book);
    book.named
}

/// The plans of `vectors/plans`.
pub fn plan_files() -> Vec<PlanFile> {
    let mut files = PlanFiles::new(Machine::First);
    files::add(&mut files, &mut Rng::new(SEED));
    files.all
}

/// The plans of `examples`.
pub fn examples() -> Vec<PlanFile> {
    let mut files = PlanFiles::new(Machine::First);
    examples::add(&mut files);
    files.all
}

/// The logs of `vectors/logs`.
pub fn log_files() -> Vec<LogFile> {
    let mut files = LogFiles::default();
    log_files::add(&mut files);
    files.all
}

/// The logs of `examples`.
pub fn example_logs() -> Vec<LogFile> {
    let mut files = LogFiles::default();
    log_files::add_examples(&mut files);
    files.all
}

#[cfg(test)]
mod tests {
    use super::*;

    #[test]
    fn answers_worked_out_by_hand() {
        let wrong = |named: &Named| named.fault();
        assert_eq!(named().iter().find_map(wrong), None);
    }

    #[test]
    fn plan_files_worked_out_by_hand() {
        let files = [plan_files(), examples()].concat();
        assert_eq!(files.iter().find_map(PlanFile::fault), None);
    }

    #[test]
    fn log_files_worked_out_by_hand() {
        let files = [log_files(), example_logs()].concat();
        assert_eq!(files.iter().find_map(LogFile::fault), None);
    }

    #[test]
    fn files_have_names_of_their_own() {
        let plans = [plan_files(), examples()].map(|files| files.into_iter().map(|file| file.name).collect());
        let logs = [log_files(), example_logs()].map(|files| files.into_iter().map(|file| file.name).collect());
        for mut names in plans.into_iter().chain(logs) {
            let names: &mut Vec<String> = &mut names;
            let all = names.len();
            names.sort();
            names.dedup();
            assert_eq!(names.len(), all);
        }
    }
}
