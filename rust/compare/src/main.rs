//! Compares the library with the ordinary Rust implementation on many inputs.
//!
//!     compare [--cases N] [--seed S] [--machine bank]
//!
//! asks the first machine, or the second one, that of terminals with owners.
//!
//! The named cases of `rust/cases`, its plan files, the boundary cases and some simulations are always run; random cases and
//! more simulations follow until there are at least N cases. All processors take part; the cases of a seed are the same on any number
//! of them. It prints how often each number was answered and how often each
//! thing happened in simulations, and `N cases, 0 differences`. A difference ends the run: its input is made as small as can be,
//! printed, and the exit status is 1. It is 1 too if a number of the document was never answered, or if something that can happen
//! in a simulation never did.

#![forbid(unsafe_code)]

mod agree;
mod at_once;
mod bank;
mod boundary;
mod damage;
mod event;
mod random;
mod shrink;
#[path = "../../peatmitten/tests/simulated/mod.rs"]
mod simulated;
mod simulation;
mod tally;

use std::iter;
use std::process::ExitCode;

use agree::{agreed, agreed_by_name, agreed_on_file, Trouble};
use at_once::on_all_processors;
use cases::rng::Rng;
use cases::{Case, Machine, Named, PlanFile};
use random::World;
use simulation::Length;
use tally::Tally;

const USAGE: &str = "usage: compare [--cases N] [--seed S] [--machine bank]";

/// Random cases that are made from one configuration.
const CASES_OF_A_WORLD: usize = 60;

/// After so many rounds it is looked whether there are cases enough: some 100 cases each.
const ROUNDS_AT_ONCE: usize = 32;

/// The first simulation, and all others; so many of those are always run.
const LONG: Length = Length { plans: 60, turns: 4000 };
const SHORT: Length = Length { plans: 8, turns: 50 };
const SHORT_ALWAYS: usize = 40;

struct Options {
    cases: usize,
    seed: u64,
    machine: Machine,
}

impl Options {
    fn read(mut words: impl Iterator<Item = String>) -> Result<Options, String> {
        let mut options = Options { cases: 100_000, seed: 1, machine: Machine::First };
        while let Some(word) = words.next() {
            let value = words.next().ok_or(USAGE)?;
            match (word.as_str(), value.as_str()) {
                ("--cases", number) => options.cases = number.parse().map_err(|_| USAGE)?,
                ("--seed", number) => options.seed = number.parse().map_err(|_| USAGE)?,
                ("--machine", "bank") => options.machine = Machine::Bank,
                _ => return Err(USAGE.into()),
            }
        }
        Ok(options)
    }
}

/// Compares the two on each case and counts the answers, up to the first difference.
fn compare_all(cases: impl IntoIterator<Item = Case>, tally: &mut Tally) -> Result<(), Trouble> {
    cases.into_iter().try_for_each(|case| tally.add(&case, &agreed(&case)?))
}

/// A simulation, and before it random cases of one configuration where it has some. It draws numbers of its own, so that it is the same
/// whatever is done before it or beside it.
struct Round {
    machine: Machine,
    seed: u64,
    cases: usize,
    edition: u32,
    length: Length,
}

impl Round {
    fn run(&self, tally: &mut Tally) -> Result<(), Trouble> {
        let mut rng = Rng::new(self.seed);
        if self.cases > 0 {
            let mut world = World::new(&mut rng);
            let mut next = || match self.machine {
                Machine::First => world.case(&mut rng),
                Machine::Bank => bank::random_case(&mut rng, &mut world),
            };
            compare_all((0..self.cases).map(|_| next()), tally)?;
        }
        let simulate = match self.machine {
            Machine::First => simulation::run::<ordinary::Config>,
            Machine::Bank => simulation::run::<ordinary::bank::Config>,
        };
        simulate(&mut rng, self.edition, self.length, tally)
    }
}

/// Does a part of the run and says how many cases it had.
fn part(name: &str, tally: &mut Tally, cases: impl FnOnce(&mut Tally) -> Result<(), Trouble>) -> Result<(), Trouble> {
    let before = tally.total();
    cases(tally)?;
    println!("{:>6} {name}", tally.total() - before);
    Ok(())
}

/// What is stored for a machine: the cases by name, and the plan files.
fn stored(machine: Machine) -> (Vec<Named>, Vec<PlanFile>) {
    match machine {
        Machine::First => (cases::named(), [cases::plan_files(), cases::examples()].concat()),
        Machine::Bank => (cases::bank::named(), [cases::bank::plan_files(), cases::bank::examples()].concat()),
    }
}

fn run(options: &Options, tally: &mut Tally) -> Result<(), Trouble> {
    let machine = options.machine;
    let (named, files) = stored(machine);
    part("named cases", tally, |tally| {
        on_all_processors(&named, tally, |named, tally| tally.add(&named.case, &agreed_by_name(named)?))
    })?;
    part("plan files", tally, |tally| {
        on_all_processors(&files, tally, |file, tally| tally.add(&file.case(), &agreed_on_file(file)?))
    })?;
    part("boundary cases", tally, |tally| {
        let mut ask = |cases: Vec<Case>| on_all_processors(&cases, tally, |case, tally| tally.add(case, &agreed(case)?));
        match machine {
            Machine::First => boundary::PARTS.iter().try_for_each(|cases| ask(cases())),
            Machine::Bank => bank::boundary_parts().try_for_each(ask),
        }
    })?;
    let mut rng = Rng::new(options.seed);
    let mut editions = simulation::FIRST_EDITIONS.into_iter().cycle();
    part("deliveries of simulations", tally, |tally| {
        let lengths = iter::once(LONG).chain(iter::repeat(SHORT).take(SHORT_ALWAYS));
        let rounds: Vec<Round> = lengths
            .zip(&mut editions)
            .map(|(length, edition)| Round { machine, seed: rng.word(), cases: 0, edition, length })
            .collect();
        on_all_processors(&rounds, tally, Round::run)
    })?;
    part("random cases, and deliveries of more simulations", tally, |tally| {
        let mut rounds =
            editions.map(|edition| Round { machine, seed: rng.word(), cases: CASES_OF_A_WORLD, edition, length: SHORT });
        while tally.total() < options.cases {
            let some: Vec<Round> = rounds.by_ref().take(ROUNDS_AT_ONCE).collect();
            on_all_processors(&some, tally, Round::run)?;
        }
        Ok(())
    })
}

fn main() -> ExitCode {
    let options = match Options::read(std::env::args().skip(1)) {
        Ok(options) => options,
        Err(text) => {
            eprintln!("{text}");
            return ExitCode::from(2);
        }
    };
    let mut tally = Tally::default();
    let outcome = run(&options, &mut tally);
    print!("{tally}");
    if let Err(trouble) = outcome {
        println!("{trouble}");
        println!("{} cases of seed {}, then a difference", tally.total(), options.seed);
        return ExitCode::FAILURE;
    }
    println!("{} cases, 0 differences", tally.total());
    let missing = tally.missing(options.machine);
    if !missing.is_empty() {
        println!("never seen: {}", missing.join(", "));
        return ExitCode::FAILURE;
    }
    println!("every number was answered, and everything happened that can");
    ExitCode::SUCCESS
}
