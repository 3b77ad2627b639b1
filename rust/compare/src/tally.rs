//! Counts the answers by question and number, and what happened in simulations.

use std::collections::{BTreeMap, BTreeSet};
use std::fmt;

use cases::{Answer, Case, Machine, Question};

use crate::agree::Trouble;
use crate::event::Event;

/// What every run must answer at least once, by question; nothing else is an answer to it.
type Numbers = &'static [(Question, &'static [u32])];

const FIRST_NUMBERS: Numbers = &[
    (Question::Config, &[0, 1, 2, 3, 4, 5, 6]),
    (Question::Table, &[0, 1]),
    (Question::Request, &[0, 1, 2, 3, 4, 5, 6, 7, 8, 9, 10, 11, 12, 13, 14, 15, 16, 17, 19]),
    (Question::Translate, &[0, 1, 2, 4, 6, 18]),
    (Question::Edition, &[0, 20, 21]),
    (Question::Read, &[0, 20, 21, 22]),
    (Question::Apply, &[0, 1, 2, 20, 21, 22, 23, 24, 25, 26, 27]),
    (Question::Pieces, &[0, 1, 2, 20, 21, 22, 23, 24, 25, 26, 27, 28]),
    (Question::Write, &[0, 1, 2, 25, 27, 28, 29]),
    (Question::Zones, &[0, 1, 2, 28]),
    (Question::Base, &[0, 20, 21, 22]),
    // These are no numbers of the document, but the ways in which two stretches can go.
    (Question::Lacking, &[0, 1, 2]),
    (Question::List, &[0, 1, 2, 28, 29]),
    (Question::Listing, &[0, 1, 2, 28]),
    (Question::Log, &[0, 1, 2, 20, 21, 22, 28, 30]),
];

/// 12 and 14 no longer occur.
const BANK_NUMBERS: Numbers = &[
    (Question::Config, &[0, 1, 2, 3, 4, 5, 6, 7]),
    (Question::Table, &[0, 1]),
    (Question::Request, &[0, 1, 2, 3, 4, 5, 6, 7, 8, 9, 10, 11, 13, 15, 16, 17, 19]),
    (Question::Translate, &[0, 1, 2, 4, 6, 18]),
    (Question::Read, &[0, 20, 21, 22]),
    (Question::Apply, &[0, 1, 2, 20, 21, 22, 23, 24, 25, 26, 27]),
];

const REQUEST_REFUSED: u32 = 27;
const FALSE_CLAIM: u32 = 30;

/// The numbers of requests that can stand inside 27.
const FIRST_INNER: &[u64] = &[3, 4, 5, 6, 7, 8, 9, 10, 11, 12, 13, 14, 15, 16, 17, 19];
const BANK_INNER: &[u64] = &[3, 4, 5, 6, 7, 8, 9, 10, 11, 13, 15, 16, 17, 19];

/// What a machine answers, and what can stand inside its 27.
fn answers_of(machine: Machine) -> (Numbers, &'static [u64]) {
    match machine {
        Machine::First => (FIRST_NUMBERS, FIRST_INNER),
        Machine::Bank => (BANK_NUMBERS, BANK_INNER),
    }
}

/// What the rules can say beside a false claim: what can stand inside 27, or that the request is accepted.
const ACCEPTED: u64 = 0;

#[derive(Default)]
pub struct Tally {
    answers: BTreeMap<(Question, u32), usize>,
    inner: BTreeMap<u64, usize>,
    right: BTreeMap<u64, usize>,
    events: BTreeMap<Event, usize>,
}

impl Tally {
    /// Counts an answer. One that the question does not have is trouble.
    pub fn add(&mut self, case: &Case, answer: &Answer) -> Result<(), Trouble> {
        let (numbers, inner) = answers_of(case.machine());
        let is_refused_request = case.question == Question::Apply && answer.number == REQUEST_REFUSED;
        let is_answer = numbers.iter().any(|(question, numbers)| *question == case.question && numbers.contains(&answer.number));
        if !is_answer || is_refused_request && !inner.contains(&answer.places[1]) {
            let text = format!("both answer {} {:?}, which is no answer to this question", answer.number, answer.places);
            return Err(Trouble::new(text, case.clone()));
        }
        *self.answers.entry((case.question, answer.number)).or_default() += 1;
        if is_refused_request {
            *self.inner.entry(answer.places[1]).or_default() += 1;
        }
        if answer.number == FALSE_CLAIM {
            *self.right.entry(answer.places[1]).or_default() += 1;
        }
        Ok(())
    }

    pub fn add_event(&mut self, event: Event) {
        *self.events.entry(event).or_default() += 1;
    }

    /// Counts what another has counted too.
    pub fn merge(&mut self, other: Tally) {
        merge_counts(&mut self.answers, other.answers);
        merge_counts(&mut self.inner, other.inner);
        merge_counts(&mut self.right, other.right);
        merge_counts(&mut self.events, other.events);
    }

    pub fn total(&self) -> usize {
        self.answers.values().sum()
    }

    /// What a machine never answered, and what never happened.
    pub fn missing(&self, machine: Machine) -> Vec<String> {
        let (numbers, inner) = answers_of(machine);
        let numbers = numbers.iter().flat_map(|(question, numbers)| numbers.iter().map(|&number| (*question, number)));
        let answers =
            numbers.filter(|key| !self.answers.contains_key(key)).map(|(question, number)| format!("{question:?} {number}"));
        // The second machine has no logs.
        let all_right = inner.iter().chain([&ACCEPTED]).filter(|_| machine == Machine::First);
        let right = all_right.filter(|number| !self.right.contains_key(number)).map(|number| format!("30 beside {number}"));
        let inner = inner.iter().filter(|number| !self.inner.contains_key(number)).map(|number| format!("27 with {number}"));
        let events = Event::ALL.iter().filter(|event| !self.events.contains_key(event)).map(Event::to_string);
        answers.chain(inner).chain(right).chain(events).collect()
    }
}

impl fmt::Display for Tally {
    fn fmt(&self, f: &mut fmt::Formatter) -> fmt::Result {
        let questions: BTreeSet<Question> = self.answers.keys().map(|(question, _)| *question).collect();
        for question in questions {
            let of_question = self.answers.iter().filter(|((asked, _), _)| *asked == question);
            write_counts(f, &format!("{question:?}"), of_question.map(|((_, number), count)| (u64::from(*number), *count)))?;
        }
        write_counts(f, "inside 27", self.inner.iter().map(|(number, count)| (*number, *count)))?;
        write_counts(f, "beside 30", self.right.iter().map(|(number, count)| (*number, *count)))?;
        self.events.iter().try_for_each(|(event, count)| writeln!(f, "simulated  {event}: {count}"))
    }
}

fn merge_counts<K: Ord>(counts: &mut BTreeMap<K, usize>, others: BTreeMap<K, usize>) {
    for (key, count) in others {
        *counts.entry(key).or_default() += count;
    }
}

/// A line of numbers, each with how often it was answered.
fn write_counts(f: &mut fmt::Formatter, name: &str, counts: impl Iterator<Item = (u64, usize)>) -> fmt::Result {
    let counts: Vec<String> = counts.map(|(number, count)| format!("{number}: {count}")).collect();
    writeln!(f, "{name:<10} {}", counts.join("  "))
}
