//! A planner and a terminal, and what may happen between them: plans lost, repeated, reordered and mixed with noise, and restarts.
//! Whatever happens, a terminal of edition k has exactly the planner's table of edition k; plan k + 1 brings k + 1, and all else is
//! refused and changes nothing.

mod stored;

use cases::rng::Rng;
use cases::{Answer, Case};
use ordinary::layout::REQUEST_BYTES;
use ordinary::{encode, Config, Plan, Record, State, Table};
use peatmitten::Stored;

use crate::agree::{agreed, Trouble};
use crate::damage::damage_bytes;
use crate::event::Event;
use crate::random;
use crate::tally::Tally;

/// A configuration of one of the machines, and what that machine's rules say of a terminal's state with it.
pub trait Rules: Clone + PartialEq {
    /// The same configuration as the library has it, for a terminal in storage.
    type Library: Stored;
    /// Any sound one.
    fn any(rng: &mut Rng) -> Self;
    /// A request that is likely to be accepted at this table.
    fn likely_request(&self, rng: &mut Rng, table: &Table) -> Record;
    /// Whether the request is accepted, which changes the table.
    fn accepts(&self, table: &mut Table, request: &Record) -> bool;
    fn plan(base: &State<Self>, requests: &[Record]) -> Vec<u8>;
    /// What a plan is for, what it asks, and where its requests stand.
    fn read(plan: &[u8]) -> Option<(State<Self>, Vec<Record>, usize)>;
    /// What a terminal in this state is asked when these bytes come.
    fn receive(state: &State<Self>, plan: Vec<u8>) -> Case;
    fn library(&self) -> Self::Library;
}

impl Rules for Config {
    type Library = peatmitten::Config;

    fn any(rng: &mut Rng) -> Config {
        random::config(rng)
    }

    fn likely_request(&self, rng: &mut Rng, table: &Table) -> Record {
        random::request(rng, self, table)
    }

    fn accepts(&self, table: &mut Table, request: &Record) -> bool {
        table.perform(self, request).is_ok()
    }

    fn plan(base: &State, requests: &[Record]) -> Vec<u8> {
        encode(base, requests)
    }

    fn read(plan: &[u8]) -> Option<(State, Vec<Record>, usize)> {
        let Plan { config, edition, table, requests, requests_at, .. } = Plan::read(plan).ok()?;
        Some((State { config, table, edition }, requests.iter().collect(), requests_at))
    }

    fn receive(state: &State, plan: Vec<u8>) -> Case {
        Case::apply(state.config.to_words(), state.table.to_words(), state.edition, plan)
    }

    fn library(&self) -> peatmitten::Config {
        peatmitten::Config::from_words(self.to_words())
    }
}

/// Where a planner may begin: most often at 0, and now and then so late that the editions end.
pub const FIRST_EDITIONS: [u32; 6] = [0, u32::MAX - 5, 0, 1, 0, 77];

/// How many plans the planner makes at most, and how many turns there are.
#[derive(Clone, Copy)]
pub struct Length {
    pub plans: usize,
    pub turns: usize,
}

/// The planner's states, one edition after the other, and the plan from each to the next.
struct Planner<C> {
    states: Vec<State<C>>,
    plans: Vec<Vec<u8>>,
}

impl<C: Rules> Planner<C> {
    /// It begins with a terminal without zones.
    fn new(rng: &mut Rng, edition: u32) -> Planner<C> {
        let first = State { config: C::any(rng), table: Table::default(), edition };
        Planner { states: vec![first], plans: Vec::new() }
    }

    fn last(&self) -> &State<C> {
        self.states.last().expect("the planner has a first state")
    }

    /// Whether there is no plan yet from the last state. At the last edition it makes one too, but no terminal will follow.
    fn can_plan(&self) -> bool {
        self.plans.len() < self.states.len()
    }

    /// Plans some requests that are accepted or, now and then, the way back to the table before.
    fn plan_next(&mut self, rng: &mut Rng) {
        let base = self.last().clone();
        let mut table = base.table.clone();
        let requests = match self.way_back() {
            Some(requests) if rng.one_in(3) => requests,
            _ => (0..rng.below(8)).map(|_| base.config.likely_request(rng, &table)).collect(),
        };
        let accepted: Vec<Record> = requests.into_iter().filter(|request| base.config.accepts(&mut table, request)).collect();
        self.plans.push(C::plan(&base, &accepted));
        if let Some(edition) = base.edition.checked_add(1) {
            self.states.push(State { table, edition, ..base });
        }
    }

    /// The last plan's requests undone, the last one first.
    fn way_back(&self) -> Option<Vec<Record>> {
        let (_, mut requests, _) = C::read(self.plans.last()?).expect("the planner's plans are plans");
        requests.reverse();
        for request in &mut requests {
            // 1 and 2, 3 and 4, 5 and 6 undo each other.
            request.kind = ((request.kind - 1) ^ 1) + 1;
        }
        Some(requests)
    }

    fn state_of(&self, edition: u32) -> Option<&State<C>> {
        self.states.iter().find(|state| state.edition == edition)
    }

    /// Whether these bytes are the plan for a terminal of this edition.
    fn is_next(&self, edition: u32, bytes: &[u8]) -> bool {
        self.plan_at(edition).is_some_and(|next| self.plans[next] == bytes)
    }

    /// Whether these bytes are a plan for the base of this edition that the planner did not make. Only a signature tells it apart, so
    /// such bytes do not reach the terminal.
    fn is_forged(&self, edition: u32, bytes: &[u8]) -> bool {
        let (Some((base, ..)), Some(state)) = (C::read(bytes), self.state_of(edition)) else {
            return false;
        };
        base == *state && !self.is_next(edition, bytes)
    }

    /// Which plan is for this edition, if it is made.
    fn plan_at(&self, edition: u32) -> Option<usize> {
        self.states.iter().position(|state| state.edition == edition).filter(|&at| at < self.plans.len())
    }
}

/// A terminal: the words of its state, and of every state that it held. All but the first are what the library left.
struct Terminal {
    state: Case,
    held: Vec<Case>,
}

impl Terminal {
    fn new<C: Rules>(state: &State<C>) -> Terminal {
        let state = C::receive(state, Vec::new());
        Terminal { held: vec![state.clone()], state }
    }

    fn edition(&self) -> u32 {
        self.state.edition()
    }

    /// What the terminal is asked when these bytes come.
    fn receive(&self, bytes: &[u8]) -> Case {
        Case { plan: bytes.to_vec(), ..self.state.clone() }
    }

    fn keep(&mut self, answer: &Answer) {
        let owners = self.state.owners;
        self.state = Case { owners, ..Case::apply(answer.config, answer.table, answer.edition, Vec::new()) };
        self.held.push(self.state.clone());
    }

    /// The terminal comes back with a state that it once held itself.
    fn restart(&mut self, rng: &mut Rng) -> Event {
        let before = self.edition();
        self.state = rng.pick(&self.held).clone();
        if self.edition() == before {
            Event::Restarted
        } else {
            Event::SetBack
        }
    }
}

struct Simulation<'a, C> {
    planner: Planner<C>,
    terminal: Terminal,
    rng: &'a mut Rng,
    tally: &'a mut Tally,
}

/// Simulates one terminal of a machine from its first edition on, and then one with the same plans whose state is in storage.
pub fn run<C: Rules>(rng: &mut Rng, edition: u32, length: Length, tally: &mut Tally) -> Result<(), Trouble> {
    let planner = Planner::<C>::new(rng, edition);
    let terminal = Terminal::new(planner.last());
    let mut simulation = Simulation { planner, terminal, rng, tally };
    // So that all plans are made in about the first third of the turns.
    let between_plans = 1 + length.turns / length.plans / 3;
    for _ in 0..length.turns {
        let planner = &simulation.planner;
        let is_planning = planner.plans.len() < length.plans && planner.can_plan();
        if is_planning && simulation.rng.one_in(between_plans) {
            simulation.make_plan();
        } else {
            simulation.take_turn()?;
        }
    }
    simulation.bring_level()?;
    stored::run(&simulation.planner, simulation.rng, length.turns, simulation.tally)
}

impl<C: Rules> Simulation<'_, C> {
    fn make_plan(&mut self) {
        self.planner.plan_next(self.rng);
        self.note(Event::Planned);
    }

    /// Of 95 turns, about 35 send the next plan, 25 any one, 33 noise, and 2 restart the terminal. One in eight of the next plans
    /// is lost; a later turn may send it again.
    fn take_turn(&mut self) -> Result<(), Trouble> {
        match (self.rng.below(95), self.planner.plan_at(self.terminal.edition())) {
            (0..=34, Some(_)) if self.rng.one_in(8) => self.note(Event::Lost),
            (0..=34, Some(next)) => return self.deliver_plan(next),
            (0..=59, _) if !self.planner.plans.is_empty() => {
                let any = self.rng.below(self.planner.plans.len());
                return self.deliver_plan(any);
            }
            (0..=92, next) => return self.deliver_noise(next),
            _ => {
                let event = self.terminal.restart(self.rng);
                self.note(event);
            }
        }
        Ok(())
    }

    fn note(&mut self, event: Event) {
        self.tally.add_event(event);
    }

    /// A plan as the planner made it.
    fn deliver_plan(&mut self, plan: usize) -> Result<(), Trouble> {
        let edition = self.terminal.edition();
        let event = match self.planner.states[plan].edition {
            base if base < edition => Event::Repeated,
            base if base > edition => Event::Early,
            _ if edition == u32::MAX => Event::NoNextEdition,
            _ => Event::Next,
        };
        let bytes = self.planner.plans[plan].clone();
        self.deliver(event, &bytes)
    }

    /// Bytes of which none is the planner's, or a plan that was damaged: the terminal's next, or else any.
    fn deliver_noise(&mut self, next: Option<usize>) -> Result<(), Trouble> {
        let plans = &self.planner.plans;
        let plan = match next {
            Some(next) => &plans[next][..],
            None if plans.is_empty() => &[],
            None => &self.rng.pick(plans)[..],
        };
        let (event, bytes) = noise::<C>(self.rng, plan);
        // One bit of the edition can make another edition's plan one for the terminal's base.
        if matches!(event, Event::Damaged | Event::Flipped) && self.planner.is_forged(self.terminal.edition(), &bytes) {
            self.note(Event::Forged);
            return Ok(());
        }
        self.deliver(event, &bytes)
    }

    /// The next plan is accepted and leads to the next edition, if there is one; anything else is refused and changes nothing.
    /// Either way the terminal has the planner's table of its edition.
    fn deliver(&mut self, event: Event, bytes: &[u8]) -> Result<(), Trouble> {
        let delivery = self.terminal.receive(bytes);
        let answer = agreed(&delivery)?;
        self.tally.add(&delivery, &answer)?;
        self.note(event);
        let edition = self.terminal.edition();
        let expected = if self.planner.is_next(edition, bytes) { edition.checked_add(1) } else { None };
        let is_expected = match expected {
            Some(next) => answer.number == 0 && answer.edition == next,
            None => answer.number != 0 && is_unchanged(&delivery, &answer),
        };
        if !is_expected {
            return Err(Trouble::new(format!("at a simulated terminal, {event}: not as the planner expects"), delivery));
        }
        if !self.has_planners_state(&answer) {
            let text = format!("after this, a terminal of edition {} has not the planner's table", answer.edition);
            return Err(Trouble::new(text, delivery));
        }
        if answer.number == 0 {
            self.terminal.keep(&answer);
        }
        Ok(())
    }

    fn has_planners_state(&self, answer: &Answer) -> bool {
        let planned = self.planner.state_of(answer.edition).map(|state| C::receive(state, Vec::new()));
        planned.is_some_and(|state| state.config == answer.config && state.table == answer.table)
    }

    /// The plans that the terminal has missed, in turn, bring it to the planner's last state.
    fn bring_level(&mut self) -> Result<(), Trouble> {
        while let Some(next) = self.planner.plan_at(self.terminal.edition()).filter(|_| self.terminal.edition() < u32::MAX) {
            self.deliver_plan(next)?;
        }
        if self.terminal.edition() != self.planner.last().edition {
            return Err(Trouble::new("the plans that were missed do not bring the terminal level", self.terminal.state.clone()));
        }
        Ok(())
    }
}

fn is_unchanged(before: &Case, after: &Answer) -> bool {
    after.config == before.config && after.table == before.table && after.edition == before.edition()
}

/// What can happen to the bytes of a plan. None of what comes out is the planner's plan any more, but for the mixed damage, which
/// may leave it as it was.
fn noise<C: Rules>(rng: &mut Rng, plan: &[u8]) -> (Event, Vec<u8>) {
    let Some((_, requests, requests_at)) = C::read(plan) else {
        return (Event::RandomBytes, random_bytes(rng));
    };
    let mut bytes = plan.to_vec();
    match rng.below(7) {
        0 => {
            // Of the base, which ends before the count of the requests.
            let bit = rng.below(8 * (requests_at - 4));
            bytes[bit / 8] ^= 1 << (bit % 8);
            (Event::Flipped, bytes)
        }
        1 => {
            bytes.truncate(rng.below(plan.len()));
            (Event::Cut, bytes)
        }
        2 => {
            bytes.extend((0..1 + rng.below(8)).map(|_| rng.word() as u8));
            (Event::Lengthened, bytes)
        }
        3 => (Event::RandomBytes, random_bytes(rng)),
        4 if !requests.is_empty() => {
            // The kind of the last request becomes 0, which is no kind.
            let last = bytes.len() - REQUEST_BYTES;
            bytes[last..last + 4].fill(0);
            (Event::Spoilt, bytes)
        }
        _ => {
            damage_bytes(rng, &mut bytes);
            (Event::Damaged, bytes)
        }
    }
}

fn random_bytes(rng: &mut Rng) -> Vec<u8> {
    (0..rng.below(200)).map(|_| rng.word() as u8).collect()
}
