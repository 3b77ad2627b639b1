//! A terminal whose state is in storage, with a cut in power at the end of every turn: in a start, in a delivery or between two. Whatever is read
//! afterwards is an edition of the planner's with exactly its table, and no edition that was told is above.

use std::cell::RefCell;

use cases::rng::Rng;
use peatmitten::{Part, Store, Table};

use super::{noise, Planner, Rules};
use crate::agree::Trouble;
use crate::event::Event;
use crate::simulated::{Powered, Storage};
use crate::tally::Tally;

/// A start has two acts and an accepted plan four; a turn delivers two plans at most.
const MOST_ACTS: usize = 10;
const MOST_PLANS: usize = 2;

struct Stored<'a, C> {
    planner: &'a Planner<C>,
    storage: Storage,
    rng: &'a mut Rng,
    tally: &'a mut Tally,
}

/// Plays so many turns, of one terminal after another: the next begins some time after one is level with the planner. Brings the last one level.
pub fn run<C: Rules>(planner: &Planner<C>, rng: &mut Rng, turns: usize, tally: &mut Tally) -> Result<(), Trouble> {
    let first = planner.states[0].edition;
    let mut stored = Stored { planner, storage: Storage::new(first), rng, tally };
    for _ in 0..turns {
        if stored.storage.mark == planner.last().edition && stored.rng.one_in(4) {
            stored.storage = Storage::new(first);
        }
        let acts = stored.rng.below(MOST_ACTS + 1);
        let plans = stored.rng.below(MOST_PLANS + 1);
        stored.turn(acts, plans)?;
    }
    while stored.storage.mark < planner.last().edition {
        stored.bring_next()?;
    }
    Ok(())
}

impl<C: Rules> Stored<'_, C> {
    /// From one power-on to the cut, and what a start reads then.
    fn turn(&mut self, acts: usize, plans: usize) -> Result<(), Trouble> {
        let storage = RefCell::new(self.storage.clone());
        let event = self.play(&storage, acts, plans)?;
        self.tally.add_event(event);
        let seen = storage.into_inner();
        self.storage = seen.cut(&mut |ways| self.rng.below(ways));
        if self.storage.mark != seen.mark {
            self.tally.add_event(Event::MarkWavered);
        }
        self.check()
    }

    /// The terminal starts and is given plans, until the power goes.
    fn play(&mut self, storage: &RefCell<Storage>, acts: usize, plans: usize) -> Result<Event, Trouble> {
        let Some(mut store) = self.start(storage, acts) else { return Ok(Event::CutInStart) };
        for _ in 0..plans {
            let bytes = self.bytes(storage.borrow().mark);
            if !self.deliver(storage, &mut store, &bytes)? {
                return Ok(Event::CutInDelivery);
            }
        }
        Ok(Event::CutIdle)
    }

    fn start<'s>(&self, storage: &'s RefCell<Storage>, acts: usize) -> Option<Store<Powered<'s>, C::Library, Box<Table>>> {
        let mark = storage.borrow().mark;
        let slots = storage.borrow().slots.each_ref().map(|slot| slot.words.clone());
        let store = Store::start(self.planner.states[0].config.library(), slots, Powered { storage, acts }, mark).ok()?;
        storage.borrow_mut().tell(mark);
        Some(store)
    }

    /// Whether the delivery came through, in which case its answer must be the right one.
    fn deliver<P: Part>(
        &self,
        storage: &RefCell<Storage>,
        store: &mut Store<P, C::Library, Box<Table>>,
        bytes: &[u8],
    ) -> Result<bool, Trouble> {
        let Some(edition) = store.edition() else { return Ok(false) };
        let Ok(answer) = store.deliver(bytes) else { return Ok(false) };
        let next = if self.planner.is_next(edition, bytes) { edition.checked_add(1) } else { None };
        if answer.is_ok() != next.is_some() || store.edition() != Some(next.unwrap_or(edition)) {
            return Err(self.trouble("a terminal in storage does not answer as the planner expects", edition, bytes));
        }
        storage.borrow_mut().tell(next.unwrap_or(edition));
        Ok(true)
    }

    /// Half of what comes is the next plan, a quarter any one, and the rest noise.
    fn bytes(&mut self, edition: u32) -> Vec<u8> {
        let plans = &self.planner.plans;
        let next = self.planner.plan_at(edition);
        match (self.rng.below(4), next) {
            (0..=1, Some(next)) => plans[next].clone(),
            (2, _) if !plans.is_empty() => self.rng.pick(plans).clone(),
            _ => {
                let plan = next.map_or(&[][..], |next| &plans[next]);
                let (_, bytes) = noise::<C>(self.rng, plan);
                if self.planner.is_forged(edition, &bytes) {
                    Vec::new()
                } else {
                    bytes
                }
            }
        }
    }

    /// What a start would read.
    fn check(&self) -> Result<(), Trouble> {
        let Storage { mark, ref slots, told, .. } = self.storage;
        let planned = self.planner.state_of(mark).map(|state| state.table.to_words());
        if planned.as_ref() != Some(slots[mark as usize % 2].words.words()) {
            return Err(self.trouble("after a cut the mark names a table that is not the planner's", mark, &[]));
        }
        if told > Some(mark) {
            return Err(self.trouble("after a cut an edition that was told is taken back", mark, &[]));
        }
        Ok(())
    }

    /// From whatever a cut left, a start and the next plan bring the next edition.
    fn bring_next(&mut self) -> Result<(), Trouble> {
        let mark = self.storage.mark;
        let storage = RefCell::new(self.storage.clone());
        let plan = self.planner.plan_at(mark).map_or(&[][..], |next| &self.planner.plans[next]);
        let store = self.start(&storage, usize::MAX);
        let is_delivered = match store {
            Some(mut store) => self.deliver(&storage, &mut store, plan)?,
            None => false,
        };
        self.storage = storage.into_inner();
        if !is_delivered || Some(self.storage.mark) != mark.checked_add(1) {
            return Err(self.trouble("the next plan does not come through after a cut", mark, plan));
        }
        self.check()
    }

    fn trouble(&self, text: &str, edition: u32, bytes: &[u8]) -> Trouble {
        let state = self.planner.state_of(edition).unwrap_or(self.planner.last());
        Trouble::new(format!("{text}, at edition {edition}"), C::receive(state, bytes.to_vec()))
    }
}
