//! A terminal's state in storage, with the power cut at every act of every start and delivery. What a cut leaves is the worst that
//! docs/STORAGE.md allows: a slot that does not last holds old, new, mixed or any words, and a mark that was not waited for wavers. All storages
//! that can come out of this with three plans, refused plans and restarts that are cut too are visited. Wrong orders of acts are visited the same
//! way, and each is seen to fail.

mod simulated;

use std::borrow::BorrowMut;
use std::cell::RefCell;
use std::collections::{BTreeSet, HashSet};

use peatmitten::limits::LONGEST_PLAN;
use peatmitten::{raw, Config, Part, PlanRefusal, Receiver, Region, Request, Side, State, Store, StoreFault, Table};
use simulated::{Cut, Powered, Storage};

const A: Region = Region::new(0x4000_0000, 0x8000_0000, 0x20_0000, 3);
const G: Region = Region::new(0x0800_0000, 0x0800_0000, 0x1_0000, 3);

/// All that a cut may leave of a storage: every way in which it can be picked.
fn all_left(storage: &Storage) -> Vec<Storage> {
    let (mut all, mut picked) = (Vec::new(), Vec::new());
    loop {
        let mut at = 0;
        all.push(storage.cut(&mut |ways| {
            if at == picked.len() {
                picked.push((0, ways));
            }
            at += 1;
            picked[at - 1].0
        }));
        while picked.last().is_some_and(|&(pick, ways)| pick + 1 == ways) {
            picked.pop();
        }
        match picked.last_mut() {
            Some((pick, _)) => *pick += 1,
            None => return all,
        }
    }
}

/// The same where slots are mapped: the library has worked in a slot before its driver is called.
struct Mapped<'a>(Powered<'a>);

impl Part for Mapped<'_> {
    type Fault = Cut;

    fn write_words(&mut self, slot: usize, table: &Table) -> Result<(), Cut> {
        self.0.storage.borrow_mut().slots[slot].fill(table);
        self.0.act()
    }

    fn write_mark(&mut self, mark: u32) -> Result<(), Cut> {
        self.0.write_mark(mark)
    }

    fn wait(&mut self) -> Result<(), Cut> {
        self.0.wait()
    }
}

/// What a terminal does from one power-on to the next cut: it starts, and is given plans in turn. It ends early where the power does.
trait Agent {
    fn run(&self, storage: &RefCell<Storage>, config: &Config, plans: &[&[u8]], acts: usize) -> Result<(), Cut>;

    /// In which slot the table of an edition is.
    fn slot_of(&self, edition: u32) -> usize {
        edition as usize % 2
    }
}

/// Which slots a terminal has before it starts.
fn slots_of(storage: &RefCell<Storage>) -> [Table; 2] {
    storage.borrow().slots.each_ref().map(|slot| (*slot.words).clone())
}

/// Delivers plans, and tells the edition after the start and after each of them. `refused` is called after a refusal, with the plan.
fn deliver_all<P: Part<Fault = Cut>, S: BorrowMut<Table>>(
    started: Result<Store<P, Config, S>, StoreFault<Cut>>,
    storage: &RefCell<Storage>,
    plans: &[&[u8]],
    refused: impl Fn(&Store<P, Config, S>, &[u8]),
) -> Result<(), Cut> {
    let mut store = started.map_err(|_| Cut)?;
    let tell = |store: &Store<P, Config, S>| storage.borrow_mut().tell(store.edition().expect("it is started"));
    tell(&store);
    for plan in plans {
        let Ok(answer) = store.deliver(plan) else {
            assert_eq!((store.edition(), store.table()), (None, None), "after a fault nothing may be told");
            assert_eq!(store.deliver(plan), Err(StoreFault::NotStarted), "after a fault nothing is delivered");
            return Err(Cut);
        };
        if answer.is_err() {
            refused(&store, plan);
        }
        tell(&store);
    }
    Ok(())
}

/// The crate's store over a part that is not mapped.
struct Copied;

impl Agent for Copied {
    fn run(&self, storage: &RefCell<Storage>, config: &Config, plans: &[&[u8]], acts: usize) -> Result<(), Cut> {
        let mark = storage.borrow().mark;
        let started = Store::start(config.clone(), slots_of(storage), Powered { storage, acts }, mark);
        deliver_all(started, storage, plans, |_, _| ())
    }
}

/// The crate's store over a part that is mapped, where a refused plan may have been worked on in the other slot.
struct InPlace;

impl Agent for InPlace {
    fn run(&self, storage: &RefCell<Storage>, config: &Config, plans: &[&[u8]], acts: usize) -> Result<(), Cut> {
        let mark = storage.borrow().mark;
        let mut mapped = slots_of(storage);
        let [first, second] = &mut mapped;
        let started = Store::start(config.clone(), [first, second], Mapped(Powered { storage, acts }), mark);
        let run = deliver_all(started, storage, plans, |store, plan| {
            let (Some(edition), Some(table)) = (store.edition(), store.table()) else { return };
            let slot = &mut storage.borrow_mut().slots[1 - edition as usize % 2];
            let mut worked = (*slot.words).clone();
            raw::beside_words(config, table, &mut worked, edition, plan);
            if worked != *slot.words {
                slot.fill(&worked);
            }
        });
        assert!(mapped == slots_of(storage), "no other word of the mapped slots is written");
        run
    }
}

/// What an agent does in turn. `Same` is the edition that it has, and `Next` the one after it.
#[derive(Clone, Copy)]
enum Act {
    Fill,
    MarkSame,
    MarkNext,
    Wait,
    TellSame,
    TellNext,
}
use Act::{Fill, MarkNext, MarkSame, TellNext, TellSame, Wait};

/// An agent as the lists of its acts: the right one, and wrong ones.
#[derive(Clone, Copy)]
struct Acts {
    start: &'static [Act],
    accepted: &'static [Act],
    refused: &'static [Act],
    /// In which slot the table of an edition is, and in which one the next is made.
    slot: fn(u32) -> usize,
    next_slot: fn(u32) -> usize,
}

const RIGHT: Acts = Acts {
    start: &[MarkSame, Wait, TellSame],
    accepted: &[Fill, Wait, MarkNext, Wait, TellNext],
    refused: &[TellSame],
    slot: |edition| edition as usize % 2,
    next_slot: |edition| 1 - edition as usize % 2,
};

impl Acts {
    fn do_all(&self, acts: &[Act], part: &mut Powered, edition: u32, next: &Table) -> Result<(), Cut> {
        for act in acts {
            match act {
                Fill => part.write_words((self.next_slot)(edition), next)?,
                MarkSame => part.write_mark(edition)?,
                MarkNext => part.write_mark(edition + 1)?,
                Wait => part.wait()?,
                TellSame => part.storage.borrow_mut().tell(edition),
                TellNext => part.storage.borrow_mut().tell(edition + 1),
            }
        }
        Ok(())
    }
}

impl Agent for Acts {
    fn run(&self, storage: &RefCell<Storage>, config: &Config, plans: &[&[u8]], acts: usize) -> Result<(), Cut> {
        let mut part = Powered { storage, acts };
        let mut edition = storage.borrow().mark;
        let mut next = Table::new();
        self.do_all(self.start, &mut part, edition, &next)?;
        for plan in plans {
            let slots = slots_of(storage);
            let (number, _) = raw::beside_words(config, &slots[(self.slot)(edition)], &mut next, edition, plan);
            let acts = if number == 0 { self.accepted } else { self.refused };
            self.do_all(acts, &mut part, edition, &next)?;
            edition = storage.borrow().mark;
        }
        Ok(())
    }

    fn slot_of(&self, edition: u32) -> usize {
        (self.slot)(edition)
    }
}

/// The planner's side: its tables by edition, the plan from each to the next but the last, and bytes that no terminal of its accepts.
struct World {
    config: Config,
    tables: Vec<Table>,
    plans: Vec<Vec<u8>>,
    refused: Vec<Vec<u8>>,
}

impl World {
    fn new() -> World {
        let config = Config::new(&[A, G], 1).expect("two regions");
        let mut state = State::new(config.clone());
        let steps = [
            vec![Request::add_zone(5), Request::insert(5, Side::Cpu, A)],
            vec![Request::insert(5, Side::Iommu, G)],
            vec![Request::remove(5, Side::Cpu, A)],
        ];
        let mut world = World { config, tables: vec![state.table.clone()], plans: Vec::new(), refused: vec![b"no plan".to_vec()] };
        world.refused.push(refused_at_last(&mut state));
        for requests in steps {
            let plan = state.plan(&requests).expect("the requests are accepted");
            assert!(state.apply(&plan).is_ok());
            world.plans.push(plan);
            world.tables.push(state.table.clone());
            world.refused.push(refused_at_last(&mut state));
        }
        world
    }

    /// What a terminal may be given between two cuts: nothing, a plan, or two.
    fn deliveries(&self) -> Vec<Vec<&[u8]>> {
        let all: Vec<&[u8]> = self.plans.iter().chain(&self.refused).map(Vec::as_slice).collect();
        let pairs = all.iter().flat_map(|first| all.iter().map(|second| vec![*first, *second]));
        [vec![]].into_iter().chain(all.iter().map(|one| vec![*one])).chain(pairs).collect()
    }

    /// What is wrong with a storage that a cut left.
    fn fault(&self, agent: &dyn Agent, storage: &Storage) -> Option<Fault> {
        let Storage { mark, told, .. } = *storage;
        if self.tables.get(mark as usize) != Some(&storage.slots[agent.slot_of(mark)].words) {
            return Some(Fault::Broken);
        }
        if told > Some(mark) {
            return Some(Fault::TakenBack);
        }
        let plan = self.plans.get(mark as usize)?;
        let (storage, next) = (RefCell::new(storage.clone()), mark + 1);
        let done = agent.run(&storage, &self.config, &[plan], usize::MAX);
        let storage = storage.into_inner();
        let has_next = *storage.slots[agent.slot_of(next)].words == self.tables[next as usize];
        (done.is_err() || (storage.mark, storage.told) != (next, Some(next)) || !has_next).then_some(Fault::Stuck)
    }
}

/// A plan for this state whose second request is none: it is refused after the first was made.
fn refused_at_last(state: &mut State) -> Vec<u8> {
    let mut plan = state.plan(&[Request::add_zone(7), Request::add_zone(8)]).expect("the requests are accepted");
    let last = plan.len() - 40;
    plan[last] = 0;
    plan
}

/// What can be wrong with a storage that a cut left.
#[derive(Debug, PartialEq, Eq)]
enum Fault {
    /// The mark names a table that is not the planner's of that edition.
    Broken,
    /// A higher edition was told than the one that is read.
    TakenBack,
    /// The next plan does not bring the next edition.
    Stuck,
}

/// What was visited: how many cuts left how many storages, in how many of them the mark wavers or the other slot holds no table of the planner's,
/// and the highest edition.
#[derive(Debug, Default)]
struct Visited {
    cuts: usize,
    storages: usize,
    wavering: usize,
    broken: usize,
    highest: u32,
}

/// Storages by what is in them; the words by a number for each that were seen.
#[derive(Default)]
struct Book {
    words: Vec<Box<Table>>,
    seen: HashSet<([(usize, bool); 2], u32, BTreeSet<u32>, Option<u32>)>,
}

impl Book {
    fn number_of(&mut self, words: &Table) -> usize {
        self.words.iter().position(|seen| **seen == *words).unwrap_or_else(|| {
            self.words.push(Box::new(words.clone()));
            self.words.len() - 1
        })
    }

    fn is_new(&mut self, storage: &Storage) -> bool {
        let slots = storage.slots.each_ref().map(|slot| (self.number_of(&slot.words), slot.lasts));
        self.seen.insert((slots, storage.mark, storage.wavers.clone(), storage.told))
    }
}

/// Visits all storages that an agent can come to, up to the first that is wrong.
fn visit(agent: &dyn Agent) -> Result<Visited, Fault> {
    let world = World::new();
    let deliveries = world.deliveries();
    let (mut book, mut visited) = (Book::default(), Visited::default());
    let mut open = vec![Storage::new(0)];
    book.is_new(&open[0]);
    while let Some(storage) = open.pop() {
        visited.storages += 1;
        visited.highest = visited.highest.max(storage.mark);
        visited.wavering += usize::from(!storage.wavers.is_empty());
        visited.broken += usize::from(storage.slots.iter().any(|slot| !world.tables.contains(&slot.words)));
        for plans in &deliveries {
            for acts in 0.. {
                let after = RefCell::new(storage.clone());
                let run = agent.run(&after, &world.config, plans, acts);
                for left in all_left(&after.into_inner()) {
                    visited.cuts += 1;
                    if book.is_new(&left) {
                        world.fault(agent, &left).map_or(Ok(()), Err)?;
                        open.push(left);
                    }
                }
                if run.is_ok() {
                    break;
                }
            }
        }
    }
    Ok(visited)
}

/// An agent that must come through, and what must have happened to it on the way.
fn comes_through(agent: &dyn Agent) {
    let visited = visit(agent).expect("nothing is wrong");
    println!("{visited:?}");
    let Visited { cuts, wavering, broken, highest, .. } = visited;
    assert!(cuts > 10_000 && wavering > 0 && broken > 0 && highest == 3, "too little was visited: {visited:?}");
}

/// An agent that must be seen to fail, and of what.
fn is_found_out(wrong: Acts, fault: Fault) {
    assert_eq!(visit(&wrong).expect_err("a wrong order of acts comes through"), fault);
}

#[test]
fn a_store_that_copies_comes_through() {
    comes_through(&Copied);
}

#[test]
fn a_mapped_store_comes_through() {
    comes_through(&InPlace);
}

#[test]
fn the_right_acts_come_through() {
    comes_through(&RIGHT);
    comes_through(&Acts { refused: &[Fill, TellSame], ..RIGHT });
}

#[test]
fn mark_written_before_the_slot_lasts() {
    is_found_out(Acts { accepted: &[Fill, MarkNext, Wait, TellNext], ..RIGHT }, Fault::Broken);
}

#[test]
fn answer_before_the_mark_lasts() {
    is_found_out(Acts { accepted: &[Fill, Wait, MarkNext, TellNext, Wait], ..RIGHT }, Fault::TakenBack);
}

#[test]
fn plan_applied_in_the_current_slot() {
    is_found_out(Acts { next_slot: RIGHT.slot, ..RIGHT }, Fault::Stuck);
}

#[test]
fn refused_plan_raises_the_mark() {
    is_found_out(Acts { refused: &[MarkNext, Wait, TellSame], ..RIGHT }, Fault::Broken);
}

#[test]
fn start_waits_for_a_mark_that_it_did_not_write() {
    is_found_out(Acts { start: &[Wait, TellSame], ..RIGHT }, Fault::TakenBack);
    is_found_out(Acts { start: &[Wait], refused: &[], ..RIGHT }, Fault::Broken);
}

#[test]
fn start_tells_before_the_mark_lasts() {
    is_found_out(Acts { start: &[MarkSame, TellSame, Wait], ..RIGHT }, Fault::TakenBack);
}

#[test]
fn one_slot_for_all_editions() {
    is_found_out(Acts { slot: |_| 0, next_slot: |_| 0, ..RIGHT }, Fault::Broken);
}

#[test]
fn plans_in_pieces_are_delivered_as_whole_ones() {
    let world = World::new();
    let (whole, pieces) = (RefCell::new(Storage::new(0)), RefCell::new(Storage::new(0)));
    let start = |storage| Store::start(world.config.clone(), slots_of(storage), Powered { storage, acts: usize::MAX }, 0);
    let (mut by_whole, mut by_pieces) = (start(&whole).expect("a start"), start(&pieces).expect("a start"));
    let (mut receiver, mut buffer) = (Receiver::new(), vec![0; LONGEST_PLAN]);
    for plan in world.refused.iter().chain(&world.plans).chain(&world.refused) {
        for piece in plan.chunks(7) {
            assert_eq!(receiver.take(&mut buffer, piece), Ok(()));
        }
        assert_eq!(by_pieces.end(&mut receiver, &buffer), by_whole.deliver(plan));
        assert_eq!((by_pieces.edition(), by_pieces.table()), (by_whole.edition(), by_whole.table()));
        assert_eq!(receiver, Receiver::new());
    }
    assert_eq!(by_pieces.edition(), Some(3));
    assert_eq!(by_pieces.end(&mut receiver, &[]), Ok(Err(PlanRefusal::BufferShort)));
}
