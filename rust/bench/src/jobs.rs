//! What is measured. Each job leaves what it works on as it found it, so that it can be done again at once: its plans and requests
//! end with the table that they began with, and only the edition is set back.

use std::hint::black_box;

use ordinary::limits::{MAX_REGIONS, MAX_REQUESTS, MAX_ZONES, PAGE};
use ordinary::{encode, Guest, PlanRefusal, Record, Region, Side, Zone};
use peatmitten::raw;

use crate::bank;
use crate::fixed::{self, Answer};

/// Who does a job.
#[derive(Clone, Copy, Debug, PartialEq, Eq)]
pub enum Worker {
    Library,
    /// `rust/ordinary`, whose vectors grow.
    Vectors,
    /// `fixed`, on the library's own memory.
    Fixed,
}

impl Worker {
    pub const ALL: [Worker; 3] = [Worker::Library, Worker::Vectors, Worker::Fixed];
}

pub type Work = Box<dyn FnMut() -> Answer>;

/// One job as each worker does it once, and what each must answer.
pub struct Job {
    pub name: String,
    pub answer: Answer,
    pub library: Work,
    pub vectors: Work,
    pub fixed: Work,
}

impl Job {
    /// Does the job so often. Stops the program if an answer is not the expected one.
    pub fn work(&mut self, worker: Worker, times: u32) {
        let work = match worker {
            Worker::Library => &mut self.library,
            Worker::Vectors => &mut self.vectors,
            Worker::Fixed => &mut self.fixed,
        };
        for _ in 0..times {
            assert_eq!(work(), self.answer, "{worker:?}: {}", self.name);
        }
    }
}

/// A terminal as each worker keeps it.
#[derive(Clone)]
pub struct Terminal {
    library: Box<peatmitten::State>,
    pub vectors: Box<ordinary::State>,
    fixed: Box<fixed::State>,
}

impl Terminal {
    /// So many configured regions of a page, the last of them the GIC's, dealt out to so many zones.
    pub fn new(regions: usize, zones: usize) -> Terminal {
        Terminal::with(pages(regions), zones)
    }

    /// Each region in both sets of its zone, and the GIC's first in every IOMMU set.
    fn with(config: ordinary::Config, zones: usize) -> Terminal {
        let gic = config.regions[config.gic];
        let own: Vec<Region> = config.regions.iter().copied().filter(|region| *region != gic).collect();
        let shares = own.chunks(own.len().div_ceil(zones)).zip(0..);
        let zones = shares.map(|(own, id)| Zone { id, cpu: own.to_vec(), iommu: [&[gic], own].concat() }).collect();
        Terminal::from(ordinary::State { config, table: ordinary::Table { zones }, edition: 0 })
    }

    fn from(state: ordinary::State) -> Terminal {
        let (config, table) = (state.config.to_words(), state.table.to_words());
        let fixed = fixed::State::from_words(&config, &table, state.edition);
        let library = peatmitten::State {
            config: peatmitten::Config::from_words(config),
            table: peatmitten::Table::from_words(table),
            edition: state.edition,
        };
        Terminal { library: Box::new(library), vectors: Box::new(state), fixed }
    }

    fn zones(&self) -> &[Zone] {
        &self.vectors.table.zones
    }
}

fn pages(count: usize) -> ordinary::Config {
    let page = |number: u64| Region::new(number * PAGE, number * PAGE, PAGE, 3);
    ordinary::Config { regions: (1..=count as u64).map(page).collect(), gic: count - 1 }
}

/// The same pages in no order: the steps have no common divisor with the count, which is a power of two.
pub fn scattered_pages(count: usize) -> ordinary::Config {
    let config = pages(count);
    let regions = (0..count).map(|place| config.regions[place * 37 % count]).collect();
    ordinary::Config { regions, ..config }
}

/// The region that stands last in a set of a zone: taken away and given back it stands there again.
fn last(zone: &Zone, side: Side) -> Region {
    let set = match side {
        Side::Cpu => &zone.cpu,
        Side::Iommu => &zone.iommu,
    };
    *set.last().expect("a region")
}

/// The last region of the last zone taken away and given back, over and over.
pub fn one_region(terminal: &Terminal, count: usize) -> Vec<Record> {
    let zone = terminal.zones().last().expect("a zone");
    let region = last(zone, Side::Cpu);
    [4, 3].into_iter().cycle().take(count).map(|kind| Record { kind, zone: zone.id, region }).collect()
}

/// In one zone after another, the last region of each set taken away and given back.
pub fn all_zones(terminal: &Terminal, count: usize) -> Vec<Record> {
    let of_zone = |zone: &Zone| {
        let record = |kind: u32, side: Side| Record { kind, zone: zone.id, region: last(zone, side) };
        [record(4, Side::Cpu), record(6, Side::Iommu), record(3, Side::Cpu), record(5, Side::Iommu)]
    };
    terminal.zones().iter().flat_map(of_zone).cycle().take(count).collect()
}

pub fn plan_answer(applied: Result<usize, PlanRefusal>) -> Answer {
    match applied {
        Ok(count) => (0, [count as u64, 0]),
        Err(refusal) => {
            let (place, inner) = refusal.found();
            (refusal.number(), [place as u64, inner.into()])
        }
    }
}

/// The whole job of a terminal that a plan comes to: its own state checked, the plan read and compared, its requests run.
fn apply(name: &str, terminal: Terminal, plan: Vec<u8>, answer: Answer) -> Job {
    let name = format!("{name} ({} bytes)", plan.len());
    let Terminal { mut library, mut vectors, mut fixed } = terminal;
    let edition = vectors.edition;
    let plans = [plan.clone(), plan.clone(), plan];
    let [to_library, to_vectors, to_fixed] = plans;
    Job {
        name,
        answer,
        library: Box::new(move || {
            library.edition = edition;
            raw::apply(black_box(&mut library), black_box(&to_library))
        }),
        vectors: Box::new(move || {
            vectors.edition = edition;
            plan_answer(black_box(&mut vectors).apply(black_box(&to_vectors)))
        }),
        fixed: Box::new(move || {
            fixed.edition = edition;
            black_box(&mut fixed).apply(black_box(&to_fixed))
        }),
    }
}

fn accepted(name: &str, terminal: Terminal, requests: &[Record]) -> Job {
    let plan = encode(&terminal.vectors, requests);
    apply(&format!("{name}: {} requests", requests.len()), terminal, plan, (0, [requests.len() as u64, 0]))
}

/// The same plan applied beside the table, as for a state in storage: the next table lies in another slot, and the terminal is only read. Ordinary
/// Rust does it on a copy.
fn beside(name: &str, terminal: Terminal, requests: &[Record]) -> Job {
    let plan = encode(&terminal.vectors, requests);
    let plans = [plan.clone(), plan.clone(), plan];
    let [to_library, to_vectors, to_fixed] = plans;
    let Terminal { library, vectors, fixed } = terminal;
    let (mut other, mut next, mut copied) = (library.table.clone(), vectors.clone(), fixed.clone());
    Job {
        name: format!("{name}: {} requests ({} bytes)", requests.len(), to_library.len()),
        answer: (0, [requests.len() as u64, 0]),
        library: Box::new(move || {
            let peatmitten::State { config, table, edition } = black_box(&*library);
            let (number, [_, place, inner]) =
                raw::beside_words(config, table, black_box(&mut other), *edition, black_box(&to_library));
            (number, [place, inner])
        }),
        vectors: Box::new(move || {
            next.clone_from(black_box(&vectors));
            plan_answer(black_box(&mut next).apply(black_box(&to_vectors)))
        }),
        fixed: Box::new(move || {
            copied.clone_from(black_box(&fixed));
            black_box(&mut copied).apply(black_box(&to_fixed))
        }),
    }
}

/// A plan whose last request is none: all others are undone.
fn refused_at_last(name: &str, terminal: Terminal, mut requests: Vec<Record>) -> Job {
    let index = requests.len() - 1;
    requests[index].kind = 9;
    let plan = encode(&terminal.vectors, &requests);
    apply(&format!("27 at the last request, {name}: {} requests", requests.len()), terminal, plan, (27, [index as u64, 3]))
}

/// A plan that came before: refused by its edition.
fn repeated(name: &str, mut terminal: Terminal, requests: &[Record]) -> Job {
    let plan = encode(&terminal.vectors, requests);
    terminal.vectors.edition = 1;
    apply(&format!("24, a repeated plan, {name}"), Terminal::from(*terminal.vectors), plan, (24, [0, 0]))
}

/// A plan whose base has one region more, in the set that stands last.
fn for_other_zones(name: &str, mut terminal: Terminal, requests: &[Record]) -> Job {
    let plan = encode(&terminal.vectors, requests);
    terminal.vectors.table.zones.last_mut().expect("a zone").iommu.pop();
    apply(&format!("26, a plan for other zones, {name}"), Terminal::from(*terminal.vectors), plan, (26, [0, 0]))
}

/// Two requests from outside, each of which checks the configuration and the table.
fn two_requests(name: &str, terminal: Terminal) -> Job {
    let records = one_region(&terminal, 2);
    let numbers: Vec<_> = records.iter().map(|record| (record.kind, record.zone, record.region.numbers())).collect();
    let requests: Vec<_> = records.iter().map(fixed_request).collect();
    let Terminal { mut library, mut vectors, mut fixed } = terminal;
    Job {
        name: format!("two requests from outside, {name}"),
        answer: (0, [0, 0]),
        library: Box::new(move || {
            let state = black_box(&mut *library);
            let answers = black_box(&numbers)
                .iter()
                .map(|&(kind, zone, region)| raw::request(&state.config, &mut state.table, kind, zone, region));
            (answers.sum(), [0, 0])
        }),
        vectors: Box::new(move || {
            let state = black_box(&mut *vectors);
            let answers = black_box(&records).iter().map(|record| match state.table.request(&state.config, record) {
                Ok(()) => 0,
                Err(refusal) => refusal.number(),
            });
            (answers.sum(), [0, 0])
        }),
        fixed: Box::new(move || {
            let state = black_box(&mut *fixed);
            let answers = black_box(&requests).iter().map(|request| state.table.request(&state.config, request).err().unwrap_or(0));
            (answers.sum(), [0, 0])
        }),
    }
}

pub fn fixed_request(record: &Record) -> fixed::Request {
    fixed::Request { kind: record.kind, zone: record.zone, region: fixed::Region::from_numbers(record.region.numbers()) }
}

fn check_config(name: &str, config: ordinary::Config, answer: Answer) -> Job {
    let Terminal { library, vectors, fixed } = Terminal::with(config, 1);
    Job {
        name: format!("configuration check, {name}"),
        answer,
        library: Box::new(move || raw::check_config(&black_box(&library).config)),
        vectors: Box::new(move || match black_box(&vectors).config.check() {
            Ok(()) => (0, [0, 0]),
            Err(fault) => (fault.number(), fault.places().map(|place| place as u64)),
        }),
        fixed: Box::new(move || black_box(&fixed).config.check().err().unwrap_or((0, [0, 0]))),
    }
}

fn sound_config(name: &str, config: ordinary::Config) -> Job {
    check_config(name, config, (0, [0, 0]))
}

/// C6 at the last position, which overlaps the one before it.
fn last_overlaps(name: &str, mut config: ordinary::Config) -> Job {
    let last = config.regions.len() - 1;
    config.regions[last] = config.regions[last - 1];
    check_config(&format!("{name} scattered, C6 at the last"), config, (6, [last as u64, last as u64 - 1]))
}

/// Configuration and table, as the library's table check has it.
fn check_table(name: &str, terminal: Terminal) -> Job {
    let Terminal { library, vectors, fixed } = terminal;
    Job {
        name: format!("table check, {name}"),
        answer: (1, [0, 0]),
        library: Box::new(move || {
            let state = black_box(&*library);
            (raw::check_table(&state.config, &state.table), [0, 0])
        }),
        vectors: Box::new(move || {
            let state = black_box(&*vectors);
            (state.table.is_sound(&state.config).into(), [0, 0])
        }),
        fixed: Box::new(move || {
            let state = black_box(&*fixed);
            (state.table.check(&state.config).is_ok().into(), [0, 0])
        }),
    }
}

fn translate(name: &str, terminal: Terminal) -> Job {
    let zone = terminal.zones().last().expect("a zone");
    let (id, region) = (zone.id, last(zone, Side::Cpu));
    let address = region.v.0 + 5;
    let Terminal { library, vectors, fixed } = terminal;
    Job {
        name: format!("translation, {name}"),
        answer: (0, [region.p.0 + 5, region.size - 5]),
        library: Box::new(move || {
            let state = black_box(&*library);
            raw::translate_words(&state.config, &state.table, id, 0, black_box(address))
        }),
        vectors: Box::new(move || {
            let state = black_box(&*vectors);
            match state.table.translate(&state.config, id, Side::Cpu, Guest(black_box(address))) {
                Ok(found) => (0, [found.physical.0, found.remaining]),
                Err(refusal) => (refusal.number(), [0, 0]),
            }
        }),
        fixed: Box::new(move || {
            let state = black_box(&*fixed);
            match state.table.translate(&state.config, id, fixed::Side::Cpu, black_box(address)) {
                Ok(found) => (0, found),
                Err(number) => (number, [0, 0]),
            }
        }),
    }
}

/// The list from one table to another under one configuration, into a buffer that is long enough.
fn list(name: &str, terminal: Terminal, wanted: ordinary::Table) -> Job {
    let state = ordinary::State { table: wanted, ..(*terminal.vectors).clone() };
    let Terminal { library: wanted_by_library, vectors: wanted_by_vectors, fixed: wanted_by_fixed } = Terminal::from(state);
    let Terminal { library, vectors, fixed } = terminal;
    let count = vectors.table.requests_to(&vectors.config, &wanted_by_vectors.table).expect("a list").len();
    let buffers = [(); 3].map(|()| vec![0; MAX_REQUESTS * ordinary::layout::REQUEST_BYTES]);
    let [mut of_library, mut of_vectors, mut of_fixed] = buffers;
    Job {
        name: format!("list from two tables, {name}: {count} requests"),
        answer: (0, [count as u64, 0]),
        library: Box::new(move || {
            let state = black_box(&*library);
            let (number, count) =
                raw::list_words(&state.config, &state.table, &black_box(&wanted_by_library).table, black_box(&mut of_library));
            (number, [count, 0])
        }),
        vectors: Box::new(move || {
            let state = black_box(&*vectors);
            match state.table.write_requests_to(&state.config, &black_box(&wanted_by_vectors).table, black_box(&mut of_vectors)) {
                Ok(count) => (0, [count as u64, 0]),
                Err(refusal) => (refusal.number(), [0, 0]),
            }
        }),
        fixed: Box::new(move || {
            let state = black_box(&*fixed);
            match state.table.list_to(&state.config, &black_box(&wanted_by_fixed).table, black_box(&mut of_fixed)) {
                Ok(count) => (0, [count as u64, 0]),
                Err(number) => (number, [0, 0]),
            }
        }),
    }
}

/// The same zones in which the first `count` are known under other ids: all that they hold goes and comes again.
fn under_other_ids(terminal: &Terminal, count: usize) -> ordinary::Table {
    let mut zones = terminal.zones().to_vec();
    zones.iter_mut().take(count).for_each(|zone| zone.id += 100);
    ordinary::Table { zones }
}

/// A plan read and not applied.
fn read(name: &str, terminal: Terminal, requests: &[Record]) -> Job {
    let plan = encode(&terminal.vectors, requests);
    let requests_at = plan.len() - requests.len() * ordinary::layout::REQUEST_BYTES;
    let plans = [plan.clone(), plan.clone(), plan];
    let [to_library, to_vectors, to_fixed] = plans;
    Job {
        name: format!("a plan read, {name} ({} bytes)", to_library.len()),
        answer: (0, [requests_at as u64, 0]),
        library: Box::new(move || {
            let (number, place) = raw::read(black_box(&to_library));
            (number, [place, 0])
        }),
        vectors: Box::new(move || match ordinary::Plan::read(black_box(&to_vectors)) {
            Ok(plan) => (0, [plan.requests_at as u64, 0]),
            Err(fault) => (fault.number(), [fault.offset() as u64, 0]),
        }),
        fixed: Box::new(move || match fixed::Plan::read(black_box(&to_fixed)) {
            Ok(plan) => (0, [plan.requests_at as u64, 0]),
            Err((number, at)) => (number, [at as u64, 0]),
        }),
    }
}

/// Every job. A full terminal has all that a sound table can have, which is less than the format can.
pub fn all() -> Vec<Job> {
    let full = Terminal::new(MAX_REGIONS, MAX_ZONES);
    let large = Terminal::new(64, 8);
    let typical = Terminal::new(16, 4);
    let small = Terminal::new(4, 2);
    let full_name = format!("{MAX_REGIONS} regions, {MAX_ZONES} zones");
    let mut jobs = vec![
        accepted(&format!("request 14's plan, {full_name}"), full.clone(), &all_zones(&full, 512)),
        accepted(&format!("as many requests in one zone, {full_name}"), full.clone(), &one_region(&full, MAX_REQUESTS)),
        accepted("large plan, 64 regions, 8 zones", large.clone(), &one_region(&large, 64)),
        accepted("typical plan, 16 regions, 4 zones", typical.clone(), &one_region(&typical, 16)),
        accepted("small plan, 4 regions, 2 zones", small.clone(), &one_region(&small, 2)),
        beside(&format!("request 14's plan beside the table, {full_name}"), full.clone(), &all_zones(&full, 512)),
        beside("small plan beside the table, 4 regions, 2 zones", small.clone(), &one_region(&small, 2)),
        refused_at_last(&full_name, full.clone(), all_zones(&full, 512)),
        refused_at_last("64 regions, 8 zones", large.clone(), one_region(&large, 64)),
        refused_at_last("4 regions, 2 zones", small.clone(), one_region(&small, 2)),
        repeated(&full_name, full.clone(), &all_zones(&full, 512)),
        repeated("16 regions, 4 zones", typical.clone(), &one_region(&typical, 16)),
        repeated("4 regions, 2 zones", small.clone(), &one_region(&small, 2)),
        for_other_zones(&full_name, full.clone(), &all_zones(&full, 512)),
        for_other_zones("16 regions, 4 zones", typical.clone(), &one_region(&typical, 16)),
        for_other_zones("4 regions, 2 zones", small.clone(), &one_region(&small, 2)),
        two_requests(&full_name, full.clone()),
        two_requests("4 regions, 2 zones", small.clone()),
        sound_config("4 regions in order", pages(4)),
        sound_config("16 regions in order", pages(16)),
        sound_config("64 regions in order", pages(64)),
        sound_config(&format!("{MAX_REGIONS} regions in order"), pages(MAX_REGIONS)),
        sound_config("16 regions scattered", scattered_pages(16)),
        sound_config("64 regions scattered", scattered_pages(64)),
        sound_config(&format!("{MAX_REGIONS} regions scattered"), scattered_pages(MAX_REGIONS)),
        last_overlaps("16 regions", scattered_pages(16)),
        last_overlaps("64 regions", scattered_pages(64)),
        last_overlaps(&format!("{MAX_REGIONS} regions"), scattered_pages(MAX_REGIONS)),
        check_table(&full_name, full.clone()),
        check_table("4 regions, 2 zones", small.clone()),
        translate(&full_name, full.clone()),
        translate("4 regions, 2 zones", small.clone()),
        list(&format!("14 zones under other ids, {full_name}"), full.clone(), under_other_ids(&full, 14)),
        list(&format!("the same, {full_name}"), full.clone(), under_other_ids(&full, 0)),
        list("a zone under another id, 16 regions, 4 zones", typical.clone(), under_other_ids(&typical, 1)),
        list("a zone under another id, 4 regions, 2 zones", small.clone(), under_other_ids(&small, 1)),
        read(&full_name, full.clone(), &all_zones(&full, 512)),
        read("16 regions, 4 zones", typical.clone(), &one_region(&typical, 16)),
        read("4 regions, 2 zones", small.clone(), &one_region(&small, 2)),
    ];
    jobs.extend(bank::jobs());
    jobs
}

#[cfg(test)]
mod tests {
    use super::*;

    /// Each worker answers as the job expects, and so all three the same, and leaves its terminal ready for the next time.
    #[test]
    fn all_workers_agree_and_every_job_can_be_done_twice() {
        for mut job in all() {
            for worker in Worker::ALL {
                job.work(worker, 2);
            }
        }
    }

    #[test]
    fn names_differ() {
        let names: std::collections::BTreeSet<String> = all().into_iter().map(|job| job.name).collect();
        assert_eq!(names.len(), all().len());
    }

    #[test]
    fn a_full_terminal_has_as_much_as_a_sound_table_allows() {
        let full = Terminal::new(MAX_REGIONS, MAX_ZONES);
        let held: usize = full.zones().iter().map(|zone| zone.cpu.len() + zone.iommu.len()).sum();
        assert_eq!((full.zones().len(), held), (MAX_ZONES, 2 * (MAX_REGIONS - 1) + MAX_ZONES));
    }

    #[test]
    fn scattered_pages_are_all_pages() {
        let mut scattered = scattered_pages(MAX_REGIONS).regions;
        assert_ne!(scattered, pages(MAX_REGIONS).regions);
        scattered.sort_by_key(|region| region.p.0);
        assert_eq!(scattered, pages(MAX_REGIONS).regions);
    }
}
