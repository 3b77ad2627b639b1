//! What is measured of terminals with owners.

use std::hint::black_box;

use ordinary::bank::{encode, Config, Plan, GIC_OWNER};
use ordinary::layout::REQUEST_BYTES;
use ordinary::limits::{MAX_REGIONS, MAX_ZONES};
use ordinary::Record;
use peatmitten::raw::bank as raw;

use crate::fixed::{self, bank::OwnedPlan, Answer};
use crate::jobs::{self, all_zones, fixed_request, one_region, plan_answer, scattered_pages, Job};

/// A terminal as each worker keeps it.
#[derive(Clone)]
struct Terminal {
    library: Box<peatmitten::bank::State>,
    vectors: Box<ordinary::bank::State>,
    fixed: Box<fixed::bank::State>,
}

impl Terminal {
    /// The first machine's, where each region belongs to the zone that holds it, and any that nobody holds to zone 0.
    fn new(state: ordinary::State) -> Terminal {
        let ordinary::State { config, table, edition } = state;
        let owner = |region: &ordinary::Region| table.zones.iter().find(|zone| zone.cpu.contains(region)).map_or(0, |zone| zone.id);
        let mut owners: Vec<u32> = config.regions.iter().map(owner).collect();
        owners[config.gic] = GIC_OWNER;
        Terminal::from(ordinary::bank::State { config: Config { plain: config, owners }, table, edition })
    }

    fn from(state: ordinary::bank::State) -> Terminal {
        let (config, owners) = (state.config.plain.to_words(), state.config.owner_words());
        let table = state.table.to_words();
        let fixed = fixed::bank::State::from_words(fixed::State::from_words(&config, &table, state.edition), &owners);
        let library = peatmitten::bank::State {
            config: peatmitten::bank::Config::from_parts(peatmitten::Config::from_words(config), owners),
            table: peatmitten::Table::from_words(table),
            edition: state.edition,
        };
        Terminal { library: Box::new(library), vectors: Box::new(state), fixed }
    }
}

/// The whole job of a terminal that a plan comes to.
fn apply(name: &str, terminal: Terminal, requests: &[Record], answer: Answer) -> Job {
    let plan = encode(&terminal.vectors, requests);
    let name = format!("with owners: {name}: {} requests ({} bytes)", requests.len(), plan.len());
    let Terminal { mut library, mut vectors, mut fixed } = terminal;
    let edition = vectors.edition;
    let [to_library, to_vectors, to_fixed] = [plan.clone(), plan.clone(), plan];
    Job {
        name,
        answer,
        library: Box::new(move || {
            library.edition = edition;
            let peatmitten::bank::State { config, table, edition } = black_box(&mut *library);
            raw::apply_words(config.plain(), config.owners(), table, edition, black_box(&to_library))
        }),
        vectors: Box::new(move || {
            vectors.edition = edition;
            plan_answer(black_box(&mut vectors).apply(black_box(&to_vectors)))
        }),
        fixed: Box::new(move || {
            fixed.edition = edition;
            black_box(&mut fixed).apply(black_box(&to_fixed))
        }),
    }
}

fn accepted(name: &str, terminal: Terminal, requests: &[Record]) -> Job {
    apply(name, terminal, requests, (0, [requests.len() as u64, 0]))
}

/// A plan whose last request asks for what another zone owns: all others are undone.
fn stranger_at_last(name: &str, terminal: Terminal, mut requests: Vec<Record>) -> Job {
    let last = requests.len() - 1;
    let zone = &terminal.vectors.table.zones[0];
    requests[last] = Record { kind: 3, zone: requests[last].zone, region: zone.cpu[0] };
    apply(&format!("27 with 11 at the last request, {name}"), terminal, &requests, (27, [last as u64, 11]))
}

/// Two requests from outside, each of which checks the configuration and the table.
fn two_requests(name: &str, terminal: Terminal, records: Vec<Record>) -> Job {
    let numbers: Vec<_> = records.iter().map(|record| (record.kind, record.zone, record.region.numbers())).collect();
    let requests: Vec<_> = records.iter().map(fixed_request).collect();
    let Terminal { mut library, mut vectors, mut fixed } = terminal;
    Job {
        name: format!("with owners: two requests from outside, {name}"),
        answer: (0, [0, 0]),
        library: Box::new(move || {
            let peatmitten::bank::State { config, table, .. } = black_box(&mut *library);
            let answers = black_box(&numbers)
                .iter()
                .map(|(kind, zone, region)| raw::request(config.plain(), config.owners(), table, *kind, *zone, region));
            (answers.sum(), [0, 0])
        }),
        vectors: Box::new(move || {
            let state = black_box(&mut *vectors);
            let answers = black_box(&records).iter().map(|record| match state.config.request(&mut state.table, record) {
                Ok(()) => 0,
                Err(refusal) => refusal.number(),
            });
            (answers.sum(), [0, 0])
        }),
        fixed: Box::new(move || {
            let state = black_box(&mut *fixed);
            (black_box(&requests).iter().map(|request| state.request(request).err().unwrap_or(0)).sum(), [0, 0])
        }),
    }
}

fn check_config(name: &str, terminal: Terminal, answer: Answer) -> Job {
    let Terminal { library, vectors, fixed } = terminal;
    Job {
        name: format!("with owners: configuration check, {name}"),
        answer,
        library: Box::new(move || {
            let config = &black_box(&*library).config;
            raw::check_config(config.plain(), config.owners())
        }),
        vectors: Box::new(move || match black_box(&vectors).config.check() {
            Ok(()) => (0, [0, 0]),
            Err(fault) => (fault.number(), fault.places().map(|place| place as u64)),
        }),
        fixed: Box::new(move || black_box(&fixed).check_config().err().unwrap_or((0, [0, 0]))),
    }
}

/// C7 at the last position that is not the GIC's.
fn last_owner_wrong(name: &str, terminal: Terminal) -> Job {
    let mut state = *terminal.vectors;
    let last = (0..state.config.owners.len()).rfind(|&place| place != state.config.plain.gic).expect("a region");
    state.config.owners[last] = 256;
    check_config(&format!("{name}, C7 at the last"), Terminal::from(state), (7, [last as u64, 0]))
}

/// Configuration and table, as the library's table check has it.
fn check_table(name: &str, terminal: Terminal) -> Job {
    let Terminal { library, vectors, fixed } = terminal;
    Job {
        name: format!("with owners: table check, {name}"),
        answer: (1, [0, 0]),
        library: Box::new(move || {
            let state = black_box(&*library);
            (raw::check_table(state.config.plain(), state.config.owners(), &state.table), [0, 0])
        }),
        vectors: Box::new(move || {
            let state = black_box(&*vectors);
            (state.config.check_table(&state.table).is_ok().into(), [0, 0])
        }),
        fixed: Box::new(move || (black_box(&fixed).check_table().is_ok().into(), [0, 0])),
    }
}

/// A plan read and not applied.
fn read(name: &str, terminal: Terminal, requests: &[Record]) -> Job {
    let plan = encode(&terminal.vectors, requests);
    let requests_at = plan.len() - requests.len() * REQUEST_BYTES;
    let [to_library, to_vectors, to_fixed] = [plan.clone(), plan.clone(), plan];
    Job {
        name: format!("with owners: a plan read, {name} ({} bytes)", to_library.len()),
        answer: (0, [requests_at as u64, 0]),
        library: Box::new(move || {
            let (number, place) = raw::read(black_box(&to_library));
            (number, [place, 0])
        }),
        vectors: Box::new(move || match Plan::read(black_box(&to_vectors)) {
            Ok(plan) => (0, [plan.requests_at as u64, 0]),
            Err(fault) => (fault.number(), [fault.offset() as u64, 0]),
        }),
        fixed: Box::new(move || match OwnedPlan::read(black_box(&to_fixed)) {
            Ok(plan) => (0, [plan.requests_at() as u64, 0]),
            Err((number, at)) => (number, [at as u64, 0]),
        }),
    }
}

/// Every job of terminals with owners.
pub fn jobs() -> Vec<Job> {
    let plain = [(MAX_REGIONS, MAX_ZONES), (16, 4), (4, 2)].map(|(regions, zones)| jobs::Terminal::new(regions, zones));
    let [full, typical, small] = plain.each_ref().map(|terminal| Terminal::new((*terminal.vectors).clone()));
    let [plain_full, plain_typical, plain_small] = plain;
    let full_name = format!("{MAX_REGIONS} regions, {MAX_ZONES} zones");
    let scattered = ordinary::State { config: scattered_pages(MAX_REGIONS), table: ordinary::Table::default(), edition: 0 };
    let plan = all_zones(&plain_full, 512);
    vec![
        accepted(&format!("request 14's plan, {full_name}"), full.clone(), &plan),
        accepted("typical plan, 16 regions, 4 zones", typical.clone(), &one_region(&plain_typical, 16)),
        accepted("small plan, 4 regions, 2 zones", small.clone(), &one_region(&plain_small, 2)),
        stranger_at_last(&full_name, full.clone(), plan.clone()),
        two_requests(&full_name, full.clone(), one_region(&plain_full, 2)),
        check_config(&format!("{MAX_REGIONS} regions in order"), full.clone(), (0, [0, 0])),
        check_config(&format!("{MAX_REGIONS} regions scattered"), Terminal::new(scattered), (0, [0, 0])),
        last_owner_wrong(&format!("{MAX_REGIONS} regions in order"), full.clone()),
        check_table(&full_name, full.clone()),
        check_table("4 regions, 2 zones", small.clone()),
        read(&full_name, full, &plan),
        read("4 regions, 2 zones", small, &one_region(&plain_small, 2)),
    ]
}
