//! Cases on both sides of every boundary. They are the same in every run and reach every number.

use cases::Case;
use ordinary::layout::{
    config_record, set_count, set_record, zone_id, CONFIG_COUNT, CONFIG_GIC, LONGEST_LISTING, LONGEST_LOG, LONGEST_PLAN,
    REQUEST_BYTES, TABLE_COUNT,
};
use ordinary::limits::{GUEST_REACH, MAX_IN_SET, MAX_REGIONS, MAX_REQUESTS, MAX_ZONES, PAGE, PHYS_REACH};
use ordinary::{
    encode, encode_log, encode_zones, true_claims, Config, ConfigWords, Record, Region, Rights, Side, State, Table, TableWords,
    Zone, CONFIG_WORDS, TABLE_WORDS,
};

use crate::random::{EDGES, EDITIONS};

const A: Region = Region::new(0x4000_0000, 0x8000_0000, 0x20_0000, 3);
const B: Region = Region::new(0x4000_0000, 0x8020_0000, 0x20_0000, 3);
const C: Region = Region::new(0x4010_0000, 0x9000_0000, 0x20_0000, 3);
const G: Region = Region::new(0x0800_0000, 0x0800_0000, 0x1_0000, 3);

/// All cases, in parts: of all at once the words would take a gigabyte.
pub const PARTS: [fn() -> Vec<Case>; 22] = [
    config_cases,
    table_cases,
    request_cases,
    translate_cases,
    edition_cases,
    whole_plans,
    cut_plans,
    plans_with_edges,
    plans_for_others,
    refused_plans,
    unsound_terminals,
    plans_in_pieces,
    plans_written,
    zones_written,
    bases_found,
    stretches,
    lists_between_tables,
    tables_listed,
    true_logs,
    false_claims,
    damaged_logs,
    logs_at_limits,
];

fn zone(id: u32, cpu: &[Region], iommu: &[Region]) -> Zone {
    Zone { id, cpu: cpu.to_vec(), iommu: iommu.to_vec() }
}

fn record(kind: u32, zone: u32, region: Region) -> Record {
    Record { kind, zone, region }
}

/// The document's desk, with what zones 5 and 6 hold.
fn desk(zones: &[Zone]) -> State {
    State { config: Config { regions: vec![A, B, C, G], gic: 3 }, table: Table { zones: zones.to_vec() }, edition: 0 }
}

/// So many regions of a page each, one after the other, the last of them the GIC's.
fn pages(count: u64) -> Config {
    let regions = (1..=count).map(|page| Region::new(page * PAGE, page * PAGE, PAGE, 3)).collect();
    Config { regions, gic: count as usize - 1 }
}

/// So many configured regions, in as many zones as there can be, each as often as a sound table can have it.
fn all_held(count: usize) -> State {
    let config = pages(count as u64);
    let (gic, others) = config.regions.split_last().expect("a region");
    let shares = others.chunks(others.len().div_ceil(MAX_ZONES));
    let zones = shares.zip(0..).map(|(own, id)| zone(id, own, &[own, &[*gic]].concat())).collect();
    State { config, table: Table { zones }, edition: 0 }
}

/// One zone with so many regions in both sets, another that holds a region, and a region that has guest addresses of the first zone's.
fn sets_of(count: usize) -> State {
    let mut config = pages(20);
    config.regions.push(Region::new(PAGE, 40 * PAGE, PAGE, 3));
    let held = &config.regions[..count];
    let zones = vec![zone(255, held, held), zone(0, &config.regions[16..17], &[])];
    State { config, table: Table { zones }, edition: 0 }
}

/// So many zones, among which 6 is not.
fn table_of(count: usize) -> State {
    let ids = [0, 5, 7, 8, 9, 10, 255, 254].into_iter().chain(11..);
    desk(&ids.take(count).map(Zone::empty).collect::<Vec<_>>())
}

/// The GIC, and a region that zone 5 holds on both sides.
fn beside_the_gic(region: Region) -> State {
    let config = Config { regions: vec![G, region], gic: 0 };
    State { config, table: Table { zones: vec![zone(5, &[region], &[region])] }, edition: 0 }
}

/// A region of each rights, and the GIC with all; what a zone may hold of them, zone 5 holds.
fn of_each_rights() -> State {
    let regions: Vec<Region> = (1..=7).map(|rights| Region::new(rights * PAGE, rights * PAGE, PAGE, rights)).collect();
    let held = zone(5, &regions[..5], &regions[..3]);
    let config = Config { regions: [&[Region { rights: Rights(7), ..G }], &regions[..]].concat(), gic: 0 };
    State { config, table: Table { zones: vec![held, Zone::empty(6)] }, edition: 0 }
}

/// The states that the cases are made from. All are sound.
pub fn states() -> Vec<State> {
    vec![
        State { config: Config { regions: vec![G], gic: 0 }, ..desk(&[]) },
        desk(&[zone(5, &[], &[]), zone(6, &[], &[])]),
        desk(&[zone(5, &[], &[G]), zone(6, &[], &[])]),
        desk(&[zone(5, &[A], &[A, G]), zone(6, &[B], &[G])]),
        desk(&[zone(6, &[C], &[]), zone(5, &[], &[B])]),
        all_held(MAX_REGIONS - 1),
        all_held(MAX_REGIONS),
        sets_of(MAX_IN_SET - 1),
        sets_of(MAX_IN_SET),
        table_of(MAX_ZONES - 1),
        table_of(MAX_ZONES),
        beside_the_gic(Region::new(GUEST_REACH - PAGE, PHYS_REACH - PAGE, PAGE, 3)),
        of_each_rights(),
    ]
}

/// Regions on both sides of form and reach, and with too many rights.
fn edge_regions() -> Vec<Region> {
    let mut regions = vec![
        Region::ZERO,
        Region { size: 0, ..A },
        Region { size: 0x1800, ..A },
        Region { size: 0x1000, ..A },
        Region::new(0, PAGE.wrapping_neg(), 2 * PAGE, 3),
        Region::new(PAGE.wrapping_neg(), 0, 2 * PAGE, 3),
        Region::new(0, 0, GUEST_REACH, 3),
        Region::new(0, 0, GUEST_REACH + PAGE, 3),
    ];
    regions.extend(EDGES.map(|rights| Region { rights: Rights(rights), ..A }));
    for start in EDGES {
        for size in [PAGE, PAGE.wrapping_neg()] {
            regions.push(Region::new(start, 0, size, 3));
            regions.push(Region::new(0, start, size, 3));
        }
    }
    regions
}

/// The words with each of the given ones set to each edge in turn.
fn with_edges<const N: usize>(words: [u64; N], places: &[usize]) -> Vec<[u64; N]> {
    let change = |&at: &usize| {
        EDGES.map(|edge| {
            let mut changed = words;
            changed[at] = edge;
            changed
        })
    };
    places.iter().flat_map(change).collect()
}

fn all_configs() -> Vec<ConfigWords> {
    let mut configs: Vec<ConfigWords> = states().iter().map(|state| state.config.to_words()).collect();
    for config in configs.clone() {
        let first = config_record(0);
        let places = [CONFIG_COUNT, CONFIG_GIC, first, first + 1, first + 2, first + 3, CONFIG_WORDS - 1];
        configs.extend(with_edges(config, &places));
    }
    for region in edge_regions() {
        configs.push(Config { regions: vec![G, region], gic: 0 }.to_words());
        configs.push(Config { regions: vec![region, G], gic: 1 }.to_words());
    }
    configs.push(Config { regions: vec![G, A, Region { p: A.p, ..C }, B], gic: 0 }.to_words());
    configs.push(Config { regions: vec![B, A, Region::new(0, A.p.0 - PAGE, 0x100_0000, 3)], gic: 0 }.to_words());
    configs
}

fn config_cases() -> Vec<Case> {
    all_configs().into_iter().map(Case::config).collect()
}

/// Tables of the desk that each break one clause.
fn broken_tables() -> Vec<TableWords> {
    [
        vec![zone(256, &[], &[])],
        vec![zone(5, &[], &[]), zone(5, &[], &[])],
        vec![zone(0, &[], &[]), zone(0, &[], &[])],
        vec![zone(5, &[A, A], &[])],
        vec![zone(5, &[A, B], &[])],
        vec![zone(5, &[A, C], &[])],
        vec![zone(5, &[], &[G, G])],
        vec![zone(5, &[G], &[])],
        vec![zone(5, &[A], &[]), zone(6, &[A], &[])],
        vec![zone(5, &[A], &[]), zone(6, &[], &[A])],
        vec![zone(5, &[], &[A]), zone(6, &[A], &[])],
        vec![zone(5, &[], &[A]), zone(6, &[], &[A])],
        vec![zone(5, &[Region { size: 0x1000, ..A }], &[])],
        vec![zone(5, &[Region { rights: Rights(1), ..A }], &[])],
        vec![zone(5, &[Region::ZERO], &[])],
        vec![zone(5, &[], &[Region { v: A.v, ..G }])],
    ]
    .into_iter()
    .map(|zones| Table { zones }.to_words())
    .collect()
}

fn table_cases() -> Vec<Case> {
    let mut cases = Vec::new();
    let (cpu, iommu) = (set_count(0, Side::Cpu), set_count(0, Side::Iommu));
    let (first, last) = (set_record(0, Side::Cpu, 0), iommu - 1);
    let places = [TABLE_COUNT, zone_id(0), cpu, first, first + 3, last, iommu, zone_id(1), zone_id(MAX_ZONES - 1), TABLE_WORDS - 1];
    for state in states() {
        let (config, table) = (state.config.to_words(), state.table.to_words());
        cases.push(Case::table(config, table));
        cases.push(Case::table([0; CONFIG_WORDS], table));
        cases.extend(with_edges(table, &places).into_iter().map(|table| Case::table(config, table)));
    }
    let config = desk(&[]).config.to_words();
    cases.extend(broken_tables().into_iter().map(|table| Case::table(config, table)));
    for state in edge_regions().into_iter().map(beside_the_gic) {
        cases.push(Case::table(state.config.to_words(), state.table.to_words()));
    }
    cases
}

/// Requests of every kind for zones that are there and that are not, with regions of the desk and of the configuration.
fn requests(state: &State) -> Vec<Record> {
    let mut regions = vec![Region::ZERO, A, B, C, G];
    let step = (state.config.regions.len() / 16).max(1);
    regions.extend(state.config.regions.iter().step_by(step));
    let mut requests = Vec::new();
    for kind in 1..=6 {
        for id in [0, 5, 6, 255] {
            requests.extend(regions.iter().map(|&region| record(kind, id, region)));
        }
    }
    requests
}

/// Requests in which one number is at an edge.
fn edge_requests() -> Vec<Record> {
    let mut requests = Vec::new();
    for region in edge_regions() {
        requests.extend([1, 3, 4, 5].map(|kind| record(kind, 5, region)));
    }
    for edge in EDGES.map(|edge| edge as u32) {
        requests.extend([1, 2, 3, 6].map(|kind| record(kind, edge, Region::ZERO)));
        requests.extend([5, 256].map(|id| record(edge, id, A)));
    }
    for high in [1 << 8, 1 << 16, 1 << 31] {
        requests.extend((1..=6).map(|kind| record(high | kind, 5, A)));
        requests.extend((1..=6).map(|kind| record(high | kind, 9, Region::ZERO)));
    }
    requests
}

fn request_cases() -> Vec<Case> {
    let mut cases = Vec::new();
    for state in states() {
        let (config, table) = (state.config.to_words(), state.table.to_words());
        cases.extend(requests(&state).into_iter().map(|record| Case::request(config, table, record)));
    }
    let desk = desk(&[zone(5, &[], &[]), zone(6, &[], &[])]);
    let (config, table) = (desk.config.to_words(), desk.table.to_words());
    cases.extend(edge_requests().into_iter().map(|record| Case::request(config, table, record)));
    let add = record(1, 9, Region::ZERO);
    cases.extend(broken_tables().into_iter().map(|table| Case::request(config, table, add)));
    cases.extend(broken_tables().into_iter().map(|table| Case::request([0; CONFIG_WORDS], table, add)));
    cases
}

fn translate_cases() -> Vec<Case> {
    let mut cases = Vec::new();
    let mut addresses = EDGES.to_vec();
    for region in [A, B, C, G] {
        let end = region.v.0 + region.size;
        addresses.extend([region.v.0 - 1, region.v.0, region.v.0 + 1, end - 1, end]);
    }
    for state in states() {
        let (config, table) = (state.config.to_words(), state.table.to_words());
        for id in [0, 5, 255, 256] {
            for side in [0, 2] {
                cases.extend(addresses.iter().map(|&address| Case::translate(config, table, id, side, address)));
            }
        }
    }
    let config = desk(&[]).config.to_words();
    cases.extend(broken_tables().into_iter().map(|table| Case::translate(config, table, 5, 0, 0)));
    cases.push(Case::translate([0; CONFIG_WORDS], [0; TABLE_WORDS], 5, 0, 0));
    cases
}

/// Plans for editions at which something changes: cut at every length, and with each of the first five fields set to each edge in turn.
fn edition_cases() -> Vec<Case> {
    let mut plans = Vec::new();
    for edition in EDITIONS {
        let plan = encode(&State { edition, ..desk(&[]) }, &[]);
        plans.extend((0..=plan.len()).map(|length| plan[..length].to_vec()));
        for at in [0, 4, 8, 12, 16] {
            for edge in EDGES {
                let mut changed = plan.clone();
                changed[at..at + 4].copy_from_slice(&(edge as u32).to_le_bytes());
                plans.push(changed);
            }
        }
    }
    plans.into_iter().map(Case::base_edition).collect()
}

/// Reading these bytes, and applying them to this state.
fn both(state: &State, plan: &[u8]) -> [Case; 2] {
    let apply = Case::apply(state.config.to_words(), state.table.to_words(), state.edition, plan.to_vec());
    [Case::read(plan.to_vec()), apply]
}

/// Plans with as few and as many of everything as there can be, and with one more.
fn whole_plans() -> Vec<Case> {
    let add_and_remove = |count: usize| -> Vec<Record> {
        [1, 2].into_iter().cycle().map(|kind| record(kind, 9, Region::ZERO)).take(count).collect()
    };
    let state = desk(&[zone(5, &[A], &[A, G])]);
    let mut cases = Vec::new();
    for count in [0, 1, 2, MAX_REQUESTS - 1, MAX_REQUESTS, MAX_REQUESTS + 1] {
        cases.extend(both(&state, &encode(&state, &add_and_remove(count))));
    }
    for state in states() {
        cases.extend(both(&state, &encode(&state, &[])));
    }
    for edition in EDITIONS {
        let state = State { edition, ..state.clone() };
        cases.extend(both(&state, &encode(&state, &add_and_remove(1))));
    }
    let most = (MAX_REGIONS, MAX_ZONES, MAX_IN_SET);
    for (regions, zones, in_set) in [
        most,
        (MAX_REGIONS + 1, most.1, most.2),
        (most.0, MAX_ZONES + 1, most.2),
        (most.0, most.1, MAX_IN_SET + 1),
        (0, 0, 0),
        (1, 0, 0),
    ] {
        let zones = vec![zone(0, &vec![A; in_set], &vec![A; in_set]); zones];
        let base = State { config: Config { regions: vec![A; regions], gic: 0 }, table: Table { zones }, edition: 0 };
        let plan = encode(&base, &add_and_remove(MAX_REQUESTS));
        cases.extend(both(&state, &plan));
        cases.extend(both(&state, &[&plan[..], &[0]].concat()));
    }
    cases
}

/// A plan cut at every length, and made longer.
fn cut_plans() -> Vec<Case> {
    let state = desk(&[zone(5, &[A], &[A, G]), zone(6, &[], &[])]);
    let plan = encode(&state, &[record(3, 6, B), record(1, 7, Region::ZERO)]);
    let mut cases: Vec<Case> = (0..plan.len()).flat_map(|length| both(&state, &plan[..length])).collect();
    for more in [1, 31, 32, 33] {
        cases.extend(both(&state, &[&plan[..], &vec![0; more]].concat()));
    }
    cases
}

/// A plan with each of its fields of four bytes set to each edge in turn.
fn plans_with_edges() -> Vec<Case> {
    let state = desk(&[zone(5, &[A], &[G])]);
    let plan = encode(&state, &[record(5, 5, A)]);
    let mut cases = Vec::new();
    for at in (0..plan.len()).step_by(4) {
        for edge in EDGES {
            let mut changed = plan.clone();
            changed[at..at + 4].copy_from_slice(&(edge as u32).to_le_bytes());
            cases.push(Case::apply(state.config.to_words(), state.table.to_words(), state.edition, changed));
        }
    }
    cases
}

/// Every state's plan at every other state, and at other editions.
fn plans_for_others() -> Vec<Case> {
    let mut cases = Vec::new();
    for base in states() {
        for edition in [0, 1] {
            let plan = encode(&State { edition, ..base.clone() }, &[]);
            cases.extend(states().iter().flat_map(|state| both(state, &plan)));
        }
    }
    for base in EDITIONS {
        for edition in EDITIONS {
            let [base, state] = [base, edition].map(|edition| State { edition, ..desk(&[zone(5, &[], &[])]) });
            let other_zones = State { edition, ..desk(&[]) };
            cases.extend(both(&state, &encode(&base, &[record(1, 5, Region::ZERO)])));
            cases.extend(both(&other_zones, &encode(&base, &[])));
        }
    }
    cases
}

/// Plans of a request that may be accepted, the same again, and one that never is.
fn refused_plans() -> Vec<Case> {
    let mut cases = Vec::new();
    for state in states() {
        for request in requests(&state).into_iter().chain(edge_requests().into_iter().step_by(7)) {
            let plan = encode(&state, &[request, request, record(0, 0, Region::ZERO)]);
            cases.push(Case::apply(state.config.to_words(), state.table.to_words(), state.edition, plan));
        }
    }
    cases
}

/// Terminals that are unsound themselves, which comes before anything in the plan.
fn unsound_terminals() -> Vec<Case> {
    let state = desk(&[]);
    let plan = encode(&state, &[]);
    let config = state.config.to_words();
    let mut cases = Vec::new();
    for bytes in [&plan[..], &plan[..5], &[]] {
        cases.extend(broken_tables().into_iter().map(|table| Case::apply(config, table, 0, bytes.to_vec())));
        cases.push(Case::apply([0; CONFIG_WORDS], [u64::MAX; TABLE_WORDS], 0, bytes.to_vec()));
    }
    cases
}

/// Plans that end at, before and behind the longest plan's length, cut on either side of it and of their fields, with buffers and receivers on
/// either side too.
fn plans_in_pieces() -> Vec<Case> {
    let state = desk(&[zone(5, &[A], &[A, G])]);
    let (config, table) = (state.config.to_words(), state.table.to_words());
    let plan = encode(&state, &[record(3, 5, B), record(1, 7, Region::ZERO)]);
    let longest = longest_plan();
    let mut plans =
        vec![Vec::new(), plan.clone(), encode(&state, &[record(1, 7, Region::ZERO)]), longest[..LONGEST_PLAN - 1].to_vec()];
    for more in [0, 1, 2, 5000] {
        plans.push([&longest[..], &vec![0xff; more]].concat());
        plans.push([&plan[..], &vec![0xff; LONGEST_PLAN - plan.len() + more]].concat());
    }
    // A mark or a count that is out of range, behind which more comes than the longest plan has.
    plans.extend([12, 16].map(|count| [&plan[..count], &vec![0xff; LONGEST_PLAN]].concat()));
    let cuts: [&[usize]; 8] = [
        &[],
        &[0, 0],
        &[1, 1, 1, 1, 1, 0],
        &[4, 4, 4],
        &[3, 6, 11, 24],
        &[LONGEST_PLAN - 1, 1],
        &[LONGEST_PLAN, 1],
        &[LONGEST_PLAN - 1, 2, 0, 7],
    ];
    let most = LONGEST_PLAN as u64;
    let mut cases = Vec::new();
    for plan in &plans {
        let apply = Case::apply(config, table, state.edition, plan.clone());
        for cut in cuts {
            for room in [0, LONGEST_PLAN - 1, LONGEST_PLAN, LONGEST_PLAN + 1, LONGEST_PLAN + 100] {
                cases.push(Case::pieces(apply.clone(), [0, 0], cut.to_vec(), vec![0xa5; room]));
            }
        }
        for receiver in
            [[1, 0], [most - 1, 0], [most, 0], [most + 1, 0], [u64::MAX, 0], [0, 1], [most, 1], [most - 1, 2], [7, u64::MAX]]
        {
            cases.push(Case::pieces(apply.clone(), receiver, vec![2], [&longest[..], &[0xa5; 3]].concat()));
        }
    }
    let broken = broken_tables().into_iter().map(|table| Case::apply(config, table, 0, plan.clone()));
    cases.extend(broken.map(|apply| Case::pieces(apply, [0, 0], vec![9], vec![0; LONGEST_PLAN])));
    // For another edition, for the last one, and for other zones.
    let last = State { edition: u32::MAX, ..state.clone() };
    for (edition, base) in [(0, State { edition: 1, ..state.clone() }), (u32::MAX, last), (0, desk(&[]))] {
        let apply = Case::apply(config, table, edition, encode(&base, &[]));
        cases.push(Case::pieces(apply, [0, 0], vec![9], vec![0; LONGEST_PLAN]));
    }
    let apply = Case::apply([0; CONFIG_WORDS], [u64::MAX; TABLE_WORDS], 0, plan);
    cases.extend([LONGEST_PLAN - 1, LONGEST_PLAN].map(|room| Case::pieces(apply.clone(), [0, 0], vec![9], vec![0; room])));
    cases
}

/// The records of requests, as a plan has them.
fn records(requests: &[Record]) -> Vec<u8> {
    let plan = encode(&desk(&[]), requests);
    plan[plan.len() - requests.len() * REQUEST_BYTES..].to_vec()
}

/// All that a state holds taken out, from the front or from the back, and its zones with it.
fn emptying(state: &State, from_the_back: bool) -> Vec<Record> {
    let mut requests = Vec::new();
    let mut zones: Vec<&Zone> = state.table.zones.iter().collect();
    if from_the_back {
        zones.reverse();
    }
    for zone in zones {
        for (kind, set) in [(4, &zone.cpu), (6, &zone.iommu)] {
            let mut held = set.clone();
            if from_the_back {
                held.reverse();
            }
            requests.extend(held.into_iter().map(|region| record(kind, zone.id, region)));
        }
        requests.push(record(2, zone.id, Region::ZERO));
    }
    requests
}

/// The writer at every state: requests that are accepted, refused first or last, none at all, too many, cut; buffers on every side of the
/// plan's length; states that are unsound or at the last edition. Whatever is tried, the table must be afterwards what it was.
fn plans_written() -> Vec<Case> {
    let refused = record(0, 0, Region::ZERO);
    let mut cases = Vec::new();
    let mut add = |state: &State, requests: Vec<u8>| {
        let (config, table) = (state.config.to_words(), state.table.to_words());
        let most = Case::write(config, table, state.edition, requests, vec![0xa5; LONGEST_PLAN + 9]);
        let length = most.ordinary().places[0] as usize;
        for room in [0, 1, length.saturating_sub(1), length, length + 1, length + 40] {
            cases.push(Case { buffer: vec![0xa5; room], ..most.clone() });
        }
        cases.push(most);
    };
    for state in states() {
        let mut lists: Vec<Vec<Record>> = requests(&state).into_iter().step_by(11).map(|request| vec![request]).collect();
        lists.push(Vec::new());
        for from_the_back in [false, true] {
            let emptied = emptying(&state, from_the_back);
            lists.push(emptied.iter().copied().chain([refused]).collect());
            lists.push(emptied.iter().copied().chain([record(1, 9, Region::ZERO), record(1, 9, Region::ZERO)]).collect());
            lists.push(emptied);
        }
        for list in &lists {
            add(&state, records(list));
            add(&state, records(&[&list[..], &[refused]].concat()));
        }
        add(&State { edition: u32::MAX, ..state.clone() }, records(&[refused]));
        add(&State { edition: u32::MAX - 1, ..state.clone() }, records(&[record(1, 77, Region::ZERO)]));
    }
    let state = desk(&[zone(5, &[A], &[A, G])]);
    let there_and_back = [record(1, 9, Region::ZERO), record(2, 9, Region::ZERO)].repeat(MAX_REQUESTS);
    for count in [1, 2, MAX_REQUESTS - 1, MAX_REQUESTS, MAX_REQUESTS + 1, 2 * MAX_REQUESTS] {
        add(&state, records(&there_and_back[..count]));
        add(&state, records(&[&there_and_back[..count - 1], &[refused]].concat()));
    }
    let two = records(&[record(1, 9, Region::ZERO), record(3, 9, B)]);
    for length in 0..=two.len() {
        add(&state, two[..length].to_vec());
    }
    let (config, table) = (state.config.to_words(), state.table.to_words());
    let length = encode(&state, &[record(1, 9, Region::ZERO)]).len();
    let asked = records(&[record(1, 9, Region::ZERO)]);
    cases.extend((0..length + 3).map(|room| Case::write(config, table, 7, asked.clone(), vec![0x5a; room])));
    cases.extend(broken_tables().into_iter().map(|table| Case::write(config, table, u32::MAX, asked.clone(), vec![9; 100])));
    cases.push(Case::write([0; CONFIG_WORDS], [u64::MAX; TABLE_WORDS], 0, asked, vec![9; 100]));
    cases
}

/// The zones of every state, into buffers of every length about their section's; and of states that are unsound.
fn zones_written() -> Vec<Case> {
    let mut cases = Vec::new();
    for state in states() {
        let (config, table) = (state.config.to_words(), state.table.to_words());
        let length = encode_zones(&state.table).len();
        let mut rooms = vec![0, 1, 3, 4, 5, length + 40, LONGEST_PLAN];
        rooms.extend(length.saturating_sub(9)..length + 9);
        cases.extend(rooms.into_iter().map(|room| Case::zones(config, table, vec![0xa5; room])));
    }
    let state = desk(&[zone(5, &[A], &[A, G])]);
    let (config, table) = (state.config.to_words(), state.table.to_words());
    cases.extend((0..encode_zones(&state.table).len() + 3).map(|room| Case::zones(config, table, vec![0x5a; room])));
    for room in [0, 500] {
        cases.extend(broken_tables().into_iter().map(|table| Case::zones(config, table, vec![9; room])));
        cases.push(Case::zones([0; CONFIG_WORDS], [u64::MAX; TABLE_WORDS], vec![9; room]));
        cases.push(Case::zones([0; CONFIG_WORDS], table, vec![9; room]));
    }
    cases
}

/// Where the zones section of a plan stands: of all that is read elsewhere too.
fn bases_found() -> Vec<Case> {
    let plans = [whole_plans(), cut_plans(), plans_with_edges(), plans_for_others()].concat();
    plans.into_iter().map(|case| Case::base(case.plan)).collect()
}

/// Stretches that are equal, that differ at each single byte, of which one begins the other, and that are empty.
fn stretches() -> Vec<Case> {
    let section = encode_zones(&desk(&[zone(5, &[A], &[A, G]), zone(6, &[], &[B])]).table);
    let mut cases = vec![Case::lacking(section.clone(), section.clone()), Case::lacking(Vec::new(), Vec::new())];
    for at in 0..section.len() {
        for change in [1, 0x80, 0xff] {
            let mut other = section.clone();
            other[at] ^= change;
            cases.push(Case::lacking(section.clone(), other));
        }
        cases.push(Case::lacking(section.clone(), section[..at].to_vec()));
        cases.push(Case::lacking(section[..at].to_vec(), section.clone()));
    }
    let others: Vec<Vec<u8>> = states().iter().map(|state| encode_zones(&state.table)).collect();
    for first in &others {
        cases.extend(others.iter().map(|second| Case::lacking(first.clone(), second.clone())));
    }
    let few: Vec<Vec<u8>> = (0..40u8).map(|bits| (0..bits % 5).map(|at| bits >> at & 1).collect()).collect();
    for first in &few {
        cases.extend(few.iter().map(|second| Case::lacking(first.clone(), second.clone())));
    }
    cases
}

/// From every state to every other table under its configuration and to others that are made of it, there and back, with buffers around the
/// list's length; and lists as long as a plan may have, one request more, and as long as there can be.
fn lists_between_tables() -> Vec<Case> {
    let mut cases = Vec::new();
    let mut add = |config: &Config, from: &Table, to: &Table| {
        let most = Case::list(config.to_words(), from.to_words(), &to.to_words(), vec![0xa5; MAX_REQUESTS * REQUEST_BYTES + 9]);
        let length = most.ordinary().places[0] as usize * REQUEST_BYTES;
        for room in [0, length.saturating_sub(1), length, length + 1] {
            cases.push(Case { buffer: vec![0xa5; room], ..most.clone() });
        }
        cases.push(most);
    };
    let states = states();
    for state in &states {
        let of_its_own = states.iter().filter(|other| other.config == state.config).map(|other| other.table.clone());
        for other in of_its_own.chain(neighbours(&state.table)) {
            add(&state.config, &state.table, &other);
            add(&state.config, &other, &state.table);
        }
    }
    for long in [MAX_REQUESTS - 1, MAX_REQUESTS, MAX_REQUESTS + 1] {
        let (config, from, to) = so_far_apart(long);
        add(&config, &from, &to);
        add(&config, &to, &from);
    }
    let full = all_held(MAX_REGIONS);
    let mut turned = full.table.clone();
    turned.zones.iter_mut().for_each(|zone| zone.id += MAX_ZONES as u32);
    add(&full.config, &full.table, &turned);
    let state = desk(&[zone(5, &[A], &[A, G]), zone(6, &[B], &[])]);
    let (config, table) = (state.config.to_words(), state.table.to_words());
    let wanted = desk(&[zone(6, &[C], &[G])]).table.to_words();
    cases.extend((0..=6 * REQUEST_BYTES + 3).map(|room| Case::list(config, table, &wanted, vec![0x5a; room])));
    for broken in broken_tables() {
        cases.push(Case::list(config, broken, &wanted, vec![9; 300]));
        cases.push(Case::list(config, table, &broken, vec![9; 300]));
        cases.push(Case::list([0; CONFIG_WORDS], table, &broken, vec![9; 300]));
    }
    cases
}

/// Tables like this one: without zones, the same, with its zones or their sets turned round, without its last zone, with one region less in a
/// set of its first or last zone; and where it has two zones, with those two exchanged, or with a region of the last moved to the first.
fn neighbours(table: &Table) -> Vec<Table> {
    let mut tables = vec![Table { zones: Vec::new() }, table.clone()];
    let mut change = |of: &dyn Fn(&mut Vec<Zone>)| {
        let mut zones = table.zones.clone();
        of(&mut zones);
        tables.push(Table { zones });
    };
    change(&|zones| zones.reverse());
    change(&|zones| {
        for zone in zones {
            zone.cpu.reverse();
            zone.iommu.reverse();
        }
    });
    let Some(last) = table.zones.len().checked_sub(1) else { return tables };
    change(&|zones| zones.truncate(last));
    for at in [0, last] {
        change(&|zones| {
            zones[at].cpu.pop();
        });
        change(&|zones| {
            zones[at].iommu.pop();
        });
    }
    if last > 0 {
        change(&|zones| (zones[0].id, zones[last].id) = (zones[last].id, zones[0].id));
        change(&|zones| {
            let moved = zones[last].cpu.pop();
            zones[last].iommu.retain(|region| Some(*region) != moved);
            zones[0].iommu.extend(moved);
        });
    }
    tables
}

/// Two tables so many requests apart: all regions in the zones of one, and the same in zones with other ids, some of them the same.
fn so_far_apart(requests: usize) -> (Config, Table, Table) {
    let full = all_held(MAX_REGIONS);
    let mut to = full.table.clone();
    let mut left = requests;
    for zone in &mut to.zones {
        // A zone under another id goes and comes with all that it holds; else regions go from its set.
        let under_another_id = 2 * (zone.cpu.len() + zone.iommu.len() + 1);
        if left >= under_another_id {
            zone.id += MAX_ZONES as u32;
            left -= under_another_id;
        } else {
            let gone = left.min(zone.cpu.len());
            zone.cpu.truncate(zone.cpu.len() - gone);
            left -= gone;
        }
    }
    assert_eq!(left, 0, "there are zones enough");
    (full.config, full.table, to)
}

/// The listing at every state, into buffers on every side of its length; at shifts of every length, either sign and each edge; at tables that
/// are broken, with and without room.
fn tables_listed() -> Vec<Case> {
    let mut cases = Vec::new();
    let mut add = |config: ConfigWords, table: TableWords| {
        let most = Case::listing(config, table, vec![0xa5; LONGEST_LISTING + 9]);
        let length = most.ordinary().places[0] as usize;
        for room in [0, 1, length.saturating_sub(1), length, length + 1, length + 40, LONGEST_LISTING] {
            cases.push(Case { buffer: vec![0xa5; room], ..most.clone() });
        }
        cases.push(most);
    };
    for state in states() {
        add(state.config.to_words(), state.table.to_words());
    }
    for shifted in shifts() {
        add(shifted.config.to_words(), shifted.table.to_words());
    }
    let state = desk(&[zone(5, &[A], &[A, G])]);
    let (config, table) = (state.config.to_words(), state.table.to_words());
    for table in broken_tables() {
        add(config, table);
        add([0; CONFIG_WORDS], table);
    }
    add([0; CONFIG_WORDS], [u64::MAX; TABLE_WORDS]);
    let length = state.table.listing().len();
    cases.extend((0..length + 3).map(|room| Case::listing(config, table, vec![0x5a; room])));
    cases
}

/// Zones with ids of every width, each with one region whose physical start lies so many pages above or below its guest start: each power of
/// ten and each edge, with a page on either side.
fn shifts() -> Vec<State> {
    let highest = PHYS_REACH / PAGE - 1;
    let lowest = GUEST_REACH / PAGE - 1;
    let tens = (0..=10).map(|power| 10u64.pow(power));
    let edges: Vec<u64> = tens.chain([0, lowest, highest]).flat_map(|pages| [pages.saturating_sub(1), pages, pages + 1]).collect();
    let above = edges.iter().filter(|&&pages| pages <= highest).map(|&pages| Region::new(0, pages * PAGE, PAGE, 1));
    let below = edges.iter().filter(|&&pages| pages <= lowest).map(|&pages| Region::new(pages * PAGE, 0, PAGE, 5));
    let gic = Region::new(0, 4096 * PAGE, PAGE, 2);
    let states = above.chain(below).zip([0, 9, 10, 99, 100, 255].into_iter().cycle());
    let states = states.filter(|(region, _)| region.p != gic.p);
    states
        .map(|(region, id)| State {
            config: Config { regions: vec![region, gic], gic: 1 },
            table: Table { zones: vec![zone(id, &[region], &[gic])] },
            edition: 0,
        })
        .collect()
}

/// The log of a terminal that answers by the rules.
fn honest_log(base: &State, requests: &[Record]) -> Vec<u8> {
    encode_log(base, requests, &true_claims(&base.config, &base.table, requests))
}

/// The check of a log, with words that are no configuration and no table as room to work in.
fn log_case(log: Vec<u8>, room: usize) -> Case {
    Case::log([u64::MAX; CONFIG_WORDS], [0x5a; TABLE_WORDS], log, vec![0xa5; room])
}

/// Requests of a state some at a time, of which many are refused.
fn requests_in_turn(state: &State) -> Vec<Vec<Record>> {
    let some: Vec<Record> = requests(state).into_iter().step_by(3).collect();
    some.chunks(24).map(<[Record]>::to_vec).collect()
}

/// Logs whose claims all hold, at every state, into buffers on every side of the end zones' length: of requests of which many are refused, of all
/// that takes the zones apart, and of none; also at the last edition, and with other words as room to work in.
fn true_logs() -> Vec<Case> {
    let mut cases = Vec::new();
    for state in states() {
        let mut lists = requests_in_turn(&state);
        lists.extend([emptying(&state, false), emptying(&state, true), Vec::new()]);
        for requests in lists {
            let most = log_case(honest_log(&state, &requests), LONGEST_PLAN);
            let length = most.ordinary().places[0] as usize;
            for room in [0, 1, 3, 4, length - 1, length, length + 1, length + 40] {
                cases.push(Case { buffer: vec![0xa5; room], ..most.clone() });
            }
        }
        let last = State { edition: u32::MAX, ..state.clone() };
        let log = honest_log(&last, &[record(1, 77, Region::ZERO), record(1, 77, Region::ZERO)]);
        cases.push(log_case(log.clone(), LONGEST_PLAN));
        cases.push(Case::log([0; CONFIG_WORDS], [0; TABLE_WORDS], log.clone(), vec![0; LONGEST_PLAN]));
        cases.push(Case::log(state.config.to_words(), state.table.to_words(), log, vec![0; LONGEST_PLAN]));
    }
    let log = honest_log(&desk(&[zone(5, &[A], &[])]), &[record(3, 5, A), record(5, 5, G), record(1, 6, Region::ZERO)]);
    let length = log_case(log.clone(), LONGEST_PLAN).ordinary().places[0] as usize;
    cases.extend((0..length + 3).map(|room| log_case(log.clone(), room)));
    cases
}

/// Each claim falsified in turn, at every state and of requests with numbers at edges: a refusal where the rules accept, and where they refuse
/// either none or another, with and without room for the end zones; and each edge claimed of one that is accepted and of one that is refused.
fn false_claims() -> Vec<Case> {
    let mut cases = Vec::new();
    let mut falsify = |base: &State, requests: &[Record]| {
        let claims = true_claims(&base.config, &base.table, requests);
        for (index, right) in claims.iter().enumerate() {
            let mut wrong = claims.clone();
            wrong[index] = match (right, index % 3) {
                (0, _) => 1 + index as u32 % 30,
                (_, 0) => 0,
                (_, 1) => right + 1,
                _ => right ^ 1 << (index % 32),
            };
            let room = if index % 2 == 0 { 0 } else { LONGEST_PLAN };
            cases.push(log_case(encode_log(base, requests, &wrong), room));
        }
    };
    for state in states() {
        requests_in_turn(&state).iter().for_each(|requests| falsify(&state, requests));
    }
    let state = desk(&[zone(5, &[], &[]), zone(6, &[], &[])]);
    edge_requests().chunks(16).for_each(|requests| falsify(&state, requests));
    let taken_apart = desk(&[zone(5, &[A], &[A, G]), zone(6, &[B], &[G])]);
    falsify(&taken_apart, &emptying(&taken_apart, true));
    let requests = [record(1, 9, Region::ZERO), record(1, 9, Region::ZERO), record(3, 9, A)];
    for (index, edge) in [0, 1, 2].into_iter().flat_map(|index| EDGES.map(|edge| (index, edge as u32))) {
        let mut claims = [0, 5, 0];
        claims[index] = edge;
        cases.push(log_case(encode_log(&state, &requests, &claims), 300));
    }
    cases
}

/// A log cut at every length and made longer; with each of its fields of four bytes, marks, counts and claims among them, set to each edge; with
/// other counts of claims, all of them there; and from zones and configurations that are unsound, with and without room, with claims that hold
/// nowhere.
fn damaged_logs() -> Vec<Case> {
    let state = desk(&[zone(5, &[A], &[G])]);
    let requests = [record(5, 5, A), record(5, 5, A)];
    let log = honest_log(&state, &requests);
    let mut cases: Vec<Case> = (0..log.len()).map(|length| log_case(log[..length].to_vec(), 300)).collect();
    for more in [1, 3, 4, 5, 40, LONGEST_LOG] {
        cases.push(log_case([&log[..], &vec![0; more]].concat(), 300));
    }
    for at in (0..log.len()).step_by(4) {
        for edge in EDGES {
            let mut changed = log.clone();
            changed[at..at + 4].copy_from_slice(&(edge as u32).to_le_bytes());
            cases.push(log_case(changed, 300));
        }
    }
    for claims in 0..8 {
        for asked in 0..4 {
            let add = vec![record(1, 9, Region::ZERO); asked];
            let claimed = [&[0][..], &[5; 7]].concat();
            cases.push(log_case(encode_log(&state, &add, &claimed[..claims]), 300));
        }
    }
    for room in [0, 300] {
        for table in broken_tables().iter().filter_map(Table::from_words) {
            let base = State { table, ..state.clone() };
            cases.push(log_case(encode_log(&base, &requests, &[77, 77]), room));
            cases.push(log_case(honest_log(&base, &[]), room));
            let both = State { config: Config { gic: 9, ..base.config.clone() }, ..base };
            cases.push(log_case(honest_log(&both, &[]), room));
        }
        for base in edge_regions().into_iter().map(beside_the_gic) {
            cases.push(log_case(encode_log(&base, &[record(1, 9, Region::ZERO)], &[0]), room));
        }
    }
    cases
}

/// Logs with as few and as many of everything as there can be, and with one more; and logs as plans, and plans as logs.
fn logs_at_limits() -> Vec<Case> {
    let mut cases = Vec::new();
    let state = desk(&[zone(5, &[A], &[A, G])]);
    let there_and_back = [record(1, 9, Region::ZERO), record(2, 9, Region::ZERO)].repeat(MAX_REQUESTS);
    for count in [0, 1, 2, MAX_REQUESTS - 1, MAX_REQUESTS, MAX_REQUESTS + 1] {
        let (log, mut last_false) = (honest_log(&state, &there_and_back[..count]), vec![0; count]);
        cases.extend([0, 200].map(|room| log_case(log.clone(), room)));
        if let Some(last) = last_false.last_mut() {
            *last = 17;
        }
        cases.push(log_case(encode_log(&state, &there_and_back[..count], &last_false), 200));
    }
    let full = all_held(MAX_REGIONS);
    let emptied = emptying(&full, false);
    cases.push(log_case(honest_log(&full, &emptied[..emptied.len().min(MAX_REQUESTS)]), LONGEST_PLAN));
    cases.push(log_case(honest_log(&full, &[record(1, 99, Region::ZERO); MAX_REQUESTS]), LONGEST_PLAN));
    let longest = longest_log();
    for length in LONGEST_LOG - 9..=LONGEST_LOG + 3 {
        let mut log = longest.clone();
        log.resize(length, 0);
        cases.push(log_case(log, 0));
    }
    for plan in [whole_plans(), cut_plans(), plans_for_others()].concat() {
        cases.push(log_case(plan.plan, 100));
    }
    cases.extend(states().iter().map(|state| Case::read(honest_log(state, &emptied[..9]))));
    cases
}

/// A plan's contents with as many of everything as there can be.
fn most_of_all() -> (State, [Record; MAX_REQUESTS]) {
    let zones = vec![zone(0, &[A; MAX_IN_SET], &[A; MAX_IN_SET]); MAX_ZONES];
    let base = State { config: Config { regions: vec![A; MAX_REGIONS], gic: 0 }, table: Table { zones }, edition: 0 };
    (base, [record(1, 9, Region::ZERO); MAX_REQUESTS])
}

fn longest_plan() -> Vec<u8> {
    let (base, requests) = most_of_all();
    encode(&base, &requests)
}

fn longest_log() -> Vec<u8> {
    let (base, requests) = most_of_all();
    encode_log(&base, &requests, &[0; MAX_REQUESTS])
}

#[cfg(test)]
mod tests {
    use super::*;

    #[test]
    fn the_states_are_sound() {
        assert!(states().iter().all(|state| state.table.is_sound(&state.config)));
    }

    #[test]
    fn the_longest_plan_and_the_longest_log_are_as_long_as_they_can_be() {
        assert_eq!(longest_plan().len(), LONGEST_PLAN);
        assert_eq!(longest_log().len(), LONGEST_LOG);
    }
}
