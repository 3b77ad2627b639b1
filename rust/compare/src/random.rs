//! Random cases, most of them near the line between what is accepted and what is refused.

use cases::rng::Rng;
use cases::Case;
use ordinary::layout::{LONGEST_LISTING, LONGEST_PLAN, REQUEST_BYTES};
use ordinary::limits::{GUEST_REACH, MAX_IN_SET, MAX_REGIONS, MAX_REQUESTS, MAX_ZONES, PAGE, PHYS_REACH};
use ordinary::{
    base_zones, encode, encode_log, encode_zones, true_claims, Config, ConfigWords, Plan, Record, Region, Rights, State, Table,
    TableWords, Zone, CONFIG_WORDS, TABLE_WORDS,
};

use crate::damage::{damage_bytes, damage_words};

// The most zones and regions before request 4 of document 02.
const OLD_ZONES: u64 = 8;
const OLD_REGIONS: u64 = 64;

/// The place of the rights among a region's numbers.
const RIGHTS: usize = 3;

/// Numbers at which something changes or changed, or just beside.
pub const EDGES: [u64; 45] = [
    0,
    1,
    2,
    3,
    4,
    5,
    6,
    7,
    MAX_ZONES as u64 - 1,
    MAX_ZONES as u64,
    MAX_ZONES as u64 + 1,
    MAX_IN_SET as u64 - 1,
    MAX_IN_SET as u64,
    MAX_IN_SET as u64 + 1,
    MAX_REGIONS as u64 - 1,
    MAX_REGIONS as u64,
    MAX_REGIONS as u64 + 1,
    OLD_ZONES,
    OLD_ZONES + 1,
    OLD_REGIONS,
    OLD_REGIONS + 1,
    255,
    256,
    0x101,
    PAGE - 1,
    PAGE,
    0x1800,
    2 * PAGE,
    MAX_REQUESTS as u64 - 1,
    MAX_REQUESTS as u64,
    MAX_REQUESTS as u64 + 1,
    GUEST_REACH - PAGE,
    GUEST_REACH - 1,
    GUEST_REACH,
    GUEST_REACH + PAGE,
    PHYS_REACH - PAGE,
    PHYS_REACH - 1,
    PHYS_REACH,
    PHYS_REACH + PAGE,
    1 << 32,
    (1 << 32) - 1,
    1 << 63,
    u64::MAX - 2 * PAGE + 1,
    u64::MAX - PAGE + 1,
    u64::MAX,
];

/// Editions at which something changes, or just beside.
pub const EDITIONS: [u32; 5] = [0, 1, 2, u32::MAX - 1, u32::MAX];

pub fn number(rng: &mut Rng) -> u64 {
    match rng.below(8) {
        0 => rng.word(),
        1 => rng.word() % *rng.pick(&[GUEST_REACH, PHYS_REACH]) / PAGE * PAGE,
        2 => rng.word() % 64 * PAGE,
        _ => *rng.pick(&EDGES),
    }
}

fn number_32(rng: &mut Rng) -> u32 {
    number(rng) as u32
}

fn edition(rng: &mut Rng) -> u32 {
    match rng.below(4) {
        0 => number_32(rng),
        _ => *rng.pick(&EDITIONS),
    }
}

/// A sound configuration: stretches of physical memory, many of them adjoining, in any order.
pub fn config(rng: &mut Rng) -> Config {
    let count = match rng.below(6) {
        0 => 1,
        1 => MAX_REGIONS,
        2 => 17 + rng.below(MAX_REGIONS - 16),
        _ => 2 + rng.below(14),
    };
    let sizes: Vec<u64> = (0..count).map(|_| PAGE * (1 + rng.below(4) as u64)).collect();
    let mut p = if rng.one_in(4) { PHYS_REACH - sizes.iter().sum::<u64>() } else { 0 };
    let has_gaps = p == 0;
    let is_crowded = rng.one_in(2);
    let mut regions = Vec::new();
    for size in sizes {
        if has_gaps && rng.one_in(4) {
            p += PAGE * (1 + rng.below(16) as u64);
        }
        regions.push(Region::new(guest_start(rng, p, size, is_crowded), p, size, rights(rng)));
        p += size;
    }
    rng.shuffle(&mut regions);
    let gic = rng.below(count);
    Config { regions, gic }
}

/// Rights that a configuration may have: most often to read and write, now and then each of the others.
fn rights(rng: &mut Rng) -> u64 {
    match rng.below(2) {
        0 => 3,
        _ => 1 + rng.below(7) as u64,
    }
}

/// Where a region stands in guest addresses: where it is physically, as far as guest addresses go (2^48 is a multiple of 2^40, so one
/// at the end of physical addresses is at the end of guest ones), or where others are likely to be too.
fn guest_start(rng: &mut Rng, p: u64, size: u64, is_crowded: bool) -> u64 {
    match rng.below(16) {
        0 => GUEST_REACH - size,
        _ if is_crowded => PAGE * rng.below(24) as u64,
        _ => p % GUEST_REACH,
    }
}

/// Any zone's id.
fn any_id(rng: &mut Rng) -> u32 {
    match rng.below(4) {
        0 => number_32(rng),
        _ => rng.below(3 * MAX_ZONES) as u32,
    }
}

/// A zone's id, most often of one that is there, and of those most often the first, so that it fills up.
fn zone_id(rng: &mut Rng, table: &Table) -> u32 {
    if table.zones.is_empty() || rng.one_in(8) {
        return any_id(rng);
    }
    let zone = if rng.one_in(2) { &table.zones[0] } else { rng.pick(&table.zones) };
    zone.id
}

fn altered(rng: &mut Rng, region: Region) -> Region {
    let mut numbers = region.numbers();
    let at = rng.below(numbers.len());
    numbers[at] = if at == RIGHTS && !rng.one_in(4) { rng.below(9) as u64 } else { number(rng) };
    Region::from_numbers(numbers)
}

fn configured(rng: &mut Rng, config: &Config) -> Region {
    match rng.below(8) {
        0 => config.regions[config.gic],
        _ => *rng.pick(&config.regions),
    }
}

/// A region that the zone holds, or else a configured one.
fn held(rng: &mut Rng, config: &Config, table: &Table, zone: u32) -> Region {
    let zone = table.zones.iter().find(|there| there.id == zone);
    let regions: Vec<Region> = zone.into_iter().flat_map(|zone| zone.cpu.iter().chain(&zone.iommu)).copied().collect();
    if regions.is_empty() {
        return configured(rng, config);
    }
    *rng.pick(&regions)
}

/// A request that is likely to be accepted, or to be refused late in its order.
pub fn request(rng: &mut Rng, config: &Config, table: &Table) -> Record {
    let kind = match rng.below(32) {
        0 => number_32(rng),
        1..=4 => 1,
        5..=6 => 2,
        7..=16 => 3,
        17..=19 => 4,
        20..=28 => 5,
        _ => 6,
    };
    let zone = if kind == 1 { any_id(rng) } else { zone_id(rng, table) };
    let region = match kind {
        1 | 2 => Region::ZERO,
        4 | 6 => held(rng, config, table, zone),
        _ => configured(rng, config),
    };
    let region = if rng.one_in(16) { altered(rng, region) } else { region };
    Record { kind, zone, region }
}

/// Requests for a plan, most of which are accepted one after the other.
pub fn requests(rng: &mut Rng, config: &Config, table: &Table) -> Vec<Record> {
    let wanted = match rng.below(100) {
        0 => MAX_REQUESTS,
        1 => MAX_REQUESTS + 1,
        _ => rng.below(10),
    };
    let mut table = table.clone();
    let mut requests = Vec::new();
    while requests.len() < wanted.min(12) {
        let request = request(rng, config, &table);
        if table.perform(config, &request).is_ok() || rng.one_in(24) {
            requests.push(request);
        }
    }
    fill_up(&table, &mut requests, wanted);
    requests
}

/// Requests for a log, accepted or not.
fn requests_of_log(rng: &mut Rng, config: &Config, table: &Table) -> Vec<Record> {
    let wanted = match rng.below(100) {
        0 => MAX_REQUESTS,
        1 => MAX_REQUESTS + 1,
        _ => rng.below(16),
    };
    let mut table = table.clone();
    let mut requests = Vec::new();
    while requests.len() < wanted.min(16) {
        let request = request(rng, config, &table);
        // A refused request leaves the table, and the log goes on.
        let _ = table.perform(config, &request);
        requests.push(request);
    }
    fill_up(&table, &mut requests, wanted);
    requests
}

/// Adds and removes a zone until there are as many requests as wanted.
fn fill_up(table: &Table, requests: &mut Vec<Record>, wanted: usize) {
    let free = (0..).find(|&id| table.zones.iter().all(|zone| zone.id != id)).expect("a free id");
    for kind in [1, 2].into_iter().cycle() {
        if requests.len() >= wanted {
            return;
        }
        requests.push(Record { kind, zone: free, region: Region::ZERO });
    }
}

/// A table that is changed without asking: it may be sound or break a single clause.
fn bent_table(rng: &mut Rng, state: &State) -> Table {
    let mut table = state.table.clone();
    if table.zones.is_empty() || table.zones.len() < MAX_ZONES && rng.one_in(4) {
        let id = zone_id(rng, &table);
        table.zones.push(Zone::empty(id));
        return table;
    }
    let region = configured(rng, &state.config);
    let at = rng.below(table.zones.len());
    let zone = &mut table.zones[at];
    let set = if rng.one_in(2) { &mut zone.cpu } else { &mut zone.iommu };
    if set.len() < MAX_IN_SET {
        set.push(region);
    }
    table
}

/// A configuration in which one region is changed without asking.
fn bent_config(rng: &mut Rng, config: &Config) -> Config {
    let mut config = config.clone();
    let at = rng.below(config.regions.len());
    let other = *rng.pick(&config.regions);
    let region = &mut config.regions[at];
    match rng.below(5) {
        0 => *region = altered(rng, *region),
        1 => region.rights = Rights(rng.below(9) as u64),
        2 => region.p = other.p,
        3 => region.size += PAGE * (1 + rng.below(64) as u64),
        _ => region.p.0 = region.p.0.wrapping_sub(PAGE),
    }
    config
}

/// The base of a plan for another terminal: one that differs in one thing.
fn other_base(rng: &mut Rng, state: &State) -> State {
    let mut base = state.clone();
    match rng.below(5) {
        0 => base.edition = base.edition.wrapping_add(*rng.pick(&[1, u32::MAX, 1 << 8, 1 << 31])),
        1 => base.config = bent_config(rng, &base.config),
        2 => base.config.gic = rng.below(base.config.regions.len()),
        3 => rng.shuffle(&mut base.table.zones),
        _ => base.table = bent_table(rng, state),
    }
    base
}

/// How long the pieces of so many bytes are: none or one cut, single bytes, fields, or anything.
fn cutting(rng: &mut Rng, bytes: usize) -> Vec<usize> {
    let kind = rng.below(6);
    let any = rng.below(1 + bytes);
    let piece = |rng: &mut Rng| match kind {
        0 => bytes,
        1 => rng.below(2),
        2 => *rng.pick(&[4, 8, 24, 32]),
        3 => LONGEST_PLAN - rng.below(3),
        _ => *rng.pick(&[0, 1, 3, 7, 100, bytes / 2, any]),
    };
    (0..rng.below(7)).map(|_| piece(rng)).collect()
}

/// A buffer of about so many bytes.
fn buffer_about(rng: &mut Rng, length: usize) -> Vec<u8> {
    let room = match rng.below(8) {
        0 => length.saturating_sub(1),
        1 => length + 1,
        2 => 0,
        3 => rng.below(1 + length),
        4 => length + rng.below(5000),
        _ => length,
    };
    (0..room).map(|_| rng.word() as u8).collect()
}

/// As many zones and regions as there can be, dealt out at random, and some of the regions dealt out again: so many that a list is on either
/// side of what a plan has room for.
fn dealt_twice(rng: &mut Rng) -> (ConfigWords, TableWords, TableWords) {
    let page = |number: u64| Region::new(number * PAGE, number * PAGE, PAGE, 3);
    let config = Config { regions: (0..MAX_REGIONS as u64).map(page).collect(), gic: 0 };
    let mut table = Table { zones: (0..MAX_ZONES as u32).map(Zone::empty).collect() };
    config.regions[1..].iter().for_each(|region| deal(rng, &mut table, *region));
    let mut other = table.clone();
    for region in &config.regions[1 + rng.below(MAX_REGIONS - 1)..] {
        for zone in &mut other.zones {
            zone.cpu.retain(|held| held != region);
            zone.iommu.retain(|held| held != region);
        }
        deal(rng, &mut other, *region);
    }
    rng.shuffle(&mut other.zones);
    (config.to_words(), table.to_words(), other.to_words())
}

/// Gives a region to a zone that has room for it, on one side or on both.
fn deal(rng: &mut Rng, table: &mut Table, region: Region) {
    let has_room = |zone: &&mut Zone| zone.cpu.len() < MAX_IN_SET && zone.iommu.len() < MAX_IN_SET;
    let mut zones: Vec<&mut Zone> = table.zones.iter_mut().filter(has_room).collect();
    let at = rng.below(zones.len());
    let sides = rng.below(4);
    if sides != 0 {
        zones[at].cpu.push(region);
    }
    if sides != 1 {
        zones[at].iommu.push(region);
    }
}

/// No zone; or, so that a table fills up, empty ones, nearly as many as there can be.
fn first_table(rng: &mut Rng) -> Table {
    let count = if rng.one_in(3) { MAX_ZONES - rng.below(4) } else { 0 };
    Table { zones: (0..count as u32).map(Zone::empty).collect() }
}

/// A sound configuration with a sound table, from which cases are made while the table changes.
pub struct World {
    state: State,
}

impl World {
    pub fn new(rng: &mut Rng) -> World {
        let mut world = World { state: State { config: config(rng), table: first_table(rng), edition: 0 } };
        let steps = rng.below(160);
        world.change(rng, steps);
        world
    }

    fn change(&mut self, rng: &mut Rng, steps: usize) {
        for _ in 0..steps {
            let request = request(rng, &self.state.config, &self.state.table);
            // A refused request leaves the table as it was.
            let _ = self.state.table.perform(&self.state.config, &request);
        }
    }

    pub fn case(&mut self, rng: &mut Rng) -> Case {
        self.go_on(rng);
        match rng.below(28) {
            0..=2 => self.config_case(rng),
            3..=5 => self.table_case(rng),
            6..=10 => self.request_case(rng),
            11..=12 => self.translate_case(rng),
            13 => Case::base_edition(self.plan_begun(rng)),
            14 => Case::read(self.plan(rng)),
            15 => self.pieces_case(rng),
            16 => self.write_case(rng),
            17 => self.zones_case(rng),
            18 => Case::base(self.plan(rng)),
            19 => self.lacking_case(rng),
            20 => self.list_case(rng),
            21 => self.listing_case(rng),
            22 => self.log_case(rng),
            _ => self.apply_case(rng),
        }
    }

    /// A case of a question that both machines have.
    pub fn common_case(&mut self, rng: &mut Rng) -> Case {
        self.go_on(rng);
        match rng.below(19) {
            0..=2 => self.config_case(rng),
            3..=5 => self.table_case(rng),
            6..=10 => self.request_case(rng),
            11..=12 => self.translate_case(rng),
            13 => Case::read(self.plan(rng)),
            _ => self.apply_case(rng),
        }
    }

    fn go_on(&mut self, rng: &mut Rng) {
        self.change(rng, 3);
        self.state.edition = edition(rng);
    }

    fn config_case(&self, rng: &mut Rng) -> Case {
        let config = &self.state.config;
        match rng.below(8) {
            0 => Case::config(config.to_words()),
            1..=3 => Case::config(bent_config(rng, config).to_words()),
            4 => Case::config(std::array::from_fn(|_| number(rng))),
            _ => {
                let mut words = config.to_words();
                damage_words(rng, &mut words);
                Case::config(words)
            }
        }
    }

    fn table_case(&self, rng: &mut Rng) -> Case {
        let config = self.state.config.to_words();
        match rng.below(8) {
            0 => Case::table(config, self.state.table.to_words()),
            1..=3 => Case::table(config, bent_table(rng, &self.state).to_words()),
            4 => Case::table(config, std::array::from_fn(|_| number(rng))),
            _ => {
                let (config, table) = self.damaged_base(rng);
                Case::table(config, table)
            }
        }
    }

    fn words(&self) -> (ConfigWords, TableWords) {
        (self.state.config.to_words(), self.state.table.to_words())
    }

    /// The words of the configuration and of the table, one of the two damaged.
    fn damaged_base(&self, rng: &mut Rng) -> (ConfigWords, TableWords) {
        let (mut config, mut table) = self.words();
        if rng.one_in(4) {
            damage_words(rng, &mut config);
        } else {
            damage_words(rng, &mut table);
        }
        (config, table)
    }

    /// The words of the configuration and of the table, damaged now and then.
    fn base(&self, rng: &mut Rng) -> (ConfigWords, TableWords) {
        if rng.one_in(8) {
            self.damaged_base(rng)
        } else {
            self.words()
        }
    }

    fn request_case(&self, rng: &mut Rng) -> Case {
        let (config, table) = self.base(rng);
        Case::request(config, table, request(rng, &self.state.config, &self.state.table))
    }

    fn translate_case(&self, rng: &mut Rng) -> Case {
        let (config, table) = self.base(rng);
        let zone = zone_id(rng, &self.state.table);
        let region = held(rng, &self.state.config, &self.state.table, zone);
        let address = match rng.below(7) {
            0 => region.v.0,
            1 => region.v.0 + 1,
            2 => region.v.0.wrapping_sub(1),
            3 => region.v.0 + region.size - 1,
            4 => region.v.0 + region.size,
            5 => region.v.0 + rng.word() % region.size,
            _ => number(rng),
        };
        Case::translate(config, table, zone, *rng.pick(&[0, 0, 1, 1, 2, 256, u32::MAX]), address)
    }

    /// A plan, most often for this state, and now and then damaged.
    fn plan(&self, rng: &mut Rng) -> Vec<u8> {
        let requests = requests(rng, &self.state.config, &self.state.table);
        let base = if rng.one_in(4) { other_base(rng, &self.state) } else { self.state.clone() };
        let mut plan = encode(&base, &requests);
        if rng.one_in(3) {
            damage_bytes(rng, &mut plan);
        }
        plan
    }

    /// The beginning of a plan, damaged, so that damage meets its marks; or all of it.
    fn plan_begun(&self, rng: &mut Rng) -> Vec<u8> {
        let mut plan = self.plan(rng);
        if rng.one_in(2) {
            plan.truncate(20);
            damage_bytes(rng, &mut plan);
        }
        plan
    }

    fn apply_case(&self, rng: &mut Rng) -> Case {
        let (config, table) = self.base(rng);
        Case::apply(config, table, self.state.edition, self.plan(rng))
    }

    /// A plan, now and then with so many bytes behind it that it is as long as the longest or longer, cut anywhere.
    fn pieces_case(&self, rng: &mut Rng) -> Case {
        let mut apply = self.apply_case(rng);
        if rng.one_in(4) {
            let end = LONGEST_PLAN + *rng.pick(&[0, 0, 1, 1, 2, 3000]) - rng.below(2);
            apply.plan.resize(end.max(apply.plan.len()), rng.word() as u8);
        }
        let room = match rng.below(16) {
            0 => rng.below(LONGEST_PLAN),
            1 => LONGEST_PLAN - 1,
            2 => LONGEST_PLAN + 1 + rng.below(5000),
            _ => LONGEST_PLAN,
        };
        let receiver = match rng.below(24) {
            0 => [number(rng), number(rng)],
            1 => [(LONGEST_PLAN - rng.below(3)) as u64, 0],
            2 => [rng.below(100) as u64, 0],
            _ => [0, 0],
        };
        let lengths = cutting(rng, apply.plan.len());
        Case::pieces(apply, receiver, lengths, vec![rng.word() as u8; room])
    }

    /// The listing into a buffer on either side of its length.
    fn listing_case(&self, rng: &mut Rng) -> Case {
        let (config, table) = self.base(rng);
        let case = Case::listing(config, table, vec![0; LONGEST_LISTING]);
        let length = case.ordinary().places[0] as usize;
        Case { buffer: buffer_about(rng, length), ..case }
    }

    /// A log, most often an honest one or one with a single false claim; now and then from another base, with a claim too many or too few, or
    /// damaged. Any words are room to work in, and the buffer is on either side of the end zones' length.
    fn log_case(&self, rng: &mut Rng) -> Case {
        let requests = requests_of_log(rng, &self.state.config, &self.state.table);
        let mut claims = true_claims(&self.state.config, &self.state.table, &requests);
        if !claims.is_empty() && rng.one_in(3) {
            let at = rng.below(claims.len());
            claims[at] = if rng.one_in(2) { rng.below(31) as u32 } else { number_32(rng) };
        }
        match rng.below(16) {
            0 => claims.push(0),
            1 => claims.truncate(rng.below(1 + claims.len())),
            _ => {}
        }
        let base = if rng.one_in(6) { other_base(rng, &self.state) } else { self.state.clone() };
        let mut log = encode_log(&base, &requests, &claims);
        if rng.one_in(5) {
            damage_bytes(rng, &mut log);
        }
        let (config, table) = if rng.one_in(2) { self.base(rng) } else { ([rng.word(); CONFIG_WORDS], [rng.word(); TABLE_WORDS]) };
        let case = Case::log(config, table, log, vec![0; LONGEST_PLAN]);
        let length = case.ordinary().places[0] as usize;
        Case { buffer: buffer_about(rng, length), ..case }
    }

    /// The requests of a plan, now and then cut or with bytes behind them or too many; and a buffer on either side of the plan's length.
    fn write_case(&self, rng: &mut Rng) -> Case {
        let (config, table) = self.base(rng);
        let plan = self.plan(rng);
        let mut requests = match Plan::read(&plan) {
            Ok(read) => plan[read.requests_at..].to_vec(),
            Err(_) => plan,
        };
        match rng.below(12) {
            0 => requests.truncate(rng.below(1 + requests.len())),
            1 => requests.resize(requests.len() + rng.below(REQUEST_BYTES), rng.word() as u8),
            2 => requests.resize((MAX_REQUESTS + rng.below(2)) * REQUEST_BYTES, rng.below(7) as u8),
            _ => {}
        }
        let case = Case::write(config, table, self.state.edition, requests, vec![0; LONGEST_PLAN]);
        let length = case.ordinary().places[0] as usize;
        Case { buffer: buffer_about(rng, length), ..case }
    }

    /// The zones, and a buffer on either side of their section's length.
    fn zones_case(&self, rng: &mut Rng) -> Case {
        let (config, table) = self.base(rng);
        let length = encode_zones(&self.state.table).len();
        Case::zones(config, table, buffer_about(rng, length))
    }

    /// Two stretches: sections of a plan and of the state, one and the same, one that is changed, cut or made longer, or any bytes.
    fn lacking_case(&self, rng: &mut Rng) -> Case {
        let plan = self.plan(rng);
        let any = |rng: &mut Rng| -> Vec<u8> { (0..rng.below(12)).map(|_| rng.below(2) as u8).collect() };
        let first = match rng.below(6) {
            0 => any(rng),
            1 => plan,
            2 => encode_zones(&self.state.table),
            _ => base_zones(&plan).to_vec(),
        };
        let mut second = match rng.below(5) {
            0 => encode_zones(&self.state.table),
            1 => any(rng),
            _ => first.clone(),
        };
        match rng.below(5) {
            0 => damage_bytes(rng, &mut second),
            1 => second.truncate(rng.below(1 + second.len())),
            2 => second.resize(second.len() + rng.below(9), rng.word() as u8),
            _ => {}
        }
        if rng.one_in(2) {
            Case::lacking(first, second)
        } else {
            Case::lacking(second, first)
        }
    }

    /// This table and another, most often a sound one: the same in any order, one that requests lead to, one that has little in common with it,
    /// one with a region moved, or with two zones exchanged. The list goes either way, and the buffer is on either side of its length.
    fn list_case(&self, rng: &mut Rng) -> Case {
        let (config, table) = self.base(rng);
        let (config, table, wanted) = match rng.below(12) {
            0 => (config, table, self.damaged_base(rng).1),
            1 => (config, table, bent_table(rng, &self.state).to_words()),
            2..=3 => dealt_twice(rng),
            _ => (config, table, self.wanted(rng).to_words()),
        };
        let (from, to) = if rng.one_in(2) { (table, wanted) } else { (wanted, table) };
        let case = Case::list(config, from, &to, vec![0; MAX_REQUESTS * REQUEST_BYTES]);
        let length = case.ordinary().places[0] as usize * REQUEST_BYTES;
        Case { buffer: buffer_about(rng, length), ..case }
    }

    /// Another sound table under this configuration.
    fn wanted(&self, rng: &mut Rng) -> Table {
        let mut zones = self.state.table.zones.clone();
        match rng.below(8) {
            0 => {}
            1 => {
                rng.shuffle(&mut zones);
                for zone in &mut zones {
                    rng.shuffle(&mut zone.cpu);
                    rng.shuffle(&mut zone.iommu);
                }
            }
            2 if zones.len() > 1 => {
                let (one, other) = (rng.below(zones.len()), rng.below(zones.len()));
                let id = zones[one].id;
                zones[one].id = std::mem::replace(&mut zones[other].id, id);
            }
            3 => {
                let step = 1 + rng.below(3) as u32;
                zones.iter_mut().for_each(|zone| zone.id = (zone.id + step * MAX_ZONES as u32) % 256);
            }
            4 => return self.with_one_moved(rng),
            5 => {
                let mut world = World { state: State { table: first_table(rng), ..self.state.clone() } };
                let steps = rng.below(160);
                world.change(rng, steps);
                return world.state.table;
            }
            _ => {
                let mut world = World { state: self.state.clone() };
                let steps = rng.below(24);
                world.change(rng, steps);
                return world.state.table;
            }
        }
        let table = Table { zones };
        // Ids that wrapped round may meet.
        if table.is_sound(&self.state.config) {
            table
        } else {
            self.state.table.clone()
        }
    }

    /// One region that a zone holds, in a set of another zone, or in its other set.
    fn with_one_moved(&self, rng: &mut Rng) -> Table {
        let mut table = self.state.table.clone();
        let zone = zone_id(rng, &table);
        let region = held(rng, &self.state.config, &table, zone);
        let to = zone_id(rng, &table);
        for kind in [4, 6] {
            // Of a set that has it not, nothing goes.
            let _ = table.perform(&self.state.config, &Record { kind, zone, region });
        }
        let _ = table.perform(&self.state.config, &Record { kind: *rng.pick(&[3, 5]), zone: to, region });
        table
    }
}

#[cfg(test)]
mod tests {
    use super::*;

    #[test]
    fn a_world_stays_sound() {
        let mut rng = Rng::new(1);
        for _ in 0..60 {
            let mut world = World::new(&mut rng);
            world.case(&mut rng);
            assert!(world.state.table.is_sound(&world.state.config));
        }
    }
}
