//! The second machine, terminals with owners: the first machine's cases with owners beside them, cases about the owners themselves, and what a
//! simulation asks of its states.

use cases::bank::{owners_of, with_owners};
use cases::rng::Rng;
use cases::Case;
use ordinary::bank::{encode, owners_at, Config, Owners, Plan, State, GIC_OWNER, OWNER_BYTES};
use ordinary::limits::{MAX_REGIONS, MAX_ZONES};
use ordinary::{Record, Region, Table};

use crate::boundary;
use crate::damage::damage_bytes;
use crate::random::{self, World, EDGES};
use crate::simulation::Rules;

// ---- cases on both sides of every boundary

/// All cases, in parts.
pub fn boundary_parts() -> impl Iterator<Item = Vec<Case>> {
    let of_first =
        [as_held, with_one_owner].into_iter().flat_map(|owned| boundary::PARTS.into_iter().map(move |cases| owned(cases())));
    let of_owners = [owners_at_edges, cut_plans, plans_with_edges, plans_for_others].into_iter().map(|cases| cases());
    of_first.chain(of_owners)
}

/// The first machine's cases where every region belongs to the zone that holds it or wants it, and any other to zone 5.
fn as_held(cases: Vec<Case>) -> Vec<Case> {
    cases.into_iter().filter_map(|case| with_owners(&case, owners_of(&case, || 5))).collect()
}

/// The same where zone 5 owns all, whoever holds it.
fn with_one_owner(cases: Vec<Case>) -> Vec<Case> {
    let of_five = |case: &Case| owners_of(case, || 5).map(|owner| if [0, GIC_OWNER].contains(&owner) { owner } else { 5 });
    cases.into_iter().filter_map(|case| with_owners(&case, of_five(&case))).collect()
}

/// The boundary's states, each with the owners that it needs to be sound.
fn states() -> Vec<State> {
    boundary::states().into_iter().map(owned).collect()
}

fn owned(state: ordinary::State) -> State {
    let ordinary::State { config, table, edition } = state;
    let mut owners = owners_of(&Case::table(config.to_words(), table.to_words()), || 5).to_vec();
    owners.truncate(config.regions.len());
    State { config: Config { plain: config, owners }, table, edition }
}

fn apply(state: &State, plan: Vec<u8>) -> Case {
    Case::apply(state.config.plain.to_words(), state.table.to_words(), state.edition, plan).owned(state.config.owner_words())
}

/// Reading these bytes, and applying them to this state.
fn both(state: &State, plan: &[u8]) -> [Case; 2] {
    [Case::read(plan.to_vec()).owned(state.config.owner_words()), apply(state, plan.to_vec())]
}

const ADD: Record = Record { kind: 1, zone: 77, region: Region::ZERO };

/// Owners that are at each edge in turn: the first, the GIC's, the last, the first and the last unused.
fn owners_at_edges() -> Vec<Case> {
    let mut cases = Vec::new();
    for state in states() {
        let (config, table) = (state.config.plain.to_words(), state.table.to_words());
        let count = state.config.owners.len();
        let plan = encode(&state, &[ADD]);
        for place in [0, state.config.plain.gic, count - 1, count.min(MAX_REGIONS - 1), MAX_REGIONS - 1] {
            for edge in EDGES.map(|edge| edge as u32).into_iter().chain([GIC_OWNER - 1]) {
                let mut owners = state.config.owner_words();
                owners[place] = edge;
                let questions = [
                    Case::config(config),
                    Case::table(config, table),
                    Case::request(config, table, ADD),
                    Case::translate(config, table, 5, 0, 0),
                ];
                cases.extend(questions.map(|case| case.owned(owners)));
                cases.push(Case::apply(config, table, state.edition, plan.clone()).owned(owners));
            }
        }
    }
    cases
}

/// A plan cut at every length, and made longer.
fn cut_plans() -> Vec<Case> {
    let mut cases = Vec::new();
    for state in states().into_iter().take(5) {
        let plan = encode(&state, &[ADD, ADD]);
        cases.extend((0..plan.len()).flat_map(|length| both(&state, &plan[..length])));
        for more in [1, 4, 31, 40] {
            cases.extend(both(&state, &[&plan[..], &vec![0; more]].concat()));
        }
    }
    cases
}

/// A plan with each number of its owners' section, and those before and behind it, set to each edge in turn.
fn plans_with_edges() -> Vec<Case> {
    let mut cases = Vec::new();
    for state in states().into_iter().take(5) {
        let plan = encode(&state, &[ADD]);
        let count = state.config.owners.len();
        let at = owners_at(count);
        for at in (at - OWNER_BYTES..=at + (2 + count) * OWNER_BYTES).step_by(OWNER_BYTES) {
            for edge in EDGES {
                let mut changed = plan.clone();
                changed[at..at + OWNER_BYTES].copy_from_slice(&(edge as u32).to_le_bytes());
                cases.extend(both(&state, &changed));
            }
        }
    }
    cases
}

/// Every state's plan at every other state, at other editions, and where one owner differs.
fn plans_for_others() -> Vec<Case> {
    let mut cases = Vec::new();
    for base in states() {
        for edition in [0, 1, u32::MAX] {
            let plan = encode(&State { edition, ..base.clone() }, &[]);
            cases.extend(states().iter().map(|state| apply(&State { edition, ..state.clone() }, plan.clone())));
            cases.push(apply(&base, plan));
        }
        for place in 0..base.config.owners.len() {
            let mut other = base.clone();
            other.config.owners[place] ^= 1;
            cases.push(apply(&base, encode(&other, &[ADD])));
        }
    }
    cases
}

// ---- random cases

/// Any owner: most often an id.
fn any_owner(rng: &mut Rng) -> u32 {
    match rng.below(8) {
        0 => random::number(rng) as u32,
        1 => *rng.pick(&[0, 255, 256, GIC_OWNER - 1, GIC_OWNER]),
        _ => rng.below(3 * MAX_ZONES) as u32,
    }
}

/// One owner is another, or anything else; now and then one that is not used.
fn bend(rng: &mut Rng, owners: &mut Owners) {
    let used: Vec<usize> = (0..MAX_REGIONS).filter(|&place| owners[place] != 0).collect();
    let place = if used.is_empty() || rng.one_in(6) { rng.below(MAX_REGIONS) } else { *rng.pick(&used) };
    owners[place] = if rng.one_in(2) { *rng.pick(&owners[..]) } else { any_owner(rng) };
}

/// A random case of the first machine with owners: most often those under which its state is sound, in the plan and at the terminal.
pub fn random_case(rng: &mut Rng, world: &mut World) -> Case {
    loop {
        let case = world.common_case(rng);
        let mut owners = owners_of(&case, || rng.below(3 * MAX_ZONES) as u32);
        if rng.one_in(4) {
            bend(rng, &mut owners);
        }
        let Some(mut case) = with_owners(&case, owners) else { continue };
        if rng.one_in(8) {
            bend(rng, &mut owners);
            case.owners = Some(owners);
        }
        if rng.one_in(8) {
            damage_bytes(rng, &mut case.plan);
        }
        return case;
    }
}

// ---- what a simulation asks

impl Rules for Config {
    type Library = peatmitten::bank::Config;

    /// The regions belong to a few zones, so that these fill up.
    fn any(rng: &mut Rng) -> Config {
        let plain = random::config(rng);
        let zones = 1 + rng.below(12);
        let mut owners: Vec<u32> = plain.regions.iter().map(|_| rng.below(zones) as u32 * 23).collect();
        owners[plain.gic] = GIC_OWNER;
        Config { plain, owners }
    }

    /// Most often for a zone that owns something and, of an insert, that region.
    fn likely_request(&self, rng: &mut Rng, table: &Table) -> Record {
        let Config { plain, owners } = self;
        let record = random::request(rng, plain, table);
        let owner = match record.kind {
            1 => Some(*rng.pick(owners)),
            3 | 5 => plain.regions.iter().position(|region| *region == record.region).map(|place| owners[place]),
            _ => None,
        };
        match owner {
            Some(zone) if zone != GIC_OWNER && !rng.one_in(8) => Record { zone, ..record },
            _ => record,
        }
    }

    fn accepts(&self, table: &mut Table, request: &Record) -> bool {
        self.perform(table, request).is_ok()
    }

    fn plan(base: &State, requests: &[Record]) -> Vec<u8> {
        encode(base, requests)
    }

    fn read(plan: &[u8]) -> Option<(State, Vec<Record>, usize)> {
        let Plan { config, edition, table, requests, requests_at } = Plan::read(plan).ok()?;
        Some((State { config, table, edition }, requests.iter().collect(), requests_at))
    }

    fn receive(state: &State, plan: Vec<u8>) -> Case {
        apply(state, plan)
    }

    fn library(&self) -> peatmitten::bank::Config {
        peatmitten::bank::Config::from_parts(peatmitten::Config::from_words(self.plain.to_words()), self.owner_words())
    }
}

#[cfg(test)]
mod tests {
    use super::*;

    #[test]
    fn the_states_are_sound() {
        assert!(states().iter().all(|state| state.config.check_table(&state.table).is_ok()));
    }

    #[test]
    fn most_random_states_are_sound() {
        let mut rng = Rng::new(1);
        let mut refused = 0;
        for _ in 0..20 {
            let mut world = World::new(&mut rng);
            for _ in 0..20 {
                refused += usize::from([1, 2].contains(&random_case(&mut rng, &mut world).ordinary().number));
            }
        }
        assert!(refused < 200, "{refused} of 400");
    }
}
