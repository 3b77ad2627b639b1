//! Where a plan's base zones differ from a terminal's, in words that a service desk can say on the telephone. The place comes from the library;
//! here the field is found that stands there, and named.

use peatmitten::{Counted, Difference, Field, Reading, Region, Side, State};

use crate::show::{numbers, side_name};

/// A zone of either: its id, and the regions of its two sides.
#[derive(PartialEq)]
struct Zone {
    id: u32,
    sides: [Vec<Region>; 2],
}

const SIDES: [Side; 2] = [Side::Cpu, Side::Iommu];

/// The lines about the first difference between a plan and the terminal in this state.
pub fn lines(state: &State, plan: &[u8], difference: &Difference) -> String {
    let terminal = zones_of_table(state);
    let (planned, field) = zones_of_plan(plan, difference.offset);
    let Difference { offset, place, planned: byte, held } = difference;
    let there = held.map_or("nothing".to_string(), |byte| format!("{byte:#04x}"));
    let bytes = format!(
        "in bytes: offset {offset} of the plan, byte {place} of its zones: the terminal has {there} there, the plan {byte:#04x}\n"
    );
    at_field(&terminal, &planned, &field) + &bytes
}

/// How many zones there are, in words.
pub fn count_of(state: &State) -> String {
    counted(zones_of_table(state).len(), "zone")
}

/// What stands at a place of the zones section, with the index of its zone, and of its region where it is one.
enum At {
    Zones,
    Id(usize),
    Count(usize, usize),
    Region(usize, usize, usize),
}

fn at_field(terminal: &[Zone], planned: &[Zone], at: &At) -> String {
    match *at {
        At::Zones => {
            let count = both(&counted(terminal.len(), "zone"), &counted(planned.len(), "zone"));
            count + &first_zone(terminal, planned)
        }
        At::Id(zone) => id_line(terminal, planned, zone),
        At::Count(zone, side) => {
            let [held, wanted] = [terminal, planned].map(|zones| &zones[zone].sides[side]);
            let count = both(&counted(held.len(), "region"), &counted(wanted.len(), "region"));
            format!("{}: {count}{}", side_of(&terminal[zone], side), first_region(&terminal[zone], &planned[zone], side))
        }
        At::Region(zone, side, place) => region_line(&terminal[zone], &planned[zone], side, place),
    }
}

/// Where there are more zones in one than in the other: the first that differs.
fn first_zone(terminal: &[Zone], planned: &[Zone]) -> String {
    let zone = first_unequal(terminal, planned);
    let (Some(held), Some(wanted)) = (terminal.get(zone), planned.get(zone)) else { return id_line(terminal, planned, zone) };
    if held.id != wanted.id {
        return id_line(terminal, planned, zone);
    }
    let side = first_unequal(&held.sides, &wanted.sides);
    first_region(held, wanted, side)
}

fn id_line(terminal: &[Zone], planned: &[Zone], zone: usize) -> String {
    let [held, wanted] =
        [terminal, planned].map(|zones| zones.get(zone).map_or("none".to_string(), |zone| format!("zone {}", zone.id)));
    format!("the {} zone differs: {}", ordinal(zone), both(&held, &wanted))
}

/// The first region of a side that differs.
fn first_region(held: &Zone, wanted: &Zone, side: usize) -> String {
    region_line(held, wanted, side, first_unequal(&held.sides[side], &wanted.sides[side]))
}

fn region_line(held: &Zone, wanted: &Zone, side: usize, place: usize) -> String {
    let [has, expects] = [held, wanted].map(|zone| zone.sides[side].get(place).map_or("none".to_string(), numbers));
    format!("{}, the {} region differs: {}", side_of(held, side), ordinal(place), both(&has, &expects))
}

fn side_of(zone: &Zone, side: usize) -> String {
    format!("zone {}, {} side", zone.id, side_name(SIDES[side]))
}

fn both(held: &str, wanted: &str) -> String {
    format!("the terminal has {held}, and the plan expects {wanted}\n")
}

/// The first place at which two lists differ, or end.
fn first_unequal<T: PartialEq>(one: &[T], other: &[T]) -> usize {
    one.iter().zip(other).take_while(|(a, b)| a == b).count()
}

pub fn counted(count: usize, what: &str) -> String {
    match count {
        0 => format!("no {what}"),
        1 => format!("1 {what}"),
        _ => format!("{count} {what}s"),
    }
}

/// The name of a place that is counted from 0.
fn ordinal(place: usize) -> String {
    let number = place + 1;
    let ending = match (number % 10, number % 100) {
        (_, 11..=13) => "th",
        (1, _) => "st",
        (2, _) => "nd",
        (3, _) => "rd",
        _ => "th",
    };
    format!("{number}{ending}")
}

fn zones_of_table(state: &State) -> Vec<Zone> {
    let zone = |zone: peatmitten::Zone| Zone { id: zone.id() as u32, sides: SIDES.map(|side| zone.regions(side).collect()) };
    state.table.zones().map(zone).collect()
}

/// The base zones of a plan, and what stands at an offset among them.
fn zones_of_plan(plan: &[u8], offset: usize) -> (Vec<Zone>, At) {
    let mut zones: Vec<Zone> = Vec::new();
    let mut at = At::Zones;
    for (start, field) in Reading::of(plan).fields {
        let place = match field {
            Field::Count(Counted::Zones, _) => At::Zones,
            Field::Zone(id) => {
                zones.push(Zone { id, sides: [Vec::new(), Vec::new()] });
                At::Id(zones.len() - 1)
            }
            Field::Count(Counted::Held(side), _) => At::Count(zones.len() - 1, side as usize),
            Field::Held(side, region) => {
                let zone = zones.len() - 1;
                let held = &mut zones[zone].sides[side as usize];
                held.push(region);
                At::Region(zone, side as usize, held.len() - 1)
            }
            _ => continue,
        };
        // Of all fields that begin at or before it, the last.
        if start <= offset as u64 {
            at = place;
        }
    }
    (zones, at)
}
