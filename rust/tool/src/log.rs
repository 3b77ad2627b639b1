//! What the check of a log finds, in words: which request, what is claimed of it and what the rules say; or the zones at the end. Numbers and places
//! are the library's, and each number is explained in the words of docs/NUMBERS.md, as `./peatmitten explain` does.

use std::fmt::Write;

use peatmitten::{base_edition, claims_of, LogRefusal, ReadFault, Side, Table};

use crate::differ::counted;
use crate::show::{numbers, request, side_name};

const NUMBERS: &str = include_str!("../../../docs/NUMBERS.md");

/// The lines about a log, of which the check answered this and left this table.
pub fn lines(log: &[u8], answer: &Result<usize, LogRefusal>, table: &Table) -> String {
    match answer {
        Ok(length) => format!("0 {length} 0 0: {}\n{}", all_hold(log), zones(table)),
        Err(refusal) => {
            let [number, right, claimed] = [refusal.number(), refusal.right(), refusal.claimed()];
            format!("{number} {} {right} {claimed}: {}", refusal.place(), why(log, refusal))
        }
    }
}

fn all_hold(log: &[u8]) -> String {
    match claims_of(log).map_or(0, |claims| claims.len()) {
        0 => "there are no claims, so all hold".to_string(),
        1 => "the claim holds".to_string(),
        claims => format!("all {claims} claims hold"),
    }
}

fn why(log: &[u8], refusal: &LogRefusal) -> String {
    match refusal {
        LogRefusal::FalseClaim { index, claimed, .. } => {
            let [said, right] = [*claimed, refusal.right()].map(explained);
            format!(
                "the claim for request {index} is false\nrequest {index}: {}\nthe log claims {said}\nthe rules say {right}\n",
                asked(log, *index)
            )
        }
        // A plan is told from a log by its third mark alone.
        LogRefusal::Read(ReadFault::Count { .. }) if base_edition(log).is_ok() => {
            format!("{refusal}\nits marks are those of a plan\n")
        }
        _ => format!("{refusal}\n"),
    }
}

/// The request at an index of a log that reads whole.
fn asked(log: &[u8], index: u64) -> String {
    let claims = claims_of(log).expect("the library has read the log");
    request(&claims[index as usize].0)
}

/// A number and its row of docs/NUMBERS.md; the rows of terminals with owners come last there.
fn explained(number: u32) -> String {
    let row = |line: &str| {
        let mut cells = line.strip_prefix("| ")?.split(" | ");
        (cells.next()? == number.to_string()).then(|| cells.next().unwrap_or_default().to_string())
    };
    let meaning = NUMBERS.lines().find_map(row).unwrap_or_else(|| "no number that is answered".to_string());
    format!("{number}: {meaning}")
}

/// The zones of a table, in the lines that `show` prints of a plan's.
fn zones(table: &Table) -> String {
    let mut text = format!("at the end there {}\n", there(table.zones().count()));
    for zone in table.zones() {
        writeln!(text, "zone {}", zone.id()).expect("a string takes every text");
        for side in [Side::Cpu, Side::Iommu] {
            writeln!(text, "  {} regions: {}", side_name(side), zone.regions(side).count()).expect("a string takes every text");
            for (place, region) in zone.regions(side).enumerate() {
                writeln!(text, "    region {place}: {}", numbers(&region)).expect("a string takes every text");
            }
        }
    }
    text
}

fn there(zones: usize) -> String {
    let verb = if zones > 1 { "are" } else { "is" };
    format!("{verb} {}", counted(zones, "zone"))
}

#[cfg(test)]
mod tests {
    use super::*;

    #[test]
    fn numbers_are_explained_by_their_rows() {
        assert_eq!(explained(0), "0: accepted");
        assert_eq!(explained(5), "5: the zone is already there");
        assert_eq!(explained(11), "11: the region is not equal to a configured one");
        assert!(explained(14).starts_with("14: a forbidden physical overlap: "));
        assert_eq!(explained(77), "77: no number that is answered");
        assert_eq!(explained(u32::MAX), "4294967295: no number that is answered");
    }
}
