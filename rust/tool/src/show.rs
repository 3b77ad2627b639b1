//! What a plan says, for people: one field a line, with its offset.

use std::fmt::Write;

use peatmitten::{Counted, Field, Reading, Region, Request, Side};

/// The lines, the last of which says where the plan ends or stops reading.
pub fn lines(reading: &Reading) -> String {
    let mut lines = Lines { text: String::new(), gic: None, regions: 0, held: 0, requests: 0 };
    for (offset, field) in &reading.fields {
        lines.field(*offset, field);
    }
    match &reading.end {
        Ok(length) => lines.add(*length, "end: the plan reads whole"),
        Err(fault) => lines.add(fault.offset(), &format!("stops here with {}: {fault}", fault.number())),
    }
    lines.text
}

struct Lines {
    text: String,
    gic: Option<u32>,
    regions: u32,
    held: u32,
    requests: u32,
}

impl Lines {
    fn add(&mut self, offset: u64, line: &str) {
        writeln!(self.text, "{offset:>6}  {line}").expect("a string takes every text");
    }

    fn field(&mut self, offset: u64, field: &Field) {
        let line = match field {
            Field::Count(counted, number) => {
                self.held = 0;
                count(*counted, *number)
            }
            Field::Gic(position) => {
                self.gic = Some(*position);
                format!("GIC position: {position}")
            }
            Field::Edition(edition) => format!("base edition: {edition}"),
            Field::Format(format) => format!("format: {format}"),
            Field::Region(region) => {
                let place = next(&mut self.regions);
                let gic = if self.gic == Some(place) { ", the GIC" } else { "" };
                format!("region {place}: {}{gic}", numbers(region))
            }
            Field::Zone(id) => format!("zone {id}"),
            Field::Held(_, region) => format!("    region {}: {}", next(&mut self.held), numbers(region)),
            Field::Request(asked) => format!("request {}: {}", next(&mut self.requests), request(asked)),
        };
        self.add(offset, &line);
    }
}

/// How many there were, and one more.
fn next(count: &mut u32) -> u32 {
    let place = *count;
    *count += 1;
    place
}

fn count(counted: Counted, number: u32) -> String {
    match counted {
        Counted::Marks => format!("marks: {number}"),
        Counted::Regions => format!("configured regions: {number}"),
        Counted::Zones => format!("base zones: {number}"),
        Counted::Held(side) => format!("  {} regions: {number}", side_name(side)),
        Counted::Requests => format!("requests: {number}"),
    }
}

pub fn side_name(side: Side) -> &'static str {
    match side {
        Side::Cpu => "CPU",
        Side::Iommu => "IOMMU",
    }
}

pub fn numbers(region: &Region) -> String {
    format!("v {:#x}, p {:#x}, size {:#x}, rights {}", region.v.0, region.p.0, region.size, region.rights.0)
}

/// A request by the name of its kind. Whether it may be made is not judged here, so a region that does not belong is told too.
pub fn request(asked: &Request) -> String {
    let zone = asked.zone();
    let region = numbers(&asked.region());
    let no_region = asked.region() == Region::new(0, 0, 0, 0);
    match asked.kind() {
        1 if no_region => format!("add zone {zone}"),
        2 if no_region => format!("remove zone {zone}"),
        1 => format!("add zone {zone}, with a region: {region}"),
        2 => format!("remove zone {zone}, with a region: {region}"),
        3 => format!("zone {zone}, CPU insert: {region}"),
        4 => format!("zone {zone}, CPU remove: {region}"),
        5 => format!("zone {zone}, IOMMU insert: {region}"),
        6 => format!("zone {zone}, IOMMU remove: {region}"),
        kind => format!("zone {zone}, kind {kind}: {region}"),
    }
}
