//! The map listing as a picture: physical memory from left to right, a row for each zone and side. It is drawn from the listing's lines alone,
//! and from where the GIC lies, which no line says.

use std::fmt::Write;

/// A column: a stretch of physical memory, from its start up to its end.
type Stretch = (u64, u64);

/// What a line of the listing says.
struct Line<'a> {
    text: &'a str,
    zone: &'a str,
    side: &'a str,
    guest: u64,
    physical: Stretch,
    rights: u64,
}

/// A column and where it stands in the picture.
struct Column {
    stretch: Stretch,
    left: f64,
    width: f64,
}

const MARGIN: f64 = 24.0;
const TITLE: f64 = 64.0;
const AXIS: f64 = 104.0;
const NAMES: f64 = 150.0;
const ROW: f64 = 44.0;
const BETWEEN_ZONES: f64 = 12.0;
const GAP: f64 = 40.0;
const NARROWEST: f64 = 118.0;
const EACH_DOUBLING: f64 = 4.0;
const LEGEND: f64 = 92.0;
const NARROWEST_PICTURE: f64 = 900.0;

const SIDES: [&str; 2] = ["CPU", "IOMMU"];

/// Rights that a zone can hold, in letters and in colour.
const RIGHTS: [(u64, &str, &str); 5] =
    [(1, "r--", "#a6cee3"), (2, "-w-", "#fddc84"), (3, "rw-", "#b2df8a"), (4, "--x", "#d9c4ec"), (5, "r-x", "#fbb4a0")];

const STYLE: &str = "text{font-family:Helvetica,Arial,sans-serif;font-size:12px;fill:#222}\
    .mono{font-family:'DejaVu Sans Mono',Menlo,Consolas,monospace;font-size:11px}.title{font-size:20px;font-weight:bold}\
    .zone{font-size:15px;font-weight:bold}.faint{fill:#666}.small{font-size:11px}\
    .row{fill:#f4f4f4}.held{stroke:#444;stroke-width:1}.edge{stroke:#bbb;stroke-dasharray:2 3}\
    .over{paint-order:stroke;stroke:#fff;stroke-width:3px;stroke-opacity:.75}.cut{stroke:#999;fill:none}";

const HATCH: &str = "<pattern id=\"gic\" width=\"7\" height=\"7\" patternUnits=\"userSpaceOnUse\" patternTransform=\"rotate(45)\">\
    <line x1=\"0\" y1=\"0\" x2=\"0\" y2=\"7\" stroke=\"#555\" stroke-width=\"1.2\" stroke-opacity=\".55\"/></pattern>";

/// The picture of a listing. Every line of it is one that the library wrote, of a sound table.
pub fn svg(listing: &str, gic: Stretch) -> String {
    let lines: Vec<Line> = listing.lines().map(Line::of).collect();
    let columns = columns(&lines, gic);
    let zones = zones(&lines);
    let right = columns.last().map_or(0.0, |last| last.left + last.width);
    let width = (right + MARGIN + 70.0).max(NARROWEST_PICTURE);
    let bottom = TITLE + AXIS + zones.len() as f64 * (2.0 * ROW + BETWEEN_ZONES);
    let mut picture = Picture { text: String::new(), right };
    picture.begin(width, bottom + LEGEND);
    let rows: Vec<(&str, &str, f64)> = rows(&zones);
    for (zone, side, top) in &rows {
        picture.row(zone, side, *top);
    }
    picture.axis(&columns, gic, bottom - BETWEEN_ZONES);
    for (zone, side, top) in &rows {
        for line in lines.iter().filter(|line| line.zone == *zone && line.side == *side) {
            let column = columns.iter().find(|column| column.stretch == line.physical).expect("each line has its column");
            picture.held(line, column, *top, line.physical == gic);
        }
    }
    if zones.is_empty() {
        picture.say(MARGIN, bottom, "", "No zone holds a region.");
    }
    picture.legend(bottom + 30.0);
    picture.text + "</svg>\n"
}

impl<'a> Line<'a> {
    /// A line has seven words: zone, side, guest start, physical start, size, rights, shift.
    fn of(text: &'a str) -> Line<'a> {
        let words: Vec<&str> = text.split(' ').collect();
        let number = |at: usize| u64::from_str_radix(&words[at][2..], 16).expect("a listing has 0x and 16 digits here");
        let start = number(3);
        let rights = words[5].parse().expect("a listing has the rights here");
        Line { text, zone: words[0], side: words[1], guest: number(2), physical: (start, start + number(4)), rights }
    }
}

/// The zones in the order of their lines.
fn zones<'a>(lines: &[Line<'a>]) -> Vec<&'a str> {
    let mut zones: Vec<&str> = lines.iter().map(|line| line.zone).collect();
    zones.dedup();
    zones
}

/// The rows, two for each zone, and where each begins.
fn rows<'a>(zones: &[&'a str]) -> Vec<(&'a str, &'static str, f64)> {
    let mut rows = Vec::new();
    let mut top = TITLE + AXIS;
    for zone in zones {
        for side in SIDES {
            rows.push((*zone, side, top));
            top += ROW;
        }
        top += BETWEEN_ZONES;
    }
    rows
}

/// A column for each region, and for the GIC's whether it is held or not. No two regions overlap, so a column is one region's.
fn columns(lines: &[Line], gic: Stretch) -> Vec<Column> {
    let mut stretches: Vec<Stretch> = lines.iter().map(|line| line.physical).chain([gic]).collect();
    stretches.sort_unstable();
    stretches.dedup();
    let mut left = MARGIN + NAMES;
    let mut end = None;
    let mut columns = Vec::new();
    for stretch in stretches {
        if end.is_some_and(|end| end < stretch.0) {
            left += GAP;
        }
        let doublings = (stretch.1 - stretch.0).ilog2().saturating_sub(12);
        let width = NARROWEST + EACH_DOUBLING * f64::from(doublings);
        columns.push(Column { stretch, left, width });
        left += width;
        end = Some(stretch.1);
    }
    columns
}

struct Picture {
    text: String,
    right: f64,
}

impl Picture {
    fn add(&mut self, element: &str) {
        writeln!(self.text, "{element}").expect("a string takes every text");
    }

    fn say(&mut self, x: f64, y: f64, class: &str, text: &str) {
        self.add(&format!("<text x=\"{x}\" y=\"{y}\" class=\"{class}\">{text}</text>"));
    }

    fn begin(&mut self, width: f64, height: f64) {
        self.add(&format!(
            "<svg xmlns=\"http://www.w3.org/2000/svg\" width=\"{width}\" height=\"{height}\" viewBox=\"0 0 {width} {height}\">"
        ));
        self.add(&format!("<style>{STYLE}</style><defs>{HATCH}</defs>"));
        self.add(&format!("<rect width=\"{width}\" height=\"{height}\" fill=\"#fff\"/>"));
        self.say(MARGIN, 36.0, "title", "Memory map");
        self.say(MARGIN, 56.0, "faint", "What each zone may reach, over physical addresses from left to right.");
    }

    /// The name of a row, and its ground.
    fn row(&mut self, zone: &str, side: &str, top: f64) {
        let left = MARGIN + NAMES;
        let width = self.right - left;
        if side == SIDES[0] {
            self.say(MARGIN, top + ROW + 5.0, "zone", &format!("zone {zone}"));
        }
        self.say(left - 56.0, top + ROW / 2.0 + 4.0, "", side);
        self.add(&format!("<rect x=\"{left}\" y=\"{}\" width=\"{width}\" height=\"{}\" class=\"row\"/>", top + 2.0, ROW - 4.0));
    }

    /// The addresses at which columns begin and end, what is left out between them, and the GIC's column.
    fn axis(&mut self, columns: &[Column], gic: Stretch, bottom: f64) {
        let mut before: Option<&Column> = None;
        for column in columns {
            if let Some(left) = before.filter(|left| left.stretch.1 < column.stretch.0) {
                self.gap(left.left + left.width, column.stretch.0 - left.stretch.1, bottom);
                self.edge(left.left + left.width, left.stretch.1, bottom);
            }
            if column.stretch == gic {
                self.gic(column, bottom);
            }
            self.edge(column.left, column.stretch.0, bottom);
            before = Some(column);
        }
        if let Some(last) = before {
            self.edge(last.left + last.width, last.stretch.1, bottom);
        }
    }

    fn edge(&mut self, x: f64, address: u64, bottom: f64) {
        let top = TITLE + AXIS;
        self.add(&format!("<line x1=\"{x}\" y1=\"{}\" x2=\"{x}\" y2=\"{bottom}\" class=\"edge\"/>", top - 4.0));
        let y = top - 8.0;
        let turn = format!("rotate(-45 {x} {y})");
        self.add(&format!("<text x=\"{x}\" y=\"{y}\" class=\"mono\" transform=\"{turn}\">{address:#x}</text>"));
    }

    /// Memory that is left out: the rows are cut, and it is said how much.
    fn gap(&mut self, left: f64, size: u64, bottom: f64) {
        let top = TITLE + AXIS;
        self.add(&format!("<rect x=\"{left}\" y=\"{top}\" width=\"{GAP}\" height=\"{}\" fill=\"#fff\"/>", bottom - top));
        let (x, y) = (left + GAP / 2.0, top - 2.0);
        self.add(&format!("<path d=\"M{} {y} l5 -7 M{} {y} l5 -7\" class=\"cut\"/>", x - 5.0, x + 1.0));
        let (x, y) = (x + 4.0, (top + bottom) / 2.0);
        let turn = format!("rotate(-90 {x} {y})");
        self.add(&format!(
            "<text x=\"{x}\" y=\"{y}\" class=\"small faint\" text-anchor=\"middle\" transform=\"{turn}\">{}</text>",
            bytes(size)
        ));
    }

    fn gic(&mut self, column: &Column, bottom: f64) {
        let top = TITLE + AXIS;
        let Column { left, width, .. } = column;
        let place = format!("x=\"{left}\" y=\"{top}\" width=\"{width}\" height=\"{}\"", bottom - top);
        self.add(&format!("<rect {place} fill=\"url(#gic)\" fill-opacity=\".35\"/>"));
        self.add(&format!(
            "<text x=\"{}\" y=\"{}\" class=\"zone\" text-anchor=\"middle\">GIC</text>",
            left + width / 2.0,
            top - 6.0
        ));
    }

    fn held(&mut self, line: &Line, column: &Column, top: f64, is_gic: bool) {
        let (x, y, width, height) = (column.left, top + 2.0, column.width, ROW - 4.0);
        let (_, letters, colour) = RIGHTS.iter().find(|(rights, ..)| *rights == line.rights).expect("a sound table has no others");
        let place = format!("x=\"{x}\" y=\"{y}\" width=\"{width}\" height=\"{height}\"");
        self.add(&format!("<g><title>{}</title><rect {place} class=\"held\" fill=\"{colour}\"/>", line.text));
        if is_gic {
            self.add(&format!("<rect {place} fill=\"url(#gic)\"/>"));
        }
        let size = bytes(line.physical.1 - line.physical.0);
        self.say(x + 8.0, y + 17.0, "over", &format!("{letters}  {size}"));
        self.say(x + 8.0, y + 33.0, "mono over", &format!("at {:#x}", line.guest));
        self.add("</g>");
    }

    fn legend(&mut self, top: f64) {
        let mut x = MARGIN;
        for (_, letters, colour) in RIGHTS {
            self.swatch(x, top, colour, letters);
            x += 78.0;
        }
        self.swatch(x, top, "url(#gic)", "the interrupt controller (GIC)");
        self.say(x + 230.0, top + 12.0, "", "r read, w write, x execute");
        let text = "In each box: rights and size, and the guest address at which the zone finds it. Above: physical addresses.";
        self.say(MARGIN, top + 34.0, "faint", text);
        let text = "Not to scale: a region of 4 KiB is the narrowest, each doubling adds a little, and memory between regions is left out (//).";
        self.say(MARGIN, top + 50.0, "faint", text);
    }

    fn swatch(&mut self, x: f64, y: f64, fill: &str, text: &str) {
        self.add(&format!("<rect x=\"{x}\" y=\"{y}\" width=\"22\" height=\"15\" class=\"held\" fill=\"{fill}\"/>"));
        self.say(x + 28.0, y + 12.0, "", text);
    }
}

/// A size in the largest unit of which it is a whole number; a gap that is longer than a thousand of them, roughly in the next.
fn bytes(size: u64) -> String {
    let units = ["B", "KiB", "MiB", "GiB", "TiB", "PiB"];
    let mut unit = 0;
    let mut left = size;
    while left >= 1024 && left % 1024 == 0 && unit + 1 < units.len() {
        left /= 1024;
        unit += 1;
    }
    if left < 10_000 {
        return format!("{left} {}", units[unit]);
    }
    let mut rough = left as f64;
    while rough >= 1024.0 && unit + 1 < units.len() {
        rough /= 1024.0;
        unit += 1;
    }
    format!("{rough:.1} {}", units[unit])
}
