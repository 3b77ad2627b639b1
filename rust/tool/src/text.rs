//! A plan's contents as text: the lines that `show` prints, read back. Offsets in front of lines, the counts and the indexes may be left
//! out; where they stand, they must be right, all but the offsets. Empty lines and lines that begin with `#` are passed over.

use peatmitten::{Config, Region, Request, Side, State, Table};

/// What a text asks to be written: the base, and the requests.
pub struct Asked {
    pub base: State,
    pub requests: Vec<Request>,
}

/// What is not understood, and in which line, counted from 1.
pub struct Fault {
    pub line: usize,
    pub text: String,
}

/// Where the lines before have led.
#[derive(Clone, Copy, PartialEq)]
enum Place {
    Marks,
    Regions,
    Zone,
    Set(Side),
    Requests,
    End,
}

#[derive(Default)]
struct Zone {
    id: u32,
    line: usize,
    sets: [Vec<(usize, Region)>; 2],
}

/// A count that a line says of the lines that come behind it.
struct Said {
    line: usize,
    count: u64,
    what: &'static str,
}

struct Reader {
    line: usize,
    place: Place,
    gic: Option<u32>,
    edition: Option<u32>,
    regions: Vec<Region>,
    zones: Vec<Zone>,
    requests: Vec<Request>,
    counts: Vec<Said>,
}

const EXPECTED: &str =
    "expected `GIC position: N`, `base edition: N`, `region: v N, p N, size N, rights N`, `zone ID`, `CPU regions`, \
                        `IOMMU regions` or `request: ...`";
const REQUESTS: &str =
    "expected `add zone ID`, `remove zone ID`, or `zone ID, CPU insert: v N, p N, size N, rights N` with CPU or IOMMU, and \
                        insert or remove";

/// The GIC's position, the base edition and the mark of the format.
const MARKS: u64 = 3;

/// The mark of the format that the library writes.
const FORMAT: u64 = 2;

pub fn read(text: &str) -> Result<Asked, Fault> {
    let mut reader = Reader {
        line: 0,
        place: Place::Marks,
        gic: None,
        edition: None,
        regions: Vec::new(),
        zones: Vec::new(),
        requests: Vec::new(),
        counts: Vec::new(),
    };
    for line in text.lines() {
        reader.line += 1;
        let line = without_offset(line).trim();
        if !line.is_empty() && !line.starts_with('#') {
            reader.take(line).map_err(|text| Fault { line: reader.line, text })?;
        }
    }
    reader.finish()
}

/// An offset is a number with two spaces behind it.
fn without_offset(line: &str) -> &str {
    let line = line.trim_start();
    match line.split_once("  ") {
        Some((offset, rest)) if !offset.is_empty() && offset.bytes().all(|byte| byte.is_ascii_digit()) => rest,
        _ => line,
    }
}

impl Reader {
    fn take(&mut self, line: &str) -> Result<(), String> {
        if self.place == Place::End {
            return Err("expected nothing after the end".to_string());
        }
        let (name, value) = match line.split_once(':') {
            Some((name, value)) => (name.trim(), Some(value.trim())),
            None => (line, None),
        };
        match (name, value) {
            ("marks", Some(value)) => self.count(value, "marks"),
            ("GIC position", Some(value)) if self.gic.is_none() && self.place == Place::Marks => {
                self.gic = Some(number32(value)?);
                Ok(())
            }
            ("base edition", Some(value)) if self.edition.is_none() && self.place == Place::Marks => {
                self.edition = Some(number32(value)?);
                Ok(())
            }
            ("format", Some(value)) if self.place == Place::Marks => match number(value)? {
                FORMAT => Ok(()),
                _ => Err(format!("expected `format: {FORMAT}`")),
            },
            ("configured regions", value) => self.heading(Place::Regions, value, "configured regions"),
            ("base zones", value) => self.heading(Place::Zone, value, "base zones"),
            ("CPU regions", value) => self.set(Side::Cpu, value),
            ("IOMMU regions", value) => self.set(Side::Iommu, value),
            ("requests", value) => self.heading(Place::Requests, value, "requests"),
            ("end", Some(_)) => {
                self.place = Place::End;
                Ok(())
            }
            _ if is_item(name, "region") => self.region(name, value.unwrap_or_default()),
            _ if is_item(name, "request") && value.is_some() => self.request(name, line),
            _ if value.is_none() && name.starts_with("zone ") => self.zone(&name["zone ".len()..]),
            _ => Err(EXPECTED.to_string()),
        }
    }

    fn count(&mut self, value: &str, what: &'static str) -> Result<(), String> {
        self.counts.push(Said { line: self.line, count: number(value)?, what });
        Ok(())
    }

    fn length(&self, what: &str) -> usize {
        match what {
            "configured regions" => self.regions.len(),
            "base zones" => self.zones.len(),
            "requests" => self.requests.len(),
            "CPU regions" => self.zones.last().map_or(0, |zone| zone.sets[0].len()),
            "IOMMU regions" => self.zones.last().map_or(0, |zone| zone.sets[1].len()),
            _ => 0,
        }
    }

    fn heading(&mut self, place: Place, value: Option<&str>, what: &'static str) -> Result<(), String> {
        self.place = place;
        value.map_or(Ok(()), |value| self.count(value, what))
    }

    fn set(&mut self, side: Side, value: Option<&str>) -> Result<(), String> {
        if self.zones.is_empty() || !matches!(self.place, Place::Zone | Place::Set(_)) {
            return Err("expected a zone before its sets".to_string());
        }
        self.heading(Place::Set(side), value, if side == Side::Cpu { "CPU regions" } else { "IOMMU regions" })
    }

    fn zone(&mut self, id: &str) -> Result<(), String> {
        if self.place == Place::Requests {
            return Err("expected no zone after the requests".to_string());
        }
        self.close_sets()?;
        self.place = Place::Zone;
        self.zones.push(Zone { id: number32(id)?, line: self.line, ..Zone::default() });
        Ok(())
    }

    fn region(&mut self, name: &str, value: &str) -> Result<(), String> {
        let region = region(value)?;
        match self.place {
            Place::Marks | Place::Regions => {
                self.place = Place::Regions;
                index(name, "region", self.regions.len())?;
                let is_gic = value.ends_with(", the GIC");
                if is_gic && self.gic.is_some_and(|gic| gic as usize != self.regions.len()) {
                    return Err("expected `, the GIC` at the GIC's position alone".to_string());
                }
                self.regions.push(region);
            }
            Place::Set(side) => {
                let set = &mut self.zones.last_mut().expect("a zone before its sets").sets[usize::from(side == Side::Iommu)];
                index(name, "region", set.len())?;
                set.push((self.line, region));
            }
            _ => return Err("expected `CPU regions` or `IOMMU regions` before a zone's region".to_string()),
        }
        Ok(())
    }

    fn request(&mut self, name: &str, line: &str) -> Result<(), String> {
        self.close_sets()?;
        self.place = Place::Requests;
        index(name, "request", self.requests.len())?;
        let (_, asked) = line.split_once(':').expect("a request has a colon");
        self.requests.push(request(asked.trim())?);
        Ok(())
    }

    /// The counts that lines said of a zone's sets, once the zone is over.
    fn close_sets(&mut self) -> Result<(), String> {
        let of_sets = |said: &Said| matches!(said.what, "CPU regions" | "IOMMU regions");
        let (sets, others): (Vec<_>, Vec<_>) = std::mem::take(&mut self.counts).into_iter().partition(of_sets);
        self.counts = others;
        sets.iter().try_for_each(|said| self.judge(said))
    }

    fn judge(&self, said: &Said) -> Result<(), String> {
        let found = if said.what == "marks" { MARKS } else { self.length(said.what) as u64 };
        if said.count == found {
            return Ok(());
        }
        Err(format!("line {} says {} {}, and there are {found}", said.line, said.count, said.what))
    }

    fn finish(mut self) -> Result<Asked, Fault> {
        let at_end = |line: usize| move |text: String| Fault { line, text };
        self.close_sets().map_err(at_end(self.line))?;
        self.counts.iter().try_for_each(|said| self.judge(said)).map_err(at_end(self.line))?;
        let missing = |what: &str| Fault { line: self.line, text: format!("the text ends without `{what}: N`") };
        let gic = self.gic.ok_or_else(|| missing("GIC position"))?;
        let edition = self.edition.ok_or_else(|| missing("base edition"))?;
        let config = Config::new(&self.regions, gic.into())
            .ok_or_else(|| Fault { line: self.line, text: "there are more regions than a configuration can have".to_string() })?;
        let table = table(&config, &self.zones)?;
        Ok(Asked { base: State { config, table, edition }, requests: self.requests })
    }
}

/// The zones, made by requests in their order, under a configuration that is sound; under another one none is looked at, since the writer
/// answers 1 for it.
fn table(config: &Config, zones: &[Zone]) -> Result<Table, Fault> {
    let mut table = Table::new();
    if config.check().is_err() {
        return Ok(table);
    }
    for zone in zones {
        let mut ask = |line: usize, request: Request| {
            table.request(config, request).map_err(|refusal| Fault { line, text: format!("the base table is unsound: {refusal}") })
        };
        ask(zone.line, Request::add_zone(zone.id))?;
        for (side, set) in [Side::Cpu, Side::Iommu].into_iter().zip(&zone.sets) {
            for (line, region) in set {
                ask(*line, Request::insert(zone.id, side, *region))?;
            }
        }
    }
    Ok(table)
}

/// `region`, or `region 3`.
fn is_item(name: &str, item: &str) -> bool {
    name.strip_prefix(item).is_some_and(|rest| rest.is_empty() || rest.starts_with(' '))
}

/// An index that is said must be that of the line.
fn index(name: &str, item: &str, at: usize) -> Result<(), String> {
    let said = name[item.len()..].trim();
    if said.is_empty() || number(said)? == at as u64 {
        return Ok(());
    }
    Err(format!("expected {item} {at}"))
}

/// A number in decimal, or with 0x in front in hexadecimal.
fn number(text: &str) -> Result<u64, String> {
    let text = text.trim();
    let parsed = match text.strip_prefix("0x") {
        Some(digits) => u64::from_str_radix(digits, 16),
        None => text.parse(),
    };
    parsed.map_err(|_| format!("expected a number in the place of `{text}`"))
}

fn number32(text: &str) -> Result<u32, String> {
    let number = number(text)?;
    u32::try_from(number).map_err(|_| format!("expected a number of 32 bits in the place of `{}`", text.trim()))
}

/// A region's numbers, each after its name.
fn region(text: &str) -> Result<Region, String> {
    let text = text.strip_suffix(", the GIC").unwrap_or(text);
    let mut words = [0; Region::WORDS];
    let parts: Vec<&str> = text.split(',').map(str::trim).collect();
    if parts.len() != words.len() {
        return Err("expected `v N, p N, size N, rights N`".to_string());
    }
    for ((word, part), name) in words.iter_mut().zip(parts).zip(["v", "p", "size", "rights"]) {
        let value = part.strip_prefix(name).and_then(|rest| rest.strip_prefix(' '));
        *word = number(value.ok_or_else(|| format!("expected `{name} N` in the place of `{part}`"))?)?;
    }
    let [v, p, size, rights] = words;
    Ok(Region::new(v, p, size, rights))
}

/// A request by the name of its kind.
fn request(text: &str) -> Result<Request, String> {
    let (named, with) = match text.split_once(", with a region: ") {
        Some((named, with)) => (named, Some(region(with)?)),
        None => (text, None),
    };
    let none = Region::new(0, 0, 0, 0);
    if let Some(zone) = named.strip_prefix("add zone ") {
        return Ok(Request::from_numbers(1, number32(zone)?, with.unwrap_or(none)));
    }
    if let Some(zone) = named.strip_prefix("remove zone ") {
        return Ok(Request::from_numbers(2, number32(zone)?, with.unwrap_or(none)));
    }
    let (zone, asked) = text.strip_prefix("zone ").and_then(|rest| rest.split_once(", ")).ok_or(REQUESTS)?;
    let (kind, of) = asked.split_once(':').ok_or(REQUESTS)?;
    let kind = match kind {
        "CPU insert" => 3,
        "CPU remove" => 4,
        "IOMMU insert" => 5,
        "IOMMU remove" => 6,
        _ => number32(kind.strip_prefix("kind ").ok_or(REQUESTS)?)?,
    };
    Ok(Request::from_numbers(kind, number32(zone)?, region(of.trim())?))
}
