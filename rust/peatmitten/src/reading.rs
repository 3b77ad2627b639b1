//! What a plan says, field by field. The library says how far the bytes read; up to there each field is where the format has it.

use crate::answers::{LogRefusal, PlanRefusal, ReadFault, Refusal};
use crate::config::{Config, CONFIG_WORDS};
use crate::log::check_log;
use crate::plan::{read_plan, State};
use crate::region::Region;
use crate::request::{Request, Side};
use crate::table::Table;

/// What a count of a plan counts.
#[derive(Clone, Copy, Debug, PartialEq, Eq, Hash)]
pub enum Counted {
    /// The marks, always three.
    Marks,
    /// The configured regions.
    Regions,
    /// The base zones.
    Zones,
    /// The regions in one set of a base zone.
    Held(Side),
    /// The requests.
    Requests,
}

/// A field of a plan.
#[derive(Clone, Copy, Debug, PartialEq, Eq, Hash)]
pub enum Field {
    /// A count.
    Count(Counted, u32),
    /// The first mark: the GIC's position among the regions.
    Gic(u32),
    /// The second mark: the base edition.
    Edition(u32),
    /// The third mark: the format.
    Format(u32),
    /// A configured region.
    Region(Region),
    /// The id of a base zone.
    Zone(u32),
    /// A region in a set of the last base zone.
    Held(Side, Region),
    /// A request.
    Request(Request),
}

/// What a plan says, as far as it reads.
///
/// ```
/// use peatmitten::{Counted, Field, ReadFault, Reading};
///
/// let reading = Reading::of(&[3, 0, 0, 0, 7, 0, 0, 0, 9]);
/// assert_eq!(reading.fields, [(0, Field::Count(Counted::Marks, 3)), (4, Field::Gic(7))]);
/// assert_eq!(reading.end, Err(ReadFault::Cut { offset: 8 }));
/// ```
#[derive(Clone, Debug, PartialEq, Eq)]
pub struct Reading {
    /// The fields in order, each with its offset.
    pub fields: Vec<(u64, Field)>,
    /// How long the plan is, if it reads whole; else why it does not.
    pub end: Result<u64, ReadFault>,
}

impl Reading {
    /// Reads a plan.
    pub fn of(plan: &[u8]) -> Reading {
        let end = read_plan(plan).map(|_| plan.len() as u64);
        let stop = match &end {
            Ok(length) => *length,
            Err(fault) => fault.offset(),
        };
        let mut fields = Fields { left: plan, at: 0, stop, found: Vec::new() };
        // Nothing more to read is the end of every plan; where it was, `end` says.
        let _ = fields.sections();
        assert_eq!(fields.at, stop, "the library reads plans otherwise than this crate");
        Reading { fields: fields.found, end }
    }
}

impl State {
    /// The base that a plan is for: a terminal with its configuration, its edition and its zones. A plan that does not read whole has
    /// none (20 to 22), and neither has one whose configuration or zones are unsound (1, 2).
    ///
    /// ```
    /// use peatmitten::{PlanRefusal, ReadFault, State};
    ///
    /// assert_eq!(State::base_of(&[]), Err(PlanRefusal::Read(ReadFault::Cut { offset: 0 })));
    /// ```
    pub fn base_of(plan: &[u8]) -> Result<State, PlanRefusal> {
        let reading = Reading::of(plan);
        reading.end.map_err(PlanRefusal::Read)?;
        let mut state = State::new(config_of(&reading.fields)?);
        for (_, field) in &reading.fields {
            if let Field::Edition(edition) = field {
                state.edition = *edition;
            }
        }
        state.table = table_of(&state.config, &reading.fields).map_err(|_| PlanRefusal::UnsoundTable)?;
        match state.clone().apply(plan) {
            Ok(_) | Err(PlanRefusal::NoNextEdition | PlanRefusal::Request { .. }) => Ok(state),
            Err(refusal) => panic!("the library finds that a plan is not for its own base: {refusal}"),
        }
    }
}

fn config_of(fields: &[(u64, Field)]) -> Result<Config, PlanRefusal> {
    let mut gic = 0;
    let mut regions = Vec::new();
    for (_, field) in fields {
        match field {
            Field::Gic(position) => gic = u64::from(*position),
            Field::Region(region) => regions.push(*region),
            _ => {}
        }
    }
    let config = Config::new(&regions, gic).expect("the library has judged the count of regions");
    config.check().map(|()| config).map_err(|_| PlanRefusal::UnsoundConfig)
}

/// The table of these zones, made by requests in their order. All are accepted exactly if the table is sound: part of a sound table is
/// sound, and a request keeps a table sound.
fn table_of(config: &Config, fields: &[(u64, Field)]) -> Result<Table, Refusal> {
    let mut table = Table::new();
    let mut zone = 0;
    for (_, field) in fields {
        match field {
            Field::Zone(id) => {
                zone = *id;
                table.request(config, Request::add_zone(zone))?;
            }
            Field::Held(side, region) => table.request(config, Request::insert(zone, *side, *region))?,
            _ => {}
        }
    }
    Ok(table)
}

/// The requests of a log, each with the answer that is claimed of it. Whether the claims hold, [`check_log`] says.
///
/// ```
/// use peatmitten::{claims_of, ReadFault};
///
/// assert_eq!(claims_of(&[3, 0, 0, 0, 0]), Err(ReadFault::Cut { offset: 4 }));
/// ```
pub fn claims_of(log: &[u8]) -> Result<Vec<(Request, u32)>, ReadFault> {
    let (mut config, mut table) = (Config::from_words([0; CONFIG_WORDS]), Table::new());
    if let Err(LogRefusal::Read(fault)) = check_log(&mut config, &mut table, log, &mut []) {
        return Err(fault);
    }
    let mut fields = Fields { left: log, at: 0, stop: log.len() as u64, found: Vec::new() };
    let claims = fields.sections().and_then(|()| fields.claims()).expect("the library has read the log");
    let requests = fields.found.into_iter().filter_map(|(_, field)| match field {
        Field::Request(request) => Some(request),
        _ => None,
    });
    Ok(requests.zip(claims).collect())
}

/// Reads field after field, up to where the library stops.
struct Fields<'a> {
    left: &'a [u8],
    at: u64,
    stop: u64,
    found: Vec<(u64, Field)>,
}

impl Fields<'_> {
    /// None where there is nothing more to read.
    fn sections(&mut self) -> Option<()> {
        self.count(Counted::Marks)?;
        self.short(Field::Gic)?;
        self.short(Field::Edition)?;
        self.short(Field::Format)?;
        for _ in 0..self.count(Counted::Regions)? {
            self.region(Field::Region)?;
        }
        for _ in 0..self.count(Counted::Zones)? {
            self.short(Field::Zone)?;
            for side in [Side::Cpu, Side::Iommu] {
                for _ in 0..self.count(Counted::Held(side))? {
                    self.region(|region| Field::Held(side, region))?;
                }
            }
        }
        for _ in 0..self.count(Counted::Requests)? {
            self.request()?;
        }
        Some(())
    }

    /// What a log has behind a plan's sections: as many numbers as their count says.
    fn claims(&mut self) -> Option<Vec<u32>> {
        let count = u32::from_le_bytes(self.take()?);
        (0..count).map(|_| self.take().map(u32::from_le_bytes)).collect()
    }

    fn count(&mut self, counted: Counted) -> Option<u32> {
        self.short(|number| Field::Count(counted, number))
    }

    fn short(&mut self, field: impl FnOnce(u32) -> Field) -> Option<u32> {
        let number = u32::from_le_bytes(self.take()?);
        self.found(4, field(number));
        Some(number)
    }

    fn region(&mut self, field: impl FnOnce(Region) -> Field) -> Option<()> {
        let region = self.take_region()?;
        self.found(Region::BYTES, field(region));
        Some(())
    }

    fn request(&mut self) -> Option<()> {
        let kind = u32::from_le_bytes(self.take()?);
        let zone = u32::from_le_bytes(self.take()?);
        let region = self.take_region()?;
        self.found(4 + 4 + Region::BYTES, Field::Request(Request::from_numbers(kind, zone, region)));
        Some(())
    }

    fn take_region(&mut self) -> Option<Region> {
        let mut words = [0; Region::WORDS];
        for word in &mut words {
            *word = u64::from_le_bytes(self.take()?);
        }
        Some(Region::from_words(words))
    }

    fn take<const N: usize>(&mut self) -> Option<[u8; N]> {
        if self.at == self.stop {
            return None;
        }
        let (bytes, left) = self.left.split_first_chunk()?;
        self.left = left;
        Some(*bytes)
    }

    /// A field of so many bytes has been read.
    fn found(&mut self, bytes: u64, field: Field) {
        self.found.push((self.at, field));
        self.at += bytes;
    }
}
