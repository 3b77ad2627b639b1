//! The desk examples of document 01 through the types of this crate.

use std::error::Error;
use std::mem::{offset_of, size_of};

use peatmitten::{
    base_edition, base_zones, check_log, claims_of, first_difference, lacking_part, limits, log_zones, raw, read_plan, ByteCount,
    Config, ConfigFault, Difference, Guest, LogRefusal, Physical, PlanRefusal, ReadFault, Refusal, Region, Request, Side, State,
    Table, Translated, WriteRefusal, CONFIG_WORDS, STATE_BYTES, TABLE_WORDS,
};

const A: Region = Region::new(0x4000_0000, 0x8000_0000, 0x20_0000, 3);
const B: Region = Region::new(0x4000_0000, 0x8020_0000, 0x20_0000, 3);
const C: Region = Region::new(0x4010_0000, 0x9000_0000, 0x20_0000, 3);
const G: Region = Region::new(0x0800_0000, 0x0800_0000, 0x1_0000, 3);

const FIRST_PLAN: &[u8] = include_bytes!("../../../examples/first.plan");
const REFUSED_PLAN: &[u8] = include_bytes!("../../../examples/refused.plan");
const CUT_PLAN: &[u8] = include_bytes!("../../../examples/cut.plan");
const OTHER_ZONES_PLAN: &[u8] = include_bytes!("../../../examples/other_zones.plan");
const TRUE_LOG: &[u8] = include_bytes!("../../../examples/true.log");
const FALSE_LOG: &[u8] = include_bytes!("../../../examples/false.log");

fn desk() -> (Config, Table) {
    let config = Config::new(&[A, B, C, G], 3).expect("four regions");
    let mut table = Table::new();
    for zone in [5, 6] {
        assert_eq!(table.request(&config, Request::add_zone(zone)), Ok(()));
    }
    (config, table)
}

fn first_state() -> State {
    State::new(Config::new(&[G], 0).expect("one region"))
}

#[test]
fn the_memory_is_that_of_the_header() {
    assert_eq!(size_of::<State>(), STATE_BYTES);
    assert_eq!(offset_of!(State, config), 0);
    assert_eq!(offset_of!(State, table), 8 * CONFIG_WORDS);
    assert_eq!(offset_of!(State, edition), 8 * (CONFIG_WORDS + TABLE_WORDS));
}

#[test]
fn requests() {
    let (config, mut table) = desk();
    let mut ask = |request| table.request(&config, request);
    assert_eq!(ask(Request::add_zone(5)), Err(Refusal::ZoneThere));
    assert_eq!(ask(Request::add_zone(256)), Err(Refusal::ZoneIdTooHigh));
    assert_eq!(ask(Request::insert(5, Side::Cpu, A)), Ok(()));
    assert_eq!(ask(Request::insert(5, Side::Cpu, A)), Err(Refusal::RegionThere));
    assert_eq!(ask(Request::insert(5, Side::Cpu, C)), Err(Refusal::GuestOverlap));
    assert_eq!(ask(Request::insert(6, Side::Iommu, A)), Err(Refusal::PhysicalOverlap));
    assert_eq!(ask(Request::insert(6, Side::Cpu, B)), Ok(()));
    assert_eq!(ask(Request::insert(5, Side::Cpu, G)), Err(Refusal::OverGic));
    assert_eq!(ask(Request::insert(5, Side::Iommu, G)), Ok(()));
    assert_eq!(ask(Request::insert(6, Side::Iommu, G)), Ok(()));
    assert_eq!(ask(Request::remove_zone(5)), Err(Refusal::ZoneInUse));
    assert_eq!(ask(Request::remove(5, Side::Iommu, A)), Err(Refusal::NoRegion));
    assert_eq!(ask(Request::remove(5, Side::Cpu, A)), Ok(()));
    assert_eq!(ask(Request::remove(5, Side::Iommu, G)), Ok(()));
    assert_eq!(ask(Request::remove_zone(5)), Ok(()));
    assert_eq!(ask(Request::from_numbers(7, 5, A)), Err(Refusal::NoRequest));
    let left: Vec<_> = table.zones().map(|zone| (zone.id(), zone.regions(Side::Cpu).collect::<Vec<_>>())).collect();
    assert_eq!(left, [(6, vec![B])]);
    assert!(table.is_sound(&config));
}

#[test]
fn translation() {
    let (config, mut table) = desk();
    assert_eq!(table.request(&config, Request::insert(5, Side::Iommu, A)), Ok(()));
    let ask = |zone, side, address| table.translate(&config, zone, side, Guest(address));
    let goes_on = |physical, remaining| Ok(Translated { physical: Physical(physical), remaining: ByteCount(remaining) });
    assert_eq!(ask(5, Side::Iommu, 0x4000_0000), goes_on(0x8000_0000, 0x20_0000));
    assert_eq!(ask(5, Side::Iommu, 0x4000_0001), goes_on(0x8000_0001, 0x1f_ffff));
    assert_eq!(ask(5, Side::Iommu, 0x401f_ffff), goes_on(0x801f_ffff, 1));
    assert_eq!(ask(5, Side::Iommu, 0x4020_0000), Err(Refusal::NotCovered));
    assert_eq!(ask(5, Side::Cpu, 0x401f_ffff), Err(Refusal::NotCovered));
    assert_eq!(ask(5, Side::Iommu, u64::MAX), Err(Refusal::NotCovered));
    assert_eq!(ask(7, Side::Iommu, 0), Err(Refusal::NoZone));
    assert_eq!(raw::translate_words(&config, &table, 5, u32::MAX, 0x4000_0000), (0, [0x8000_0000, 0x20_0000]));
    assert_eq!(raw::translate_words(&config, &table, 5, u32::MAX, 0x4020_0000), (18, [0, 0]));
}

#[test]
fn unsound_bases() {
    let (config, mut table) = desk();
    let no_regions = Config::new(&[], 0).expect("few enough regions");
    assert_eq!(no_regions.check(), Err(ConfigFault::Count));
    assert!(!table.is_sound(&no_regions));
    assert_eq!(table.request(&no_regions, Request::add_zone(7)), Err(Refusal::UnsoundConfig));
    let mut twice = *table.words();
    twice[1] = 6;
    let mut twice = Table::from_words(twice);
    assert_eq!(twice.request(&config, Request::add_zone(7)), Err(Refusal::UnsoundTable));
}

#[test]
fn more_regions_than_words() {
    assert!(Config::new(&[A; limits::MOST_REGIONS], 0).is_some());
    assert!(Config::new(&[A; limits::MOST_REGIONS + 1], 0).is_none());
    let mut words = [u64::MAX; peatmitten::CONFIG_WORDS];
    assert_eq!(Config::from_words(words).regions().count(), limits::MOST_REGIONS);
    words[0] = 1;
    assert_eq!(Config::from_words(words).check(), Err(ConfigFault::Gic));
    assert_eq!(Table::from_words([u64::MAX; peatmitten::TABLE_WORDS]).zones().count(), limits::MOST_ZONES);
}

#[test]
fn plans() {
    let mut state = first_state();
    assert_eq!(state.apply(CUT_PLAN), Err(PlanRefusal::Read(ReadFault::Cut { offset: 60 })));
    assert_eq!(state.apply(REFUSED_PLAN), Err(PlanRefusal::OtherConfig));
    assert_eq!(state, first_state());
    assert_eq!(state.apply(FIRST_PLAN), Ok(1));
    assert_eq!(state.apply(FIRST_PLAN), Err(PlanRefusal::OtherEdition));
    assert_eq!((state.edition, state.table.zones().count()), (1, 1));
    assert_eq!(state.apply(&[]), Err(PlanRefusal::Read(ReadFault::Cut { offset: 0 })));
}

#[test]
fn a_refused_request_in_a_plan() {
    let (config, mut table) = desk();
    assert_eq!(table.request(&config, Request::remove_zone(6)), Ok(()));
    assert_eq!(table.request(&config, Request::insert(5, Side::Cpu, A)), Ok(()));
    for region in [A, G] {
        assert_eq!(table.request(&config, Request::insert(5, Side::Iommu, region)), Ok(()));
    }
    let mut state = State { config, table, edition: 7 };
    let before = state.clone();
    let refusal = state.apply(REFUSED_PLAN).expect_err("its third request is refused");
    assert_eq!(refusal, PlanRefusal::Request { index: 2, refusal: Refusal::PhysicalOverlap });
    assert_eq!((refusal.number(), refusal.place(), refusal.inner()), (27, 2, 14));
    assert_eq!(refusal.to_string(), "request 2 is refused: the region overlaps another one physically");
    assert_eq!(state, before);
}

/// What a refusal has inside is its source.
#[test]
fn sources() {
    let inner = |error: &dyn Error| error.source().map(|inner| inner.to_string());
    let overlap = Some("the region overlaps another one physically".to_string());
    let mut state = State::base_of(REFUSED_PLAN).expect("sound contents");
    assert_eq!(inner(&state.apply(REFUSED_PLAN).unwrap_err()), overlap);
    let field = Some("the field at offset 60 is not wholly there".to_string());
    assert_eq!(inner(&state.apply(CUT_PLAN).unwrap_err()), field);
    assert_eq!(inner(&state.apply(FIRST_PLAN).unwrap_err()), None);
    let requests = [Request::add_zone(6), Request::insert(6, Side::Iommu, A)];
    assert_eq!(inner(&state.plan(&requests).unwrap_err()), overlap);
    assert_eq!(inner(&log_zones(FALSE_LOG).unwrap_err()), overlap);
    assert_eq!(inner(&log_zones(&TRUE_LOG[..60]).unwrap_err()), field.map(|text| text.replace("60", "52")));
    assert_eq!(inner(&LogRefusal::FalseClaim { index: 0, claimed: 5, right: Ok(()) }), None);
}

#[test]
fn base_editions() {
    assert_eq!(base_edition(FIRST_PLAN), Ok(0));
    assert_eq!(base_edition(REFUSED_PLAN), Ok(7));
    assert_eq!(base_edition(CUT_PLAN), Ok(0), "nothing behind the marks is looked at");
    for (length, offset) in [(0, 0), (3, 0), (4, 4), (7, 4), (8, 8), (11, 8), (12, 12), (15, 12)] {
        assert_eq!(base_edition(&FIRST_PLAN[..length]), Err(ReadFault::Cut { offset }));
    }
    assert_eq!(base_edition(&[2, 0, 0, 0]), Err(ReadFault::Count { offset: 0 }));
    assert_eq!(base_edition(&[&FIRST_PLAN[..12], &[3, 0, 0, 0]].concat()), Err(ReadFault::Count { offset: 12 }));
    let last = [&FIRST_PLAN[..8], &[0xff; 4], &[2, 0, 0, 0]].concat();
    assert_eq!(base_edition(&last), Ok(u32::MAX));
}

#[test]
fn reading() {
    assert_eq!(read_plan(FIRST_PLAN), Ok(60));
    assert_eq!(read_plan(CUT_PLAN), Err(ReadFault::Cut { offset: 60 }));
    let longer = [FIRST_PLAN, &[0]].concat();
    assert_eq!(read_plan(&longer), Err(ReadFault::Trailing { offset: 100 }));
}

#[test]
fn where_bases_differ() {
    let state = State::base_of(REFUSED_PLAN).expect("it reads whole, and its base is sound");
    let section = state.zones_section().expect("a sound state");
    assert_eq!(base_zones(REFUSED_PLAN), Ok(148..260));
    assert_eq!(section, REFUSED_PLAN[148..260]);
    assert_eq!(first_difference(REFUSED_PLAN, &section), Ok(None));
    assert_eq!(state.clone().apply(OTHER_ZONES_PLAN), Err(PlanRefusal::OtherZones));
    let difference = Difference { offset: 170, place: 22, planned: 0x20, held: Some(0) };
    assert_eq!(first_difference(OTHER_ZONES_PLAN, &section), Ok(Some(difference)));
    assert_eq!(lacking_part(&OTHER_ZONES_PLAN[148..260], &section), &OTHER_ZONES_PLAN[170..260]);
    let cut = Difference { held: None, ..difference };
    assert_eq!(first_difference(OTHER_ZONES_PLAN, &section[..22]), Ok(Some(cut)));
    assert_eq!(first_difference(CUT_PLAN, &section), Err(ReadFault::Cut { offset: 60 }));
    assert_eq!(raw::base_zones(CUT_PLAN), (20, [60, 0]));
    assert_eq!(raw::lacking(&section, &section), (112, [256, 256]));
    let mut short = vec![7; section.len() - 1];
    assert_eq!(state.write_zones(&mut short), Err(WriteRefusal::BufferShort));
    assert!(short.iter().all(|&byte| byte == 7));
}

/// The claims of a plan that is refused as a whole, request by request: 14 is the third's.
#[test]
fn logs() {
    let (mut config, mut table) = desk();
    let base = State::base_of(REFUSED_PLAN).expect("sound contents");
    let mut zones = [7; 200];
    assert_eq!(check_log(&mut config, &mut table, TRUE_LOG, &mut zones), Ok(168));
    assert_eq!(zones[168..], [7; 32]);
    assert_eq!(log_zones(TRUE_LOG), Ok(zones[..168].to_vec()));
    assert_eq!(State { config, table: table.clone(), edition: 0 }.zones_section(), Ok(zones[..168].to_vec()));
    assert_eq!(table.zones().map(|zone| zone.id()).collect::<Vec<_>>(), [5, 6, 7]);
    let claims = claims_of(TRUE_LOG).expect("a log").into_iter();
    assert_eq!(claims.map(|(_, claim)| claim).collect::<Vec<_>>(), [0, 0, 14, 0]);

    let (mut config, mut table) = desk();
    let false_claim = LogRefusal::FalseClaim { index: 2, claimed: 0, right: Err(Refusal::PhysicalOverlap) };
    assert_eq!(check_log(&mut config, &mut table, FALSE_LOG, &mut []), Err(false_claim));
    assert_eq!([false_claim.number(), false_claim.right(), false_claim.claimed()], [30, 14, 0]);
    assert_eq!((false_claim.place(), false_claim.to_string().ends_with("the region overlaps another one physically")), (2, true));
    // What was lent to work in holds the table before that request.
    assert_eq!(config, base.config);
    assert_eq!(table.zones().map(|zone| zone.id()).collect::<Vec<_>>(), [5, 6]);
    assert_eq!(claims_of(FALSE_LOG).expect("a log")[2], (Request::insert(6, Side::Iommu, A), 0));

    assert_eq!(check_log(&mut config, &mut table, TRUE_LOG, &mut []), Err(LogRefusal::BufferShort));
    let kept = (config.clone(), table.clone());
    assert_eq!(check_log(&mut config, &mut table, REFUSED_PLAN, &mut []), Err(LogRefusal::Read(ReadFault::Count { offset: 12 })));
    let more = [TRUE_LOG, &[0]].concat();
    let trailing = LogRefusal::Read(ReadFault::Trailing { offset: TRUE_LOG.len() as u64 });
    assert_eq!(check_log(&mut config, &mut table, &more, &mut []), Err(trailing));
    assert_eq!(trailing.to_string(), format!("the log ends at offset {}, but there are bytes after it", TRUE_LOG.len()));
    assert_eq!((config, table), kept);
    assert_eq!(first_state().apply(TRUE_LOG), Err(PlanRefusal::Read(ReadFault::Count { offset: 12 })));
}

#[test]
fn limits_are_the_librarys() {
    let shared = [
        limits::MOST_REGIONS,
        limits::MOST_ZONES,
        limits::MOST_IN_SET,
        limits::MOST_REQUESTS,
        Region::WORDS,
        limits::LONGEST_PLAN,
        limits::LONGEST_LISTING,
        limits::LONGEST_LOG,
    ];
    for (which, limit) in (0..).zip(shared) {
        assert_eq!(raw::layout(which), limit as u64, "number {which} of the layout");
    }
    assert_eq!(raw::layout(shared.len() as u32), 0);
}
