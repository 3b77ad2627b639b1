//! States as bytes and in files, and what plans say.

use std::fs;
use std::io::ErrorKind;
use std::mem::size_of;
use std::path::PathBuf;

use peatmitten::limits::LONGEST_PLAN;
use peatmitten::{Config, Counted, Field, PlanRefusal, ReadFault, Reading, Refusal, Region, Request, Side, State, STATE_BYTES};

const GIC: Region = Region::new(0x0800_0000, 0x0800_0000, 0x1_0000, 3);

const FIRST_PLAN: &[u8] = include_bytes!("../../../examples/first.plan");
const REFUSED_PLAN: &[u8] = include_bytes!("../../../examples/refused.plan");
const UNSOUND_PLAN: &[u8] = include_bytes!("../../../examples/unsound.plan");

fn first_state() -> State {
    State::new(Config::new(&[GIC], 0).expect("one region"))
}

/// A folder of this test's own, which is removed when the test ends.
struct Folder(PathBuf);

impl Folder {
    fn new(name: &str) -> Folder {
        let folder = std::env::temp_dir().join(format!("peatmitten-{}-{name}", std::process::id()));
        fs::create_dir(&folder).expect("a folder for temporary files");
        Folder(folder)
    }
}

impl Drop for Folder {
    fn drop(&mut self) {
        fs::remove_dir_all(&self.0).expect("the folder can be removed");
    }
}

#[test]
fn a_state_is_stored_as_it_lies_in_memory() {
    assert_eq!(STATE_BYTES, size_of::<State>());
    let mut state = first_state();
    state.edition = 0x0102_0304;
    let bytes = state.to_bytes();
    assert_eq!(bytes[..8], [1, 0, 0, 0, 0, 0, 0, 0]);
    assert_eq!(bytes[16..24], [0, 0, 0, 8, 0, 0, 0, 0]);
    assert_eq!(bytes[STATE_BYTES - 8..], [4, 3, 2, 1, 0, 0, 0, 0]);
    assert_eq!(State::from_bytes(&bytes), Some(state));
    assert_eq!(State::from_bytes(&bytes[1..]), None);
}

#[test]
fn a_state_file() {
    let folder = Folder::new("file");
    let path = folder.0.join("state");
    assert_eq!(State::load(&path).expect_err("there is no file").kind(), ErrorKind::NotFound);
    let mut state = first_state();
    state.save(&path).expect("the file can be written");
    assert_eq!(state.apply(FIRST_PLAN), Ok(1));
    assert_eq!(State::load(&path).expect("the file is there"), first_state());
    state.save(&path).expect("the file can be replaced");
    assert_eq!(State::load(&path).expect("the file is there"), state);
    assert_eq!(fs::read_dir(&folder.0).expect("the folder is there").count(), 1);
}

#[test]
fn what_is_no_state_file_is_named() {
    let folder = Folder::new("named");
    let path = folder.0.join("short");
    fs::write(&path, FIRST_PLAN).expect("the file can be written");
    let fault = State::load(&path).expect_err("it is a plan");
    assert_eq!(fault.to_string(), format!("{} is no state file: a state has {STATE_BYTES} bytes", path.display()));
    let fault = first_state().save(&folder.0.join("none/state")).expect_err("there is no such folder");
    assert!(fault.to_string().starts_with(&format!("cannot open {}/none/state.new: ", folder.0.display())), "{fault}");
    let fault = first_state().save(&folder.0).expect_err("it is a folder");
    assert!(fault.to_string().starts_with(&format!("cannot replace {}: ", folder.0.display())), "{fault}");
    fs::remove_file(folder.0.with_extension("new")).expect("the file beside was written");
}

#[test]
fn what_a_plan_says() {
    let reading = Reading::of(FIRST_PLAN);
    assert_eq!(reading.end, Ok(100));
    assert_eq!(
        reading.fields,
        [
            (0, Field::Count(Counted::Marks, 3)),
            (4, Field::Gic(0)),
            (8, Field::Edition(0)),
            (12, Field::Format(2)),
            (16, Field::Count(Counted::Regions, 1)),
            (20, Field::Region(GIC)),
            (52, Field::Count(Counted::Zones, 0)),
            (56, Field::Count(Counted::Requests, 1)),
            (60, Field::Request(Request::add_zone(5))),
        ]
    );
    let held: Vec<_> = Reading::of(REFUSED_PLAN).fields.into_iter().filter(|(_, field)| matches!(field, Field::Held(..))).collect();
    let memory = Region::new(0x4000_0000, 0x8000_0000, 0x20_0000, 3);
    assert_eq!(
        held,
        [(160, Field::Held(Side::Cpu, memory)), (196, Field::Held(Side::Iommu, memory)), (228, Field::Held(Side::Iommu, GIC))]
    );
}

#[test]
fn a_plan_is_told_up_to_where_it_stops() {
    let whole = Reading::of(REFUSED_PLAN);
    for length in 0..REFUSED_PLAN.len() {
        let reading = Reading::of(&REFUSED_PLAN[..length]);
        let Err(ReadFault::Cut { offset }) = reading.end else { panic!("{length} bytes: {:?}", reading.end) };
        assert!(reading.fields.iter().all(|(at, _)| *at < offset));
        assert_eq!(reading.fields, whole.fields[..reading.fields.len()]);
        assert_eq!(whole.fields[reading.fields.len()].0, offset);
    }
    let longer = vec![0; LONGEST_PLAN + 1];
    assert_eq!(Reading::of(&longer), Reading { fields: Vec::new(), end: Err(ReadFault::Count { offset: 0 }) });
}

#[test]
fn the_base_of_a_plan() {
    assert_eq!(State::base_of(FIRST_PLAN), Ok(first_state()));
    let mut base = State::base_of(REFUSED_PLAN).expect("its base is sound");
    assert_eq!((base.edition, base.config.gic(), base.config.regions().count(), base.table.zones().count()), (7, 3, 4, 1));
    assert_eq!(base.apply(REFUSED_PLAN), Err(PlanRefusal::Request { index: 2, refusal: Refusal::PhysicalOverlap }));
    assert_eq!(State::base_of(UNSOUND_PLAN), Err(PlanRefusal::UnsoundTable));
    let mut bad_gic = FIRST_PLAN.to_vec();
    bad_gic[4] = 1;
    assert_eq!(State::base_of(&bad_gic), Err(PlanRefusal::UnsoundConfig));
    assert_eq!(State::base_of(&FIRST_PLAN[..99]), Err(PlanRefusal::Read(ReadFault::Cut { offset: 60 })));
    let mut last = FIRST_PLAN.to_vec();
    last[8..12].fill(0xff);
    assert_eq!(State::base_of(&last).map(|state| state.edition), Ok(u32::MAX));
}
