//! Plans, logs and state files at a shell, for people who test an agent, make plans or stand at a service desk: `./peatmitten run`, `base`,
//! `show`, `write`, `plan`, `differ`, `map` and `log`. Every number, place and byte is the library's; this program reads arguments and files, prints,
//! and draws the map from the library's listing.
//!
//! The exit status is 0 for a plan that is accepted (`show`: that reads whole; `differ`: that is for the terminal's base) and for a log whose
//! claims all hold, 1 for one that is refused, and 2 where an argument or a file is not as it should be, or what is printed cannot be written.

mod differ;
mod log;
mod map;
mod show;
mod text;

use std::env;
use std::ffi::{OsStr, OsString};
use std::fs::{self, File};
use std::io::{self, IsTerminal, Read, Write};
use std::os::unix::fs::MetadataExt;
use std::path::Path;
use std::process::ExitCode;

use peatmitten::limits::{LONGEST_LOG, LONGEST_PLAN};
use peatmitten::{base_edition, check_log, first_difference, replace_file};
use peatmitten::{Config, PlanRefusal, Reading, Region, Request, State, Table, CONFIG_WORDS};

const USAGE: &str =
    "usage: peatmitten run [--words] STATE PLAN... | base PLAN >STATE | show PLAN | write TEXT >PLAN | plan FROM WANTED >PLAN | \
    differ STATE PLAN | map PLAN >SVG | log LOG [ZONES]";

/// More bytes than the text of the longest plan has.
const LONGEST_TEXT: u64 = 1 << 24;

/// Whether all was accepted; or what is not as it should be.
type Answer = Result<bool, String>;

fn main() -> ExitCode {
    let arguments: Vec<OsString> = env::args_os().skip(1).collect();
    match answer(&arguments) {
        Ok(true) => ExitCode::SUCCESS,
        Ok(false) => ExitCode::from(1),
        Err(fault) => {
            complain(&fault);
            ExitCode::from(2)
        }
    }
}

fn answer(arguments: &[OsString]) -> Answer {
    let Some((command, rest)) = arguments.split_first() else { return Err(USAGE.to_string()) };
    match (command.to_str(), rest) {
        (Some("run"), [words, state, plans @ ..]) if words == "--words" && !plans.is_empty() => run(state, plans, true),
        (Some("run"), [state, plans @ ..]) if state != "--words" && !plans.is_empty() => run(state, plans, false),
        (Some("base"), [plan]) => base(plan),
        (Some("show"), [plan]) => show(plan),
        (Some("write"), [text]) => write(text),
        (Some("differ"), [state, plan]) => differ(state, plan),
        (Some("plan"), [from, wanted]) => plan(from, wanted),
        (Some("map"), [plan]) => map(plan),
        (Some("log"), [log]) => check(log, None),
        (Some("log"), [log, zones]) => check(log, Some(zones)),
        _ => Err(USAGE.to_string()),
    }
}

/// Applies plans in turn to the state in a file, and prints a line for each. An accepted plan's state is in the file before its
/// line is printed.
fn run(state_path: &OsStr, plans: &[OsString], words: bool) -> Answer {
    let state_path = Path::new(state_path);
    let mut state = State::load(state_path).map_err(|fault| fault.to_string())?;
    let mut all_accepted = true;
    for plan in plans {
        let answer = state.apply(&bytes_of(plan)?);
        if answer.is_ok() {
            state.save(state_path).map_err(|fault| fault.to_string())?;
        }
        all_accepted &= answer.is_ok();
        let told = if words { format!(": {}", in_words(&answer)) } else { String::new() };
        print(format!("{}, edition {}{told}\n", numbers(&answer), state.edition).as_bytes())?;
    }
    Ok(all_accepted)
}

/// Writes the state that a plan is for.
fn base(plan: &OsStr) -> Answer {
    if io::stdout().is_terminal() {
        return Err("base writes a state file, not text: ./peatmitten base PLAN >STATE".to_string());
    }
    match State::base_of(&bytes_of(plan)?) {
        Ok(state) => print(&state.to_bytes()).map(|()| true),
        Err(refusal) => {
            let name = Path::new(plan).display();
            complain(&format!("{name} has no base: {}: {refusal}", numbers(&Err(refusal))));
            Ok(false)
        }
    }
}

fn show(plan: &OsStr) -> Answer {
    let reading = Reading::of(&bytes_of(plan)?);
    print(show::lines(&reading).as_bytes())?;
    Ok(reading.end.is_ok())
}

/// Writes the plan whose contents a text says. Nothing is written where a line is not understood, or where there is no such plan.
fn write(path: &OsStr) -> Answer {
    if io::stdout().is_terminal() {
        return Err("write writes a plan, not text: ./peatmitten write TEXT >PLAN".to_string());
    }
    let mut asked = text_of(path)?;
    write_plan(path, &mut asked.base, &asked.requests)
}

/// Writes the plan that leads from the zones of one text to those of another. Of the second, which is for the same configuration, the edition is
/// not looked at, and of neither are the requests.
fn plan(from: &OsStr, wanted: &OsStr) -> Answer {
    if io::stdout().is_terminal() {
        return Err("plan writes a plan, not text: ./peatmitten plan FROM WANTED >PLAN".to_string());
    }
    if from == "-" && wanted == "-" {
        return Err("only one of the two texts can be standard input".to_string());
    }
    let mut base = text_of(from)?.base;
    let aim = text_of(wanted)?.base;
    if base.config != aim.config {
        return Err(format!("{} is for another configuration than {}", Path::new(wanted).display(), Path::new(from).display()));
    }
    match base.table.requests_to(&base.config, &aim.table) {
        Ok(requests) => write_plan(from, &mut base, &requests),
        Err(refusal) => {
            complain(&format!("{} to {}: {}: {refusal}", Path::new(from).display(), Path::new(wanted).display(), refusal.number()));
            Ok(false)
        }
    }
}

/// What a text says.
fn text_of(path: &OsStr) -> Result<text::Asked, String> {
    let name = Path::new(path).display();
    let bytes = at_most(path, LONGEST_TEXT)?;
    let text = String::from_utf8(bytes).map_err(|_| format!("{name} is no text"))?;
    text::read(&text).map_err(|fault| format!("{name}, line {}: {}", fault.line, fault.text))
}

/// Writes the plan for a base that came from a text, or says why there is none.
fn write_plan(path: &OsStr, base: &mut State, requests: &[Request]) -> Answer {
    match base.plan(requests) {
        Ok(plan) => print(&plan).map(|()| true),
        Err(refusal) => {
            let name = Path::new(path).display();
            complain(&format!("{name}: {} {} {}: {refusal}", refusal.number(), refusal.place(), refusal.inner()));
            Ok(false)
        }
    }
}

/// Says where a plan's base differs from the terminal in a state file: first the number that comes before any zones are looked at, if one does,
/// and then the first zone, side and region. The plan is not applied.
fn differ(state_path: &OsStr, plan_path: &OsStr) -> Answer {
    let state = State::load(Path::new(state_path)).map_err(|fault| fault.to_string())?;
    let plan = bytes_of(plan_path)?;
    let answer = state.clone().apply(&plan);
    let refused = |refusal: &PlanRefusal| format!("{}: {refusal}\n", numbers(&Err(*refusal)));
    let section = match (&answer, state.zones_section()) {
        // Bytes that are no plan have no zones to compare, and neither has a terminal that is unsound.
        (Err(refusal @ (PlanRefusal::Read(_) | PlanRefusal::UnsoundConfig | PlanRefusal::UnsoundTable)), _) => {
            let text = refused(refusal) + "so there are no zones to compare\n";
            return print(text.as_bytes()).map(|()| false);
        }
        (_, Ok(section)) => section,
        (_, Err(refusal)) => panic!("the library applies a plan to zones that it does not write: {refusal}"),
    };
    // 23, 24 and 25 are judged before the zones, which are compared all the same.
    let mut text = match &answer {
        Err(
            refusal @ (PlanRefusal::OtherConfig | PlanRefusal::OtherEdition | PlanRefusal::NoNextEdition | PlanRefusal::OtherZones),
        ) => refused(refusal),
        _ => String::new(),
    };
    if let Err(PlanRefusal::OtherEdition) = answer {
        let named = base_edition(&plan).expect("the library has read the plan");
        text += &format!("the terminal is at edition {}, and the plan is for edition {named}\n", state.edition);
    }
    let difference = first_difference(&plan, &section).expect("the library has read the plan");
    text += &match &difference {
        Some(difference) => differ::lines(&state, &plan, difference),
        None => format!("the zones are the same: {}\n", differ::count_of(&state)),
    };
    print(text.as_bytes())?;
    let other_base = matches!(answer, Err(PlanRefusal::OtherConfig | PlanRefusal::OtherEdition));
    Ok(difference.is_none() && !other_base)
}

/// Draws the table that a plan leaves, applied to the state that it is for.
fn map(plan: &OsStr) -> Answer {
    if io::stdout().is_terminal() {
        return Err("map draws a picture, not text: ./peatmitten map PLAN >map.svg".to_string());
    }
    let bytes = bytes_of(plan)?;
    let applied = State::base_of(&bytes).and_then(|mut state| state.apply(&bytes).map(|_| state));
    match applied {
        Ok(State { config, table, .. }) => {
            let listing = table.listing(&config).map_err(|refusal| refusal.to_string())?;
            let gic = config.regions().nth(config.gic() as usize).ok_or("a sound configuration has its GIC")?;
            print(map::svg(&listing, stretch(&gic)).as_bytes()).map(|()| true)
        }
        Err(refusal) => {
            complain(&format!("{} has no map: {}: {refusal}", Path::new(plan).display(), numbers(&Err(refusal))));
            Ok(false)
        }
    }
}

/// Says which claim of a log is false, or that all hold and which zones there are at the end. Where a file is named for them, their section is in it
/// before anything is printed; it stays as it was where a claim is false or the bytes are no log.
fn check(path: &OsStr, zones: Option<&OsStr>) -> Answer {
    if let Some(zones) = zones {
        may_be_replaced(zones, path)?;
    }
    let log = at_most(path, LONGEST_LOG as u64 + 1)?;
    let (mut config, mut table) = (Config::from_words([0; CONFIG_WORDS]), Table::new());
    let mut section = vec![0; LONGEST_PLAN];
    let answer = check_log(&mut config, &mut table, &log, &mut section);
    if let (Ok(length), Some(zones)) = (&answer, zones) {
        replace_file(Path::new(zones), &section[..*length]).map_err(|fault| fault.to_string())?;
    }
    print(log::lines(&log, &answer, &table).as_bytes())?;
    Ok(answer.is_ok())
}

/// Whether a file may be put in this one's place: what is no file stays, and the log too, also where it has the name under which the new file is
/// written first.
fn may_be_replaced(file: &OsStr, log: &OsStr) -> Result<(), String> {
    if file == "-" {
        return Err("the zones go into a file: ./peatmitten log LOG ZONES".to_string());
    }
    let log = fs::metadata(if log == "-" { OsStr::new("/dev/stdin") } else { log });
    let mut beside = file.to_os_string();
    beside.push(".new");
    for path in [file, &beside].map(Path::new) {
        let Ok(there) = fs::metadata(path) else { continue };
        if !there.is_file() {
            return Err(format!("cannot replace {}: it is no file", path.display()));
        }
        if log.as_ref().is_ok_and(|log| (log.dev(), log.ino()) == (there.dev(), there.ino())) {
            return Err(format!("{} is the log, and would be lost", path.display()));
        }
    }
    Ok(())
}

/// Where a region lies in physical memory.
fn stretch(region: &Region) -> (u64, u64) {
    (region.p.0, region.p.0 + region.size)
}

/// Number, place and inner number, as `./peatmitten apply` prints them.
fn numbers(answer: &Result<u64, PlanRefusal>) -> String {
    match answer {
        Ok(requests) => format!("0 {requests} 0"),
        Err(refusal) => format!("{} {} {}", refusal.number(), refusal.place(), refusal.inner()),
    }
}

fn in_words(answer: &Result<u64, PlanRefusal>) -> String {
    match answer {
        Ok(1) => "accepted, 1 request".to_string(),
        Ok(requests) => format!("accepted, {requests} requests"),
        Err(refusal) => refusal.to_string(),
    }
}

/// The bytes of a plan file, or of standard input. One more than a plan can have is enough to see that a file is longer.
fn bytes_of(plan: &OsStr) -> Result<Vec<u8>, String> {
    at_most(plan, LONGEST_PLAN as u64 + 1)
}

/// So many bytes of a file, or of standard input.
fn at_most(path: &OsStr, most: u64) -> Result<Vec<u8>, String> {
    let because = |doing: &str, fault: io::Error| format!("cannot {doing} {}: {fault}", Path::new(path).display());
    let source: Box<dyn Read> =
        if path == "-" { Box::new(io::stdin()) } else { Box::new(File::open(path).map_err(|fault| because("open", fault))?) };
    let mut bytes = Vec::new();
    source.take(most).read_to_end(&mut bytes).map_err(|fault| because("read", fault))?;
    Ok(bytes)
}

fn print(bytes: &[u8]) -> Result<(), String> {
    let mut output = io::stdout().lock();
    let written = output.write_all(bytes).and_then(|()| output.flush());
    written.map_err(|fault| format!("cannot write standard output: {fault}"))
}

/// Where standard error cannot be written either, the exit status has to do.
fn complain(text: &str) {
    let _ = writeln!(io::stderr(), "peatmitten: {text}");
}
