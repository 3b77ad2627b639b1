//! Makes the stored files by the ordinary implementation: the plan files in `vectors/plans` with what the program `apply` must
//! print of each, the log files in `vectors/logs` with what the program `log_check` must print, those in `examples`, and the answers to all
//! other cases in `vectors/cases.txt`; and for the second machine its plans and cases in `vectors/bank` and `examples/bank`.
//!
//!     plans           writes them
//!     plans --check   makes them again and compares them with the stored ones, byte by byte
//!
//! It ends with status 1 where a file differs, where there is a plan or log file that it does not make, or where the ordinary
//! implementation does not answer what was worked out by hand.

use std::collections::{BTreeMap, BTreeSet};
use std::path::{Path, PathBuf};
use std::process::ExitCode;
use std::{fs, io};

use cases::{bank, example_logs, examples, log_files, named, plan_files, LogFile, Named, PlanFile};

const USAGE: &str = "usage: plans [--check]";

/// What is made for a machine, and where it is stored. The second has no logs.
struct Stored {
    plans: (&'static str, Vec<PlanFile>),
    logs: Option<(&'static str, Vec<LogFile>)>,
    examples: (&'static str, Vec<PlanFile>, Vec<LogFile>),
    cases: (&'static str, Vec<Named>),
}

fn stored() -> [Stored; 2] {
    [
        Stored {
            plans: ("vectors/plans", plan_files()),
            logs: Some(("vectors/logs", log_files())),
            examples: ("examples", examples(), example_logs()),
            cases: ("vectors/cases.txt", named()),
        },
        Stored {
            plans: ("vectors/bank/plans", bank::plan_files()),
            logs: None,
            examples: ("examples/bank", bank::examples(), Vec::new()),
            cases: ("vectors/bank/cases.txt", bank::named()),
        },
    ]
}

/// Files by their paths from the root of the repository.
type Files = BTreeMap<String, Vec<u8>>;

/// All that is made, and every answer that is not the one worked out by hand.
#[derive(Default)]
struct Made {
    files: Files,
    /// Those that hold plans or logs.
    folders: BTreeSet<&'static str>,
    faults: Vec<String>,
    counts: Vec<String>,
}

impl Made {
    fn add(&mut self, stored: &Stored) {
        let (plans_folder, plans) = &stored.plans;
        let (examples_folder, examples, example_logs) = &stored.examples;
        let (cases_file, cases) = &stored.cases;
        self.add_plans(plans_folder, plans);
        self.add_plans(examples_folder, examples);
        self.files.insert(
            format!("{plans_folder}/answers.txt"),
            answers(plans.iter().map(|plan| format!("{}.plan {}", plan.name, plan.answer))),
        );
        self.add_logs(examples_folder, example_logs);
        let mut counts = format!("{} plan files, ", plans.len());
        if let Some((logs_folder, logs)) = &stored.logs {
            self.add_logs(logs_folder, logs);
            self.files.insert(
                format!("{logs_folder}/answers.txt"),
                answers(logs.iter().map(|log| format!("{}.log {}", log.name, log.answer))),
            );
            counts += &format!("{} log files, ", logs.len());
        }
        self.files.insert(cases_file.to_string(), lines(cases.iter().map(Named::line)));
        self.faults.extend(cases.iter().filter_map(Named::fault));
        self.counts.push(format!("{counts}{} examples, {} cases", examples.len() + example_logs.len(), cases.len()));
    }

    fn add_plans(&mut self, folder: &'static str, plans: &[PlanFile]) {
        self.folders.insert(folder);
        self.files.extend(plans.iter().map(|plan| (format!("{folder}/{}.plan", plan.name), plan.bytes.clone())));
        self.faults.extend(plans.iter().filter_map(PlanFile::fault));
    }

    fn add_logs(&mut self, folder: &'static str, logs: &[LogFile]) {
        self.folders.insert(folder);
        self.files.extend(logs.iter().map(|log| (format!("{folder}/{}.log", log.name), log.bytes.clone())));
        self.faults.extend(logs.iter().filter_map(LogFile::fault));
    }
}

fn make() -> Made {
    let mut made = Made::default();
    stored().iter().for_each(|stored| made.add(stored));
    made
}

/// A line for each file, by name, with the numbers of its answer.
fn answers(answers: impl Iterator<Item = String>) -> Vec<u8> {
    let mut answers: Vec<String> = answers.collect();
    answers.sort();
    lines(answers.into_iter())
}

fn lines(lines: impl Iterator<Item = String>) -> Vec<u8> {
    lines.map(|line| line + "\n").collect::<String>().into_bytes()
}

fn root() -> PathBuf {
    Path::new(env!("CARGO_MANIFEST_DIR")).join("../..")
}

/// What is stored and not as it is made, each on a line.
fn differences(made: &Files, folders: &BTreeSet<&str>) -> io::Result<Vec<String>> {
    let root = root();
    let mut differences = Vec::new();
    for (path, content) in made {
        match fs::read(root.join(path)) {
            Ok(stored) if stored == *content => (),
            Ok(stored) => differences.push(difference(path, &stored, content)),
            Err(error) => differences.push(format!("{path} cannot be read: {error}")),
        }
    }
    for folder in folders {
        for entry in fs::read_dir(root.join(folder))? {
            let path = format!("{folder}/{}", entry?.file_name().to_string_lossy());
            if is_bytes(&path) && !made.contains_key(&path) {
                differences.push(format!("{path} is not one of the files that are made"));
            }
        }
    }
    Ok(differences)
}

/// Where a stored text parts from the one that is made.
fn first_line(stored: &[u8], made: &[u8]) -> String {
    let [stored, made] = [stored, made].map(String::from_utf8_lossy);
    let mut pairs = stored.lines().chain(["the end"]).zip(made.lines().chain(["the end"])).enumerate();
    match pairs.find(|(_, (stored, made))| stored != made) {
        Some((at, (stored, made))) => format!("line {} is `{stored}`, and not `{made}`", at + 1),
        None => "it differs in its line ends".into(),
    }
}

/// Whether a file is a plan or a log, and no text.
fn is_bytes(path: &str) -> bool {
    path.ends_with(".plan") || path.ends_with(".log")
}

/// Where a stored plan or log parts from the one that is made.
fn first_byte(stored: &[u8], made: &[u8]) -> String {
    let shared = stored.iter().zip(made).take_while(|(one, other)| one == other).count();
    format!("it is the same up to byte {shared} ({} bytes are stored, {} made)", stored.len(), made.len())
}

fn difference(path: &str, stored: &[u8], made: &[u8]) -> String {
    let parts = if is_bytes(path) { first_byte(stored, made) } else { first_line(stored, made) };
    format!("{path} is not what is made: {parts}")
}

fn write(made: &Files) -> io::Result<()> {
    for (path, content) in made {
        let path = root().join(path);
        fs::create_dir_all(path.parent().expect("the folder of a file"))?;
        fs::write(path, content)?;
    }
    Ok(())
}

fn run(is_check: bool) -> io::Result<Vec<String>> {
    let Made { files, folders, mut faults, counts } = make();
    if is_check {
        faults.extend(differences(&files, &folders)?);
    } else if faults.is_empty() {
        write(&files)?;
    }
    if faults.is_empty() {
        println!("plans: {}, {}", counts.join("; with owners "), if is_check { "all as they are stored" } else { "written" });
    }
    Ok(faults)
}

fn main() -> ExitCode {
    let arguments: Vec<String> = std::env::args().skip(1).collect();
    let is_check = match &arguments.iter().map(String::as_str).collect::<Vec<_>>()[..] {
        [] => false,
        ["--check"] => true,
        _ => {
            eprintln!("{USAGE}");
            return ExitCode::from(2);
        }
    };
    match run(is_check) {
        Ok(faults) if faults.is_empty() => ExitCode::SUCCESS,
        Ok(faults) => {
            faults.iter().for_each(|fault| eprintln!("plans: {fault}"));
            ExitCode::FAILURE
        }
        Err(error) => {
            eprintln!("plans: {error}");
            ExitCode::FAILURE
        }
    }
}
