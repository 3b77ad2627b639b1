//! What the tests ask of the repository's own files.
//!
//!     checks documents     whether documents say what is so
//!     checks edits         whether each must-fail edit says which text it changes
//!
//! It is run from the root of the repository, and ends with status 1 where something is wrong.

#![forbid(unsafe_code)]

mod documents;
mod edits;

use std::env;
use std::path::Path;
use std::process::ExitCode;

use documents::Repository;
use edits::Edit;

const USAGE: &str = "usage: checks documents | edits";

/// Every fault of an edit, and how many edits there are.
fn check_edits(crates: &Path) -> Result<String, String> {
    let names = edits::all(crates)?;
    let faults: Vec<String> = names
        .iter()
        .filter_map(|(krate, name)| match Edit::read(crates, krate, name) {
            Ok(edit) => edit.fault(crates),
            Err(fault) => Some(fault),
        })
        .collect();
    if names.is_empty() || !faults.is_empty() {
        return Err(format!("FAILED: {} edits\n{}", names.len(), faults.join("\n")));
    }
    Ok(format!("edits: {}, each changes what stands there", names.len()))
}

fn main() -> ExitCode {
    let arguments: Vec<String> = env::args().skip(1).collect();
    let done = match &arguments.iter().map(String::as_str).collect::<Vec<_>>()[..] {
        ["documents"] => documents::check(&Repository(Path::new("."))).map(|()| "documents: ok".to_string()),
        ["edits"] => check_edits(Path::new("crates")),
        _ => {
            eprintln!("{USAGE}");
            return ExitCode::from(2);
        }
    };
    match done {
        Ok(text) => {
            println!("{text}");
            ExitCode::SUCCESS
        }
        Err(fault) => {
            eprintln!("checks: {fault}");
            ExitCode::FAILURE
        }
    }
}
