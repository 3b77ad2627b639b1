//! Must-fail edits: which text of which file each changes. `rt ci` makes each in a copy of its crate, which the prover must refuse.

use std::collections::BTreeMap;
use std::fs;
use std::path::Path;

/// One text in the place of another.
#[derive(Debug, PartialEq, Eq)]
pub struct Change {
    pub file: String,
    pub old: String,
    pub new: String,
}

/// An edit of a crate: crates/CRATE/must-fail/NAME.edit.
#[derive(Debug, PartialEq, Eq)]
pub struct Edit {
    pub krate: String,
    pub name: String,
    pub changes: Vec<Change>,
}

impl Edit {
    /// Reads the edit CRATE/NAME.
    pub fn read(crates: &Path, krate: &str, name: &str) -> Result<Edit, String> {
        let said = |what: &str| format!("{krate}/{name}: {what}");
        let path = folder_of(&crates.join(krate)).join(format!("{name}.edit"));
        let text = fs::read_to_string(path).map_err(|error| said(&error.to_string()))?;
        let changes = changes(&text).map_err(|fault| said(&fault))?;
        Ok(Edit { krate: krate.into(), name: name.into(), changes })
    }

    /// What is wrong, if a text that it changes does not stand once in its file, as the changes before it leave that.
    pub fn fault(&self, crates: &Path) -> Option<String> {
        let mut files = BTreeMap::new();
        self.changes.iter().find_map(|change| {
            let path = crates.join(&self.krate).join(&change.file);
            let text = match files.remove(&change.file) {
                Some(text) => Ok(text),
                None => fs::read_to_string(path).map_err(|error| format!("{}: {error}", change.file)),
            };
            let fault = match text.and_then(|text| changed(&text, change)) {
                Ok(text) => {
                    files.insert(change.file.clone(), text);
                    return None;
                }
                Err(fault) => fault,
            };
            Some(format!("{}/{}: {fault}", self.krate, self.name))
        })
    }
}

/// Where a crate's edits stand.
fn folder_of(krate: &Path) -> std::path::PathBuf {
    krate.join("must-fail")
}

/// All edits, as CRATE and NAME, in order. A file there that is no edit is a fault.
pub fn all(crates: &Path) -> Result<Vec<(String, String)>, String> {
    let read = |path: &Path| fs::read_dir(path).map_err(|error| format!("{}: {error}", path.display()));
    let mut found = Vec::new();
    for krate in read(crates)?.flatten() {
        let folder = folder_of(&krate.path());
        if !folder.is_dir() {
            continue;
        }
        for file in read(&folder)?.flatten() {
            let file = file.file_name().to_string_lossy().into_owned();
            let name = file.strip_suffix(".edit").ok_or(format!("{}: no edit", folder.join(&file).display()))?;
            found.push((krate.file_name().to_string_lossy().into_owned(), name.to_string()));
        }
    }
    found.sort();
    Ok(found)
}

/// The changes that an edit's lines say: a `file:` holds for each `old:` and `new:` after it.
fn changes(text: &str) -> Result<Vec<Change>, String> {
    let (mut file, mut old, mut changes) = (None, None, Vec::new());
    for line in text.lines() {
        if let Some(name) = line.strip_prefix("file: ") {
            file = Some(name);
        } else if let Some(text) = line.strip_prefix("old: ") {
            old = Some(text);
        } else if let Some(text) = line.strip_prefix("new:") {
            let (Some(file), Some(old)) = (file, old.take()) else {
                return Err("a `new:` without its `file:` and `old:`".into());
            };
            let new = text.strip_prefix(' ').unwrap_or(text);
            changes.push(Change { file: file.into(), old: old.into(), new: new.into() });
        }
    }
    match old {
        Some(_) => Err("an `old:` without its `new:`".into()),
        None if changes.is_empty() => Err("it changes nothing".into()),
        None => Ok(changes),
    }
}

/// The text with the change, whose old text stands there once.
fn changed(text: &str, change: &Change) -> Result<String, String> {
    match text.matches(&change.old).count() {
        1 => Ok(text.replacen(&change.old, &change.new, 1)),
        times => Err(format!("its old line stands {times} times in {}", change.file)),
    }
}

#[cfg(test)]
mod tests {
    use super::*;

    const SOURCE: &str =
        "const A: u64 = 1;\n\npub fn one(x: u64) -> u64\n    ensures { x }\n{\n    x + A\n}\n\nfn two() {\n    one(2);\n}\n";

    #[test]
    fn lines_of_an_edit() {
        let text = "a comment\nfile: src/lib.rt\nold: x + A\nnew: x\nold: 3\nnew:\n";
        let change = |old: &str, new: &str| Change { file: "src/lib.rt".into(), old: old.into(), new: new.into() };
        assert_eq!(changes(text), Ok(vec![change("x + A", "x"), change("3", "")]));
    }

    #[test]
    fn edits_that_say_too_little() {
        for text in
            ["", "file: a\n", "old: a\nnew: b\n", "file: a\nnew: b\n", "file: a\nold: b\n", "file: a\nold: b\nnew: c\nnew: d\n"]
        {
            assert!(changes(text).is_err(), "{text:?}");
        }
    }

    #[test]
    fn a_text_is_changed_where_it_stands_once() {
        let change = |old: &str| Change { file: "f".into(), old: old.into(), new: "y".into() };
        assert_eq!(changed("a x b", &change("x")), Ok("a y b".into()));
        assert!(changed("a x b x", &change("x")).is_err());
        assert!(changed("a b", &change("x")).is_err());
    }

    /// Crates, of which `k` has a source and an edit.
    fn some_crates(name: &str) -> std::path::PathBuf {
        let crates = std::env::temp_dir().join(format!("peatmitten-checks-{}-{name}", std::process::id()));
        for part in ["k/src", "k/must-fail", "other/src"] {
            fs::create_dir_all(crates.join(part)).expect("a folder");
        }
        fs::write(crates.join("k/src/lib.rt"), SOURCE).expect("a file");
        fs::write(crates.join("k/must-fail/less.edit"), "file: src/lib.rt\nold: x + A\nnew: x\n").expect("a file");
        crates
    }

    fn edit(file: &str, pairs: &[(&str, &str)]) -> Edit {
        let change = |&(old, new): &(&str, &str)| Change { file: file.into(), old: old.into(), new: new.into() };
        Edit { krate: "k".into(), name: "e".into(), changes: pairs.iter().map(change).collect() }
    }

    #[test]
    fn edits_are_found_and_read() {
        let crates = some_crates("found");
        assert_eq!(all(&crates), Ok(vec![("k".into(), "less".into())]));
        let read = Edit::read(&crates, "k", "less");
        assert_eq!(read.map(|edit| edit.changes), Ok(edit("src/lib.rt", &[("x + A", "x")]).changes));
        assert!(Edit::read(&crates, "k", "none").is_err());
        fs::write(crates.join("k/must-fail/more.txt"), "").expect("a file");
        assert!(all(&crates).is_err());
        fs::remove_dir_all(crates).expect("the folder is removed");
    }

    #[test]
    fn faults_of_edits_are_told() {
        let crates = some_crates("faults");
        let fault = |file: &str, pairs: &[(&str, &str)]| edit(file, pairs).fault(&crates);
        assert_eq!(fault("src/lib.rt", &[("x + A", "0"), ("one(2)", "0")]), None);
        assert_eq!(fault("src/lib.rt", &[("x + A", "y * A"), ("y * A", "0")]), None);
        assert!(fault("src/lib.rt", &[("x + A", "0"), ("x + A", "1")]).is_some());
        assert!(fault("src/lib.rt", &[("one", "0")]).is_some());
        assert!(fault("src/none.rt", &[("x", "0")]).is_some());
        fs::remove_dir_all(crates).expect("the folder is removed");
    }
}
