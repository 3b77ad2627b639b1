//! Documents held against the project: definitions, limits, lengths, counts, bytes, functions and edits that they name are as they are.

use std::collections::BTreeSet;
use std::fs;
use std::path::Path;

/// What is wrong, on a line; or nothing.
type Told = Result<(), String>;

/// The repository's files.
pub struct Repository<'a>(pub &'a Path);

impl Repository<'_> {
    fn text(&self, path: &str) -> Result<String, String> {
        fs::read_to_string(self.0.join(path)).map_err(|error| format!("{path}: {error}"))
    }

    fn line_count(&self, path: &str) -> Result<usize, String> {
        Ok(self.text(path)?.lines().count())
    }
}

/// Every check, in turn; the first fault is told.
pub fn check(repository: &Repository) -> Told {
    names(repository)?;
    limits(repository)?;
    sizes(repository)?;
    counts(repository)?;
    annotated_plan(repository)?;
    functions(repository)?;
    stack(repository)?;
    edits(repository)
}

// ---- docs/RULES.md: what it names

/// `File.name`, or `crate/File.name`: the file's definition, or its record or kind of data.
fn names(repository: &Repository) -> Told {
    let named = definitions_named(&repository.text("docs/RULES.md")?);
    if named.is_empty() {
        return Err("docs/RULES.md names no definition".into());
    }
    for (krate, file, name) in named {
        let path = format!("crates/{krate}/specs/{file}.antt");
        let text = repository.text(&path).map_err(|fault| format!("docs/RULES.md names {file}.{name}, but {fault}"))?;
        if !text.lines().any(|line| defines(line, &name)) {
            return Err(format!("docs/RULES.md names {name}, which is not in {path}"));
        }
    }
    Ok(())
}

/// Crate, file and name of each that a document names in backquotes.
fn definitions_named(document: &str) -> BTreeSet<(String, String, String)> {
    let is_letters = |text: &str| !text.is_empty() && text.chars().all(|c| c.is_ascii_alphabetic());
    let is_word = |text: &str| !text.is_empty() && text.chars().all(|c| c.is_ascii_alphanumeric() || c == '_');
    document
        .split('`')
        .filter_map(|quoted| {
            let (krate, cited) = quoted.split_once('/').unwrap_or(("rules", quoted));
            let (file, name) = cited.split_once('.')?;
            let is_name = is_letters(file) && is_word(name) && file.starts_with(|c: char| c.is_ascii_uppercase());
            let is_crate = is_word(krate) && krate.chars().all(|c| c.is_ascii_lowercase() || c == '_');
            (is_name && is_crate).then(|| (krate.to_string(), file.to_string(), name.to_string()))
        })
        .collect()
}

/// Whether a line of a specification makes a name public.
fn defines(line: &str, name: &str) -> bool {
    line.match_indices("pub ").any(|(at, word)| {
        let rest = &line[at + word.len()..];
        let rest = rest.strip_prefix("record ").or_else(|| rest.strip_prefix("data ")).unwrap_or(rest);
        rest.strip_prefix(name).is_some_and(|rest| rest.is_empty() || rest.starts_with(' '))
    })
}

/// The rows of the table of limits beside the definitions.
fn limits(repository: &Repository) -> Told {
    let (rules, defined) = (repository.text("docs/RULES.md")?, repository.text("crates/rules/specs/Limits.antt")?);
    let rows = limit_rows(&rules);
    if rows.is_empty() {
        return Err("docs/RULES.md has no table of limits".into());
    }
    for (name, said) in rows {
        let value = defined.lines().find_map(|line| line.strip_prefix(&format!("{name} = "))).unwrap_or_default().replace(' ', "");
        if value != said {
            return Err(format!("docs/RULES.md says that {name} is {said}; crates/rules/specs/Limits.antt says '{value}'"));
        }
    }
    Ok(())
}

/// Name and value of each row under the heading of the limits.
fn limit_rows(rules: &str) -> Vec<(String, String)> {
    let lines = rules.lines().skip_while(|line| !line.starts_with("## The limits"));
    let rows = lines.take_while(|line| !line.starts_with("## Regions")).filter_map(cells);
    rows.filter_map(|cells| {
        let name = cells.first()?.strip_prefix('`')?.strip_suffix('`')?;
        let value = cells.get(1)?.replace(',', "");
        let is_value = !value.is_empty() && value.chars().all(|c| c.is_ascii_digit() || c == '^');
        is_value.then(|| (name.to_string(), value))
    })
    .collect()
}

/// The cells of a table's row.
fn cells(line: &str) -> Option<Vec<&str>> {
    Some(line.strip_prefix('|')?.split('|').map(str::trim).collect())
}

// ---- lengths and counts

/// The shortest and the longest plan and log, as the definitions have them, are said by the documents.
fn sizes(repository: &Repository) -> Told {
    let told: [(&str, &str, &str, &[&str]); 3] = [
        ("SizesShown", "Sizes", "a plan", &["README.md", "docs/RULES.md"]),
        ("OwnedSizesShown", "OwnedSizes", "a plan with owners", &["README.md", "docs/RULES.md"]),
        ("LogSizesShown", "Logs", "a log", &["docs/RULES.md"]),
    ];
    for (shown, file, what, documents) in told {
        let path = format!("crates/rules/specs/{file}.antt");
        let sizes = sizes_shown(&repository.text(&path)?, shown).ok_or(format!("{path} does not say how long {what} can be"))?;
        for (document, size) in documents.iter().flat_map(|document| sizes.map(|size| (document, size))) {
            if !says(&repository.text(document)?, &grouped(size), &[""]) {
                return Err(format!("{document} does not say that {what} can have {} bytes", grouped(size)));
            }
        }
    }
    Ok(())
}

/// The two lengths of `SHOWN = (least.. limits ≡ N) × (longest.. limits ≡ M)`.
fn sizes_shown(text: &str, shown: &str) -> Option<[usize; 2]> {
    let line = text.lines().find_map(|line| line.strip_prefix(&format!("{shown} = (least")))?;
    let (least, longest) = line.strip_suffix(')')?.split_once(") × (longest")?;
    let size = |text: &str| text.split_once(" limits ≡ ")?.1.parse().ok();
    Some([size(least)?, size(longest)?])
}

/// A number as documents write it: 63896 is 63,896.
fn grouped(number: usize) -> String {
    let digits = number.to_string();
    let mut text = String::new();
    for (at, digit) in digits.chars().enumerate() {
        if at > 0 && (digits.len() - at) % 3 == 0 {
            text.push(',');
        }
        text.push(digit);
    }
    text
}

/// Whether a document says a number, whole, with one of these texts behind it.
fn says(document: &str, number: &str, behind: &[&str]) -> bool {
    document.match_indices(number).any(|(at, _)| {
        let rest = &document[at + number.len()..];
        let is_begun = document[..at].ends_with(|c: char| c.is_ascii_digit() || c == ',');
        let mut next = rest.chars();
        let goes_on = match next.next() {
            Some(',') => next.next().is_some_and(|c| c.is_ascii_digit()),
            other => other.is_some_and(|c| c.is_ascii_digit()),
        };
        !is_begun && !goes_on && behind.iter().any(|text| rest.starts_with(text))
    })
}

/// How many plan files, log files and named cases there are, wherever it is said.
fn counts(repository: &Repository) -> Told {
    let told: [(&str, &[&str], &[&str]); 5] = [
        ("vectors/cases.txt", &[" cases", " more cases", " named cases"], &["README.md", "docs/PROMISES.md", "tests/README.md"]),
        ("vectors/plans/answers.txt", &[" plan files", " stored plans"], &["docs/DECISIONS.md", "tests/README.md"]),
        ("vectors/bank/cases.txt", &[" cases with owners"], &["README.md", "tests/README.md"]),
        ("vectors/bank/plans/answers.txt", &[" plan files with owners"], &["README.md", "tests/README.md"]),
        ("vectors/logs/answers.txt", &[" stored logs"], &["tests/README.md"]),
    ];
    for (file, behind, documents) in told {
        let count = grouped(repository.line_count(file)?);
        for document in documents {
            if !says(&repository.text(document)?, &count, behind) {
                return Err(format!("{document} does not say that there are {count}{}", behind[0]));
            }
        }
    }
    Ok(())
}

// ---- bytes, functions, stack and edits

/// The rows of the annotated plan: each begins where the one before it ends, and together they are the file.
fn annotated_plan(repository: &Repository) -> Told {
    let annotated = annotated_bytes(&repository.text("docs/RULES.md")?)?;
    let stored = fs::read(repository.0.join("examples/first.plan")).map_err(|error| format!("examples/first.plan: {error}"))?;
    let stored: String = stored.iter().map(|byte| format!("{byte:02x}")).collect();
    if annotated != stored {
        return Err("the annotated plan of docs/RULES.md is not examples/first.plan".into());
    }
    Ok(())
}

fn annotated_bytes(rules: &str) -> Result<String, String> {
    let mut all = String::new();
    for line in rules.lines().skip_while(|line| !line.starts_with("## A plan, byte by byte")) {
        let Some((at, bytes)) =
            cells(line).and_then(|cells| Some((cells.first()?.parse::<usize>().ok()?, cells.get(1)?.to_string())))
        else {
            continue;
        };
        if at != all.len() / 2 {
            return Err(format!("docs/RULES.md: the row of offset {at} of the plan does not follow the row before it"));
        }
        all.extend(bytes.chars().filter(|c| c.is_ascii_digit() || ('a'..='f').contains(c)));
    }
    Ok(all)
}

/// README.md lists the functions that the headers declare.
fn functions(repository: &Repository) -> Told {
    let mut declared = Vec::new();
    for header in ["peatmitten.h", "peatmitten_bank.h"] {
        let functions = functions_declared(&repository.text(&format!("include/{header}"))?);
        if functions.is_empty() {
            return Err(format!("include/{header} declares no function"));
        }
        declared.extend(functions);
    }
    let readme = repository.text("README.md")?;
    let mut listed: Vec<String> = readme.lines().filter_map(function_listed).collect();
    declared.sort();
    listed.sort();
    if declared != listed {
        return Err("README.md lists other functions than the headers declare".into());
    }
    Ok(())
}

fn is_name(text: &str) -> bool {
    !text.is_empty() && text.chars().all(|c| c.is_ascii_lowercase() || c.is_ascii_digit() || c == '_')
}

/// Lines that begin with a type and a name of the library's before a bracket.
fn functions_declared(header: &str) -> Vec<String> {
    let declared = |line: &str| {
        let (kind, rest) = line.split_once(' ')?;
        let (name, _) = rest.trim_start_matches('*').split_once('(')?;
        (is_name(kind) && is_name(name) && name.starts_with("peatmitten_")).then(|| name.to_string())
    };
    header.lines().filter_map(declared).collect()
}

fn function_listed(line: &str) -> Option<String> {
    let (name, _) = line.strip_prefix("| `")?.split_once("` |")?;
    (is_name(name) && name.starts_with("peatmitten_")).then(|| name.to_string())
}

/// The header's stack, which README.md says in KiB.
fn stack(repository: &Repository) -> Told {
    let header = repository.text("include/peatmitten.h")?;
    let said = |line: &str| line.strip_prefix("enum { PEATMITTEN_STACK = ")?.strip_suffix(" };")?.parse::<usize>().ok();
    let stack = header.lines().find_map(said).ok_or("include/peatmitten.h does not say how much stack is enough")? / 1024;
    if !says(&repository.text("README.md")?, &stack.to_string(), &[" KiB of stack"]) {
        return Err(format!("README.md does not say that {stack} KiB of stack are enough"));
    }
    Ok(())
}

/// docs/PROMISES.md says of every must-fail edit what it refuses, and names no other.
fn edits(repository: &Repository) -> Told {
    let found = crate::edits::all(&repository.0.join("crates"))?;
    if found.is_empty() {
        return Err("there are no must-fail edits".into());
    }
    let crates = found.iter().map(|(krate, _)| krate.clone()).collect();
    let edits: BTreeSet<String> = found.iter().map(|(krate, name)| format!("{krate}/{name}")).collect();
    let named = edits_named(&repository.text("docs/PROMISES.md")?, &crates);
    let others: Vec<&String> = named.symmetric_difference(&edits).collect();
    if !others.is_empty() {
        return Err(format!("docs/PROMISES.md and the crates' folders must-fail do not have the same edits: {others:?}"));
    }
    Ok(())
}

/// Each `crate/name` of a document, but for a crate's folders.
fn edits_named(document: &str, crates: &BTreeSet<String>) -> BTreeSet<String> {
    let is_part = |c: char| c.is_ascii_alphanumeric() || c == '_' || c == '-';
    let paths = document.split(|c: char| !is_part(c) && c != '/');
    let pairs = paths.flat_map(|path| path.split('/').zip(path.split('/').skip(1)).collect::<Vec<_>>());
    let is_edit = |(krate, name): &(&str, &str)| crates.contains(*krate) && is_name(name) && !["specs", "proofs"].contains(name);
    pairs.filter(is_edit).map(|(krate, name)| format!("{krate}/{name}")).collect()
}

#[cfg(test)]
mod tests {
    use super::*;

    #[test]
    fn names_in_backquotes() {
        let named =
            definitions_named("`Limits.page` and `promises/Past.past_shown`, not `src/lib.rt`, `lower.name`, `A.b c` or A.b");
        let expected = [("promises", "Past", "past_shown"), ("rules", "Limits", "page")];
        assert!(named.iter().map(|(a, b, c)| (a.as_str(), b.as_str(), c.as_str())).eq(expected));
    }

    #[test]
    fn what_a_line_defines() {
        assert!(defines("unfoldable pub page : ℕ", "page"));
        assert!(defines("pub record Zone : Type 0 where", "Zone"));
        assert!(defines("pub data Kind", "Kind"));
        for line in ["pub pages : ℕ", "page : ℕ", "pub record Zones"] {
            assert!(!defines(line, "page") && !defines(line, "Zone"), "{line}");
        }
    }

    #[test]
    fn rows_of_limits() {
        let rules = "| `before` | 1 |\n## The limits\n| name | value |\n| `most` | 1,024 | x |\n| `word` | many |\n## Regions\n| `after` | 2 |\n";
        assert_eq!(limit_rows(rules), [("most".to_string(), "1024".to_string())]);
    }

    #[test]
    fn lengths_that_are_shown() {
        let text = "SizesShown : Type 0\nSizesShown = (least_size limits ≡ 60) × (longest_size limits ≡ 63896)\n";
        assert_eq!(sizes_shown(text, "SizesShown"), Some([60, 63896]));
        assert_eq!(sizes_shown(text, "OwnedSizesShown"), None);
    }

    #[test]
    fn numbers_in_groups() {
        assert_eq!([7, 999, 1000, 63896, 1234567].map(grouped), ["7", "999", "1,000", "63,896", "1,234,567"]);
    }

    #[test]
    fn numbers_are_said_whole() {
        for document in ["350 plan files", "all 350 plan files", "(350 plan files)"] {
            assert!(says(document, "350", &[" plan files"]), "{document}");
        }
        for document in ["1350 plan files", "1,350 plan files", "350,1 plan files", "3501 plan files", "350 plans", ""] {
            assert!(!says(document, "350", &[" plan files"]), "{document}");
        }
        assert!(says("60, or more", "60", &[""]));
    }

    #[test]
    fn rows_of_a_plan_follow_each_other() {
        let rows = |second: usize| format!("## A plan, byte by byte\n| offset | bytes |\n| 0 | `03 00` | x |\n| {second} | 0a |\n");
        assert_eq!(annotated_bytes(&rows(2)), Ok("03000a".into()));
        assert!(annotated_bytes(&rows(3)).is_err());
    }

    #[test]
    fn functions_of_a_header_and_of_a_list() {
        let header = "uint32_t peatmitten_read(const uint8_t *plan);\nconst char *peatmitten_words(uint32_t n);\nint *peatmitten_at(void);\n  uint32_t peatmitten_no(void);\n";
        assert_eq!(functions_declared(header), ["peatmitten_read", "peatmitten_at"]);
        assert_eq!(function_listed("| `peatmitten_read` | reads |").as_deref(), Some("peatmitten_read"));
        assert_eq!(function_listed("the `peatmitten_read` | reads |"), None);
    }

    #[test]
    fn edits_that_a_document_names() {
        let crates = BTreeSet::from(["zones".to_string(), "rules".to_string()]);
        let named = edits_named(
            "`zones/one_less`, must-fail/rules/two, crates/zones/specs, crates/rules/must-fail, tests/zones, plan/three",
            &crates,
        );
        assert!(named.iter().eq(["rules/two", "zones/one_less"]));
    }
}
