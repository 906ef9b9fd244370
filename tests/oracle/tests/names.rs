//! A name means one thing in the whole repository: no two files of definitions or laws declare the same public name.

use std::collections::BTreeMap;
use std::fs;
use std::path::{Path, PathBuf};

fn crates() -> PathBuf {
    Path::new(env!("CARGO_MANIFEST_DIR")).join("../../crates")
}

/// The files of definitions and laws under a folder. `Invariants.antt` and `Answers.antt` prove one function and are named by none;
/// `out` is what the checker keeps.
fn files(folder: &Path, found: &mut Vec<PathBuf>) {
    for entry in fs::read_dir(folder).unwrap().map(|e| e.unwrap().path()) {
        let name = entry.file_name().unwrap().to_string_lossy().into_owned();
        if name == "out" {
            continue;
        }
        if entry.is_dir() {
            files(&entry, found);
        } else if name.ends_with(".antt") && !["Answers.antt", "Invariants.antt", "Lib.antt"].contains(&name.as_str()) {
            found.push(entry);
        }
    }
}

/// The name that a line declares at the top of a file, or in a module of it that has parameters. Fields of records are theirs.
fn declares(line: &str, in_module: bool) -> Option<&str> {
    let text = if in_module {
        line.strip_prefix("  ").unwrap_or(line)
    } else {
        line
    };
    let mut words = text.split(' ');
    let mut word = words.next()?;
    if ["unfoldable", "abbrev"].contains(&word) {
        word = words.next()?;
    }
    if word != "pub" {
        return None;
    }
    word = words.next()?;
    if ["record", "data"].contains(&word) {
        word = words.next()?;
    }
    (word != "mod").then_some(word)
}

/// The printer of walks names these after a function of the code.
fn is_of_a_function(name: &str) -> bool {
    ["Contract-", "calls-", "Ensured-"].iter().any(|p| name.starts_with(p))
}

#[test]
fn a_public_name_is_declared_in_one_file() {
    let mut paths = Vec::new();
    files(&crates(), &mut paths);
    let mut homes: BTreeMap<String, Vec<String>> = BTreeMap::new();
    for path in &paths {
        let (mut in_module, mut in_record) = (false, false);
        for line in fs::read_to_string(path).unwrap().lines() {
            if !line.starts_with(' ') && !line.is_empty() {
                in_module = line.starts_with("module ");
            }
            in_record = if line.contains("record ") && line.ends_with("where") {
                true
            } else {
                in_record && line.starts_with("  ") && !line.trim().is_empty()
            };
            let name = match declares(line, in_module) {
                Some(name) if !is_of_a_function(name) && (!in_record || line.ends_with("where")) => name,
                _ => continue,
            };
            let home = path.strip_prefix(crates()).unwrap().display().to_string();
            let known = homes.entry(name.to_string()).or_default();
            if !known.contains(&home) {
                known.push(home);
            }
        }
    }
    assert!(homes.len() > 1000, "only {} names read", homes.len());
    let twice: Vec<String> = homes
        .iter()
        .filter(|(_, f)| f.len() > 1)
        .map(|(n, f)| format!("{n}: {}", f.join(", ")))
        .collect();
    assert!(twice.is_empty(), "{}", twice.join("\n"));
}
