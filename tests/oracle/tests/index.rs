//! docs/INDEX.md names definitions and theorems with their files: each has to stand there.

use std::collections::BTreeSet;
use std::fs;
use std::path::{Path, PathBuf};

fn root() -> PathBuf {
    Path::new(env!("CARGO_MANIFEST_DIR")).join("../..")
}

/// What a file of definitions or proofs declares as public: names, fields of records too.
fn declared(file: &Path) -> BTreeSet<String> {
    let text = fs::read_to_string(file).unwrap_or_else(|e| panic!("{}: {e}", file.display()));
    text.lines().filter_map(declares).collect()
}

fn declares(line: &str) -> Option<String> {
    let words: Vec<&str> = line.split_whitespace().collect();
    let at = words.iter().position(|w| *w == "pub")?;
    let name = words[at + 1..]
        .iter()
        .find(|w| !["record", "data", "abbrev"].contains(w))?;
    Some((*name).to_string())
}

/// The names in backticks of a cell; what has a blank in it is no name.
fn names(cell: &str) -> Vec<&str> {
    cell.split('`')
        .skip(1)
        .step_by(2)
        .filter(|n| !n.contains(' '))
        .collect()
}

/// The files that a row names: `(crate/specs/File)` in a rule's row, `crate, File` in a theorem's.
fn files(cells: &[&str]) -> Vec<PathBuf> {
    let mut found: Vec<PathBuf> = Vec::new();
    for part in cells[1]
        .split(['(', ')', ',', ';', ' '])
        .filter(|p| p.matches('/').count() == 2)
    {
        found.push(root().join("crates").join(part).with_extension("antt"));
    }
    if let (true, Some((krate, file))) = (found.is_empty(), cells[1].split_once(", ")) {
        let below = if file.contains('/') {
            file.to_string()
        } else {
            format!("proofs/{file}")
        };
        found.push(root().join("crates").join(krate).join(below).with_extension("antt"));
    }
    found
}

#[test]
fn every_name_of_the_index_stands_in_its_file() {
    let text = fs::read_to_string(root().join("docs/INDEX.md")).unwrap();
    let (mut rows, mut missing) = (0, Vec::new());
    for line in text.lines().filter(|l| l.starts_with("| ") && l.contains('`')) {
        let cells: Vec<&str> = line.trim_matches('|').split('|').map(str::trim).collect();
        let theorem = cells.len() == 3;
        let known: BTreeSet<String> = files(&cells).iter().flat_map(|f| declared(f)).collect();
        for name in names(cells[if theorem { 0 } else { 1 }]) {
            rows += 1;
            if !known.contains(name) {
                missing.push(format!("{name}: {line}"));
            }
        }
    }
    assert!(rows > 150, "only {rows} names read");
    assert!(missing.is_empty(), "{}", missing.join("\n"));
}
