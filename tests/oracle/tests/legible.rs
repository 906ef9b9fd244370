//! Definitions, laws and proofs can be read: no line is too long for a screen, and each proof of a function says first what it shows.
//! A function's proof is the files Invariants.antt and Answers.antt of a folder; the first of them that is there says it.

use std::fs;
use std::path::{Path, PathBuf};

/// The most columns of a line.
const WIDTH: usize = 200;

/// The files of definitions, laws and proofs under a folder.
fn files(folder: &Path, found: &mut Vec<PathBuf>) {
    for entry in fs::read_dir(folder).unwrap().map(|e| e.unwrap().path()) {
        if entry.file_name().map_or(false, |name| name == "out") {
            continue; // what the checker keeps
        }
        if entry.is_dir() {
            files(&entry, found);
        } else if entry.extension().map_or(false, |ending| ending == "antt") {
            found.push(entry);
        }
    }
}

fn all() -> Vec<PathBuf> {
    let mut found = Vec::new();
    files(&Path::new(env!("CARGO_MANIFEST_DIR")).join("../../crates"), &mut found);
    assert!(found.len() > 1000, "{} files", found.len());
    found
}

/// The lines of a text that are too long, by their numbers.
fn long_lines(text: &str) -> Vec<usize> {
    let long = text
        .lines()
        .enumerate()
        .filter(|(_, line)| line.chars().count() > WIDTH);
    long.map(|(at, _)| at + 1).collect()
}

#[test]
fn no_line_is_too_long() {
    let mut long = Vec::new();
    for file in all() {
        for at in long_lines(&fs::read_to_string(&file).unwrap()) {
            long.push(format!("{}:{at}", file.display()));
        }
    }
    assert!(long.is_empty(), "past {WIDTH} columns: {long:#?}");
}

#[test]
fn each_proof_says_what_it_shows() {
    let first = |file: &Path| file.ends_with("Invariants.antt") || file.ends_with("Answers.antt") && !file.with_file_name("Invariants.antt").exists();
    let mut silent = all();
    silent.retain(|file| first(file) && !fs::read_to_string(file).unwrap().starts_with("-- "));
    assert!(silent.is_empty(), "no first line that says what is shown: {silent:#?}");
}

#[test]
fn a_line_of_two_hundred_columns_may_stand_and_one_more_may_not() {
    let text = format!("{}\n{}\nshort", "∷".repeat(WIDTH), "∷".repeat(WIDTH + 1));
    assert_eq!(long_lines(&text), [2]);
}
