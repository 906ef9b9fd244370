//! The committed lists are the ones that the generator makes.

use oracle::{lists, words};
use std::fs;
use std::path::Path;

#[test]
fn lists_are_the_committed_ones() {
    let crates = Path::new(env!("CARGO_MANIFEST_DIR")).join("../../crates");
    for list in lists::all() {
        let path = list.path(&crates);
        let committed = fs::read(&path).unwrap_or_else(|error| panic!("{}: {error}", path.display()));
        assert!(committed == words::to_bytes(&list.words), "{} differs", path.display());
    }
}

#[test]
fn files_are_the_committed_ones() {
    let crates = Path::new(env!("CARGO_MANIFEST_DIR")).join("../../crates");
    for (place, bytes) in lists::files() {
        let path = crates.join(place);
        let committed = fs::read(&path).unwrap_or_else(|error| panic!("{}: {error}", path.display()));
        assert!(committed == bytes, "{} differs", path.display());
    }
}
