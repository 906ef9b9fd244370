//! What was met, by names, so that a test can tell what it never did.

use std::collections::BTreeMap;

/// How often each thing was met, by its name.
pub type Met = BTreeMap<String, usize>;

pub fn meet(met: &mut Met, what: impl Into<String>) {
    *met.entry(what.into()).or_default() += 1;
}

/// What is told by its number; of a bad offset, index or node also that its place is not 0, so that a place was looked for.
pub fn told_name((number, place): (u64, u64)) -> String {
    match number {
        23..=25 if place > 0 => format!("{number} with a place"),
        _ => number.to_string(),
    }
}

/// All that is wanted was met.
pub fn all_met(met: &Met, wanted: impl IntoIterator<Item = String>) {
    let missing: Vec<String> = wanted.into_iter().filter(|what| !met.contains_key(what)).collect();
    assert!(missing.is_empty(), "never met: {missing:?}");
}
