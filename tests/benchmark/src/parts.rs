//! The parts of an iteration of the library, each done by a work call of its own.

use crate::contest::{middle, seconds, Contestant};
use crate::library::{prepared, settings, Run, Working};
use brothanchor::Method;

/// A part's name and its units.
type Part = (&'static str, usize);

/// The parts of the iterations by the tree and over all pairs.
pub fn all() {
    let n = 4096;
    let parts = [("box and insertions", 1 + n), ("forces", n), ("finish", 1)];
    for (iterations, when) in [(0, "at the start"), (350, "after 350")] {
        let run = prepared(settings(Method::BarnesHut, n), iterations);
        shares(&format!("parts of a Barnes-Hut iteration, n {n}, {when}"), &run, &parts);
    }
    let n = 1024;
    let parts = [("rows of the total", n), ("gradient rows", n), ("finish", 1)];
    let run = prepared(settings(Method::Exact, n), 10);
    shares(&format!("parts of an exact iteration, n {n}"), &run, &parts);
}

/// How often each is done.
const ROUNDS: usize = 31;

/// Times of a part, round by round.
#[derive(Clone, Default)]
struct Times {
    /// What a call tests before its first unit, timed by a call with budget 0 just before the part.
    tests: Vec<f64>,
    /// The part less that.
    rest: Vec<f64>,
}

/// The times of the parts, and of the whole iteration in one call.
fn measured(run: &Run, parts: &[Part]) -> (Vec<Times>, Vec<f64>) {
    let mut working = Working::new(run);
    let mut whole = Vec::new();
    let mut all = vec![Times::default(); parts.len()];
    for _ in 0..ROUNDS {
        working.reset();
        whole.push(seconds(|| working.work()));
        working.reset();
        for (times, part) in all.iter_mut().zip(parts) {
            let test = seconds(|| working.units(0));
            times.tests.push(test);
            times.rest.push(seconds(|| working.units(part.1 as u32)) - test);
        }
    }
    (all, whole)
}

/// Prints each part's time and share.
fn shares(title: &str, run: &Run, parts: &[Part]) {
    let (all, whole) = measured(run, parts);
    let sum: f64 = all.iter().map(|times| middle(&times.rest)).sum();
    let whole = 1e3 * middle(&whole);
    println!("{title} ({ROUNDS} rounds)");
    println!("  {:20} {whole:9.3} ms, its tests among them", "all in one call");
    for ((name, units), times) in parts.iter().zip(&all) {
        let (part, test) = (middle(&times.rest), middle(&times.tests));
        println!(
            "  {name:20} {:9.3} ms, {:.3} of the parts   budget {units:4}; a call with budget 0 before it: {:.3} ms",
            1e3 * part,
            part / sum,
            1e3 * test
        );
    }
}
