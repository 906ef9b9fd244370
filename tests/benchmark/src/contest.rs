//! Contests: each of several does the same work in turn, many times; the middle time counts.

use std::time::Instant;

/// One way to do the work.
pub trait Contestant {
    fn name(&self) -> &'static str;
    /// Back to where the work starts; not timed.
    fn reset(&mut self);
    /// The work.
    fn work(&mut self);
    /// What came of it, where others have to have the same bits.
    fn result(&self) -> Option<Vec<f64>>;
}

/// How one of several came off.
pub struct Outcome {
    pub name: &'static str,
    /// The middle time and the least one, in seconds.
    pub middle: f64,
    pub least: f64,
    /// How its bits are beside those of the first, told in words.
    pub bits: &'static str,
}

/// Seconds that something takes.
pub fn seconds(work: impl FnOnce()) -> f64 {
    let begun = Instant::now();
    work();
    begun.elapsed().as_secs_f64()
}

/// The middle one of some times.
pub fn middle(times: &[f64]) -> f64 {
    let mut times = times.to_vec();
    times.sort_by(f64::total_cmp);
    times[times.len() / 2]
}

/// All of them do the work in turn, round after round.
pub fn outcomes(mut all: Vec<Box<dyn Contestant>>, rounds: usize) -> Vec<Outcome> {
    let mut times = vec![Vec::new(); all.len()];
    for _ in 0..rounds {
        for (one, times) in all.iter_mut().zip(&mut times) {
            one.reset();
            times.push(seconds(|| one.work()));
        }
    }
    let results: Vec<_> = all.iter().map(|one| one.result().map(bits)).collect();
    let compared = |theirs: &Option<Vec<u64>>| match (&results[0], theirs) {
        (Some(ours), Some(theirs)) if ours == theirs => "the same bits",
        (Some(_), Some(_)) => "OTHER BITS",
        _ => "not compared",
    };
    let one = |i: usize| Outcome {
        name: all[i].name(),
        middle: middle(&times[i]),
        least: times[i].iter().copied().fold(f64::INFINITY, f64::min),
        bits: compared(&results[i]),
    };
    (0..all.len()).map(one).collect()
}

fn bits(values: Vec<f64>) -> Vec<u64> {
    values.iter().map(|value| value.to_bits()).collect()
}

/// Runs a contest and prints the middle and least times, with the first one's as a ratio of each.
pub fn contest(title: &str, all: Vec<Box<dyn Contestant>>, rounds: usize) {
    println!("{title} ({rounds} rounds)");
    let outcomes = outcomes(all, rounds);
    for one in &outcomes {
        println!(
            "  {:26} {:9.3} ms, least {:9.3} ms   the library takes {:.2} of it, least {:.2}   {}",
            one.name,
            1e3 * one.middle,
            1e3 * one.least,
            outcomes[0].middle / one.middle,
            outcomes[0].least / one.least,
            one.bits
        );
    }
}

/// Runs a contest and prints it in one line.
pub fn row(title: &str, all: Vec<Box<dyn Contestant>>, rounds: usize) {
    let outcomes = outcomes(all, rounds);
    let cell = |one: &Outcome| {
        let ratio = outcomes[0].middle / one.middle;
        format!("{} {:.3} ms, {ratio:.2}, {}", one.name, 1e3 * one.middle, one.bits)
    };
    let cells: Vec<String> = outcomes.iter().map(cell).collect();
    println!("  {title}: {}", cells.join("; "));
}
