//! The library beside other ways to do the same work: interleaved in one run, as ratios. Never part of the gate.

pub mod array;
pub mod contest;
pub mod frame_file;
pub mod library;
pub mod parts;
pub mod rules;

use brothanchor::{Method, Settings};
use contest::{contest, row, Contestant};
use library::{prepared, settings, Copying, Parking, Preparing, Reading, Run, Telling, Thinning, Working};
use oracle::scatter::SplitMix64;

/// What someone else brings to a contest, where they have it.
pub trait Others {
    /// One iteration by the tree.
    fn tree(&self, run: &Run) -> Option<Box<dyn Contestant>>;
    /// One iteration over all pairs.
    fn exact(&self, run: &Run) -> Option<Box<dyn Contestant>>;
    /// A preparation.
    fn preparation(&self, run: &Run) -> Option<Box<dyn Contestant>>;
}

/// Nobody else.
pub struct Nobody;

impl Others for Nobody {
    fn tree(&self, _: &Run) -> Option<Box<dyn Contestant>> {
        None
    }

    fn exact(&self, _: &Run) -> Option<Box<dyn Contestant>> {
        None
    }

    fn preparation(&self, _: &Run) -> Option<Box<dyn Contestant>> {
        None
    }
}

/// Frames in forty shots: each goes some way through the space of features.
pub fn frames(n: usize) -> Vec<f64> {
    let mut random = SplitMix64::new(40);
    let mut table = Vec::new();
    for shot in 0..40 {
        let from: Vec<f64> = (0..6).map(|_| random.unit() * 16.0 - 8.0).collect();
        let along: Vec<f64> = (0..6).map(|_| random.unit() * 6.0 - 3.0).collect();
        for i in (shot * n / 40)..((shot + 1) * n / 40) {
            let share = (i * 40 % n) as f64 / n as f64;
            table.extend((0..6).map(|d| from[d] + along[d] * share + random.unit() * 0.05));
        }
    }
    table
}

/// A contest and its name.
type Named = (&'static str, fn(&dyn Others));

/// The contests by their names.
const CONTESTS: [Named; 9] = [
    ("iteration", iteration),
    ("cleared", cleared),
    ("growth", growth),
    ("parts", |_| parts::all()),
    ("exact", exact),
    ("preparation", preparation),
    ("beside", |_| beside_an_iteration()),
    ("parking", |_| parking()),
    ("frames", |_| a_full_side()),
];

/// The contests with these names; all of them where there is none.
pub fn all(others: &dyn Others, names: &[String]) {
    for name in names {
        let known = CONTESTS.map(|contest| contest.0);
        assert!(known.contains(&name.as_str()), "no contest {name}: there are {known:?}");
    }
    println!("of iterations: between two rounds positions, increments, gains and the record are put back; forces and nodes keep what they held,");
    println!("but for the contest that says that they are cleared");
    for (name, contest) in CONTESTS {
        if names.is_empty() || names.iter().any(|one| one == name) {
            contest(others);
        }
    }
}

/// The library, the array versions and whoever else has an iteration by the tree.
fn by_the_tree(run: &Run, others: &dyn Others) -> Vec<Box<dyn Contestant>> {
    let ours: Vec<Box<dyn Contestant>> = vec![Box::new(Working::new(run))];
    ours.into_iter()
        .chain(array::trees(run))
        .chain(others.tree(run))
        .collect()
}

/// An iteration by the tree, at the start and later.
fn iteration(others: &dyn Others) {
    for (iterations, when) in [(0, "at the start"), (350, "after 350")] {
        let run = prepared(settings(Method::BarnesHut, 4096), iterations);
        let title = format!("Barnes-Hut iteration, n 4096, {when}");
        contest(&title, by_the_tree(&run, others), 31);
    }
}

/// The same with the areas cleared that an iteration fills anew.
fn cleared(others: &dyn Others) {
    let mut run = prepared(settings(Method::BarnesHut, 4096), 350);
    run.cleared = true;
    let title = "Barnes-Hut iteration, n 4096, after 350, forces and nodes cleared before each round";
    contest(title, by_the_tree(&run, others), 31);
}

/// How an iteration by the tree grows with n, for maps of one to three components.
fn growth(others: &dyn Others) {
    println!("Barnes-Hut iterations after 350 (11 rounds): middle times, and the library's as a ratio of each");
    for c in 1..=3 {
        for angle in [0.3, 0.8] {
            for n in [256, 1024, 4096] {
                let usual = settings(Method::BarnesHut, n);
                let run = prepared(Settings { c, angle, ..usual }, 350);
                row(&format!("c {c}, angle {angle}, n {n:4}"), by_the_tree(&run, others), 11);
            }
        }
    }
}

/// An iteration over all pairs.
fn exact(others: &dyn Others) {
    let run = prepared(settings(Method::Exact, 1024), 10);
    let ours: Vec<Box<dyn Contestant>> = vec![Box::new(Working::new(&run))];
    let all = ours.into_iter().chain(array::all_pairs(&run)).chain(others.exact(&run));
    contest("exact iteration, n 1024", all.collect(), 21);
}

/// A preparation.
fn preparation(others: &dyn Others) {
    for (method, n, title) in [
        (Method::BarnesHut, 1024, "preparation, Barnes-Hut, n 1024"),
        (Method::BarnesHut, 4096, "preparation, Barnes-Hut, n 4096"),
        (Method::Exact, 1024, "preparation, exact, n 1024"),
    ] {
        let run = prepared(settings(method, n), 0);
        let ours: Vec<Box<dyn Contestant>> =
            vec![Box::new(Preparing::new(&run)), Box::new(rules::Preparation::new(&run))];
        contest(title, ours.into_iter().chain(others.preparation(&run)).collect(), 7);
    }
}

/// What is asked of a run between two iterations, beside an iteration.
fn beside_an_iteration() {
    for (method, n, name) in [
        (Method::BarnesHut, 4096, "Barnes-Hut, n 4096"),
        (Method::Exact, 1024, "exact, n 1024"),
    ] {
        let run = prepared(settings(method, n), 10);
        let working = || Box::new(Working::new(&run));
        contest(
            &format!("divergence, {name}, beside an iteration"),
            vec![Box::new(Telling::new(&run)), working()],
            11,
        );
        let tenth = n as u32 / 1000 * 100;
        contest(
            &format!("taking {tenth} frames out, {name}, beside an iteration"),
            vec![Box::new(Thinning::new(&run, tenth)), working()],
            11,
        );
    }
}

/// The frame file of a full side, read.
fn a_full_side() {
    let file = frame_file::file(4096);
    contest(
        "reading a frame file, n 4096",
        vec![
            Box::new(frame_file::Taken::new(&file, true)),
            Box::new(frame_file::Taken::new(&file, false)),
        ],
        21,
    );
}

/// A full side parked and read back, beside a copy of the bytes.
fn parking() {
    let run = prepared(settings(Method::BarnesHut, 4096), 10);
    contest(
        "parking, Barnes-Hut, n 4096, perplexity 30",
        vec![Box::new(Parking::new(&run)), Box::new(Copying::new(&run))],
        21,
    );
    contest(
        "reading a parked run, Barnes-Hut, n 4096, perplexity 30",
        vec![Box::new(Reading::new(&run)), Box::new(Copying::new(&run))],
        21,
    );
}
