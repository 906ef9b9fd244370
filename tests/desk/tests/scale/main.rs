//! The library against the independent implementation of the scope paper's rules (tests/oracle), at scale. The original
//! Rust is not asked here: the lists that it judges are replayed by the programs under crates/.
//!
//! A run is a preparation and the calls after it: budgets at random with zeros among them, records, areas and lengths
//! damaged now and then, an arena that grows when 14 comes. Each failure names its seed; BROTHANCHOR_SEED and
//! BROTHANCHOR_RUNS choose others than the gate's few. The module `blind` has frames whose search is blind, `deep` the force walk
//! over altered arenas, `far` frames with subnormal weights, `figures` the divergence, `mirror` exact runs and their mirror images,
//! `monitor` maps for the picture monitor, `neighbours` preparations of frames that are equally near, `parked` runs that are written
//! and read back, `partner` lists that another tool made, `salvage` scuffed frame files, `strip` frames along one line, `take_out` runs
//! that frames are taken out of, `worth` what the tree is worth in whole runs.

mod blind;
mod both;
mod case;
mod deep;
mod far;
mod figures;
mod met;
mod mirror;
mod monitor;
mod neighbours;
mod parked;
mod partner;
mod random;
mod salvage;
mod strip;
mod take_out;
mod worth;

use both::{number, Both, PARTS};
use brothanchor::{Kind, Method, Node, State, Worked};
use case::{marked_nodes, shorten, Case, Scope};
use random::Random;
use std::env;
use std::fmt::Debug;
use std::panic::{catch_unwind, AssertUnwindSafe};

/// A number from the environment, or another.
fn setting(name: &str, usual: u64) -> u64 {
    env::var(name).ok().and_then(|text| text.parse().ok()).unwrap_or(usual)
}

/// What was met in a number of runs.
#[derive(Debug, Default)]
struct Met {
    runs: usize,
    calls: usize,
    units: u64,
    ended: usize,
    /// Refusals by their number.
    refused: [usize; 26],
    /// What was found bad at an entry, by its number.
    faults: [usize; 7],
    /// Calls on damage, by the part that had other bits.
    damaged: [usize; PARTS.len()],
    /// Those of them whose answer, record or other areas came out otherwise than without the damage.
    felt: [usize; PARTS.len()],
}

impl Met {
    fn call(&mut self, worked: &Worked) {
        self.calls += 1;
        self.units += worked.units;
        self.refused[number(worked) as usize] += 1;
        self.faults[worked.words[3] as usize] += 1;
    }
}

/// What is done from each of so many seeds, and what was met; a failure names its seed.
fn each_seed<M: Debug + Default>(name: &str, count: u64, mut one: impl FnMut(&mut Random, &mut M)) -> M {
    let first = setting("BROTHANCHOR_SEED", 1);
    let mut met = M::default();
    for seed in first..first + count {
        let run = || one(&mut Random::new(seed), &mut met);
        if catch_unwind(AssertUnwindSafe(run)).is_err() {
            panic!("{name}: the run of seed {seed} differs");
        }
    }
    println!("{name}: seeds {first} to {}: {met:?}", first + count - 1);
    met
}

/// So many runs within a scope, each from a seed of its own.
fn runs(name: &str, count: u64, scope: Scope) -> Met {
    each_seed(name, count, |random, met| run(random, scope, met))
}

/// One run, to its end or through so many calls.
fn run(random: &mut Random, scope: Scope, met: &mut Met) {
    met.runs += 1;
    let case = Case::new(random, scope);
    let mut both = match Both::prepare(&case) {
        Ok(both) => both,
        Err(number) => {
            met.refused[number as usize] += 1;
            return;
        }
    };
    for _ in 0..60 {
        let budget = budget(random, &case);
        if random.once_in(4) {
            damaged_call(random, &mut both, budget, met);
            continue;
        }
        let worked = both.work(budget);
        met.call(&worked);
        match number(&worked) {
            14 => both.areas.nodes.extend(marked_nodes(random.within(1, 400))),
            15 => return,
            _ => {}
        }
        if matches!(worked.kind, Kind::Stopped | Kind::Finished) {
            met.ended += 1;
            return;
        }
    }
}

/// Nothing, a few units, about an iteration, or all that is left.
fn budget(random: &mut Random, case: &Case) -> u32 {
    let iteration = case.settings.iteration();
    match random.below(8) {
        0 => 0,
        1 => 1,
        2 => random.within(1, 9) as u32,
        3 => u32::MAX,
        _ => random.within(1, 2 * iteration) as u32,
    }
}

/// A call on a damaged record or area; afterwards all is as it was before the damage.
fn damaged_call(random: &mut Random, both: &mut Both, budget: u32, met: &mut Met) {
    let before = both.clone();
    match random.below(5) {
        0 => damage_record(random, both),
        1 => shorten(&mut both.areas, random.below(8)),
        _ => damage(random, both),
    }
    let damaged = both.difference(&before, None);
    let worked = both.work(budget);
    met.call(&worked);
    if let Some(part) = damaged {
        let mut sound = before.clone();
        let answer = sound.work(budget).words;
        met.damaged[part] += 1;
        met.felt[part] += usize::from(worked.words != answer || both.difference(&sound, Some(part)).is_some());
    }
    *both = before;
}

/// Another word in one place of the record; now and then a state that there is not with it.
fn damage_record(random: &mut Random, both: &mut Both) {
    if random.once_in(5) {
        both.record.words[9] = random.one_of(&[3, 4, u64::MAX]);
    }
    let place = random.below(14);
    let word = both.record.words[place];
    both.record.words[place] = match place {
        4 | 5 | 7 | 8 => random.odd_value().to_bits(),
        _ => random.odd_number(word),
    };
}

/// Another value or number in one place of an area; of affinities, indices and nodes more often in one that is in use.
fn damage(random: &mut Random, both: &mut Both) {
    let areas = &mut both.areas;
    let last = areas.offsets.get(both.record.words[0] as usize);
    let listed = areas.indices.len().min(last.map_or(0, |&last| last as usize));
    let used = areas.nodes.len().min(both.record.words[13] as usize);
    match random.below(16) {
        0 => damage_value(random, &mut areas.positions),
        1 => damage_value(random, &mut areas.increments),
        2 => damage_value(random, &mut areas.gains),
        3 => damage_value(random, &mut areas.forces),
        4 => damage_value(random, &mut areas.affinities),
        5 => {
            let weighed = if listed == 0 { areas.affinities.len() } else { listed };
            let word = random.word();
            if let Some(affinity) = any(random, &mut areas.affinities[..weighed]) {
                *affinity = f64::from_bits(word);
            }
        }
        6 => damage_number(random, &mut areas.indices),
        7..=9 => damage_number(random, &mut areas.indices[..listed]),
        10 | 11 => damage_number(random, &mut areas.offsets),
        12 => damage_node(random, &mut areas.nodes),
        _ => damage_node(random, &mut areas.nodes[..used]),
    }
}

/// A place of an area, if it has any.
fn any<'a, T>(random: &mut Random, area: &'a mut [T]) -> Option<&'a mut T> {
    match area.len() {
        0 => None,
        length => area.get_mut(random.below(length)),
    }
}

fn damage_value(random: &mut Random, area: &mut [f64]) {
    let odd = random.odd_value();
    if let Some(value) = any(random, area) {
        *value = odd;
    }
}

fn damage_number(random: &mut Random, area: &mut [u32]) {
    if let Some(number) = any(random, area) {
        *number = random.odd_number(u64::from(*number)) as u32;
    }
}

/// One field of a node; as often one of its three numbers as one of its nine values.
fn damage_node(random: &mut Random, nodes: &mut [Node]) {
    if let Some(node) = any(random, nodes) {
        match random.below(6) {
            0 => damage_value(random, &mut node.centre),
            1 => damage_value(random, &mut node.half),
            2 => damage_value(random, &mut node.mass),
            3 => node.count = random.odd_number(u64::from(node.count)) as u32,
            4 => node.first = random.odd_number(u64::from(node.first)) as u32,
            _ => node.leaf = random.odd_number(u64::from(node.leaf)) as u32,
        }
    }
}

#[test]
fn small_runs() {
    let met = runs("small", setting("BROTHANCHOR_RUNS", 300), Scope { exact: 24, tree: 40 });
    for number in [12, 14, 15, 21, 22, 23, 24, 25] {
        assert!(met.refused[number] > 0, "no run met {number}");
    }
    for fault in 1..=6 {
        assert!(met.faults[fault] > 0, "no run met the fault {fault}");
    }
    assert!(met.ended > 0, "no run ended");
    for (part, name) in PARTS.iter().enumerate() {
        assert!(met.damaged[part] > 0, "no call on damaged {name}");
        assert!(met.felt[part] > 0, "no call felt damaged {name}");
    }
}

#[test]
fn larger_runs() {
    let count = setting("BROTHANCHOR_RUNS", 300).div_euclid(60).max(1);
    runs("larger", count, Scope { exact: 100, tree: 400 });
}

/// A run as large as may be, of one iteration in three calls.
fn most_frames(method: Method, c: usize, perplexity: f64) {
    let mut random = Random::new(setting("BROTHANCHOR_SEED", 1));
    let case = Case::largest(&mut random, method, c, perplexity);
    let mut both = Both::prepare(&case).expect("a good run");
    for budget in [1, 4096, u32::MAX] {
        both.work(budget);
    }
    assert_eq!(both.record.state(), Some(State::Finished));
}

#[test]
fn most_frames_by_the_tree() {
    most_frames(Method::BarnesHut, 2, 1.0);
}

#[test]
#[ignore = "takes minutes: up to 4096 frames, as many runs as larger_runs"]
fn largest_runs() {
    let count = setting("BROTHANCHOR_RUNS", 300).div_euclid(60).max(1);
    runs("largest", count, Scope { exact: 600, tree: 4096 });
    for c in 1..=3 {
        most_frames(Method::BarnesHut, c, 30.0);
    }
}

#[test]
#[ignore = "takes minutes: 4096 frames, every pair of them"]
fn most_frames_exactly() {
    most_frames(Method::Exact, 8, 30.0);
}
