//! Frames that one huge feature keeps apart, so that weights are subnormal: preparations by both routes and the work over them.

use crate::both::Both;
use crate::case::Case;
use crate::random::Random;
use crate::setting;
use brothanchor::{Method, Settings};
use oracle::lists::far::Heaps;
use oracle::scatter::SplitMix64;
use std::panic::{catch_unwind, AssertUnwindSafe};

/// A run of three iterations over a table of heaps: how many of its affinities are subnormal.
fn run(random: &mut Random, heaps: &Heaps, method: Method) -> usize {
    let settings = Settings {
        n: heaps.n,
        f: heaps.f,
        c: random.within(1, 3),
        method,
        perplexity: heaps.perplexity,
        rate: 100.0,
        iterations: 3,
        angle: 0.5,
        minimum: 0.0,
    };
    let mut case = Case::good(random, settings, usize::MAX);
    case.table = heaps.values.clone();
    let mut both = Both::prepare(&case).expect("good settings");
    let subnormal = both.areas.affinities.iter().filter(|v| v.is_subnormal()).count();
    both.work(u32::MAX);
    subnormal
}

#[test]
fn far_frames() {
    let (first, count) = (setting("BROTHANCHOR_SEED", 1), setting("BROTHANCHOR_RUNS", 60));
    let (mut exact, mut listed) = (0, 0);
    for seed in first..first + count {
        let mut random = Random::new(seed);
        let features = random.within(1, 4);
        let heaps = Heaps::new(&mut SplitMix64::new(seed), features);
        let mut both = || {
            exact += run(&mut random, &heaps, Method::Exact);
            listed += run(&mut random, &heaps, Method::BarnesHut);
        };
        let differs = catch_unwind(AssertUnwindSafe(&mut both)).is_err();
        assert!(!differs, "far frames: the runs of seed {seed} differ");
    }
    println!(
        "far frames: seeds {first} to {}: {exact} and {listed} subnormal affinities",
        first + count - 1
    );
    assert!(exact > 10 * count as usize && listed > 10 * count as usize);
}
