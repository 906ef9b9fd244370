//! The choice of neighbours and their lists where many frames are equally near: all that a preparation leaves has to be what
//! the rules leave.

use crate::both::Both;
use crate::case::Case;
use crate::random::Random;
use brothanchor::{Method, Settings};

/// Features of a frame.
const F: usize = 3;

/// Tables whose distances tie: all frames alike; a line of equal steps; a grid; heaps of coincident frames; frames so far out
/// that distances round to the same values; the same pair of places by turns.
const KINDS: usize = 6;

fn table(random: &mut Random, n: usize, kind: usize) -> Vec<f64> {
    let heaps: Vec<f64> = (0..5 * F).map(|_| random.unit() * 4.0).collect();
    let mut one = |i: usize, d: usize| match kind {
        0 => 0.75,
        1 => i as f64 * 0.125,
        2 => random.below(3) as f64,
        3 => heaps[(i * i % 5) * F + d],
        4 => 1_048_575.0 + random.unit() * 1e-4,
        _ => (i % 2) as f64,
    };
    (0..n * F).map(|place| one(place / F, place % F)).collect()
}

/// A preparation of n frames, Barnes-Hut, on both sides; the number of neighbours of each.
fn prepared(random: &mut Random, n: usize, perplexity: f64, kind: usize) -> usize {
    let settings = Settings {
        n,
        f: F,
        c: 2,
        method: Method::BarnesHut,
        perplexity,
        rate: 10.0,
        iterations: 1,
        angle: 0.5,
        minimum: 0.0,
    };
    let mut case = Case::good(random, settings, 1);
    case.table = table(random, n, kind);
    let both = Both::prepare(&case).expect("a good run");
    let links = both.areas.offsets[n] as usize;
    let k = (((3.0 * perplexity).ceil() as usize) + 1).min(n - 1);
    assert!(n * k <= links && links <= 2 * n * k, "{links} links");
    k
}

#[test]
fn ties_and_coincident_frames() {
    let mut random = Random::new(4);
    let (mut one, mut all) = (0, 0);
    for n in [2, 3, 4, 5, 8, 9, 10, 17, 33, 64, 91, 92, 93, 130] {
        for perplexity in [0.1, 1.0, 2.5, 30.0, n as f64 - 0.5] {
            if perplexity >= n as f64 {
                continue;
            }
            for kind in 0..KINDS {
                let k = prepared(&mut random, n, perplexity, kind);
                one += usize::from(k == 1);
                all += usize::from(k == n - 1);
            }
        }
    }
    assert!(one > 0 && all > 50, "{one} with one neighbour, {all} with all");
}
