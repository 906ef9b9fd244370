//! What the tree is worth, over whole runs of the library: between an iteration's box and its finish the four claims are
//! asked of the arena after each call (`oracle::worth`), the points in it being told by the units done alone. The angle is
//! zero, of either sign, so what a point's forces unit has stored has to be the sum over the leaves, bit for bit.
//!
//! Positions are given at each border, where a run may hold any: at random, the same for several points, on the lines
//! through the centre, subnormal, and of every size up to 2^100.

use crate::both::{number, other_node, Both};
use crate::case::Case;
use crate::random::Random;
use crate::setting;
use brothanchor::{sizes, Areas, Kind, Method, Rows, Settings};
use oracle::tree::Node;
use oracle::worth::{hard_positions, Tree, HARD_KINDS};

/// What was met in a run.
#[derive(Debug, Default)]
struct Met {
    /// Arenas that were asked.
    arenas: usize,
    /// Points whose stored forces were asked.
    forces: usize,
    /// Leaves that counted several points.
    crowded: usize,
}

/// The units of this iteration, from those done in all.
fn phase(both: &Both) -> usize {
    let [n, total] = [0, 12].map(|word| both.record.words[word] as usize);
    total % (2 * n + 2)
}

/// Asks the claims of a run between box and finish.
fn ask(both: &Both, met: &mut Met) {
    let [n, c, used] = [0, 2, 13].map(|word| both.record.words[word] as usize);
    let phase = phase(both);
    if phase == 0 {
        return;
    }
    let nodes: Vec<Node> = both.areas.nodes.iter().map(other_node).collect();
    let tree = Tree::new(&nodes, used, c);
    let points = (phase - 1).min(n);
    assert_eq!(tree.holds(points), Ok(()));
    assert_eq!(tree.places(&both.areas.positions, points), Ok(()));
    met.arenas += 1;
    met.crowded += tree.leaves().iter().filter(|&&k| nodes[k].count > 1).count();
    for q in 0..phase.saturating_sub(n + 1) {
        let (force, share) = tree.over_leaves(&both.areas.positions, q);
        let stored = &both.areas.forces[q * (2 * c + 1) + c..][..c + 1];
        let wanted = force[..c].iter().chain(Some(&share));
        assert!(
            stored.iter().zip(wanted).all(|(a, b)| a.to_bits() == b.to_bits()),
            "point {q}: {stored:?}, over the leaves {force:?} {share}"
        );
        met.forces += 1;
    }
}

fn run(seed: u64, met: &mut Met) {
    let mut random = Random::new(seed);
    let (n, c) = (random.within(2, 24), 1 + seed as usize % 3);
    let settings = Settings {
        n,
        f: 1,
        c,
        method: Method::BarnesHut,
        perplexity: 1.0,
        rate: 10.0,
        iterations: 2 * HARD_KINDS,
        angle: random.one_of(&[0.0, -0.0]),
        minimum: 0.0,
    };
    let sizes = sizes(&settings).expect("good settings");
    let case = Case {
        settings,
        table: (0..n).map(|i| i as f64).collect(),
        start: hard_positions(0, n, c, || random.word()),
        areas: Areas::new(&sizes, sizes.nodes),
        rows: Rows::new(&sizes),
    };
    let mut both = Both::prepare(&case).expect("a good run");
    for kind in 0..2 * HARD_KINDS {
        // two of the iterations go by the positions that the run itself has come to
        if kind % HARD_KINDS != 0 {
            both.areas.positions = hard_positions(kind, n, c, || random.word());
        }
        loop {
            let left = 2 * n + 2 - phase(&both);
            let budget = if random.once_in(3) { random.within(1, 2 * n) } else { 1 }.min(left);
            let worked = both.work(budget as u32);
            ask(&both, met);
            if worked.kind == Kind::Running && phase(&both) != 0 {
                continue;
            }
            assert_eq!(number(&worked), 0);
            break;
        }
    }
}

#[test]
fn the_tree_is_worth_what_is_claimed() {
    let first = setting("BROTHANCHOR_SEED", 1);
    let mut met = Met::default();
    for seed in first..first + setting("BROTHANCHOR_RUNS", 24) {
        run(seed, &mut met);
    }
    println!("{met:?}");
    assert!(met.arenas > 0 && met.forces > 0 && met.crowded > 0, "{met:?}");
}
