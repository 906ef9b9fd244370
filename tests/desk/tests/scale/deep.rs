//! The force walk over altered arenas: deep chains, and nodes at random. What passes the contents test is walked,
//! whatever its shape: counts at most n, points below n, child blocks wholly above their node among those in use.
//!
//! A tree that insertions made is at most 51 deep, but an altered one may be a chain as deep as there are nodes. A walk
//! that calls itself at each level would overflow the stack there, and the process would be gone. So the library's walk
//! has to get along with the stack that a thread has: 205,000 levels in the 2 MiB that a thread of Rust has, which is
//! more than the arena that `brothanchor_sizes` tells can hold (204,750 for 4,096 frames), and 800,000 in the 8 MiB
//! that a process has. Its own trees it walks in less than 16 KiB. The independent implementation keeps its own list of waiting cells and does not call itself.

use crate::both::Both;
use crate::case::Case;
use crate::random::Random;
use brothanchor::{prepare, sizes, work, Areas, Kind, Method, Node, Rows, Settings};
use std::thread;

const MIB: usize = 1 << 20;

/// A run of n points that was prepared, then altered: the next unit is the first point's forces, and the tree is these
/// nodes, all of them in use.
fn before_the_forces(random: &mut Random, n: usize, c: usize, angle: f64, nodes: Vec<Node>) -> Both {
    let settings = Settings {
        n,
        f: 1,
        c,
        method: Method::BarnesHut,
        perplexity: 1.0,
        rate: 10.0,
        iterations: 2,
        angle,
        minimum: 0.0,
    };
    let sizes = sizes(&settings).expect("good settings");
    let mut values = |length: usize| -> Vec<f64> { (0..length).map(|_| random.unit() * 20.0 - 10.0).collect() };
    let case = Case {
        settings,
        table: values(n),
        start: values(n * c),
        areas: Areas::new(&sizes, 1),
        rows: Rows::new(&sizes),
    };
    let mut both = Both::prepare(&case).expect("a good run");
    let done = 1 + n as u64; // the box and the insertions
    both.record.words[11] = done;
    both.record.words[12] = done;
    both.record.words[13] = nodes.len() as u64;
    both.areas.nodes = nodes;
    both
}

/// A cell of n points at a random place, without children and without a point.
fn cell(random: &mut Random, n: usize) -> Node {
    let mut values = || [0; 3].map(|_| random.unit() * 20.0 - 10.0);
    Node {
        centre: values(),
        half: values(),
        mass: values(),
        count: n as u32,
        ..Node::default()
    }
}

/// A leaf with any number of points up to n, and a name of any of them or of none.
fn leaf(random: &mut Random, n: usize) -> Node {
    Node {
        leaf: random.within(0, n) as u32,
        count: random.within(0, n) as u32,
        ..cell(random, n)
    }
}

/// A chain of so many split nodes: of each one's children one is the next split node, the others are leaves. At the end
/// all are leaves.
fn chain(random: &mut Random, levels: usize, n: usize, c: usize) -> Vec<Node> {
    let mut nodes = vec![cell(random, n)];
    let mut last = 0;
    for _ in 1..levels {
        last = split(random, &mut nodes, last, n, c);
        nodes[last] = cell(random, n);
    }
    split(random, &mut nodes, last, n, c);
    nodes
}

/// Gives a node children behind all others, leaves at random, and names one of them.
fn split(random: &mut Random, nodes: &mut Vec<Node>, i: usize, n: usize, c: usize) -> usize {
    let first = nodes.len();
    nodes[i].first = first as u32;
    for _ in 0..1 << c {
        nodes.push(leaf(random, n));
    }
    first + random.below(1 << c)
}

/// A chain for two points on a line: a split node's first child is the next split node, its second child a leaf with so
/// many points. The chain ends in a leaf that holds point 1. All centres lie above the points.
fn line(levels: usize, seconds: u32) -> Vec<Node> {
    let body = |place: usize, count: u32| Node {
        centre: [50.0; 3],
        half: [0.5; 3],
        mass: [(place % 1000) as f64 / 64.0, 0.0, 0.0],
        count,
        ..Node::default()
    };
    let mut nodes = vec![body(0, 2)];
    for level in 0..levels {
        let last = (2 * level).saturating_sub(1);
        nodes[last].first = 2 * level as u32 + 1;
        nodes.extend([body(level, 2), body(level, seconds)]);
    }
    let last = 2 * levels - 1;
    nodes[last].count = 1;
    nodes[last].leaf = 2;
    nodes
}

/// One work call of so many units, in a thread with so much stack, and the first point's forces afterwards.
fn forces_in(stack: usize, mut both: Both, units: u32) -> Vec<f64> {
    let call = move || {
        let worked = both.work(units);
        assert_eq!((worked.kind, worked.units), (Kind::Running, u64::from(units)));
        both.areas.forces[..3].to_vec()
    };
    let thread = thread::Builder::new().stack_size(stack).spawn(call);
    thread.expect("a thread").join().expect("the same on both sides")
}

/// The forces over a line: once with empty second children, which only have to be passed by; once with such as are a
/// body each, so that the walk has to come back to each level.
fn walked_in(stack: usize, levels: usize) {
    for seconds in [0, 1] {
        let nodes = line(levels, seconds);
        let both = before_the_forces(&mut Random::new(levels as u64), 2, 1, 0.0, nodes);
        let forces = forces_in(stack, both, 1);
        let bodies = 1 + seconds as usize * levels;
        assert!(forces[1] != 0.0 && forces[2] > 0.0 && forces[2] <= bodies as f64);
    }
}

#[test]
fn levels_205_000_in_2_mib() {
    walked_in(2 * MIB, 205_000);
}

#[test]
fn levels_800_000_in_8_mib() {
    walked_in(8 * MIB, 800_000);
}

/// A whole run in a thread that has 16 KiB, some of which the thread itself needs: all points but one coincide, so the trees
/// are as deep as insertions make them, and at the angle 0 the walk goes to every leaf.
#[test]
fn own_trees_in_16_kib() {
    for (c, method) in [
        (1, Method::BarnesHut),
        (2, Method::BarnesHut),
        (3, Method::BarnesHut),
        (8, Method::Exact),
    ] {
        let settings = Settings {
            n: 6,
            f: 1,
            c,
            method,
            perplexity: 2.0,
            rate: 10.0,
            iterations: 2,
            angle: 0.0,
            minimum: 0.0,
        };
        let sizes = sizes(&settings).expect("good settings");
        let (mut areas, mut rows) = (Areas::new(&sizes, sizes.nodes), Rows::new(&sizes));
        let table = [1.0; 6];
        let start: Vec<f64> = (0..6 * c).map(|place| if place < c { 3.0 } else { 0.5 }).collect();
        let call = move || {
            let mut record = prepare(&settings.words(), &table, &start, &mut areas, &mut rows).expect("a good run");
            let first = work(&mut record, &mut areas, settings.iteration() as u32 - 1).kind;
            (first, record.words[13], work(&mut record, &mut areas, u32::MAX).kind)
        };
        let thread = thread::Builder::new()
            .stack_size(16 << 10)
            .spawn(call)
            .expect("a thread");
        let (first, used, last) = thread.join().expect("a run");
        assert_eq!((first, last), (Kind::Running, Kind::Finished));
        let wanted = if method == Method::Exact { 0 } else { 1 + (50 << c) };
        assert_eq!(used, wanted, "{c} components: not as deep as may be");
    }
}

/// The last point goes down the whole line first, and each node on its way counts it.
#[test]
fn an_insertion_into_205_000_levels_in_2_mib() {
    let mut both = before_the_forces(&mut Random::new(2), 2, 1, 0.0, line(205_000, 1));
    both.record.words[11] -= 1;
    both.record.words[12] -= 1;
    forces_in(2 * MIB, both, 2);
}

/// Chains through any child, of every depth up to 600: a walk that keeps a number of levels at a time has its limits
/// at some of them.
#[test]
fn chains_of_every_depth() {
    let mut random = Random::new(1);
    let deepest: Vec<Vec<Node>> = (1..=3).map(|c| chain(&mut random, 600, 3, c)).collect();
    for levels in 1..=600 {
        let c = 1 + levels % 3;
        let last = levels << c;
        let mut nodes = deepest[c - 1][..=last].to_vec();
        for node in nodes.iter_mut().filter(|node| node.first as usize > last) {
            // Here the chain is cut off.
            node.first = 0;
        }
        let mut both = before_the_forces(&mut random, 3, c, 0.0, nodes);
        let worked = both.work(1);
        assert_eq!((worked.kind, worked.units), (Kind::Running, 1), "{levels} levels");
    }
}

/// Nodes at random that pass the contents test: children shared by several nodes, split nodes that name a point too,
/// cells of any size and four angles.
#[test]
fn arenas_at_random() {
    for seed in 0..1500 {
        let mut random = Random::new(seed);
        let (n, c) = (random.within(2, 5), random.within(1, 3));
        let used = random.within(1, 20);
        let mut nodes: Vec<Node> = (0..used).map(|_| leaf(&mut random, n)).collect();
        for (i, node) in nodes.iter_mut().enumerate() {
            let highest = (used + 1).saturating_sub(1 << c);
            if i + 1 < highest && random.once_in(2) {
                node.first = random.within(i + 1, highest - 1) as u32;
            }
        }
        let angle = random.one_of(&[0.0, 0.3, 0.5, 0.99]);
        let mut both = before_the_forces(&mut random, n, c, angle, nodes);
        let worked = both.work(n as u32);
        assert_eq!((worked.kind, worked.units), (Kind::Running, n as u64), "seed {seed}");
    }
}
