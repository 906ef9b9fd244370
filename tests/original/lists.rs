//! Makes the replay lists that the original Rust itself judges: `lists DIR` writes them below the folder of crates.
//!
//! `make` puts this file into the built original as a further program, beside the three passages of t_sne.rs that lie
//! inside a longer function there: `chosen.rs` (the neighbours' choice), `joined.rs` (the symmetrising) and `moved.rs`
//! (the step before centring). All are cut out of the original's text, word by word. The lists come from fixed seeds, so
//! every run makes the same bytes.

use ahash::AHashMap;
use ndarray::{Array1, Array2, Zip};
use rustyml::machine_learning::manifold::t_sne::oracle::{
    apply_gradient_step, barnes_hut_gradient, center_embedding, DumpNode, Tree,
};
use rustyml::machine_learning::manifold::t_sne::TSNE;
use std::fs;
use std::path::Path;

/// What the step before centring reads of the model.
struct Rate {
    learning_rate: f64,
}

include!("../chosen.rs");
include!("../joined.rs");
include!("../moved.rs");

/// The angles of the force walks.
const ANGLES: [f64; 4] = [0.0, 0.3, 0.5, 0.99];
/// Angle and exaggeration of a gradient, in turn.
const PULLS: [(f64, f64); 6] = [
    (0.0, 12.0),
    (0.5, 1.0),
    (0.5, 12.0),
    (0.0, 1.0),
    (0.99, 12.0),
    (-0.0, 1.0),
];
/// The two momenta of a run.
const MOMENTA: [f64; 2] = [0.5, 0.8];
/// Learning rates.
const RATES: [f64; 5] = [200.0, 5.0, 1.0, 1e-3, 1e4];
/// The largest magnitude that a step may give: 2^100.
const CALM: f64 = 1_267_650_600_228_229_401_496_703_205_376.0;

fn main() {
    let folder = std::env::args().nth(1).expect("usage: lists DIR");
    let crates = Path::new(&folder);
    for c in 1..=3 {
        write(crates, "replay_tree", &format!("tree_{c}"), &tree_cases(c));
    }
    write(crates, "replay_affinity", "near", &near_cases());
    write(crates, "replay_affinity", "lists", &lists_cases());
    write(crates, "replay_forces", "pulls", &pulls_cases());
    write(crates, "replay_forces", "moves", &moves_cases());
}

/// Writes one list as little-endian words.
fn write(crates: &Path, replayer: &str, name: &str, cases: &[Vec<u64>]) {
    let folder = crates.join(replayer).join("data");
    fs::create_dir_all(&folder).expect("the folder of the list");
    let bytes: Vec<u8> = cases.concat().iter().flat_map(|word| word.to_le_bytes()).collect();
    let path = folder.join(format!("{name}.words"));
    fs::write(&path, &bytes).expect("the list");
    println!("{}: {} bytes, {} cases", path.display(), bytes.len(), cases.len());
}

/// SplitMix64, for the inputs.
struct Random(u64);

impl Random {
    fn next(&mut self) -> u64 {
        self.0 = self.0.wrapping_add(0x9E37_79B9_7F4A_7C15);
        let mut z = self.0;
        z = (z ^ (z >> 30)).wrapping_mul(0xBF58_476D_1CE4_E5B9);
        z = (z ^ (z >> 27)).wrapping_mul(0x94D0_49BB_1331_11EB);
        z ^ (z >> 31)
    }

    /// From 0 up to 1.
    fn unit(&mut self) -> f64 {
        (self.next() >> 11) as f64 / (1u64 << 53) as f64
    }

    /// A number below n.
    fn below(&mut self, n: usize) -> usize {
        (self.next() % n as u64) as usize
    }

    /// One of the given values.
    fn of(&mut self, values: &[f64]) -> f64 {
        values[self.below(values.len())]
    }
}

// ---- the tree

/// A set of points: the number of components, and the coordinates row by row.
type Points = (usize, Vec<f64>);

/// Every case of trees in c components.
fn tree_cases(c: usize) -> Vec<Vec<u64>> {
    maps(c).iter().map(|(c, y)| tree_case(*c, y)).collect()
}

/// The sets of points. Equal points take 50 levels of 2^c nodes, so there are few of those with c = 3.
fn maps(c: usize) -> Vec<Points> {
    let kinds = [
        scattered(c),
        on_centre_lines(c),
        with_zeros(c),
        far(c),
        coincident(c),
        tiny(c),
    ];
    kinds.concat()
}

/// n points whose coordinates the given function chooses.
fn points(c: usize, n: usize, mut coordinate: impl FnMut() -> f64) -> Points {
    (c, (0..n * c).map(|_| coordinate()).collect())
}

/// Random points: each small number of them, and some larger ones; the last in the size of a start.
fn scattered(c: usize) -> Vec<Points> {
    let mut random = Random(100 + c as u64);
    let mut sets = Vec::new();
    for n in (1..=12).chain([16, 25, 64]) {
        sets.push(points(c, n, || random.unit() * 20.0 - 10.0));
    }
    sets.push(points(c, 21, || (random.unit() - 0.5) * 1.0e-4));
    sets
}

/// Quarters, so that many lie on the root's centre lines, and the same 2^16 times as large: there the padding of
/// 1e-12 is rounded away, so the centre lines of every depth are met.
fn on_centre_lines(c: usize) -> Vec<Points> {
    let mut random = Random(200 + c as u64);
    let mut sets = Vec::new();
    for scale in [0.25, 16_384.0] {
        for n in [4, 9, 14] {
            let (_, mut y) = points(c, n, || (random.below(33) as f64 - 16.0) * scale);
            apart(c, &mut y, scale, &mut random);
            // the corners, so that the centre is 0
            y[..c].fill(16.0 * scale);
            y[c..2 * c].fill(-16.0 * scale);
            sets.push((c, y));
        }
    }
    sets
}

/// Moves points away from earlier equal ones, as long as there are any.
fn apart(c: usize, y: &mut [f64], scale: f64, random: &mut Random) {
    let n = y.len() / c;
    for i in 0..n {
        while (0..i).any(|j| y[j * c..j * c + c] == y[i * c..i * c + c]) {
            let d = i * c + random.below(c);
            y[d] = (random.below(31) as f64 - 15.0) * scale;
        }
    }
}

/// Zeros of either sign among ones: equal points whose bits differ.
fn with_zeros(c: usize) -> Vec<Points> {
    let mut random = Random(300 + c as u64);
    let two = |a: f64, b: f64| (c, [vec![a; c], vec![b; c]].concat());
    let mut sets = vec![(c, vec![-0.0; c]), two(0.0, 1.0), two(-0.0, -1.0), two(-0.0, 0.0)];
    if c < 3 {
        sets.push(points(c, 5, || random.of(&[0.0, -0.0, 1.0, -1.0])));
    }
    sets
}

/// Far values: the domain's end, the end of what a step may give, 1e18, and those among near ones.
fn far(c: usize) -> Vec<Points> {
    let mut random = Random(400 + c as u64);
    let domain = 1_048_576.0;
    let calm = domain * domain * domain * domain * domain;
    vec![
        points(c, 7, || (random.unit() * 2.0 - 1.0) * domain),
        points(c, 6, || (random.unit() * 2.0 - 1.0) * 1.0e18),
        points(c, 5, || (random.unit() * 2.0 - 1.0) * calm),
        points(c, 6, || random.of(&[1.0e18, -1.0e18, 3.0, 4.0, -domain, domain])),
    ]
}

/// Equal points: pairs and clusters, alone and among others, so that leaves of depth 50 hold several.
fn coincident(c: usize) -> Vec<Points> {
    let mut random = Random(500 + c as u64);
    let mut sets = vec![(c, vec![-0.1; 3 * c])];
    if c == 1 {
        sets.push((c, vec![5.0; 2]));
        sets.push((c, vec![0.3; 64]));
        sets.push(points(c, 24, || random.of(&[0.1, 0.2, 0.3, 0.7, -0.9])));
    }
    if c == 2 {
        sets.push(points(c, 7, || random.of(&[-1.5, 0.25, 2.0])));
    }
    if c < 3 {
        let (_, mut y) = points(c, 9, || random.unit());
        for i in [3, 5, 8] {
            y.copy_within(0..c, i * c);
        }
        sets.push((c, y));
    }
    // next to each other: the last bits differ
    let (_, mut y) = points(c, 4, || random.unit() + 1.0);
    for d in 0..c {
        y[c + d] = f64::from_bits(y[d].to_bits() + 1 + d as u64);
    }
    sets.push((c, y));
    sets
}

/// Subnormals and the smallest normals, of both signs: the box is as wide as its padding.
fn tiny(c: usize) -> Vec<Points> {
    let mut random = Random(600 + c as u64);
    let smallest = f64::from_bits(1);
    let mut sets = vec![(c, [vec![smallest; c], vec![-smallest; c]].concat())];
    let mut small = move || f64::from_bits(random.next() & 0x800F_FFFF_FFFF_FFFF);
    if c < 3 {
        sets.push(points(c, 5, &mut small));
        let (_, mut y) = points(c, 4, &mut small);
        y[..c].fill(1.0);
        y[c..2 * c].fill(-f64::MIN_POSITIVE);
        sets.push((c, y));
    }
    sets
}

/// One set of points, its tree in pre-order, and every point's force and share at each angle.
fn tree_case(c: usize, y: &[f64]) -> Vec<u64> {
    let n = y.len() / c;
    let tree = Tree::build(&Array2::from_shape_vec((n, c), y.to_vec()).expect("rows of c"));
    let nodes = tree.dump();
    let mut words = vec![c as u64, n as u64];
    words.extend(bits(y));
    words.push(nodes.len() as u64);
    words.extend(nodes.iter().flat_map(|node| node_words(c, node)));
    for i in 0..n {
        for angle in ANGLES {
            let (force, share) = tree.repulse(i, &y[i * c..i * c + c], angle * angle);
            assert!(force.iter().all(|v| !v.is_nan()) && !share.is_nan());
            words.extend(bits(&force[..c]));
            words.push(share.to_bits());
        }
    }
    words
}

/// Centre, half-width and centre of mass, count, leaf (0, or point + 1), number of children.
fn node_words(c: usize, node: &DumpNode) -> Vec<u64> {
    assert!([&node.center, &node.half_width, &node.com]
        .iter()
        .all(|row| row.len() == c));
    assert!(node.n_children == 0 || (node.n_children == 1 << c && node.leaf.is_none()));
    assert!(node.cum_size < 2 || node.n_children > 0 || (node.depth == 50 && node.leaf.is_some()));
    let mut words = bits(&node.center);
    words.extend(bits(&node.half_width));
    words.extend(bits(&node.com));
    words.extend([
        node.cum_size as u64,
        node.leaf.map_or(0, |i| i as u64 + 1),
        node.n_children as u64,
    ]);
    words
}

/// The bits of each value.
fn bits(values: &[f64]) -> Vec<u64> {
    values.iter().map(|v| v.to_bits()).collect()
}

// ---- the neighbours

/// Every case of the neighbours' list: n, k, i, the n distances, then the k chosen frames with their distances.
fn near_cases() -> Vec<Vec<u64>> {
    let mut cases = Vec::new();
    for row in rows_of(&[0.0, 1.0, 2.0], 4) {
        for k in 1..=3 {
            cases.push(near_case(&row, k, 0));
            cases.push(near_case(&row, k, 2));
        }
    }
    let mut random = Random(700);
    for round in 0..120 {
        let n = 2 + random.below(if round < 100 { 24 } else { 150 });
        let k = 1 + random.below(n - 1);
        let i = random.below(n);
        let many_ties = round % 2 == 0;
        let row: Vec<f64> = (0..n)
            .map(|_| {
                if many_ties {
                    random.below(6) as f64 * 0.5
                } else {
                    random.unit() * 1.0e4
                }
            })
            .collect();
        cases.push(near_case(&row, k, i));
    }
    let ends = [
        0.0,
        f64::from_bits(1),
        f64::MIN_POSITIVE,
        1.0e12,
        f64::MAX,
        f64::INFINITY,
    ];
    for k in 1..=11 {
        let row: Vec<f64> = (0..12).map(|_| random.of(&ends)).collect();
        cases.push(near_case(&row, k, k));
    }
    cases
}

/// Every row of the given values that has the given length.
fn rows_of(values: &[f64], length: usize) -> Vec<Vec<f64>> {
    let mut rows = vec![Vec::new()];
    for _ in 0..length {
        rows = rows
            .iter()
            .flat_map(|row: &Vec<f64>| values.iter().map(move |&v| [&row[..], &[v]].concat()))
            .collect();
    }
    rows
}

/// One choice: the k nearest of frame i, which is at the given distances from the others.
fn near_case(row: &[f64], k: usize, i: usize) -> Vec<u64> {
    let pairs = row
        .iter()
        .enumerate()
        .filter(|&(j, _)| j != i)
        .map(|(j, &d)| (d, j))
        .collect();
    let found = chosen(pairs, k);
    assert_eq!(found.len(), k);
    let mut words = vec![row.len() as u64, k as u64, i as u64];
    words.extend(bits(row));
    words.extend(found.iter().flat_map(|&(d, j)| [j as u64, d.to_bits()]));
    words
}

// ---- the lists

/// Every case of the lists' list: n, k, then for each frame its k links, by rising index, each with its share; then the
/// n + 1 offsets, and the links of all lists, each with its weight.
fn lists_cases() -> Vec<Vec<u64>> {
    let mut random = Random(800);
    let mut cases = Vec::new();
    for n in (2..=9).chain([12, 17, 25, 40, 64]) {
        let mut sizes = vec![1, n / 3, n / 2, n - 1];
        sizes.retain(|&k| k > 0);
        sizes.dedup();
        for k in sizes.into_iter().filter(|&k| n * k <= 1100) {
            cases.push(lists_case(n, &random_links(n, k, &mut random)));
        }
    }
    // three frames with one link each, in every way
    for choice in 0..8 {
        let links = (0..3)
            .map(|i| vec![((i + 1 + (choice >> i & 1)) % 3, 1.0)])
            .collect::<Vec<_>>();
        cases.push(lists_case(3, &links));
    }
    // one frame that all others name
    let star: Vec<Vec<(usize, f64)>> = (0..20).map(|i| vec![(usize::from(i == 0), random.unit())]).collect();
    cases.push(lists_case(20, &star));
    cases
}

/// k links of each frame, by rising index, with shares: random ones, zeros and ones that are too small to be felt.
fn random_links(n: usize, k: usize, random: &mut Random) -> Vec<Vec<(usize, f64)>> {
    (0..n)
        .map(|i| {
            let mut others: Vec<usize> = (0..n).filter(|&j| j != i).collect();
            for place in 0..k {
                let from = place + random.below(n - 1 - place);
                others.swap(place, from);
            }
            others[..k].sort_unstable();
            let mut share = || {
                if random.below(5) == 0 {
                    random.of(&[0.0, 1.0e-300, 1.0])
                } else {
                    random.unit()
                }
            };
            others[..k].iter().map(|&j| (j, share())).collect()
        })
        .collect()
}

/// One symmetrising.
fn lists_case(n: usize, links: &[Vec<(usize, f64)>]) -> Vec<u64> {
    let conditional: Vec<(Vec<usize>, Array1<f64>)> = links
        .iter()
        .map(|row| (row.iter().map(|l| l.0).collect(), row.iter().map(|l| l.1).collect()))
        .collect();
    let lists = joined(conditional, n);
    let mut words = vec![n as u64, links[0].len() as u64];
    words.extend(
        links
            .iter()
            .flatten()
            .flat_map(|&(j, share)| [j as u64, share.to_bits()]),
    );
    let mut offset = 0;
    words.push(offset);
    for list in &lists {
        offset += list.len() as u64;
        words.push(offset);
    }
    words.extend(
        lists
            .iter()
            .flatten()
            .flat_map(|&(j, weight)| [j as u64, weight.to_bits()]),
    );
    words
}

// ---- the Barnes-Hut gradient

/// Every case of the gradients' list: n, c, angle, exaggeration, number of links, the positions, n + 1 offsets, the
/// links' indices, their weights; then Z and the gradient.
fn pulls_cases() -> Vec<Vec<u64>> {
    let mut random = Random(900);
    let mut cases = Vec::new();
    let mut turn = 0;
    for c in 1..=3 {
        for (_, y) in maps(c) {
            // the next set of points begins with another angle and exaggeration
            for _ in 0..if y.len() < 32 { 4 } else { 2 } {
                cases.push(pulls_case(c, &y, turn, &mut random));
                turn += 1;
            }
        }
    }
    cases
}

/// A list for each of n frames, by rising index: none, some or all of the frames, itself at times; weights of 0, random
/// ones as a preparation gives them, and ones that are too small or too large for that.
fn random_lists(n: usize, random: &mut Random) -> Vec<Vec<(usize, f64)>> {
    let most = 1 + random.below(6);
    (0..n)
        .map(|_| {
            let wanted = random.below(most + 1);
            let mut weight = || match random.below(8) {
                0 => 0.0,
                1 => random.of(&[-0.0, 1.0e-300, f64::from_bits(1), 0.5, 1.0, 1.0e30]),
                _ => random.unit() / n as f64,
            };
            let weights: Vec<f64> = (0..wanted).map(|_| weight()).collect();
            let mut frames: Vec<usize> = (0..wanted).map(|_| random.below(n)).collect();
            frames.sort_unstable();
            frames.dedup();
            frames.into_iter().zip(weights).collect()
        })
        .collect()
}

/// One gradient, by the original's own function.
fn pulls_case(c: usize, y: &[f64], turn: usize, random: &mut Random) -> Vec<u64> {
    let n = y.len() / c;
    let (angle, exaggeration) = PULLS[turn % PULLS.len()];
    let lists = random_lists(n, random);
    let model = TSNE::new(c, 1.0, 1.0, 1).expect("a model");
    let map = Array2::from_shape_vec((n, c), y.to_vec()).expect("rows of c");
    let (gradient, z) = barnes_hut_gradient(&model, &map, &lists, angle, exaggeration);
    let links: Vec<(usize, f64)> = lists.concat();
    let mut words = vec![
        n as u64,
        c as u64,
        angle.to_bits(),
        exaggeration.to_bits(),
        links.len() as u64,
    ];
    words.extend(bits(y));
    let mut offset = 0;
    words.push(offset);
    for list in &lists {
        offset += list.len() as u64;
        words.push(offset);
    }
    words.extend(links.iter().map(|link| link.0 as u64));
    words.extend(links.iter().map(|link| link.1.to_bits()));
    words.push(listed(z));
    words.extend(gradient.iter().map(|&v| listed(v)));
    words
}

/// The bits of a value in a list: any NaN is listed as the one NaN.
fn listed(v: f64) -> u64 {
    if v.is_nan() {
        0x7FF8_0000_0000_0000
    } else {
        v.to_bits()
    }
}

// ---- the step before centring

/// Every case of the moves' list: n, c, momentum, rate, then the gradient, positions, increments and gains before the
/// step, and positions, increments and gains after it, not yet centred.
fn moves_cases() -> Vec<Vec<u64>> {
    let mut random = Random(1000);
    let mut cases = Vec::new();
    let mut turn = 0;
    for c in 1..=8 {
        for n in 1..=4 {
            for kind in 0..MOVES {
                cases.push(moves_case(n, c, kind, turn, &mut random));
                turn += 1;
            }
        }
    }
    cases
}

/// How many kinds of elements there are.
const MOVES: usize = 9;

/// Gradient, position, increment and gain of one element before the step.
fn element(kind: usize, random: &mut Random) -> [f64; 4] {
    let gradient = (random.unit() - 0.5) * 4.0;
    let position = (random.unit() - 0.5) * 10.0;
    let increment = (random.unit() - 0.5) * 2.0;
    let gain = random.unit() * 3.0 + 0.01;
    let wild = [f64::NAN, f64::INFINITY, f64::NEG_INFINITY, 1.0e300, -1.0e300, f64::MAX];
    match kind {
        0 => [gradient, position, increment, gain],
        // zero products: of zeros of either sign, and of values too small
        1 => {
            let zero = random.of(&[0.0, -0.0]);
            let pairs = [(zero, increment), (gradient, zero), (zero, zero), (1.0e-200, -1.0e-200)];
            let (g, v) = pairs[random.below(pairs.len())];
            [g, position, v, gain]
        }
        2 => [gradient, position, increment.copysign(gradient), gain],
        3 => [gradient, position, increment.copysign(-gradient), gain],
        // gains at the floor and around it, before and after the change
        4 => {
            let gain = random.of(&[
                0.01, 0.0125, 0.012, 0.0, -0.0, -0.19, -0.2, -0.21, -1.0, 0.009, 0.013, 5.0e-324,
            ]);
            [gradient, position, increment, gain]
        }
        // products that overflow or vanish
        5 => {
            let ends = [1.0e-200, -1.0e-200, 1.0e25, -1.0e25, 1.0e200, -1.0e200];
            [random.of(&ends), position, random.of(&ends), gain]
        }
        // positions, increments and gains around 2^100
        6 => {
            let ends = [CALM, -CALM, CALM * 1.25, -0.5 * CALM, 1.0];
            [
                random.of(&[0.0, gradient]),
                random.of(&ends),
                random.of(&ends),
                random.of(&ends),
            ]
        }
        // a wild gradient
        7 => [random.of(&wild), position, random.of(&[increment, 0.0, -0.0]), gain],
        // anything wild
        _ => {
            let mut values = [gradient, position, increment, gain];
            values[random.below(4)] = random.of(&wild);
            values
        }
    }
}

/// One step. The passage that was cut out has to give what the original's function gives: the same gains and increments,
/// and with the original's centring the same positions.
fn moves_case(n: usize, c: usize, kind: usize, turn: usize, random: &mut Random) -> Vec<u64> {
    let momentum = MOMENTA[turn / 2 % 2];
    let rate = RATES[turn % RATES.len()];
    let elements: Vec<[f64; 4]> = (0..n * c).map(|_| element(kind, random)).collect();
    let column = |k: usize| Array2::from_shape_fn((n, c), |(i, d)| elements[i * c + d][k]);
    let gradient = column(0);
    let (mut y, mut increments, mut gains) = (column(1), column(2), column(3));
    let mut words = vec![n as u64, c as u64, momentum.to_bits(), rate.to_bits()];
    for values in [&gradient, &y, &increments, &gains] {
        words.extend(values.iter().map(|&v| listed(v)));
    }
    let model = TSNE::new(c, 1.0, rate, 1).expect("a model");
    let (mut whole, mut its_increments, mut its_gains) = (y.clone(), increments.clone(), gains.clone());
    apply_gradient_step(
        &model,
        &mut whole,
        &mut its_increments,
        &mut its_gains,
        &gradient,
        momentum,
    );
    Rate { learning_rate: rate }.moved(&mut y, &mut increments, &mut gains, &gradient, momentum);
    let mut centred = y.clone();
    center_embedding(&model, &mut centred);
    let same = |a: &Array2<f64>, b: &Array2<f64>| a.iter().zip(b).all(|(&v, &w)| listed(v) == listed(w));
    assert!(same(&gains, &its_gains) && same(&increments, &its_increments) && same(&centred, &whole));
    for values in [&y, &increments, &gains] {
        words.extend(values.iter().map(|&v| listed(v)));
    }
    words
}
