//! How far the port lies from the original as it stands: whole affinities, an exact gradient, and maps.
//!
//! The original's side is its own text, serial, with ndarray's sums and the machine's exp and ln; `fit_transform` itself
//! makes the maps. gemmkit is not at hand, so its products go by each order of `products.rs` in turn. The port's side is
//! `tests/oracle`, whose bits are the port's. `make` builds and runs this program; it prints the tables of
//! docs/DIFFERENCES.md.

use gemmkit_ndarray::{choose, dot, Order};
use ndarray::Array2;
use oracle::descent::{prepare, work, Areas, Method, Rows, Settings};
use oracle::differences::ulps_apart;
use oracle::elementary::neighbours;
use oracle::frames::fetch;
use oracle::gradient::Exact;
use oracle::lists::sample;
use oracle::preparation::Table;
use oracle::scatter::{scatter, SplitMix64};
use oracle::tree::Node;
use rustyml::machine_learning::manifold::t_sne::oracle::{
    compute_gradient, compute_num_matrix, conditional_probabilities, neighbor_probabilities,
    pairwise_squared_distances, random_init, symmetrize_probabilities,
};
use rustyml::machine_learning::manifold::t_sne::{Init, TSNEMethod, TSNE};

const ORDERS: [Order; 3] = [Order::Rising, Order::Fused, Order::Blocks];
const METHODS: [Method; 2] = [Method::Exact, Method::BarnesHut];
const C: usize = 2;
const PERPLEXITY: f64 = 30.0;
const RATE: f64 = 50.0;
const ANGLE: f64 = 0.5;
const MINIMUM: f64 = 1e-7;
const SEED: u64 = 5;
/// How many of a frame's nearest on the map are looked at.
const NEAREST: usize = 10;

/// A table of frames.
struct Frames {
    name: &'static str,
    n: usize,
    f: usize,
    values: Vec<f64>,
}

/// What a measurement found.
#[derive(Default)]
struct Apart {
    looked_at: usize,
    unequal: usize,
    ulps: u64,
    relative: f64,
}

impl Apart {
    /// Counts a pair; its distance is told in parts of the scale.
    fn count(&mut self, original: f64, port: f64, scale: f64) {
        let ulps = ulps_apart(original, port);
        self.looked_at += 1;
        self.unequal += usize::from(ulps != 0);
        self.ulps = self.ulps.max(ulps);
        if ulps != 0 {
            self.relative = self.relative.max((original - port).abs() / scale);
        }
    }

    fn shares(&self) -> String {
        let percent = 100.0 * self.unequal as f64 / self.looked_at as f64;
        format!("{} | {} | {percent:.1} %", self.looked_at, self.unequal)
    }
}

fn main() {
    println!("| inner length | products | elements | unequal | share | of the sum of magnitudes |\n|---|---|---|---|---|---|");
    for inner in [2, 6, 16, 300, 4096] {
        for order in ORDERS {
            products(inner, order);
        }
    }
    println!();
    let tables = [the_sample(), heaps("heaps", 300, 16)];
    println!("| table | route | products | affinities | unequal | share | ulps | relative |\n|---|---|---|---|---|---|---|---|");
    for table in &tables {
        for method in METHODS {
            for order in ORDERS {
                affinities(table, method, order);
            }
        }
    }
    println!("\n| table | map | products | elements | unequal | share | of the largest element | total, ulps |\n|---|---|---|---|---|---|---|---|");
    for table in &tables {
        for reach in [1e-4, 20.0] {
            for order in ORDERS {
                gradient(table, reach, order);
            }
        }
    }
    println!("\n| table | route | products | iterations | coordinates | unequal | share | of the map's width | nearest kept |\n|---|---|---|---|---|---|---|---|---|");
    for table in &tables {
        for method in METHODS {
            for iterations in [1, 10, 250, 1000] {
                maps(table, method, iterations);
            }
        }
    }
}

/// The committed sample.
fn the_sample() -> Frames {
    let file = sample::file();
    let frames: Vec<_> = (0..file.len() / 72).filter_map(|i| fetch(&file, i)).collect();
    Frames {
        name: "sample",
        n: frames.len(),
        f: 6,
        values: frames.iter().flat_map(|frame| frame.features).collect(),
    }
}

/// Frames around five middles.
fn heaps(name: &'static str, n: usize, f: usize) -> Frames {
    let mut random = SplitMix64::new(41);
    let middles: Vec<f64> = (0..5 * f).map(|_| random.unit() * 20.0 - 10.0).collect();
    let value = |e: usize| middles[e / f % 5 * f + e % f] + random.unit() * 4.0 - 2.0;
    Frames {
        name,
        n,
        f,
        values: (0..n * f).map(value).collect(),
    }
}

fn route(method: Method) -> &'static str {
    match method {
        Method::Exact => "exact",
        Method::BarnesHut => "Barnes-Hut",
    }
}

fn rows(values: &[f64], width: usize) -> Array2<f64> {
    Array2::from_shape_vec((values.len() / width, width), values.to_vec()).expect("whole rows")
}

fn model(method: Method, iterations: usize) -> TSNE {
    let method = match method {
        Method::Exact => TSNEMethod::Exact,
        Method::BarnesHut => TSNEMethod::BarnesHut { angle: ANGLE },
    };
    let model = TSNE::new(C, PERPLEXITY, RATE, iterations).expect("a model");
    let model = model.with_random_state(SEED).with_init(Init::Random);
    model.with_min_grad_norm(MINIMUM).with_method(method).expect("a method")
}

/// A product of random matrices with values from [-1, 1), 64 rows by 64 columns.
fn products(inner: usize, order: Order) {
    choose(order);
    let mut random = SplitMix64::new(47 + inner as u64);
    let mut matrix = |rows, columns| Array2::from_shape_simple_fn((rows, columns), || random.unit() * 2.0 - 1.0);
    let (a, b): (Array2<f64>, Array2<f64>) = (matrix(64, inner), matrix(inner, 64));
    let mut apart = Apart::default();
    for ((i, j), theirs) in dot(&a, &b).indexed_iter() {
        let terms = || (0..inner).map(|l| a[[i, l]] * b[[l, j]]);
        let magnitudes = terms().fold(0.0, |sum, term| sum + term.abs());
        apart.count(*theirs, terms().fold(0.0, |sum, term| sum + term), magnitudes);
    }
    let shares = apart.shares();
    println!("| {inner} | {order:?} | {shares} | {:.1e} |", apart.relative);
}

/// All affinities by the exact route, or the weights of all lists; the lists have to name the same frames.
fn affinities(table: &Frames, method: Method, order: Order) {
    choose(order);
    let (model, x) = (model(method, 1), rows(&table.values, table.f));
    let ours = Table {
        n: table.n,
        f: table.f,
        values: &table.values,
    };
    let mut apart = Apart::default();
    match method {
        Method::Exact => {
            let distances = pairwise_squared_distances(&model, &x);
            let theirs = symmetrize_probabilities(&model, &conditional_probabilities(&model, &distances));
            for (e, port) in ours.exact(PERPLEXITY).into_iter().enumerate() {
                if e / table.n != e % table.n {
                    apart.count(theirs[[e / table.n, e % table.n]], port, port);
                }
            }
        }
        Method::BarnesHut => {
            for (theirs, ours) in neighbor_probabilities(&model, &x).iter().zip(ours.lists(PERPLEXITY)) {
                let named = |list: &[(usize, f64)]| list.iter().map(|link| link.0).collect::<Vec<_>>();
                assert_eq!(named(theirs), named(&ours), "other neighbours");
                for (their, our) in theirs.iter().zip(ours) {
                    apart.count(their.1, our.1, our.1);
                }
            }
        }
    }
    let (name, route) = (table.name, route(method));
    println!(
        "| {name} | {route} | {order:?} | {} | {} | {:.1e} |",
        apart.shares(),
        apart.ulps,
        apart.relative
    );
}

/// The exact gradient of one map, of the port's affinities, without exaggeration: positions within a reach.
fn gradient(table: &Frames, reach: f64, order: Order) {
    choose(order);
    let mut random = SplitMix64::new(43);
    let positions: Vec<f64> = (0..table.n * C).map(|_| (random.unit() - 0.5) * 2.0 * reach).collect();
    let ours = Table {
        n: table.n,
        f: table.f,
        values: &table.values,
    };
    let affinities = ours.exact(PERPLEXITY);
    let ours = Exact {
        n: table.n,
        c: C,
        exaggeration: 1.0,
        positions: &positions,
        affinities: &affinities,
    };
    let (model, y) = (model(Method::Exact, 1), rows(&positions, C));
    let (numerators, total) = compute_num_matrix(&model, &y);
    let theirs = compute_gradient(&model, &y, &rows(&affinities, table.n), &numerators, total);
    let port = ours.gradient();
    let largest = port.iter().fold(0.0_f64, |most, g| most.max(g.abs()));
    let mut apart = Apart::default();
    for (their, our) in theirs.iter().zip(port) {
        apart.count(*their, our, largest);
    }
    let total = ulps_apart(total, ours.total());
    let (name, shares) = (table.name, apart.shares());
    println!(
        "| {name} | within {reach} | {order:?} | {shares} | {:.1e} | {total} |",
        apart.relative
    );
}

/// The port's map after so many iterations.
fn port(table: &Frames, method: Method, iterations: usize, start: &[f64]) -> Vec<f64> {
    let (n, f) = (table.n, table.f);
    let exact = method == Method::Exact;
    let links = if exact {
        n * n
    } else {
        2 * n * neighbours(PERPLEXITY, n)
    };
    let mut areas = Areas {
        positions: vec![0.0; n * C],
        increments: vec![0.0; n * C],
        gains: vec![0.0; n * C],
        affinities: vec![0.0; links],
        indices: vec![0; if exact { 0 } else { links }],
        offsets: vec![0; if exact { 0 } else { n + 1 }],
        forces: vec![0.0; n * (2 * C + 1)],
        nodes: vec![Node::default(); if exact { 0 } else { 1 + 50 * (1 << C) * (n - 1) }],
    };
    let mut room = Rows {
        values: vec![0.0; n],
        indices: vec![0; n],
    };
    let settings = Settings {
        n,
        f,
        c: C,
        method,
        perplexity: PERPLEXITY,
        rate: RATE,
        iterations,
        angle: ANGLE,
        minimum: MINIMUM,
    };
    let mut record = prepare(settings, &table.values, start, &mut areas, &mut room).expect("a good run");
    work(&mut record, &mut areas, u32::MAX);
    assert_eq!(record.done, iterations, "an end before its time");
    areas.positions
}

/// The map from the same start on both sides; then the port's own from a start with every coordinate one ulp off.
fn maps(table: &Frames, method: Method, iterations: usize) {
    let mut start = vec![0.0; table.n * C];
    scatter(SEED, table.n, C, &mut start).expect("room for all");
    let model = model(method, iterations);
    assert!(random_init(&model, table.n).iter().eq(start.iter()), "another start");
    let ours = port(table, method, iterations, &start);
    let width = width(&ours);
    let tell = |what: &str, theirs: &[f64]| {
        let mut apart = Apart::default();
        for (their, our) in theirs.iter().zip(&ours) {
            apart.count(*their, *our, width);
        }
        let (name, route, kept) = (table.name, route(method), kept(theirs, &ours));
        println!(
            "| {name} | {route} | {what} | {iterations} | {} | {:.1e} | {kept:.1} % |",
            apart.shares(),
            apart.relative
        );
    };
    for order in ORDERS {
        choose(order);
        let theirs = model.fit_transform(&rows(&table.values, table.f)).expect("a map");
        tell(&format!("{order:?}"), theirs.as_slice().expect("rows side by side"));
    }
    start.iter_mut().for_each(|v| *v = f64::from_bits(v.to_bits() + 1));
    tell("the port, start one ulp off", &port(table, method, iterations, &start));
}

/// From the least coordinate to the largest, of the wider component.
fn width(map: &[f64]) -> f64 {
    let along = |d: usize| {
        let values = map.iter().skip(d).step_by(C);
        let (least, most) = values.fold((f64::MAX, f64::MIN), |(least, most), &v| (least.min(v), most.max(v)));
        most - least
    };
    along(0).max(along(1))
}

/// The nearest frames of frame i on a map.
fn nearest(map: &[f64], i: usize) -> Vec<usize> {
    let apart = |j: usize| (0..C).map(|d| (map[i * C + d] - map[j * C + d]).powi(2)).sum::<f64>();
    let mut others: Vec<usize> = (0..map.len() / C).filter(|&j| j != i).collect();
    others.sort_by(|&a, &b| apart(a).total_cmp(&apart(b)).then(a.cmp(&b)));
    others.truncate(NEAREST);
    others
}

/// How many of the frames' nearest are nearest on both maps, in per cent.
fn kept(one: &[f64], other: &[f64]) -> f64 {
    let n = one.len() / C;
    let common = |i: usize| {
        let there = nearest(other, i);
        nearest(one, i).iter().filter(|j| there.contains(j)).count()
    };
    100.0 * (0..n).map(common).sum::<usize>() as f64 / (n * NEAREST) as f64
}
