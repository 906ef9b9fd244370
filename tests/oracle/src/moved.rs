//! How far the Rust's Barnes-Hut figure lies from the request's: the Rust sets the moved positions against the old Z.

use crate::descent::{prepare, work, Areas, Method, Record, Rows, Settings};
use crate::divergence::divergence;
use crate::scatter::SplitMix64;
use crate::tree::{Node, DEEPEST};

const NODE: Node = Node::unused(0.0, 0);
/// How long each run is.
const ITERATIONS: usize = 1000;
/// The iterations that are told together: from, to.
const BANDS: [(usize, usize); 5] = [(1, 10), (11, 100), (101, 250), (251, 300), (301, 1000)];

/// A run of n random frames in four heaps, from a start as the scatter has it.
fn begin(n: usize, c: usize, seed: u64) -> (Record, Areas) {
    let settings = Settings {
        n,
        f: 6,
        c,
        method: Method::BarnesHut,
        perplexity: 30.0_f64.min((n - 1) as f64 / 3.0),
        rate: 50.0,
        iterations: ITERATIONS,
        angle: 0.5,
        minimum: 0.0,
    };
    let mut random = SplitMix64::new(seed);
    let table: Vec<f64> = (0..n * 6).map(|k| random.unit() + 5.0 * (k / 6 % 4) as f64).collect();
    let start: Vec<f64> = (0..n * c).map(|_| random.coordinate()).collect();
    let links = 2 * n * n;
    let mut areas = Areas {
        positions: vec![0.0; n * c],
        increments: vec![0.0; n * c],
        gains: vec![0.0; n * c],
        affinities: vec![0.0; links],
        indices: vec![0; links],
        offsets: vec![0; n + 1],
        forces: vec![0.0; n * (2 * c + 1)],
        nodes: vec![NODE; 1 + DEEPEST * (1 << c) * n],
    };
    let mut rows = Rows {
        values: vec![0.0; n],
        indices: vec![0; n],
    };
    let record = prepare(settings, &table, &start, &mut areas, &mut rows).expect("good settings");
    (record, areas)
}

/// |theirs − ours| / |ours| after each iteration of a run.
fn gaps(n: usize, c: usize, seed: u64) -> Vec<f64> {
    let (mut record, mut areas) = begin(n, c, seed);
    let units = record.settings.iteration() as u32;
    (0..ITERATIONS)
        .map(|_| {
            let copy = areas.positions.clone();
            work(&mut record, &mut areas, units);
            let ours = divergence(&record, &areas, &copy).expect("an iteration has just ended");
            let theirs = divergence(&record, &areas, &areas.positions).expect("an iteration has just ended");
            (theirs - ours).abs() / ours.abs()
        })
        .collect()
}

/// The rows of the table: iterations, figures, the middle gap, the largest.
pub fn report() -> String {
    let mut runs = Vec::new();
    for (k, n) in [30, 60, 120, 200].into_iter().enumerate() {
        for c in 1..=3 {
            runs.push(gaps(n, c, 400 + 3 * k as u64 + c as u64));
        }
    }
    let mut text = String::from("| iterations | figures | middle gap | largest gap |\n|---|---|---|---|\n");
    for (from, to) in BANDS {
        let mut found: Vec<f64> = runs.iter().flat_map(|run| run[from - 1..to].to_vec()).collect();
        found.sort_by(f64::total_cmp);
        let (middle, largest) = (found[found.len() / 2], found[found.len() - 1]);
        let count = found.len();
        text.push_str(&format!(
            "| {from} to {to} | {count} | {middle:.1e} | {largest:.1e} |\n"
        ));
    }
    text
}
