//! Holds the descent of `tests/oracle` against the original: whole Barnes-Hut runs, iteration by iteration.
//!
//! The lists are the ones that the scope paper's exp and ln give, since those are not the original's. From there on the
//! original's own functions make the gradient, the step and the centring, and after each iteration every position,
//! increment and gain has to have the same bits. `make` builds and runs this program; it prints what it compared.

use ndarray::Array2;
use oracle::descent::{prepare, work, Answer, Areas, Method, Record, Rows, Settings};
use oracle::elementary::{is_calm, neighbours};
use oracle::scatter::SplitMix64;
use oracle::tree::Node;
use rustyml::machine_learning::manifold::t_sne::oracle::{apply_gradient_step, barnes_hut_gradient, Adj};
use rustyml::machine_learning::manifold::t_sne::TSNE;

const RUNS: usize = 400;
const EXAGGERATED: usize = 250;

/// A run on both sides.
struct Pair {
    record: Record,
    areas: Areas,
    model: TSNE,
    lists: Adj,
    positions: Array2<f64>,
    increments: Array2<f64>,
    gains: Array2<f64>,
}

fn main() {
    let mut random = SplitMix64::new(77);
    let (mut iterations, mut stopped, mut refused) = (0, 0, 0);
    for round in 0..RUNS {
        let settings = settings(&mut random, round);
        let mut pair = pair(&mut random, settings, round % 7);
        for iteration in 0..settings.iterations {
            match pair.iterate(iteration) {
                Answer::Running(_) | Answer::Finished(_) => iterations += 1,
                Answer::Stopped(_) => {
                    iterations += 1;
                    stopped += 1;
                    break;
                }
                Answer::Refused(number, _) => {
                    assert_eq!(number, 15, "round {round}");
                    refused += 1;
                    break;
                }
            }
        }
    }
    println!(
        "{RUNS} whole runs: {iterations} iterations as in the original, {stopped} stopped, {refused} refused by 15"
    );
}

/// Settings of a run, by chance: every tenth of up to 64 frames.
fn settings(random: &mut SplitMix64, round: usize) -> Settings {
    let n = 2 + (random.next() % if round % 10 == 0 { 63 } else { 20 }) as usize;
    Settings {
        n,
        f: 1 + (random.next() % 4) as usize,
        c: 1 + round % 3,
        method: Method::BarnesHut,
        perplexity: (0.3 + random.unit() * 5.0).min(n as f64 * 0.9),
        rate: [0.5, 5.0, 20.0, 200.0, 1e30][round % 5],
        iterations: [5, 40, 270, 300][round % 4],
        angle: [0.0, 0.5, 0.3, 0.99, -0.0][round / 3 % 5],
        minimum: [1e-7, 1e-3, f64::NAN][round % 3],
    }
}

/// A table value: among few whole numbers, so that frames tie, or anywhere.
fn value(random: &mut SplitMix64, kind: usize) -> f64 {
    match kind {
        1 => (random.next() % 3) as f64,
        _ => random.unit() * 8.0 - 4.0,
    }
}

/// A start value: among few whole numbers, so that frames coincide, as small as a scatter's, far, or near.
fn place(random: &mut SplitMix64, kind: usize) -> f64 {
    match kind {
        2 => (random.next() % 3) as f64,
        3 => random.coordinate(),
        4 => (random.unit() - 0.5) * 1e6,
        _ => random.unit() * 2.0 - 1.0,
    }
}

/// The run prepared on both sides, with as many nodes as it can need.
fn pair(random: &mut SplitMix64, settings: Settings, kind: usize) -> Pair {
    let Settings { n, f, c, .. } = settings;
    let links = 2 * n * neighbours(settings.perplexity, n);
    let nodes = 1 + 50 * (1 << c) * (n - 1);
    let table: Vec<f64> = (0..n * f).map(|_| value(random, kind)).collect();
    let start: Vec<f64> = (0..n * c).map(|_| place(random, kind)).collect();
    let mut areas = Areas {
        positions: vec![0.0; n * c],
        increments: vec![0.0; n * c],
        gains: vec![0.0; n * c],
        affinities: vec![0.0; links],
        indices: vec![0; links],
        offsets: vec![0; n + 1],
        forces: vec![0.0; n * (2 * c + 1)],
        nodes: vec![Node::default(); nodes],
    };
    let mut rows = Rows {
        values: vec![0.0; n],
        indices: vec![0; n],
    };
    let record = prepare(settings, &table, &start, &mut areas, &mut rows).expect("a good run");
    let list = |i: usize| areas.offsets[i] as usize..areas.offsets[i + 1] as usize;
    let link = |place: usize| (areas.indices[place] as usize, areas.affinities[place]);
    Pair {
        record,
        lists: (0..n).map(|i| list(i).map(link).collect()).collect(),
        model: TSNE::new(c, settings.perplexity, settings.rate, settings.iterations).expect("a model"),
        positions: Array2::from_shape_vec((n, c), start).expect("rows of c"),
        increments: Array2::zeros((n, c)),
        gains: Array2::ones((n, c)),
        areas,
    }
}

/// Whether both sides have the same bits.
fn same(original: &Array2<f64>, ours: &[f64]) -> bool {
    original.iter().zip(ours).all(|(a, b)| a.to_bits() == b.to_bits())
}

impl Pair {
    /// One iteration on both sides, and the answer that it has to have.
    fn iterate(&mut self, iteration: usize) -> Answer {
        let settings = self.record.settings;
        let early = iteration < EXAGGERATED;
        let (exaggeration, momentum) = if early { (12.0, 0.5) } else { (1.0, 0.8) };
        let (gradient, _) =
            barnes_hut_gradient(&self.model, &self.positions, &self.lists, settings.angle, exaggeration);
        apply_gradient_step(
            &self.model,
            &mut self.positions,
            &mut self.increments,
            &mut self.gains,
            &gradient,
            momentum,
        );
        let norm = gradient.iter().fold(0.0_f64, |norm, g| norm.max(g.abs()));
        let units = settings.iteration() as u64;
        let answer = work(&mut self.record, &mut self.areas, units as u32);
        let all = [&self.positions, &self.increments, &self.gains];
        if !all.iter().all(|values| values.iter().all(|&v| is_calm(v))) {
            assert_eq!(answer, Answer::Refused(15, units - 1));
            return answer;
        }
        let wanted = if settings.minimum > 0.0 && !early && norm < settings.minimum {
            Answer::Stopped(units)
        } else if iteration + 1 == settings.iterations {
            Answer::Finished(units)
        } else {
            Answer::Running(units)
        };
        assert_eq!(answer, wanted);
        assert!(same(&self.positions, &self.areas.positions), "iteration {iteration}");
        assert!(same(&self.increments, &self.areas.increments) && same(&self.gains, &self.areas.gains));
        answer
    }
}
