//! Holds the divergence of `tests/oracle` against the original: its text with the scope paper's ln put in gives the same bits,
//! and as it stands, with the machine's ln and ndarray's total, it lies so far off. `make` cuts the original's functions out of
//! its text, twice (`stands` and `with_ln`), builds and runs this program; it prints what it compared.

use ndarray::Array2;
use oracle::descent::{prepare, work, Areas, Method, Record, Rows, Settings, Standing};
use oracle::divergence::divergence;
use oracle::elementary::{at_least, neighbours};
use oracle::scatter::SplitMix64;
use oracle::tree::Node;
use rustyml::machine_learning::manifold::t_sne::oracle::{compute_num_matrix, Adj};
use rustyml::machine_learning::manifold::t_sne::TSNE;

const RUNS: usize = 300;
const EXAGGERATED: usize = 250;

/// The original's functions, cut out of its text, around what they go by.
macro_rules! original {
    ($name:ident, $text:literal) => {
        mod $name {
            use ndarray::Array2;
            #[allow(unused_imports)]
            use oracle::elementary::ln;

            struct Model {
                n_components: usize,
            }

            include!($text);

            pub fn exact(p: &Array2<f64>, num: &Array2<f64>, total: f64) -> f64 {
                Model { n_components: 0 }.kl_divergence(p, num, total, false)
            }

            pub fn by_lists(y: &Array2<f64>, lists: &[Vec<(usize, f64)>], z: f64, exaggeration: f64) -> f64 {
                let n_components = y.ncols();
                Model { n_components }.barnes_hut_kl(y, lists, z, exaggeration)
            }
        }
    };
}

// As they stand, and with the paper's ln.
original!(stands, "../stands.rs");
original!(with_ln, "../with_ln.rs");

/// How far the original as it stands lies off. All p of a map come to its exaggeration, so the distance is told in parts of
/// that: a figure itself may be next to 0.
#[derive(Default)]
struct Apart {
    figures: usize,
    unequal: usize,
    largest: f64,
}

impl Apart {
    fn count(&mut self, theirs: f64, ours: f64, exaggeration: f64) {
        self.figures += 1;
        self.unequal += usize::from(theirs.to_bits() != ours.to_bits());
        self.largest = self.largest.max((theirs - ours).abs() / exaggeration);
    }

    fn told(&self) -> String {
        let share = 100.0 * self.unequal as f64 / self.figures as f64;
        format!(
            "{} | {} | {share:.1} % | {:.1e}",
            self.figures, self.unequal, self.largest
        )
    }
}

fn main() {
    let mut random = SplitMix64::new(79);
    let (mut exact, mut total, mut tree) = (Apart::default(), Apart::default(), Apart::default());
    for round in 0..RUNS {
        let settings = settings(&mut random, round);
        let (mut record, mut areas) = begun(&mut random, settings, round % 5);
        while record.standing == Standing::Running {
            let copy = areas.positions.clone();
            work(&mut record, &mut areas, settings.iteration() as u32);
            let ours = match divergence(&record, &areas, &copy) {
                Ok(figure) => figure,
                Err(_) => break, // the step was refused by 15
            };
            let asked = Asked {
                record: &record,
                areas: &areas,
                copy: &copy,
                ours,
            };
            match settings.method {
                Method::Exact => asked.exact(&mut exact, &mut total),
                Method::BarnesHut => asked.tree(&mut tree),
            }
        }
    }
    println!(
        "{RUNS} runs: {} exact figures and {} by the lists as in the original with the paper's ln and total",
        exact.figures, tree.figures
    );
    println!(
        "\n| figure | in the original | figures | unequal | share | largest distance |\n|---|---|---|---|---|---|"
    );
    println!("| exact | its ln, the paper's total | {} |", exact.told());
    println!("| exact | its ln, its total | {} |", total.told());
    println!("| Barnes-Hut, positions before the step | its ln | {} |", tree.told());
}

/// Settings of a run, by chance; every eighth goes on past the exaggeration.
fn settings(random: &mut SplitMix64, round: usize) -> Settings {
    let method = [Method::Exact, Method::BarnesHut][round % 2];
    let long = round % 8 < 2;
    let n = 2 + (random.next() % if long { 12 } else { 60 }) as usize;
    Settings {
        n,
        f: 1 + (random.next() % 4) as usize,
        c: 1 + (random.next() % if method == Method::Exact { 8 } else { 3 }) as usize,
        method,
        perplexity: (0.3 + random.unit() * 12.0).min(n as f64 * 0.9),
        rate: [0.5, 5.0, 20.0, 200.0][round / 2 % 4],
        iterations: if long { 270 } else { 12 },
        angle: [0.0, 0.5, 0.99][round % 3],
        minimum: 0.0,
    }
}

/// A prepared run.
fn begun(random: &mut SplitMix64, settings: Settings, kind: usize) -> (Record, Areas) {
    let Settings { n, f, c, .. } = settings;
    let exact = settings.method == Method::Exact;
    let links = 2 * n * neighbours(settings.perplexity, n);
    let table: Vec<f64> = (0..n * f)
        .map(|_| {
            if kind == 1 {
                (random.next() % 3) as f64
            } else {
                random.unit() * 8.0
            }
        })
        .collect();
    let start: Vec<f64> = (0..n * c)
        .map(|_| {
            if kind < 3 {
                random.coordinate()
            } else {
                random.unit() * 9.0
            }
        })
        .collect();
    let mut areas = Areas {
        positions: vec![0.0; n * c],
        increments: vec![0.0; n * c],
        gains: vec![0.0; n * c],
        affinities: vec![0.0; if exact { n * n } else { links }],
        indices: vec![0; links],
        offsets: vec![0; n + 1],
        forces: vec![0.0; n * (2 * c + 1)],
        nodes: vec![Node::default(); 1 + 50 * (1 << c.min(3)) * (n - 1)],
    };
    let mut rows = Rows {
        values: vec![0.0; n],
        indices: vec![0; n],
    };
    let record = prepare(settings, &table, &start, &mut areas, &mut rows).expect("a good run");
    (record, areas)
}

/// A figure that the original is asked for too.
struct Asked<'a> {
    record: &'a Record,
    areas: &'a Areas,
    copy: &'a [f64],
    ours: f64,
}

impl Asked<'_> {
    fn positions(&self) -> Array2<f64> {
        let Settings { n, c, .. } = self.record.settings;
        Array2::from_shape_vec((n, c), self.copy.to_vec()).expect("rows of c")
    }

    fn exaggeration(&self) -> f64 {
        if self.record.done <= EXAGGERATED {
            12.0
        } else {
            1.0
        }
    }

    /// The original's numerators; its total, or the one at its place in the forces.
    fn exact(&self, by_ln: &mut Apart, by_total: &mut Apart) {
        let Settings { n, c, perplexity, .. } = self.record.settings;
        let p = Array2::from_shape_vec((n, n), self.areas.affinities.clone()).expect("rows of n") * self.exaggeration();
        let original = TSNE::new(c, perplexity, 50.0, 1).expect("a model");
        let (numerators, its_total) = compute_num_matrix(&original, &self.positions());
        let total = self.areas.forces[n * c];
        let theirs = with_ln::exact(&p, &numerators, total);
        assert_eq!(theirs.to_bits(), self.ours.to_bits(), "exact, n {n}, c {c}");
        by_ln.count(stands::exact(&p, &numerators, total), self.ours, self.exaggeration());
        by_total.count(
            stands::exact(&p, &numerators, its_total),
            self.ours,
            self.exaggeration(),
        );
    }

    /// The original's figure of the positions before the step, with Z from the forces.
    fn tree(&self, by_ln: &mut Apart) {
        let Settings { n, c, .. } = self.record.settings;
        let list = |i: usize| self.areas.offsets[i] as usize..self.areas.offsets[i + 1] as usize;
        let link = |place: usize| (self.areas.indices[place] as usize, self.areas.affinities[place]);
        let lists: Adj = (0..n).map(|i| list(i).map(link).collect()).collect();
        let z = (0..n).fold(0.0, |sum, i| sum + self.areas.forces[i * (2 * c + 1) + 2 * c]);
        let (z, y) = (at_least(z, f64::EPSILON), self.positions());
        let theirs = with_ln::by_lists(&y, &lists, z, self.exaggeration());
        assert_eq!(theirs.to_bits(), self.ours.to_bits(), "Barnes-Hut, n {n}, c {c}");
        let theirs = stands::by_lists(&y, &lists, z, self.exaggeration());
        by_ln.count(theirs, self.ours, self.exaggeration());
    }
}
