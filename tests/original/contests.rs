//! The original's side of the contests under tests/benchmark: it runs serially, as it stands.

use benchmark::contest::Contestant;
use benchmark::library::Run;
use benchmark::Others;
use brothanchor::Method;
use ndarray::Array2;
use rustyml::machine_learning::manifold::t_sne::oracle::{
    apply_gradient_step, barnes_hut_gradient, compute_gradient, compute_num_matrix, conditional_probabilities,
    neighbor_probabilities, pairwise_squared_distances, symmetrize_probabilities, Adj,
};
use rustyml::machine_learning::manifold::t_sne::TSNE;

fn main() {
    let names: Vec<String> = std::env::args().skip(1).collect();
    benchmark::all(&Original, &names);
}

struct Original;

impl Others for Original {
    fn tree(&self, run: &Run) -> Option<Box<dyn Contestant>> {
        let areas = &run.areas;
        let link = |place: u32| (areas.indices[place as usize] as usize, areas.affinities[place as usize]);
        let list = |i: usize| (areas.offsets[i]..areas.offsets[i + 1]).map(link).collect();
        let lists = (0..run.settings.n).map(list).collect();
        Some(Box::new(Iteration::new(run, Pairs::Listed(lists))))
    }

    fn exact(&self, run: &Run) -> Option<Box<dyn Contestant>> {
        let n = run.settings.n;
        let affinities = Array2::from_shape_vec((n, n), run.areas.affinities.clone()).expect("n rows of n");
        Some(Box::new(Iteration::new(run, Pairs::All(affinities))))
    }

    fn preparation(&self, run: &Run) -> Option<Box<dyn Contestant>> {
        Some(Box::new(Preparation {
            model: model(run),
            tree: run.settings.method == Method::BarnesHut,
            table: Array2::from_shape_vec((run.settings.n, run.settings.f), run.table.clone()).expect("rows of f"),
            weights: 0.0,
        }))
    }
}

fn model(run: &Run) -> TSNE {
    let s = &run.settings;
    TSNE::new(s.c, s.perplexity, s.rate, s.iterations).expect("a model")
}

/// The affinities of the neighbours, or of all pairs.
enum Pairs {
    Listed(Adj),
    All(Array2<f64>),
}

/// One iteration.
struct Iteration {
    model: TSNE,
    pairs: Pairs,
    angle: f64,
    pace: (f64, f64),
    from: [Array2<f64>; 3],
    moving: [Array2<f64>; 3],
}

impl Iteration {
    fn new(run: &Run, pairs: Pairs) -> Iteration {
        let areas = &run.areas;
        let rows = |values: &Vec<f64>| {
            Array2::from_shape_vec((run.settings.n, run.settings.c), values.clone()).expect("rows of c")
        };
        let from = [&areas.positions, &areas.increments, &areas.gains].map(rows);
        let early = run.record.iterations() < 250;
        Iteration {
            model: model(run),
            pairs,
            angle: run.settings.angle,
            pace: if early { (12.0, 0.5) } else { (1.0, 0.8) },
            moving: from.clone(),
            from,
        }
    }
}

impl Contestant for Iteration {
    fn name(&self) -> &'static str {
        "the original, serially"
    }

    fn reset(&mut self) {
        self.moving.clone_from(&self.from);
    }

    fn work(&mut self) {
        let [positions, increments, gains] = &mut self.moving;
        let gradient = match &self.pairs {
            Pairs::Listed(lists) => barnes_hut_gradient(&self.model, positions, lists, self.angle, self.pace.0).0,
            Pairs::All(affinities) => {
                let (numerators, total) = compute_num_matrix(&self.model, positions);
                let exaggerated = affinities * self.pace.0;
                compute_gradient(&self.model, positions, &exaggerated, &numerators, total)
            }
        };
        apply_gradient_step(&self.model, positions, increments, gains, &gradient, self.pace.1);
    }

    fn result(&self) -> Option<Vec<f64>> {
        match self.pairs {
            Pairs::Listed(_) => Some(self.moving[0].iter().copied().collect()),
            // the order of its sums is a library's
            Pairs::All(_) => None,
        }
    }
}

/// A preparation; its exp and ln are a library's, so the bits are its own.
struct Preparation {
    model: TSNE,
    tree: bool,
    table: Array2<f64>,
    weights: f64,
}

impl Contestant for Preparation {
    fn name(&self) -> &'static str {
        "the original, serially"
    }

    fn reset(&mut self) {
        self.weights = 0.0;
    }

    fn work(&mut self) {
        self.weights = if self.tree {
            let lists = neighbor_probabilities(&self.model, &self.table);
            lists.iter().flatten().map(|link| link.1).sum()
        } else {
            let distances = pairwise_squared_distances(&self.model, &self.table);
            symmetrize_probabilities(&self.model, &conditional_probabilities(&self.model, &distances)).sum()
        };
        assert!((self.weights - 1.0).abs() < 1e-6, "the weights add up to 1");
    }

    fn result(&self) -> Option<Vec<f64>> {
        None
    }
}
