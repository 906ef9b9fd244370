//! A preparation by the independent implementation of the rules, which is not written for speed.

use crate::contest::Contestant;
use crate::library::Run;
use oracle::preparation::Table;

/// A preparation.
pub struct Preparation {
    tree: bool,
    n: usize,
    perplexity: f64,
    table: Vec<f64>,
    affinities: Vec<f64>,
    places: usize,
}

impl Preparation {
    pub fn new(run: &Run) -> Preparation {
        Preparation {
            tree: run.settings.method == brothanchor::Method::BarnesHut,
            n: run.settings.n,
            perplexity: run.settings.perplexity,
            table: run.table.clone(),
            affinities: Vec::new(),
            places: run.areas.affinities.len(),
        }
    }
}

impl Contestant for Preparation {
    fn name(&self) -> &'static str {
        "the rules in plain Rust"
    }

    fn reset(&mut self) {
        self.affinities.clear();
    }

    fn work(&mut self) {
        let table = Table {
            n: self.n,
            f: 6,
            values: &self.table,
        };
        self.affinities = if self.tree {
            let lists = table.lists(self.perplexity);
            lists.iter().flatten().map(|&(_, weight)| weight).collect()
        } else {
            table.exact(self.perplexity)
        };
    }

    fn result(&self) -> Option<Vec<f64>> {
        let mut affinities = self.affinities.clone();
        affinities.resize(self.places, 0.0);
        Some(affinities)
    }
}
