//! An iteration over all pairs, pair after pair.

use super::{apart, pace, Moving};
use crate::contest::Contestant;
use crate::library::Run;
use std::array::from_fn;

/// One iteration over all pairs.
pub struct Exact<const C: usize> {
    from: Moving<C>,
    moving: Moving<C>,
    affinities: Vec<f64>,
    pace: (f64, f64),
    rate: f64,
}

impl<const C: usize> Exact<C> {
    pub fn new(run: &Run) -> Exact<C> {
        Exact {
            from: Moving::of(run),
            moving: Moving::of(run),
            affinities: run.areas.affinities.clone(),
            pace: pace(run.record.iterations()),
            rate: run.settings.rate,
        }
    }

    fn numerator(&self, i: usize, j: usize) -> f64 {
        if i == j {
            return 0.0;
        }
        1.0 / (1.0 + apart(&self.moving.positions[i], &self.moving.positions[j]).1)
    }

    fn row(&self, i: usize, total: f64) -> [f64; C] {
        let positions = &self.moving.positions;
        let n = positions.len();
        let (mut sum, mut along) = (0.0, [0.0; C]);
        for (j, p) in positions.iter().enumerate() {
            let numerator = self.numerator(i, j);
            let q = (numerator / total).max(f64::EPSILON);
            let weight = (self.affinities[i * n + j] * self.pace.0 - q) * numerator;
            sum += weight;
            for d in 0..C {
                along[d] += weight * p[d];
            }
        }
        from_fn(|d| (positions[i][d] * sum - along[d]) * 4.0)
    }
}

impl<const C: usize> Contestant for Exact<C> {
    fn name(&self) -> &'static str {
        "plain Rust over arrays"
    }

    fn reset(&mut self) {
        self.moving.clone_from(&self.from);
    }

    fn work(&mut self) {
        let n = self.moving.positions.len();
        let mut total = 0.0;
        for i in 0..n {
            for j in 0..n {
                total += self.numerator(i, j);
            }
        }
        let gradient: Vec<[f64; C]> = (0..n).map(|i| self.row(i, total)).collect();
        self.moving.step(&gradient, self.pace.1, self.rate);
    }

    fn result(&self) -> Option<Vec<f64>> {
        Some(self.moving.positions.concat())
    }
}
