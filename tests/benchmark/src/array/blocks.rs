//! An iteration over all pairs, a block of pairs at a time: within a block the divisions do not wait for the sums.

use super::{pace, Moving};
use crate::contest::Contestant;
use crate::library::Run;
use std::array::from_fn;

/// The pairs of a block.
const B: usize = 16;

/// A value for each pair of a block.
type Block = [f64; B];

/// One iteration over all pairs.
pub struct Exact<const C: usize> {
    from: Moving<C>,
    moving: Moving<C>,
    affinities: Vec<f64>,
    pace: (f64, f64),
    rate: f64,
}

/// The positions by blocks, component by component; past the last frame zeros.
fn blocks<const C: usize>(positions: &[[f64; C]]) -> Vec<[Block; C]> {
    let block = |rows: &[[f64; C]]| from_fn(|d| from_fn(|l| rows.get(l).map_or(0.0, |row| row[d])));
    positions.chunks(B).map(block).collect()
}

/// The numerators of frame i with each frame of block b.
#[inline(always)]
fn numerators<const C: usize>(p: &[f64; C], i: usize, block: &[Block; C], b: usize) -> Block {
    let mut values = [0.0; B];
    for l in 0..B {
        let apart: [f64; C] = from_fn(|d| p[d] - block[d][l]);
        let squared = (1..C).fold(apart[0] * apart[0], |sum, d| sum + apart[d] * apart[d]);
        values[l] = 1.0 / (1.0 + squared);
    }
    if i / B == b {
        values[i % B] = 0.0;
    }
    values
}

impl<const C: usize> Exact<C> {
    pub fn new(run: &Run) -> Exact<C> {
        Exact {
            from: Moving::of(run),
            moving: Moving::of(run),
            affinities: run.areas.affinities.clone(),
            pace: pace(run.record.iterations()),
            rate: run.settings.rate,
        }
    }

    /// The sum of all numerators.
    fn total(&self, blocks: &[[Block; C]]) -> f64 {
        let n = self.moving.positions.len();
        let mut total = 0.0;
        for (i, p) in self.moving.positions.iter().enumerate() {
            for (b, block) in blocks.iter().enumerate() {
                let values = numerators(p, i, block, b);
                for value in &values[..B.min(n - b * B)] {
                    total += value;
                }
            }
        }
        total
    }

    fn row(&self, i: usize, blocks: &[[Block; C]], total: f64) -> [f64; C] {
        let p = &self.moving.positions[i];
        let n = self.moving.positions.len();
        let (mut sum, mut along) = (0.0, [0.0; C]);
        let affinities = self.affinities[i * n..(i + 1) * n].chunks(B);
        for (b, (block, affinities)) in blocks.iter().zip(affinities).enumerate() {
            let values = numerators(p, i, block, b);
            let mut weights = [0.0; B];
            for ((weight, value), affinity) in weights.iter_mut().zip(values).zip(affinities) {
                *weight = (affinity * self.pace.0 - (value / total).max(f64::EPSILON)) * value;
            }
            for (l, weight) in weights[..affinities.len()].iter().enumerate() {
                sum += weight;
                for d in 0..C {
                    along[d] += weight * block[d][l];
                }
            }
        }
        from_fn(|d| (p[d] * sum - along[d]) * 4.0)
    }
}

impl<const C: usize> Contestant for Exact<C> {
    fn name(&self) -> &'static str {
        "the same, in blocks"
    }

    fn reset(&mut self) {
        self.moving.clone_from(&self.from);
    }

    fn work(&mut self) {
        let blocks = blocks(&self.moving.positions);
        let total = self.total(&blocks);
        let rows = 0..self.moving.positions.len();
        let gradient: Vec<[f64; C]> = rows.map(|i| self.row(i, &blocks, total)).collect();
        self.moving.step(&gradient, self.pace.1, self.rate);
    }

    fn result(&self) -> Option<Vec<f64>> {
        Some(self.moving.positions.concat())
    }
}
