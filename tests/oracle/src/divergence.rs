//! The Kullback-Leibler figure of the iteration just finished, from the text of change request 2026-01.

use crate::descent::{fault_beside, Areas, Fault, Method, Record, Settings};
use crate::elementary::{at_least, ln};

/// The iterations with exaggeration.
const EXAGGERATED: usize = 250;
/// The least Z, and the least q: 2^-52.
const LEAST: f64 = f64::EPSILON;

/// Why there is no figure.
#[derive(Clone, Copy, Debug, PartialEq, Eq)]
pub enum Refusal {
    /// The entry tests of a work call, a short copy among the areas.
    Entry(Fault),
    /// No iteration has just ended, or the forces give a total of 0.
    Early,
}

impl Refusal {
    /// The number of the refusal.
    pub fn number(self) -> u64 {
        match self {
            Refusal::Entry(fault) => fault.number(),
            Refusal::Early => 17,
        }
    }
}

/// The figure. The copy holds the positions before the last step.
pub fn divergence(record: &Record, areas: &Areas, copy: &[f64]) -> Result<f64, Refusal> {
    let beside = |settings: &Settings| copy.len() >= settings.n * settings.c;
    if let Some(fault) = fault_beside(record, areas, beside) {
        return Err(Refusal::Entry(fault));
    }
    let Settings { n, c, method, .. } = record.settings;
    let total = match method {
        Method::Exact => areas.forces[n * c],
        Method::BarnesHut => shares(&areas.forces, n, c),
    };
    if record.done == 0 || record.phase > 0 || total == 0.0 {
        return Err(Refusal::Early);
    }
    let iteration = record.done - 1;
    let map = Map {
        n,
        c,
        positions: copy,
        exaggeration: if iteration < EXAGGERATED { 12.0 } else { 1.0 },
    };
    Ok(match method {
        Method::Exact => map.dense(&areas.affinities, total),
        Method::BarnesHut => {
            let z = at_least(total, LEAST);
            map.over_lists(&areas.offsets, &areas.indices, &areas.affinities, z)
        }
    })
}

/// The sum of what the points have to give to Z.
fn shares(forces: &[f64], n: usize, c: usize) -> f64 {
    let mut sum = 0.0;
    for row in forces.chunks(2 * c + 1).take(n) {
        sum += row[2 * c];
    }
    sum
}

/// The map that is judged.
#[derive(Clone, Copy, Debug)]
pub struct Map<'a> {
    /// How many frames there are.
    pub n: usize,
    /// How many components a position has.
    pub c: usize,
    /// Positions, frame by frame.
    pub positions: &'a [f64],
    /// What an affinity is multiplied by.
    pub exaggeration: f64,
}

impl Map<'_> {
    /// 1 / (1 + d²).
    fn closeness(&self, i: usize, j: usize) -> f64 {
        let mut squared = 0.0;
        for d in 0..self.c {
            let apart = self.positions[i * self.c + d] - self.positions[j * self.c + d];
            squared += apart * apart;
        }
        1.0 / (1.0 + squared)
    }

    /// p·ln(p / q) of a pair, or nothing where p is not above 0.
    fn term(&self, affinity: f64, q: f64) -> Option<f64> {
        let p = affinity * self.exaggeration;
        (p > 0.0).then(|| p * ln(p / at_least(q, LEAST)))
    }

    /// Each row's sum, then the rows.
    pub fn dense(&self, affinities: &[f64], total: f64) -> f64 {
        let mut figure = 0.0;
        for i in 0..self.n {
            let mut row = 0.0;
            for j in (0..self.n).filter(|&j| j != i) {
                if let Some(term) = self.term(affinities[i * self.n + j], self.closeness(i, j) / total) {
                    row += term;
                }
            }
            figure += row;
        }
        figure
    }

    /// One sum over all lists.
    pub fn over_lists(&self, offsets: &[u32], indices: &[u32], weights: &[f64], z: f64) -> f64 {
        let mut figure = 0.0;
        for i in 0..self.n {
            for place in offsets[i] as usize..offsets[i + 1] as usize {
                let q = self.closeness(i, indices[place] as usize) / z;
                if let Some(term) = self.term(weights[place], q) {
                    figure += term;
                }
            }
        }
        figure
    }
}

#[cfg(test)]
mod tests;
