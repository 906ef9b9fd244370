//! The same work in plain Rust over arrays, written for the contests: no tests of what it is given, no budget, no arena to
//! run out of. By the rules of the scope paper, so that the bits are the same.

pub mod apart;
pub mod blocks;
pub mod pairs;
pub mod tree;

use crate::contest::Contestant;
use crate::library::Run;
use std::array::from_fn;

/// The iterations by the tree.
pub fn trees(run: &Run) -> Vec<Box<dyn Contestant>> {
    match run.settings.c {
        1 => trees_of::<1>(run),
        2 => trees_of::<2>(run),
        _ => trees_of::<3>(run),
    }
}

fn trees_of<const C: usize>(run: &Run) -> Vec<Box<dyn Contestant>> {
    vec![
        Box::new(tree::Tree::<C, false>::new(run)),
        Box::new(tree::Tree::<C, true>::new(run)),
        Box::new(apart::Tree::<C>::new(run)),
    ]
}

/// The iterations over all pairs, of maps of two components.
pub fn all_pairs(run: &Run) -> Vec<Box<dyn Contestant>> {
    vec![
        Box::new(pairs::Exact::<2>::new(run)),
        Box::new(blocks::Exact::<2>::new(run)),
    ]
}

/// What moves: positions, increments, gains.
#[derive(Clone)]
pub struct Moving<const C: usize> {
    pub positions: Vec<[f64; C]>,
    increments: Vec<[f64; C]>,
    gains: Vec<[f64; C]>,
}

impl<const C: usize> Moving<C> {
    fn of(run: &Run) -> Moving<C> {
        let rows = |values: &[f64]| values.chunks_exact(C).map(|row| from_fn(|d| row[d])).collect();
        Moving {
            positions: rows(&run.areas.positions),
            increments: rows(&run.areas.increments),
            gains: rows(&run.areas.gains),
        }
    }

    fn step(&mut self, gradient: &[[f64; C]], momentum: f64, rate: f64) {
        let mut sums = [0.0; C];
        let rows = self.positions.iter_mut().zip(&mut self.increments).zip(&mut self.gains);
        for (((position, increment), gain), g) in rows.zip(gradient) {
            for d in 0..C {
                let grown = if g[d] * increment[d] > 0.0 {
                    gain[d] * 0.8
                } else {
                    gain[d] + 0.2
                };
                gain[d] = if grown < 0.01 { 0.01 } else { grown };
                increment[d] = momentum * increment[d] - (rate * gain[d]) * g[d];
                position[d] += increment[d];
                sums[d] += position[d];
            }
        }
        let means = sums.map(|sum| sum / gradient.len() as f64);
        for position in &mut self.positions {
            for d in 0..C {
                position[d] -= means[d];
            }
        }
    }
}

/// Exaggeration and momentum of the iteration after so many.
fn pace(iterations: u64) -> (f64, f64) {
    if iterations < 250 {
        (12.0, 0.5)
    } else {
        (1.0, 0.8)
    }
}

/// How far apart two points are in each component, and the square of the distance.
#[inline(always)]
fn apart<const C: usize>(p: &[f64; C], q: &[f64; C]) -> ([f64; C], f64) {
    let apart: [f64; C] = from_fn(|d| p[d] - q[d]);
    let squared = (1..C).fold(apart[0] * apart[0], |sum, d| sum + apart[d] * apart[d]);
    (apart, squared)
}

/// The weights of the listed pairs.
pub struct Lists {
    offsets: Vec<u32>,
    indices: Vec<u32>,
    weights: Vec<f64>,
}

impl Lists {
    fn of(run: &Run) -> Lists {
        let areas = &run.areas;
        let links = areas.offsets[run.settings.n] as usize;
        Lists {
            offsets: areas.offsets.clone(),
            indices: areas.indices[..links].to_vec(),
            weights: areas.affinities[..links].to_vec(),
        }
    }

    /// What the listed frames do to frame i.
    fn pull<const C: usize>(&self, i: usize, positions: &[[f64; C]], exaggeration: f64) -> [f64; C] {
        let links = self.offsets[i] as usize..self.offsets[i + 1] as usize;
        let p = positions[i];
        let mut pulled = [0.0; C];
        for (&j, weight) in self.indices[links.clone()].iter().zip(&self.weights[links]) {
            let (away, squared) = apart(&p, &positions[j as usize]);
            let pull = exaggeration * weight / (1.0 + squared);
            for d in 0..C {
                pulled[d] += pull * away[d];
            }
        }
        pulled
    }
}

/// What comes of the pulls and of what the tree does to each point.
fn gradient<const C: usize>(pulls: &[[f64; C]], forces: &[([f64; C], f64)]) -> Vec<[f64; C]> {
    let z = forces.iter().fold(0.0, |sum, force| sum + force.1).max(f64::EPSILON);
    let row = |(pull, force): (&[f64; C], &([f64; C], f64))| from_fn(|d| 4.0 * (pull[d] - force.0[d] / z));
    pulls.iter().zip(forces).map(row).collect()
}

/// The middle of the box around all points, and half its width.
fn bounds<const C: usize>(positions: &[[f64; C]]) -> ([f64; C], [f64; C]) {
    /// The padding of the box, and the least half of its span.
    const PADDING: f64 = 1e-12;
    let (mut low, mut high) = ([f64::INFINITY; C], [f64::NEG_INFINITY; C]);
    for p in positions {
        for d in 0..C {
            low[d] = if p[d] < low[d] { p[d] } else { low[d] };
            high[d] = if p[d] > high[d] { p[d] } else { high[d] };
        }
    }
    (
        from_fn(|d| (low[d] + high[d]) / 2.0),
        from_fn(|d| ((high[d] - low[d]) / 2.0).max(PADDING) + PADDING),
    )
}

/// A leaf this deep, or deeper, keeps its first point.
const DEEPEST: usize = 50;

/// The square of a cell's longest side.
fn squared_width<const C: usize>(half: &[f64; C]) -> f64 {
    let width = half.iter().fold(0.0, |widest: f64, half| widest.max(2.0 * half));
    width * width
}

/// Which corner of a cell a point lies in: one bit a component, and a tie goes low.
#[inline(always)]
fn corner<const C: usize>(p: &[f64; C], centre: &[f64; C]) -> usize {
    (0..C).fold(0, |sum, d| sum | usize::from(p[d] > centre[d]) << d)
}

/// The middle of a corner's cell, by the middle of the whole and half the cell's width.
fn middle_of<const C: usize>(corner: usize, centre: &[f64; C], half: &[f64; C]) -> [f64; C] {
    from_fn(|d| {
        if corner >> d & 1 == 1 {
            centre[d] + half[d]
        } else {
            centre[d] - half[d]
        }
    })
}
