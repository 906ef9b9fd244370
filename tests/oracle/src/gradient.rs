//! The exact gradient as the scope paper writes it: every sum starts at +0.0 and runs by rising index.

use crate::elementary::at_least;

/// The least q: 2^-52.
const LEAST: f64 = f64::EPSILON;

/// A map and the affinities of its frames.
#[derive(Clone, Debug)]
pub struct Exact<'a> {
    /// How many frames there are.
    pub n: usize,
    /// How many components a position has.
    pub c: usize,
    /// What an affinity is multiplied by.
    pub exaggeration: f64,
    /// Positions, frame by frame.
    pub positions: &'a [f64],
    /// Affinities, row by row.
    pub affinities: &'a [f64],
}

impl Exact<'_> {
    /// The Student-t numerator of two frames; 0 for a frame and itself.
    fn numerator(&self, i: usize, j: usize) -> f64 {
        if i == j {
            return 0.0;
        }
        let mut squared = 0.0;
        for d in 0..self.c {
            let difference = self.positions[i * self.c + d] - self.positions[j * self.c + d];
            squared += difference * difference;
        }
        1.0 / (1.0 + squared)
    }

    /// The sum of all numerators, row by row.
    pub fn total(&self) -> f64 {
        let mut sum = 0.0;
        for i in 0..self.n {
            for j in 0..self.n {
                sum += self.numerator(i, j);
            }
        }
        sum
    }

    /// What frame j weighs in the gradient of frame i.
    fn weight(&self, total: f64, i: usize, j: usize) -> f64 {
        let numerator = self.numerator(i, j);
        let q = at_least(numerator / total, LEAST);
        (self.affinities[i * self.n + j] * self.exaggeration - q) * numerator
    }

    /// The gradient, frame by frame: (y·s − Σ w·y)·4.
    pub fn gradient(&self) -> Vec<f64> {
        let total = self.total();
        let mut found = Vec::new();
        for i in 0..self.n {
            let weights: Vec<f64> = (0..self.n).map(|j| self.weight(total, i, j)).collect();
            let mut s = 0.0;
            for w in &weights {
                s += w;
            }
            for d in 0..self.c {
                let mut along = 0.0;
                for (j, w) in weights.iter().enumerate() {
                    along += w * self.positions[j * self.c + d];
                }
                found.push((self.positions[i * self.c + d] * s - along) * 4.0);
            }
        }
        found
    }
}

#[cfg(test)]
mod tests {
    use super::*;

    #[test]
    fn two_frames_at_0_and_1() {
        let plain = Exact {
            n: 2,
            c: 1,
            exaggeration: 1.0,
            positions: &[0.0, 1.0],
            affinities: &[0.0, 0.5, 0.5, 0.0],
        };
        assert_eq!(plain.total(), 1.0);
        assert_eq!(plain.gradient(), [0.0, 0.0]);
        let exaggerated = Exact {
            exaggeration: 12.0,
            ..plain
        };
        assert_eq!(exaggerated.gradient(), [-11.0, 11.0]);
    }

    #[test]
    fn a_total_of_zero_gives_the_least_q() {
        let far = Exact {
            n: 2,
            c: 1,
            exaggeration: 1.0,
            positions: &[-1e200, 1e200],
            affinities: &[0.0, 0.5, 0.5, 0.0],
        };
        assert_eq!(far.total(), 0.0);
        assert_eq!(far.gradient(), [0.0, 0.0]);
    }
}
