//! Both routes from a table to the affinities, as the scope paper writes them: distances, sigma search, symmetrising.

use crate::elementary::{absolute, exp, ln, neighbours};

/// The sum by rising index, from +0.0.
fn sum(values: impl Iterator<Item = f64>) -> f64 {
    let mut s = 0.0;
    for v in values {
        s += v;
    }
    s
}

/// A table of n frames of f features each.
#[derive(Clone, Debug)]
pub struct Table<'a> {
    /// How many frames there are.
    pub n: usize,
    /// How many features a frame has.
    pub f: usize,
    /// The features, frame by frame.
    pub values: &'a [f64],
}

/// An exp: the paper's, or another to measure against it.
pub type Exp = fn(f64) -> f64;

/// A frame's list: the other frames by rising index, each with its weight.
pub type Links = Vec<(usize, f64)>;

impl Table<'_> {
    /// The product of two frames.
    fn product(&self, i: usize, j: usize) -> f64 {
        sum((0..self.f).map(|d| self.values[i * self.f + d] * self.values[j * self.f + d]))
    }

    /// The squared distance of two frames: +0.0 unless above 0, and +0.0 for a frame and itself.
    fn distance(&self, i: usize, j: usize) -> f64 {
        if i == j {
            return 0.0;
        }
        let squared = self.product(i, i) + self.product(j, j) - 2.0 * self.product(i, j);
        if squared > 0.0 {
            squared
        } else {
            0.0
        }
    }

    /// The squared distances from frame i to all frames, itself among them.
    pub(crate) fn row(&self, i: usize) -> Vec<f64> {
        (0..self.n).map(|j| self.distance(i, j)).collect()
    }

    /// The k nearest of frame i by distance, then index: how far each is, and which.
    pub(crate) fn near(&self, i: usize, perplexity: f64) -> Vec<(f64, usize)> {
        let mut others: Vec<(f64, usize)> = (0..self.n)
            .filter(|&j| j != i)
            .map(|j| (self.distance(i, j), j))
            .collect();
        others.sort_by(|a, b| a.0.total_cmp(&b.0).then(a.1.cmp(&b.1)));
        others.truncate(neighbours(perplexity, self.n));
        others
    }

    /// The exact route: n·n affinities, by rows.
    pub fn exact(&self, perplexity: f64) -> Vec<f64> {
        self.exact_by(exp, perplexity)
    }

    /// The exact route with another exp.
    pub fn exact_by(&self, exp: Exp, perplexity: f64) -> Vec<f64> {
        let shares: Vec<Vec<f64>> = (0..self.n)
            .map(|i| sigma_search_by(exp, &self.row(i), perplexity))
            .collect();
        let norm = 2.0 * self.n as f64;
        let affinity = |i: usize, j: usize| {
            if i == j {
                0.0
            } else {
                (shares[i.min(j)][i.max(j)] + shares[i.max(j)][i.min(j)]) / norm
            }
        };
        (0..self.n * self.n).map(|e| affinity(e / self.n, e % self.n)).collect()
    }

    /// The k nearest of frame i with their shares.
    fn nearest(&self, exp: Exp, i: usize, perplexity: f64) -> Links {
        let others = self.near(i, perplexity);
        let row: Vec<f64> = others.iter().map(|other| other.0).collect();
        let shares = sigma_search_by(exp, &row, perplexity);
        others.iter().map(|other| other.1).zip(shares).collect()
    }

    /// The Barnes-Hut route: each frame's list.
    pub fn lists(&self, perplexity: f64) -> Vec<Links> {
        self.lists_by(exp, perplexity)
    }

    /// The Barnes-Hut route with another exp.
    pub fn lists_by(&self, exp: Exp, perplexity: f64) -> Vec<Links> {
        let norm = 2.0 * self.n as f64;
        // What frame i makes of frame j, where j is among its nearest.
        let mut directed = vec![vec![None; self.n]; self.n];
        for (i, row) in directed.iter_mut().enumerate() {
            for (j, share) in self.nearest(exp, i, perplexity) {
                row[j] = Some(share / norm);
            }
        }
        // Frames come by rising index, so the lower frame's share is the first of the two.
        let weight = |i: usize, j: usize| match (directed[i.min(j)][i.max(j)], directed[i.max(j)][i.min(j)]) {
            (None, None) => None,
            (one, other) => Some(sum(one.into_iter().chain(other))),
        };
        (0..self.n)
            .map(|i| (0..self.n).filter_map(|j| Some((j, weight(i, j)?))).collect())
            .collect()
    }
}

/// A sum of weights below this makes all shares equal.
pub(crate) const LEAST_SUM: f64 = 1e-8;

/// A row's shares at one sigma: a distance of 0 weighs 0, and a sum below 1e-8 makes all shares equal. With them comes the sum.
fn shares_at(exp: Exp, distances: &[f64], sigma: f64) -> (Vec<f64>, f64) {
    let weights: Vec<f64> = distances
        .iter()
        .map(|&d| if d == 0.0 { 0.0 } else { exp(-d / (2.0 * sigma * sigma)) })
        .collect();
    let total = sum(weights.iter().copied());
    if total < LEAST_SUM {
        return (vec![1.0 / distances.len() as f64; distances.len()], total);
    }
    (weights.iter().map(|weight| weight / total).collect(), total)
}

/// The perplexity of shares; only those above 1e-10 enter.
fn perplexity_of(exp: Exp, shares: &[f64]) -> f64 {
    exp(sum(shares.iter().map(|&v| if v > 1e-10 { -v * ln(v) } else { 0.0 })))
}

/// The shares of the last of at most 50 rounds.
pub fn sigma_search(distances: &[f64], target: f64) -> Vec<f64> {
    sigma_search_by(exp, distances, target)
}

/// The search with another exp.
pub fn sigma_search_by(exp: Exp, distances: &[f64], target: f64) -> Vec<f64> {
    rounds_by(exp, distances, target)
        .pop()
        .map_or(Vec::new(), |last| last.0)
}

/// The shares of each round of the search, with the sum of the round's weights.
pub(crate) fn rounds_by(exp: Exp, distances: &[f64], target: f64) -> Vec<(Vec<f64>, f64)> {
    let (mut low, mut high, mut sigma) = (1e-20, f64::INFINITY, 1.0);
    let mut rounds = Vec::new();
    for _ in 0..50 {
        let round = shares_at(exp, distances, sigma);
        let off = perplexity_of(exp, &round.0) - target;
        rounds.push(round);
        if absolute(off) < 1e-5 {
            break;
        }
        if off > 0.0 {
            high = sigma;
            sigma = (sigma + low) / 2.0;
        } else {
            low = sigma;
            sigma = if high == f64::INFINITY {
                sigma * 2.0
            } else {
                (sigma + high) / 2.0
            };
        }
    }
    rounds
}

#[cfg(test)]
mod tests {
    use super::*;

    #[test]
    fn two_frames() {
        let table = Table {
            n: 2,
            f: 1,
            values: &[0.0, 1.0],
        };
        assert_eq!(table.lists(1.0), [[(1, 0.5)], [(0, 0.5)]]);
        assert_eq!(table.exact(1.0), [0.0, 0.5, 0.5, 0.0]);
    }

    #[test]
    fn coincident_frames_weigh_nothing() {
        assert_eq!(shares_at(exp, &[0.0, 1.0, 1.0], 1.0).0, [0.0, 0.5, 0.5]);
        let equal = shares_at(exp, &[0.0, 0.0, 0.0, 0.0], 1.0);
        assert_eq!(equal, (vec![0.25; 4], 0.0));
    }

    #[test]
    fn ties_go_to_the_lower_index() {
        let table = Table {
            n: 6,
            f: 1,
            values: &[0.0, 1.0, -1.0, 1.0, -1.0, 1.0],
        };
        let near: Vec<usize> = table.nearest(exp, 0, 0.5).iter().map(|link| link.0).collect();
        assert_eq!(near, [1, 2, 3]);
    }

    #[test]
    fn the_search_meets_its_target() {
        let distances: Vec<f64> = (1..40).map(|d| f64::from(d) * 0.37).collect();
        for target in [1.5, 5.0, 20.0] {
            let shares = sigma_search(&distances, target);
            assert!(absolute(perplexity_of(exp, &shares) - target) < 1e-5);
        }
    }
}
