//! The sigma search, as the scope paper's rule 1 has it: the shares of a row of distances.
//!
//! The paper names what it leaves to the original's text by that text's own constants; they stand here as numbers.

use crate::elementary::{absolute, exp, ln};

/// The most rounds of a search.
const ROUNDS: usize = 50;
/// A search is left when the perplexity is nearer to the one asked for than this.
const TOLERANCE: f64 = 1e-5;
/// A sum below this makes all shares equal.
const SMALLEST_SUM: f64 = 1e-8;
/// Shares up to this do not enter the entropy.
const SMALLEST_SHARE: f64 = 1e-10;
/// The lower bound of sigma at first.
const LOWEST_SIGMA: f64 = 1e-20;

/// What is known of sigma: its bounds, and the one that is tried next.
struct Search {
    low: f64,
    high: f64,
    sigma: f64,
}

/// The shares of the last round.
pub fn binary_search_sigma(distances: &[f64], perplexity: f64) -> Vec<f64> {
    let mut search = Search {
        low: LOWEST_SIGMA,
        high: f64::INFINITY,
        sigma: 1.0,
    };
    let mut shares = Vec::new();
    for _ in 0..ROUNDS {
        shares = shares_of(distances, search.sigma);
        let excess = exp(entropy(&shares)) - perplexity;
        if absolute(excess) < TOLERANCE {
            break;
        }
        search = search.after(excess);
    }
    shares
}

impl Search {
    /// Too high a perplexity lowers sigma halfway to its lower bound; else it grows, twofold while nothing bounds it.
    fn after(self, excess: f64) -> Search {
        let Search { low, high, sigma } = self;
        if excess > 0.0 {
            return Search {
                low,
                high: sigma,
                sigma: (sigma + low) / 2.0,
            };
        }
        let sigma_next = if high == f64::INFINITY {
            sigma * 2.0
        } else {
            (sigma + high) / 2.0
        };
        Search {
            low: sigma,
            high,
            sigma: sigma_next,
        }
    }
}

/// The shares that a sigma gives.
fn shares_of(distances: &[f64], sigma: f64) -> Vec<f64> {
    let weights: Vec<f64> = distances.iter().map(|&d| weight(d, sigma)).collect();
    let sum = rising_sum(&weights);
    if sum < SMALLEST_SUM {
        return vec![1.0 / distances.len() as f64; distances.len()];
    }
    weights.iter().map(|weight| weight / sum).collect()
}

/// The weight of a distance; a coincident frame weighs nothing.
fn weight(d: f64, sigma: f64) -> f64 {
    if d == 0.0 {
        0.0
    } else {
        exp(-d / (2.0 * sigma * sigma))
    }
}

/// The entropy of the shares that are large enough.
fn entropy(shares: &[f64]) -> f64 {
    let terms: Vec<f64> = shares
        .iter()
        .map(|&share| {
            if share > SMALLEST_SHARE {
                -share * ln(share)
            } else {
                0.0
            }
        })
        .collect();
    rising_sum(&terms)
}

/// The paper's sum: from +0.0 on, by rising index.
fn rising_sum(values: &[f64]) -> f64 {
    let mut sum = 0.0;
    for value in values {
        sum += value;
    }
    sum
}

#[cfg(test)]
mod tests {
    use super::*;

    #[test]
    fn coincident_frames_share_alike() {
        assert_eq!(binary_search_sigma(&[0.0, 0.0, -0.0, 0.0], 2.0), [0.25; 4]);
        assert_eq!(binary_search_sigma(&[0.0], 1.0), [1.0]);
    }

    #[test]
    fn a_coincident_frame_among_others_has_no_share() {
        let shares = binary_search_sigma(&[0.0, 1.0, 1.0], 2.0);
        assert_eq!(shares, [0.0, 0.5, 0.5]);
    }

    #[test]
    fn one_neighbour_has_all() {
        for d in [1.0e-300, 1.0, 1.0e12] {
            assert_eq!(binary_search_sigma(&[d], 1.0), [1.0]);
        }
    }

    #[test]
    fn the_perplexity_is_met_where_it_can_be() {
        let distances: Vec<f64> = (1..40).map(f64::from).collect();
        for perplexity in [2.0, 5.0, 12.5, 30.0] {
            let shares = binary_search_sigma(&distances, perplexity);
            assert!(absolute(exp(entropy(&shares)) - perplexity) < TOLERANCE);
            assert!(shares.windows(2).all(|two| two[0] > two[1]));
            assert!(absolute(rising_sum(&shares) - 1.0) < 1e-12);
        }
    }

    #[test]
    fn a_perplexity_out_of_reach_ends_after_the_last_round() {
        assert_eq!(binary_search_sigma(&[1.0, 1.0], 5.0), [0.5, 0.5]);
        // sigma falls until every weight is nothing, and then all shares are equal
        assert_eq!(binary_search_sigma(&[1.0, 3.0], 0.5), [0.5, 0.5]);
    }

    #[test]
    fn small_shares_do_not_enter_the_entropy() {
        assert_eq!(entropy(&[1.0, 1e-10, 1e-11]).to_bits(), 0.0_f64.to_bits());
        assert!(entropy(&[1.0, 1.1e-10]) > 0.0);
    }
}
