//! The list for the sigma search: short rows exhaustively, longer ones at random, rows of the extremes and rows with
//! subnormal weights.

use crate::lists::far;
use crate::scatter::SplitMix64;
use crate::sigma::binary_search_sigma;

/// Distances of the short rows.
const SMALL: [f64; 4] = [0.0, 1.0, 2.0, 4.0];
/// Perplexities of the short rows.
const PERPLEXITIES: [f64; 3] = [1.0, 2.0, 3.5];
/// The longest row of random distances: as many as perplexity 30 has neighbours.
const LONGEST: usize = 91;

/// Length of the row, perplexity, the distances, the shares.
pub fn cases() -> Vec<Vec<u64>> {
    let mut found = Vec::new();
    for row in short_rows() {
        found.extend(PERPLEXITIES.map(|perplexity| case(&row, perplexity)));
    }
    found.extend(random_cases());
    for row in extreme_rows() {
        found.extend([1.0, 2.5].map(|perplexity| case(&row, perplexity)));
    }
    found.extend([1e-9, 0.5, 1.00001, 2.999_99, 3.0, 4000.0].map(|perplexity| case(&[1.0, 2.0, 4.0], perplexity)));
    found.extend(far::rows().iter().map(|(row, perplexity)| case(row, *perplexity)));
    found
}

/// Every row of one to four small distances.
fn short_rows() -> Vec<Vec<f64>> {
    let mut found = Vec::new();
    let mut rows = vec![Vec::new()];
    for _ in 0..4 {
        let longer = |row: &Vec<f64>| SMALL.map(|d| [&row[..], &[d]].concat());
        rows = rows.iter().flat_map(longer).collect();
        found.extend(rows.clone());
    }
    found
}

/// One row of each length up to the longest, with some perplexity below it.
fn random_cases() -> Vec<Vec<u64>> {
    let mut random = SplitMix64::new(51);
    let mut found = Vec::new();
    for length in 1..=LONGEST {
        let scale = [1.0, 1.0e-3, 50.0, 1.0e4][length % 4];
        let row: Vec<f64> = (0..length).map(|_| random.unit() * scale).collect();
        let perplexity = 1.0 + (length as f64 / 3.0) * random.unit();
        found.push(case(&row, perplexity));
    }
    found
}

/// Coincident, far and hardly separate frames, alone and mixed.
fn extreme_rows() -> Vec<Vec<f64>> {
    let mut random = SplitMix64::new(52);
    let mut rows = Vec::new();
    for length in [1, 2, 3, 7, 8, 9, LONGEST] {
        rows.push(vec![0.0; length]);
    }
    let tiny = [f64::from_bits(1), f64::MIN_POSITIVE, 1.0e-300, 1.0e-30, 1.0e-12];
    for length in [1, 2, 3, 5, 8] {
        for scale in [1.0e12, 3.0e13, 1.0e-12, 1.0e-300] {
            rows.push((0..length).map(|_| random.unit() * scale).collect());
        }
        rows.push((0..length).map(|i| tiny[i % tiny.len()]).collect());
        rows.push((0..length).map(|i| [0.0, 1.0e12, 1.0, 1.0e-12][i % 4]).collect());
    }
    rows
}

/// One search.
fn case(distances: &[f64], perplexity: f64) -> Vec<u64> {
    let shares = binary_search_sigma(distances, perplexity);
    let mut words = vec![distances.len() as u64, perplexity.to_bits()];
    words.extend(distances.iter().chain(&shares).map(|v| v.to_bits()));
    words
}

#[cfg(test)]
mod tests {
    use super::*;

    #[test]
    fn every_length_is_met_and_no_share_is_a_nan() {
        let cases = cases();
        for length in 1..=LONGEST {
            assert!(cases.iter().any(|case| case[0] == length as u64));
        }
        for case in &cases {
            let shares = &case[2 + case[0] as usize..];
            assert!(shares.iter().all(|&bits| (0.0..=1.0).contains(&f64::from_bits(bits))));
        }
        assert!(8 * cases.concat().len() < 250_000);
    }
}
