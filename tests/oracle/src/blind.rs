//! How many frames of a table have a sigma search that is blind: its last round's weights add up to less than 1e-8, so that all shares
//! are equal by that rule; and how many of them are alone, all their distances being 0 as computed. From the scope paper's rule 1, by both
//! routes, and from the order of the tests that the header tells.

use crate::descent::{Method, Settings};
use crate::elementary::{exp, in_domain};
use crate::preparation::{rounds_by, Table, LEAST_SUM};
use crate::record::settings_of;

/// The most frames, and the most features of a frame.
const MOST_FRAMES: usize = 4096;
const MOST_FEATURES: usize = 256;
/// The words of the answer.
const ANSWER_WORDS: usize = 2;

/// What is counted among the frames of a table.
#[derive(Clone, Copy, Debug, PartialEq, Eq)]
pub struct Sight {
    /// Frames whose search is blind.
    pub blind: usize,
    /// Those of them that are alone: every distance that the search goes by is 0.
    pub alone: usize,
}

/// What is lent besides the table: n places each.
#[derive(Clone, Debug, PartialEq)]
pub struct Lent {
    pub squares: Vec<f64>,
    pub values: Vec<f64>,
    pub shares: Vec<f64>,
    pub indices: Vec<u32>,
}

impl Lent {
    /// Whether one of them has fewer than n places.
    fn is_short(&self, n: usize) -> bool {
        let lengths = [
            self.squares.len(),
            self.values.len(),
            self.shares.len(),
            self.indices.len(),
        ];
        lengths.iter().any(|&length| length < n)
    }

    /// The first n places become zeros.
    fn clear(&mut self, n: usize) {
        for values in [&mut self.squares, &mut self.values, &mut self.shares] {
            values[..n].fill(0.0);
        }
        self.indices[..n].fill(0);
    }
}

/// Whether a search over these distances is blind: the row of its last round was filled, for the sum of the weights was too small.
pub fn is_blind(distances: &[f64], perplexity: f64) -> bool {
    let rounds = rounds_by(exp, distances, perplexity);
    rounds.last().map_or(false, |&(_, sum)| sum < LEAST_SUM)
}

/// The distances that the search of frame i goes by: those of its k nearest, or those of all frames.
fn searched(settings: &Settings, table: &Table, i: usize) -> Vec<f64> {
    match settings.method {
        Method::Exact => table.row(i),
        Method::BarnesHut => table.near(i, settings.perplexity).iter().map(|near| near.0).collect(),
    }
}

/// The first of 2, 7, 8, 9, 10 and 12 that applies; of the settings only n, f, method and perplexity are looked at.
fn refusal(settings: &Settings, table: &[f64], lent: &Lent) -> Option<u64> {
    let Settings { n, f, perplexity, .. } = *settings;
    if !(perplexity.is_finite() && perplexity > 0.0) {
        return Some(2);
    }
    let fits = (1..=MOST_FRAMES).contains(&n) && (1..=MOST_FEATURES).contains(&f) && table.len() == n * f;
    let tests = [
        (!fits, 7),
        (table.iter().any(|&value| !in_domain(value)), 8),
        (n == 1, 9),
        (perplexity >= n as f64, 10),
        (lent.is_short(n), 12),
    ];
    tests.iter().find(|test| test.0).map(|test| test.1)
}

/// Counts them; refused, nothing has changed.
pub fn blind(settings: &Settings, table: &[f64], lent: &mut Lent) -> Result<Sight, u64> {
    if let Some(number) = refusal(settings, table, lent) {
        return Err(number);
    }
    let Settings { n, f, perplexity, .. } = *settings;
    let values = Table { n, f, values: table };
    let rows: Vec<Vec<f64>> = (0..n).map(|i| searched(settings, &values, i)).collect();
    lent.clear(n);
    Ok(Sight {
        blind: rows.iter().filter(|row| is_blind(row, perplexity)).count(),
        alone: rows.iter().filter(|row| row.iter().all(|&d| d == 0.0)).count(),
    })
}

/// The same by settings given as words, with the two counts at the front of an answer: 21 for words that are no settings, before all
/// else, and 12 for an answer that is too short, as for any other area. The number of the refusal, or 0.
pub fn blind_words(settings: &[u64], table: &[f64], lent: &mut Lent, answer: &mut [u64]) -> u64 {
    let settings = match settings_of(settings) {
        Some(settings) => settings,
        None => return 21,
    };
    if answer.len() < ANSWER_WORDS {
        return refusal(&settings, table, lent).unwrap_or(12);
    }
    match blind(&settings, table, lent) {
        Err(number) => number,
        Ok(Sight { blind, alone }) => {
            answer[..ANSWER_WORDS].copy_from_slice(&[blind as u64, alone as u64]);
            0
        }
    }
}

#[cfg(test)]
mod tests;
