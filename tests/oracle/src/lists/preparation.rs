//! The list for whole preparations by both routes: random, coincident, tied and far frames, several perplexities.

use crate::elementary::DOMAIN;
use crate::preparation::Table;
use crate::scatter::SplitMix64;

/// How many kinds of tables there are.
const KINDS: usize = 7;
/// Numbers of frames.
const SIZES: [usize; 14] = [2, 3, 4, 5, 6, 7, 8, 10, 12, 15, 18, 22, 27, 32];
/// Numbers of frames of the larger preparations, up to 64: by the exact route, and by the Barnes-Hut route.
const LARGER_EXACT: [usize; 4] = [37, 50, 63, 64];
const LARGER_LISTS: [usize; 7] = [33, 37, 43, 50, 57, 63, 64];
/// The method's number in a case.
const EXACT: u64 = 0;
const BARNES_HUT: u64 = 1;

/// Method (0 exact, 1 Barnes-Hut), n, f, perplexity, the table; then n·n affinities, or n + 1 offsets, indices, weights.
pub fn cases() -> Vec<Vec<u64>> {
    let mut random = SplitMix64::new(101);
    let mut found = Vec::new();
    let mut turn = 0;
    for n in SIZES {
        for kind in 0..KINDS {
            let f = 1 + turn % 6;
            let values = table(&mut random, kind, n, f);
            let perplexity = perplexity(&mut random, turn, n);
            let table = Table { n, f, values: &values };
            // Large tables take turns.
            if n <= 12 || turn % 2 == 0 {
                found.push(exact_case(&table, perplexity));
            }
            if n <= 12 || turn % 2 == 1 {
                found.push(lists_case(&table, perplexity));
            }
            turn += 1;
        }
    }
    found
}

/// The same for more frames. Lists are as long as the perplexity makes them, so only one case has that of the last kind.
pub fn larger_cases() -> Vec<Vec<u64>> {
    let mut random = SplitMix64::new(102);
    let mut found = Vec::new();
    for (turn, n) in LARGER_EXACT.into_iter().enumerate() {
        let f = 1 + turn % 6;
        let values = table(&mut random, turn % KINDS, n, f);
        let perplexity = perplexity(&mut random, turn, n);
        found.push(exact_case(&Table { n, f, values: &values }, perplexity));
    }
    for n in LARGER_LISTS {
        for perplexity in [0.3, 1.0 + random.unit()] {
            let turn = found.len();
            let f = 1 + turn % 6;
            let values = table(&mut random, turn % KINDS, n, f);
            found.push(lists_case(&Table { n, f, values: &values }, perplexity));
        }
    }
    // Every frame names every other.
    let values = table(&mut random, 0, 64, 2);
    let table = Table {
        n: 64,
        f: 2,
        values: &values,
    };
    found.push(lists_case(&table, perplexity(&mut random, 2, 64)));
    found
}

/// Perplexities from far below 1 to just below the number of frames.
fn perplexity(random: &mut SplitMix64, turn: usize, n: usize) -> f64 {
    let most = f64::from_bits((n as f64).to_bits() - 1);
    match turn % 5 {
        0 => 1.0,
        1 => 0.5 + random.unit(),
        2 => most,
        3 => random.unit() * 0.3,
        _ => (random.unit() * n as f64).min(5.0),
    }
}

/// A table of the given kind.
fn table(random: &mut SplitMix64, kind: usize, n: usize, f: usize) -> Vec<f64> {
    let mut value = |_| {
        let wide = random.unit() - 0.5;
        match kind {
            0 => wide * 4.0,
            // Few whole numbers: ties and coincident frames.
            1 => (random.next() % 3) as f64,
            // All frames in one place.
            2 => 1.25,
            // Far frames, up to the end of the domain.
            3 => wide * 2.0 * DOMAIN,
            // Two heaps far apart.
            4 => wide * 1e-3 + [0.0, 1e4][(random.next() % 2) as usize],
            // Distances that are rounded away.
            5 => 1e6 + wide * 1e-6,
            _ => [0.0, -0.0, wide, DOMAIN, -DOMAIN][(random.next() % 5) as usize],
        }
    };
    (0..n * f).map(&mut value).collect()
}

/// Method, n, f, perplexity and the table.
fn head(method: u64, table: &Table, perplexity: f64) -> Vec<u64> {
    let mut words = vec![method, table.n as u64, table.f as u64, perplexity.to_bits()];
    words.extend(table.values.iter().map(|v| v.to_bits()));
    words
}

/// One preparation by the exact route.
pub(super) fn exact_case(table: &Table, perplexity: f64) -> Vec<u64> {
    let mut words = head(EXACT, table, perplexity);
    words.extend(table.exact(perplexity).iter().map(|v| v.to_bits()));
    words
}

/// One preparation by the Barnes-Hut route.
pub(super) fn lists_case(table: &Table, perplexity: f64) -> Vec<u64> {
    let mut words = head(BARNES_HUT, table, perplexity);
    let lists = table.lists(perplexity);
    let mut offset = 0;
    words.push(offset);
    for list in &lists {
        offset += list.len() as u64;
        words.push(offset);
    }
    words.extend(lists.iter().flatten().map(|link| link.0 as u64));
    words.extend(lists.iter().flatten().map(|link| link.1.to_bits()));
    words
}

#[cfg(test)]
mod tests {
    use super::*;

    /// The list stays small, its answers are numbers, and both routes are there with the given most frames.
    fn is_well_made(cases: &[Vec<u64>], most: u64) {
        assert!(8 * cases.concat().len() < 275_000);
        for case in cases.iter().filter(|case| case[0] == EXACT) {
            let (n, f) = (case[1] as usize, case[2] as usize);
            let affinities = &case[4 + n * f..];
            assert_eq!(affinities.len(), n * n);
            assert!(affinities.iter().all(|&bits| f64::from_bits(bits) >= 0.0));
        }
        for method in [EXACT, BARNES_HUT] {
            let largest = cases.iter().filter(|case| case[0] == method).map(|case| case[1]).max();
            assert_eq!(largest, Some(most));
        }
    }

    #[test]
    fn lists_are_well_made() {
        is_well_made(&cases(), 32);
        is_well_made(&larger_cases(), 64);
    }
}
