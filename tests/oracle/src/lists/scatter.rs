//! The list for scatter: calls on areas of every length that matters, with the whole area afterwards.

use crate::scatter::{scatter, MOST_COMPONENTS, MOST_SAMPLES};

/// Seeds of the calls; the last one has no pattern.
const SEEDS: [u64; 5] = [0, 1, u64::MAX, 1_234_567, 0xA076_1D64_78BD_642F];
/// Numbers of samples whose areas are small enough to be listed for every number of components.
const FEW: [usize; 5] = [0, 1, 2, 3, 7];
/// By how much a longer area is longer.
const LONGER: usize = 3;
/// Bits of the number that an area holds at place 0 before the call; place i holds this plus i.
const BEFORE: u64 = 0x4000_0000_0000_0000;

/// Seed, n, c, length of the area, answer number (0: done), then the whole area afterwards.
pub fn cases() -> Vec<Vec<u64>> {
    let mut found = Vec::new();
    for seed in SEEDS {
        found.extend(small_cases(seed));
    }
    found.extend(full_size_cases());
    found.extend(refused_size_cases());
    found
}

/// Few samples with every number of components: exact, longer and one-short areas.
fn small_cases(seed: u64) -> Vec<Vec<u64>> {
    let mut found = Vec::new();
    for n in FEW {
        for c in 0..=MOST_COMPONENTS + 1 {
            for length in lengths_around(n * c) {
                found.push(case(seed, n, c, length));
            }
        }
    }
    found
}

/// The most samples, with one component: exact, longer and one-short areas.
fn full_size_cases() -> Vec<Vec<u64>> {
    lengths_around(MOST_SAMPLES)
        .into_iter()
        .map(|length| case(1, MOST_SAMPLES, 1, length))
        .collect()
}

/// The most samples in areas that are far too short, one sample more, and numbers beyond every bound.
fn refused_size_cases() -> Vec<Vec<u64>> {
    let far = u32::MAX as usize;
    let mut found = Vec::new();
    for length in [0, 3, 64] {
        for c in 0..=MOST_COMPONENTS + 1 {
            found.push(case(2, MOST_SAMPLES, c, length));
            found.push(case(3, MOST_SAMPLES + 1, c, length));
            found.push(case(4, far, c, length));
        }
        for n in [0, 1, MOST_SAMPLES, MOST_SAMPLES + 1, far] {
            found.push(case(5, n, far, length));
        }
    }
    found
}

/// One short of what is needed (where that is a length), just enough, and longer.
fn lengths_around(needed: usize) -> Vec<usize> {
    let short = needed.checked_sub(1);
    short.into_iter().chain([needed, needed + LONGER]).collect()
}

/// One call and what it leaves.
fn case(seed: u64, n: usize, c: usize, length: usize) -> Vec<u64> {
    let mut area: Vec<f64> = (0..length as u64).map(|i| f64::from_bits(BEFORE + i)).collect();
    let answer = match scatter(seed, n, c, &mut area) {
        Ok(()) => 0,
        Err(refusal) => refusal.number(),
    };
    let mut words = vec![seed, n as u64, c as u64, length as u64, answer];
    words.extend(area.iter().map(|v| v.to_bits()));
    words
}

#[cfg(test)]
mod tests {
    use super::*;
    use std::collections::BTreeSet;

    #[test]
    fn every_answer_is_met_and_the_list_stays_small() {
        let cases = cases();
        let answers: BTreeSet<u64> = cases.iter().map(|case| case[4]).collect();
        assert_eq!(answers, BTreeSet::from([0, 1, 7, 12]));
        assert!(8 * cases.concat().len() < 400_000);
    }

    #[test]
    fn a_refusal_leaves_the_area() {
        for case in cases().iter().filter(|case| case[4] != 0) {
            assert!(case[5..].iter().zip(BEFORE..).all(|(&word, before)| word == before));
        }
    }
}
