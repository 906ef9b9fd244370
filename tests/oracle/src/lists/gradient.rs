//! The list for the exact gradient: maps of every size that matters, near, far, coincident and beyond all bounds.

use crate::elementary::NAN;
use crate::gradient::Exact;
use crate::scatter::SplitMix64;

/// The two exaggerations of a run.
pub const EXAGGERATIONS: [f64; 2] = [12.0, 1.0];
/// How many kinds of maps there are.
pub const KINDS: usize = 8;

/// n, c, exaggeration, positions, affinities, then the total and the gradient.
pub fn cases() -> Vec<Vec<u64>> {
    let mut random = SplitMix64::new(81);
    let mut found = Vec::new();
    let mut kind = 0;
    for c in 1..=8 {
        for n in 2..=12 {
            for exaggeration in EXAGGERATIONS {
                found.push(case(&mut random, kind % KINDS, n, c, exaggeration));
                kind += 1;
            }
            // So that both exaggerations meet every kind.
            kind += n % 2;
        }
    }
    found
}

/// The bits of a value in a list: any NaN is listed as the one NaN.
pub fn listed(v: f64) -> u64 {
    if v.is_nan() {
        NAN
    } else {
        v.to_bits()
    }
}

/// A coordinate of a map of the given kind.
pub fn coordinate(random: &mut SplitMix64, kind: usize) -> f64 {
    let wide = random.unit() - 0.5;
    match kind {
        0 => wide * 1e-4,
        1 => wide * 20.0,
        2 => wide * 1e9,
        // Few values, so that frames coincide.
        3 => [0.0, 1.0][(random.next() % 2) as usize],
        4 => [0.0, -0.0, wide][(random.next() % 3) as usize],
        // Up to the largest that a step may give.
        5 => wide * 2.0_f64.powi(101),
        // Squares that are not finite any more.
        6 => wide * 1e200,
        _ => [wide, wide * 1e8, wide * 1e30][(random.next() % 3) as usize],
    }
}

/// An affinity: zero, as small as any, as large as any.
pub fn affinity(random: &mut SplitMix64, n: usize) -> f64 {
    let share = random.unit();
    match random.next() % 8 {
        0 | 1 => 0.0,
        2 => share * 1e-12,
        3 => share,
        4 => 0.5,
        _ => share / (n * n) as f64,
    }
}

/// One map and what the rules make of it.
fn case(random: &mut SplitMix64, kind: usize, n: usize, c: usize, exaggeration: f64) -> Vec<u64> {
    let mut positions: Vec<f64> = (0..n * c).map(|_| coordinate(random, kind)).collect();
    if kind == 3 {
        // At least the first and the last frame lie in one place.
        positions.copy_within(0..c, (n - 1) * c);
    }
    let affinities: Vec<f64> = (0..n * n).map(|_| affinity(random, n)).collect();
    let exact = Exact {
        n,
        c,
        exaggeration,
        positions: &positions,
        affinities: &affinities,
    };
    let mut words = vec![n as u64, c as u64, exaggeration.to_bits()];
    words.extend(positions.iter().chain(&affinities).map(|&v| listed(v)));
    words.push(listed(exact.total()));
    words.extend(exact.gradient().into_iter().map(listed));
    words
}

#[cfg(test)]
mod tests {
    use super::*;

    #[test]
    fn sizes_and_what_is_met() {
        let cases = cases();
        assert_eq!(cases.len(), 8 * 11 * 2);
        assert!(8 * cases.concat().len() < 300_000);
        let mut totals_of_zero = 0;
        let mut finite = 0;
        for case in &cases {
            let (n, c) = (case[0] as usize, case[1] as usize);
            assert_eq!(case.len(), 4 + 2 * n * c + n * n);
            let answers = &case[3 + n * c + n * n..];
            totals_of_zero += usize::from(answers[0] == 0);
            finite += usize::from(answers.iter().all(|&bits| f64::from_bits(bits).is_finite()));
        }
        assert!(totals_of_zero > 3);
        assert!(finite > cases.len() / 2);
    }
}
