//! Lists for exp, ln, the tests on numbers and the number of neighbours.

use crate::elementary::{absolute, exp, in_domain, is_calm, ln, neighbours};
use crate::elementary::{CALM, DOMAIN, L, LOWEST, NAN, ROOT_OF_TWO};
use crate::scatter::SplitMix64;

/// How many random arguments of one kind enter a list.
const RANDOM: usize = 2_000;
/// Bits of infinity.
const INFINITY: u64 = 0x7FF0_0000_0000_0000;
/// The sign bit.
const SIGN: u64 = 1 << 63;
/// Bits of the largest subnormal.
const LARGEST_SUBNORMAL: u64 = (1 << 52) - 1;

/// Pairs of argument and exp.
pub fn exp_cases() -> Vec<Vec<u64>> {
    let mut arguments = limits();
    arguments.extend(around_both_signs(&[
        0.5, 1.0, 10.0, 708.0, 709.0, 745.0, 745.13, 709.78,
    ]));
    arguments.extend(exponent_changes());
    arguments.extend(random_patterns(11));
    arguments.extend(random_between(12, -750.0, 750.0));
    arguments.extend(random_between(13, -1.0, 1.0));
    arguments
        .iter()
        .map(|&bits| vec![bits, exp(f64::from_bits(bits)).to_bits()])
        .collect()
}

/// Pairs of argument and ln.
pub fn ln_cases() -> Vec<Vec<u64>> {
    let mut arguments = limits();
    arguments.extend(around_both_signs(&[0.5, 1.0, 2.0, 10.0]));
    arguments.extend(halving_changes());
    arguments.extend(powers_of_two());
    arguments.extend(subnormals(21));
    arguments.extend(random_patterns(22));
    arguments.extend(random_patterns(23).iter().map(|bits| bits & !SIGN));
    arguments.extend(random_between(24, 0.0, 1.0));
    arguments.extend(random_between(25, 0.5, 2.0));
    arguments
        .iter()
        .map(|&bits| vec![bits, ln(f64::from_bits(bits)).to_bits()])
        .collect()
}

/// Argument, magnitude, whether in the domain, whether calm.
pub fn bounds_cases() -> Vec<Vec<u64>> {
    let mut arguments = limits();
    arguments.extend(around_both_signs(&[
        DOMAIN,
        CALM,
        DOMAIN / 2.0,
        DOMAIN * 2.0,
        CALM / 2.0,
        CALM * 2.0,
        1.0,
    ]));
    arguments.extend(random_patterns(31).iter().take(250));
    arguments.extend(random_between(32, -2.0 * DOMAIN, 2.0 * DOMAIN).iter().take(150));
    arguments.extend(random_between(33, -2.0 * CALM, 2.0 * CALM).iter().take(150));
    arguments.into_iter().map(bounds_case).collect()
}

/// One case of the bounds list; the magnitude of any NaN is listed as the one NaN.
fn bounds_case(bits: u64) -> Vec<u64> {
    let v = f64::from_bits(bits);
    let magnitude = if v.is_nan() { NAN } else { absolute(v).to_bits() };
    vec![bits, magnitude, u64::from(in_domain(v)), u64::from(is_calm(v))]
}

/// Perplexity, number of samples, number of neighbours.
pub fn neighbours_cases() -> Vec<Vec<u64>> {
    let mut pairs = thirds();
    pairs.extend(tiny_perplexities());
    pairs.extend(perplexities_near_n());
    pairs.extend(random_perplexities(41));
    pairs.retain(|&(perplexity, n)| perplexity > 0.0 && perplexity < n as f64);
    pairs
        .iter()
        .map(|&(perplexity, n)| vec![perplexity.to_bits(), n as u64, neighbours(perplexity, n) as u64])
        .collect()
}

/// Zeros, infinities, NaNs of several payloads, the ends of the subnormals and normals; each with both signs.
fn limits() -> Vec<u64> {
    let magnitudes = [
        0,
        1,
        2,
        LARGEST_SUBNORMAL - 1,
        LARGEST_SUBNORMAL,
        LARGEST_SUBNORMAL + 1,
        LARGEST_SUBNORMAL + 2,
        INFINITY - 2,
        INFINITY - 1,
        INFINITY,
        INFINITY + 1,
        NAN - 1,
        NAN,
        NAN + 1,
        0x7FF0_1234_5678_9ABC,
        0x7FFF_FFFF_FFFF_FFFF,
    ];
    magnitudes.iter().flat_map(|&bits| [bits, bits | SIGN]).collect()
}

/// Bits of `v` and its two neighbours, for a finite `v` other than zero.
fn around(v: f64) -> [u64; 3] {
    let bits = v.to_bits();
    [bits - 1, bits, bits + 1]
}

/// Each number and its two neighbours, with both signs.
fn around_both_signs(values: &[f64]) -> Vec<u64> {
    values.iter().flat_map(|&v| [around(v), around(-v)].concat()).collect()
}

/// Bits of `v` and of two numbers on either side of it, for a `v` that is neither zero nor at an end.
fn close_around(v: f64) -> [u64; 5] {
    let bits = v.to_bits();
    [bits - 2, bits - 1, bits, bits + 1, bits + 2]
}

/// The arguments around which exp goes from k to k + 1, for every k that has one in the range. Roundings move the
/// change by more than one number at times, but never by more than two.
fn exponent_changes() -> Vec<u64> {
    (-1076..=1023)
        .map(|k| (f64::from(k) + 0.5) * f64::from_bits(L))
        .filter(|x| (LOWEST..=709.0).contains(x))
        .flat_map(close_around)
        .collect()
}

/// The arguments at which ln halves the mantissa, with their neighbours, for every binary exponent: those of the
/// normals by their field, those of the subnormals by shifting the root of 2 to the right.
fn halving_changes() -> Vec<u64> {
    let fraction = ROOT_OF_TWO & LARGEST_SUBNORMAL;
    let normal = (1..=2046).map(|field| field << 52 | fraction);
    let subnormal = (1..=51).map(|shift| (fraction | 1 << 52) >> shift);
    normal
        .chain(subnormal)
        .flat_map(|bits: u64| [bits - 1, bits, bits + 1])
        .collect()
}

/// Every power of two.
fn powers_of_two() -> Vec<u64> {
    let subnormal = (0..52).map(|place| 1 << place);
    let normal = (1..=2046).map(|field| field << 52);
    subnormal.chain(normal).collect()
}

/// Subnormals of every number of leading zeros: the largest of each, and some with random bits below the first.
fn subnormals(seed: u64) -> Vec<u64> {
    let mut random = SplitMix64::new(seed);
    let mut found = Vec::new();
    for place in 0..52 {
        let first: u64 = 1 << place;
        found.push(first | (first - 1));
        found.extend((0..4).map(|_| first | (random.next() & (first - 1))));
    }
    found
}

/// Random bits over all patterns.
fn random_patterns(seed: u64) -> Vec<u64> {
    let mut random = SplitMix64::new(seed);
    (0..RANDOM).map(|_| random.next()).collect()
}

/// Random numbers from `low` up to `high`.
fn random_between(seed: u64, low: f64, high: f64) -> Vec<u64> {
    let mut random = SplitMix64::new(seed);
    (0..RANDOM)
        .map(|_| (low + (high - low) * random.unit()).to_bits())
        .collect()
}

/// Perplexities around thirds: the first hundred, with numbers of samples at which k just fits too, then some up to
/// the largest.
fn thirds() -> Vec<(f64, usize)> {
    let few = (1..=100).flat_map(|third| [4096, third + 2, third + 3].map(|n| (third, n)));
    let many = (101..3 * 4096).step_by(121).map(|third| (third, 4096));
    let around_third = |(third, n)| close_around(third as f64 / 3.0).map(|bits| (f64::from_bits(bits), n));
    few.chain(many).flat_map(around_third).collect()
}

/// The smallest perplexities, for few and for many samples.
fn tiny_perplexities() -> Vec<(f64, usize)> {
    let tiny = [
        1,
        2,
        LARGEST_SUBNORMAL,
        LARGEST_SUBNORMAL + 1,
        1.0e-300_f64.to_bits(),
        1.0e-9_f64.to_bits(),
    ];
    let samples = [2, 3, 4, 4096];
    tiny.iter()
        .flat_map(|&bits| samples.map(|n| (f64::from_bits(bits), n)))
        .collect()
}

/// Perplexities just below n and around a third of it.
fn perplexities_near_n() -> Vec<(f64, usize)> {
    let samples = [2, 3, 4, 5, 7, 8, 64, 100, 1000, 4095, 4096];
    let mut pairs = Vec::new();
    for n in samples {
        let whole = n as f64;
        for v in [
            whole,
            whole - 1.0,
            (whole - 1.0) / 3.0,
            (whole - 2.0) / 3.0,
            (whole - 3.0) / 3.0,
        ] {
            if v > 0.0 {
                pairs.extend(around(v).map(|bits| (f64::from_bits(bits), n)));
            }
        }
    }
    pairs
}

/// Random perplexities below random numbers of samples.
fn random_perplexities(seed: u64) -> Vec<(f64, usize)> {
    let mut random = SplitMix64::new(seed);
    let mut pairs = Vec::new();
    for _ in 0..200 {
        let n = 2 + (random.next() % 4095) as usize;
        pairs.push((n as f64 * random.unit(), n));
    }
    pairs
}

#[cfg(test)]
mod tests {
    use super::*;
    use crate::elementary::exponent_of_exp;
    use std::collections::BTreeSet;

    #[test]
    fn every_change_of_k_is_met() {
        let mut met = BTreeSet::new();
        for five in exponent_changes().chunks(5) {
            let k = |bits: u64| exponent_of_exp(f64::from_bits(bits));
            assert_ne!(k(five[0]), k(five[4]));
            met.extend([k(five[0]), k(five[4])]);
        }
        assert_eq!(met, (-1075..=1023).collect());
    }

    #[test]
    fn the_lists_are_long_enough() {
        assert!(exp_cases().len() >= 4000);
        assert!(ln_cases().len() >= 4000);
        assert!(bounds_cases().len() >= 600);
        assert!(neighbours_cases().len() >= 1900);
    }

    #[test]
    fn a_nan_argument_has_the_one_nan_as_its_answer() {
        for case in exp_cases().iter().chain(&ln_cases()) {
            assert!(!f64::from_bits(case[0]).is_nan() || case[1] == NAN);
        }
    }

    #[test]
    fn every_count_of_leading_zeros_is_met() {
        let met: BTreeSet<u32> = subnormals(21).iter().map(|bits| bits.leading_zeros()).collect();
        assert_eq!(met, (12..64).collect());
    }
}
