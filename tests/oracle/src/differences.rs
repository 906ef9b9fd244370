//! How far the scope paper's rules lie from the usual library, in numbers.
//!
//! The usual library is what `f64::exp` and `f64::ln` call on the machine that measures. The sums in eight lanes are
//! modelled after ndarray's `sum`, so that they can be measured without it.

use crate::elementary::{exp, ln};
use crate::scatter::SplitMix64;
use std::fmt;

/// How many values each measurement looks at.
const VALUES: usize = 1_000_000;
/// How many sums each measurement looks at.
const SUMS: usize = 20_000;

/// How many steps from one f64 to the next lie between two numbers. NaN and NaN are 0 apart.
pub fn ulps_apart(a: f64, b: f64) -> u64 {
    match (a.is_nan(), b.is_nan()) {
        (true, true) => 0,
        (false, false) => rank(a).abs_diff(rank(b)),
        _ => u64::MAX,
    }
}

/// A whole number that rises by 1 from an f64 to the next; both zeros have 0.
fn rank(v: f64) -> i64 {
    let magnitude = (v.to_bits() & !(1 << 63)) as i64;
    if v.is_sign_negative() {
        -magnitude
    } else {
        magnitude
    }
}

/// What a measurement found.
#[derive(Clone, Copy, Debug, Default, PartialEq, Eq)]
pub struct Difference {
    /// Pairs of answers looked at.
    pub looked_at: usize,
    /// Pairs that are not equal.
    pub unequal: usize,
    /// The largest distance, in steps from one f64 to the next.
    pub largest: u64,
}

impl Difference {
    /// Counts one more pair of answers.
    fn count(&mut self, ours: f64, theirs: f64) {
        let distance = ulps_apart(ours, theirs);
        self.looked_at += 1;
        self.unequal += usize::from(distance != 0);
        self.largest = self.largest.max(distance);
    }
}

impl fmt::Display for Difference {
    fn fmt(&self, out: &mut fmt::Formatter<'_>) -> fmt::Result {
        let percent = 100.0 * self.unequal as f64 / self.looked_at as f64;
        write!(
            out,
            "{} | {} | {:.2} % | {}",
            self.looked_at, self.unequal, percent, self.largest
        )
    }
}

/// Compares two functions on `VALUES` numbers that `draw` makes.
fn compare(ours: fn(f64) -> f64, theirs: fn(f64) -> f64, seed: u64, draw: fn(&mut SplitMix64) -> f64) -> Difference {
    let mut random = SplitMix64::new(seed);
    let mut found = Difference::default();
    for _ in 0..VALUES {
        let v = draw(&mut random);
        found.count(ours(v), theirs(v));
    }
    found
}

/// A finite f64 above 0 with random bits.
fn any_positive(random: &mut SplitMix64) -> f64 {
    loop {
        let v = f64::from_bits(random.next() >> 1);
        if v > 0.0 && v.is_finite() {
            return v;
        }
    }
}

/// A random f64 in (0, 1).
fn inner_unit(random: &mut SplitMix64) -> f64 {
    loop {
        let v = random.unit();
        if v > 0.0 {
            return v;
        }
    }
}

/// The paper's sum: from +0.0 by rising index.
pub fn rising_sum(values: &[f64]) -> f64 {
    values.iter().fold(0.0, |sum, v| sum + v)
}

/// The sum as ndarray's `sum` makes it of values that lie side by side: eight running sums, one for each place of a
/// block of eight, folded together in a fixed order; then the values after the last whole block, rising.
pub fn eight_lane_sum(values: &[f64]) -> f64 {
    let blocks = values.chunks_exact(8);
    let rest = blocks.remainder();
    let mut lanes = [0.0; 8];
    for block in blocks {
        for (lane, v) in lanes.iter_mut().zip(block) {
            *lane += v;
        }
    }
    let folded = (0..4).fold(0.0, |sum, i| sum + (lanes[i] + lanes[i + 4]));
    rest.iter().fold(folded, |sum, v| sum + v)
}

/// Compares both sums of `length` random numbers from [0, 1).
fn compare_sums(length: usize, seed: u64) -> Difference {
    let mut random = SplitMix64::new(seed);
    let mut found = Difference::default();
    for _ in 0..SUMS {
        let values: Vec<f64> = (0..length).map(|_| random.unit()).collect();
        found.count(rising_sum(&values), eight_lane_sum(&values));
    }
    found
}

/// One line of the report: what was measured, and what came out.
pub type Line = (&'static str, Difference);

/// exp against the usual library.
fn exp_lines() -> Vec<Line> {
    let library: fn(f64) -> f64 = f64::exp;
    vec![
        ("exp, [-1, 0]", compare(exp, library, 101, |r| -r.unit())),
        ("exp, [-40, 0]", compare(exp, library, 102, |r| -40.0 * r.unit())),
        ("exp, [0, 9]", compare(exp, library, 103, |r| 9.0 * r.unit())),
        (
            "exp, [-708, 709]",
            compare(exp, library, 104, |r| 1417.0 * r.unit() - 708.0),
        ),
        (
            "exp, [-745.2, -708]",
            compare(exp, library, 107, |r| -708.0 - 37.2 * r.unit()),
        ),
        (
            "exp, [-745, -708]",
            compare(exp, library, 105, |r| -708.0 - 37.0 * r.unit()),
        ),
        (
            "exp, [-745.2, -745]",
            compare(exp, library, 106, |r| -745.0 - 0.2 * r.unit()),
        ),
    ]
}

/// ln against the usual library.
fn ln_lines() -> Vec<Line> {
    let library: fn(f64) -> f64 = f64::ln;
    vec![
        ("ln, (0, 1)", compare(ln, library, 201, inner_unit)),
        ("ln, (0, 0.01)", compare(ln, library, 202, |r| 0.01 * inner_unit(r))),
        ("ln, [1, 2)", compare(ln, library, 203, |r| 1.0 + r.unit())),
        (
            "ln, finite and above 0, random bits",
            compare(ln, library, 204, any_positive),
        ),
    ]
}

/// The rising sum against the sum in eight lanes.
fn sum_lines() -> Vec<Line> {
    vec![
        ("sum of 7 values", compare_sums(7, 301)),
        ("sum of 8 values", compare_sums(8, 302)),
        ("sum of 91 values", compare_sums(91, 303)),
        ("sum of 4096 values", compare_sums(4096, 304)),
    ]
}

/// All measurements, in the order of the report.
pub fn lines() -> Vec<Line> {
    [exp_lines(), ln_lines(), sum_lines()].concat()
}

/// The report as the rows of a table.
pub fn report() -> String {
    let mut text =
        String::from("| what | pairs | unequal | share | largest distance in ulps |\n|---|---|---|---|---|\n");
    for (what, found) in lines() {
        text.push_str(&format!("| {what} | {found} |\n"));
    }
    text
}

#[cfg(test)]
mod tests {
    use super::*;

    #[test]
    fn distances_in_ulps() {
        assert_eq!(ulps_apart(1.0, 1.0), 0);
        assert_eq!(ulps_apart(1.0, f64::from_bits(1.0_f64.to_bits() + 3)), 3);
        assert_eq!(ulps_apart(0.0, -0.0), 0);
        assert_eq!(ulps_apart(f64::from_bits(1), -f64::from_bits(1)), 2);
        assert_eq!(ulps_apart(f64::NAN, 1.0), u64::MAX);
    }

    #[test]
    fn the_two_sums_of_tenths() {
        let tenths = [0.1, 0.2, 0.3, 0.4, 0.5, 0.6, 0.7, 0.8];
        assert_eq!(rising_sum(&tenths).to_bits(), 0x400C_CCCC_CCCC_CCCC);
        assert_eq!(eight_lane_sum(&tenths).to_bits(), 0x400C_CCCC_CCCC_CCCD);
    }

    #[test]
    fn short_sums_are_equal() {
        assert_eq!(compare_sums(7, 1).unequal, 0);
        assert_ne!(compare_sums(8, 1).unequal, 0);
    }
}
