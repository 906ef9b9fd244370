//! Lists for request 2026-05: exp from -708 down to -745, and rows and tables with weights from there.

use crate::elementary::{exp, ln, raised_exp, L, LOWEST, LOWEST_NORMAL};
use crate::lists::preparation::{exact_case, lists_case};
use crate::preparation::{sigma_search, Table};
use crate::scatter::SplitMix64;

/// How many arguments on either side of a cut.
const DENSE: u64 = 1_500;
/// The values of k below -708.
const EXPONENTS: std::ops::RangeInclusive<i32> = -1075..=-1021;
/// How many random arguments each k has.
const EACH: usize = 40;
/// The steps from one small subnormal to the next that are all listed.
const SMALL: u64 = 600;
/// How many arguments there are in all.
const ALL: usize = 20_500;

/// Pairs of argument and exp.
pub fn exp_cases() -> Vec<Vec<u64>> {
    let mut random = SplitMix64::new(61);
    let mut arguments = [cut(LOWEST_NORMAL), cut(LOWEST)].concat();
    for k in EXPONENTS {
        let around = (0..EACH).map(|_| ((f64::from(k) + random.unit() - 0.5) * f64::from_bits(L)).to_bits());
        arguments.extend(around);
    }
    arguments.extend((0..=52).flat_map(|place| near_step(1 << place, 5)));
    arguments.extend((1..=SMALL).flat_map(|m| near_step(m, 2)));
    for place in 10..52 {
        for _ in 0..8 {
            let m = (1 << place) + random.next() % (1 << place);
            arguments.extend(near_step(m, 2));
        }
    }
    arguments.extend(ties(&mut random));
    let left = ALL - arguments.len();
    arguments.extend((0..left).map(|_| (-708.0 - 37.2 * random.unit()).to_bits()));
    arguments
        .iter()
        .map(|&bits| vec![bits, exp(f64::from_bits(bits)).to_bits()])
        .collect()
}

/// The arguments around a cut, without a gap.
fn cut(x: f64) -> Vec<u64> {
    (x.to_bits() - DENSE..=x.to_bits() + DENSE).collect()
}

/// The arguments around the one from which on, going up, exp is at least m of the smallest numbers: just below it lie
/// those that are rounded down at the half, just above it those that are rounded up.
fn near_step(m: u64, reach: u64) -> Vec<u64> {
    // A larger pattern is a lower argument.
    let (mut reached, mut below) = (LOWEST_NORMAL.to_bits(), LOWEST.to_bits() + 1);
    while below - reached > 1 {
        let middle = reached + (below - reached) / 2;
        if exp(f64::from_bits(middle)).to_bits() >= m {
            reached = middle;
        } else {
            below = middle;
        }
    }
    (reached - reach..=reached + reach).collect()
}

/// How many digits of t·2^k lie below the smallest number, and the digits of t.
fn dropped(x: f64) -> (i64, u64) {
    let bits = raised_exp(x).to_bits();
    let place = (bits >> 52) as i64 - 1023 - 64;
    (-1022 - place, bits & ((1 << 52) - 1))
}

/// Arguments whose t·2^k lies exactly in the middle of two numbers, for up to 14 dropped digits: the lower of the two even
/// (0) or odd (1).
fn ties(random: &mut SplitMix64) -> Vec<u64> {
    let mut found = Vec::new();
    for digits in 1..=14 {
        for parity in 0..2 {
            for _ in 0..4 {
                found.push(tie(random, digits, parity));
            }
        }
    }
    found
}

/// One such argument.
fn tie(random: &mut SplitMix64, digits: i64, parity: u64) -> u64 {
    loop {
        let x = (random.unit() - 1022.0 - digits as f64) * f64::from_bits(L);
        let (lost, fraction) = dropped(x);
        let half = 1 << (digits - 1);
        if x < LOWEST_NORMAL && lost == digits && fraction % (2 * half) == half && fraction >> digits & 1 == parity {
            return x.to_bits();
        }
    }
}

/// Rows of near distances with far ones among them, whose weights are from 2^-1075 to some way above 2^-1022.
pub fn rows() -> Vec<(Vec<f64>, f64)> {
    let mut random = SplitMix64::new(62);
    (0..120).map(|turn| row(&mut random, turn)).collect()
}

/// One such row, with its perplexity.
fn row(random: &mut SplitMix64, turn: usize) -> (Vec<f64>, f64) {
    // At larger scales the first weights add up to too little, and all shares are equal.
    let scale = [1.0, 1.0e-3, 10.0, 0.1][turn % 4];
    let near = 2 + turn % 11;
    let mut distances: Vec<f64> = (0..near).map(|_| (0.1 + random.unit()) * scale).collect();
    let perplexity = 1.2 + random.unit() * (near as f64 - 1.5).max(0.3);
    let unit = exponent_unit(&distances, perplexity);
    for _ in 0..1 + turn % 5 {
        let far = unit * (700.0 + 50.0 * random.unit());
        distances.insert((random.next() % (distances.len() as u64 + 1)) as usize, far);
    }
    (distances, perplexity)
}

/// The distance that makes the exponent of a weight 1: 2·sigma², from the shares of the two nearest; or of the first sigma.
fn exponent_unit(distances: &[f64], perplexity: f64) -> f64 {
    let shares = sigma_search(distances, perplexity);
    let mut places: Vec<usize> = (0..distances.len()).collect();
    places.sort_by(|&a, &b| distances[a].total_cmp(&distances[b]));
    match places[..] {
        [one, other, ..] if shares[one] > shares[other] && shares[other] > 0.0 => {
            (distances[other] - distances[one]) / ln(shares[one] / shares[other])
        }
        _ => 2.0,
    }
}

/// A table of frames in two heaps that one huge feature keeps apart. A heap is the corners of a box, so all frames of it have
/// the same distances among each other, and the weights between the heaps have exponents around -708 and -745.
pub struct Heaps {
    pub n: usize,
    pub f: usize,
    pub values: Vec<f64>,
    pub perplexity: f64,
}

impl Heaps {
    /// Heaps of 2^sides frames each.
    pub fn new(random: &mut SplitMix64, sides: usize) -> Heaps {
        let corners = 1 << sides;
        let lengths: Vec<f64> = (0..sides).map(|_| 0.5 + random.unit()).collect();
        let place = |corner: usize, side: usize| if corner >> side & 1 == 1 { lengths[side] } else { 0.0 };
        let squared = |corner: usize| (0..sides).map(|side| place(corner, side).powi(2)).sum::<f64>();
        let others: Vec<f64> = (1..corners).map(squared).collect();
        let perplexity = if sides == 1 {
            1.0
        } else {
            1.2 + random.unit() * (corners as f64 - 2.5)
        };
        let unit = exponent_unit(&others, perplexity);
        let apart = (unit * (690.0 + 60.0 * random.unit())).sqrt();
        let mut values = Vec::new();
        for frame in 0..2 * corners {
            values.extend((0..sides).map(|side| place(frame % corners, side)));
            values.push(if frame >= corners { apart } else { 0.0 });
        }
        Heaps {
            n: 2 * corners,
            f: sides + 1,
            values,
            perplexity,
        }
    }

    /// The table itself.
    pub fn table(&self) -> Table<'_> {
        Table {
            n: self.n,
            f: self.f,
            values: &self.values,
        }
    }
}

/// The tables of the list.
fn heaps() -> Vec<Heaps> {
    let mut random = SplitMix64::new(63);
    let sides = [[1; 8], [2; 8], [3; 8]].concat();
    sides
        .into_iter()
        .chain([4; 2])
        .map(|sides| Heaps::new(&mut random, sides))
        .collect()
}

/// Preparations by both routes.
pub fn preparation_cases() -> Vec<Vec<u64>> {
    let both = |heaps: &Heaps| [exact_case, lists_case].map(|case| case(&heaps.table(), heaps.perplexity));
    heaps().iter().flat_map(both).collect()
}

#[cfg(test)]
mod tests {
    use super::*;
    use crate::elementary::exponent_of_exp;
    use crate::far::cut_exp;
    use crate::preparation::{sigma_search_by, Links};
    use std::collections::{BTreeMap, BTreeSet};

    #[test]
    fn both_cuts_and_every_k_are_met() {
        let cases = exp_cases();
        assert_eq!(cases.len(), ALL);
        let mut met: BTreeMap<i64, usize> = BTreeMap::new();
        for case in &cases {
            let x = f64::from_bits(case[0]);
            if (LOWEST..LOWEST_NORMAL).contains(&x) {
                *met.entry(exponent_of_exp(x)).or_default() += 1;
            }
        }
        for k in EXPONENTS {
            assert!(met[&i64::from(k)] >= 20, "{k}");
        }
        assert_eq!(met.len(), EXPONENTS.count());
        let answer = |x: f64| cases.iter().find(|case| case[0] == x.to_bits()).map(|case| case[1]);
        let next = |x: f64, steps: i64| f64::from_bits(x.to_bits().wrapping_add_signed(steps));
        assert_eq!((answer(LOWEST), answer(next(LOWEST, 1))), (Some(1), Some(0)));
        for steps in -1..=1 {
            assert!(
                answer(next(LOWEST_NORMAL, steps)).is_some_and(|bits| bits > 0),
                "{steps}"
            );
        }
    }

    #[test]
    fn every_subnormal_power_of_two_is_met_from_both_sides() {
        let answers: BTreeSet<u64> = exp_cases().iter().map(|case| case[1]).collect();
        for place in 0..=52 {
            let power = 1 << place;
            assert!(place > 42 || answers.contains(&power), "2^{place}");
            // From 2^43 on the arguments are further apart than the numbers.
            let reach = 1 + (power >> 42);
            assert!(answers.range(power..=power + reach).next().is_some(), "2^{place}");
            assert!(
                answers.range(power - reach.min(power)..power).next().is_some(),
                "2^{place}"
            );
        }
        assert!((0..=SMALL).all(|m| answers.contains(&m)));
    }

    #[test]
    fn ties_go_to_the_even_number() {
        for bits in ties(&mut SplitMix64::new(64)) {
            assert_eq!(exp(f64::from_bits(bits)).to_bits() % 2, 0);
        }
    }

    /// How many of the one were zero where the other is not.
    fn gained(were: impl Iterator<Item = f64>, are: impl Iterator<Item = f64>) -> usize {
        were.zip(are).filter(|&(was, is)| was == 0.0 && is > 0.0).count()
    }

    #[test]
    fn weights_that_were_zero_are_met() {
        let gained_in = |(row, perplexity): &(Vec<f64>, f64)| {
            let were = sigma_search_by(cut_exp, row, *perplexity);
            gained(were.into_iter(), sigma_search(row, *perplexity).into_iter())
        };
        assert!(rows().iter().filter(|row| gained_in(row) > 0).count() >= 60);
        assert!(8 * preparation_cases().concat().len() < 275_000);
        let (mut exact, mut listed) = (0, 0);
        for Heaps {
            n,
            f,
            values,
            perplexity,
        } in heaps()
        {
            let table = Table { n, f, values: &values };
            let were = table.exact_by(cut_exp, perplexity);
            exact += gained(were.into_iter(), table.exact(perplexity).into_iter());
            let weights = |lists: Vec<Links>| lists.into_iter().flatten().map(|link| link.1);
            listed += gained(
                weights(table.lists_by(cut_exp, perplexity)),
                weights(table.lists(perplexity)),
            );
        }
        assert!(exact >= 300 && listed >= 300, "{exact} {listed}");
    }
}
