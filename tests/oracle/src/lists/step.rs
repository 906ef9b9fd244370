//! The list for the step: signs and zero products, gains at the floor, values around 2^100, and what is refused.

use super::gradient::listed;
use crate::elementary::CALM;
use crate::scatter::SplitMix64;
use crate::step::Moving;

/// The two momenta of a run.
const MOMENTA: [f64; 2] = [0.5, 0.8];
/// Learning rates.
const RATES: [f64; 5] = [200.0, 5.0, 1.0, 1e-3, 1e4];
/// Kinds of values that the areas hold before the step.
const KINDS: usize = 9;
/// Gains at the floor and around it, before and after the change.
const GAINS: [f64; 12] = [
    0.01, 0.0125, 0.012, 0.0, -0.0, -0.19, -0.2, -0.21, -1.0, 0.009, 0.013, 5e-324,
];

/// n, c, momentum, rate, gradient, positions, increments, gains, the answer, then positions, increments and gains.
pub fn cases() -> Vec<Vec<u64>> {
    let mut random = SplitMix64::new(91);
    let mut found = Vec::new();
    let mut turn = 0;
    for c in 1..=8 {
        for n in 1..=12 {
            found.push(case(&mut random, turn % KINDS, turn, n, c));
            turn += 1;
        }
        // So that every size of every number of components meets other kinds.
        turn += 1;
    }
    for kind in 0..KINDS {
        for n in 1..=3 {
            for c in 1..=3 {
                for _ in 0..4 {
                    found.push(case(&mut random, kind, turn, n, c));
                    turn += 1;
                }
            }
        }
    }
    found
}

/// One of the values, by chance.
fn one_of(random: &mut SplitMix64, values: &[f64]) -> f64 {
    values[(random.next() % values.len() as u64) as usize]
}

/// A value or one of the numbers next to it, with either sign.
fn around(random: &mut SplitMix64, v: f64) -> f64 {
    let near = f64::from_bits(v.to_bits() + random.next() % 3 - 1);
    if random.next() % 2 == 0 {
        near
    } else {
        -near
    }
}

/// Gradient, position, increment and gain of one element before the step.
fn element(random: &mut SplitMix64, kind: usize, momentum: f64) -> [f64; 4] {
    let gradient = (random.unit() - 0.5) * 4.0;
    let position = (random.unit() - 0.5) * 10.0;
    let increment = (random.unit() - 0.5) * 2.0;
    let gain = random.unit() * 3.0 + 0.01;
    match kind {
        0 => [gradient, position, increment, gain],
        1 => {
            let zero = one_of(random, &[0.0, -0.0]);
            let (g, v) = [(zero, increment), (gradient, zero), (zero, zero)][(random.next() % 3) as usize];
            [g, position, v, gain]
        }
        2 => [gradient, position, increment.copysign(gradient), gain],
        3 => [gradient, position, increment.copysign(-gradient), gain],
        4 => [gradient, position, increment, one_of(random, &GAINS)],
        // Products that are not finite, or so small that they are zero.
        5 => {
            let small = one_of(random, &[1e-200, -1e-200]);
            let large = one_of(random, &[1e25, -1e25]);
            let g = one_of(random, &[small, large]);
            [g, position, one_of(random, &[small, large]), gain]
        }
        // Positions and gains around 2^100, nothing moves them.
        6 => [0.0, around(random, CALM), 0.0, one_of(random, &[1.0, gain, CALM])],
        // Increments that come out around 2^100.
        7 => {
            let v = around(random, CALM / momentum);
            [0.0, position, one_of(random, &[v, increment, increment]), gain]
        }
        _ => {
            let bad = one_of(random, &[f64::NAN, f64::INFINITY, f64::NEG_INFINITY, 1e300]);
            let mut values = [gradient, position, increment, gain];
            if random.next() % 4 == 0 {
                values[(random.next() % 5 % 4) as usize] = bad;
            }
            values
        }
    }
}

/// One step and what it leaves.
fn case(random: &mut SplitMix64, kind: usize, turn: usize, n: usize, c: usize) -> Vec<u64> {
    let momentum = MOMENTA[(turn / 2) % 2];
    let rate = RATES[turn % RATES.len()];
    let mut elements: Vec<[f64; 4]> = (0..n * c).map(|_| element(random, kind, momentum)).collect();
    if kind == 6 {
        // Frames that lie opposite each other keep the mean at zero.
        for e in 0..n / 2 * c {
            elements[(n - 1) * c - e / c * c + e % c][1] = -elements[e][1];
        }
        if random.next() % 2 == 0 {
            for e in &mut elements {
                e[1] = e[1].clamp(-CALM, CALM);
            }
        }
        if n % 2 == 1 {
            for e in 0..c {
                elements[n / 2 * c + e][1] = 0.0;
            }
        }
    }
    let column = |k: usize| -> Vec<f64> { elements.iter().map(|e| e[k]).collect() };
    let gradient = column(0);
    let mut moving = Moving {
        positions: column(1),
        increments: column(2),
        gains: column(3),
    };
    let mut words = vec![n as u64, c as u64, momentum.to_bits(), rate.to_bits()];
    words.extend(gradient.iter().map(|&v| listed(v)));
    extend(&mut words, &moving);
    let answer = moving.step(c, momentum, rate, &gradient);
    words.push(answer);
    extend(&mut words, &moving);
    words
}

/// Positions, increments and gains, one after the other.
fn extend(words: &mut Vec<u64>, moving: &Moving) {
    for values in [&moving.positions, &moving.increments, &moving.gains] {
        words.extend(values.iter().map(|&v| listed(v)));
    }
}

#[cfg(test)]
mod tests {
    use super::*;

    #[test]
    fn sizes_and_what_is_met() {
        let cases = cases();
        assert!(8 * cases.concat().len() < 300_000);
        let (mut done, mut refused, mut at_the_bound, mut at_the_floor) = (0, 0, 0, 0);
        for case in &cases {
            let m = (case[0] * case[1]) as usize;
            assert_eq!(case.len(), 5 + 7 * m);
            let (before, after) = (&case[4 + m..4 + 4 * m], &case[5 + 4 * m..]);
            if case[4 + 4 * m] == 0 {
                done += 1;
                at_the_bound += usize::from(after.contains(&CALM.to_bits()));
                at_the_floor += usize::from(after[2 * m..].contains(&0.01_f64.to_bits()));
            } else {
                refused += 1;
                assert_eq!(before, after);
            }
        }
        assert!(done > 200 && refused > 50, "{done} {refused}");
        assert!(at_the_bound > 10 && at_the_floor > 10, "{at_the_bound} {at_the_floor}");
    }
}
