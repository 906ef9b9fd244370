//! The lists for the sums of the divergence: over pairs and over links, with altered areas among them.

use super::gradient::{affinity, coordinate, listed, EXAGGERATIONS, KINDS};
use crate::divergence::Map;
use crate::gradient::Exact;
use crate::scatter::SplitMix64;

/// What an altered area may hold.
const ALTERED: [f64; 10] = [
    f64::NAN,
    f64::INFINITY,
    f64::NEG_INFINITY,
    -1.0,
    -0.0,
    5e-324,
    1e-320,
    1e300,
    f64::MAX,
    2.0,
];

/// One value in eight is an altered one, where the case is altered.
fn perhaps(random: &mut SplitMix64, altered: bool, value: f64) -> f64 {
    if altered && random.next() % 8 == 0 {
        ALTERED[(random.next() % 10) as usize]
    } else {
        value
    }
}

/// So many coordinates of a kind, some of them altered.
fn places(random: &mut SplitMix64, kind: usize, altered: bool, count: usize) -> Vec<f64> {
    (0..count)
        .map(|_| {
            let v = coordinate(random, kind % KINDS);
            perhaps(random, altered, v)
        })
        .collect()
}

/// n, c, exaggeration, total, positions, affinities, then the figure.
pub fn pairs_cases() -> Vec<Vec<u64>> {
    let mut random = SplitMix64::new(171);
    let mut found = Vec::new();
    let mut kind = 0;
    for c in 1..=8 {
        for n in 2..=12 {
            for exaggeration in EXAGGERATIONS {
                found.push(pairs_case(&mut random, kind, n, c, exaggeration));
                kind += 1;
            }
            kind += n % 2;
        }
    }
    found
}

fn pairs_case(random: &mut SplitMix64, kind: usize, n: usize, c: usize, exaggeration: f64) -> Vec<u64> {
    let altered = kind % 3 == 2;
    let positions = places(random, kind, altered, n * c);
    let affinities: Vec<f64> = (0..n * n)
        .map(|_| {
            let v = affinity(random, n);
            perhaps(random, altered, v)
        })
        .collect();
    let true_total = Exact {
        n,
        c,
        exaggeration,
        positions: &positions,
        affinities: &affinities,
    }
    .total();
    let total = perhaps(random, altered, true_total);
    let map = Map {
        n,
        c,
        positions: &positions,
        exaggeration,
    };
    let mut words = vec![n as u64, c as u64, exaggeration.to_bits(), listed(total)];
    words.extend(positions.iter().chain(&affinities).map(|&v| listed(v)));
    words.push(listed(map.dense(&affinities, total)));
    words
}

/// n, c, Z, exaggeration, number of links, positions, offsets, indices, weights, then the figure.
pub fn links_cases() -> Vec<Vec<u64>> {
    let mut random = SplitMix64::new(172);
    let mut found = Vec::new();
    for kind in 0..216 {
        let n = 2 + kind % 31;
        let c = 1 + kind % 3;
        found.push(links_case(&mut random, kind, n, c, EXAGGERATIONS[kind / 3 % 2]));
    }
    found
}

fn links_case(random: &mut SplitMix64, kind: usize, n: usize, c: usize, exaggeration: f64) -> Vec<u64> {
    let altered = kind % 4 == 3;
    let positions = places(random, kind, altered, n * c);
    let (mut offsets, mut indices, mut weights) = (vec![0_u32], Vec::new(), Vec::new());
    for _ in 0..n {
        // None to six links, at times to the frame itself.
        for _ in 0..random.next() % 7 {
            indices.push((random.next() % n as u64) as u32);
            let weight = affinity(random, n);
            weights.push(perhaps(random, altered, weight));
        }
        offsets.push(indices.len() as u32);
    }
    let z = match random.next() % 6 {
        0 => f64::EPSILON,
        1 if altered => f64::INFINITY,
        _ => random.unit() * (n * n) as f64,
    };
    let map = Map {
        n,
        c,
        positions: &positions,
        exaggeration,
    };
    let figure = map.over_lists(&offsets, &indices, &weights, z);
    let head = [
        n as u64,
        c as u64,
        z.to_bits(),
        exaggeration.to_bits(),
        indices.len() as u64,
    ];
    let mut words = head.to_vec();
    words.extend(positions.iter().map(|&v| listed(v)));
    words.extend(offsets.iter().chain(&indices).map(|&k| u64::from(k)));
    words.extend(weights.iter().map(|&v| listed(v)));
    words.push(listed(figure));
    words
}

#[cfg(test)]
mod tests {
    use super::*;

    /// How many figures are finite and not 0, 0, infinite, NaN.
    fn told(cases: &[Vec<u64>]) -> [usize; 4] {
        let mut told = [0; 4];
        for case in cases {
            let figure = f64::from_bits(case[case.len() - 1]);
            let which = if figure.is_nan() {
                3
            } else if figure.is_infinite() {
                2
            } else {
                usize::from(figure == 0.0)
            };
            told[which] += 1;
        }
        told
    }

    #[test]
    fn sizes_and_what_is_met() {
        let (pairs, links) = (pairs_cases(), links_cases());
        assert_eq!(pairs.len(), 8 * 11 * 2);
        for case in &pairs {
            let (n, c) = (case[0] as usize, case[1] as usize);
            assert_eq!(case.len(), 5 + n * c + n * n);
        }
        for case in &links {
            let (n, c, m) = (case[0] as usize, case[1] as usize, case[4] as usize);
            assert!(n <= 64 && m <= 400);
            assert_eq!(case.len(), 7 + n * c + n + 2 * m);
        }
        for cases in [&pairs, &links] {
            assert!(8 * cases.concat().len() < 278_528);
            let told = told(cases);
            assert!(told[0] > cases.len() / 2 && told[2] > 3 && told[3] > 0, "{told:?}");
        }
    }
}
