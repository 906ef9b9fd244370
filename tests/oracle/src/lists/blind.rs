//! The lists of blind frames: tables that are searched by both routes, and calls that are refused. Every value is listed by its bits.
//!
//! A case is, in words:
//!
//! | words | hold |
//! |---|---|
//! | 1 | the number of words of the case, this one included |
//! | 1 | how many words of settings there are, then these |
//! | 1 | how long the table is, then its values |
//! | 5 | how long the areas are: squares, row values, row shares, row indices, answer |
//! | 1 | the number that is answered |
//! | as many | the answer afterwards, then squares, row values, row shares and row indices |
//!
//! Before the call every area is marks: place i of the answer, and of the values by their bits, holds 4000000000000000 + i, place i of
//! the indices 40000000 + i, in hex. There are at most 12 words of settings, 150 values, 32 places in a row and 4 in the answer.

use super::descent::{marked_numbers, marks};
use super::park::{below, counted, one_of};
use crate::blind::{blind_words, Lent};
use crate::elementary::DOMAIN;
use crate::scatter::SplitMix64;

/// The most that may be lent: words of settings, values of a table, places of a row, words of an answer.
const MOST: [usize; 4] = [12, 150, 32, 4];
/// The words of settings, and where perplexity and method stand.
const SETTINGS: usize = 9;
const METHOD: usize = 3;
const PERPLEXITY: usize = 4;
/// The methods by their words.
const EXACT: u64 = 0;
const BARNES_HUT: u64 = 1;
/// The squared distance at which a single neighbour weighs 1e-8 in the first round: 2·ln 10^8.
const BOUND: f64 = 36.841_361_487_904_73;

/// What is lent.
#[derive(Clone, Debug)]
struct Call {
    settings: Vec<u64>,
    table: Vec<f64>,
    /// How long squares, values, shares and indices are, and the answer.
    rows: [usize; 4],
    answer: usize,
}

impl Call {
    /// A table of frames of f features each, with rows and an answer that are just long enough. What is not looked at may be anything.
    fn new(random: &mut SplitMix64, method: u64, f: usize, perplexity: f64, table: Vec<f64>) -> Call {
        let n = table.len() / f;
        let mut settings: Vec<u64> = (0..SETTINGS).map(|_| any(random)).collect();
        settings[0] = n as u64;
        settings[1] = f as u64;
        settings[METHOD] = method;
        settings[PERPLEXITY] = perplexity.to_bits();
        Call {
            settings,
            table,
            rows: [n; 4],
            answer: 2,
        }
    }

    /// With more settings, longer rows and a longer answer, by chance.
    fn longer(mut self, random: &mut SplitMix64) -> Call {
        for _ in 0..below(random, 4) {
            self.settings.push(random.next());
        }
        for length in &mut self.rows {
            *length = (*length + one_of(random, &[0, 0, 1, 5, 32])).min(MOST[2]);
        }
        self.answer += below(random, 3);
        self
    }

    /// Everything given, what is told, and every area afterwards.
    fn case(&self) -> Vec<u64> {
        let [squares, values, shares, indices] = self.rows;
        let mut lent = Lent {
            squares: marks(squares),
            values: marks(values),
            shares: marks(shares),
            indices: marked_numbers(indices),
        };
        let mut answer: Vec<u64> = (0..self.answer as u64).map(|i| (1 << 62) + i).collect();
        let number = blind_words(&self.settings, &self.table, &mut lent, &mut answer);
        let mut words = vec![self.settings.len() as u64];
        words.extend(&self.settings);
        words.push(self.table.len() as u64);
        words.extend(self.table.iter().map(|value| value.to_bits()));
        words.extend(self.rows.map(|length| length as u64));
        words.extend([self.answer as u64, number]);
        words.extend(answer);
        for row in [&lent.squares, &lent.values, &lent.shares] {
            words.extend(row.iter().map(|value| value.to_bits()));
        }
        words.extend(lent.indices.iter().map(|&index| u64::from(index)));
        counted(words)
    }
}

/// A word that is not looked at: an ordinary one, or any bits at all.
fn any(random: &mut SplitMix64) -> u64 {
    let word = random.next();
    one_of(random, &[0, 1, 2, 1000, 0.5_f64.to_bits(), f64::NAN.to_bits(), word])
}

/// How the frames of a table lie, by name.
const KINDS: [&str; 11] = [
    "near",
    "far",
    "a few far off",
    "at one place",
    "at a few places",
    "repeats far apart",
    "about at the bound",
    "equally far",
    "to the ends of the domain",
    "zeros",
    "rounded away",
];

/// n frames of f features.
fn table(random: &mut SplitMix64, kind: &str, n: usize, f: usize) -> Vec<f64> {
    let mut table = Vec::new();
    for i in 0..n {
        let place = one_of(random, &[0.0, 1.0, 2.0]);
        let off = if i % 4 == 3 { 1e3 * (i + 1) as f64 } else { 0.0 };
        for d in 0..f {
            let wide = random.unit() - 0.5;
            table.push(match kind {
                "near" => wide * 4.0,
                "far" => wide * 4e4 + i as f64 * 50.0,
                "a few far off" => wide + off,
                "at one place" => 1.25,
                "at a few places" => place * 0.75,
                "repeats far apart" => place * 100.0,
                // Along a line, each about as far from the next as a neighbour may be.
                "about at the bound" if d == 0 => i as f64 * (BOUND.sqrt() + wide * 0.7),
                "about at the bound" => 0.0,
                // In as many directions as there are features; a squared distance of 30 from each to any other, or twice that.
                "equally far" if d == i % f => (if i / f % 2 == 0 { 1.0 } else { -1.0 }) * 15.0_f64.sqrt(),
                "equally far" => 0.0,
                "to the ends of the domain" => one_of(random, &[DOMAIN, -DOMAIN, wide * DOMAIN]),
                "zeros" => one_of(random, &[0.0, -0.0]),
                _ => 1e6 + wide * 1e-4,
            });
        }
    }
    table
}

/// Perplexities from below 1, which none meets, to just below the number of frames.
fn perplexity(random: &mut SplitMix64, turn: usize, n: usize) -> f64 {
    let most = f64::from_bits((n as f64).to_bits() - 1);
    match turn % 5 {
        0 => 1.0 + random.unit() * (n as f64 / 3.0),
        1 => 1.0,
        2 => (1.0 + random.unit()).min(most),
        3 => one_of(random, &[most, 0.5, random_below_1(turn)]),
        _ => (random.unit() * n as f64).max(0.75),
    }
}

fn random_below_1(turn: usize) -> f64 {
    [1e-300, 0.3, 0.999][turn % 3]
}

/// Tables of each kind, by both routes.
fn of_each_kind(random: &mut SplitMix64) -> Vec<Call> {
    let mut found = Vec::new();
    let mut turn = 0;
    for kind in KINDS {
        for n in [2, 3, 5, 7, 10, 16, 24] {
            let f = 1 + turn % 6;
            let perplexity = perplexity(random, turn / 2, n);
            let values = table(random, kind, n, f);
            let method = if (turn + n) % 2 == 0 { EXACT } else { BARNES_HUT };
            found.push(Call::new(random, method, f, perplexity, values).longer(random));
            turn += 1;
        }
    }
    found
}

/// Two frames whose distance lies next to the bound, on both sides of it.
fn at_the_bound(random: &mut SplitMix64) -> Vec<Call> {
    let mut found = Vec::new();
    for step in [-40_000_000_i64, -8, -2, -1, 0, 1, 2, 8, 40_000_000] {
        let apart = f64::from_bits((BOUND.sqrt().to_bits() as i64 + step) as u64);
        let method = one_of(random, &[EXACT, BARNES_HUT]);
        found.push(Call::new(random, method, 1, 1.0, vec![0.0, apart]));
    }
    found
}

/// Six frames along six axes, equally far from each other: each sees its neighbours in the first round, and is blind in a later one unless
/// so many count. With one of them nearer, some see to the end.
fn in_a_later_round(random: &mut SplitMix64) -> Vec<Call> {
    let mut found = Vec::new();
    for method in [EXACT, BARNES_HUT] {
        for perplexity in [1.5, 2.5, 5.0] {
            let values = table(random, "equally far", 6, 6);
            found.push(Call::new(random, method, 6, perplexity, values.clone()));
            let mut nearer = values;
            nearer[7] *= 0.5;
            nearer[6] = 2.0;
            found.push(Call::new(random, method, 6, perplexity, nearer));
        }
    }
    found
}

/// Ten frames at one place, four at another and six by themselves, near and far: the four nearest of the ten are at their own place.
fn in_heaps(random: &mut SplitMix64) -> Vec<Call> {
    let mut found = Vec::new();
    for method in [EXACT, BARNES_HUT] {
        for perplexity in [1.0, 1.9, 3.0, 6.5] {
            for wide in [1.5, 40.0] {
                let mut values = vec![0.25; 20];
                values[10..14].fill(0.25 + wide);
                for (i, value) in values[14..].iter_mut().enumerate() {
                    *value += wide * (i as f64 + random.unit());
                }
                found.push(Call::new(random, method, 1, perplexity, values).longer(random));
            }
        }
    }
    found
}

/// Calls that are answered.
pub fn search_cases() -> Vec<Vec<u64>> {
    let mut random = SplitMix64::new(331);
    let random = &mut random;
    let all = [
        of_each_kind(random),
        at_the_bound(random),
        in_a_later_round(random),
        in_heaps(random),
    ];
    all.concat().iter().map(Call::case).collect()
}

/// A good call of four frames.
fn good(random: &mut SplitMix64) -> Call {
    let method = one_of(random, &[EXACT, BARNES_HUT]);
    let values = table(random, "near", 4, 2);
    Call::new(random, method, 2, 1.5, values)
}

/// Words that are no settings.
fn no_settings(random: &mut SplitMix64) -> Vec<Call> {
    let mut found = Vec::new();
    for length in 0..SETTINGS {
        let mut call = good(random);
        call.settings.truncate(length);
        found.push(call);
    }
    for method in [2, 3, 1 << 32, u64::MAX] {
        let mut call = good(random).longer(random);
        call.settings[METHOD] = method;
        found.push(call);
    }
    found
}

/// Perplexities, numbers of frames and features, and lengths of a table that there may not be.
fn bad_settings(random: &mut SplitMix64) -> Vec<Call> {
    let mut found = Vec::new();
    let signalling = f64::from_bits(0xfff0_0000_0000_0001);
    for bad in [0.0, -0.0, -1.5, f64::NAN, signalling, f64::INFINITY, f64::NEG_INFINITY] {
        let mut call = good(random).longer(random);
        call.settings[PERPLEXITY] = bad.to_bits();
        found.push(call);
    }
    for (place, word) in [
        (0, 0),
        (0, 3),
        (0, 5),
        (0, 4097),
        (0, 1 << 63),
        (0, u64::MAX),
        (1, 0),
        (1, 1),
        (1, 257),
        (1, 1 << 62),
        (1, u64::MAX),
    ] {
        let mut call = good(random).longer(random);
        call.settings[place] = word;
        found.push(call);
    }
    // Products that would wrap around to the table's length.
    for (n, f) in [(1 << 32, 1 << 32), (1 << 61, 8), ((1 << 61) + 1, 8)] {
        let mut call = good(random);
        call.settings[..2].copy_from_slice(&[n, f]);
        found.push(call.clone());
        call.table.clear();
        found.push(call);
    }
    for length in [0, 1, 7, 9, 16, MOST[1]] {
        let mut call = good(random);
        call.table.resize(length, 0.5);
        found.push(call);
    }
    // The largest tables that there may be, with values for a few frames only.
    for (n, f) in [(4096, 1), (3, 256), (4096, 256)] {
        let mut call = good(random);
        call.settings[..2].copy_from_slice(&[n, f]);
        found.push(call);
    }
    found
}

/// A value of the table that is outside the domain; a single frame; perplexities that are not below the number of frames.
fn bad_tables(random: &mut SplitMix64) -> Vec<Call> {
    let mut found = Vec::new();
    let beyond = f64::from_bits(DOMAIN.to_bits() + 1);
    let signalling = f64::from_bits(0x7ff0_0000_0000_0001);
    for (place, bad) in [
        f64::NAN,
        signalling,
        f64::INFINITY,
        f64::NEG_INFINITY,
        beyond,
        -beyond,
        f64::MAX,
    ]
    .into_iter()
    .enumerate()
    {
        let mut call = good(random);
        call.table[place] = bad;
        found.push(call);
    }
    for (perplexity, f) in [(0.5, 1), (1.0, 2), (7.0, 6)] {
        let method = one_of(random, &[EXACT, BARNES_HUT]);
        found.push(Call::new(random, method, f, perplexity, vec![0.5; f]));
    }
    for perplexity in [4.0, f64::from_bits(4.0_f64.to_bits() + 1), 30.0, f64::MAX] {
        let mut call = good(random).longer(random);
        call.settings[PERPLEXITY] = perplexity.to_bits();
        found.push(call);
    }
    found
}

/// Each area one short, and empty; the others are longer.
fn short_areas(random: &mut SplitMix64) -> Vec<Call> {
    let mut found = Vec::new();
    for which in 0..4 {
        for length in [3, 0] {
            let mut call = good(random).longer(random);
            call.rows[which] = length;
            found.push(call);
        }
    }
    for length in 0..2 {
        let mut call = good(random).longer(random);
        call.answer = length;
        found.push(call);
    }
    found
}

/// How many faults there are.
const FAULTS: usize = 8;
/// Their numbers.
#[cfg(test)]
const NUMBERS: [u64; FAULTS] = [21, 2, 7, 8, 9, 10, 12, 12];

/// The faults in the order of their tests: the words, the perplexity, the table's length, a value, a single frame, too high a perplexity,
/// a short row and a short answer.
fn spoil(call: &mut Call, fault: usize) {
    match fault {
        0 => call.settings[METHOD] = 2,
        1 => call.settings[PERPLEXITY] = f64::NAN.to_bits(),
        2 => call.table.push(0.0),
        3 => call.table[1] = f64::NAN,
        4 => {
            call.settings[0] = 1;
            call.table.truncate(2);
            call.rows = [1; 4];
        }
        5 => call.settings[PERPLEXITY] = 4.0_f64.to_bits(),
        6 => call.rows[1] = 0,
        _ => call.answer = 1,
    }
}

/// Each fault alone, and every two at once.
fn faults(random: &mut SplitMix64) -> Vec<Call> {
    let mut found = Vec::new();
    for first in 0..FAULTS {
        for second in first..FAULTS {
            let mut call = good(random);
            // A single frame comes first, since it sets lengths that others alter.
            if first == 4 || second == 4 {
                spoil(&mut call, 4);
            }
            for fault in [second, first] {
                if fault != 4 {
                    spoil(&mut call, fault);
                }
            }
            found.push(call);
        }
    }
    found
}

/// Calls that are refused.
pub fn refusal_cases() -> Vec<Vec<u64>> {
    let mut random = SplitMix64::new(332);
    let random = &mut random;
    let all = [
        no_settings(random),
        bad_settings(random),
        bad_tables(random),
        short_areas(random),
        faults(random),
    ];
    all.concat().iter().map(Call::case).collect()
}

#[cfg(test)]
mod tests {
    use super::*;
    use crate::elementary::exp;
    use crate::preparation::{rounds_by, Table, LEAST_SUM};
    use std::collections::BTreeMap;

    /// Where the number of a case stands.
    fn number_at(case: &[u64]) -> usize {
        let values_at = 2 + case[1] as usize;
        values_at + case[values_at] as usize + 6
    }

    /// What is told in a list, how often; every case has the room that it may have.
    fn told(cases: &[Vec<u64>]) -> BTreeMap<u64, usize> {
        assert!(8 * cases.concat().len() <= 278_520, "{}", 8 * cases.concat().len());
        let mut told = BTreeMap::new();
        for case in cases {
            let number = number_at(case);
            let lengths = &case[number - 5..number];
            let values = case[2 + case[1] as usize];
            assert!(case[1] <= MOST[0] as u64 && values <= MOST[1] as u64, "{case:?}");
            assert!(lengths[..4].iter().all(|&length| length <= MOST[2] as u64), "{case:?}");
            assert!(lengths[4] <= MOST[3] as u64, "{case:?}");
            assert_eq!(case[0], 9 + case[1] + values + lengths.iter().sum::<u64>());
            assert_eq!(case[0], case.len() as u64);
            *told.entry(case[number]).or_default() += 1;
        }
        told
    }

    #[test]
    fn what_the_searches_meet() {
        let cases = search_cases();
        assert_eq!(told(&cases), BTreeMap::from([(0, cases.len())]));
        // By each route: none blind, some, all; none alone, some, all.
        let mut met: BTreeMap<(u64, String), usize> = BTreeMap::new();
        for case in &cases {
            let (n, method) = (case[2], case[2 + METHOD]);
            assert!(n <= 24 && case[3] <= 6 && n * case[3] <= 144, "{case:?}");
            let answer = number_at(case) + 1;
            let of = |count: u64| match count {
                0 => "none",
                _ if count == n => "all",
                _ => "some",
            };
            let (blind, alone) = (case[answer], case[answer + 1]);
            assert!(alone <= blind && blind <= n);
            *met.entry((method, format!("{} blind, {} alone", of(blind), of(alone))))
                .or_default() += 1;
        }
        for method in [EXACT, BARNES_HUT] {
            for name in [
                "none blind, none alone",
                "some blind, none alone",
                "all blind, none alone",
                "all blind, all alone",
            ] {
                assert!(
                    met.get(&(method, name.to_string())) > Some(&2),
                    "{method} {name} {met:?}"
                );
            }
        }
        for name in ["some blind, some alone", "all blind, some alone"] {
            assert!(met.contains_key(&(BARNES_HUT, name.to_string())), "{name} {met:?}");
        }
    }

    /// What is counted as blind in calls.
    fn counts(calls: &[Call]) -> Vec<u64> {
        let blind = |case: Vec<u64>| case[number_at(&case) + 1];
        calls.iter().map(|call| blind(call.case())).collect()
    }

    #[test]
    fn both_sides_of_the_bound() {
        let counts = counts(&at_the_bound(&mut SplitMix64::new(5)));
        assert!(counts.windows(2).all(|two| two[0] <= two[1]), "{counts:?}");
        assert_eq!((counts[0], counts[1], counts[7]), (0, 0, 2), "{counts:?}");
    }

    #[test]
    fn rounds_that_see_before_one_that_does_not() {
        let calls = in_a_later_round(&mut SplitMix64::new(5));
        for call in &calls {
            let values = Table {
                n: 6,
                f: 6,
                values: &call.table,
            };
            for i in 0..6 {
                let sum = rounds_by(exp, &values.row(i), 1.5)[0].1;
                assert!(sum > LEAST_SUM, "the first round sees: {sum}");
            }
        }
        assert_eq!(counts(&calls), [[6, 4, 6, 0, 0, 0], [6, 4, 6, 0, 0, 0]].concat());
    }

    #[test]
    fn what_the_refusals_meet() {
        let told = told(&refusal_cases());
        for number in [2, 7, 8, 9, 10, 12, 21] {
            assert!(told.get(&number) > Some(&5), "{told:?}");
        }
        assert!(!told.contains_key(&0), "{told:?}");
    }

    #[test]
    fn the_earlier_of_two_faults_is_told() {
        let mut calls = faults(&mut SplitMix64::new(5)).into_iter();
        for (first, &number) in NUMBERS.iter().enumerate() {
            for second in first..FAULTS {
                let case = calls.next().expect("a call").case();
                assert_eq!(case[number_at(&case)], number, "{first} and {second}");
            }
        }
    }
}
