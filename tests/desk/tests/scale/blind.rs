//! Blind frames against the independent implementation: how many there are, and how many of them are alone. After each call number, both
//! words and every place of answer and rows, tails included, have to be the same on both sides, values by their bits.

use crate::case::{numbers, values};
use crate::met::{all_met, meet, Met};
use crate::random::Random;
use crate::{each_seed, setting};
use brothanchor::{blind, blind_words, sizes, Method, Refusal, Settings, Sight, SightRows};
use oracle::blind::{blind_words as blind_by_the_text, Lent};
use std::time::Instant;

/// What is lent but for the settings.
#[derive(Clone, Debug)]
struct Given {
    table: Vec<f64>,
    /// How long squares, values, shares and indices are, and the answer.
    rows: [usize; 4],
    answer: usize,
}

/// A table of n frames with rows and an answer that are a little longer than asked for, or not.
fn given(random: &mut Random, table: Vec<f64>, n: usize) -> Given {
    let rows = [n; 4].map(|length| length + random.below(3));
    Given {
        table,
        rows,
        answer: 2 + random.below(3),
    }
}

/// Counts on both sides, and compares all that is left; both counts, or the number of the refusal.
fn count_both(settings: &[u64], given: &Given) -> Result<Sight, u32> {
    let [squares, row, shares, indices] = given.rows;
    let mut ours = SightRows {
        squares: values(squares),
        values: values(row),
        shares: values(shares),
        indices: numbers(indices),
    };
    let mut theirs = Lent {
        squares: ours.squares.clone(),
        values: ours.values.clone(),
        shares: ours.shares.clone(),
        indices: ours.indices.clone(),
    };
    let marks: Vec<u64> = (0..given.answer as u64).map(|place| u64::MAX - place).collect();
    let (mut answer, mut wanted) = (marks.clone(), marks.clone());
    let before = ours.clone();
    let table = given.table.clone();
    let told = blind_words(settings, &table, &mut ours, &mut answer);
    let number = blind_by_the_text(settings, &given.table, &mut theirs, &mut wanted);
    assert_eq!(told.map_or_else(|Refusal(number)| number, |()| 0), number as u32);
    assert_eq!(answer, wanted);
    assert!(same(&table, &given.table), "the table is only read");
    assert!(same(&ours.squares, &theirs.squares) && same(&ours.values, &theirs.values));
    assert!(same(&ours.shares, &theirs.shares) && ours.indices == theirs.indices);
    if told.is_err() {
        assert!(same(&ours.squares, &before.squares) && same(&ours.values, &before.values));
        assert!(same(&ours.shares, &before.shares) && ours.indices == before.indices);
        assert_eq!(answer, marks, "refused, the answer is as it was");
        return Err(number as u32);
    }
    Ok(Sight {
        blind: answer[0] as usize,
        alone: answer[1] as usize,
    })
}

/// By their bits.
fn same(one: &[f64], other: &[f64]) -> bool {
    one.len() == other.len() && one.iter().zip(other).all(|(a, b)| a.to_bits() == b.to_bits())
}

/// Settings of n frames; what a count does not look at may be bad.
fn settings(random: &mut Random, n: usize) -> Settings {
    let few = random.between(0.2, 60.0).min(n as f64 * 0.999);
    let most = f64::from_bits((n as f64).to_bits() - 1);
    Settings {
        n,
        f: if random.once_in(20) { 256 } else { random.within(1, 8) },
        c: random.one_of(&[0, 1, 2, 9]),
        method: random.one_of(&[Method::Exact, Method::BarnesHut]),
        perplexity: random.one_of(&[few, few, few.max(1.0).min(most), most]),
        rate: random.odd_value(),
        iterations: random.below(3),
        angle: random.odd_value(),
        minimum: random.odd_value(),
    }
}

/// How frames may lie, by name.
const KINDS: [&str; 8] = [
    "near",
    "at the bound",
    "clusters",
    "repeats",
    "on a grid",
    "all at one place",
    "to the ends of the domain",
    "rounded away",
];

fn table(random: &mut Random, n: usize, f: usize, kind: &str) -> Vec<f64> {
    // The width at which about half of the frames see.
    let wide = random.between(1.0, 40.0);
    let heaps: Vec<f64> = (0..5 * f).map(|_| random.unit() * 50.0).collect();
    let mut table: Vec<f64> = (0..n * f)
        .map(|place| {
            let (i, d, value) = (place / f, place % f, random.unit() - 0.5);
            match kind {
                "near" => value * 4.0,
                "at the bound" | "repeats" => value * wide * n as f64 / f as f64,
                "clusters" => heaps[(i % 5) * f + d] + value * random.one_of(&[0.1, 12.0]),
                "on a grid" => (value * 6.0).round() * 3.0,
                "all at one place" => heaps[d],
                "to the ends of the domain" => (value * 2_097_152.0).clamp(-1_048_576.0, 1_048_576.0),
                _ => 1_048_575.0 + value * 1e-4,
            }
        })
        .collect();
    if kind == "repeats" {
        for i in 1..n {
            if random.once_in(2) {
                table.copy_within((i - 1) * f..i * f, i * f);
            }
        }
    }
    table
}

/// Tables of each kind, as they are and multiplied by powers of two.
fn counted(random: &mut Random, met: &mut Met) {
    let n = random.within(2, 40);
    let settings = settings(random, n);
    let route = if settings.method == Method::Exact {
        "exact"
    } else {
        "tree"
    };
    for kind in KINDS {
        let mut given = {
            let table = table(random, n, settings.f, kind);
            given(random, table, n)
        };
        for factor in [1.0, 0.125] {
            given.table.iter_mut().for_each(|value| *value *= factor);
            let Sight { blind, alone } = count_both(&settings.words(), &given).expect("a good table");
            assert!(alone <= blind && blind <= n);
            let of = |count: usize| match count {
                0 => "none",
                _ if count == n => "all",
                _ => "some",
            };
            meet(met, format!("{route}: {} blind", of(blind)));
            meet(met, format!("{route}: {} alone", of(alone)));
            meet(met, kind);
        }
    }
}

#[test]
fn tables_of_every_kind() {
    let met = each_seed("blind frames", setting("BROTHANCHOR_RUNS", 300), counted);
    let mut wanted: Vec<String> = KINDS.iter().map(ToString::to_string).collect();
    for route in ["exact", "tree"] {
        for count in ["none", "some", "all"] {
            wanted.push(format!("{route}: {count} blind"));
            wanted.push(format!("{route}: {count} alone"));
        }
    }
    all_met(&met, wanted);
}

/// One thing that a count refuses, or nearly so.
fn spoil(random: &mut Random, settings: &mut Vec<u64>, given: &mut Given) {
    let n = settings[0] as usize;
    match random.below(11) {
        0 => settings.truncate(random.below(9)),
        1 => settings[3] = random.one_of(&[2, 7, u64::MAX]),
        2 => settings[4] = random.odd_value().to_bits(),
        3 => settings[4] = (n as f64).to_bits(),
        4 => settings[0] = random.odd_number(n as u64),
        5 => settings[1] = random.odd_number(settings[1]),
        6 => drop(given.table.pop()),
        7 if !given.table.is_empty() => {
            let place = random.below(given.table.len());
            given.table[place] = random.odd_value();
        }
        8 => {
            settings[0] = 1;
            given.table.truncate(settings[1] as usize);
        }
        9 => {
            let row = &mut given.rows[random.below(4)];
            *row = n.min(*row).saturating_sub(1);
        }
        _ => given.answer = random.below(2),
    }
}

/// A good call with one thing spoiled, then with another too, while the words are still settings.
fn refused(random: &mut Random, met: &mut Met) {
    let n = random.within(2, 12);
    let settings = settings(random, n);
    let mut words = settings.words().to_vec();
    let kind = random.one_of(&KINDS);
    let mut given = {
        let table = table(random, n, settings.f, kind);
        given(random, table, n)
    };
    for _ in 0..3 {
        if words.len() < 9 {
            break;
        }
        spoil(random, &mut words, &mut given);
        let number = count_both(&words, &given).err().unwrap_or(0);
        meet(met, number.to_string());
        // Longer words are read as the nine at their front are.
        let more = [&words[..], &[random.word()]].concat();
        if words.len() >= 9 {
            assert_eq!(count_both(&more, &given).err().unwrap_or(0), number);
        }
    }
}

#[test]
fn refusals_of_a_count() {
    let met = each_seed(
        "refused counts",
        setting("BROTHANCHOR_RUNS", 300).saturating_mul(4),
        refused,
    );
    all_met(&met, [0, 2, 7, 8, 9, 10, 12, 21].map(|number| number.to_string()));
}

/// Every two of the faults at once, in the order of their tests: the earlier one is told.
#[test]
fn the_order_of_the_tests() {
    let mut random = Random::new(setting("BROTHANCHOR_SEED", 1));
    let numbers = [21, 2, 7, 8, 9, 10, 12, 12];
    for (first, &number) in numbers.iter().enumerate() {
        for second in first..numbers.len() {
            let good = Settings {
                n: 4,
                f: 2,
                perplexity: 1.5,
                ..settings(&mut random, 4)
            };
            let mut words = good.words();
            let mut given = Given {
                table: table(&mut random, 4, 2, "near"),
                rows: [4; 4],
                answer: 2,
            };
            // A single frame comes first, since it sets the table's length.
            for fault in [4, 7, 6, 5, 3, 2, 1, 0] {
                if fault != first && fault != second {
                    continue;
                }
                match fault {
                    0 => words[3] = 2,
                    1 => words[4] = f64::NAN.to_bits(),
                    2 => given.table.push(0.0),
                    3 => given.table[0] = f64::INFINITY,
                    4 => {
                        words[0] = 1;
                        given.table.truncate(2);
                    }
                    5 => words[4] = 4.0_f64.to_bits(),
                    6 => given.rows[first % 4] = 0,
                    _ => given.answer = 1,
                }
            }
            assert_eq!(count_both(&words, &given), Err(number), "{first} and {second}");
        }
    }
}

/// Each row and the answer at every length about what is asked for.
#[test]
fn rows_of_every_length() {
    let mut random = Random::new(setting("BROTHANCHOR_SEED", 1));
    for n in [2, 5, 33] {
        let settings = Settings {
            perplexity: 1.5,
            ..settings(&mut random, n)
        };
        let full = Given {
            table: table(&mut random, n, settings.f, "at the bound"),
            rows: [n; 4],
            answer: 2,
        };
        let sight = count_both(&settings.words(), &full).expect("a good table");
        for length in [0, 1, n - 1, n, n + 1, n + 40] {
            for which in 0..4 {
                let mut other = full.clone();
                other.rows[which] = length;
                let wanted = if length < n { Err(12) } else { Ok(sight) };
                assert_eq!(
                    count_both(&settings.words(), &other),
                    wanted,
                    "row {which}: {length} of {n}"
                );
            }
        }
        for answer in 0..5 {
            let other = Given { answer, ..full.clone() };
            let wanted = if answer < 2 { Err(12) } else { Ok(sight) };
            assert_eq!(count_both(&settings.words(), &other), wanted, "{answer} words");
        }
    }
}

/// The most frames and the most features that there may be, and one more.
#[test]
fn the_largest_tables() {
    let good = Settings {
        n: 4096,
        f: 1,
        c: 2,
        method: Method::BarnesHut,
        perplexity: 1.0,
        rate: 50.0,
        iterations: 1,
        angle: 0.5,
        minimum: 0.0,
    };
    // Along a line: each has its nearest at 1 on one side and at 5 on the other, so that it sees.
    let table: Vec<f64> = (0..4096).map(|i| f64::from(i / 2 * 6 + i % 2)).collect();
    let told = blind(&good.words(), &table, &mut SightRows::new(4096));
    assert_eq!(told, Ok(Sight { blind: 0, alone: 0 }));
    let far: Vec<f64> = table.iter().map(|value| value * 32.0).collect();
    let told = blind(&good.words(), &far, &mut SightRows::new(4096));
    assert_eq!(told, Ok(Sight { blind: 4096, alone: 0 }));
    let told = blind(&good.words(), &[0.5; 4096], &mut SightRows::new(4096));
    assert_eq!(
        told,
        Ok(Sight {
            blind: 4096,
            alone: 4096
        })
    );
    for (n, f, wanted) in [(4097, 1, 7), (2, 257, 7), (2, 256, 0)] {
        let other = Settings { n, f, ..good };
        let told = blind(&other.words(), &vec![0.0; n * f], &mut SightRows::new(n));
        assert_eq!(told.map_or_else(|Refusal(number)| number, |_| 0), wanted, "{n} {f}");
    }
}

/// A count takes about as long as a preparation: both look at the same distances and make the same searches.
#[test]
#[ignore = "times: a full side counted, by both methods"]
fn times_of_a_full_side_that_is_counted() {
    let mut random = Random::new(1);
    let n = 4096;
    for method in [Method::BarnesHut, Method::Exact] {
        let settings = Settings {
            n,
            f: 6,
            c: 2,
            method,
            perplexity: 30.0,
            rate: 85.0,
            iterations: 1,
            angle: 0.5,
            minimum: 0.0,
        };
        let asked = sizes(&settings).expect("good settings");
        for kind in ["near", "clusters", "to the ends of the domain"] {
            let table = table(&mut random, n, 6, kind);
            let mut rows = SightRows::new(n);
            let begun = Instant::now();
            let sight = blind(&settings.words(), &table, &mut rows).expect("a good table");
            let counted = begun.elapsed().as_secs_f64();
            let mut areas = brothanchor::Areas::new(&asked, 1);
            let mut lent = brothanchor::Rows::new(&asked);
            let start = vec![0.0; 2 * n];
            let begun = Instant::now();
            brothanchor::prepare(&settings.words(), &table, &start, &mut areas, &mut lent).expect("a good table");
            let prepared = begun.elapsed().as_secs_f64();
            println!(
                "{method:?} {n} {kind}: {sight:?} counted in {:.1} ms, prepared in {:.1} ms",
                1000.0 * counted,
                1000.0 * prepared
            );
            assert!(counted < 2.0 * prepared, "{kind}: {counted} s, {prepared} s");
        }
    }
}
