//! Blind frames: what holds of tables at random, and the committed lists, replayed by the format of tests/README.md; a flipped answer is
//! noticed.

#[path = "replay/cases.rs"]
mod listed;
#[path = "replay/marks.rs"]
mod marks;

use listed::{cases, Reader};
use marks::{marked_numbers, marked_values};
use oracle::blind::{blind, blind_words, is_blind, Lent, Sight};
use oracle::descent::{Method, Settings};
use oracle::preparation::Table;
use oracle::scatter::SplitMix64;

const LISTS: [&str; 2] = ["replay_blind/data/searches.words", "replay_blind/data/refusals.words"];

/// What is given of a case, and where its answer begins.
struct Given {
    settings: Vec<u64>,
    table: Vec<f64>,
    lengths: Vec<u64>,
    answer: usize,
}

fn given(case: &[u64]) -> Given {
    let mut words = Reader(case);
    let count = words.one();
    let settings = words.many(count);
    let count = words.one();
    let table = words.values(count);
    let lengths = words.many(5);
    Given {
        settings,
        table,
        lengths,
        answer: case.len() - words.0.len(),
    }
}

/// What is told of a case, and every area afterwards.
fn told(case: &[u64]) -> Vec<u64> {
    let Given {
        settings,
        table,
        lengths,
        ..
    } = given(case);
    let mut lent = Lent {
        squares: marked_values(lengths[0]),
        values: marked_values(lengths[1]),
        shares: marked_values(lengths[2]),
        indices: marked_numbers(lengths[3]),
    };
    let mut answer: Vec<u64> = (0..lengths[4]).map(|i| (1 << 62) + i).collect();
    let mut told = vec![blind_words(&settings, &table, &mut lent, &mut answer)];
    told.extend(answer);
    for row in [&lent.squares, &lent.values, &lent.shares] {
        told.extend(row.iter().map(|value| value.to_bits()));
    }
    told.extend(lent.indices.iter().map(|&index| u64::from(index)));
    told
}

#[test]
fn the_lists_are_right() {
    for list in LISTS {
        for (number, case) in cases(list).iter().enumerate() {
            assert!(told(case) == case[given(case).answer..], "{list}, case {number}");
        }
    }
}

#[test]
fn a_flipped_answer_is_noticed() {
    for list in LISTS {
        for mut case in cases(list) {
            let (told, at) = (told(&case), given(&case).answer);
            for place in at..case.len() {
                case[place] ^= 1;
                assert!(told != case[at..], "{list}, {place}");
                case[place] ^= 1;
            }
            case.push(0);
            assert!(told != case[at..], "{list}, a word more");
        }
    }
}

fn settings(n: usize, f: usize, method: Method, perplexity: f64) -> Settings {
    Settings {
        n,
        f,
        c: 2,
        method,
        perplexity,
        rate: 50.0,
        iterations: 1000,
        angle: 0.5,
        minimum: 0.0,
    }
}

fn seen(settings: &Settings, table: &[f64]) -> Sight {
    let n = settings.n;
    let mut lent = Lent {
        squares: vec![1.0; n],
        values: vec![1.0; n],
        shares: vec![1.0; n],
        indices: vec![1; n],
    };
    blind(settings, table, &mut lent).expect("a good table")
}

/// The least distance of two frames at different places.
fn least_apart(table: &[f64], f: usize) -> f64 {
    let squared = |one: &[f64], other: &[f64]| one.iter().zip(other).map(|(a, b)| (a - b) * (a - b)).sum::<f64>();
    let all = table
        .chunks(f)
        .flat_map(|one| table.chunks(f).map(move |other| squared(one, other)));
    all.filter(|&d| d > 0.0).fold(f64::INFINITY, f64::min).sqrt()
}

/// Whether all weights of a list, or of a row of the matrix, but the frame's own, are those of equal shares: what a preparation makes of
/// frames that are all blind.
fn equal_weights(settings: &Settings, table: &[f64]) -> bool {
    let Settings { n, f, perplexity, .. } = *settings;
    let values = Table { n, f, values: table };
    match settings.method {
        Method::Exact => {
            let all = values.exact(perplexity);
            let others = |e: &usize| e / n != e % n;
            (0..n * n).filter(others).all(|e| all[e] == all[1])
        }
        Method::BarnesHut => {
            let lists = values.lists(perplexity);
            let one = lists[0][0].1;
            // A link that one of the two names weighs half of one that both name.
            let is_one = |weight: f64| weight == one || weight == 2.0 * one || 2.0 * weight == one;
            lists.iter().flatten().all(|link| is_one(link.1))
        }
    }
}

#[test]
fn what_is_counted_of_any_table() {
    let mut random = SplitMix64::new(77);
    let (mut all, mut some, mut none, mut apart) = (0, 0, 0, 0);
    for turn in 0..900 {
        let n = 3 + random.next() as usize % 23;
        let f = 1 + random.next() as usize % 4;
        let width = [0.5, 3.0, 12.0, 40.0, 1e5][turn % 5];
        let mut table: Vec<f64> = (0..n * f).map(|_| (random.unit() - 0.5) * width).collect();
        // Repeats among them.
        for i in 1..n {
            if random.next() % 4 == 0 {
                table.copy_within((i - 1) * f..i * f, i * f);
            }
        }
        let method = [Method::Exact, Method::BarnesHut][turn % 2];
        let perplexity = 1.0 + random.unit() * (n as f64 / 3.0);
        let perplexity = perplexity.min(0.9 * (n - 1) as f64);
        let settings = settings(n, f, method, perplexity);
        let Sight { blind, alone } = seen(&settings, &table);
        assert!(alone <= blind && blind <= n);
        if blind == n {
            assert!(equal_weights(&settings, &table), "all are blind: {table:?}");
            all += 1;
        } else if blind > 0 {
            some += 1;
        } else {
            none += 1;
        }
        // Where any two places are more than 8 apart all are blind. A power of two leaves the same frames alone.
        let factor = 2.0_f64.powi(19 - width.max(1.0).log2().ceil() as i32);
        let far: Vec<f64> = table.iter().map(|value| value * factor).collect();
        if least_apart(&far, f) > 8.0 {
            assert_eq!(seen(&settings, &far), Sight { blind: n, alone });
            apart += 1;
        }
    }
    assert!(all > 100 && some > 100 && none > 100, "{all} {some} {none}");
    assert!(apart > 300, "{apart}");
}

#[test]
fn a_row_of_one_distance() {
    // Asked for more neighbours than there are, sigma grows until it sees the one.
    assert!(!is_blind(&[1e15], 1.5) && is_blind(&[0.0], 1.5));
    for (d, blind) in [(0.0, true), (5e-324, false), (36.8, false), (36.9, true), (1e15, true)] {
        assert_eq!(is_blind(&[d], 1.0), blind, "{d}");
    }
}
