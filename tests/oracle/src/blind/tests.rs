//! What is blind and what is alone, by hand; the tests in their order.

use super::*;
use crate::elementary::DOMAIN;
use crate::preparation::sigma_search;
use crate::scatter::SplitMix64;

const METHODS: [Method; 2] = [Method::Exact, Method::BarnesHut];

fn settings(n: usize, f: usize, method: Method, perplexity: f64) -> Settings {
    // What is not looked at is bad.
    Settings {
        n,
        f,
        c: 0,
        method,
        perplexity,
        rate: f64::NAN,
        iterations: 0,
        angle: 7.0,
        minimum: f64::NAN,
    }
}

/// Rows of this many places, none of them zero.
fn lent(length: usize) -> Lent {
    Lent {
        squares: vec![1.5; length],
        values: vec![f64::NAN; length],
        shares: vec![-0.0; length],
        indices: vec![9; length],
    }
}

/// What is counted of frames with f features each.
fn seen(f: usize, table: &[f64], method: Method, perplexity: f64) -> Result<[usize; 2], u64> {
    let n = table.len() / f;
    let mut rows = lent(n + 1);
    let before = rows.clone();
    let told = blind(&settings(n, f, method, perplexity), table, &mut rows);
    assert_eq!(
        told.is_err(),
        same(&rows, &before),
        "the rows change where it is not refused"
    );
    if told.is_ok() {
        let Lent {
            squares,
            values,
            shares,
            indices,
        } = &rows;
        for row in [squares, values, shares] {
            assert!(row[..n].iter().all(|value| value.to_bits() == 0));
        }
        assert!(indices[..n] == vec![0; n] && indices[n] == 9, "{indices:?}");
        assert!(
            squares[n] == 1.5 && values[n].is_nan() && shares[n].to_bits() == 1 << 63,
            "tails"
        );
    }
    told.map(|Sight { blind, alone }| [blind, alone])
}

/// By their bits.
fn same(one: &Lent, other: &Lent) -> bool {
    let bits = |values: &[f64]| values.iter().map(|value| value.to_bits()).collect::<Vec<u64>>();
    bits(&one.squares) == bits(&other.squares)
        && bits(&one.values) == bits(&other.values)
        && bits(&one.shares) == bits(&other.shares)
        && one.indices == other.indices
}

fn at_random(random: &mut SplitMix64, count: usize, width: f64) -> Vec<f64> {
    (0..count).map(|_| random.unit() * width).collect()
}

#[test]
fn near_frames_see_and_far_ones_do_not() {
    let mut random = SplitMix64::new(3);
    for method in METHODS {
        let table = at_random(&mut random, 40 * 2, 4.0);
        assert_eq!(seen(2, &table, method, 5.0), Ok([0, 0]), "{method:?}");
        let far: Vec<f64> = table.iter().map(|value| value * 4096.0).collect();
        assert_eq!(seen(2, &far, method, 5.0), Ok([40, 0]), "{method:?}");
    }
}

#[test]
fn coincident_frames_are_alone_and_blind() {
    for method in METHODS {
        assert_eq!(seen(1, &[7.0; 6], method, 2.0), Ok([6, 6]), "{method:?}");
        assert_eq!(
            seen(3, &[0.0, -0.0, 0.0, -0.0, 0.0, -0.0], method, 1.0),
            Ok([2, 2]),
            "{method:?}"
        );
    }
    // Six at one place and one beside them: by the exact method each of the six has a neighbour; the four nearest are at their own place.
    // The one beside them has only neighbours that are equally near, so that no sigma gives it a perplexity of 1.
    let table = [1.0, 1.0, 1.0, 1.0, 1.0, 1.0, 1.5];
    assert_eq!(seen(1, &table, Method::Exact, 1.0), Ok([1, 0]));
    assert_eq!(seen(1, &table, Method::BarnesHut, 1.0), Ok([7, 6]));
    // The one beside them far off: all are blind by the exact method too, and none is alone.
    let table = [1.0, 1.0, 1.0, 1.0, 1.0, 1.0, 1e4];
    assert_eq!(seen(1, &table, Method::Exact, 1.0), Ok([7, 0]));
    assert_eq!(seen(1, &table, Method::BarnesHut, 1.0), Ok([7, 6]));
}

/// Two frames: the one neighbour weighs exp(-d/2) in the first round.
#[test]
fn the_bound_of_a_single_neighbour() {
    for method in METHODS {
        for (apart, blind) in [(6.0, 0), (6.069, 0), (6.072, 2), (7.0, 2), (2.0 * DOMAIN, 2)] {
            let table = [-apart / 2.0, apart / 2.0];
            assert_eq!(seen(1, &table, method, 1.0), Ok([blind, 0]), "{apart} {method:?}");
        }
    }
    assert_eq!(LEAST_SUM, 1e-8);
    assert!(is_blind(&[2.0 * 18.43], 1.0) && !is_blind(&[2.0 * 18.42], 1.0));
}

/// Neighbours that are equally far: with sigma at 1 their perplexity is too high, and with half of it they weigh too little.
#[test]
fn blind_in_a_later_round() {
    let sums = |distances: &[f64], perplexity| -> Vec<f64> {
        rounds_by(exp, distances, perplexity)
            .iter()
            .map(|round| round.1)
            .collect()
    };
    let rounds = sums(&[30.0; 5], 2.0);
    assert!(rounds[0] > LEAST_SUM && rounds[1] < LEAST_SUM && rounds.len() == 50);
    assert!(is_blind(&[30.0; 5], 2.0) && !is_blind(&[30.0; 5], 5.0));
    // At random: those that see at first and not at last, and that no search that was blind once sees again.
    let mut random = SplitMix64::new(8);
    let (mut later, mut seeing) = (0, 0);
    for _ in 0..4000 {
        let (near, count) = (random.unit() * 60.0, 2 + random.next() as usize % 9);
        let row: Vec<f64> = (0..count).map(|_| near + random.unit() * 8.0).collect();
        let perplexity = 1.0 + random.unit() * (count as f64 - 1.0);
        let rounds = sums(&row, perplexity);
        let (first, last) = (rounds[0] < LEAST_SUM, rounds[rounds.len() - 1] < LEAST_SUM);
        let once = rounds.iter().any(|&sum| sum < LEAST_SUM);
        assert_eq!(last, once, "{row:?} {perplexity}");
        assert_eq!(last, is_blind(&row, perplexity));
        later += usize::from(last && !first);
        seeing += usize::from(!last);
    }
    assert!(later > 50 && seeing > 500, "{later} later, {seeing} see");
}

/// Where a search is blind all its shares are 1/length.
#[test]
fn blind_rows_are_filled() {
    let mut random = SplitMix64::new(9);
    let mut blind = 0;
    for _ in 0..2000 {
        let (width, count) = (
            [1.0, 40.0, 400.0][random.next() as usize % 3],
            1 + random.next() as usize % 12,
        );
        let row = at_random(&mut random, count, width);
        let perplexity = random.unit() * count as f64;
        if is_blind(&row, perplexity) {
            assert_eq!(sigma_search(&row, perplexity), vec![1.0 / count as f64; count]);
            blind += 1;
        }
    }
    assert!((200..1800).contains(&blind), "{blind}");
}

/// No perplexity below 0.99999 is met: a frame ends blind, however near its neighbours are, unless 50 rounds are too few for them.
#[test]
fn a_perplexity_below_1() {
    for method in METHODS {
        let table = [0.0, 0.5, 1.5, 3.5, 7.5];
        assert_eq!(seen(1, &table, method, 0.5), Ok([5, 0]), "{method:?}");
        assert_eq!(seen(1, &table, method, 1.5), Ok([0, 0]), "{method:?}");
        assert_eq!(seen(1, &table, method, 0.999_98), Ok([5, 0]), "{method:?}");
        assert_eq!(seen(1, &[0.0, 1.0], method, 0.999_995), Ok([0, 0]), "{method:?}");
        assert_eq!(seen(1, &[0.0, 1e-16], method, 0.5), Ok([0, 0]), "{method:?}");
    }
}

#[test]
fn the_order_of_the_tests() {
    let spoil = |settings: &mut Settings, table: &mut Vec<f64>, rows: &mut Lent, fault: usize| match fault {
        0 => settings.perplexity = [0.0, -1.0, f64::NAN, f64::INFINITY][table.len() % 4],
        1 => drop(table.pop()),
        2 => table[0] = [f64::NAN, DOMAIN * 1.000_001, f64::NEG_INFINITY][rows.values.len() % 3],
        3 => {
            settings.n = 1;
            table.truncate(settings.f);
        }
        4 => settings.perplexity = 5.0,
        _ => drop(rows.shares.pop()),
    };
    let numbers = [2, 7, 8, 9, 10, 12];
    for (first, &number) in numbers.iter().enumerate() {
        for second in first..6 {
            let mut given = settings(5, 2, Method::BarnesHut, 1.5);
            let (mut table, mut rows) = (vec![0.25; 10], lent(5));
            // One frame has no perplexity that is too high and no short row; a table that is too short has its own length.
            for fault in [3, 1, 2, 4, 5, 0] {
                if fault == first || fault == second {
                    spoil(&mut given, &mut table, &mut rows, fault);
                }
            }
            if first == 3 && second == 5 {
                rows.shares.clear();
            }
            let before = rows.clone();
            assert_eq!(blind(&given, &table, &mut rows), Err(number), "{first} and {second}");
            assert!(same(&rows, &before));
        }
    }
}

#[test]
fn the_limits() {
    let told = |n: usize, f: usize, perplexity: f64| {
        let table = vec![0.0; n.min(5000) * f.min(300)];
        blind(
            &settings(n, f, Method::BarnesHut, perplexity),
            &table,
            &mut lent(n.min(5000)),
        )
    };
    assert_eq!(told(0, 1, 1.0), Err(7));
    assert_eq!(told(4097, 1, 1.0), Err(7));
    assert_eq!(told(usize::MAX, 1, 1.0), Err(7));
    assert_eq!(told(3, 0, 1.0), Err(7));
    assert_eq!(told(3, 257, 1.0), Err(7));
    assert_eq!(told(3, usize::MAX, 1.0), Err(7));
    assert_eq!(told(3, 256, 1.0), Ok(Sight { blind: 3, alone: 3 }));
    assert_eq!(told(1, 1, 0.5), Err(9));
    assert_eq!(told(1, 1, 5.0), Err(9));
    assert_eq!(told(3, 1, 3.0), Err(10));
    assert_eq!(told(3, 1, 2.9999), Ok(Sight { blind: 3, alone: 3 }));
    let good = settings(2, 1, Method::Exact, 1.0);
    assert!(blind(&good, &[DOMAIN, -DOMAIN], &mut lent(2)).is_ok());
}

#[test]
fn words() {
    let words = |method: u64| [3, 1, 0, method, 1.5_f64.to_bits(), 0, 0, 0, 0, 77];
    let table = [0.0, 1.0, 1e5];
    for length in 0..9 {
        assert_eq!(
            blind_words(&words(0)[..length], &[], &mut lent(0), &mut []),
            21,
            "{length}"
        );
    }
    for method in [2, 3, u64::MAX] {
        assert_eq!(blind_words(&words(method), &table, &mut lent(3), &mut [0; 2]), 21);
    }
    let mut answer = [7; 4];
    for (method, counts) in [(0, [1, 0]), (1, [1, 0])] {
        assert_eq!(blind_words(&words(method), &table, &mut lent(3), &mut answer), 0);
        assert_eq!(answer[..2], counts);
        assert_eq!(answer[2..], [7, 7]);
    }
    for short in 0..2 {
        let (mut rows, mut answer) = (lent(3), vec![7; short]);
        assert_eq!(blind_words(&words(1), &table, &mut rows, &mut answer), 12);
        assert!(same(&rows, &lent(3)) && answer.iter().all(|&word| word == 7));
        assert_eq!(blind_words(&words(1), &table[..2], &mut rows, &mut answer), 7);
    }
}
