//! Frames along one line: what is handed out of runs at random, and the committed list, replayed by the format of tests/README.md; a
//! flipped answer is noticed.

#[path = "replay/marks.rs"]
mod marks;
#[path = "replay/reading.rs"]
mod reading;

use marks::{marked_numbers, marked_values};
use oracle::descent::{Areas, Method, Record, Rows, Settings, Standing};
use oracle::lists::strip::{barred, BEYOND, LARGEST, WIDER};
use oracle::scatter::SplitMix64;
use oracle::strip::{hand_out, in_profile, prepare_strip, Refusal, WIDEST};
use oracle::tree::Node;
use reading::{cases, record, Reader};

const LIST: &str = "replay_strip/data/strip.words";

/// Whether a case is right.
fn right(case: &[u64]) -> bool {
    let mut words = Reader(case);
    let record = record(&words.many(14));
    let lengths = words.many(8);
    let (order, gaps) = (words.one(), words.one());
    let areas = words.areas(&lengths, vec![f64::NAN; lengths[6] as usize]);
    let (mut order, mut gaps) = (marked_numbers(order), marked_values(gaps));
    let mut answer = match hand_out(&record, &areas, &mut order, &mut gaps) {
        Ok(frames) => vec![0, frames as u64],
        Err(refusal) => vec![refusal.number(), refusal.place()],
    };
    answer.extend(order.iter().map(|&frame| u64::from(frame)));
    answer.extend(gaps.iter().map(|gap| gap.to_bits()));
    answer == words.0
}

#[test]
fn the_list_is_right() {
    for (number, case) in cases(LIST).iter().enumerate() {
        assert!(right(case), "case {number}");
    }
}

#[test]
fn a_flipped_answer_is_noticed() {
    for mut case in cases(LIST) {
        let answer = 24 + case[14..20].iter().sum::<u64>() as usize;
        for place in answer..case.len() {
            case[place] ^= 1;
            assert!(!right(&case), "{place}");
            case[place] ^= 1;
        }
        case.push(0);
        assert!(!right(&case), "a word more");
    }
}

fn settings(n: usize) -> Settings {
    Settings {
        n,
        f: 2,
        c: 1,
        method: Method::BarnesHut,
        perplexity: 0.5,
        rate: 50.0,
        iterations: 300,
        angle: WIDEST,
        minimum: 1e-7,
    }
}

/// A finished run whose frames stand there.
fn run(positions: &[f64]) -> (Record, Areas) {
    let n = positions.len();
    let settings = settings(n);
    let record = Record {
        settings,
        standing: Standing::Finished,
        done: 300,
        phase: 0,
        units: 300 * settings.iteration(),
        used: 7,
    };
    (record, areas(&settings, positions))
}

fn areas(settings: &Settings, positions: &[f64]) -> Areas {
    let n = settings.n;
    Areas {
        positions: positions.to_vec(),
        increments: vec![0.0; n],
        gains: vec![1.0; n],
        affinities: vec![0.0; settings.links()],
        indices: vec![0; settings.links()],
        offsets: vec![0; n + 1],
        forces: vec![0.0; 3 * n],
        nodes: vec![Node::default()],
    }
}

/// Positions of a kind: wide apart, close together, with many ties, zeros of both signs, at the ends of what there may be.
fn place(random: &mut SplitMix64, kind: usize) -> f64 {
    let (unit, turn) = (random.unit() - 0.5, random.next() as usize);
    match kind {
        0 => unit,
        1 => f64::from_bits(random.next() % 40) * if unit < 0.0 { -1.0 } else { 1.0 },
        2 => (unit * 8.0).round(),
        3 => [0.0, -0.0][turn % 2],
        _ => [LARGEST, -LARGEST, 0.0, -0.0, unit * LARGEST, unit][turn % 6],
    }
}

#[test]
fn what_is_handed_out_of_any_run() {
    let mut random = SplitMix64::new(17);
    let (mut ties, mut negative) = (0, 0);
    for turn in 0..3000 {
        let n = if turn % 100 == 0 {
            1024
        } else {
            2 + random.next() as usize % 40
        };
        let positions: Vec<f64> = (0..n).map(|_| place(&mut random, turn % 5)).collect();
        let (record, areas) = run(&positions);
        let (mut order, mut gaps) = (vec![u32::MAX; n + 2], vec![f64::NAN; n + 3]);
        assert_eq!(hand_out(&record, &areas, &mut order, &mut gaps), Ok(n));

        let mut there = vec![false; n];
        order[..n].iter().for_each(|&frame| there[frame as usize] = true);
        assert!(there.iter().all(|&once| once), "every frame exactly once");
        assert_eq!(gaps[0].to_bits(), 0, "the first has the gap +0.0");
        for place in 1..n {
            let [a, b] = [order[place - 1], order[place]].map(|frame| positions[frame as usize]);
            assert!(a < b || (a == b && order[place - 1] < order[place]), "{a} and {b}");
            assert_eq!(gaps[place].to_bits(), (b - a).to_bits());
            ties += usize::from(a == b);
            negative += usize::from(gaps[place].to_bits() == 1 << 63);
        }
        assert!(
            order[n..] == [u32::MAX; 2] && gaps[n..].iter().all(|gap| gap.is_nan()),
            "tails"
        );
    }
    assert!(ties > 1000 && negative > 100, "{ties} ties, {negative} gaps of −0.0");
}

#[test]
fn a_few_by_hand() {
    let told = |positions: &[f64]| {
        let (record, areas) = run(positions);
        let (mut order, mut gaps) = (vec![9; positions.len()], vec![9.0; positions.len()]);
        hand_out(&record, &areas, &mut order, &mut gaps)
            .map(|_| (order, gaps.iter().map(|gap| gap.to_bits()).collect()))
    };
    let bits = |gaps: &[f64]| gaps.iter().map(|gap| gap.to_bits()).collect::<Vec<u64>>();
    assert_eq!(
        told(&[2.0, -1.0, 2.0, 0.5]),
        Ok((vec![1, 3, 0, 2], bits(&[0.0, 1.5, 1.5, 0.0])))
    );
    assert_eq!(told(&[0.0, -0.0, 0.0]), Ok((vec![0, 1, 2], bits(&[0.0, -0.0, 0.0]))));
    assert_eq!(
        told(&[LARGEST, -LARGEST]),
        Ok((vec![1, 0], bits(&[0.0, 2.0 * LARGEST])))
    );
    for barred in barred() {
        for positions in [[barred, 0.0], [0.0, barred]] {
            assert_eq!(told(&positions), Err(Refusal::Barred), "{barred}");
        }
    }
    let next = |value: f64| f64::from_bits(value.to_bits() + 1);
    assert_eq!((LARGEST, BEYOND, WIDER), (2_f64.powi(100), next(LARGEST), next(WIDEST)));
}

#[test]
fn the_profile_from_both_sides() {
    let good = settings(1024);
    assert!(in_profile(&good) && in_profile(&Settings { angle: -0.0, ..good }));
    for outside in [
        Settings { n: 1025, ..good },
        Settings { c: 2, ..good },
        Settings { angle: WIDER, ..good },
        Settings {
            method: Method::Exact,
            angle: 0.0,
            ..good
        },
    ] {
        assert!(!in_profile(&outside), "{outside:?}");
    }
}

/// What preparing the run of a strip tells of n frames, with one thing altered.
fn prepared(n: usize, alter: impl Fn(&mut Settings, &mut Vec<f64>, &mut Areas)) -> Result<Record, u64> {
    let mut settings = settings(n);
    let mut areas = areas(&settings, &vec![9.0; n]);
    let (table, mut start) = (vec![0.5; 2 * n], vec![0.25; n]);
    let mut rows = Rows {
        values: vec![9.0; n],
        indices: vec![9; n],
    };
    alter(&mut settings, &mut start, &mut areas);
    let before = areas.clone();
    let told = prepare_strip(settings, &table, &start, &mut areas, &mut rows);
    assert_eq!(told.is_err(), areas == before && rows.values == vec![9.0; n]);
    told
}

#[test]
fn preparing_tests_the_profile_after_11_and_before_12() {
    let record = prepared(4, |_, _, _| ()).expect("a run of the profile");
    assert_eq!((record.settings, record.units), (settings(4), 0));
    assert_eq!(prepared(4, |settings, _, _| settings.angle = WIDER), Err(20));
    assert_eq!(prepared(4, |settings, _, _| settings.method = Method::Exact), Err(20));
    assert_eq!(prepared(4, |settings, _, _| settings.angle = 1.0), Err(5));
    assert!(prepared(1024, |_, _, _| ()).is_ok());
    assert_eq!(prepared(1025, |_, _, _| ()), Err(20));
    let start = |settings: &mut Settings, start: &mut Vec<f64>, _: &mut Areas| {
        settings.angle = WIDER;
        start[0] = f64::NAN;
    };
    assert_eq!(prepared(4, start), Err(11));
    let short = |settings: &mut Settings, _: &mut Vec<f64>, areas: &mut Areas| {
        settings.angle = WIDER;
        areas.gains.truncate(3);
    };
    assert_eq!(prepared(4, short), Err(20));
    assert_eq!(prepared(4, |_, _, areas| areas.gains.truncate(3)), Err(12));
    let both = |settings: &mut Settings, start: &mut Vec<f64>, _: &mut Areas| {
        settings.c = 2;
        start.extend([0.0; 4]);
    };
    assert_eq!(prepared(4, both), Err(20));
}
