//! Tests of the divergence.

use super::*;
use crate::descent::{prepare, work, Rows};
use crate::scatter::SplitMix64;
use crate::tree::{Node, DEEPEST};

const NODE: Node = Node::unused(7.5, 9);

fn settings(method: Method, n: usize, c: usize, iterations: usize) -> Settings {
    Settings {
        n,
        f: 3,
        c,
        method,
        perplexity: 2.0_f64.min((n as f64) * 0.6),
        rate: 5.0,
        iterations,
        angle: 0.5,
        minimum: 0.0,
    }
}

/// A run of random frames, every area with a tail.
fn random_run(settings: Settings, seed: u64) -> (Record, Areas) {
    let mut random = SplitMix64::new(seed);
    let mut values = |count: usize| -> Vec<f64> { (0..count).map(|_| random.unit() * 4.0 - 2.0).collect() };
    let Settings { n, f, c, .. } = settings;
    let table = values(n * f);
    let start = values(n * c);
    let marks = |length: usize| vec![7.5; length + 3];
    let mut areas = Areas {
        positions: marks(n * c),
        increments: marks(n * c),
        gains: marks(n * c),
        affinities: marks(2 * n * n),
        indices: vec![9; 2 * n * n],
        offsets: vec![9; n + 4],
        forces: marks(n * (2 * c + 1)),
        nodes: vec![NODE; 1 + 8 * DEEPEST * n],
    };
    let mut rows = Rows {
        values: marks(n),
        indices: vec![9; n + 3],
    };
    let record = prepare(settings, &table, &start, &mut areas, &mut rows).expect("a good run");
    (record, areas)
}

/// One whole iteration; the positions before its step.
fn iterate(record: &mut Record, areas: &mut Areas) -> Vec<f64> {
    let copy = areas.positions.clone();
    let units = record.settings.iteration() as u32;
    work(record, areas, units);
    assert_eq!(record.phase, 0);
    copy
}

/// The same by the machine's own ln and in any order.
fn roughly(record: &Record, areas: &Areas, copy: &[f64]) -> f64 {
    let Settings { n, c, method, .. } = record.settings;
    let e = if record.done > 250 { 1.0 } else { 12.0 };
    let near = |i: usize, j: usize| {
        let d2: f64 = (0..c).map(|d| (copy[i * c + d] - copy[j * c + d]).powi(2)).sum();
        1.0 / (1.0 + d2)
    };
    let pairs: Vec<(usize, usize, f64)> = match method {
        Method::Exact => (0..n * n)
            .map(|k| (k / n, k % n, areas.affinities[k]))
            .filter(|pair| pair.0 != pair.1)
            .collect(),
        Method::BarnesHut => (0..n)
            .flat_map(|i| (areas.offsets[i]..areas.offsets[i + 1]).map(move |place| (i, place as usize)))
            .map(|(i, place)| (i, areas.indices[place] as usize, areas.affinities[place]))
            .collect(),
    };
    let z: f64 = match method {
        Method::Exact => (0..n * n).filter(|k| k / n != k % n).map(|k| near(k / n, k % n)).sum(),
        Method::BarnesHut => (0..n).map(|i| areas.forces[i * (2 * c + 1) + 2 * c]).sum(),
    };
    pairs
        .iter()
        .filter(|pair| pair.2 > 0.0)
        .map(|&(i, j, p)| p * e * (p * e * z / near(i, j)).ln())
        .sum()
}

#[test]
fn two_frames_at_0_and_1() {
    let (mut record, mut areas) = random_run(settings(Method::Exact, 2, 1, 600), 1);
    areas.affinities[..4].copy_from_slice(&[f64::NAN, 0.5, 0.5, f64::NAN]);
    areas.forces[2] = 1.0;
    record.done = 1;
    record.units = 5;
    let expected = 6.0 * ln(12.0) + 6.0 * ln(12.0);
    assert_eq!(divergence(&record, &areas, &[0.0, 1.0]), Ok(expected));
    record.done = 251;
    record.units = 251 * 5;
    assert_eq!(divergence(&record, &areas, &[0.0, 1.0, f64::NAN]), Ok(0.0));
}

#[test]
fn near_the_usual_formula() {
    for (k, &method) in [Method::Exact, Method::BarnesHut].iter().enumerate() {
        for c in 1..=3 {
            let (mut record, mut areas) = random_run(settings(method, 20, c, 254), 40 + k as u64 + 2 * c as u64);
            for _ in 0..254 {
                let copy = iterate(&mut record, &mut areas);
                let figure = divergence(&record, &areas, &copy).expect("an iteration has just ended");
                let usual = roughly(&record, &areas, &copy);
                assert!(
                    (figure - usual).abs() <= 1e-9 * usual.abs().max(1.0),
                    "{figure} {usual} {}",
                    record.done
                );
            }
            assert!(
                divergence(&record, &areas, &areas.positions).is_ok(),
                "an ended run is fine"
            );
        }
    }
}

#[test]
fn exaggeration_up_to_the_250th_iteration() {
    let (mut record, mut areas) = random_run(settings(Method::BarnesHut, 12, 2, 600), 5);
    let copy = iterate(&mut record, &mut areas);
    let mut at = |done: usize| {
        record.done = done;
        record.units = done * record.settings.iteration();
        divergence(&record, &areas, &copy).expect("good counters")
    };
    assert_eq!(at(1), at(250));
    assert!(at(250) > 12.0 * at(251));
    assert_eq!(at(251), at(599));
}

#[test]
fn early() {
    for &method in &[Method::Exact, Method::BarnesHut] {
        let (mut record, mut areas) = random_run(settings(method, 9, 2, 600), 6);
        let copy = areas.positions.clone();
        assert_eq!(divergence(&record, &areas, &copy), Err(Refusal::Early), "just prepared");
        let copy = iterate(&mut record, &mut areas);
        assert!(divergence(&record, &areas, &copy).is_ok());
        let (mut further, mut changed) = (record, areas.clone());
        work(&mut further, &mut changed, 1);
        assert_eq!(
            divergence(&further, &changed, &copy),
            Err(Refusal::Early),
            "a unit of the next is done"
        );
        for zero in [0.0, -0.0] {
            let mut still = areas.clone();
            still.forces.fill(zero);
            assert_eq!(divergence(&record, &still, &copy), Err(Refusal::Early), "no total");
        }
        areas.forces.fill(f64::NAN);
        let told = divergence(&record, &areas, &copy).expect("NaN is no zero");
        match method {
            Method::Exact => assert!(told > 0.0, "every q is at its least"),
            Method::BarnesHut => assert!(told < 0.0, "Z is at its least"),
        }
    }
}

#[test]
fn the_order_of_the_tests() {
    let (mut record, mut areas) = random_run(settings(Method::BarnesHut, 9, 2, 600), 7);
    let copy = iterate(&mut record, &mut areas);
    areas.offsets[0] = 1;
    let number =
        |record: &Record, areas: &Areas, copy: &[f64]| divergence(record, areas, copy).map_err(Refusal::number);
    assert_eq!(number(&record, &areas, &copy), Err(23));
    assert_eq!(
        number(&record, &areas, &copy[..17]),
        Err(12),
        "a short copy comes before the contents"
    );
    record.done = 0;
    assert_eq!(
        number(&record, &areas, &copy[..17]),
        Err(22),
        "counters come before the copy"
    );
    record.units = 0;
    assert_eq!(number(&record, &areas, &copy[..18]), Err(23), "17 comes last");
    areas.offsets[0] = 0;
    assert_eq!(number(&record, &areas, &copy[..18]), Err(17));
    areas.gains.truncate(17);
    assert_eq!(number(&record, &areas, &copy), Err(12));
}

#[test]
fn only_what_is_above_0_counts() {
    let (mut record, mut areas) = random_run(settings(Method::Exact, 3, 1, 600), 8);
    iterate(&mut record, &mut areas);
    areas.forces[3] = 1.0;
    areas.affinities[..9].copy_from_slice(&[1.0, -1.0, 0.0, -0.0, 1.0, f64::NAN, f64::NEG_INFINITY, 1e-320, 1.0]);
    let p = 1e-320 * 12.0;
    let copy = [0.0, 1.0, 1.0];
    assert_eq!(
        divergence(&record, &areas, &copy),
        Ok(p * ln(p)),
        "q is 1 where both stand in one place"
    );
}
