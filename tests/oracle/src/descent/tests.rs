//! Tests of the whole descent.

use super::*;
use crate::gradient::Exact;
use crate::scatter::SplitMix64;

/// Areas with room for the settings and a tail in each, and an arena of the given nodes.
fn areas(settings: &Settings, nodes: usize) -> (Areas, Rows) {
    let Settings { n, c, .. } = *settings;
    let marks = |length: usize| vec![7.5; length + 3];
    let numbers = |length: usize| vec![9; length + 3];
    let node = Node::unused(7.5, 9);
    let areas = Areas {
        positions: marks(n * c),
        increments: marks(n * c),
        gains: marks(n * c),
        affinities: marks((n * n).max(settings.links())),
        indices: numbers(settings.links()),
        offsets: numbers(n + 1),
        forces: marks(n * (2 * c + 1)),
        nodes: vec![node; nodes],
    };
    let rows = Rows {
        values: marks(n),
        indices: numbers(n),
    };
    (areas, rows)
}

fn bench() -> Settings {
    crate::bench::settings(2)
}

/// A run of random frames.
fn random_run(settings: Settings, nodes: usize, seed: u64) -> (Record, Areas) {
    let mut random = SplitMix64::new(seed);
    let mut values = |count: usize| -> Vec<f64> { (0..count).map(|_| random.unit() * 4.0 - 2.0).collect() };
    let table = values(settings.n * settings.f);
    let start = values(settings.n * settings.c);
    let (mut areas, mut rows) = areas(&settings, nodes);
    let record = prepare(settings, &table, &start, &mut areas, &mut rows).expect("a good run");
    assert_eq!(rows.values[..settings.n], vec![0.0; settings.n]);
    assert_eq!(rows.values[settings.n..], [7.5; 3]);
    (record, areas)
}

#[test]
fn the_papers_example() {
    let settings = bench();
    let mut table = [0.0; 12];
    table[6] = 1.0;
    let (mut areas, mut rows) = areas(&settings, 256);
    let mut record = prepare(settings, &table, &[0.0, 0.0, 1.0, 0.0], &mut areas, &mut rows).expect("a good run");
    assert_eq!(work(&mut record, &mut areas, u32::MAX), Answer::Finished(6));
    let bits: Vec<u64> = areas.positions[..4].iter().map(|v| v.to_bits()).collect();
    assert_eq!(bits, [0x4050_6000_0000_0000, 0, 0xc050_6000_0000_0000, 0]);
    assert_eq!(work(&mut record, &mut areas, 0), Answer::Finished(0));
    assert_eq!((record.done, record.phase, record.units, record.used), (1, 0, 6, 5));
}

#[test]
fn an_arena_of_100_is_refused_and_101_goes_on() {
    let settings = Settings { c: 1, f: 1, ..bench() };
    let (mut areas, mut rows) = areas(&settings, 101);
    let mut record = prepare(settings, &[0.0, 1.0], &[5.0, 5.0], &mut areas, &mut rows).expect("a good run");
    let last = areas.nodes.pop().expect("101 nodes");
    assert_eq!(work(&mut record, &mut areas, 100), Answer::Refused(14, 2));
    let (kept, before) = (record, areas.clone());
    assert_eq!(work(&mut record, &mut areas, 0), Answer::Running(0));
    assert_eq!(work(&mut record, &mut areas, 1), Answer::Refused(14, 0));
    assert_eq!((record, &areas), (kept, &before));
    areas.nodes.push(last);
    assert_eq!(work(&mut record, &mut areas, 100), Answer::Finished(4));
    assert_eq!(record.used, 101);
}

#[test]
fn budgets_add_up() {
    for method in [Method::Exact, Method::BarnesHut] {
        let settings = Settings {
            n: 9,
            f: 3,
            c: 3,
            method,
            perplexity: 2.0,
            rate: 20.0,
            iterations: 12,
            angle: 0.5,
            minimum: 1e-7,
        };
        let (mut whole, mut whole_areas) = random_run(settings, 4000, 11);
        let units = 12 * settings.iteration() as u64;
        assert_eq!(work(&mut whole, &mut whole_areas, u32::MAX), Answer::Finished(units));
        let (mut parted, mut parted_areas) = random_run(settings, 4000, 11);
        let mut random = SplitMix64::new(12);
        let mut sum = 0;
        loop {
            let budget = (random.next() % 9) as u32;
            match work(&mut parted, &mut parted_areas, budget) {
                Answer::Running(done) => {
                    assert_eq!(done, u64::from(budget));
                    sum += done;
                }
                answer => {
                    assert!(
                        matches!(answer, Answer::Finished(done) if sum + done == units),
                        "{answer:?}"
                    );
                    break;
                }
            }
        }
        assert_eq!((parted, parted_areas), (whole, whole_areas));
    }
}

#[test]
fn an_exact_run_is_the_whole_gradient_and_the_step() {
    for c in 1..=8 {
        let settings = Settings {
            n: 2 + c,
            f: 2,
            c,
            method: Method::Exact,
            perplexity: 1.5,
            rate: 5.0,
            iterations: 255,
            angle: f64::NAN,
            minimum: 0.0,
        };
        let (mut record, mut areas) = random_run(settings, 0, 16);
        let cells = settings.cells();
        let mut moving = Moving {
            positions: areas.positions[..cells].to_vec(),
            increments: vec![0.0; cells],
            gains: vec![1.0; cells],
        };
        for iteration in 0..settings.iterations {
            let (exaggeration, momentum) = if iteration < 250 { (12.0, 0.5) } else { (1.0, 0.8) };
            let exact = Exact {
                n: settings.n,
                c,
                exaggeration,
                positions: &moving.positions,
                affinities: &areas.affinities,
            };
            let (total, gradient) = (exact.total(), exact.gradient());
            work(&mut record, &mut areas, 2 * settings.n as u32);
            assert_eq!((&areas.forces[..cells], areas.forces[cells]), (&gradient[..], total));
            assert_eq!(moving.step(c, momentum, settings.rate, &gradient), 0);
            work(&mut record, &mut areas, 1);
            assert_eq!(areas.positions[..cells], moving.positions);
            assert_eq!(areas.gains[..cells], moving.gains);
        }
        assert_eq!(record.standing, Standing::Finished);
        assert_eq!(areas.positions[cells..], [7.5; 3]);
    }
}

#[test]
fn stops_after_the_exaggeration() {
    for (minimum, wanted) in [(f64::INFINITY, 251), (f64::NAN, 260), (-1.0, 260), (0.0, 260)] {
        let settings = Settings {
            n: 3,
            f: 1,
            c: 1,
            perplexity: 1.5,
            rate: 0.1,
            iterations: 260,
            minimum,
            ..bench()
        };
        let (mut record, mut areas) = random_run(settings, 999, 13);
        let answer = work(&mut record, &mut areas, u32::MAX);
        let units = wanted * 8;
        if wanted == 251 {
            assert_eq!((answer, record.standing), (Answer::Stopped(units), Standing::Stopped));
        } else {
            assert_eq!((answer, record.standing), (Answer::Finished(units), Standing::Finished));
        }
        assert_eq!(work(&mut record, &mut areas, 5), {
            if wanted == 251 {
                Answer::Stopped(0)
            } else {
                Answer::Finished(0)
            }
        });
        // The last iteration stops too.
        let last = Settings {
            iterations: 251,
            ..settings
        };
        let (mut record, mut areas) = random_run(last, 999, 13);
        work(&mut record, &mut areas, u32::MAX);
        assert_eq!(record.standing == Standing::Stopped, wanted == 251);
    }
}

#[test]
fn too_large_steps_are_refused() {
    for method in [Method::Exact, Method::BarnesHut] {
        let settings = Settings {
            method,
            n: 4,
            perplexity: 1.5,
            rate: 1e30,
            iterations: 5,
            ..bench()
        };
        let (mut record, mut areas) = random_run(settings, 999, 14);
        let before = areas.clone();
        let first = settings.iteration() as u64 - 1;
        assert_eq!(work(&mut record, &mut areas, u32::MAX), Answer::Refused(15, first));
        assert_eq!(areas.positions, before.positions);
        assert_eq!(work(&mut record, &mut areas, 3), Answer::Refused(15, 0));
        record.settings.rate = 1.0;
        assert_eq!(work(&mut record, &mut areas, 1), Answer::Running(1));
    }
}

#[test]
fn preparations_are_refused_in_order() {
    let good = bench();
    let refused = |settings: Settings, table: &[f64], start: &[f64], nodes: usize| {
        let (mut areas, mut rows) = areas(&good, nodes);
        let before = (areas.clone(), rows.clone());
        let number = prepare(settings, table, start, &mut areas, &mut rows).expect_err("a refusal");
        assert_eq!((areas, rows), before);
        number
    };
    let (table, start) = ([0.5; 12], [0.25; 4]);
    let with = |change: fn(&mut Settings)| {
        let mut settings = good;
        change(&mut settings);
        refused(settings, &table, &start, 5)
    };
    assert_eq!(with(|s| (s.c, s.perplexity) = (9, 0.0)), 1);
    assert_eq!(with(|s| (s.perplexity, s.rate) = (f64::INFINITY, 0.0)), 2);
    assert_eq!(with(|s| (s.rate, s.iterations) = (f64::NAN, 0)), 3);
    assert_eq!(with(|s| (s.iterations, s.angle) = (65_536, 1.0)), 4);
    assert_eq!(with(|s| (s.angle, s.c) = (1.0, 4)), 5);
    assert_eq!(with(|s| (s.c, s.n) = (4, 0)), 6);
    assert_eq!(with(|s| s.f = 257), 7);
    assert_eq!(refused(good, &table[1..], &start, 5), 7);
    let bad = [f64::NAN; 12];
    assert_eq!(refused(Settings { n: 1, ..good }, &bad[..6], &start[..2], 5), 8);
    assert_eq!(refused(Settings { n: 1, ..good }, &table[..6], &start[..2], 5), 9);
    assert_eq!(with(|s| s.perplexity = 2.0), 10);
    assert_eq!(refused(good, &table, &start[1..], 5), 11);
    assert_eq!(refused(good, &table, &[1e7; 4], 0), 11);
    assert_eq!(refused(good, &table, &start, 0), 12);
}

/// What a run inside an iteration is refused by after a change. The call names it by its number, and changes nothing.
fn refused_by(change: fn(&mut Record, &mut Areas)) -> Fault {
    let settings = Settings {
        n: 5,
        perplexity: 1.5,
        iterations: 300,
        ..bench()
    };
    let (mut record, mut areas) = random_run(settings, 300, 15);
    assert_eq!(work(&mut record, &mut areas, 20), Answer::Running(20));
    assert_eq!(fault(&record, &areas), None);
    change(&mut record, &mut areas);
    let before = (record, areas.clone());
    let found = fault(&record, &areas).expect("a fault");
    assert_eq!(work(&mut record, &mut areas, 4), Answer::Refused(found.number(), 0));
    assert_eq!((record, areas), before);
    found
}

#[test]
fn the_record_is_tested_first() {
    assert_eq!(refused_by(|record, _| record.units += 1), Fault::Counters);
    assert_eq!(refused_by(|record, _| record.phase += 1), Fault::Counters);
    assert_eq!(refused_by(|record, _| record.done += 1), Fault::Counters);
    assert_eq!(
        refused_by(|record, _| record.standing = Standing::Finished),
        Fault::Counters
    );
    assert_eq!(refused_by(|record, _| record.settings.c = 4), Fault::Settings(6));
    assert_eq!(
        refused_by(|record, _| record.settings.perplexity = 5.0),
        Fault::Settings(10)
    );
    let before_the_areas = refused_by(|record, areas| {
        record.units += 1;
        areas.gains.truncate(9);
    });
    assert_eq!((before_the_areas, before_the_areas.number()), (Fault::Counters, 22));
    let settings_first = refused_by(|record, _| {
        record.units += 1;
        record.settings.rate = 0.0;
    });
    assert_eq!((settings_first, settings_first.number()), (Fault::Settings(3), 21));
}

#[test]
fn the_areas_are_tested_next() {
    assert_eq!(refused_by(|_, areas| areas.gains.truncate(9)), Fault::Areas);
    assert_eq!(refused_by(|_, areas| areas.nodes.clear()), Fault::Areas);
    let before_the_contents = refused_by(|_, areas| {
        areas.offsets[0] = 1;
        areas.forces.clear();
    });
    assert_eq!((before_the_contents, Fault::Areas.number()), (Fault::Areas, 12));
}

#[test]
fn the_contents_are_tested_last() {
    assert_eq!(refused_by(|_, areas| areas.offsets[0] = 1), Fault::Offsets(0));
    assert_eq!(refused_by(|_, areas| areas.offsets[2] = 1000), Fault::Offsets(1));
    assert_eq!(refused_by(|_, areas| areas.offsets[3] = 0), Fault::Offsets(2));
    assert_eq!(refused_by(|_, areas| areas.indices[3] = 5), Fault::Index(3));
    assert_eq!(refused_by(|record, _| record.used = 0), Fault::Tree(0));
    assert_eq!(refused_by(|_, areas| areas.nodes[3].count = 6), Fault::Tree(3));
    assert_eq!(refused_by(|_, areas| areas.nodes.truncate(1)), Fault::Tree(0));
    let all = refused_by(|_, areas| {
        areas.nodes[0].count = 6;
        areas.indices[1] = 9;
        areas.offsets[4] = 0;
    });
    assert_eq!((all, all.number()), (Fault::Offsets(3), 23));
    assert_eq!([Fault::Index(3), Fault::Tree(3)].map(Fault::number), [24, 25]);
}
