//! Tests of a partner's list.

use super::*;
use crate::descent::{prepare, work, Answer, Rows};
use crate::lists::park::shorten;
use crate::scatter::SplitMix64;
use crate::tree::Node;

fn settings(n: usize, c: usize) -> Settings {
    Settings {
        n,
        f: 2,
        c,
        method: Method::BarnesHut,
        perplexity: 1.0,
        rate: 5.0,
        iterations: 10,
        angle: 0.5,
        minimum: 0.0,
    }
}

/// Areas of sevens and nines, just long enough and so much longer.
fn room(settings: &Settings, more: usize) -> Areas {
    let Settings { n, c, .. } = *settings;
    let values = |length: usize| vec![f64::from_bits(0x7ff0_0000_0000_0007); length + more];
    let numbers = |length: usize| vec![9; length + more];
    Areas {
        positions: values(n * c),
        increments: values(n * c),
        gains: values(n * c),
        affinities: values(settings.links()),
        indices: numbers(settings.links()),
        offsets: numbers(n + 1),
        forces: values(n * (2 * c + 1)),
        nodes: vec![Node::unused(7.5, 9); 1 + more],
    }
}

fn bits(values: &[f64]) -> Vec<u64> {
    values.iter().map(|v| v.to_bits()).collect()
}

fn file(links: &[(u32, u32, f64)]) -> Vec<u8> {
    let link = |&(from, to, weight): &(u32, u32, f64)| {
        let weight = weight.to_bits();
        Link { from, to, weight }.bytes()
    };
    links.iter().flat_map(link).collect()
}

/// Four frames on a circle.
const GOOD: [(u32, u32, f64); 8] = [
    (0, 1, 0.5),
    (0, 3, 0.25),
    (1, 0, 0.5),
    (1, 2, 5e-324),
    (2, 1, 5e-324),
    (2, 3, f64::MAX),
    (3, 0, 0.25),
    (3, 2, f64::MAX),
];

/// What is told of a file of four frames; refused, nothing may have changed.
fn told(file: &[u8]) -> (u64, u64) {
    let settings = settings(4, 1);
    let mut areas = room(&settings, 1);
    let before = format!("{:?}", bits_of(&areas));
    match import(settings, &[0.0; 4], file, &mut areas) {
        Ok(_) => (0, u64::from(areas.offsets[4])),
        Err(refusal) => {
            assert_eq!(format!("{:?}", bits_of(&areas)), before, "refused, and changed");
            (refusal.number(), refusal.place())
        }
    }
}

/// Every value and number, and the nodes.
fn bits_of(areas: &Areas) -> (Vec<Vec<u64>>, Vec<u32>, Vec<u32>, Vec<Node>) {
    let Areas {
        positions,
        increments,
        gains,
        affinities,
        forces,
        ..
    } = areas;
    let values = [positions, increments, gains, affinities, forces].map(|area| bits(area));
    (
        values.to_vec(),
        areas.indices.clone(),
        areas.offsets.clone(),
        areas.nodes.clone(),
    )
}

#[test]
fn a_good_list_is_loaded() {
    let settings = Settings {
        method: Method::Exact,
        ..settings(4, 2)
    };
    let mut areas = room(&settings, 2);
    let start = [0.5, -0.0, 1_048_576.0, -2.0, 0.0, 0.0, 5e-324, 3.0];
    let record = import(settings, &start, &file(&GOOD), &mut areas).expect("a good list");
    let tree = Settings {
        method: Method::BarnesHut,
        ..settings
    };
    assert_eq!(
        (record.settings, record.standing, record.done, record.phase),
        (tree, Standing::Running, 0, 0)
    );
    assert_eq!((record.units, record.used), (0, 0));
    let kept = room(&settings, 2);
    assert_eq!(bits(&areas.positions[..8]), bits(&start));
    assert_eq!(bits(&areas.increments[..8]), [0; 8]);
    assert_eq!(areas.gains[..8], [1.0; 8]);
    assert_eq!(bits(&areas.forces[..20]), [0; 20]);
    assert_eq!(areas.indices[..8], [1, 3, 0, 2, 1, 3, 0, 2]);
    assert_eq!(areas.affinities[..8], GOOD.map(|link| link.2));
    assert_eq!(areas.offsets[..5], [0, 2, 4, 6, 8]);
    for (ours, theirs, used) in [
        (&areas.positions, &kept.positions, 8),
        (&areas.increments, &kept.increments, 8),
        (&areas.gains, &kept.gains, 8),
        (&areas.affinities, &kept.affinities, 8),
        (&areas.forces, &kept.forces, 20),
    ] {
        assert_eq!(bits(&ours[used..]), bits(&theirs[used..]));
    }
    assert_eq!(areas.indices[8..], kept.indices[8..]);
    assert_eq!(areas.offsets[5..], kept.offsets[5..]);
    assert_eq!(areas.nodes, kept.nodes);
    // And it is a run.
    let mut record = record;
    assert_eq!(work(&mut record, &mut areas, 1), Answer::Running(1));
}

#[test]
fn frames_without_links() {
    assert_eq!(told(&[]), (0, 0));
    assert_eq!(told(&file(&[(1, 3, 0.5), (3, 1, 0.5)])), (0, 2));
    let settings = settings(4, 1);
    let mut areas = room(&settings, 0);
    import(settings, &[0.0; 4], &file(&[(1, 3, 0.5), (3, 1, 0.5)]), &mut areas).expect("a good list");
    assert_eq!(areas.offsets, [0, 0, 1, 1, 2]);
}

#[test]
fn each_rule_at_each_place() {
    for place in 0..GOOD.len() {
        let with = |from, to, weight| {
            let mut links = GOOD;
            links[place] = (from, to, weight);
            told(&file(&links))
        };
        let (from, to, weight) = GOOD[place];
        let mirror = GOOD.iter().position(|link| (link.0, link.1) == (to, from));
        let alone = (19, place.min(mirror.expect("a mirror")) as u64);
        for bad in [
            0.0,
            -0.0,
            -weight,
            f64::NAN,
            f64::INFINITY,
            f64::from_bits(weight.to_bits() ^ 1),
        ] {
            assert_eq!(with(from, to, bad), alone, "the mirror has other bits");
        }
        assert_eq!(told(&file(&[&GOOD[..place], &GOOD[place + 1..]].concat())).0, 19);
        assert_eq!(with(from, 4, weight), alone);
        assert_eq!(with(4, to, weight).0, 19);
        assert_eq!(with(from, u32::MAX, weight), alone);
        if place > 0 {
            let (from, to, weight) = GOOD[place - 1];
            // A pair that stands there twice has its mirror; but the other link's mirror is lonely where it comes first.
            assert_eq!(
                with(from, to, weight),
                (19, place.min(mirror.expect("a mirror")) as u64)
            );
        }
        for tail in 1..LINK {
            let mut bytes = file(&GOOD[..place]);
            bytes.extend(&file(&GOOD)[..tail]);
            let lonely = first_bad(&file(&GOOD[..place]), 4, 24).map_or(place, |found| found.0);
            assert_eq!(told(&bytes), (19, lonely as u64));
        }
    }
}

#[test]
fn both_links_of_a_bad_weight() {
    for weight in [0.0, -0.0, -1.0, f64::NAN, f64::INFINITY, f64::NEG_INFINITY, -5e-324] {
        let links = [(0, 1, 0.5), (1, 0, 0.5), (1, 2, weight), (2, 1, weight)];
        assert_eq!(told(&file(&links)), (19, 2), "{weight}");
    }
    for weight in [5e-324, f64::MIN_POSITIVE, 1.0, f64::MAX] {
        let links = [(0, 1, 0.5), (1, 0, 0.5), (1, 2, weight), (2, 1, weight)];
        assert_eq!(told(&file(&links)), (0, 4), "{weight}");
    }
}

#[test]
fn an_upper_half_and_then_a_lower_one() {
    let links = [
        (0, 1, 0.5),
        (0, 2, 0.5),
        (1, 2, 0.5),
        (1, 0, 0.5),
        (2, 0, 0.5),
        (2, 1, 0.5),
    ];
    assert_eq!(
        told(&file(&links)),
        (19, 3),
        "all mirrors are there, but the pairs fall"
    );
    assert_eq!(told(&file(&[(0, 1, 0.5), (0, 0, 0.5), (1, 0, 0.5)])), (19, 1));
    assert_eq!(told(&file(&[(0, 0, 0.5)])), (19, 0), "its own mirror, and links itself");
    // The mirror stands in a record that is bad, or after one.
    assert_eq!(told(&file(&[(0, 1, 0.5), (0, 9, 0.5), (1, 0, 0.5)])), (19, 1));
    assert_eq!(told(&file(&[(0, 9, 0.5), (9, 0, 0.5)])), (19, 0));
}

#[test]
fn as_many_records_as_may_be() {
    // Eight frames with two neighbours each.
    let few = Settings {
        perplexity: 0.1,
        ..settings(8, 1)
    };
    assert_eq!(few.links(), 32);
    let all: Vec<(u32, u32, f64)> = (0..8)
        .flat_map(|i| (0..8).filter(move |&j| j != i).map(move |j| (i, j, 0.5)))
        .collect();
    let most = |count: usize| -> Vec<(u32, u32, f64)> {
        let mut pairs: Vec<(u32, u32, f64)> = all.iter().copied().filter(|link| link.0 < link.1).collect();
        pairs.truncate(count / 2);
        let mut links: Vec<(u32, u32, f64)> = pairs.iter().flat_map(|&(i, j, w)| [(i, j, w), (j, i, w)]).collect();
        links.sort_by_key(|link| (link.0, link.1));
        links
    };
    for (count, wanted) in [(32, Ok(32)), (34, Err(Refusal::Record(32)))] {
        let mut areas = room(&few, 0);
        let told = import(few, &[0.0; 8], &file(&most(count)), &mut areas);
        assert_eq!(told.map(|_| areas.offsets[8]), wanted);
    }
    let mut tailed = file(&most(32));
    tailed.push(0);
    assert_eq!(
        first_bad(&tailed, 8, 32),
        Some((32, vec![Rule::Whole, Rule::Room])),
        "the tail too"
    );
}

#[test]
fn refusals_in_their_order() {
    let good = settings(4, 2);
    let start = [0.25; 8];
    let refused = |settings: Settings, start: &[f64], which: Option<usize>| {
        let mut areas = room(&good, 0);
        if let Some(which) = which {
            shorten(&mut areas, which);
        }
        let told = import(settings, start, &[1; 17], &mut areas).expect_err("bad");
        (told.number(), told.place())
    };
    let nan = f64::NAN;
    let bad = [
        (1, Settings { c: 9, ..good }),
        (
            2,
            Settings {
                perplexity: nan,
                ..good
            },
        ),
        (3, Settings { rate: 0.0, ..good }),
        (
            4,
            Settings {
                iterations: 65_536,
                ..good
            },
        ),
        (5, Settings { angle: 1.0, ..good }),
        (6, Settings { c: 4, ..good }),
        (7, Settings { n: 4097, ..good }),
        (7, Settings { f: 257, ..good }),
        (9, Settings { n: 1, ..good }),
        (
            10,
            Settings {
                perplexity: 4.0,
                ..good
            },
        ),
    ];
    for (number, settings) in bad {
        assert_eq!(refused(settings, &[], Some(0)), (number, 0));
    }
    for start in [&[0.25; 7][..], &[0.25; 9], &[nan; 8], &[1_048_576.5; 8]] {
        assert_eq!(refused(good, start, Some(0)), (11, 0));
    }
    for which in 0..8 {
        assert_eq!(refused(good, &start, Some(which)), (12, 0), "area {which}");
    }
    assert_eq!(refused(good, &start, None), (19, 0));
}

/// A run that is prepared from frames at random.
fn prepared(random: &mut SplitMix64, settings: Settings) -> (Record, Areas) {
    let table: Vec<f64> = (0..settings.n * settings.f).map(|_| random.unit() * 4.0).collect();
    let start: Vec<f64> = (0..settings.n * settings.c).map(|_| random.coordinate()).collect();
    let mut areas = room(&settings, 1);
    areas.nodes = vec![Node::default(); 4000];
    if settings.method == Method::Exact {
        areas.affinities = vec![0.0; settings.n * settings.n];
    }
    let mut rows = Rows {
        values: vec![0.0; settings.n],
        indices: vec![0; settings.n],
    };
    let record = prepare(settings, &table, &start, &mut areas, &mut rows).expect("a good run");
    (record, areas)
}

fn written(record: &Record, areas: &Areas) -> Result<Vec<u8>, Refusal> {
    let mut target = vec![0; LINK * areas.affinities.len()];
    let records = write_lists(record, areas, &mut target)?;
    target.truncate(LINK * records);
    Ok(target)
}

#[test]
fn preparations_lists_come_back() {
    let mut random = SplitMix64::new(8);
    for n in [2, 3, 5, 9, 20, 33] {
        let settings = settings(n, 2);
        let (record, prepared) = prepared(&mut random, settings);
        let start = prepared.positions[..2 * n].to_vec();
        let file = written(&record, &prepared).expect("a Barnes-Hut run");
        assert_eq!(file.len() / LINK, prepared.offsets[n] as usize);
        let mut areas = prepared.clone();
        areas.indices.fill(7);
        areas.offsets.fill(7);
        areas.affinities.fill(7.0);
        let again = import(settings, &start, &file, &mut areas).expect("no weight is zero");
        assert_eq!(again, record);
        let links = file.len() / LINK;
        assert_eq!(areas.indices[..links], prepared.indices[..links]);
        assert_eq!(bits(&areas.affinities[..links]), bits(&prepared.affinities[..links]));
        assert_eq!(areas.offsets[..=n], prepared.offsets[..=n]);
    }
}

#[test]
fn lists_are_written_at_any_moment() {
    let mut random = SplitMix64::new(9);
    let (mut record, mut areas) = prepared(&mut random, settings(6, 1));
    let first = written(&record, &areas).expect("a Barnes-Hut run");
    for _ in 0..30 {
        work(&mut record, &mut areas, 5);
        assert_eq!(written(&record, &areas), Ok(first.clone()));
    }
    assert_eq!(record.standing, Standing::Finished);
}

#[test]
fn what_is_written_and_what_is_not() {
    let mut random = SplitMix64::new(10);
    let (record, mut areas) = prepared(&mut random, settings(5, 1));
    let links = areas.offsets[5] as usize;
    areas.affinities[0] = 0.0;
    areas.affinities[1] = f64::from_bits(0xfff0_0000_0000_0123);
    let mut target = vec![0x5a; LINK * links + 3];
    assert_eq!(write_lists(&record, &areas, &mut target), Ok(links));
    assert_eq!(target[8..16], [0; 8], "a weight of zero is written");
    assert_eq!(target[24..32], 0xfff0_0000_0000_0123_u64.to_le_bytes());
    assert_eq!(target[LINK * links..], [0x5a; 3], "the tail is kept");
    assert_eq!(
        write_lists(&record, &areas, &mut target[..LINK * links - 1]),
        Err(Refusal::Short)
    );
    let (exact, matrix) = prepared(
        &mut random,
        Settings {
            method: Method::Exact,
            ..settings(5, 1)
        },
    );
    assert_eq!(write_lists(&exact, &matrix, &mut []), Err(Refusal::Exact));
    areas.indices[2] = 5;
    assert_eq!(
        write_lists(&record, &areas, &mut []),
        Err(Refusal::Entry(Fault::Index(2)))
    );
    areas.offsets[3] = 0;
    let told = write_lists(&record, &areas, &mut []).expect_err("bad");
    assert_eq!((told.number(), told.place()), (23, 2));
    areas.gains.truncate(4);
    assert_eq!(write_lists(&record, &areas, &mut []), Err(Refusal::Entry(Fault::Areas)));
}
