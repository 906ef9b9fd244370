//! Tests of parking.

use super::*;
use crate::descent::{prepare, work, Answer, Rows};
use crate::lists::park::{contents, damage, file, run, words_of, STANDINGS};
use crate::scatter::SplitMix64;
use crate::tree::{Node, DEEPEST};
use crate::words::{from_bytes, to_bytes};

/// Small runs of both methods, every c and every state.
fn small_runs(seed: u64) -> Vec<(Record, Areas)> {
    let mut random = SplitMix64::new(seed);
    let mut found = Vec::new();
    for (method, most) in [(Method::Exact, 8), (Method::BarnesHut, 3)] {
        for c in 1..=most {
            for standing in STANDINGS {
                let n = 2 + (random.next() % 5) as usize;
                found.push(run(&mut random, method, n, c, standing));
            }
        }
    }
    found
}

/// Areas of the same lengths with something else in them.
fn other(areas: &Areas) -> Areas {
    Areas {
        positions: vec![7.5; areas.positions.len()],
        increments: vec![7.5; areas.increments.len()],
        gains: vec![7.5; areas.gains.len()],
        affinities: vec![7.5; areas.affinities.len()],
        indices: vec![9; areas.indices.len()],
        offsets: vec![9; areas.offsets.len()],
        forces: vec![7.5; areas.forces.len()],
        nodes: vec![Node::unused(7.5, 9); areas.nodes.len()],
    }
}

/// The first bad record of a file, if any.
fn bad(file: &[u8]) -> Option<usize> {
    read(file).err()
}

/// A good file that starts with these records, if there is any: the rest is as plain as can be.
fn completed(records: &[u64]) -> Vec<u8> {
    let mut words = records.to_vec();
    let head = [0, 2, 1, 1, 0.5_f64.to_bits(), 1.0_f64.to_bits(), 1, 0, 0, 0, 0, 0];
    words.extend(head.iter().skip(words.len()));
    if bad(&to_bytes(&words[..12])) != Some(HEAD) {
        return to_bytes(&words);
    }
    let (tree, n, c, links) = (words[0] == 1, words[1], words[3], words[11]);
    let whole = |count: u64| (count + 3) / 4 * 4;
    let offsets = 12 + 3 * whole(n * c);
    let plain = |place: u64| {
        let listed = tree && place > offsets && place < offsets + n + 1;
        if listed {
            links
        } else {
            0
        }
    };
    let held = if tree {
        whole(n + 1) + 2 * whole(links)
    } else {
        whole(n * n)
    };
    words.extend((words.len() as u64..offsets + held).map(plain));
    to_bytes(&words)
}

#[test]
fn a_file_in_every_word() {
    let settings = Settings {
        n: 3,
        f: 6,
        c: 1,
        method: Method::BarnesHut,
        perplexity: 0.5,
        rate: 2.0,
        iterations: 300,
        angle: 0.25,
        minimum: f64::from_bits(0x7ff0_0000_0000_0001),
    };
    let record = Record {
        settings,
        standing: Standing::Running,
        done: 40,
        phase: 0,
        units: 320,
        used: 17,
    };
    let areas = Areas {
        positions: vec![1.0, -0.0, -2.0, 77.0],
        increments: vec![0.5, 0.25, 0.0],
        gains: vec![1.0, 1.2, 0.8],
        affinities: [0.5, 0.25].iter().copied().chain([7.0; 10]).collect(),
        indices: [1, 0].iter().copied().chain([9; 10]).collect(),
        offsets: vec![0, 1, 2, 2, 8],
        forces: vec![3.0; 9],
        nodes: vec![Node::default(); 2],
    };
    let mut target = [0xaa_u8; 10 * RECORD];
    assert_eq!(park(&record, &areas, &mut target), Ok(9));
    let v = f64::to_bits;
    let wanted = [
        [1, 3, 6, 1],
        [v(0.5), v(2.0), 300, v(0.25)],
        [0x7ff0_0000_0000_0001, 40, 0, 2],
        [v(1.0), 1 << 63, v(-2.0), 0],
        [v(0.5), v(0.25), 0, 0],
        [v(1.0), v(1.2), v(0.8), 0],
        [0, 1, 2, 2],
        [1, 0, 0, 0],
        [v(0.5), v(0.25), 0, 0],
    ];
    assert_eq!(from_bytes(&target)[..36], wanted.concat());
    assert_eq!(target[9 * RECORD..], [0xaa; RECORD], "a longer target keeps its tail");
    assert_eq!(target[8..10], [3, 0], "little-endian");
    let mut read = other(&areas);
    let again = unpark(&target[..9 * RECORD], &mut read).expect("what was written");
    assert_eq!(words_of(&again)[..13], words_of(&record)[..13]);
    assert_eq!(again.used, 0);
    assert_eq!(read.positions[1].to_bits(), 1 << 63);
    assert_eq!(read.positions[3], 7.5);
    assert_eq!((read.indices[1], read.indices[2], read.offsets[4]), (0, 9, 9));
    assert_eq!((read.forces, read.affinities[2]), (vec![0.0; 9], 7.5));
    assert_eq!(read.nodes, vec![Node::unused(7.5, 9); 2]);
}

#[test]
fn what_was_written_is_read_and_written_again() {
    for seed in 0..40 {
        for (record, areas) in small_runs(seed) {
            let bytes = file(&record, &areas);
            let mut read = other(&areas);
            let again = unpark(&bytes, &mut read).expect("what was written");
            let mut wanted = words_of(&record);
            wanted[13] = 0;
            if record.settings.method == Method::Exact {
                wanted[7] = 0;
            }
            assert_eq!(words_of(&again), wanted);
            assert_eq!(file(&again, &read), bytes);
            assert!(read.forces.iter().all(|v| v.to_bits() == 0));
            let links = areas.offsets.last().map_or(0, |&links| links as usize);
            let (mut kept, tails) = (areas.clone(), other(&areas));
            if record.settings.method == Method::BarnesHut {
                kept.affinities[links..].copy_from_slice(&tails.affinities[links..]);
                kept.indices[links..].copy_from_slice(&tails.indices[links..]);
            }
            assert_eq!(contents(&read), contents(&kept));
            assert_eq!(read.nodes, tails.nodes);
        }
    }
}

#[test]
fn a_record_is_bad_exactly_where_no_file_goes_on() {
    let mut random = SplitMix64::new(5);
    let mut places = std::collections::BTreeMap::new();
    for seed in 50..150 {
        for (record, areas) in small_runs(seed) {
            let mut bytes = file(&record, &areas);
            damage(&mut random, &mut bytes);
            let place = match bad(&bytes) {
                Some(place) => place,
                None => {
                    let mut read = other(&areas);
                    if let Ok(again) = unpark(&bytes, &mut read) {
                        assert_eq!(file(&again, &read), bytes, "another run");
                    }
                    continue;
                }
            };
            *places.entry(place.min(9)).or_insert(0) += 1;
            let words = from_bytes(&bytes);
            assert_eq!(bad(&completed(&words[..4 * place])), None, "what comes before is good");
            if 4 * place + 4 <= words.len() && bytes.len() >= RECORD * (place + 1) {
                let with = completed(&words[..4 * place + 4]);
                assert!(bad(&with) == Some(place), "no file goes on so");
            }
        }
    }
    assert!((0..=9).all(|place| places.get(&place) > Some(&10)), "{places:?}");
}

#[test]
fn every_length() {
    for (record, areas) in small_runs(3) {
        let bytes = file(&record, &areas);
        for length in 0..bytes.len() {
            assert_eq!(bad(&bytes[..length]), Some(length / RECORD));
        }
        for more in 1..70 {
            for filling in [0, 1] {
                let longer = [bytes.clone(), vec![filling; more]].concat();
                assert_eq!(bad(&longer), Some(bytes.len() / RECORD));
            }
        }
    }
}

#[test]
fn the_order_of_the_tests() {
    let mut random = SplitMix64::new(9);
    let (mut record, mut areas) = run(&mut random, Method::BarnesHut, 5, 2, Standing::Running);
    let number = |record: &Record, areas: &Areas, target: usize| {
        let mut bytes = vec![5; target];
        let told = park(record, areas, &mut bytes);
        assert!(bytes.iter().all(|&byte| byte == 5) || told.is_ok());
        told.map_err(Refusal::number)
    };
    let records = file(&record, &areas).len() / RECORD;
    assert_eq!(number(&record, &areas, records * RECORD), Ok(records));
    assert_eq!(number(&record, &areas, records * RECORD - 1), Err(12));
    areas.gains[9] = f64::from_bits(0x4630_0000_0000_0001);
    assert_eq!(number(&record, &areas, 0), Err(15), "15 comes before a short target");
    record.phase = 1;
    record.units += 1;
    record.used = 1;
    assert_eq!(number(&record, &areas, 0), Err(17), "17 comes before 15");
    record.used = 0;
    assert_eq!(number(&record, &areas, 0), Err(25), "the contents come before 17");
    areas.offsets[5] = areas.offsets[5].max(1);
    areas.indices[0] = 5;
    assert_eq!(number(&record, &areas, 0), Err(24));
    areas.offsets[0] = 1;
    assert_eq!(number(&record, &areas, 0), Err(23));
    areas.forces.pop();
    assert_eq!(number(&record, &areas, 0), Err(12));
    record.units += 1;
    assert_eq!(number(&record, &areas, 0), Err(22));
    record.settings.f = 0;
    assert_eq!(number(&record, &areas, 0), Err(21));

    let (record, areas) = run(&mut random, Method::BarnesHut, 5, 2, Standing::Finished);
    let mut bytes = file(&record, &areas);
    for which in 0..8 {
        let mut short = other(&areas);
        match which {
            0 => drop(short.positions.pop()),
            1 => drop(short.increments.pop()),
            2 => drop(short.gains.pop()),
            3 => drop(short.affinities.pop()),
            4 => drop(short.indices.pop()),
            5 => drop(short.offsets.pop()),
            6 => drop(short.forces.pop()),
            _ => short.nodes.clear(),
        }
        let before = short.clone();
        assert_eq!(unpark(&bytes, &mut short), Err(Refusal::Short), "{which}");
        assert_eq!(short, before);
    }
    bytes.push(0);
    let mut none = other(&areas);
    none.positions.clear();
    assert_eq!(
        unpark(&bytes, &mut none),
        Err(Refusal::Record(bytes.len() / RECORD)),
        "16 comes before 12"
    );
}

/// A run of random frames, prepared.
fn begun(settings: Settings, seed: u64) -> (Record, Areas) {
    let mut random = SplitMix64::new(seed);
    let Settings { n, f, c, .. } = settings;
    let table: Vec<f64> = (0..n * f).map(|_| random.unit() * 4.0).collect();
    let start: Vec<f64> = (0..n * c).map(|_| random.coordinate()).collect();
    let mut areas = Areas {
        positions: vec![0.0; n * c],
        increments: vec![0.0; n * c],
        gains: vec![0.0; n * c],
        affinities: vec![0.0; 2 * n * n],
        indices: vec![0; 2 * n * n],
        offsets: vec![0; n + 1],
        forces: vec![0.0; n * (2 * c + 1)],
        nodes: vec![Node::unused(7.5, 9); 8 * DEEPEST * n],
    };
    let mut rows = Rows {
        values: vec![0.0; n],
        indices: vec![0; n],
    };
    let record = prepare(settings, &table, &start, &mut areas, &mut rows).expect("a good run");
    (record, areas)
}

#[test]
fn a_parked_run_goes_on_as_if_it_were_not() {
    for (k, method) in [Method::Exact, Method::BarnesHut].into_iter().enumerate() {
        for c in 1..=3 {
            let settings = Settings {
                n: 9,
                f: 3,
                c,
                method,
                perplexity: 2.0,
                rate: 5.0,
                iterations: 260,
                angle: if method == Method::Exact { 0.0 } else { 0.5 },
                minimum: 0.0,
            };
            let (mut record, mut areas) = begun(settings, 60 + 2 * c as u64 + k as u64);
            let (mut woken, mut room) = (record, areas.clone());
            let iteration = settings.iteration() as u32;
            for border in 0..260 {
                if border % 7 == 3 || border > 245 {
                    let bytes = file(&woken, &room);
                    room = other(&room);
                    woken = unpark(&bytes, &mut room).expect("what was written");
                }
                assert_eq!(
                    work(&mut record, &mut areas, iteration),
                    work(&mut woken, &mut room, iteration)
                );
                assert_eq!(record, woken);
                let bits = |values: &[f64]| values.iter().map(|v| v.to_bits()).collect::<Vec<_>>();
                assert_eq!(bits(&areas.positions), bits(&room.positions));
                assert_eq!(bits(&areas.increments), bits(&room.increments));
                assert_eq!(bits(&areas.gains), bits(&room.gains));
                let written = match settings.method {
                    Method::Exact => settings.n * c + 1,
                    Method::BarnesHut => settings.n * (2 * c + 1),
                };
                assert_eq!(bits(&areas.forces[..written]), bits(&room.forces[..written]));
                assert_eq!(areas.nodes[..record.used], room.nodes[..record.used]);
            }
            assert_eq!(work(&mut woken, &mut room, 5), Answer::Finished(0));
        }
    }
}
