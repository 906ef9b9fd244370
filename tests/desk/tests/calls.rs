//! The small calls of the library: starting positions, the frame file, sizes, what a record says and how it is kept.

use brothanchor::{
    frame, frame_words, frames, prepare, scatter, sizes, work, Areas, Fault, Kind, Method, Node, Record, Refusal, Rows,
    Settings, State,
};
use oracle::frames::{self as rules_of_frames, check, fetch, Checked, LAST_PICTURE, RECORD};
use oracle::scatter::{self as rules, SplitMix64};

fn settings(method: Method, n: usize) -> Settings {
    Settings {
        n,
        f: 2,
        c: 2,
        method,
        perplexity: 1.5,
        rate: 10.0,
        iterations: 3,
        angle: 0.5,
        minimum: 0.0,
    }
}

/// A prepared run of n frames along a line.
fn begun(settings: &Settings) -> (Record, Areas) {
    let n = settings.n;
    let sizes = sizes(settings).expect("good settings");
    let mut areas = Areas::new(&sizes, sizes.nodes);
    let table: Vec<f64> = (0..2 * n).map(|i| (i * i % 17) as f64).collect();
    let mut start = vec![0.0; 2 * n];
    scatter(&mut start, n as u32, 2, 7).expect("room for all");
    let record = prepare(&settings.words(), &table, &start, &mut areas, &mut Rows::new(&sizes)).expect("a good run");
    (record, areas)
}

#[test]
fn starting_positions() {
    let mut random = SplitMix64::new(5);
    for _ in 0..400 {
        let seed = random.next();
        let (n, c) = ((random.next() % 70) as usize, (random.next() % 10) as usize);
        let mut ours = vec![0.5; (random.next() % 500) as usize];
        let mut theirs = ours.clone();
        let answer = scatter(&mut ours, n as u32, c as u32, seed);
        let wanted = rules::scatter(seed, n, c, &mut theirs);
        assert_eq!(
            answer,
            wanted.map_err(|refusal| Refusal(refusal.number() as u32)),
            "{n} {c}"
        );
        assert_eq!(ours, theirs);
    }
}

/// A record with values at random.
fn record(random: &mut SplitMix64, picture: u32, field: u8) -> Vec<u8> {
    let side = 1 + (random.next() % 2) as u8;
    rules_of_frames::record(picture, side, field, &[(); 8].map(|()| random.unit() * 100.0 - 50.0))
}

/// A good file with stills among its frames, at times with one byte changed or a tail.
fn file(random: &mut SplitMix64) -> Vec<u8> {
    let mut file = Vec::new();
    for i in 0..random.next() % 9 {
        let fields: &[u8] = [&[0][..], &[0], &[1, 2], &[1], &[2]][(random.next() % 5) as usize];
        for &field in fields {
            file.extend(record(random, LAST_PICTURE - 24 + 3 * i as u32, field));
        }
    }
    if !file.is_empty() && random.next() % 2 == 0 {
        let place = (random.next() % file.len() as u64) as usize;
        file[place] = random.next() as u8;
    }
    if random.next() % 8 == 0 {
        file.extend(vec![0; (random.next() % 72) as usize]);
    }
    file
}

#[test]
fn frame_files() {
    let mut random = SplitMix64::new(6);
    let (mut good, mut bad) = (0, 0);
    for _ in 0..2000 {
        let file = file(&mut random);
        match check(&file) {
            Checked::Good(count) => {
                assert_eq!(frames(&file), Ok(count));
                good += 1;
            }
            Checked::Bad(place) => {
                assert_eq!(frames(&file), Err((Refusal(16), place)));
                bad += 1;
            }
        }
        for i in 0..file.len() / RECORD {
            let (ours, theirs) = (frame(&file, i), fetch(&file, i).expect("a whole record"));
            assert_eq!(
                (ours.picture, ours.side, ours.field),
                (theirs.picture, theirs.side, theirs.field)
            );
            let bits = |values: &[f64]| {
                values
                    .iter()
                    .map(|v| if v.is_nan() { 0 } else { v.to_bits() })
                    .collect::<Vec<u64>>()
            };
            assert_eq!(bits(&ours.features), bits(&theirs.features));
            assert_eq!(bits(&ours.starts), bits(&theirs.starts));
        }
    }
    assert!(good > 100 && bad > 100);
    assert_eq!(frame(&[], 0).picture, 0);
}

/// The library says of a file what the rules say.
fn same(file: &[u8], what: &str) {
    match check(file) {
        Checked::Good(count) => assert_eq!(frames(file), Ok(count), "{what}"),
        Checked::Bad(place) => assert_eq!(frames(file), Err((Refusal(16), place)), "{what}"),
    }
}

/// Each byte of a file with a still in it set to other values; and the last picture and the one after it.
#[test]
fn every_byte_of_a_frame_file() {
    let mut random = SplitMix64::new(8);
    let pairs = [(LAST_PICTURE - 1, 1), (LAST_PICTURE - 1, 2), (LAST_PICTURE, 0)];
    let file: Vec<u8> = pairs
        .iter()
        .flat_map(|&(picture, field)| record(&mut random, picture, field))
        .collect();
    assert_eq!(frames(&file), Ok(3));
    for at in 0..file.len() {
        for byte in [0, 1, 2, 3, 127, 128, 255] {
            let mut damaged = file.clone();
            damaged[at] = byte;
            same(&damaged, &format!("byte {at} is {byte}"));
        }
    }
    let past = [file, record(&mut random, LAST_PICTURE + 1, 0)].concat();
    assert_eq!(frames(&past), Err((Refusal(16), 3)));
}

/// The words of a frame: eleven are needed, and one past them is kept.
#[test]
fn words_of_a_frame() {
    let file = record(&mut SplitMix64::new(9), 7, 2);
    let mut words = [5; 12];
    assert_eq!(frame_words(&file, 0, &mut words[..10]), Err(Refusal(12)));
    assert_eq!(words, [5; 12]);
    assert_eq!(frame_words(&file, 0, &mut words), Ok(()));
    assert_eq!((words[0], words[2], words[11]), (7, 2, 5));
}

/// All orders of two records of pictures 1 to 4 and any field, also fields that there are not, and of three of two pictures.
#[test]
fn orders_of_frames() {
    let mut random = SplitMix64::new(7);
    let pairs = |last: u32| (1..=last).flat_map(|picture| (0..4).map(move |field| (picture, field)));
    let mut good = 0;
    let mut compare = |pairs: &[(u32, u8)]| {
        let file: Vec<u8> = pairs
            .iter()
            .flat_map(|&(picture, field)| record(&mut random, picture, field))
            .collect();
        same(&file, &format!("{pairs:?}"));
        good += usize::from(frames(&file).is_ok());
    };
    for first in pairs(4) {
        pairs(4).for_each(|second| compare(&[first, second]));
    }
    for first in pairs(2) {
        for second in pairs(2) {
            pairs(2).for_each(|third| compare(&[first, second, third]));
        }
    }
    // Two: six choices of two pictures with three fields each, and four stills. Three: a still of one picture and any of the other.
    assert_eq!(good, 6 * 9 + 4 + 2 * 3);
}

/// With one element less in one of the areas, if it has any.
fn one_less(areas: &Areas, which: usize) -> Option<Areas> {
    let mut less = areas.clone();
    let popped = match which {
        0 => less.positions.pop().is_some(),
        1 => less.increments.pop().is_some(),
        2 => less.gains.pop().is_some(),
        3 => less.affinities.pop().is_some(),
        4 => less.indices.pop().is_some(),
        5 => less.offsets.pop().is_some(),
        _ => less.forces.pop().is_some(),
    };
    popped.then_some(less)
}

#[test]
fn sizes_are_just_enough() {
    for method in [Method::Exact, Method::BarnesHut] {
        for n in [2, 3, 9, 40] {
            let (record, areas) = begun(&settings(method, n));
            for mut less in (0..7).filter_map(|which| one_less(&areas, which)) {
                let before = less.clone();
                let mut kept = record;
                assert_eq!(work(&mut kept, &mut less, 9).kind, Kind::Refused(Refusal(12)));
                assert!(kept == record && less == before);
            }
        }
    }
    let bad = Settings {
        c: 9,
        ..settings(Method::Exact, 5)
    };
    assert_eq!(sizes(&bad), Err(Refusal(1)));
}

#[test]
fn an_arena_has_at_least_one_node() {
    for (method, least) in [(Method::Exact, 0), (Method::BarnesHut, 1)] {
        let settings = settings(method, 3);
        let sizes = sizes(&settings).expect("good settings");
        for nodes in 0..2 {
            let (mut areas, mut rows) = (Areas::new(&sizes, nodes), Rows::new(&sizes));
            let prepared = prepare(&settings.words(), &[1.0; 6], &[2.0; 6], &mut areas, &mut rows);
            assert_eq!(prepared.err(), (nodes < least).then_some(Refusal(12)));
            assert_eq!(
                areas.nodes,
                vec![Node::default(); nodes],
                "preparation leaves the nodes as they are"
            );
        }
    }
}

#[test]
fn fourteen_never_comes_with_all_the_nodes() {
    let settings = settings(Method::BarnesHut, 30);
    let (mut record, mut areas) = begun(&settings);
    areas.positions.fill(1.5);
    assert_eq!(work(&mut record, &mut areas, u32::MAX).kind, Kind::Finished);
}

#[test]
fn a_record_is_kept_as_words() {
    for method in [Method::Exact, Method::BarnesHut] {
        let settings = settings(method, 12);
        let (mut whole, mut one_call) = begun(&settings);
        let answer = work(&mut whole, &mut one_call, u32::MAX);
        let (record, mut areas) = begun(&settings);
        let mut words = record.words;
        let mut units = 0;
        loop {
            let mut again = Record { words };
            let worked = work(&mut again, &mut areas, 5);
            words = again.words;
            units += worked.units;
            assert_eq!(again.units(), units);
            assert_eq!(again.iterations(), units / settings.iteration() as u64);
            if worked.kind != Kind::Running {
                assert_eq!((worked.kind, units), (answer.kind, answer.units));
                break;
            }
            assert_eq!(again.state(), Some(State::Running));
        }
        assert!(words == whole.words && areas == one_call);
    }
}

/// What a work call finds bad in a run that is at its insertions, after a change.
fn found(change: fn(&mut Record, &mut Areas)) -> Option<Fault> {
    let (mut record, mut areas) = begun(&settings(Method::BarnesHut, 5));
    assert_eq!(work(&mut record, &mut areas, 4).fault, None);
    change(&mut record, &mut areas);
    let worked = work(&mut record, &mut areas, 9);
    let number = match worked.fault.expect("it is refused at its entry") {
        Fault::Settings(_) => 21,
        Fault::Counters => 22,
        Fault::Areas => 12,
        Fault::Offsets(_) => 23,
        Fault::Index(_) => 24,
        Fault::Tree(_) => 25,
    };
    assert_eq!((worked.kind, worked.units), (Kind::Refused(Refusal(number)), 0));
    worked.fault
}

#[test]
fn what_is_found_bad() {
    assert_eq!(found(|record, _| record.words[2] = 4), Some(Fault::Settings(6)));
    assert_eq!(found(|record, _| record.words[3] = 2), Some(Fault::Settings(21)));
    let both = found(|record, _| (record.words[9], record.words[4]) = (3, 0));
    assert_eq!(both, Some(Fault::Settings(2)), "settings come before the state");
    assert_eq!(found(|record, _| record.words[9] = 3), Some(Fault::Counters));
    assert_eq!(found(|record, _| record.words[12] += 1), Some(Fault::Counters));
    assert_eq!(found(|_, areas| areas.forces.clear()), Some(Fault::Areas));
    assert_eq!(found(|_, areas| areas.nodes.clear()), Some(Fault::Areas));
    assert_eq!(found(|_, areas| areas.offsets[3] = u32::MAX), Some(Fault::Offsets(2)));
    assert_eq!(found(|_, areas| areas.indices[1] = 5), Some(Fault::Index(1)));
    assert_eq!(found(|_, areas| areas.nodes[2].count = 6), Some(Fault::Tree(2)));
    assert_eq!(found(|_, areas| areas.nodes[3].first = 3), Some(Fault::Tree(3)));
    assert_eq!(found(|_, areas| areas.nodes[1].leaf = u32::MAX), Some(Fault::Tree(1)));
    assert_eq!(found(|record, _| record.words[13] = u64::MAX), Some(Fault::Tree(0)));
}

#[test]
fn words_that_are_no_settings() {
    for method in [Method::Exact, Method::BarnesHut] {
        let words = settings(method, 3).words();
        let sizes = sizes(&settings(method, 3)).expect("good settings");
        let (mut areas, mut rows) = (Areas::new(&sizes, sizes.nodes), Rows::new(&sizes));
        let mut told = |words: &[u64]| prepare(words, &[], &[], &mut areas, &mut rows).err();
        for fewer in 0..9 {
            assert_eq!(told(&words[..fewer]), Some(Refusal(21)), "{fewer} words");
        }
        let mut other = words;
        other[3] = 2;
        other[2] = 0;
        assert_eq!(
            told(&other),
            Some(Refusal(21)),
            "a method that there is not comes before 1"
        );
        other[3] = words[3];
        assert_eq!(told(&other), Some(Refusal(1)));
        assert_eq!(told(&words), Some(Refusal(7)), "no table");
    }
}

#[test]
fn words_that_are_no_record() {
    let record = Record { words: [u64::MAX; 14] };
    assert_eq!((record.state(), record.iterations(), record.units()), (None, 0, 0));
}

#[test]
fn a_refused_call_keeps_every_bit_of_the_record() {
    let (mut record, mut areas) = begun(&settings(Method::Exact, 5));
    record.words[8] = 0x7ff8_0000_0000_1234; // a minimum that is another NaN
    record.words[11] = 99;
    let before = record;
    assert_eq!(work(&mut record, &mut areas, 1).kind, Kind::Refused(Refusal(22)));
    assert_eq!(record, before);
}
