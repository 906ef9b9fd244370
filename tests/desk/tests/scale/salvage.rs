//! Scuffed frame files against the independent implementation: what is kept of them and what is told of the rest. After each call number,
//! both words, every byte of the target and every place of places and rules, tails included, have to be the same on both sides. What is
//! kept the library's own reader takes, a good file comes through unchanged, and so does what was salvaged; kept and told together are all
//! records, and what the reader refuses is the first that is told.

use crate::met::{all_met, meet, Met};
use crate::random::Random;
use crate::{each_seed, setting};
use brothanchor::map::RECORD;
use brothanchor::{frames, salvage, Refusal, Rule, Salvaged, Stretch};
use oracle::lists::salvage::{good, records_of};
use oracle::salvage::salvage as salvage_by_the_text;
use std::time::Instant;

/// How long the areas are: target in bytes, places, rules.
type Room = [usize; 3];

/// As much as a file asks for.
fn room(file: &[u8]) -> Room {
    let records = file.chunks(RECORD).len();
    [RECORD * (file.len() / RECORD), records, records]
}

/// What is lent.
#[derive(Clone, Debug, PartialEq)]
struct Lent {
    target: Vec<u8>,
    places: Vec<u64>,
    rules: Vec<u8>,
}

fn lent([target, places, rules]: Room) -> Lent {
    Lent {
        target: (0..target).map(|place| place as u8 ^ 0x5a).collect(),
        places: (0..places as u64).map(|place| u64::MAX - place).collect(),
        rules: (0..rules).map(|place| place as u8 | 0x80).collect(),
    }
}

/// Salvages on both sides; how many are kept and told, or the number of the refusal, and what there is then.
fn salvage_both(file: &[u8], room: Room) -> (Result<[usize; 2], u32>, Lent) {
    let (mut ours, mut theirs) = (lent(room), lent(room));
    let told = salvage(file, &mut ours.target, &mut ours.places, &mut ours.rules).map_err(|Refusal(number)| number);
    let wanted = salvage_by_the_text(file, &mut theirs.target, &mut theirs.places, &mut theirs.rules);
    assert_eq!(told, wanted.map(|found| [found.kept, found.told]).map_err(|_| 12));
    assert!(ours.target == theirs.target, "the targets differ");
    assert_eq!((&ours.places, &ours.rules), (&theirs.places, &theirs.rules));
    (told, ours)
}

/// Salvages a file with room for so much more than it asks for; what holds of every file.
fn salvaged(file: &[u8], more: usize, met: &mut Met) -> [usize; 2] {
    let room = room(file).map(|length| length + more);
    let (told, found) = salvage_both(file, room);
    let [kept, dropped] = told.expect("room enough");
    assert_eq!(
        kept + dropped,
        file.chunks(RECORD).len(),
        "kept and told together are all"
    );
    let (good, tail) = found.target.split_at(RECORD * kept);
    assert_eq!(frames(good), Ok(kept), "the reader takes what is kept");
    let before = lent(room);
    assert!(tail == &before.target[RECORD * kept..], "the target's tail is kept");
    assert!(found.places[dropped..] == before.places[dropped..] && found.rules[dropped..] == before.rules[dropped..]);
    match frames(file) {
        Ok(_) => {
            assert!(dropped == 0 && good == file, "a good file comes through unchanged");
            meet(met, "a good file");
        }
        Err((_, place)) => {
            let before = RECORD * place;
            assert!(
                place <= kept && good[..before] == file[..before],
                "what the reader passed stands first"
            );
            assert_eq!(found.places[0], place as u64, "what the reader refuses is told first");
        }
    }
    unchanged(good, kept);
    for &number in &found.rules[..dropped] {
        meet(met, format!("{:?}", Rule::of(number).expect("a rule")));
    }
    [kept, dropped]
}

/// What was salvaged comes through once more unchanged, with nothing told.
fn unchanged(good: &[u8], kept: usize) {
    let room = room(good);
    let mut again = lent(room);
    let told = salvage(good, &mut again.target, &mut again.places, &mut again.rules);
    assert_eq!(told, Ok([kept, 0]));
    let before = lent(room);
    assert!(again.target == good && again.places == before.places && again.rules == before.rules);
}

/// A file damaged in one of the ways in which a drive does.
fn scuff(random: &mut Random, file: &mut Vec<u8>) {
    let records = file.len() / RECORD;
    if records == 0 {
        file.extend((0..random.below(80)).map(|_| 0));
        return;
    }
    let (one, other) = (random.below(records), random.below(records));
    let (one_at, other_at) = (RECORD * one, RECORD * other);
    match random.below(9) {
        0 => {
            let at = random.below(file.len());
            file[at] = random.word() as u8;
        }
        // A stretch of rubbish, of zeros or of ones.
        1 => {
            let first = random.below(file.len());
            let last = (first + random.within(1, 200)).min(file.len());
            let kind = random.below(3);
            for byte in &mut file[first..last] {
                *byte = [0, 255, random.word() as u8][kind];
            }
        }
        2 => drop(file.drain(one_at..one_at + RECORD)),
        3 => {
            let copy = file[one_at..one_at + RECORD].to_vec();
            file.splice(other_at..other_at, copy);
        }
        4 => (0..RECORD).for_each(|at| file.swap(one_at + at, other_at + at)),
        // Bytes that are lost, so that what follows is out of step.
        5 => {
            let first = random.below(file.len());
            let last = (first + random.within(1, 100)).min(file.len());
            drop(file.drain(first..last));
        }
        6 => {
            let picture = random.one_of(&[0, 1, 500, 66_740, 79_999, 80_000, u32::MAX]);
            file[one_at..one_at + 4].copy_from_slice(&picture.to_le_bytes());
        }
        7 => {
            let at = one_at + random.within(4, 7);
            file[at] = random.one_of(&[0, 1, 2, 3, 255]);
        }
        _ => {
            let at = one_at + 8 + 8 * random.below(8);
            file[at..at + 8].copy_from_slice(&random.odd_value().to_le_bytes());
        }
    }
}

/// The names of the rules.
fn all_rules() -> Vec<String> {
    (1..=7)
        .map(|number| format!("{:?}", Rule::of(number).expect("a rule")))
        .collect()
}

#[test]
fn scuffed_files_at_random() {
    let met = each_seed("scuffed", setting("BROTHANCHOR_RUNS", 300), |random, met: &mut Met| {
        for _ in 0..20 {
            let records = random.below(40);
            let mut file = good(random.source(), records);
            assert_eq!(salvaged(&file, random.below(3), met), [records, 0]);
            for _ in 0..random.within(1, 5) {
                scuff(random, &mut file);
            }
            salvaged(&file, random.below(90), met);
            other_rooms(random, &file, met);
        }
    });
    let mut wanted = all_rules();
    wanted.push("a good file".to_string());
    for area in ["target", "places", "rules"] {
        wanted.extend([format!("{area} short"), format!("{area} longer")]);
    }
    all_met(&met, wanted);
}

/// One area one short, after which nothing has changed; and one longer.
fn other_rooms(random: &mut Random, file: &[u8], met: &mut Met) {
    let enough = room(file);
    let area = random.below(3);
    let name = ["target", "places", "rules"][area];
    if enough[area] > 0 {
        let mut short = enough;
        short[area] -= random.one_of(&[1, 1, enough[area]]);
        let (told, found) = salvage_both(file, short);
        assert_eq!((told, found), (Err(12), lent(short)), "{name} short");
        meet(met, format!("{name} short"));
    }
    let mut longer = enough;
    longer[area] += random.within(1, 200);
    assert!(salvage_both(file, longer).0.is_ok());
    meet(met, format!("{name} longer"));
}

#[test]
fn every_byte_of_small_files() {
    let mut random = Random::new(setting("BROTHANCHOR_SEED", 1));
    let mut met = Met::new();
    for pairs in [&[(7, 0)][..], &[(256, 1), (256, 2), (79_999, 0)]] {
        let file = records_of(random.source(), pairs);
        for at in 0..file.len() {
            for byte in 0..=255 {
                let mut scuffed = file.clone();
                scuffed[at] = byte;
                salvaged(&scuffed, 0, &mut met);
            }
        }
    }
    let mut wanted = all_rules();
    wanted.retain(|rule| rule != "Tail");
    all_met(&met, wanted);
}

#[test]
fn every_length_of_small_files() {
    let mut random = Random::new(setting("BROTHANCHOR_SEED", 1));
    let mut met = Met::new();
    let file = good(random.source(), 4);
    for length in 0..=file.len() {
        let tail = usize::from(length % RECORD != 0);
        assert_eq!(salvaged(&file[..length], 0, &mut met), [length / RECORD, tail]);
        // Of what begins in the middle of a record nothing is known, but what holds of every file.
        salvaged(&file[length..], 1, &mut met);
    }
}

/// All orders of two records of pictures 1 to 3 with any field, also one that there is not, and of four of two pictures.
#[test]
fn orders_of_records() {
    let mut random = Random::new(1);
    let mut met = Met::new();
    let pairs = |last: u32| -> Vec<(u32, u8)> {
        (1..=last)
            .flat_map(|picture| (0..4).map(move |field| (picture, field)))
            .collect()
    };
    for first in pairs(3) {
        for second in pairs(3) {
            salvaged(&records_of(random.source(), &[first, second]), 0, &mut met);
        }
    }
    for word in 0..8_usize.pow(4) {
        let chosen: Vec<(u32, u8)> = (0..4).map(|digit| pairs(2)[word >> (3 * digit) & 7]).collect();
        salvaged(&records_of(random.source(), &chosen), 0, &mut met);
    }
    all_met(
        &met,
        ["Order".to_string(), "Field".to_string(), "a good file".to_string()],
    );
}

/// Files of rubbish, of any length.
#[test]
fn rubbish() {
    let met = each_seed("rubbish", setting("BROTHANCHOR_RUNS", 300), |random, met: &mut Met| {
        for _ in 0..20 {
            let length = random.below(800);
            let kind = random.below(4);
            let file: Vec<u8> = (0..length)
                .map(|_| [0, 255, (random.word() % 4) as u8, random.word() as u8][kind])
                .collect();
            salvaged(&file, random.below(3), met);
        }
    });
    all_met(&met, ["Picture", "Tail", "Side"].map(String::from));
}

/// What the wrapper makes of it, with pictures and stretches.
#[test]
fn stretches_that_are_dropped_for_their_order() {
    let mut random = Random::new(1);
    let pictures = [10, 11, 66_740, 12, 13, 14, 15, 16, 66_741, 17];
    let pairs: Vec<(u32, u8)> = pictures.iter().map(|&picture| (picture, 0)).collect();
    let found = Salvaged::of(&records_of(random.source(), &pairs)).expect("room enough");
    assert_eq!((found.kept(), found.dropped.len()), (4, 6));
    assert!(found.dropped.iter().all(|dropped| dropped.rule == Rule::Order));
    assert_eq!(
        (found.dropped[0].picture, found.dropped[0].last_kept),
        (Some(12), Some(66_740))
    );
    assert_eq!(
        (found.dropped[5].picture, found.dropped[5].last_kept),
        (Some(17), Some(66_741))
    );
    let stretch = Stretch {
        count: 5,
        first: 3,
        last: 7,
        after: 2,
        picture: 66_740,
    };
    assert_eq!(found.stretches(3), [stretch]);
    assert_eq!(found.stretches(0).len(), 2);
}

/// As many records as there may be: all of them in their order, and all but one too many.
#[test]
fn a_file_of_all_pictures() {
    let mut random = Random::new(1);
    let pairs: Vec<(u32, u8)> = (1..=79_999).flat_map(|picture| [(picture, 1), (picture, 2)]).collect();
    let mut file = records_of(random.source(), &pairs);
    let mut met = Met::new();
    assert_eq!(salvaged(&file, 0, &mut met), [159_998, 0]);
    file.extend(records_of(random.source(), &[(79_999, 2)]));
    assert_eq!(salvaged(&file, 0, &mut met), [159_998, 1]);
    // The first record says the last picture: all others are out of order.
    file[..4].copy_from_slice(&79_999_u32.to_le_bytes());
    assert_eq!(salvaged(&file, 0, &mut met), [2, 159_997]);
}

#[test]
#[ignore = "tells times; by hand"]
fn times_of_a_full_side_that_is_salvaged() {
    let mut random = Random::new(setting("BROTHANCHOR_SEED", 1));
    let file = good(random.source(), 4096);
    let mut scuffed = file.clone();
    for _ in 0..400 {
        let at = random.below(scuffed.len());
        scuffed[at] = random.word() as u8;
    }
    let rubbish: Vec<u8> = (0..file.len()).map(|_| random.word() as u8).collect();
    for (name, file) in [
        ("a good file", file),
        ("400 bytes scuffed", scuffed),
        ("rubbish", rubbish),
    ] {
        let mut found = lent(room(&file));
        let rounds = 21;
        let mut times = Vec::new();
        for _ in 0..rounds {
            let begin = Instant::now();
            let told = salvage(&file, &mut found.target, &mut found.places, &mut found.rules);
            times.push(begin.elapsed());
            assert!(told.is_ok());
        }
        times.sort_unstable();
        println!("4096 records, {name}: {:?} (the middle of {rounds})", times[rounds / 2]);
    }
}
