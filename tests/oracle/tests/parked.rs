//! The committed lists of parked runs, replayed by the format of tests/README.md; a flipped answer is noticed.

#[path = "replay/marks.rs"]
mod marks;
#[path = "replay/reading.rs"]
mod reading;

use marks::{marked_numbers, marked_values};
use oracle::descent::Areas;
use oracle::lists::park::{place_of, words_of};
use oracle::park::{park, unpark, RECORD};
use oracle::tree::Node;
use oracle::words::{from_bytes, to_bytes};
use reading::{cases, record, Reader};

/// Every element of the areas from positions to offsets.
fn contents(areas: &Areas) -> Vec<u64> {
    let values = [&areas.positions, &areas.increments, &areas.gains, &areas.affinities];
    let mut words: Vec<u64> = values
        .iter()
        .flat_map(|area| area.iter().map(|v| v.to_bits()))
        .collect();
    words.extend(areas.indices.iter().chain(&areas.offsets).map(|&k| u64::from(k)));
    words
}

/// Whether a case of writing is right.
fn written(case: &[u64]) -> bool {
    let mut words = Reader(case);
    let record = record(&words.many(14));
    let lengths = words.many(8);
    let bytes = words.one() as usize;
    let areas = words.areas(&lengths, vec![f64::NAN; lengths[6] as usize]);
    let answer = words.many(2);
    let mut target: Vec<u8> = (0..bytes).map(|place| (place % 251) as u8 + 1).collect();
    let told = match park(&record, &areas, &mut target) {
        Ok(records) => [0, records as u64],
        Err(refusal) => [refusal.number(), place_of(refusal)],
    };
    told[..] == answer && from_bytes(&target) == words.0
}

/// Whether a case of reading is right, and what was read is written as the same bytes.
fn read(case: &[u64]) -> bool {
    let mut words = Reader(case);
    let bytes = words.one();
    let mut file = to_bytes(&words.many((bytes + 7) / 8));
    file.truncate(bytes as usize);
    let lengths = words.many(8);
    let mut areas = Areas {
        positions: marked_values(lengths[0]),
        increments: marked_values(lengths[1]),
        gains: marked_values(lengths[2]),
        affinities: marked_values(lengths[3]),
        indices: marked_numbers(lengths[4]),
        offsets: marked_numbers(lengths[5]),
        forces: marked_values(lengths[6]),
        nodes: vec![Node::default(); lengths[7] as usize],
    };
    let before = areas.clone();
    let answer = words.many(2);
    match unpark(&file, &mut areas) {
        Ok(record) => {
            let forces = record.settings.n * (2 * record.settings.c + 1);
            let mut again = vec![0; file.len()];
            answer == [0, (file.len() / RECORD) as u64]
                && words.0[..14] == words_of(&record)
                && words.0[14..] == contents(&areas)
                && areas.forces[..forces].iter().all(|v| v.to_bits() == 0)
                && areas.forces[forces..] == before.forces[forces..]
                && park(&record, &areas, &mut again) == Ok(file.len() / RECORD)
                && again == file
        }
        Err(refusal) => answer == [refusal.number(), place_of(refusal)] && words.0.is_empty() && areas == before,
    }
}

#[test]
fn the_lists_are_right() {
    assert!(cases("replay_park/data/parks.words").iter().all(|case| written(case)));
    assert!(cases("replay_park/data/unparks.words").iter().all(|case| read(case)));
}

#[test]
fn a_flipped_answer_is_noticed() {
    for mut case in cases("replay_park/data/parks.words") {
        let targets = (case[22] as usize + 7) / 8;
        for place in case.len() - targets - 2..case.len() {
            case[place] ^= 1;
            assert!(!written(&case));
            case[place] ^= 1;
        }
    }
    for mut case in cases("replay_park/data/unparks.words") {
        for place in 9 + (case[0] as usize + 7) / 8..case.len() {
            case[place] ^= 1;
            assert!(!read(&case), "{place}");
            case[place] ^= 1;
        }
    }
}
