//! The committed lists of partners' lists, replayed by the format of tests/README.md; a flipped answer is noticed.

#[path = "replay/marks.rs"]
mod marks;
#[path = "replay/reading.rs"]
mod reading;

use marks::{marked_numbers, marked_values};
use oracle::descent::Areas;
use oracle::lists::park::words_of;
use oracle::partner::{import, write_lists};
use oracle::tree::Node;
use oracle::words::{from_bytes, to_bytes};
use reading::{cases, record, Reader};

const IMPORTS: &str = "replay_import/data/partner.words";
const LISTS: &str = "replay_import/data/lists.words";

/// Every element of the areas from positions to offsets.
fn contents(areas: &Areas) -> Vec<u64> {
    let values = [&areas.positions, &areas.increments, &areas.gains, &areas.affinities];
    let mut words: Vec<u64> = values
        .iter()
        .flat_map(|area| area.iter().map(|v| v.to_bits()))
        .collect();
    words.extend(areas.indices.iter().chain(&areas.offsets).map(|&k| u64::from(k)));
    words
}

/// Whether a case of loading is right, and what was loaded is written as the same bytes.
fn loaded(case: &[u64]) -> bool {
    let mut words = Reader(case);
    let mut settings = words.many(9);
    // The method is not looked at, and the record is not one yet.
    settings[3] = 0;
    settings.extend([0; 5]);
    let settings = record(&settings).settings;
    let (room, start, bytes) = (words.one(), words.one(), words.one());
    let lengths = words.many(8);
    let start = words.values(start);
    let mut file = to_bytes(&words.many((bytes + 7) / 8));
    file.truncate(bytes as usize);
    let mut areas = Areas {
        positions: marked_values(lengths[0]),
        increments: marked_values(lengths[1]),
        gains: marked_values(lengths[2]),
        affinities: marked_values(lengths[3]),
        indices: marked_numbers(lengths[4]),
        offsets: marked_numbers(lengths[5]),
        forces: marked_values(lengths[6]),
        nodes: vec![Node::default(); lengths[7] as usize],
    };
    let before = areas.clone();
    let answer = words.many(2);
    match import(settings, &start, &file, &mut areas) {
        Ok(record) if room >= 14 => {
            let forces = record.settings.n * (2 * record.settings.c + 1);
            let mut again = vec![0; file.len()];
            answer == [0, file.len() as u64 / 16]
                && words.0[..14] == words_of(&record)
                && words.0[14..] == contents(&areas)
                && areas.forces[..forces].iter().all(|v| v.to_bits() == 0)
                && areas.forces[forces..] == before.forces[forces..]
                && write_lists(&record, &areas, &mut again) == Ok(file.len() / 16)
                && again == file
        }
        told => {
            // A record's area that is too short is told with the other areas.
            let told = match told.map_err(|refusal| [refusal.number(), refusal.place()]) {
                Err(told) if room >= 14 || told[0] < 19 => told,
                _ => [12, 0],
            };
            answer == told && words.0.is_empty() && (room < 14 || areas == before)
        }
    }
}

/// Whether a case of writing is right.
fn written(case: &[u64]) -> bool {
    let mut words = Reader(case);
    let record = record(&words.many(14));
    let lengths = words.many(8);
    let bytes = words.one() as usize;
    let areas = words.areas(&lengths, vec![f64::NAN; lengths[6] as usize]);
    let answer = words.many(2);
    let mut target: Vec<u8> = (0..bytes).map(|place| (place % 251) as u8 + 1).collect();
    let told = match write_lists(&record, &areas, &mut target) {
        Ok(records) => [0, records as u64],
        Err(refusal) => [refusal.number(), refusal.place()],
    };
    told[..] == answer && from_bytes(&target) == words.0
}

#[test]
fn the_lists_are_right() {
    for (number, case) in cases(IMPORTS).iter().enumerate() {
        assert!(loaded(case), "case {number} of loading");
    }
    for (number, case) in cases(LISTS).iter().enumerate() {
        assert!(written(case), "case {number} of writing");
    }
}

#[test]
fn a_flipped_answer_is_noticed() {
    for mut case in cases(IMPORTS) {
        for place in 20 + case[10] as usize + (case[11] as usize + 7) / 8..case.len() {
            case[place] ^= 1;
            assert!(!loaded(&case), "{place}");
            case[place] ^= 1;
        }
    }
    for mut case in cases(LISTS) {
        let targets = (case[22] as usize + 7) / 8;
        for place in case.len() - targets - 2..case.len() {
            case[place] ^= 1;
            assert!(!written(&case), "{place}");
            case[place] ^= 1;
        }
    }
}
