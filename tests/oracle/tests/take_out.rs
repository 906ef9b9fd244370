//! The committed list of frames taken out, replayed by the format of tests/README.md; a flipped answer is noticed.

#[path = "replay/digests.rs"]
mod digests;
#[path = "replay/marks.rs"]
mod marks;
#[path = "replay/reading.rs"]
mod reading;

use digests::{of_numbers, of_values};
use marks::{marked_numbers, marked_values};
use oracle::lists::park::words_of;
use oracle::take_out::take_out;
use oracle::tree::Node;
use reading::{cases, record, Reader};

const LIST: &str = "replay_take_out/data/takes.words";
/// The words after what is given: number and word 0, the record, nine digests.
const ANSWER: usize = 2 + 14 + 9;

/// Whether a case is right.
fn right(case: &[u64]) -> bool {
    let mut words = Reader(case);
    let mut record = record(&words.many(14));
    let lengths = words.many(8);
    let (table, gone, old) = (words.one(), words.one(), words.one());
    let mut areas = words.areas(&lengths, marked_values(lengths[6]));
    let (mut table, gone, mut old) = (words.values(table), words.numbers(gone), marked_numbers(old));
    let mut answer = match take_out(&mut record, &mut areas, &mut table, &gone, &mut old) {
        Ok(left) => vec![0, left as u64],
        Err(refusal) => vec![refusal.number(), refusal.place()],
    };
    answer.extend(words_of(&record));
    for area in [&areas.positions, &areas.increments, &areas.gains, &areas.affinities] {
        answer.push(of_values(area));
    }
    answer.extend([of_numbers(&areas.indices), of_numbers(&areas.offsets)]);
    answer.extend([of_values(&areas.forces), of_values(&table), of_numbers(&old)]);
    answer == words.0 && areas.nodes.iter().all(|node| *node == Node::default())
}

#[test]
fn the_list_is_right() {
    for (number, case) in cases(LIST).iter().enumerate() {
        assert!(right(case), "case {number}");
    }
}

#[test]
fn a_flipped_answer_is_noticed() {
    for mut case in cases(LIST) {
        for place in case.len() - ANSWER..case.len() {
            case[place] ^= 1;
            assert!(!right(&case), "{place}");
            case[place] ^= 1;
        }
        let longer = [case, vec![0]].concat();
        assert!(!right(&longer), "a word more");
    }
}
