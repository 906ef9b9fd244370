//! The map for the picture monitor: what holds of files and values at random, and the committed lists, replayed by the format of
//! tests/README.md; a flipped answer is noticed.

#[path = "replay/cases.rs"]
mod listed;
#[path = "replay/marks.rs"]
mod marks;

use listed::{cases, Reader};
use marks::{marked_numbers, marked_values};
use oracle::lists::monitor::{Placed, NONE};
use oracle::monitor::{narrow, read_monitor, widen, write_monitor, Refusal, RECORD};
use oracle::scatter::SplitMix64;
use oracle::words::{from_bytes, to_bytes};
use std::fs;
use std::path::Path;

const NARROW: &str = "replay_monitor/data/narrow.words";
const WRITES: &str = "replay_monitor/data/writes.words";
const READS: &str = "replay_monitor/data/reads.words";

fn told(told: Result<usize, Refusal>) -> Vec<u64> {
    match told {
        Ok(records) => vec![0, records as u64],
        Err(refusal) => vec![refusal.number(), refusal.place()],
    }
}

/// Byte i is i mod 251 and one.
fn marked_bytes(length: u64) -> Vec<u8> {
    (0..length).map(|i| (i % 251) as u8 + 1).collect()
}

fn bytes(words: &mut Reader, count: u64) -> Vec<u8> {
    words.many(count).into_iter().map(|word| word as u8).collect()
}

/// Whether a case of writing is right.
fn written_right(case: &[u64]) -> bool {
    let mut words = Reader(case);
    let n = words.one() as usize;
    let lengths = words.many(5);
    let pictures = words.numbers(lengths[0]);
    let sides = bytes(&mut words, lengths[1]);
    let fields = bytes(&mut words, lengths[2]);
    let positions = words.values(lengths[3]);
    let mut target = marked_bytes(lengths[4]);
    let mut answer = told(write_monitor(n, &pictures, &sides, &fields, &positions, &mut target));
    answer.extend(from_bytes(&target));
    answer == words.0
}

/// Whether a case of reading is right.
fn read_right(case: &[u64]) -> bool {
    let mut words = Reader(case);
    let bytes = words.one();
    let file = to_bytes(&words.many((bytes + 7) / 8));
    let room = words.many(4);
    let (mut pictures, mut sides, mut fields) = (marked_numbers(room[0]), marked_bytes(room[1]), marked_bytes(room[2]));
    let mut positions = marked_values(room[3]);
    let read = read_monitor(
        &file[..bytes as usize],
        &mut pictures,
        &mut sides,
        &mut fields,
        &mut positions,
    );
    let mut answer = told(read);
    answer.extend(pictures.iter().map(|&picture| u64::from(picture)));
    answer.extend(sides.iter().map(|&side| u64::from(side)));
    answer.extend(fields.iter().map(|&field| u64::from(field)));
    answer.extend(positions.iter().map(|v| v.to_bits()));
    answer == words.0
}

/// Where the answer of a case stands.
fn written_answer(case: &[u64]) -> usize {
    6 + case[1..5].iter().sum::<u64>() as usize
}

fn read_answer(case: &[u64]) -> usize {
    5 + (case[0] as usize + 7) / 8
}

#[test]
fn the_lists_are_right() {
    for (number, case) in cases(WRITES).iter().enumerate() {
        assert!(written_right(case), "writing, case {number}");
    }
    for (number, case) in cases(READS).iter().enumerate() {
        assert!(read_right(case), "reading, case {number}");
    }
    let crates = Path::new(env!("CARGO_MANIFEST_DIR")).join("../../crates");
    let list = from_bytes(&fs::read(crates.join(NARROW)).expect("a list"));
    for (number, case) in list.chunks(2).enumerate() {
        let wanted = narrow(f64::from_bits(case[0])).map_or(NONE, u64::from);
        assert_eq!(case[1], wanted, "narrowing, case {number}");
    }
}

/// Every word of every answer, with its lowest bit turned; and a word more.
fn flips(list: &str, answer: fn(&[u64]) -> usize, right: fn(&[u64]) -> bool) {
    for mut case in cases(list) {
        for place in answer(&case)..case.len() {
            case[place] ^= 1;
            assert!(!right(&case), "{list}, {place}");
            case[place] ^= 1;
        }
        case.push(0);
        assert!(!right(&case), "{list}, a word more");
    }
}

#[test]
fn a_flipped_answer_is_noticed() {
    flips(WRITES, written_answer, written_right);
    flips(READS, read_answer, read_right);
}

/// What a file says.
fn read(file: &[u8]) -> Result<Placed, Refusal> {
    let n = file.len() / RECORD;
    let (mut pictures, mut sides, mut fields, mut positions) = (vec![0; n], vec![0; n], vec![0; n], vec![0.0; 2 * n]);
    read_monitor(file, &mut pictures, &mut sides, &mut fields, &mut positions)?;
    Ok(Placed {
        pictures,
        sides,
        fields,
        positions,
    })
}

#[test]
fn reading_and_then_writing_gives_the_same_bytes() {
    let mut random = SplitMix64::new(21);
    let mut refused = 0;
    for turn in 0..4000 {
        let frames = (random.next() % 12) as usize;
        let placed = Placed::good(&mut random, frames);
        let mut file = placed.file();
        if turn % 2 == 1 && !file.is_empty() {
            let place = random.next() as usize % file.len();
            file[place] = random.next() as u8;
        }
        match read(&file) {
            Ok(found) => {
                assert_eq!(found.file(), file);
                // Narrowed once, nothing changes further.
                let again = read(&found.file()).expect("a good file");
                let bits = |placed: &Placed| placed.positions.iter().map(|v| v.to_bits()).collect::<Vec<u64>>();
                assert_eq!(bits(&again), bits(&found));
            }
            Err(_) => refused += 1,
        }
    }
    assert!(refused > 200, "{refused}");
}

#[test]
fn narrowing_keeps_the_order_and_the_sign() {
    let mut random = SplitMix64::new(22);
    for _ in 0..100_000 {
        let a = f64::from_bits(random.next());
        let b = f64::from_bits(a.to_bits() ^ 1 << (random.next() % 64));
        if let (Some(x), Some(y)) = (narrow(a), narrow(b)) {
            let (x, y) = (widen(x), widen(y));
            assert!((a > b || x <= y) && (a < b || x >= y), "{a:e} {b:e}");
            assert_eq!(x.is_sign_negative(), a.is_sign_negative());
        }
    }
}
