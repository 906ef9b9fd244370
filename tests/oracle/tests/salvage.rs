//! Scuffed frame files: what holds of files at random, and the committed lists, replayed by the format of tests/README.md; a flipped
//! answer is noticed.

#[path = "replay/cases.rs"]
mod listed;

use listed::{cases, Reader};
use oracle::frames::{check, Checked, RECORD};
use oracle::lists::salvage::good;
use oracle::salvage::{broken, salvage, sorted_out, Rule};
use oracle::scatter::SplitMix64;
use oracle::words::{from_bytes, to_bytes};

const LISTS: [&str; 3] = [
    "replay_salvage/data/bytes.words",
    "replay_salvage/data/orders.words",
    "replay_salvage/data/scuffed.words",
];

/// Byte i is i mod 251 and one.
fn marked_bytes(length: u64) -> Vec<u8> {
    (0..length).map(|i| (i % 251) as u8 + 1).collect()
}

/// Whether a case is right.
fn right(case: &[u64]) -> bool {
    let mut words = Reader(case);
    let bytes = words.one();
    let file = to_bytes(&words.many((bytes + 7) / 8));
    let (mut target, places, rules) = (marked_bytes(words.one()), words.one(), words.one());
    let mut places: Vec<u64> = (0..places).map(|i| (1 << 62) + i).collect();
    let mut rules = marked_bytes(rules);
    let mut answer = match salvage(&file[..bytes as usize], &mut target, &mut places, &mut rules) {
        Ok(salvaged) => vec![0, salvaged.kept as u64, salvaged.told as u64],
        Err(_) => vec![12, 0, 0],
    };
    answer.extend(from_bytes(&target));
    answer.extend(places);
    answer.extend(rules.iter().map(|&rule| u64::from(rule)));
    answer == words.0
}

#[test]
fn the_lists_are_right() {
    for list in LISTS {
        for (number, case) in cases(list).iter().enumerate() {
            assert!(right(case), "{list}, case {number}");
        }
    }
}

#[test]
fn a_flipped_answer_is_noticed() {
    for list in LISTS {
        for mut case in cases(list) {
            for place in 4 + (case[0] as usize + 7) / 8..case.len() {
                case[place] ^= 1;
                assert!(!right(&case), "{list}, {place}");
                case[place] ^= 1;
            }
            case.push(0);
            assert!(!right(&case), "{list}, a word more");
        }
    }
}

/// A file scuffed in any number of places: bytes, records, its end.
fn scuffed(random: &mut SplitMix64) -> Vec<u8> {
    let records = (random.next() % 20) as usize;
    let mut file = good(random, records);
    for _ in 0..random.next() % 4 {
        if !file.is_empty() {
            let at = random.next() as usize % file.len();
            file[at] = random.next() as u8;
        }
    }
    if random.next() % 3 == 0 {
        let from = random.next() as usize % (file.len() + 1);
        file.drain(from..(from + random.next() as usize % 100).min(file.len()));
    }
    file
}

#[test]
fn what_is_salvaged_of_any_file() {
    let mut random = SplitMix64::new(31);
    let (mut dropped, mut whole) = (0, 0);
    for _ in 0..3000 {
        let file = scuffed(&mut random);
        let (kept, told) = sorted_out(&file);
        let count = kept.len() / RECORD;
        assert_eq!(check(&kept), Checked::Good(count), "the reader takes it");
        assert_eq!(count + told.len(), file.chunks(RECORD).len(), "kept and told are all");
        assert!(told.windows(2).all(|two| two[0].0 < two[1].0), "places rise");
        // What is kept are the other records, in their order.
        let others = file.chunks(RECORD).enumerate();
        let others = others.filter(|(place, _)| told.iter().all(|told| told.0 != *place));
        assert_eq!(
            kept,
            others.flat_map(|(_, record)| record.to_vec()).collect::<Vec<u8>>()
        );
        // A record that is told for itself is so wherever it stands.
        for (place, rule) in &told {
            let record = file.chunks(RECORD).nth(*place).expect("a record");
            let alone = broken(record, None);
            assert_eq!(alone, Some(*rule).filter(|rule| *rule != Rule::Order));
        }
        // A good file comes through unchanged, and only a good one.
        let is_good = check(&file) == Checked::Good(file.len() / RECORD);
        assert_eq!(is_good, told.is_empty() && kept == file);
        assert_eq!(sorted_out(&kept), (kept.clone(), Vec::new()), "once is enough");
        dropped += told.len();
        whole += usize::from(is_good);
    }
    assert!(dropped > 3000 && whole > 300, "{dropped} dropped, {whole} good files");
}
