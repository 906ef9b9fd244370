//! The frame files for the bench: good ones of every size, refused ones of every kind.

use crate::bench::printed;
use crate::elementary::{DOMAIN, NAN};
use crate::frames::{record, FIELD_AT, LAST_PICTURE, RECORD, SIDE_AT, SPARE_AT, VALUES_AT};
use crate::scatter::SplitMix64;
use crate::words::from_bytes;

/// The most records that the bench takes.
const MOST: usize = 64;
/// All files, the small ones at random among them.
const FILES: usize = 1000;

/// Length in bytes, then the bytes filled up with zeros to whole words.
pub fn cases() -> Vec<Vec<u64>> {
    files()
        .iter()
        .map(|bytes| [vec![bytes.len() as u64], from_bytes(bytes)].concat())
        .collect()
}

/// What is printed for all of them: a line with the file's number, then what the bench prints.
pub fn text() -> String {
    let numbered = files().into_iter().enumerate();
    numbered
        .map(|(number, bytes)| format!("case {number}\n{}", printed(&bytes)))
        .collect()
}

/// The scope paper's example: pictures 101 and 102, side 1, features all 0 and first 1, starts (0,0) and (1,0).
pub fn example() -> Vec<u8> {
    let mut one = [0.0; 8];
    one[0] = 1.0;
    one[6] = 1.0;
    [record(101, 1, 0, &[0.0; 8]), record(102, 1, 0, &one)].concat()
}

/// Every file.
fn files() -> Vec<Vec<u8>> {
    let mut found = [lengths(), bad_records(), alike(), maps()].concat();
    found.extend(stills(FILES - found.len()));
    found
}

/// So many frames with features in [-reach, reach] and starts in [-spread, spread].
fn scattered(records: usize, reach: f64, spread: f64, seed: u64) -> Vec<u8> {
    let mut random = SplitMix64::new(seed);
    let mut file = Vec::new();
    for place in 0..records {
        let picture = 800 * place as u32 + 1 + (random.next() % 800) as u32;
        let side = 1 + (random.next() % 2) as u8;
        let mut values = [0.0; 8];
        for (i, value) in values.iter_mut().enumerate() {
            let most = if i < 6 { reach } else { spread };
            *value = (2.0 * random.unit() - 1.0) * most;
        }
        file.extend(record(picture, side, 0, &values));
    }
    file
}

/// The example; files of no, one, two, 64 and 65 records, with tails, and bytes just within and past the limit.
fn lengths() -> Vec<Vec<u8>> {
    let many = scattered(MOST + 1, 4.0, 8.0, 1);
    let ends = [
        0,
        1,
        71,
        RECORD,
        RECORD + 1,
        2 * RECORD,
        3 * RECORD - 1,
        MOST * RECORD - 1,
        MOST * RECORD,
        MOST * RECORD + 1,
        (MOST + 1) * RECORD,
    ];
    let mut found = vec![example()];
    found.extend(ends.iter().map(|&end| many[..end].to_vec()));
    found.extend([vec![0; MOST * RECORD], vec![0; MOST * RECORD + 1]]);
    found
}

/// Three records, one of them bad: each rule broken in the first and in the last.
fn bad_records() -> Vec<Vec<u8>> {
    let mut found = Vec::new();
    for place in [0, 2] {
        let mut pictures = vec![0, LAST_PICTURE + 1, u32::MAX];
        if place > 0 {
            let before = &good()[RECORD * (place - 1)..][..4];
            let before = u32::from_le_bytes([before[0], before[1], before[2], before[3]]);
            pictures.extend([before, before - 1]);
        }
        found.extend(pictures.iter().map(|picture| changed(place, 0, &picture.to_le_bytes())));
        found.extend([0, 3, 255].map(|side| changed(place, SIDE_AT, &[side])));
        found.extend([3, 255].map(|field| changed(place, FIELD_AT, &[field])));
        found.extend((SPARE_AT..VALUES_AT).map(|at| changed(place, at, &[1])));
        for value in [0, 5, 6, 7] {
            let at = VALUES_AT + 8 * value;
            found.extend(outside().map(|bits| changed(place, at, &bits.to_le_bytes())));
        }
    }
    found
}

/// Values that no record may hold: NaN, the infinities, next above 2^20 in magnitude.
fn outside() -> [u64; 5] {
    let beyond = f64::from_bits(DOMAIN.to_bits() + 1);
    [
        NAN,
        f64::INFINITY.to_bits(),
        f64::NEG_INFINITY.to_bits(),
        beyond.to_bits(),
        (-beyond).to_bits(),
    ]
}

/// The three-record file that is damaged.
fn good() -> Vec<u8> {
    scattered(3, 4.0, 8.0, 2)
}

/// It, with the bytes of one record from byte `at` on written over.
fn changed(place: usize, at: usize, bytes: &[u8]) -> Vec<u8> {
    let mut file = good();
    let from = RECORD * place + at;
    file[from..from + bytes.len()].copy_from_slice(bytes);
    file
}

/// So many frames that are all alike: coincident features, and starts in the given places by turns.
fn coincident(records: usize, features: [f64; 6], starts: &[[f64; 2]]) -> Vec<u8> {
    let mut values = [0.0; 8];
    values[..6].copy_from_slice(&features);
    let mut file = Vec::new();
    for place in 0..records {
        values[6..].copy_from_slice(&starts[place % starts.len()]);
        file.extend(record(place as u32 + 1, 1, 0, &values));
    }
    file
}

/// Coincident frames, coincident starts; two pairs of starts that coincide, apart from each other, need more than 256 nodes.
fn alike() -> Vec<Vec<u8>> {
    let [here, there, near] = [[0.5, 0.25], [-3.0, 2.0], [0.5 + 1e-9, 0.25]];
    vec![
        coincident(2, [0.0; 6], &[here]),
        coincident(5, [1.0; 6], &[here]),
        coincident(64, [1.0; 6], &[here]),
        coincident(4, [1.0; 6], &[here, there]),
        coincident(6, [1.0; 6], &[here, there, near]),
        coincident(3, [1.0; 6], &[here, there, near]),
        coincident(2, [1.0; 6], &[here, there]),
        coincident(2, [DOMAIN; 6], &[[DOMAIN, -DOMAIN], [-DOMAIN, DOMAIN]]),
        coincident(2, [0.0; 6], &[[0.0, 0.0], [-0.0, -0.0]]),
    ]
}

/// Maps of several sizes, of frames close together and far apart.
fn maps() -> Vec<Vec<u8>> {
    let mut found: Vec<Vec<u8>> = (2..=9).map(|n| scattered(n, 4.0, 8.0, 100 + n as u64)).collect();
    for (seed, n) in [(1, 16), (2, 33), (3, 64)] {
        for (reach, spread) in [(0.001, 1e-4), (1.0, 50.0), (DOMAIN, DOMAIN)] {
            found.push(scattered(n, reach, spread, 200 + seed));
        }
    }
    found
}

/// Files of one to four records with fields among them, close to each other and to the last picture. In half of them a still
/// has its fields in order; in the others pictures and fields are what they happen to be.
fn stills(files: usize) -> Vec<Vec<u8>> {
    let mut random = SplitMix64::new(300);
    (0..files).map(|_| still(&mut random)).collect()
}

fn still(random: &mut SplitMix64) -> Vec<u8> {
    let good = random.next() % 2 == 0;
    let base = [1, 53_998, LAST_PICTURE - 3][(random.next() % 3) as usize];
    let mut pairs: Vec<(u32, u8)> = (0..2 + random.next() % 3)
        .map(|_| (base + (random.next() % 5) as u32, (random.next() % 3) as u8))
        .collect();
    if good {
        pairs = (base..=LAST_PICTURE)
            .take(4)
            .flat_map(|picture| fields(picture, random))
            .collect();
        pairs.truncate(4);
    }
    let values = |random: &mut SplitMix64| [(); 8].map(|()| (random.next() % 9) as f64 - 4.0);
    let mut file = Vec::new();
    for (picture, field) in pairs {
        let side = 1 + (random.next() % 2) as u8;
        file.extend(record(picture, side, field, &values(random)));
    }
    file
}

/// A picture as it may be stored: whole, in two fields, as either field alone, or not at all.
fn fields(picture: u32, random: &mut SplitMix64) -> Vec<(u32, u8)> {
    let stored: [&[u8]; 6] = [&[0], &[0], &[1, 2], &[1], &[2], &[]];
    let stored = stored[(random.next() % 6) as usize];
    stored.iter().map(|&field| (picture, field)).collect()
}

#[cfg(test)]
mod tests {
    use super::*;

    #[test]
    fn every_answer_is_met() {
        let text = text();
        for line in [
            "finished 6",
            "finished 130",
            "refused 7",
            "refused 9",
            "refused 14",
            "refused 16 record 0",
        ] {
            assert!(text.lines().any(|found| found == line), "{line}");
        }
    }

    #[test]
    fn fields_are_met() {
        let text = text();
        for start in ["79999 1 2 ", "79998 2 1 ", "1 1 1 ", "1 1 2 ", "1 1 0 "] {
            assert!(text.lines().any(|found| found.starts_with(start)), "{start}");
        }
        let refused = text.lines().filter(|line| line.starts_with("refused 16")).count();
        assert!((300..700).contains(&refused), "{refused}");
    }

    #[test]
    fn a_thousand_files() {
        assert_eq!(cases().len(), FILES);
    }

    #[test]
    fn the_list_stays_small() {
        assert!(8 * cases().concat().len() < 524_288);
    }
}
