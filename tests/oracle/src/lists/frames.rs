//! The list for the frame file: good files, stray tails, and a four-record file damaged in every way that matters.

use crate::elementary::{DOMAIN, NAN};
use crate::frames::{
    check, fetch, record, Checked, Frame, FEATURES, FIELD_AT, LAST_PICTURE, RECORD, SIDE_AT, SPARE_AT, STARTS,
    VALUES_AT,
};
use crate::scatter::SplitMix64;
use crate::words::from_bytes;

/// Records of the file that is damaged.
const RECORDS: usize = 4;
/// Values of a record.
const VALUES: usize = FEATURES + STARTS;

/// Length in bytes, kind (0 good, 1 bad), count or place, then the bytes filled up with zeros to whole words; for a
/// good file then eleven words for each frame: picture, side, field, the features' and the starts' bits.
pub fn cases() -> Vec<Vec<u64>> {
    let mut files = good_files();
    files.extend(files_with_a_tail());
    for place in 0..RECORDS {
        files.extend(changes(place).iter().map(|change| changed(&[change])));
    }
    files.extend(twice_damaged());
    files.extend(orders());
    files.iter().map(|bytes| case(bytes)).collect()
}

/// A piece of a file written over: where, and with what.
#[derive(Clone, Debug)]
struct Change {
    at: usize,
    bytes: Vec<u8>,
}

/// The bytes of record `place` from its byte `at` on, written over.
fn change(place: usize, at: usize, bytes: &[u8]) -> Change {
    Change {
        at: RECORD * place + at,
        bytes: bytes.to_vec(),
    }
}

/// A good file of so many records.
fn good_file(records: usize) -> Vec<u8> {
    let mut random = SplitMix64::new(records as u64 + 51);
    (0..records).flat_map(|place| good_record(place, &mut random)).collect()
}

/// Record `place` of a good file: a picture from the record's own seven hundred, either side, values from the whole
/// domain.
fn good_record(place: usize, random: &mut SplitMix64) -> Vec<u8> {
    let picture = 700 * place as u32 + 1 + (random.next() % 700) as u32;
    let side = 1 + (random.next() % 2) as u8;
    record(
        picture,
        side,
        0,
        &[(); VALUES].map(|()| (2.0 * random.unit() - 1.0) * DOMAIN),
    )
}

/// No record, few records, and as many as the bench program takes, and one more.
fn good_files() -> Vec<Vec<u8>> {
    [0, 1, 2, 3, 4, 5, 64, 65].into_iter().map(good_file).collect()
}

/// Good records and a stray tail; the tail is the start of a good record, or zeros, or all ones.
fn files_with_a_tail() -> Vec<Vec<u8>> {
    let mut files = Vec::new();
    for records in [0, 1, 3] {
        for tail in [1, 8, 71] {
            let more = good_file(records + 1);
            files.push(more[..RECORD * records + tail].to_vec());
            files.extend([0, 255].map(|byte| [&more[..RECORD * records], &vec![byte; tail]].concat()));
        }
    }
    files
}

/// Every change of one record: to each rule's boundary and beyond it.
fn changes(place: usize) -> Vec<Change> {
    [picture_changes(place), single_byte_changes(place), value_changes(place)].concat()
}

/// The picture at and beyond its ends, with a low half that alone would be good, and close to its predecessor's.
fn picture_changes(place: usize) -> Vec<Change> {
    let mut pictures = vec![0, 1, LAST_PICTURE, LAST_PICTURE + 1, 0x0001_0001, 0x0100_0001, u32::MAX];
    if place > 0 {
        let predecessor = picture_of(place - 1);
        pictures.extend([predecessor, predecessor - 1, predecessor + 1]);
    }
    pictures
        .iter()
        .map(|picture| change(place, 0, &picture.to_le_bytes()))
        .collect()
}

/// The picture number of a record in the undamaged file.
fn picture_of(place: usize) -> u32 {
    fetch(&good_file(RECORDS), place).map_or(0, |frame| frame.picture)
}

/// The side and the field at and beyond their ends, and each spare byte set.
fn single_byte_changes(place: usize) -> Vec<Change> {
    let ends = [SIDE_AT, FIELD_AT].map(|at| [0, 1, 2, 3, 4, 255].map(|byte| (at, byte)));
    let spares = (SPARE_AT..VALUES_AT).flat_map(|at| [(at, 1), (at, 255)]);
    let all = ends.concat().into_iter().chain(spares);
    all.map(|(at, byte)| change(place, at, &[byte])).collect()
}

/// Each of the eight values at the domain's ends and beyond them.
fn value_changes(place: usize) -> Vec<Change> {
    let beyond = f64::from_bits(DOMAIN.to_bits() + 1);
    let smallest = f64::from_bits(1);
    let numbers = [
        f64::INFINITY,
        f64::NEG_INFINITY,
        DOMAIN,
        -DOMAIN,
        beyond,
        -beyond,
        -0.0,
        smallest,
    ];
    let ends: Vec<u64> = [NAN].into_iter().chain(numbers.map(f64::to_bits)).collect();
    let mut found = Vec::new();
    for value in 0..VALUES {
        let at = VALUES_AT + 8 * value;
        found.extend(ends.iter().map(|bits| change(place, at, &bits.to_le_bytes())));
    }
    found
}

/// Two damages in different records, or in one: the first place counts.
fn twice_damaged() -> Vec<Vec<u8>> {
    let mut files = Vec::new();
    for first in 0..RECORDS {
        for second in 0..RECORDS {
            files.push(changed(&[&bad_side(first), &bad_value(second)]));
            files.push(changed(&[&bad_picture(first), &bad_side(second)]));
        }
        let mut with_tail = changed(&[&bad_value(first)]);
        with_tail.push(1);
        files.push(with_tail);
    }
    files
}

/// All orders: two records of any pictures from 1 to 3 and any fields, and three of any pictures from 79,998 to 79,999.
fn orders() -> Vec<Vec<u8>> {
    let pairs = |pictures: std::ops::RangeInclusive<u32>| -> Vec<(u32, u8)> {
        pictures
            .flat_map(|picture| (0..3).map(move |field| (picture, field)))
            .collect()
    };
    let (low, high) = (pairs(1..=3), pairs(LAST_PICTURE - 1..=LAST_PICTURE));
    let mut files = Vec::new();
    for &first in &low {
        files.extend(low.iter().map(|&second| records_of(&[first, second])));
    }
    for &first in &high {
        for &second in &high {
            files.extend(high.iter().map(|&third| records_of(&[first, second, third])));
        }
    }
    files
}

/// Records that are good by themselves, with these pictures and fields one after the other.
fn records_of(pairs: &[(u32, u8)]) -> Vec<u8> {
    let mut file = good_file(pairs.len());
    for (record, (picture, field)) in file.chunks_mut(RECORD).zip(pairs) {
        record[..4].copy_from_slice(&picture.to_le_bytes());
        record[FIELD_AT] = *field;
    }
    file
}

/// A side that is no side.
fn bad_side(place: usize) -> Change {
    change(place, SIDE_AT, &[3])
}

/// A last start position that is NaN.
fn bad_value(place: usize) -> Change {
    change(place, VALUES_AT + 8 * (VALUES - 1), &NAN.to_le_bytes())
}

/// A picture number above the last one.
fn bad_picture(place: usize) -> Change {
    change(place, 0, &(LAST_PICTURE + 1).to_le_bytes())
}

/// The four-record file with changes written over it.
fn changed(changes: &[&Change]) -> Vec<u8> {
    let mut file = good_file(RECORDS);
    for change in changes {
        file[change.at..change.at + change.bytes.len()].copy_from_slice(&change.bytes);
    }
    file
}

/// One file with what is said of it.
fn case(bytes: &[u8]) -> Vec<u64> {
    let length = bytes.len() as u64;
    match check(bytes) {
        Checked::Good(count) => {
            let frames = (0..count).filter_map(|place| fetch(bytes, place));
            [
                vec![length, 0, count as u64],
                from_bytes(bytes),
                frames.flat_map(frame_words).collect(),
            ]
            .concat()
        }
        Checked::Bad(place) => [vec![length, 1, place as u64], from_bytes(bytes)].concat(),
    }
}

/// Picture, side, field, then the bits of the eight values.
fn frame_words(frame: Frame) -> Vec<u64> {
    let values = frame.features.iter().chain(&frame.starts);
    let numbers = [u64::from(frame.picture), u64::from(frame.side), u64::from(frame.field)];
    numbers.into_iter().chain(values.map(|v| v.to_bits())).collect()
}

#[cfg(test)]
mod tests {
    use super::*;

    #[test]
    fn good_files_are_good() {
        for records in [0, 1, 4, 65] {
            assert_eq!(check(&good_file(records)), Checked::Good(records));
        }
    }

    #[test]
    fn the_first_damage_counts() {
        for first in 0..RECORDS {
            for second in 0..RECORDS {
                let file = changed(&[&bad_side(first), &bad_value(second)]);
                assert_eq!(check(&file), Checked::Bad(first.min(second)));
            }
        }
    }

    #[test]
    fn of_two_records_with_one_picture_only_first_and_second_field_are_good() {
        let same = |a: u8, b: u8| check(&records_of(&[(7, a), (7, b)])) == Checked::Good(2);
        let good: Vec<(u8, u8)> = (0..3)
            .flat_map(|a| (0..3).map(move |b| (a, b)))
            .filter(|&(a, b)| same(a, b))
            .collect();
        assert_eq!(good, [(1, 2)]);
    }

    #[test]
    fn the_list_stays_small() {
        assert!(8 * cases().concat().len() < 500_000);
    }
}
