//! The lists of scuffed frame files: what is kept of them, and what is told of the rest.
//!
//! Before a call byte i of the target and of the rules is i mod 251 and one, place i of the places 4000000000000000 + i, in hex. A file
//! has at most 512 bytes, a target at most 576, and there are at most 16 places and rules.

use super::park::{below, byte_mark, counted, one_of};
use crate::elementary::{DOMAIN, NAN};
use crate::frames::{record, FEATURES, FIELD_AT, LAST_PICTURE, RECORD, SIDE_AT, SPARE_AT, STARTS, VALUES_AT};
use crate::salvage::salvage;
use crate::scatter::SplitMix64;
use crate::words::from_bytes;

/// Values of a record.
const VALUES: usize = FEATURES + STARTS;

/// Records that are good by themselves, with these pictures and fields.
pub fn records_of(random: &mut SplitMix64, pairs: &[(u32, u8)]) -> Vec<u8> {
    let mut bytes = Vec::new();
    for &(picture, field) in pairs {
        let side = 1 + below(random, 2) as u8;
        let values = [(); VALUES].map(|()| (2.0 * random.unit() - 1.0) * DOMAIN);
        bytes.extend(record(picture, side, field, &values));
    }
    bytes
}

/// A good file of so many records, stills among them.
pub fn good(random: &mut SplitMix64, records: usize) -> Vec<u8> {
    let mut pairs = Vec::new();
    let mut picture = 1 + below(random, 300) as u32;
    while pairs.len() < records {
        let fields: &[u8] = one_of(random, &[&[0][..], &[0], &[1, 2], &[1], &[2]]);
        pairs.extend(fields.iter().map(|&field| (picture, field)));
        picture += 1 + below(random, 20) as u32;
    }
    pairs.truncate(records);
    records_of(random, &pairs)
}

/// A file with areas of these lengths: target in bytes, places, rules; what is told, and all of the three afterwards.
fn case(file: &[u8], [target, places, rules]: [usize; 3]) -> Vec<u64> {
    let mut bytes: Vec<u8> = (0..target).map(byte_mark).collect();
    let mut told: Vec<u64> = (0..places as u64).map(|i| (1 << 62) + i).collect();
    let mut broken: Vec<u8> = (0..rules).map(byte_mark).collect();
    let answer = salvage(file, &mut bytes, &mut told, &mut broken);
    let mut words = vec![file.len() as u64];
    words.extend(from_bytes(file));
    words.extend([target, places, rules].map(|length| length as u64));
    words.extend(match answer {
        Ok(salvaged) => [0, salvaged.kept as u64, salvaged.told as u64],
        Err(_) => [12, 0, 0],
    });
    words.extend(from_bytes(&bytes));
    words.extend(told);
    words.extend(broken.iter().map(|&rule| u64::from(rule)));
    counted(words)
}

/// As much room as a file asks for.
fn room(file: &[u8]) -> [usize; 3] {
    let records = file.chunks(RECORD).len();
    [RECORD * (file.len() / RECORD), records, records]
}

/// A file with just enough room.
fn whole(file: &[u8]) -> Vec<u64> {
    case(file, room(file))
}

/// Every byte of a file of two records altered.
pub fn byte_cases() -> Vec<Vec<u64>> {
    let mut random = SplitMix64::new(321);
    let file = records_of(&mut random, &[(256, 1), (LAST_PICTURE, 2)]);
    let mut found = Vec::new();
    for at in 0..file.len() {
        let bytes: &[u8] = match at % RECORD {
            0..=3 => &[0, 1, 2, 255],
            SIDE_AT | FIELD_AT => &[0, 1, 2, 3, 4, 128, 255],
            SPARE_AT..=7 => &[1, 2, 128, 255],
            // The highest byte of a value, and the next one.
            place if place % 8 == 7 => &[0x3f, 0x40, 0x41, 0x7f, 0xc1, 0xff],
            place if place % 8 == 6 => &[0, 0x2f, 0x30, 0x31, 0xf0, 0xff],
            _ => &[0, 255],
        };
        for &byte in bytes {
            let mut scuffed = file.clone();
            scuffed[at] = byte;
            found.push(whole(&scuffed));
        }
    }
    found
}

/// Two records of any pictures from 1 to 3 and any fields, and three of pictures 79,998 and 79,999.
pub fn order_cases() -> Vec<Vec<u64>> {
    let mut random = SplitMix64::new(322);
    let random = &mut random;
    let pairs = |pictures: std::ops::RangeInclusive<u32>| -> Vec<(u32, u8)> {
        pictures
            .flat_map(|picture| (0..3).map(move |field| (picture, field)))
            .collect()
    };
    let (low, high) = (pairs(1..=3), pairs(LAST_PICTURE - 1..=LAST_PICTURE));
    let mut found = Vec::new();
    for &first in &low {
        for &second in &low {
            found.push(whole(&records_of(random, &[first, second])));
        }
    }
    for &first in &high {
        for &second in &high {
            for &third in &high {
                found.push(whole(&records_of(random, &[first, second, third])));
            }
        }
    }
    found
}

/// Ways to scuff a record: where, and with which bytes. Each breaks a rule of the record by itself, but for the third, which only makes
/// the picture higher.
fn breaks() -> Vec<(usize, Vec<u8>)> {
    let number = |picture: u32| (0, picture.to_le_bytes().to_vec());
    let mut found = vec![
        number(0),
        number(LAST_PICTURE + 1),
        number(0x0001_0001),
        number(0x0100_0001),
        number(u32::MAX),
    ];
    for byte in [0, 3, 255] {
        found.push((SIDE_AT, vec![byte]));
    }
    found.extend([(FIELD_AT, vec![3]), (FIELD_AT, vec![255])]);
    found.extend([(SPARE_AT, vec![1]), (SPARE_AT + 1, vec![128])]);
    let beyond = f64::from_bits(DOMAIN.to_bits() + 1);
    let values = [f64::from_bits(NAN), f64::INFINITY, f64::NEG_INFINITY, beyond, -beyond];
    for value in 0..VALUES {
        let bits = values[value % values.len()].to_le_bytes();
        found.push((VALUES_AT + 8 * value, bits.to_vec()));
    }
    found
}

/// A record of the file, broken.
fn broken(file: &[u8], place: usize, (at, bytes): &(usize, Vec<u8>)) -> Vec<u8> {
    let mut scuffed = file.to_vec();
    let at = RECORD * place + at;
    scuffed[at..at + bytes.len()].copy_from_slice(bytes);
    scuffed
}

/// Each way to break a record of three; two records broken, and one record broken in two ways.
fn broken_records(random: &mut SplitMix64) -> Vec<Vec<u8>> {
    let file = records_of(random, &[(40, 0), (41, 1), (41, 2)]);
    let mut found = Vec::new();
    for place in 0..3 {
        found.extend(breaks().iter().map(|way| broken(&file, place, way)));
    }
    // One way of each rule, by itself and with every later one; the second record also out of order.
    let ways: Vec<(usize, Vec<u8>)> = [0, 5, 8, 10, 14].map(|way| breaks()[way].clone()).to_vec();
    let out_of_order = records_of(random, &[(40, 0), (39, 0), (41, 0)]);
    for (i, first) in ways.iter().enumerate() {
        found.push(broken(&out_of_order, 1, first));
        for second in &ways[i + 1..] {
            found.push(broken(&broken(&file, 1, first), 1, second));
            found.push(broken(&broken(&file, 0, second), 2, first));
        }
    }
    // The ends of each value.
    for value in 0..VALUES {
        for end in [DOMAIN, -DOMAIN, -0.0, f64::from_bits(1)] {
            let way = (VALUES_AT + 8 * value, end.to_le_bytes().to_vec());
            found.push(broken(&file[..RECORD], 0, &way));
        }
    }
    found
}

/// Records of a good file dropped, doubled and exchanged; a run of high pictures between low ones.
fn moved_records(random: &mut SplitMix64) -> Vec<Vec<u8>> {
    let mut found = Vec::new();
    let file = good(random, 4);
    let at = |place: usize| file[RECORD * place..RECORD * (place + 1)].to_vec();
    for one in 0..4 {
        found.push((0..4).filter(|&place| place != one).flat_map(at).collect());
        found.push(
            (0..4)
                .flat_map(|place| {
                    if place == one {
                        [at(place), at(place)].concat()
                    } else {
                        at(place)
                    }
                })
                .collect(),
        );
        for other in 0..one {
            let order = |place: usize| match place {
                _ if place == one => other,
                _ if place == other => one,
                _ => place,
            };
            found.push((0..4).map(order).flat_map(at).collect());
        }
    }
    for pairs in [
        [(5, 0), (900, 0), (6, 0), (7, 0), (901, 0), (8, 0)],
        [(900, 0), (1, 0), (2, 0), (3, 0), (4, 0), (5, 0)],
        [(5, 1), (5, 2), (5, 1), (5, 2), (5, 0), (6, 0)],
        [(5, 0), (5, 1), (5, 2), (6, 1), (6, 0), (6, 2)],
        [(6, 0), (5, 0), (4, 0), (3, 0), (2, 0), (1, 0)],
        [(7, 2), (7, 2), (7, 2), (7, 2), (7, 2), (7, 2)],
    ] {
        let file = records_of(random, &pairs);
        found.push(broken(&file, 1, &breaks()[5]));
        found.push(file);
    }
    found
}

/// Tails of every length after no record, a good one and a bad one: what a good record begins with, zeros, all ones.
fn tails(random: &mut SplitMix64) -> Vec<Vec<u8>> {
    let mut found = Vec::new();
    let file = records_of(random, &[(8, 0), (9, 0)]);
    for length in 1..RECORD {
        found.push(file[..length].to_vec());
        found.push(file[..RECORD + length].to_vec());
        if length % 7 == 1 {
            found.push([&file[..RECORD], &vec![0; length]].concat());
            found.push([&broken(&file, 0, &breaks()[6])[..RECORD], &vec![255; length]].concat());
        }
    }
    found
}

/// Rubbish: all of one byte, anything, and anything with a head that may be good.
fn rubbish(random: &mut SplitMix64) -> Vec<Vec<u8>> {
    let mut found = vec![Vec::new()];
    for length in [1, 71, 72, 73, 144, 300, 512] {
        found.extend([0, 1, 255].map(|byte| vec![byte; length]));
        found.push((0..length).map(|_| random.next() as u8).collect());
    }
    for _ in 0..40 {
        let records = 1 + below(random, 7);
        let mut file = Vec::new();
        for _ in 0..records {
            let (picture, field) = (below(random, 12) as u32, below(random, 4) as u8);
            let mut record = records_of(random, &[(picture, field)]);
            if below(random, 4) == 0 {
                let at = below(random, RECORD);
                record[at] = random.next() as u8;
            }
            file.extend(record);
        }
        file.truncate(file.len() - one_of(random, &[0, 0, 0, 5, 40]));
        found.push(file);
    }
    found.extend((0..=7).map(|records| good(random, records)));
    found
}

/// Areas one short, empty and longer, for files with and without a tail.
fn rooms(random: &mut SplitMix64) -> Vec<Vec<u64>> {
    let mut found = Vec::new();
    for records in [0, 1, 3] {
        let good = good(random, records);
        let scuffed = if records > 0 {
            broken(&good, records - 1, &breaks()[3])
        } else {
            Vec::new()
        };
        let tailed = [&scuffed[..], &[7; 5]].concat();
        for file in [good, scuffed, tailed] {
            let enough = room(&file);
            for area in 0..3 {
                let long = enough[area];
                for length in [0, long.saturating_sub(1), long + 1, long + 3, long + 7] {
                    let mut other = enough;
                    other[area] = length;
                    found.push(case(&file, other));
                }
            }
            found.push(case(&file, enough.map(|length| length + 4)));
            found.push(case(&file, [enough[0] + RECORD, enough[1] + 2, enough[2] + 1]));
        }
    }
    found
}

/// Files of every other kind.
pub fn file_cases() -> Vec<Vec<u64>> {
    let mut random = SplitMix64::new(323);
    let random = &mut random;
    let files = [
        broken_records(random),
        moved_records(random),
        tails(random),
        rubbish(random),
    ]
    .concat();
    let mut found: Vec<Vec<u64>> = files.iter().map(|file| whole(file)).collect();
    found.extend(rooms(random));
    found
}

#[cfg(test)]
mod tests {
    use super::*;
    use crate::salvage::{sorted_out, RULES};
    use std::collections::BTreeMap;

    #[test]
    fn sizes_and_what_is_met() {
        let mut told: BTreeMap<u64, usize> = BTreeMap::new();
        let mut rules: BTreeMap<u64, usize> = BTreeMap::new();
        for cases in [byte_cases(), order_cases(), file_cases()] {
            assert!(8 * cases.concat().len() < 278_528, "{}", 8 * cases.concat().len());
            for case in &cases {
                assert_eq!(case[0], case.len() as u64);
                let rooms = 2 + (case[1] as usize + 7) / 8;
                assert!(case[1] <= 512 && case[rooms] <= 576, "{case:?}");
                assert!(case[rooms + 1] <= 16 && case[rooms + 2] <= 16, "{case:?}");
                *told.entry(case[rooms + 3]).or_default() += 1;
                let count = case[rooms + 5] as usize;
                let first = case.len() - case[rooms + 2] as usize;
                for &rule in &case[first..first + count] {
                    *rules.entry(rule).or_default() += 1;
                }
            }
        }
        assert!(told[&0] > 800 && told[&12] > 30, "{told:?}");
        assert!(
            RULES.iter().all(|&rule| rules[&u64::from(rule.number())] > 20),
            "{rules:?}"
        );
    }

    #[test]
    fn good_files_are_good() {
        let mut random = SplitMix64::new(1);
        for records in 0..20 {
            let file = good(&mut random, records);
            assert_eq!(sorted_out(&file), (file.clone(), Vec::new()));
        }
    }
}
