//! The lists for the picture monitor: values that are narrowed, frames that are written and files that are read, with every refusal
//! among them.
//!
//! Before a call place i of the pictures holds 40000000 + i, of the positions the bits 4000000000000000 + i, in hex, and byte i of
//! sides, fields and target is i mod 251 and one. No case has more than 16 frames' room.

use super::descent::{marked_numbers, marks};
use super::park::{below, byte_mark, counted, one_of};
use crate::frames::{FIELD_AT, LAST_PICTURE, SIDE_AT, SPARE_AT};
use crate::monitor::{narrow, read_monitor, widen, write_monitor, COORDINATES, COORDINATES_AT, LARGEST, RECORD};
use crate::scatter::SplitMix64;
use crate::words::from_bytes;

/// The most frames of a case.
const MOST: usize = 16;
/// What is listed for a value that no f32 is near enough to.
pub const NONE: u64 = 1 << 32;
/// The sign of an f64.
const SIGN: u64 = 1 << 63;

/// The values next to one, in steps of its last bit.
fn around(value: f64, steps: i64) -> impl Iterator<Item = f64> {
    let bits = value.to_bits();
    (-steps..=steps).map(move |step| f64::from_bits(bits.wrapping_add(step as u64)))
}

/// The middle between an f32 that is not below zero and the next one.
fn middle(bits: u32) -> f64 {
    (widen(bits) + widen(bits + 1)) / 2.0
}

/// Half a step past the largest f32: the least that rounds past it.
pub fn past() -> f64 {
    middle(LARGEST - 1) + (widen(LARGEST) - widen(LARGEST - 1))
}

/// Values that are no numbers, or infinite.
fn infinite() -> [f64; 6] {
    [
        0x7ff0_0000_0000_0000,
        0xfff0_0000_0000_0000,
        0x7ff8_0000_0000_0000,
        0x7ff0_0000_0000_0001,
        0xfff8_dead_beef_0123,
        u64::MAX,
    ]
    .map(f64::from_bits)
}

/// The bits of f32 to look around: of each exponent the first, the last and some between; the least; of the subnormals every power of
/// two with what is next to it.
fn patterns(random: &mut SplitMix64) -> Vec<u32> {
    let mut found: Vec<u32> = (0..40).collect();
    for digit in 5..23 {
        let power = 1 << digit;
        let between = power + below(random, power as usize) as u32;
        found.extend([power - 1, power, power + 1, between]);
    }
    for exponent in 1..=254 {
        let first = exponent << 23;
        let any = first + below(random, 1 << 23) as u32;
        let even = any & !1;
        found.extend([first, even, even + 1, first + 0x007f_ffff]);
    }
    found.retain(|&bits| bits < LARGEST);
    found
}

/// Values to be narrowed: each f32 of the patterns, the middle to the next one and what is next to both, by turns with either sign;
/// the largest f32 and half a step past it; zeros; of each exponent that f32 does not have one; infinite ones and NaNs; any.
pub fn narrow_cases() -> Vec<Vec<u64>> {
    let mut random = SplitMix64::new(311);
    let random = &mut random;
    let mut values = vec![0.0, -0.0, 5e-324, -5e-324, f64::MAX, f64::MIN];
    values.extend(infinite());
    for edge in [widen(LARGEST), past(), middle(0), widen(1), widen(1 << 23)] {
        values.extend(around(edge, 4).flat_map(|value| [value, -value]));
    }
    for (turn, bits) in patterns(random).into_iter().enumerate() {
        let found = around(widen(bits), 1).chain(around(middle(bits), 1));
        values.extend(
            found
                .filter(|v| !v.is_nan())
                .map(|v| if turn % 3 == 0 { -v } else { v }),
        );
    }
    for exponent in (1..874).chain(1151..2047) {
        values.push(f64::from_bits(
            (random.next() & (SIGN | ((1 << 52) - 1))) | exponent << 52,
        ));
    }
    values.extend((0..600).map(|_| f64::from_bits(random.next())));
    for _ in 0..3000 {
        let exponent = 1023 - 150 + random.next() % 279;
        values.push(f64::from_bits(
            (random.next() & (SIGN | ((1 << 52) - 1))) | exponent << 52,
        ));
    }
    let case = |value: f64| vec![value.to_bits(), narrow(value).map_or(NONE, u64::from)];
    values.into_iter().map(case).collect()
}

/// Frames for the monitor.
#[derive(Clone, Debug)]
pub struct Placed {
    pub pictures: Vec<u32>,
    pub sides: Vec<u8>,
    pub fields: Vec<u8>,
    pub positions: Vec<f64>,
}

impl Placed {
    /// Good frames with these pictures and fields, on sides and at positions at random.
    pub fn of(random: &mut SplitMix64, pairs: &[(u32, u8)]) -> Placed {
        Placed {
            pictures: pairs.iter().map(|pair| pair.0).collect(),
            sides: pairs.iter().map(|_| 1 + below(random, 2) as u8).collect(),
            fields: pairs.iter().map(|pair| pair.1).collect(),
            positions: (0..COORDINATES * pairs.len()).map(|_| any_coordinate(random)).collect(),
        }
    }

    /// So many good frames, stills among them.
    pub fn good(random: &mut SplitMix64, frames: usize) -> Placed {
        let mut pairs = Vec::new();
        let mut picture = 1 + below(random, 200) as u32;
        while pairs.len() < frames {
            let fields: &[u8] = one_of(random, &[&[0][..], &[0], &[1, 2], &[1], &[2]]);
            pairs.extend(fields.iter().map(|&field| (picture, field)));
            picture += 1 + below(random, 30) as u32;
        }
        pairs.truncate(frames);
        Placed::of(random, &pairs)
    }

    /// The file.
    pub fn file(&self) -> Vec<u8> {
        let n = self.pictures.len();
        let mut target = vec![0; RECORD * n];
        write_monitor(
            n,
            &self.pictures,
            &self.sides,
            &self.fields,
            &self.positions,
            &mut target,
        )
        .expect("good frames");
        target
    }

    /// n frames written to a target of so many bytes: everything given, what is told, and the whole target afterwards.
    fn case(&self, n: usize, bytes: usize) -> Vec<u64> {
        let mut target: Vec<u8> = (0..bytes).map(byte_mark).collect();
        let told = write_monitor(
            n,
            &self.pictures,
            &self.sides,
            &self.fields,
            &self.positions,
            &mut target,
        );
        let mut words = vec![n as u64];
        let lengths = [
            self.pictures.len(),
            self.sides.len(),
            self.fields.len(),
            self.positions.len(),
            bytes,
        ];
        words.extend(lengths.map(|length| length as u64));
        words.extend(self.pictures.iter().map(|&picture| u64::from(picture)));
        words.extend(self.sides.iter().map(|&side| u64::from(side)));
        words.extend(self.fields.iter().map(|&field| u64::from(field)));
        words.extend(self.positions.iter().map(|v| v.to_bits()));
        words.extend(match told {
            Ok(records) => [0, records as u64],
            Err(refusal) => [refusal.number(), refusal.place()],
        });
        words.extend(from_bytes(&target));
        counted(words)
    }

    /// All of them to a target that is just long enough.
    fn whole(&self) -> Vec<u64> {
        self.case(self.pictures.len(), RECORD * self.pictures.len())
    }
}

/// A coordinate that can be narrowed: as on a map, with few digits, at the ends, subnormal, or any.
fn any_coordinate(random: &mut SplitMix64) -> f64 {
    let unit = random.unit() - 0.5;
    let any = f64::from_bits((random.next() & (SIGN | ((1 << 52) - 1))) | (1023 - 160 + random.next() % 287) << 52);
    let subnormal = unit * 2_f64.powi(-126);
    let bits = random.next() as u32 & 0x7fff_ffff;
    let half = middle(bits % LARGEST);
    one_of(
        random,
        &[
            60.0 * unit,
            unit,
            (8.0 * unit).round(),
            0.0,
            -0.0,
            widen(LARGEST),
            subnormal,
            any,
            half,
            -half,
        ],
    )
}

/// Coordinates at the ends of what can be narrowed, and past them.
fn ends() -> Vec<f64> {
    let mut found = infinite().to_vec();
    found.extend(around(past(), 1).flat_map(|value| [value, -value]));
    found.extend([widen(LARGEST), -widen(LARGEST), f64::MAX, 5e-324, -5e-324, -0.0]);
    found.extend(around(middle(0), 1));
    found
}

/// Pictures and fields: two frames of any pictures from 1 to 3 and any fields, three of pictures 79,998 and 79,999.
fn orders() -> Vec<Vec<(u32, u8)>> {
    let pairs = |pictures: std::ops::RangeInclusive<u32>| -> Vec<(u32, u8)> {
        pictures
            .flat_map(|picture| (0..3).map(move |field| (picture, field)))
            .collect()
    };
    let (low, high) = (pairs(1..=3), pairs(LAST_PICTURE - 1..=LAST_PICTURE));
    let mut found: Vec<Vec<(u32, u8)>> = Vec::new();
    for &first in &low {
        found.extend(low.iter().map(|&second| vec![first, second]));
    }
    for &first in &high {
        for &second in &high {
            found.extend(high.iter().map(|&third| vec![first, second, third]));
        }
    }
    found
}

/// The frame that is altered in each place.
const FRAMES: usize = 3;

/// Each number and each coordinate of a frame at its ends and past them; each time the frames and which one it is.
fn altered(random: &mut SplitMix64) -> Vec<Placed> {
    let mut found = Vec::new();
    let good = Placed::of(random, &[(1, 0), (700, 1), (LAST_PICTURE, 0)]);
    for place in 0..FRAMES {
        for picture in [
            0,
            1,
            2,
            LAST_PICTURE,
            LAST_PICTURE + 1,
            0x0001_0001,
            0x0100_0001,
            u32::MAX,
        ] {
            let mut other = good.clone();
            other.pictures[place] = picture;
            found.push(other);
        }
        for byte in [0, 1, 2, 3, 128, 255] {
            let (mut side, mut field) = (good.clone(), good.clone());
            side.sides[place] = byte;
            field.fields[place] = byte;
            found.extend([side, field]);
        }
        for end in ends() {
            for coordinate in 0..COORDINATES {
                let mut other = good.clone();
                other.positions[COORDINATES * place + coordinate] = end;
                found.push(other);
            }
        }
    }
    found
}

/// Two faults at once: in any two frames, or in one, a number that is bad and a coordinate that is.
fn twice_bad(random: &mut SplitMix64) -> Vec<Placed> {
    let mut found = Vec::new();
    let good = Placed::of(random, &[(1, 0), (2, 1), (2, 2), (LAST_PICTURE, 0)]);
    for first in 0..4 {
        for second in 0..4 {
            for kind in 0..4 {
                let mut other = good.clone();
                other.positions[COORDINATES * first + kind % 2] = infinite()[kind];
                match kind {
                    0 => other.pictures[second] = LAST_PICTURE + 1,
                    1 => other.sides[second] = 3,
                    2 => other.fields[second] = 3,
                    // Falls, or comes twice, unless it is the first.
                    _ => other.pictures[second] = other.pictures[second.saturating_sub(1)],
                }
                found.push(other);
            }
        }
    }
    found
}

/// Frames with one area of other lengths than asked for, and numbers of frames that no area has room for.
fn lengths_around(random: &mut SplitMix64) -> Vec<Vec<u64>> {
    let mut found = Vec::new();
    for frames in [1, 2, 5] {
        let good = Placed::good(random, frames);
        for n in [
            frames - 1,
            frames,
            frames + 1,
            1 << 28,
            1 << 31,
            1 << 32,
            1 << 60,
            1 << 63,
            usize::MAX,
        ] {
            found.push(good.case(n, RECORD * frames));
        }
        for bytes in [
            0,
            1,
            15,
            16,
            17,
            RECORD * frames - 16,
            RECORD * frames - 1,
            RECORD * frames + 1,
            RECORD * frames + 23,
        ] {
            found.push(good.case(frames, bytes));
        }
        for area in 0..4 {
            // One short, none at all, longer by what would be refused among the frames.
            for kind in 0..4 {
                let mut other = good.clone();
                match (area, kind) {
                    (0, 0) => other.pictures.truncate(frames - 1),
                    (1, 0) => other.sides.truncate(frames - 1),
                    (2, 0) => other.fields.truncate(frames - 1),
                    (_, 0) => other.positions.truncate(COORDINATES * frames - 1),
                    (0, 1) => other.pictures.clear(),
                    (1, 1) => other.sides.clear(),
                    (2, 1) => other.fields.clear(),
                    (_, 1) => other.positions.truncate(COORDINATES * frames - 2),
                    (0, _) => other.pictures.extend([0, u32::MAX]),
                    (1, _) => other.sides.extend([0, 255]),
                    (2, _) => other.fields.extend([3, 255]),
                    (_, _) => other.positions.extend(&infinite()[..3]),
                }
                // Once with a fault that comes after 12.
                if kind == 3 {
                    other.positions[0] = f64::NAN;
                }
                found.push(other.case(frames, RECORD * frames));
            }
        }
    }
    found
}

/// Frames that are written, and frames that are not.
pub fn write_cases() -> Vec<Vec<u64>> {
    let mut random = SplitMix64::new(312);
    let random = &mut random;
    let mut found: Vec<Vec<u64>> = Vec::new();
    found.extend(orders().iter().map(|pairs| Placed::of(random, pairs).whole()));
    found.extend(altered(random).iter().map(Placed::whole));
    found.extend(twice_bad(random).iter().map(Placed::whole));
    found.extend(lengths_around(random));
    for frames in (0..=MOST).chain(0..=MOST) {
        let good = Placed::good(random, frames);
        let more = below(random, 1 + RECORD * (MOST - frames));
        found.push(good.case(frames, RECORD * frames + more));
    }
    found
}

/// How much room a reading has: pictures, sides, fields, positions.
type Room = [usize; 4];

/// Just enough for so many records.
fn room(records: usize) -> Room {
    [records, records, records, COORDINATES * records]
}

/// A file read into areas so long: the file, what is told, and all of the areas afterwards.
fn read_case(file: &[u8], room: Room) -> Vec<u64> {
    let bytes = |length: usize| (0..length).map(byte_mark).collect::<Vec<u8>>();
    let (mut pictures, mut sides, mut fields) = (marked_numbers(room[0]), bytes(room[1]), bytes(room[2]));
    let mut positions = marks(room[3]);
    let told = read_monitor(file, &mut pictures, &mut sides, &mut fields, &mut positions);
    let mut words = vec![file.len() as u64];
    words.extend(from_bytes(file));
    words.extend(room.map(|length| length as u64));
    words.extend(match told {
        Ok(records) => [0, records as u64],
        Err(refusal) => [refusal.number(), refusal.place()],
    });
    words.extend(pictures.iter().map(|&picture| u64::from(picture)));
    words.extend(sides.iter().map(|&side| u64::from(side)));
    words.extend(fields.iter().map(|&field| u64::from(field)));
    words.extend(positions.iter().map(|v| v.to_bits()));
    counted(words)
}

/// A file read into just enough room for its whole records.
fn read_whole(file: &[u8]) -> Vec<u64> {
    read_case(file, room(file.len() / RECORD))
}

/// A record with these numbers, whatever they are.
fn record(picture: u32, side: u8, field: u8, coordinates: [u32; COORDINATES]) -> Vec<u8> {
    let mut bytes = picture.to_le_bytes().to_vec();
    bytes.extend([side, field, 0, 0]);
    bytes.extend(coordinates.iter().flat_map(|bits| bits.to_le_bytes()));
    bytes
}

/// Every byte of a file of three records set to other values.
fn damaged_bytes(random: &mut SplitMix64) -> Vec<Vec<u8>> {
    let good = Placed::of(random, &[(256, 1), (256, 2), (LAST_PICTURE, 0)]).file();
    let mut found = Vec::new();
    for at in 0..good.len() {
        let here = at % RECORD;
        let bytes: &[u8] = match here {
            SIDE_AT | FIELD_AT => &[0, 1, 2, 3, 128, 255],
            0..=3 | SPARE_AT..=7 => &[0, 1, 128, 255],
            _ => &[0, 255],
        };
        for &byte in bytes {
            let mut damaged = good.clone();
            damaged[at] = byte;
            found.push(damaged);
        }
    }
    found
}

/// Coordinates by their bits: the ends of what is finite and past them, in each place of two records.
fn odd_coordinates() -> Vec<Vec<u8>> {
    let bits = [
        0,
        1,
        0x007f_ffff,
        0x0080_0000,
        LARGEST,
        LARGEST + 1,
        LARGEST + 2,
        0x7fc0_0000,
        0x7fff_ffff,
    ];
    let mut found = Vec::new();
    for bits in bits.into_iter().flat_map(|bits| [bits, 1 << 31 | bits]) {
        for place in 0..2 * COORDINATES {
            let mut file = [record(1, 1, 0, [0x3f80_0000, 0]), record(2, 2, 0, [0, 0x4040_0000])].concat();
            let at = RECORD * (place / COORDINATES) + COORDINATES_AT + 4 * (place % COORDINATES);
            file[at..at + 4].copy_from_slice(&bits.to_le_bytes());
            found.push(file);
        }
    }
    found
}

/// Every length of a good file, with a good tail, and with other bytes behind it.
fn odd_lengths(random: &mut SplitMix64) -> Vec<Vec<u8>> {
    let good = Placed::good(random, 3).file();
    let mut found: Vec<Vec<u8>> = (0..=good.len()).map(|length| good[..length].to_vec()).collect();
    for more in 1..=RECORD {
        for byte in [0, 255] {
            found.push([&good[..RECORD], &vec![byte; more]].concat());
        }
    }
    // A bad record and a stray tail.
    for place in 0..2 {
        let mut bad = good[..2 * RECORD + 5].to_vec();
        bad[RECORD * place + SPARE_AT] = 1;
        found.push(bad);
    }
    found
}

/// Files read into areas with one of them one short, none at all, or longer; good ones and one that is refused before.
fn rooms_around(random: &mut SplitMix64) -> Vec<Vec<u64>> {
    let mut found = Vec::new();
    for records in [0, 1, 2, 5] {
        let file = Placed::good(random, records).file();
        let mut bad = file.clone();
        bad.push(0);
        for area in 0..4 {
            let enough = room(records);
            for length in [0, enough[area].saturating_sub(1), enough[area] + 1, enough[area] + 3] {
                let mut other = enough;
                other[area] = length;
                found.extend([read_case(&file, other), read_case(&bad, other)]);
            }
        }
        found.push(read_case(&file, room(records + 2)));
        found.push(read_case(&bad, room(records + 2)));
    }
    found
}

/// Files that are read, and files that are not.
pub fn read_cases() -> Vec<Vec<u64>> {
    let mut random = SplitMix64::new(313);
    let random = &mut random;
    let mut files: Vec<Vec<u8>> = Vec::new();
    for pairs in orders() {
        files.push(
            pairs
                .iter()
                .flat_map(|&(picture, field)| record(picture, 2, field, [1, 1 << 31]))
                .collect(),
        );
    }
    files.extend(damaged_bytes(random));
    files.extend(odd_coordinates());
    files.extend(odd_lengths(random));
    files.extend((0..=MOST).map(|records| Placed::good(random, records).file()));
    // Anything at all.
    files.extend((0..24).map(|length| (0..length).map(|_| random.next() as u8).collect::<Vec<u8>>()));
    let mut found: Vec<Vec<u64>> = files.iter().map(|file| read_whole(file)).collect();
    found.extend(rooms_around(random));
    found
}

#[cfg(test)]
mod tests {
    use super::*;
    use std::collections::BTreeMap;

    /// How often each number is told, where the answer of a case stands there.
    fn told(cases: &[Vec<u64>], answer: impl Fn(&[u64]) -> usize) -> BTreeMap<u64, usize> {
        let mut told: BTreeMap<u64, usize> = BTreeMap::new();
        for case in cases {
            assert_eq!(case[0], case.len() as u64);
            *told.entry(case[answer(case)]).or_default() += 1;
        }
        assert!(8 * cases.concat().len() < 278_528, "{}", 8 * cases.concat().len());
        told
    }

    #[test]
    fn what_is_written() {
        let cases = write_cases();
        let told = told(&cases, |case| 7 + case[2..6].iter().sum::<u64>() as usize);
        assert!([0, 12, 16, 26].iter().all(|number| told[number] > 50), "{told:?}");
        for case in &cases {
            assert!(
                case[2..5].iter().all(|&length| length <= 16) && case[5] <= 32 && case[6] <= 256,
                "{case:?}"
            );
        }
    }

    #[test]
    fn what_is_read() {
        let cases = read_cases();
        let rooms = |case: &[u64]| 2 + (case[1] as usize + 7) / 8;
        let told = told(&cases, |case| rooms(case) + 4);
        assert!(told[&0] > 80 && told[&12] > 15 && told[&16] > 300, "{told:?}");
        for case in &cases {
            let room = &case[rooms(case)..][..4];
            assert!(
                case[1] <= 256 && room[..3].iter().all(|&length| length <= 16) && room[3] <= 32,
                "{case:?}"
            );
        }
    }

    #[test]
    fn what_is_narrowed() {
        let cases = narrow_cases();
        assert!(16 * cases.len() < 278_528, "{}", 16 * cases.len());
        let finite = |case: &&Vec<u64>| f64::from_bits(case[0]).is_finite();
        let past = cases.iter().filter(finite).filter(|case| case[1] == NONE).count();
        let subnormal = cases
            .iter()
            .filter(|case| case[1] as u32 & 0x7f80_0000 == 0 && case[1] != NONE)
            .count();
        let ties = cases.iter().filter(finite).filter(|case| {
            let value = f64::from_bits(case[0] & !SIGN);
            case[1] != NONE && value != widen(case[1] as u32 & 0x7fff_ffff) && case[0] << 35 == 1 << 63
        });
        assert!(
            past > 800 && subnormal > 1200 && ties.count() > 800,
            "{past} {subnormal}"
        );
        assert_eq!(
            cases[..6].iter().map(|case| case[1]).collect::<Vec<_>>(),
            [0, 1 << 31, 0, 1 << 31, NONE, NONE]
        );
        assert_eq!(narrow(past_largest(-1)), Some(LARGEST));
        assert_eq!(narrow(past_largest(0)), None);
    }

    fn past_largest(step: i64) -> f64 {
        f64::from_bits((super::past().to_bits() as i64 + step) as u64)
    }
}
