//! The map for the picture monitor: records of 16 bytes with two single-precision positions, from the text of change request
//! 2026-11.
//!
//! A record is picture u32, side, field, two zero bytes and two f32, little-endian. Narrowing is done by search: the largest f32 that
//! is not above a value and the next one after it are its neighbours, and the middle of the two is an f64, by which the nearer one
//! is told.

use crate::frames::{follows, is_named, FIELD_AT, SIDE_AT, SPARE_AT};

/// Bytes of a record.
pub const RECORD: usize = 16;
/// Where the two coordinates stand in a record.
pub const COORDINATES_AT: usize = 8;
/// Coordinates of a frame.
pub const COORDINATES: usize = 2;
/// The bits of the largest f32, and those next after it, which are infinite.
pub const LARGEST: u32 = 0x7f7f_ffff;
const BEYOND: u32 = LARGEST + 1;
/// The sign of an f32 and of an f64.
const SIGN: u32 = 1 << 31;
const WIDE_SIGN: u64 = 1 << 63;

/// Why nothing is written or read.
#[derive(Clone, Copy, Debug, PartialEq, Eq)]
pub enum Refusal {
    /// An area is too short.
    Short,
    /// A frame's picture, side, field or order is bad, or a record is; with its place.
    Record(usize),
    /// A frame's coordinate is not finite or rounds past the largest f32; with its place.
    Coordinate(usize),
}

impl Refusal {
    /// The number of the refusal.
    pub fn number(self) -> u64 {
        match self {
            Refusal::Short => 12,
            Refusal::Record(_) => 16,
            Refusal::Coordinate(_) => 26,
        }
    }

    /// What comes with the number: the place of the frame or the record; else 0.
    pub fn place(self) -> u64 {
        match self {
            Refusal::Short => 0,
            Refusal::Record(place) | Refusal::Coordinate(place) => place as u64,
        }
    }
}

/// The value of an f32's bits without its sign, as an f64. The bits after the largest stand for 2^128, which comes next.
fn magnitude(bits: u32) -> f64 {
    let (exponent, fraction) = ((bits >> 23) as i32, f64::from(bits & 0x007f_ffff));
    let power = |exponent: i32| f64::from_bits(((1023 + exponent) as u64) << 52);
    match exponent {
        0 => fraction * power(-149),
        _ => (f64::from(1_u32 << 23) + fraction) * power(exponent - 150),
    }
}

/// An f32 as an f64, which loses nothing. Not asked of what is not finite.
pub fn widen(bits: u32) -> f64 {
    let wide = magnitude(bits & !SIGN);
    if bits & SIGN == 0 {
        wide
    } else {
        -wide
    }
}

/// The bits of the nearest f32, of two that are equally near of the even one. None where the value is not finite or rounds past
/// the largest.
pub fn narrow(value: f64) -> Option<u32> {
    let sign = if value.to_bits() & WIDE_SIGN == 0 { 0 } else { SIGN };
    let value = f64::from_bits(value.to_bits() & !WIDE_SIGN);
    if !value.is_finite() {
        return None;
    }
    // The largest f32 that is not above the value: it lies from low on, and below high.
    let (mut low, mut high) = (0, BEYOND);
    while high - low > 1 {
        let half = low + (high - low) / 2;
        if magnitude(half) <= value {
            low = half;
        } else {
            high = half;
        }
    }
    // The sum of two neighbours has 25 digits at most, so the middle is exact.
    let middle = (magnitude(low) + magnitude(low + 1)) / 2.0;
    let up = value > middle || (value == middle && low % 2 == 1);
    let nearest = low + u32::from(up);
    (nearest < BEYOND).then_some(sign | nearest)
}

/// Writes n frames with two positions each as records to the front of the target; how many there are.
pub fn write_monitor(
    n: usize,
    pictures: &[u32],
    sides: &[u8],
    fields: &[u8],
    positions: &[f64],
    target: &mut [u8],
) -> Result<usize, Refusal> {
    let shortest = [
        pictures.len(),
        sides.len(),
        fields.len(),
        positions.len() / 2,
        target.len() / RECORD,
    ];
    if shortest.iter().any(|&frames| frames < n) {
        return Err(Refusal::Short);
    }
    let mut bytes = Vec::new();
    let mut before = None;
    for i in 0..n {
        let pair = (pictures[i], fields[i]);
        if !is_named(pictures[i], sides[i], fields[i]) || !before.map_or(true, |before| follows(before, pair)) {
            return Err(Refusal::Record(i));
        }
        before = Some(pair);
        bytes.extend(pictures[i].to_le_bytes());
        bytes.extend([sides[i], fields[i], 0, 0]);
        for &coordinate in &positions[COORDINATES * i..COORDINATES * i + COORDINATES] {
            let narrow = narrow(coordinate).ok_or(Refusal::Coordinate(i))?;
            bytes.extend(narrow.to_le_bytes());
        }
    }
    target[..bytes.len()].copy_from_slice(&bytes);
    Ok(n)
}

/// Reads records into the fronts of four areas; how many there are.
pub fn read_monitor(
    file: &[u8],
    pictures: &mut [u32],
    sides: &mut [u8],
    fields: &mut [u8],
    positions: &mut [f64],
) -> Result<usize, Refusal> {
    let mut before = None;
    for (place, record) in file.chunks(RECORD).enumerate() {
        match taken_apart(record) {
            Some(shown) if before.map_or(true, |before| follows(before, (shown.picture, shown.field))) => {
                before = Some((shown.picture, shown.field));
            }
            _ => return Err(Refusal::Record(place)),
        }
    }
    let n = file.len() / RECORD;
    if [pictures.len(), sides.len(), fields.len(), positions.len() / 2]
        .iter()
        .any(|&frames| frames < n)
    {
        return Err(Refusal::Short);
    }
    for (i, shown) in file.chunks(RECORD).filter_map(taken_apart).enumerate() {
        pictures[i] = shown.picture;
        sides[i] = shown.side;
        fields[i] = shown.field;
        positions[COORDINATES * i..COORDINATES * i + COORDINATES].copy_from_slice(&shown.coordinates);
    }
    Ok(n)
}

/// A frame on the monitor.
struct Shown {
    picture: u32,
    side: u8,
    field: u8,
    coordinates: [f64; COORDINATES],
}

/// A record that is good by itself.
fn taken_apart(record: &[u8]) -> Option<Shown> {
    if record.len() != RECORD {
        return None;
    }
    let number = |at: usize| Some(u32::from_le_bytes(record.get(at..at + 4)?.try_into().ok()?));
    let (picture, side, field) = (number(0)?, record[SIDE_AT], record[FIELD_AT]);
    let coordinates = [number(COORDINATES_AT)?, number(COORDINATES_AT + 4)?];
    let is_good = is_named(picture, side, field)
        && record[SPARE_AT..COORDINATES_AT].iter().all(|&byte| byte == 0)
        && coordinates.iter().all(|bits| bits & !SIGN <= LARGEST);
    is_good.then(|| Shown {
        picture,
        side,
        field,
        coordinates: coordinates.map(widen),
    })
}

#[cfg(test)]
mod tests {
    use super::*;
    use crate::scatter::SplitMix64;

    /// What the machine makes of it.
    fn usual(value: f64) -> Option<u32> {
        Some(value as f32).filter(|narrow| narrow.is_finite()).map(f32::to_bits)
    }

    #[test]
    fn narrowing_is_the_machines() {
        let mut random = SplitMix64::new(11);
        let mut met = [0; 4];
        for turn in 0..400_000 {
            let bits = random.next();
            let value = match turn % 4 {
                0 => f64::from_bits(bits),
                // Within the range of f32, its subnormals and a little less.
                1 => f64::from_bits((bits & (WIDE_SIGN | (1 << 52) - 1)) | ((872 + random.next() % 280) << 52)),
                // A half between two neighbours, and the values next to it.
                2 => {
                    let middle = ((bits as u32 & !SIGN) % BEYOND, bits >> 63);
                    let middle = (magnitude(middle.0) + magnitude(middle.0 + 1)) / 2.0 * [1.0, -1.0][middle.1 as usize];
                    f64::from_bits(middle.to_bits().wrapping_add(random.next() % 3).wrapping_sub(1))
                }
                _ => f64::from(f32::from_bits(bits as u32)),
            };
            assert_eq!(narrow(value), usual(value), "{value:e}, {:x}", value.to_bits());
            met[turn % 4] += usize::from(narrow(value).is_some());
        }
        assert!(met[0] > 10_000 && met[1..].iter().all(|&met| met > 90_000), "{met:?}");
    }

    #[test]
    fn boundaries_of_narrowing() {
        let largest = f64::from(f32::MAX);
        let half = 2_f64.powi(103);
        let next = |value: f64, by: i64| f64::from_bits((value.to_bits() as i64 + by) as u64);
        assert_eq!(narrow(largest), Some(LARGEST));
        assert_eq!(narrow(next(largest + half, -1)), Some(LARGEST));
        assert_eq!(narrow(largest + half), None);
        assert_eq!(narrow(-(largest + half)), None);
        assert_eq!(narrow(-next(largest + half, -1)), Some(SIGN | LARGEST));
        for bad in [f64::NAN, -f64::NAN, f64::INFINITY, f64::NEG_INFINITY, f64::MAX] {
            assert_eq!(narrow(bad), None);
        }
        let least = 2_f64.powi(-149);
        assert_eq!(narrow(0.0), Some(0));
        assert_eq!(narrow(-0.0), Some(SIGN));
        assert_eq!(narrow(least / 2.0), Some(0));
        assert_eq!(narrow(-least / 2.0), Some(SIGN));
        assert_eq!(narrow(next(least / 2.0, 1)), Some(1));
        assert_eq!(narrow(1.5 * least), Some(2));
        assert_eq!(narrow(2.5 * least), Some(2));
        assert_eq!(narrow(5e-324), Some(0));
        // The largest subnormal f32, the least normal one, and the middle of the two.
        let normal = 2_f64.powi(-126);
        assert_eq!(narrow(normal - least), Some(0x007f_ffff));
        assert_eq!(narrow(normal - least / 2.0), Some(0x0080_0000));
        assert_eq!(narrow(next(normal - least / 2.0, -1)), Some(0x007f_ffff));
    }

    #[test]
    fn what_is_widened_is_narrowed_back() {
        let mut random = SplitMix64::new(12);
        for turn in 0..200_000_u32 {
            let bits = match turn % 3 {
                0 => turn % 70_000,
                1 => LARGEST - turn % 70_000,
                _ => random.next() as u32 & !SIGN,
            };
            if bits <= LARGEST {
                for bits in [bits, SIGN | bits] {
                    assert_eq!(widen(bits).to_bits(), f64::from(f32::from_bits(bits)).to_bits());
                    assert_eq!(narrow(widen(bits)), Some(bits));
                }
            }
        }
    }

    /// Two frames and a still, their positions, and the file.
    const PICTURES: [u32; 4] = [1, 7, 7, 79_999];
    const SIDES: [u8; 4] = [1, 2, 1, 2];
    const FIELDS: [u8; 4] = [0, 1, 2, 0];
    const POSITIONS: [f64; 8] = [0.5, -0.5, 0.0, -0.0, 1e-60, 1e-40, 3.0e38, 0.1];

    fn file() -> Vec<u8> {
        let mut target = vec![9; 64];
        assert_eq!(
            write_monitor(4, &PICTURES, &SIDES, &FIELDS, &POSITIONS, &mut target),
            Ok(4)
        );
        target
    }

    #[test]
    fn written_and_read() {
        let file = file();
        assert_eq!(file[..8], [1, 0, 0, 0, 1, 0, 0, 0]);
        assert_eq!(file[8..16], [0, 0, 0, 0x3f, 0, 0, 0, 0xbf]);
        assert_eq!(file[16..32], [7, 0, 0, 0, 2, 1, 0, 0, 0, 0, 0, 0, 0, 0, 0, 0x80]);
        assert_eq!(file[48..56], [0x7f, 0x38, 1, 0, 2, 0, 0, 0]);
        let (mut pictures, mut sides, mut fields, mut positions) = ([9; 5], [9; 5], [9; 5], [9.0; 9]);
        let read = read_monitor(&file, &mut pictures, &mut sides, &mut fields, &mut positions);
        assert_eq!(read, Ok(4));
        assert_eq!((&pictures[..4], pictures[4]), (&PICTURES[..], 9));
        assert_eq!((&sides[..4], &fields[..4]), (&SIDES[..], &FIELDS[..]));
        let wanted = POSITIONS.map(|value| f64::from(value as f32).to_bits());
        assert_eq!(positions.map(f64::to_bits)[..8], wanted);
        assert_eq!(positions[8], 9.0);
        let mut again = vec![9; 64];
        let written = write_monitor(4, &pictures, &sides, &fields, &positions, &mut again);
        assert_eq!((written, again), (Ok(4), file));
    }

    #[test]
    fn what_is_not_written() {
        let written = |n: usize, change: &dyn Fn(&mut [u32], &mut [u8], &mut [u8], &mut [f64])| {
            let (mut pictures, mut sides, mut fields, mut positions) = (PICTURES, SIDES, FIELDS, POSITIONS);
            change(&mut pictures, &mut sides, &mut fields, &mut positions);
            let mut target = [9; 64];
            let told = write_monitor(n, &pictures, &sides, &fields, &positions, &mut target);
            assert_eq!(told.is_err(), target == [9; 64]);
            told
        };
        assert_eq!(written(5, &|_, _, _, _| ()), Err(Refusal::Short));
        assert_eq!(written(usize::MAX, &|_, _, _, _| ()), Err(Refusal::Short));
        assert_eq!(
            written(4, &|_, _, _, positions| positions[6] = 3.5e38),
            Err(Refusal::Coordinate(3))
        );
        assert_eq!(written(3, &|_, _, _, positions| positions[6] = 3.5e38), Ok(3));
        assert_eq!(
            written(4, &|_, _, _, positions| positions[1] = f64::NAN),
            Err(Refusal::Coordinate(0))
        );
        assert_eq!(
            written(4, &|pictures, _, _, _| pictures[0] = 0),
            Err(Refusal::Record(0))
        );
        assert_eq!(
            written(4, &|pictures, _, _, _| pictures[3] = 80_000),
            Err(Refusal::Record(3))
        );
        assert_eq!(
            written(4, &|pictures, _, _, _| pictures[1] = 8),
            Err(Refusal::Record(2))
        );
        assert_eq!(written(4, &|_, sides, _, _| sides[2] = 3), Err(Refusal::Record(2)));
        assert_eq!(written(4, &|_, _, fields, _| fields[1] = 0), Err(Refusal::Record(2)));
        assert_eq!(written(4, &|_, _, fields, _| fields[3] = 3), Err(Refusal::Record(3)));
        // At one frame 16 comes before 26, and the first faulty frame counts.
        let both = |_: &mut [u32], sides: &mut [u8], _: &mut [u8], positions: &mut [f64]| {
            sides[1] = 0;
            positions[2] = f64::INFINITY;
        };
        assert_eq!(written(4, &both), Err(Refusal::Record(1)));
        let earlier = |_: &mut [u32], sides: &mut [u8], _: &mut [u8], positions: &mut [f64]| {
            sides[2] = 0;
            positions[2] = f64::INFINITY;
        };
        assert_eq!(written(4, &earlier), Err(Refusal::Coordinate(1)));
    }

    #[test]
    fn what_is_not_read() {
        let read = |file: &[u8], frames: usize| {
            let (mut pictures, mut sides, mut fields, mut positions) = ([9; 4], [9; 4], [9; 4], [9.0; 8]);
            let told = read_monitor(file, &mut pictures[..frames], &mut sides, &mut fields, &mut positions);
            assert_eq!(told.is_err(), pictures == [9; 4]);
            told
        };
        let file = file();
        assert_eq!(read(&file, 4), Ok(4));
        assert_eq!(read(&file, 3), Err(Refusal::Short));
        assert_eq!(read(&file[..63], 3), Err(Refusal::Record(3)));
        for (at, byte, place) in [
            (16, 0, 1),
            (3, 1, 0),
            (20, 3, 1),
            (37, 1, 2),
            (54, 1, 3),
            (55, 1, 3),
            (58, 0xff, 3),
        ] {
            let mut damaged = file.clone();
            damaged[at] = byte;
            assert_eq!(read(&damaged, 3), Err(Refusal::Record(place)), "byte {at}");
        }
        for bits in [0x7f80_0000_u32, 0xff80_0000, 0x7f80_0001, 0xffff_ffff] {
            let mut damaged = file.clone();
            damaged[12..16].copy_from_slice(&bits.to_le_bytes());
            assert_eq!(read(&damaged, 4), Err(Refusal::Record(0)));
        }
    }
}
