//! The scope paper's frame file, with the fields of request 2026-03: 72-byte records without a header, little-endian.
//!
//! A record is picture u32, side, field, two zero bytes, six f64 features and two f64 start positions.

use crate::elementary::in_domain;

/// Bytes of a record.
pub const RECORD: usize = 72;
/// The largest picture number.
pub const LAST_PICTURE: u32 = 79_999;
/// Features of a frame.
pub const FEATURES: usize = 6;
/// Start positions of a frame.
pub const STARTS: usize = 2;
/// Where the side stands in a record.
pub const SIDE_AT: usize = 4;
/// Where the field stands in a record.
pub const FIELD_AT: usize = 5;
/// Where the two zero bytes stand in a record.
pub const SPARE_AT: usize = 6;
/// Where the eight values stand in a record.
pub const VALUES_AT: usize = 8;

/// One record taken apart.
#[derive(Clone, Copy, Debug, PartialEq)]
pub struct Frame {
    /// Number of the picture; it never falls through the file.
    pub picture: u32,
    /// Side of the picture, 1 or 2.
    pub side: u8,
    /// 0 for a whole frame, 1 or 2 for a field of a still.
    pub field: u8,
    /// The frame's row of the table.
    pub features: [f64; FEATURES],
    /// Where the frame starts on the map.
    pub starts: [f64; STARTS],
}

/// What the test of a whole file says.
#[derive(Clone, Copy, Debug, PartialEq, Eq)]
pub enum Checked {
    /// Every record is good; there are so many.
    Good(usize),
    /// The place of the first bad record, from 0.
    Bad(usize),
}

/// The bytes of a record: six features, then two starts.
pub fn record(picture: u32, side: u8, field: u8, values: &[f64; FEATURES + STARTS]) -> Vec<u8> {
    let mut bytes = picture.to_le_bytes().to_vec();
    bytes.extend([side, field, 0, 0]);
    bytes.extend(values.iter().flat_map(|v| v.to_le_bytes()));
    bytes
}

/// Tests all records. A stray tail counts as one bad record.
pub fn check(bytes: &[u8]) -> Checked {
    let mut before = None;
    for (place, record) in bytes.chunks(RECORD).enumerate() {
        match take_apart(record) {
            Some(frame) if is_good(record, &frame) && before.map_or(true, |last| follows(last, frame.pair())) => {
                before = Some(frame.pair());
            }
            _ => return Checked::Bad(place),
        }
    }
    Checked::Good(bytes.len() / RECORD)
}

/// Frame `place` of a file, if the file has that many whole records. The record isn't tested.
pub fn fetch(bytes: &[u8], place: usize) -> Option<Frame> {
    take_apart(bytes.chunks(RECORD).nth(place)?)
}

impl Frame {
    /// Picture and field.
    fn pair(&self) -> (u32, u8) {
        (self.picture, self.field)
    }
}

/// Whether a frame may come after another, each by its picture and field: the pair rises strictly, and a whole frame never shares
/// its picture with a field.
pub(crate) fn follows(before: (u32, u8), pair: (u32, u8)) -> bool {
    let whole = before.1 == 0 || pair.1 == 0;
    pair > before && !(pair.0 == before.0 && whole)
}

/// Whether picture, side and field are in their ranges.
pub(crate) fn is_named(picture: u32, side: u8, field: u8) -> bool {
    (1..=LAST_PICTURE).contains(&picture) && (side == 1 || side == 2) && [0, 1, 2].contains(&field)
}

/// Whether a record keeps all rules that ask nothing of other records.
fn is_good(record: &[u8], frame: &Frame) -> bool {
    let spare = &record[SPARE_AT..VALUES_AT];
    is_named(frame.picture, frame.side, frame.field)
        && spare.iter().all(|&byte| byte == 0)
        && frame.features.iter().all(|&v| in_domain(v))
        && frame.starts.iter().all(|&v| in_domain(v))
}

/// Takes a record apart; a tail shorter than a record gives none.
fn take_apart(record: &[u8]) -> Option<Frame> {
    if record.len() != RECORD {
        return None;
    }
    Some(Frame {
        picture: u32::from_le_bytes(bytes_at(record, 0)?),
        side: record[SIDE_AT],
        field: record[FIELD_AT],
        features: values_at(record, VALUES_AT)?,
        starts: values_at(record, VALUES_AT + 8 * FEATURES)?,
    })
}

/// `N` bytes of a record from place `at` on.
fn bytes_at<const N: usize>(record: &[u8], at: usize) -> Option<[u8; N]> {
    record.get(at..at + N)?.try_into().ok()
}

/// `N` values of a record from place `at` on.
fn values_at<const N: usize>(record: &[u8], at: usize) -> Option<[f64; N]> {
    let mut values = [0.0; N];
    for (i, value) in values.iter_mut().enumerate() {
        *value = f64::from_le_bytes(bytes_at(record, at + 8 * i)?);
    }
    Some(values)
}

#[cfg(test)]
mod tests {
    use super::*;

    const VALUES: [f64; 8] = [0.5, -1.0, 2.0, 1_048_576.0, -1_048_576.0, -0.0, 3.0, 4.0];

    /// Whole frames with the given picture numbers, one after the other.
    fn file(pictures: &[u32]) -> Vec<u8> {
        pictures
            .iter()
            .flat_map(|&picture| record(picture, 1, 0, &VALUES))
            .collect()
    }

    /// Records with the given picture numbers and fields.
    fn fields(pairs: &[(u32, u8)]) -> Vec<u8> {
        pairs
            .iter()
            .flat_map(|&(picture, field)| record(picture, 1, field, &VALUES))
            .collect()
    }

    /// A good three-record file with one byte changed.
    fn with_byte(at: usize, byte: u8) -> Vec<u8> {
        let mut bytes = file(&[1, 2, 79_999]);
        bytes[at] = byte;
        bytes
    }

    #[test]
    fn good_files() {
        assert_eq!(check(&[]), Checked::Good(0));
        assert_eq!(check(&file(&[1])), Checked::Good(1));
        assert_eq!(check(&file(&[1, 2, 54_000, 79_999])), Checked::Good(4));
    }

    #[test]
    fn pictures_rise_within_their_range() {
        assert_eq!(check(&file(&[0])), Checked::Bad(0));
        assert_eq!(check(&file(&[80_000])), Checked::Bad(0));
        assert_eq!(check(&file(&[5, 5])), Checked::Bad(1));
        assert_eq!(check(&file(&[5, 6, 4])), Checked::Bad(2));
        assert_eq!(check(&file(&[79_999, 80_000])), Checked::Bad(1));
    }

    #[test]
    fn sides_and_spare_bytes() {
        assert_eq!(check(&with_byte(72 + SIDE_AT, 2)), Checked::Good(3));
        assert_eq!(check(&with_byte(72 + SIDE_AT, 0)), Checked::Bad(1));
        assert_eq!(check(&with_byte(72 + SIDE_AT, 3)), Checked::Bad(1));
        for spare in SPARE_AT..VALUES_AT {
            assert_eq!(check(&with_byte(144 + spare, 1)), Checked::Bad(2));
        }
    }

    #[test]
    fn fields_of_a_still() {
        assert_eq!(check(&fields(&[(5, 1), (5, 2), (6, 0)])), Checked::Good(3));
        assert_eq!(check(&fields(&[(5, 2), (6, 1), (7, 2)])), Checked::Good(3));
        assert_eq!(check(&fields(&[(5, 2), (5, 1)])), Checked::Bad(1));
        assert_eq!(check(&fields(&[(5, 1), (5, 1)])), Checked::Bad(1));
        assert_eq!(check(&fields(&[(5, 0), (5, 1)])), Checked::Bad(1));
        assert_eq!(check(&fields(&[(5, 1), (5, 0)])), Checked::Bad(1));
        assert_eq!(check(&fields(&[(5, 1), (5, 2), (5, 2)])), Checked::Bad(2));
        assert_eq!(check(&fields(&[(5, 1), (4, 2)])), Checked::Bad(1));
        assert_eq!(check(&fields(&[(5, 3)])), Checked::Bad(0));
    }

    #[test]
    fn values_stay_in_the_domain() {
        for value in 0..FEATURES + STARTS {
            for bad in [f64::NAN, f64::INFINITY, f64::NEG_INFINITY, 1_048_576.000_000_000_2] {
                let mut bytes = file(&[1, 2]);
                let at = VALUES_AT + 8 * value;
                bytes[at..at + 8].copy_from_slice(&bad.to_le_bytes());
                assert_eq!(check(&bytes), Checked::Bad(0));
            }
        }
    }

    #[test]
    fn a_stray_tail_counts_as_one_record() {
        for tail in [1, 8, 71] {
            let mut bytes = file(&[1, 2]);
            bytes.resize(144 + tail, 0);
            assert_eq!(check(&bytes), Checked::Bad(2));
        }
        let mut bytes = with_byte(72, 1);
        bytes.push(0);
        assert_eq!(check(&bytes), Checked::Bad(1));
    }

    #[test]
    fn fetched_frames() {
        let frame = Frame {
            picture: 2,
            side: 1,
            field: 0,
            features: [0.5, -1.0, 2.0, 1_048_576.0, -1_048_576.0, -0.0],
            starts: [3.0, 4.0],
        };
        assert_eq!(fetch(&file(&[1, 2]), 1), Some(frame));
        assert_eq!(fetch(&file(&[1, 2]), 2), None);
        assert_eq!(fetch(&file(&[1])[..71], 0), None);
    }
}
