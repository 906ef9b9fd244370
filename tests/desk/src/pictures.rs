//! Frames named by their pictures, as on the command line: `1281-1320,1377`.

use crate::map::RECORD;
use crate::Frame;
use std::fmt;

/// Pictures, from the first to the last, both included; several such ranges.
#[derive(Clone, Debug, PartialEq, Eq)]
pub struct Pictures(Vec<Range>);

/// One range of pictures; one picture is a range too.
#[derive(Clone, Copy, Debug, PartialEq, Eq)]
pub struct Range {
    first: u32,
    last: u32,
}

impl fmt::Display for Range {
    fn fmt(&self, f: &mut fmt::Formatter<'_>) -> fmt::Result {
        if self.first == self.last {
            write!(f, "{}", self.first)
        } else {
            write!(f, "{}-{}", self.first, self.last)
        }
    }
}

impl Range {
    /// A picture, or two with a dash between them, of which the second is not below the first.
    fn read(text: &str) -> Option<Range> {
        let (first, last) = text.split_once('-').unwrap_or((text, text));
        let picture = |digits: &str| {
            let plain = digits.bytes().all(|byte| byte.is_ascii_digit());
            digits.parse().ok().filter(|_| plain)
        };
        let (first, last): (u32, u32) = (picture(first)?, picture(last)?);
        (first <= last).then_some(Range { first, last })
    }

    fn has(&self, frame: &Frame) -> bool {
        (self.first..=self.last).contains(&frame.picture)
    }
}

impl Pictures {
    /// Ranges with commas between them.
    pub fn read(text: &str) -> Option<Pictures> {
        text.split(',').map(Range::read).collect::<Option<_>>().map(Pictures)
    }

    /// The frames of these pictures by their places, rising, all fields of a still among them; or a range that names no frame.
    pub fn places(&self, frames: &[Frame]) -> Result<Vec<u32>, Range> {
        let nobody = |range: &&Range| !frames.iter().any(|frame| range.has(frame));
        if let Some(&range) = self.0.iter().find(nobody) {
            return Err(range);
        }
        let named = |frame: &Frame| self.0.iter().any(|range| range.has(frame));
        Ok((0..frames.len())
            .filter(|&place| named(&frames[place]))
            .map(|place| place as u32)
            .collect())
    }
}

/// How many frames these are, and of which pictures; frames that follow each other in the file are told by the first and the
/// last of them.
pub fn told(frames: &[Frame], places: &[u32]) -> String {
    let mut ranges: Vec<Range> = Vec::new();
    let mut next = None;
    for &place in places {
        let picture = frames[place as usize].picture;
        match ranges.last_mut() {
            Some(range) if next == Some(place) => range.last = picture,
            _ => ranges.push(Range {
                first: picture,
                last: picture,
            }),
        }
        next = Some(place + 1);
    }
    let listed: Vec<String> = ranges.iter().map(Range::to_string).collect();
    let one = ranges.len() == 1 && ranges[0].first == ranges[0].last;
    format!(
        "{} {}, {} {}",
        places.len(),
        if places.len() == 1 { "frame" } else { "frames" },
        if one { "picture" } else { "pictures" },
        listed.join(", ")
    )
}

/// A frame file without the frames at these places.
pub fn left(file: &[u8], places: &[u32]) -> Vec<u8> {
    let stays = |place: &usize| places.binary_search(&(*place as u32)).is_err();
    let records: Vec<&[u8]> = file.chunks(RECORD).collect();
    (0..records.len())
        .filter(stays)
        .flat_map(|place| records[place].iter().copied())
        .collect()
}

#[cfg(test)]
mod tests {
    use super::*;

    /// Pictures 5, 6 in two fields, 7 and 9.
    fn frames() -> Vec<Frame> {
        let frame = |(picture, field)| Frame {
            picture,
            side: 1,
            field,
            features: [0.0; 6],
            starts: [0.0; 2],
        };
        [(5, 0), (6, 1), (6, 2), (7, 0), (9, 0)].map(frame).to_vec()
    }

    #[test]
    fn pictures_and_ranges() {
        let places = |text: &str| Pictures::read(text).expect("pictures").places(&frames());
        assert_eq!(places("6"), Ok(vec![1, 2]), "both fields go with their picture");
        assert_eq!(places("9,5"), Ok(vec![0, 4]));
        assert_eq!(places("6-8"), Ok(vec![1, 2, 3]));
        assert_eq!(places("5-7,7-9,6"), Ok(vec![0, 1, 2, 3, 4]));
        assert_eq!(places("1-79999"), Ok(vec![0, 1, 2, 3, 4]));
        assert_eq!(places("5,8"), Err(Range { first: 8, last: 8 }));
        assert_eq!(
            places("10-20").map_err(|range| range.to_string()),
            Err("10-20".to_string())
        );
    }

    #[test]
    fn what_names_no_pictures() {
        for text in [
            "",
            ",",
            "5,",
            ",5",
            "a",
            "5-",
            "-5",
            "7-5",
            "5-6-7",
            "+5",
            " 5",
            "5 ,6",
            "4294967296",
            "1.5",
        ] {
            assert_eq!(Pictures::read(text), None, "{text}");
        }
    }

    #[test]
    fn what_is_told() {
        let told = |places: &[u32]| told(&frames(), places);
        assert_eq!(told(&[1, 2]), "2 frames, picture 6");
        assert_eq!(told(&[4]), "1 frame, picture 9");
        assert_eq!(told(&[0, 1, 2, 4]), "4 frames, pictures 5-6, 9");
        assert_eq!(told(&[3, 4]), "2 frames, pictures 7-9");
    }

    #[test]
    fn what_is_left_of_a_file() {
        let file: Vec<u8> = (0..5).flat_map(|i| [i; RECORD]).collect();
        let rest: Vec<u8> = [0, 2, 4].iter().flat_map(|&i| [i; RECORD]).collect();
        assert_eq!(left(&file, &[1, 3]), rest);
        assert_eq!(left(&file, &[]), file);
    }
}
