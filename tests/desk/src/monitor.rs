//! The map for the picture monitor: records with single-precision positions, written, read back, and as text.

use crate::library;
use crate::map::line;
use crate::{Refusal, STARTS};

/// The bytes of a record for the monitor: picture (4 bytes), side, field, two zeros and two coordinates (4 bytes each), little-endian.
pub const MONITOR_RECORD: usize = 16;

/// Writes the first n frames of four areas as records to the front of the target, and answers how many there are: the two positions
/// of each frame, rounded to the nearest single-precision number, of two that are equally near to the even one. Refused, nothing is
/// written: 12 for an area that is too short; then at the first faulty frame 16 for a picture that is not from 1 to 79,999, a side that
/// is not 1 or 2, a field that is not 0, 1 or 2 or a frame that may not follow the one before it, else 26 for a coordinate that is not
/// finite or rounds past the largest single-precision number, both with the frame's place, counted from 0.
pub fn write_monitor(
    n: usize,
    pictures: &[u32],
    sides: &[u8],
    fields: &[u8],
    positions: &[f64],
    target: &mut [u8],
) -> Result<usize, (Refusal, u64)> {
    let mut answer = [0];
    let number = unsafe {
        library::brothanchor_monitor_write(
            n,
            pictures.as_ptr(),
            pictures.len(),
            sides.as_ptr(),
            sides.len(),
            fields.as_ptr(),
            fields.len(),
            positions.as_ptr(),
            positions.len(),
            target.as_mut_ptr(),
            target.len(),
            answer.as_mut_ptr(),
            answer.len(),
        )
    };
    Refusal::unless_counted(number, answer)
}

/// Reads a file for the monitor into the fronts of four areas, and answers how many records it has; positions are those of the file,
/// widened. Refused, nothing is written: 16 with the place of the first bad record, counted from 0, a stray tail as one; then 12 for
/// an area that is too short.
pub fn read_monitor(
    file: &[u8],
    pictures: &mut [u32],
    sides: &mut [u8],
    fields: &mut [u8],
    positions: &mut [f64],
) -> Result<usize, (Refusal, u64)> {
    let mut answer = [0];
    let number = unsafe {
        library::brothanchor_monitor_read(
            file.as_ptr(),
            file.len(),
            pictures.as_mut_ptr(),
            pictures.len(),
            sides.as_mut_ptr(),
            sides.len(),
            fields.as_mut_ptr(),
            fields.len(),
            positions.as_mut_ptr(),
            positions.len(),
            answer.as_mut_ptr(),
            answer.len(),
        )
    };
    Refusal::unless_counted(number, answer)
}

/// Frames with their places on a map.
#[derive(Clone, Debug, Default, PartialEq)]
pub struct Placed {
    pub pictures: Vec<u32>,
    pub sides: Vec<u8>,
    pub fields: Vec<u8>,
    /// Two coordinates a frame.
    pub positions: Vec<f64>,
}

impl Placed {
    /// Those of a map's lines, by the bits of their coordinates; or the number of the first line that is none, from 1 on.
    pub fn of_lines(text: &str) -> Result<Placed, usize> {
        let mut placed = Placed::default();
        for (place, line) in text.lines().enumerate() {
            let (picture, side, field, position) = taken_apart(line).ok_or(place + 1)?;
            placed.pictures.push(picture);
            placed.sides.push(side);
            placed.fields.push(field);
            placed.positions.extend(position);
        }
        Ok(placed)
    }

    /// Those of a file for the monitor; or why it is not read.
    pub fn of_file(file: &[u8]) -> Result<Placed, (Refusal, u64)> {
        let n = file.len() / MONITOR_RECORD;
        let mut placed = Placed {
            pictures: vec![0; n],
            sides: vec![0; n],
            fields: vec![0; n],
            positions: vec![0.0; STARTS * n],
        };
        let Placed {
            pictures,
            sides,
            fields,
            positions,
        } = &mut placed;
        read_monitor(file, pictures, sides, fields, positions)?;
        Ok(placed)
    }

    /// The file for the monitor; or why there is none.
    pub fn file(&self) -> Result<Vec<u8>, (Refusal, u64)> {
        let n = self.len();
        let mut target = vec![0; MONITOR_RECORD * n];
        write_monitor(
            n,
            &self.pictures,
            &self.sides,
            &self.fields,
            &self.positions,
            &mut target,
        )?;
        Ok(target)
    }

    /// A line for each frame, as a map has them.
    pub fn lines(&self) -> String {
        let position = |i: usize| [self.positions[STARTS * i], self.positions[STARTS * i + 1]];
        (0..self.len())
            .map(|i| line(self.pictures[i], self.sides[i], self.fields[i], position(i)))
            .collect()
    }

    /// How many frames there are.
    pub fn len(&self) -> usize {
        self.pictures.len()
    }

    pub fn is_empty(&self) -> bool {
        self.len() == 0
    }
}

/// Picture, side, field and position of a map's line: seven words, of which the last two are the bits of the coordinates.
fn taken_apart(line: &str) -> Option<(u32, u8, u8, [f64; STARTS])> {
    let words: Vec<&str> = line.split_whitespace().collect();
    match words[..] {
        [picture, side, field, x, y, x_bits, y_bits] => {
            let position = [coordinate(x, x_bits)?, coordinate(y, y_bits)?];
            Some((picture.parse().ok()?, side.parse().ok()?, field.parse().ok()?, position))
        }
        _ => None,
    }
}

/// A coordinate by its sixteen hex digits. The decimal number before them has to be one, and is not looked at otherwise.
fn coordinate(decimal: &str, bits: &str) -> Option<f64> {
    decimal.parse::<f64>().ok()?;
    let is_hex = bits.len() == 16 && bits.bytes().all(|digit| digit.is_ascii_hexdigit());
    let bits = u64::from_str_radix(bits, 16).ok().filter(|_| is_hex)?;
    Some(f64::from_bits(bits))
}

#[cfg(test)]
mod tests {
    use super::*;

    #[test]
    fn lines_are_read_by_their_bits() {
        let text = " 1203 1 1      -0.500000       0.000000 bfe0000000000000 8000000000000000\n79999 2 0 1 2 3ff8000000000000 7FF0000000000000\n";
        let placed = Placed::of_lines(text).expect("lines of a map");
        assert_eq!(
            (&placed.pictures[..], &placed.sides[..], &placed.fields[..]),
            (&[1203, 79_999][..], &[1, 2][..], &[1, 0][..])
        );
        let bits: Vec<u64> = placed.positions.iter().map(|v| v.to_bits()).collect();
        assert_eq!(bits, [-0.5, -0.0, 1.5, f64::INFINITY].map(f64::to_bits));
        assert_eq!(Placed::of_lines(&placed.lines()), Ok(placed));
        assert_eq!(Placed::of_lines("").map(|placed| placed.is_empty()), Ok(true));
    }

    #[test]
    fn lines_that_are_none() {
        let good = "1 1 0 0 0 0000000000000000 0000000000000000\n";
        for bad in [
            "",
            "1 1 0 0 0 0000000000000000",
            "1 1 0 0 0 0000000000000000 0000000000000000 1",
            "x 1 0 0 0 0000000000000000 0000000000000000",
            "-1 1 0 0 0 0000000000000000 0000000000000000",
            "1 256 0 0 0 0000000000000000 0000000000000000",
            "1 1 0 ? 0 0000000000000000 0000000000000000",
            "1 1 0 0 0 +000000000000000 0000000000000000",
            "1 1 0 0 0 0000000000000000 00000000000000000",
            "0 1 1 0 0.0 0.0 0000000000000000 0000000000000000",
        ] {
            assert_eq!(Placed::of_lines(&format!("{good}{bad}\n{good}")), Err(2), "{bad}");
        }
    }
}
