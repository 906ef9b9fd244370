//! The bench program as the scope paper has it: from the bytes of a frame file to the text that is printed.

use crate::descent::{prepare, work, Answer, Areas, Method, Rows, Settings};
use crate::frames::{check, fetch, Checked, Frame, FEATURES, STARTS};
use crate::tree::Node;

/// The most bytes that the bench takes.
const MOST_BYTES: usize = 4608;
/// The nodes of its arena.
const NODES: usize = 256;

/// What the bench prints for these bytes on standard input.
pub fn printed(bytes: &[u8]) -> String {
    if bytes.len() > MOST_BYTES {
        return "refused 7\n".to_string();
    }
    match check(bytes) {
        Checked::Bad(place) => format!("refused 16 record {place}\n"),
        Checked::Good(count) => {
            let frames: Vec<Frame> = (0..count).filter_map(|place| fetch(bytes, place)).collect();
            map(&frames).unwrap_or_else(|number| format!("refused {number}\n"))
        }
    }
}

/// The settings for so many frames.
pub(crate) fn settings(n: usize) -> Settings {
    Settings {
        n,
        f: FEATURES,
        c: STARTS,
        method: Method::BarnesHut,
        perplexity: 1.0,
        rate: 5.0,
        iterations: 1,
        angle: 0.0,
        minimum: 0.0,
    }
}

/// Just the areas that so many frames need: four neighbours at most for each.
fn areas(n: usize) -> Areas {
    Areas {
        positions: vec![0.0; 2 * n],
        increments: vec![0.0; 2 * n],
        gains: vec![0.0; 2 * n],
        affinities: vec![0.0; 8 * n],
        indices: vec![0; 8 * n],
        offsets: vec![0; n + 1],
        forces: vec![0.0; 5 * n],
        nodes: vec![Node::default(); NODES],
    }
}

/// The lines of a map, or the number that it is refused by.
fn map(frames: &[Frame]) -> Result<String, u64> {
    let n = frames.len();
    let table: Vec<f64> = frames.iter().flat_map(|frame| frame.features).collect();
    let start: Vec<f64> = frames.iter().flat_map(|frame| frame.starts).collect();
    let mut areas = areas(n);
    let mut rows = Rows {
        values: vec![0.0; n],
        indices: vec![0; n],
    };
    let mut record = prepare(settings(n), &table, &start, &mut areas, &mut rows)?;
    let first = match work(&mut record, &mut areas, u32::MAX) {
        Answer::Running(units) => format!("running {units}\n"),
        Answer::Stopped(units) => format!("stopped {units}\n"),
        Answer::Finished(units) => format!("finished {units}\n"),
        Answer::Refused(number, _) => return Err(number),
    };
    let dots = frames.iter().zip(areas.positions.chunks(STARTS));
    let lines: String = dots.map(|(frame, dot)| line(frame, dot)).collect();
    Ok(first + &lines)
}

/// Picture, side, field and the bits of the two coordinates.
fn line(frame: &Frame, dot: &[f64]) -> String {
    let [x, y] = [dot[0].to_bits(), dot[1].to_bits()];
    format!("{} {} {} {x:016x} {y:016x}\n", frame.picture, frame.side, frame.field)
}

#[cfg(test)]
mod tests {
    use super::*;
    use crate::lists::bench::example;

    #[test]
    fn the_papers_example() {
        let text = "finished 6\n101 1 0 4050600000000000 0000000000000000\n102 1 0 c050600000000000 0000000000000000\n";
        assert_eq!(printed(&example()), text);
    }

    #[test]
    fn refusals() {
        assert_eq!(printed(&[]), "refused 7\n");
        assert_eq!(printed(&example()[..72]), "refused 9\n");
        assert_eq!(printed(&example()[..73]), "refused 16 record 1\n");
        assert_eq!(printed(&[0; 4608]), "refused 16 record 0\n");
        assert_eq!(printed(&[0; 4609]), "refused 7\n");
    }
}
