//! The strip as a picture: a stroke for each frame along one line, and the largest gaps with the pictures on both sides of them.

use crate::picture::{colour, factor_told, patches};
use crate::strip::Strip;
use std::fmt::Write;

/// The picture's width, and the margin on both sides of the strip.
const WIDTH: f64 = 940.0;
const MARGIN: f64 = 70.0;
/// Gaps that are named, at most. Each has a row of its own above the strip where there is no room beside others.
const NAMED: usize = 12;
const ROW: f64 = 16.0;
/// What a letter takes in bold in the widest of the usual fonts, and the least space between two names in a row.
const LETTER: f64 = 8.4;
const APART: f64 = 12.0;
/// The strokes: from here on below the rows, and so long.
const TOP: f64 = 24.0 + ROW * NAMED as f64;
const STROKE: f64 = 40.0;

/// The strip as an SVG file. Colours run in capture order from blue, the first frame, over green and yellow to red, the last.
pub fn svg(strip: &Strip) -> String {
    let across = across(strip);
    let height = TOP + STROKE + 60.0;
    let mut text = String::new();
    // Writing to a String does not fail.
    let _ = writeln!(
        text,
        "<svg xmlns=\"http://www.w3.org/2000/svg\" viewBox=\"0 0 {WIDTH} {height}\" width=\"{WIDTH}\" height=\"{height}\" font-family=\"sans-serif\" font-size=\"12\">"
    );
    let _ = writeln!(text, "<rect width=\"100%\" height=\"100%\" fill=\"white\"/>");
    text += &strokes(strip, &across);
    let names = names(strip, &across);
    text += &names.iter().map(Name::drawn).collect::<String>();
    text += &foot(strip, names.len());
    text += &factor_told(strip.factor, height - 12.0);
    text + "</svg>\n"
}

/// Where the places of the strip lie across the picture. Halves are taken first, so that no distance is too large.
fn across(strip: &Strip) -> Vec<f64> {
    let halves: Vec<f64> = strip.order.iter().map(|&i| strip.positions[i as usize] / 2.0).collect();
    let (first, last) = (halves[0], halves[halves.len() - 1]);
    let span = last - first;
    let room = WIDTH - 2.0 * MARGIN;
    let at = |half: &f64| {
        if span > 0.0 {
            MARGIN + (half - first) / span * room
        } else {
            WIDTH / 2.0
        }
    };
    halves.iter().map(at).collect()
}

/// A stroke for each frame; a viewer shows picture, field, side and place when it is pointed at.
fn strokes(strip: &Strip, across: &[f64]) -> String {
    let foot = TOP + STROKE;
    let stroke = |(place, (x, &i)): (usize, (&f64, &u32))| {
        let (frame, colour) = (&strip.frames[i as usize], colour(i as usize, across.len()));
        let (name, side) = (frame.name(), frame.side);
        format!("<line x1=\"{x:.2}\" y1=\"{TOP}\" x2=\"{x:.2}\" y2=\"{foot}\" stroke=\"{colour}\"><title>picture {name}, side {side}, place {place}</title></line>\n")
    };
    across.iter().zip(&strip.order).enumerate().map(stroke).collect()
}

/// A gap with the pictures on both sides of it.
struct Name {
    text: String,
    /// The gap's two sides, where the name begins and ends, and its row, counted from the strip.
    sides: [f64; 2],
    ends: [f64; 2],
    row: usize,
}

impl Name {
    /// The name, and a line from it to the middle of the gap.
    fn drawn(&self) -> String {
        let [left, right] = self.sides;
        let (x, y, middle) = (self.ends[0], TOP - 10.0 - ROW * self.row as f64, (left + right) / 2.0);
        let (from, to, text) = (y + 3.0, TOP - 4.0, &self.text);
        format!("<line x1=\"{middle:.2}\" y1=\"{from}\" x2=\"{middle:.2}\" y2=\"{to}\" stroke=\"silver\"/>\n")
            + &format!("<line x1=\"{left:.2}\" y1=\"{to}\" x2=\"{right:.2}\" y2=\"{to}\" stroke=\"black\"/>\n")
            + &format!("<text x=\"{x:.2}\" y=\"{y}\" font-weight=\"bold\">{text}</text>\n")
    }

    fn meets(&self, other: &Name) -> bool {
        self.row == other.row && self.ends[0] < other.ends[1] + APART && other.ends[0] < self.ends[1] + APART
    }
}

/// The largest gaps, each in the lowest row that has room for its name.
fn names(strip: &Strip, across: &[f64]) -> Vec<Name> {
    let mut names: Vec<Name> = Vec::new();
    for place in strip.largest_gaps(NAMED) {
        let name = |place: usize| strip.frames[strip.order[place] as usize].name();
        let text = format!("{} | {}", name(place - 1), name(place));
        let width = LETTER * text.len() as f64;
        let sides = [across[place - 1], across[place]];
        let begin = ((sides[0] + sides[1] - width) / 2.0).clamp(0.0, WIDTH - width);
        let mut name = Name {
            text,
            sides,
            ends: [begin, begin + width],
            row: 0,
        };
        while names.iter().any(|other| name.meets(other)) {
            name.row += 1;
        }
        names.push(name);
    }
    names
}

/// What the colours say, and how many gaps are named.
fn foot(strip: &Strip, named: usize) -> String {
    let n = strip.frames.len();
    let (first, last) = (strip.frames[0].name(), strip.frames[n - 1].name());
    let y = TOP + STROKE + 24.0;
    let words = y + 8.0;
    let gaps = match named {
        0 => "no gap is named".to_string(),
        1 => "the largest gap is named".to_string(),
        _ => format!("the {named} largest gaps are named"),
    };
    patches(y)
        + &format!(
            "<text x=\"260\" y=\"{words}\">picture {first} to {last}, {n} frames in capture order; {gaps}</text>\n"
        )
}
