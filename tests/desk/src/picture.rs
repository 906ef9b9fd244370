//! The map as a picture: a dot for each frame, and a line from each frame to the next one captured.

use crate::labels::{labels, long_lines, Label, RADIUS};
use crate::map::Map;
use crate::scaling::told;
use crate::Frame;
use std::fmt::Write;

/// The sides of the picture, and the margin around the map, with room for the widest number: `79999.2`.
const SIDE: f64 = 940.0;
const MARGIN: f64 = 70.0;

/// The map as an SVG file. Colours run from blue, the first frame, over green and yellow to red, the last.
pub fn svg(map: &Map) -> String {
    let dots = dots(map);
    let cuts = long_lines(&dots);
    let names: Vec<String> = map.frames.iter().map(Frame::name).collect();
    let labels = labels(&dots, &names, &cuts);
    let mut text = String::new();
    let foot = SIDE + 50.0;
    // Writing to a String does not fail.
    let _ = writeln!(
        text,
        "<svg xmlns=\"http://www.w3.org/2000/svg\" viewBox=\"0 0 {SIDE} {foot}\" width=\"{SIDE}\" height=\"{foot}\" font-family=\"sans-serif\" font-size=\"12\">"
    );
    let _ = writeln!(text, "<rect width=\"100%\" height=\"100%\" fill=\"white\"/>");
    text += &lines(map, &dots);
    text += &circles(map, &dots);
    text += &numbers(&names, &labels, &cuts);
    text += &legend(map);
    text += &cuts_told(&labels, &cuts);
    text += &factor_told(map.factor, SIDE + 34.0);
    text + "</svg>\n"
}

/// Where the frames stand in the picture: one scale for both directions, the middle of the map in the middle.
fn dots(map: &Map) -> Vec<[f64; 2]> {
    let places: Vec<[f64; 2]> = (0..map.frames.len()).map(|i| map.place(i)).collect();
    let ends = |d: usize| {
        let least = places.iter().map(|p| p[d]).fold(f64::INFINITY, f64::min);
        let most = places.iter().map(|p| p[d]).fold(f64::NEG_INFINITY, f64::max);
        (least, most)
    };
    let ((left, right), (low, high)) = (ends(0), ends(1));
    let span = (right - left).max(high - low);
    let scale = if span > 0.0 { (SIDE - 2.0 * MARGIN) / span } else { 0.0 };
    let (x, y) = ((left + right) / 2.0, (low + high) / 2.0);
    places
        .iter()
        .map(|p| [SIDE / 2.0 + (p[0] - x) * scale, SIDE / 2.0 - (p[1] - y) * scale])
        .collect()
}

/// The colour of frame i of n.
pub(crate) fn colour(i: usize, n: usize) -> String {
    let hue = 240.0 * (1.0 - i as f64 / n.saturating_sub(1).max(1) as f64);
    format!("hsl({hue:.0},80%,45%)")
}

/// A line from each frame to the next, dashed where the map lacks pictures between them.
fn lines(map: &Map, dots: &[[f64; 2]]) -> String {
    let line = |(i, pair): (usize, &[[f64; 2]])| {
        let [[x1, y1], [x2, y2]] = [pair[0], pair[1]];
        let colour = colour(i, dots.len());
        let gap = map.frames[i + 1].picture > map.frames[i].picture + 1;
        let dashes = if gap { " stroke-dasharray=\"6 4\"" } else { "" };
        format!("<line x1=\"{x1:.2}\" y1=\"{y1:.2}\" x2=\"{x2:.2}\" y2=\"{y2:.2}\" stroke=\"{colour}\" stroke-opacity=\"0.4\"{dashes}/>\n")
    };
    dots.windows(2).enumerate().map(line).collect()
}

/// A dot for each frame; a viewer shows picture, field and side when it is pointed at.
fn circles(map: &Map, dots: &[[f64; 2]]) -> String {
    let circle = |(i, [x, y]): (usize, &[f64; 2])| {
        let (frame, colour) = (&map.frames[i], colour(i, dots.len()));
        let (name, side) = (frame.name(), frame.side);
        format!("<circle cx=\"{x:.2}\" cy=\"{y:.2}\" r=\"{RADIUS}\" fill=\"{colour}\"><title>picture {name}, side {side}</title></circle>\n")
    };
    dots.iter().enumerate().map(circle).collect()
}

/// The pictures' numbers, with their fields, in bold where a long line begins or ends.
fn numbers(names: &[String], labels: &[Label], cuts: &[usize]) -> String {
    let number = |label: &Label| {
        let (x, y, frame) = (label.x, label.y, label.frame);
        let cut = cuts.iter().any(|&i| frame == i || frame == i + 1);
        let weight = if cut { " font-weight=\"bold\"" } else { "" };
        format!("<text x=\"{x:.2}\" y=\"{y:.2}\"{weight}>{}</text>\n", names[frame])
    };
    labels.iter().map(number).collect()
}

/// The colours from the first frame to the last, in a row.
pub(crate) fn patches(y: f64) -> String {
    let patch = |i: usize| {
        format!(
            "<rect x=\"{}\" y=\"{y}\" width=\"8\" height=\"8\" fill=\"{}\"/>\n",
            50 + 8 * i,
            colour(i, 25)
        )
    };
    (0..25).map(patch).collect()
}

/// What the colours say, below the map, and how well it fits.
fn legend(map: &Map) -> String {
    let n = map.frames.len();
    let (first, last) = (map.frames[0].name(), map.frames[n - 1].name());
    let y = SIDE + 10.0;
    let words = y + 8.0;
    let divergence = map.told_divergence();
    patches(y)
        + &format!("<text x=\"260\" y=\"{words}\">picture {first} to {last}, {n} frames in capture order; divergence {divergence}</text>\n")
}

/// How many long lines there are, and how many of them have their pictures' numbers at both ends.
fn cuts_told(labels: &[Label], cuts: &[usize]) -> String {
    let named = |frame: usize| labels.iter().any(|label| label.frame == frame);
    let both = cuts.iter().filter(|&&i| named(i) && named(i + 1)).count();
    let told = match cuts.len() {
        0 => "none".to_string(),
        all if all == both => format!("{all}, both ends in bold"),
        all => format!("{all}, both ends of {both} in bold"),
    };
    let y = SIDE + 34.0;
    format!("<text x=\"260\" y=\"{y}\">long lines, which are cuts: {told}</text>\n")
}

/// What the features were multiplied by, at the right of the foot; nothing where they are as they were.
pub(crate) fn factor_told(factor: f64, y: f64) -> String {
    if factor == 1.0 {
        return String::new();
    }
    let (x, told) = (SIDE - 10.0, told(factor));
    format!("<text x=\"{x}\" y=\"{y}\" text-anchor=\"end\">features {told}</text>\n")
}
