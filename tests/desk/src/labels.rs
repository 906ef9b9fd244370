//! Which dots of a map's picture have their picture's number beside them, with its field, and where it stands.
//!
//! A long line is a cut, and the operator wants to know between which pictures it is. So the ends of long lines come first,
//! those of a longer line before those of a shorter one. Then come the first frame and the last, then some at even spaces.
//! A number takes the place around its dot that hides the fewest dots; where numbers before it have taken all places, it is
//! left out.

/// A line is long if it is longer than so many times the middle one of all lines by length, and than a twentieth of the map's
/// longer side, which the picture draws 800 wide. So a map whose frames lie in no order has no long line.
const TIMES: f64 = 4.0;
const LEAST: f64 = 40.0;
/// Long lines whose ends are named, at most: more would cover the map.
const CUTS: usize = 40;
/// Frames named at even spaces, about so many.
const SPACED: usize = 12;
/// What a number takes in bold in the widest of the usual fonts: a digit's width, and the height.
const DIGIT: f64 = 8.4;
const HEIGHT: f64 = 12.0;
/// The radius of a dot.
pub const RADIUS: f64 = 3.0;

/// A number beside a dot.
pub struct Label {
    /// The frame.
    pub frame: usize,
    /// Where the number begins: its left end, and the line that it stands on.
    pub x: f64,
    pub y: f64,
    /// How wide it is.
    width: f64,
}

impl Label {
    /// The middle of what it takes.
    fn middle(&self) -> [f64; 2] {
        [self.x + self.width / 2.0, self.y + 2.0 - HEIGHT / 2.0]
    }

    /// Whether two numbers are in each other's way.
    fn meets(&self, other: &Label) -> bool {
        let ([x1, y1], [x2, y2]) = (self.middle(), other.middle());
        (x1 - x2).abs() < (self.width + other.width) / 2.0 && (y1 - y2).abs() < HEIGHT
    }

    /// How many dots it hides, or part of them.
    fn hides(&self, dots: &[[f64; 2]]) -> usize {
        let [x, y] = self.middle();
        let (across, up) = (self.width / 2.0 + RADIUS, HEIGHT / 2.0 + RADIUS);
        dots.iter()
            .filter(|dot| (x - dot[0]).abs() < across && (y - dot[1]).abs() < up)
            .count()
    }
}

/// The long lines, the longest first, each by the frame that it leaves for the next one captured.
pub fn long_lines(dots: &[[f64; 2]]) -> Vec<usize> {
    let length = |pair: &[[f64; 2]]| (pair[0][0] - pair[1][0]).hypot(pair[0][1] - pair[1][1]);
    let lengths: Vec<f64> = dots.windows(2).map(length).collect();
    let mut lines: Vec<usize> = (0..lengths.len()).collect();
    lines.sort_by(|&a, &b| lengths[b].total_cmp(&lengths[a]));
    let middle = lines.get(lines.len() / 2).map_or(0.0, |&i| lengths[i]);
    lines.retain(|&i| lengths[i] > LEAST.max(TIMES * middle));
    lines
}

/// The frames to be named whatever they hide, by their turn: the ends of long lines, the first and the last.
fn ends(n: usize, cuts: &[usize]) -> Vec<usize> {
    let mut frames = Vec::new();
    for frame in cuts.iter().take(CUTS).flat_map(|&i| [i, i + 1]).chain([0, n - 1]) {
        if !frames.contains(&frame) {
            frames.push(frame);
        }
    }
    frames
}

/// The frames at even spaces that have none of the ends within half a space.
fn spaced(n: usize, ends: &[usize]) -> impl Iterator<Item = usize> + '_ {
    let space = (n / SPACED).max(1);
    (0..n)
        .step_by(space)
        .filter(move |&frame| ends.iter().all(|end| 2 * end.abs_diff(frame) >= space))
}

/// The places around a dot: right and left of it, above and below; beside it; over and under it. The picture's margin has
/// room for all of them.
fn around([x, y]: [f64; 2], frame: usize, width: f64) -> [Label; 8] {
    let (right, left, centred) = (x + 5.0, x - 5.0 - width, x - width / 2.0);
    let (above, below, beside) = (y - 5.0, y + 14.0, y + 4.0);
    [
        (right, above),
        (right, below),
        (left, above),
        (left, below),
        (right + 1.0, beside),
        (left - 1.0, beside),
        (centred, above - 1.0),
        (centred, below + 1.0),
    ]
    .map(|(x, y)| Label { frame, x, y, width })
}

/// The numbers that have a place. At even spaces none may hide a dot.
pub fn labels(dots: &[[f64; 2]], names: &[String], cuts: &[usize]) -> Vec<Label> {
    let ends = ends(dots.len(), cuts);
    let most = ends.iter().map(|&frame| (frame, usize::MAX));
    let mut placed: Vec<Label> = Vec::new();
    for (frame, most) in most.chain(spaced(dots.len(), &ends).map(|frame| (frame, 0))) {
        let width = DIGIT * names[frame].len() as f64;
        let place = around(dots[frame], frame, width)
            .into_iter()
            .filter(|label| !placed.iter().any(|other| label.meets(other)))
            .map(|label| (label.hides(dots), label))
            .filter(|&(hidden, _)| hidden <= most)
            .min_by_key(|&(hidden, _)| hidden);
        placed.extend(place.map(|(_, label)| label));
    }
    placed
}
