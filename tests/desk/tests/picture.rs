//! The picture of made-up maps: which frames have their picture's number beside them, where it stands, and which lines are dashed.

use brothanchor::map::Map;
use brothanchor::{Frame, Record};
use oracle::scatter::SplitMix64;

/// A map of frames that stand at these places, with the pictures from the first one on.
fn map_of(first: u32, places: &[[f64; 2]]) -> Map {
    map_with(first, 0, places)
}

/// The same, each frame this field of its picture.
fn map_with(first: u32, field: u8, places: &[[f64; 2]]) -> Map {
    let frame = |picture| Frame {
        picture,
        side: 1,
        field,
        features: [0.0; 6],
        starts: [0.0; 2],
    };
    Map {
        frames: (first..).map(frame).take(places.len()).collect(),
        positions: places.concat(),
        record: Record { words: [0; 14] },
        divergence: None,
        factor: 1.0,
    }
}

/// A shot: so many frames from a place on, each a step further.
fn shot(frames: usize, [x, y]: [f64; 2], step: f64) -> Vec<[f64; 2]> {
    (0..frames).map(|i| [x + step * i as f64, y]).collect()
}

/// A number in a picture.
struct Number {
    name: String,
    picture: u32,
    bold: bool,
    x: f64,
    y: f64,
}

/// What stands between two texts.
fn between<'a>(text: &'a str, before: &str, after: &str) -> &'a str {
    let rest = text.split_once(before).expect("the start").1;
    rest.split_once(after).expect("the end").0
}

fn number_of(line: &str) -> Option<Number> {
    let value = |name: &str| between(line, name, "\"").parse().ok();
    let name = between(line, ">", "<").to_string();
    Some(Number {
        picture: name.split('.').next()?.parse().ok()?,
        name,
        bold: line.contains("bold"),
        x: value(" x=\"")?,
        y: value(" y=\"")?,
    })
}

/// The numbers beside the dots. The other texts have words.
fn numbers(map: &Map) -> Vec<Number> {
    let texts = map.svg();
    texts
        .lines()
        .filter(|line| line.starts_with("<text "))
        .filter_map(number_of)
        .collect()
}

/// The pictures named in bold, rising.
fn bold(map: &Map) -> Vec<u32> {
    let mut pictures: Vec<u32> = numbers(map).iter().filter(|n| n.bold).map(|n| n.picture).collect();
    pictures.sort_unstable();
    pictures
}

impl Number {
    /// Left, right, top and foot of its digits, in DejaVu Sans, which is among the widest.
    fn sides(&self) -> [f64; 4] {
        let digit = if self.bold { 8.35 } else { 7.64 };
        let width = digit * self.name.len() as f64;
        [self.x, self.x + width, self.y - 8.75, self.y]
    }

    fn overlaps(&self, other: &Number) -> bool {
        let ([left, right, top, foot], [l, r, t, f]) = (self.sides(), other.sides());
        left < r && l < right && top < f && t < foot
    }
}

/// The shots of a map at random: frames close together, then a cut, often back to where a shot was before.
fn at_random(random: &mut SplitMix64, frames: usize, spread: f64) -> Vec<[f64; 2]> {
    let mut places = Vec::new();
    let mut from = [0.0; 2];
    for i in 0..frames {
        if i % 9 == 0 {
            from = [
                (random.unit() * 4.0).floor() * 25.0,
                (random.unit() * 4.0).floor() * 25.0,
            ];
        }
        places.push(from.map(|d| d + spread * random.unit()));
    }
    places
}

#[test]
fn both_ends_of_a_cut_are_named() {
    let places = [shot(33, [0.0, 0.0], 0.3), shot(27, [60.0, 50.0], 0.3)].concat();
    let map = map_of(101, &places);
    assert_eq!(bold(&map), [133, 134]);
    assert!(map.svg().contains("long lines, which are cuts: 1, both ends in bold"));
    // At even spaces 131 and 136 would be named; the cut is near enough to tell where that is.
    let named: Vec<u32> = numbers(&map).iter().map(|n| n.picture).collect();
    assert!(named.contains(&101) && named.contains(&160) && named.contains(&116));
    assert!(!named.contains(&131) && !named.contains(&136));
}

#[test]
fn ends_of_cuts_come_before_even_spaces() {
    // Both shots stand still, so the ten even spaces of the first would take all room around its dot: four numbers.
    let places = [shot(200, [0.0, 0.0], 0.0), shot(40, [5.0, 1.0], 0.0)].concat();
    let map = map_of(1001, &places);
    assert_eq!(bold(&map), [1200, 1201]);
    let near = |n: &&Number| n.picture <= 1200;
    assert_eq!(numbers(&map).iter().filter(near).count(), 4);
}

#[test]
fn a_flash_is_named_once() {
    let places = [
        shot(40, [0.0, 0.0], 1.0),
        shot(1, [20.0, 90.0], 0.0),
        shot(40, [40.0, 0.0], 1.0),
    ]
    .concat();
    let map = map_of(1, &places);
    assert_eq!(bold(&map), [40, 41, 42]);
    assert!(map.svg().contains("long lines, which are cuts: 2, both ends in bold"));
}

#[test]
fn repeats_make_no_line_long() {
    // Two of three frames are repeats, so the middle line has no length at all.
    let held = |places: Vec<[f64; 2]>| -> Vec<[f64; 2]> { places.iter().flat_map(|&p| [p, p, p]).collect() };
    let places = [held(shot(20, [0.0, 0.0], 1.0)), held(shot(20, [0.0, 80.0], 1.0))].concat();
    assert_eq!(bold(&map_of(1, &places)), [60, 61]);
}

#[test]
fn no_order_has_no_long_lines() {
    let mut random = SplitMix64::new(12);
    let anywhere: Vec<[f64; 2]> = (0..300).map(|_| [random.unit(), random.unit()]).collect();
    let (still, single) = (shot(50, [1.0, 1.0], 0.0), shot(50, [1.0, 1.0], 1.0));
    for places in [anywhere, still, single, shot(2, [0.0, 0.0], 1.0)] {
        let map = map_of(1, &places);
        assert_eq!(bold(&map), [0; 0]);
        assert!(map.svg().contains("long lines, which are cuts: none"));
        assert!(numbers(&map).iter().any(|n| n.picture == 1) && numbers(&map).iter().any(|n| n.picture > 1));
    }
}

#[test]
fn the_longest_of_many_cuts_are_named() {
    // A hundred shots on a grid, in an order that jumps about, so that no two numbers are in each other's way.
    let spot = |i: usize| [(i * 37 % 100 / 10) as f64 * 10.0, (i * 37 % 10) as f64 * 10.0];
    let places: Vec<[f64; 2]> = (0..100).flat_map(|i| shot(4, spot(i), 0.5)).collect();
    let map = map_of(1, &places);
    let length = |i: usize| (places[i][0] - places[i + 1][0]).hypot(places[i][1] - places[i + 1][1]);
    let mut cuts: Vec<usize> = (3..399).step_by(4).collect();
    cuts.sort_by(|&a, &b| length(b).total_cmp(&length(a)));
    let bold = bold(&map);
    for &i in cuts.iter().take(30) {
        assert!(bold.contains(&(i as u32 + 1)) && bold.contains(&(i as u32 + 2)), "{i}");
    }
    assert!((60..100).contains(&bold.len()), "{}", bold.len());
    assert!(map.svg().contains("long lines, which are cuts: 99, both ends of "));
}

#[test]
fn numbers_hide_no_dots_where_there_is_room() {
    // Both shots go up to the right, where a number would stand if nothing were in its way.
    let up = |from: f64| (0..60).map(move |i| [from + 0.6 * i as f64, 0.4 * i as f64]);
    let places: Vec<[f64; 2]> = up(0.0).chain(up(60.0)).collect();
    let map = map_of(11, &places);
    assert_eq!(bold(&map), [70, 71]);
    let picture = map.svg();
    let dots = picture.lines().filter(|line| line.starts_with("<circle "));
    let value = |line, name| -> f64 { between(line, name, "\"").parse().expect("a number") };
    let dots: Vec<[f64; 2]> = dots.map(|line| [value(line, "cx=\""), value(line, "cy=\"")]).collect();
    let numbers = numbers(&map);
    assert!(dots.len() == 120 && numbers.len() > 8);
    for number in &numbers {
        let [left, right, top, foot] = number.sides();
        let hides = |[x, y]: &&[f64; 2]| left < *x && *x < right && top < *y && *y < foot;
        assert_eq!(dots.iter().find(hides), None, "{}", number.picture);
    }
}

#[test]
fn lines_are_dashed_where_the_next_picture_is_not_the_following_number() {
    // The file has no pictures 105 to 107 and 111, and of the still 113 one field alone.
    let frames = [
        (102, 0, false),
        (103, 0, false),
        (104, 1, false),
        (104, 2, true),
        (108, 0, false),
        (109, 0, false),
        (110, 1, false),
        (110, 2, true),
        (112, 0, false),
        (113, 2, false),
        (114, 0, false),
    ];
    let mut map = map_of(0, &shot(frames.len(), [0.0, 0.0], 1.0));
    for (frame, (picture, field, _)) in map.frames.iter_mut().zip(frames) {
        (frame.picture, frame.field) = (picture, field);
    }
    let picture = map.svg();
    let lines: Vec<&str> = picture.lines().filter(|line| line.starts_with("<line ")).collect();
    assert_eq!(lines.len(), frames.len() - 1);
    for (line, (picture, field, gap)) in lines.iter().zip(frames) {
        assert_eq!(line.contains(" stroke-dasharray="), gap, "from {picture}.{field} on");
    }
}

/// All numbers lie in the picture, and no two overlap; how many pairs that were.
fn apart(numbers: &[Number]) -> usize {
    let mut pairs = 0;
    for (i, one) in numbers.iter().enumerate() {
        let [left, right, top, foot] = one.sides();
        let within = left >= 0.0 && right <= 940.0 && top >= 0.0 && foot <= 940.0;
        assert!(within, "{}", one.name);
        for other in &numbers[i + 1..] {
            assert!(!one.overlaps(other), "{} and {}", one.name, other.name);
            pairs += 1;
        }
    }
    pairs
}

#[test]
fn numbers_never_overlap() {
    let mut random = SplitMix64::new(3);
    let mut pairs = 0;
    for (frames, spread) in [
        (2, 0.0),
        (9, 1.0),
        (30, 0.0),
        (240, 0.1),
        (240, 5.0),
        (900, 2.0),
        (900, 20.0),
    ] {
        let places = at_random(&mut random, frames, spread);
        for map in [map_of(53_000, &places), map_with(79_000, 2, &places)] {
            pairs += apart(&numbers(&map));
            assert_eq!(map.svg(), map.clone().svg());
        }
    }
    assert!(pairs > 1000, "{pairs}");
}
