//! Frames along one line: the strip of a frame file against the independent implementation of the rules, and what is said and drawn.

mod rules;

use brothanchor::map::{Wishes, RECORD};
use brothanchor::strip::{settings, Strip, StripRun};
use brothanchor::{sizes, Frame, Refusal, State};
use oracle::descent::{self, Standing};
use oracle::frames::{fetch, record};
use oracle::lists::sample;
use oracle::scatter::{scatter, SplitMix64};
use oracle::strip::{hand_out, prepare_strip};
use rules::{areas_of, rows_of, rules_of};

/// The sample's first frames.
fn few(frames: usize) -> Vec<u8> {
    sample::file()[..frames * RECORD].to_vec()
}

fn made(file: &[u8], wishes: &Wishes) -> Strip {
    Strip::of(file, wishes, |_, _| ()).expect("a good file")
}

fn bits(values: &[f64]) -> Vec<u64> {
    values.iter().map(|v| v.to_bits()).collect()
}

/// Positions, order and gaps of a file's strip by the rules alone.
fn by_the_rules(file: &[u8], wishes: &Wishes) -> (Vec<f64>, Vec<u32>, Vec<f64>) {
    let frames: Vec<_> = (0..file.len() / RECORD).filter_map(|i| fetch(file, i)).collect();
    let n = frames.len();
    let ours = settings(n, wishes);
    assert_eq!((ours.c, ours.angle), (1, 0.5));
    let sizes = sizes(&ours).expect("good settings");
    let table: Vec<f64> = frames.iter().flat_map(|frame| frame.features).collect();
    let mut start: Vec<f64> = frames.iter().map(|frame| frame.starts[0]).collect();
    if let Some(seed) = wishes.seed {
        scatter(seed, n, 1, &mut start).expect("room for all");
    }
    let (mut areas, mut rows) = (areas_of(&sizes), rows_of(&sizes));
    let mut record = prepare_strip(rules_of(&ours), &table, &start, &mut areas, &mut rows).expect("a good run");
    while record.standing == Standing::Running {
        descent::work(&mut record, &mut areas, u32::MAX);
    }
    let (mut order, mut gaps) = (vec![0; n], vec![0.0; n]);
    assert_eq!(hand_out(&record, &areas, &mut order, &mut gaps), Ok(n));
    (areas.positions, order, gaps)
}

#[test]
fn strips_are_those_of_the_rules() {
    for (frames, seed, iterations, perplexity) in [
        (2, None, 300, None),
        (3, Some(4), 260, None),
        (24, None, 1000, None),
        (24, Some(9), 40, Some(2.5)),
        (120, None, 3, Some(30.0)),
    ] {
        let wishes = Wishes {
            seed,
            iterations: Some(iterations),
            perplexity,
            ..Wishes::default()
        };
        let file = few(frames);
        let ours = made(&file, &wishes);
        let (positions, order, gaps) = by_the_rules(&file, &wishes);
        assert_eq!(bits(&ours.positions), bits(&positions), "{frames} frames");
        assert_eq!(ours.order, order, "{frames} frames");
        assert_eq!(bits(&ours.gaps), bits(&gaps), "{frames} frames");
        assert_ne!(ours.record.state(), Some(State::Running));
    }
}

#[test]
fn progress_is_told() {
    let wishes = Wishes {
        iterations: Some(7),
        ..Wishes::default()
    };
    let mut told = Vec::new();
    let made = Strip::of(&few(9), &wishes, |done, of| told.push((done, of))).expect("a good file");
    assert_eq!(told, (1..=7).map(|done| (done, 7)).collect::<Vec<_>>());
    assert_eq!((made.record.ending(), made.record.iterations()), ("finished", 7));
}

/// A line for each frame along the strip: the positions rise, and the gaps are the steps between them.
#[test]
fn lines_of_a_strip() {
    let mut file = few(20);
    (7..20).step_by(3).for_each(|i| file[i * RECORD + 4] = 2);
    let made = made(&file, &Wishes::default());
    let mut last: Option<f64> = None;
    for (place, line) in made.lines().lines().enumerate() {
        let words: Vec<&str> = line.split_whitespace().collect();
        let frame = fetch(&file, made.order[place] as usize).expect("a frame");
        let wanted = [place as u32, frame.picture, frame.side.into(), frame.field.into()];
        assert_eq!(
            (words.len(), words[..4].join(" ")),
            (8, wanted.map(|word| word.to_string()).join(" "))
        );
        let of_bits = |word: &str| f64::from_bits(u64::from_str_radix(word, 16).expect("hex digits"));
        let (position, gap) = (of_bits(words[6]), of_bits(words[7]));
        let wanted = last.map_or(0.0, |last| position - last);
        assert_eq!(gap.to_bits(), wanted.to_bits());
        assert!(last.map_or(true, |last| last <= position), "{line}");
        let read = |word: &str| word.parse::<f64>().expect("a number");
        assert!((read(words[4]) - position).abs() <= 1e-6 && (read(words[5]) - gap).abs() <= 1e-6);
        last = Some(position);
    }
    let mut order = made.order.clone();
    order.sort_unstable();
    assert_eq!(order, (0..20).collect::<Vec<u32>>(), "every frame once");
    assert_eq!(made.lines().lines().count(), 20);
    assert_eq!(made.frames.iter().filter(|frame| frame.side == 2).count(), 5);
}

/// The sample has four shots: what was captured together stands together.
#[test]
fn shots_stay_together() {
    let made = made(&sample::file(), &Wishes::default());
    let shot = |i: u32| match made.frames[i as usize].picture {
        0..=1250 => 0,
        1251..=1290 | 1336..=1370 => 1,
        1291..=1335 => 2,
        _ => 3,
    };
    let changes = made.order.windows(2).filter(|pair| shot(pair[0]) != shot(pair[1]));
    assert!(changes.count() <= 6, "{}", made.lines());
}

#[test]
fn what_is_refused() {
    let refused = |file: &[u8], wishes: &Wishes| Strip::of(file, wishes, |_, _| ()).expect_err("bad");
    let usual = Wishes::default();
    let many: Vec<u8> = (1..=1025)
        .flat_map(|picture| record(picture, 1, 0, &[0.5; 8]))
        .collect();
    let none = refused(&many, &usual);
    assert_eq!((none.refusal, none.with), (Refusal(20), None));
    assert_eq!(
        none.to_string(),
        "refused 20: the settings are outside the strip profile: one component, Barnes-Hut, an angle of at most 0.5, at most 1024 frames"
    );
    assert!(StripRun::begin(&many[RECORD..], &usual).is_ok(), "1024 frames");
    assert_eq!(refused(&few(1), &usual).refusal, Refusal(9));
    assert_eq!(refused(&[], &usual).refusal, Refusal(7));
    let mut side = few(9);
    side[3 * RECORD + 4] = 3;
    assert_eq!(
        (refused(&side, &usual).refusal, refused(&side, &usual).with),
        (Refusal(16), Some(3))
    );
    let with = |perplexity, iterations| Wishes {
        perplexity,
        iterations,
        ..usual
    };
    assert_eq!(refused(&few(9), &with(Some(9.0), None)).refusal, Refusal(10));
    assert_eq!(refused(&few(9), &with(Some(f64::NAN), None)).refusal, Refusal(2));
    assert_eq!(refused(&few(9), &with(None, Some(0))).refusal, Refusal(4));
    assert_eq!(refused(&few(9), &with(None, Some(65_536))).refusal, Refusal(4));
    let run = StripRun::begin(&few(9), &usual).expect("a good file");
    assert_eq!(run.strip(), Err(Refusal(17).into()), "not at its end");
}

/// A strip of frames that stand at these places, pictures from 1201 on, each this field.
fn strip_of(positions: &[f64], field: u8) -> Strip {
    let frame = |picture| Frame {
        picture,
        side: 1,
        field,
        features: [0.0; 6],
        starts: [0.0; 2],
    };
    let mut order: Vec<u32> = (0..positions.len() as u32).collect();
    let by_the_rule = |&a: &u32, &b: &u32| {
        let places = positions[a as usize].partial_cmp(&positions[b as usize]);
        places.expect("no NaN").then(a.cmp(&b))
    };
    order.sort_by(by_the_rule);
    let at = |place: usize| positions[order[place] as usize];
    let gap = |place: usize| if place == 0 { 0.0 } else { at(place) - at(place - 1) };
    Strip {
        frames: (1201..).map(frame).take(positions.len()).collect(),
        positions: positions.to_vec(),
        record: made(&few(2), &Wishes::default()).record,
        gaps: (0..positions.len()).map(gap).collect(),
        order,
        factor: 1.0,
    }
}

/// The names of gaps in a picture, each with its row and its two ends.
fn names(picture: &str) -> Vec<(String, f64, [f64; 2])> {
    let between = |line: &str, before: &str, after: &str| {
        let rest = line.split_once(before).expect("the start").1;
        rest.split_once(after).expect("the end").0.to_string()
    };
    let name = |line: &str| {
        let text = between(line, ">", "<");
        let [x, y] = [" x=\"", " y=\""].map(|side| between(line, side, "\"").parse::<f64>().expect("a number"));
        let end = x + 8.4 * text.len() as f64;
        (text, y, [x, end])
    };
    picture.lines().filter(|line| line.contains("bold")).map(name).collect()
}

#[test]
fn the_largest_gaps_are_named() {
    // Two heaps with a wide gap between them, and one frame by itself.
    let strip = strip_of(&[0.0, 0.1, 0.2, 9.0, 5.0, 5.1, 5.2], 0);
    let picture = strip.svg();
    assert!(picture.starts_with("<svg ") && picture.ends_with("</svg>\n"));
    assert_eq!(picture.matches("<title>").count(), 7);
    assert!(picture.contains("<title>picture 1204, side 1, place 6</title>"));
    let found: Vec<String> = names(&picture).into_iter().map(|name| name.0).collect();
    assert_eq!(found[..2], ["1203 | 1205", "1207 | 1204"], "the largest first");
    assert_eq!(found.len(), 6);
    assert!(picture.contains("picture 1201 to 1207, 7 frames in capture order; the 6 largest gaps are named"));
    assert_eq!(strip.largest_gaps(2), [3, 6]);
    let two = strip_of(&[1.0, 2.0], 2).svg();
    assert_eq!(names(&two)[0].0, "1201.2 | 1202.2");
    assert!(two.contains("2 frames in capture order; the largest gap is named</text>"));
    let heap = strip_of(&[3.0; 5], 0).svg();
    assert!(heap.contains("5 frames in capture order; no gap is named</text>"));
}

/// Zeros of both signs are one place, so the frame before the other is the one with the lower number, and a gap may be -0.0.
#[test]
fn a_gap_of_minus_zero() {
    let strip = strip_of(&[0.0, -0.0, 1.0], 0);
    assert_eq!(
        (&strip.order[..], bits(&strip.gaps)),
        (&[0, 1, 2][..], bits(&[0.0, -0.0, 1.0]))
    );
    assert_eq!(strip.largest_gaps(9), [2]);
    let picture = strip.svg();
    assert_eq!(names(&picture).len(), 1, "no gap between the zeros is named");
    let of_stroke = |place| {
        let title = format!("side 1, place {place}</title>");
        let line = picture.lines().find(|line| line.contains(&title)).expect("a stroke");
        line.split("x1=\"")
            .nth(1)
            .and_then(|rest| rest.split('"').next())
            .map(String::from)
    };
    assert_eq!(of_stroke(0), of_stroke(1));
    assert_ne!(of_stroke(1), of_stroke(2));
}

#[test]
fn odd_strips_have_a_picture() {
    let largest = 2_f64.powi(100);
    for positions in [
        vec![3.0; 5],
        vec![0.0, -0.0],
        vec![largest, -largest, 0.0],
        vec![f64::from_bits(1), 0.0, f64::from_bits(3)],
    ] {
        let strip = strip_of(&positions, 0);
        let picture = strip.svg();
        assert!(
            !picture.contains("NaN") && !picture.contains("inf"),
            "{positions:?}: {picture}"
        );
        assert_eq!(picture.matches("<title>").count(), positions.len());
        assert_eq!(
            names(&picture).len(),
            strip.gaps.iter().filter(|&&gap| gap > 0.0).count()
        );
    }
}

#[test]
fn names_never_overlap_and_stay_inside() {
    let mut random = SplitMix64::new(7);
    let mut rows = 0;
    for turn in 0..200 {
        let spread = [1.0, 1e-3, 30.0][turn % 3];
        let heap = |random: &mut SplitMix64| (random.next() % 4) as f64 + random.unit() * spread;
        let positions: Vec<f64> = (0..2 + random.next() % 300).map(|_| heap(&mut random)).collect();
        let names = names(&strip_of(&positions, 1).svg());
        assert!(names.len() <= 12 && names.len() >= positions.len().min(13) - 1);
        for (i, (text, y, ends)) in names.iter().enumerate() {
            assert!(*y >= 12.0 && ends[0] >= 0.0 && ends[1] <= 940.0, "{text} at {y}");
            for (other, other_y, other_ends) in &names[..i] {
                let apart = ends[0] >= other_ends[1] || other_ends[0] >= ends[1];
                assert!(y != other_y || apart, "{text} and {other}");
                rows += usize::from(y != other_y);
            }
        }
    }
    assert!(rows > 100, "{rows}");
}
