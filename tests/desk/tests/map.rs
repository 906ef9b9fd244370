//! The map of a frame file: against the independent implementation of the rules, and what is said and drawn.

mod rules;

use brothanchor::map::{lists_of, map, settings, Lists, Map, NoMap, NoRun, Run, Wishes, MOST_FRAMES, RECORD};
use brothanchor::pictures::left;
use brothanchor::{parked, prepare, sizes, work, Refusal, Settings, LINK_RECORD};
use oracle::descent::{self, Areas, Record, Standing};
use oracle::divergence::divergence;
use oracle::frames::fetch;
use oracle::lists::sample;
use oracle::partner::{import, Link};
use oracle::scatter::scatter;
use oracle::take_out::take_out;
use rules::{areas_of, rows_of, rules_of};

/// A run by the rules alone.
struct Rules {
    record: Record,
    areas: Areas,
    table: Vec<f64>,
    /// The positions before the last step.
    copy: Vec<f64>,
}

impl Rules {
    /// Prepared from the file's starts or by a seed.
    fn begin(file: &[u8], wishes: &Wishes) -> Rules {
        Rules::begin_from(file, wishes, None)
    }

    /// The same, or begun from a partner's list.
    fn begin_from(file: &[u8], wishes: &Wishes, list: Option<&[u8]>) -> Rules {
        let frames: Vec<_> = (0..file.len() / RECORD).filter_map(|i| fetch(file, i)).collect();
        let (n, ours) = (frames.len(), settings(frames.len(), wishes));
        let sizes = sizes(&ours).expect("good settings");
        let table: Vec<f64> = frames.iter().flat_map(|frame| frame.features).collect();
        let mut start: Vec<f64> = frames.iter().flat_map(|frame| frame.starts).collect();
        if let Some(seed) = wishes.seed {
            scatter(seed, n, 2, &mut start).expect("room for all");
        }
        let (mut areas, mut rows) = (areas_of(&sizes), rows_of(&sizes));
        let record = match list {
            None => descent::prepare(rules_of(&ours), &table, &start, &mut areas, &mut rows).expect("a good run"),
            Some(list) => import(rules_of(&ours), &start, list, &mut areas).expect("a good list"),
        };
        let copy = areas.positions.clone();
        Rules {
            record,
            areas,
            table,
            copy,
        }
    }

    /// So many iterations, or as many as there are left.
    fn work(&mut self, iterations: usize) {
        for _ in 0..iterations {
            if self.record.standing == Standing::Running {
                self.copy = self.areas.positions.clone();
                let units = self.record.settings.iteration();
                descent::work(&mut self.record, &mut self.areas, units as u32);
            }
        }
    }

    /// Positions and divergence at the end.
    fn end(mut self) -> (Vec<f64>, f64) {
        self.work(self.record.settings.iterations);
        let figure = divergence(&self.record, &self.areas, &self.copy).expect("an iteration has just ended");
        self.areas.positions.truncate(2 * self.record.settings.n);
        (self.areas.positions, figure)
    }
}

fn bits(values: &[f64]) -> Vec<u64> {
    values.iter().map(|v| v.to_bits()).collect()
}

/// The sample's first frames.
fn few(frames: usize) -> Vec<u8> {
    sample::file()[..frames * RECORD].to_vec()
}

/// As usual.
const USUAL: Wishes = Wishes {
    seed: None,
    iterations: None,
    perplexity: None,
    scaling: None,
};

/// So many iterations from this start, the rest as usual.
fn in_so_many(seed: Option<u64>, iterations: usize) -> Wishes {
    Wishes {
        seed,
        iterations: Some(iterations),
        ..USUAL
    }
}

fn made(file: &[u8]) -> Map {
    map(file, &USUAL, |_, _| ()).expect("a good file")
}

#[test]
fn maps_are_those_of_the_rules() {
    for (frames, seed, iterations, perplexity) in [
        (2, None, 300, None),
        (3, Some(4), 260, None),
        (24, None, 40, None),
        (24, Some(9), 40, Some(2.5)),
        (120, None, 3, Some(12.0)),
    ] {
        let file = few(frames);
        let wishes = Wishes {
            perplexity,
            ..in_so_many(seed, iterations)
        };
        let ours = map(&file, &wishes, |_, _| ()).expect("a good file");
        let given = settings(frames, &wishes);
        assert_eq!(given.iterations, iterations);
        assert!(perplexity.map_or(true, |asked| asked == given.perplexity));
        assert_eq!(ours.record.words[..9], given.words());
        let (positions, figure) = Rules::begin(&file, &wishes).end();
        assert_eq!(bits(&ours.positions), bits(&positions), "{frames} frames");
        assert_eq!(
            ours.divergence.map(f64::to_bits),
            Some(figure.to_bits()),
            "{frames} frames"
        );
    }
}

/// A run that is worked for so many iterations.
fn begun(file: &[u8], iterations: u64) -> Run {
    let mut run = Run::begin(file, &USUAL).expect("a good file");
    while run.done() < iterations {
        run.iterate().expect("a good run");
    }
    run
}

/// The map of a run that goes on to its end.
fn ended(mut run: Run) -> Map {
    while !run.has_ended() {
        run.iterate().expect("a good run");
    }
    run.map().expect("a map")
}

#[test]
fn a_parked_run_gives_the_same_map() {
    let file = few(9);
    let whole = made(&file);
    let last = whole.record.iterations();
    for night in [0, 1, 40, 250, 251, last - 1] {
        let parked = begun(&file, night).park().expect("between two iterations");
        let resumed = Run::resume(&file, &parked).expect("what was parked");
        assert_eq!((resumed.done(), resumed.frames().len()), (night, 9));
        assert_eq!(resumed.park(), Ok(parked));
        assert_eq!(ended(resumed), whole, "parked after {night}");
    }
    let parked = begun(&file, last).park().expect("after its end");
    let resumed = ended(Run::resume(&file, &parked).expect("what was parked"));
    assert_eq!(bits(&resumed.positions), bits(&whole.positions));
    assert_eq!(
        (resumed.divergence, resumed.record.ending()),
        (None, whole.record.ending())
    );
}

/// Lists of places, from none to so many that eight of 24 frames are left, the fewest that their perplexity allows.
const GONE: [&[u32]; 6] = [
    &[],
    &[0],
    &[23],
    &[17, 18],
    &[2, 3, 4, 5, 6, 20],
    &[0, 1, 2, 3, 4, 5, 6, 7, 9, 11, 13, 15, 17, 19, 21, 23],
];

#[test]
fn a_thinned_run_is_that_of_the_rules() {
    let file = few(24);
    for (gone, night) in GONE.into_iter().zip([3, 0, 40, 1, 251, 7]) {
        let mut rules = Rules::begin(&file, &USUAL);
        rules.work(night);
        let mut old = [0; 24];
        let told = take_out(&mut rules.record, &mut rules.areas, &mut rules.table, gone, &mut old);
        assert_eq!(told, Ok(24 - gone.len()));
        let mut run = begun(&file, night as u64);
        run.take_out(gone).expect("a good list");
        assert_eq!((run.done(), run.frames().len()), (night as u64, 24 - gone.len()));
        let rest = left(&file, gone);
        let parked = run.park().expect("between two iterations");
        let whole = ended(run);
        assert!(whole
            .frames
            .iter()
            .zip(&old)
            .all(|(ours, &i)| fetch(&file, i as usize).map(|frame| frame.features) == Some(ours.features)));
        let (positions, figure) = rules.end();
        assert_eq!(bits(&whole.positions), bits(&positions), "{gone:?}");
        assert_eq!(whole.divergence.map(f64::to_bits), Some(figure.to_bits()));
        let resumed = Run::resume(&rest, &parked).expect("the frames that are left");
        assert_eq!(ended(resumed), whole, "parked when it was thinned");
    }
}

#[test]
fn an_ended_run_may_be_thinned() {
    let file = few(24);
    let mut run = begun(&file, 1000);
    run.take_out(&[1, 2]).expect("a good list");
    assert!(run.has_ended());
    let map = ended(run);
    assert_eq!((map.frames.len(), map.positions.len(), map.divergence), (22, 44, None));
    assert_eq!((map.record.ending(), map.lines().lines().count()), ("finished", 22));
}

#[test]
fn what_is_not_taken_out() {
    let run = begun(&few(24), 3);
    let refused = |gone: &[u32]| {
        let mut other = run.clone();
        let told = other.take_out(gone).expect_err("bad");
        assert_eq!((other.park(), other.frames()), (run.park(), run.frames()));
        told.refusal.0
    };
    assert_eq!(refused(&[3, 3]), 18);
    assert_eq!(refused(&[24]), 18);
    assert_eq!(refused(&(0..23).collect::<Vec<u32>>()), 9);
    assert_eq!(refused(&(0..24).collect::<Vec<u32>>()), 9);
    assert_eq!(refused(&(0..17).collect::<Vec<u32>>()), 10);
}

/// A ring of n frames, each linked with the next.
fn ring(n: u32) -> Vec<u8> {
    let mut links: Vec<Link> = Vec::new();
    for from in 0..n {
        let to = (from + 1) % n;
        let weight = (0.5 / f64::from(n) / f64::from(1 + from % 3)).to_bits();
        let link = Link { from, to, weight };
        links.extend([link, link.mirror()]);
    }
    links.sort_by_key(|link| (link.from, link.to));
    links.iter().flat_map(|link| link.bytes()).collect()
}

#[test]
fn a_partners_list_gives_the_map_of_the_rules() {
    for (frames, seed, iterations) in [(3, None, 300), (9, Some(4), 260), (24, None, 40)] {
        let (file, list) = (few(frames), ring(frames as u32));
        let wishes = in_so_many(seed, iterations);
        let run = Run::import(&file, &wishes, &list).expect("a good list");
        assert_eq!(run.lists().as_ref(), Ok(&list), "what was loaded is written otherwise");
        let ours = ended(run);
        let (positions, figure) = Rules::begin_from(&file, &wishes, Some(&list)).end();
        assert_eq!(bits(&ours.positions), bits(&positions), "{frames} frames");
        assert_eq!(ours.divergence.map(f64::to_bits), Some(figure.to_bits()));
        let own = map(&file, &wishes, |_, _| ()).expect("a good file");
        assert!(own.positions != ours.positions, "the frames' own map is another");
    }
}

#[test]
fn a_runs_own_lists_give_its_map() {
    for (frames, seed) in [(2, None), (9, None), (24, Some(3))] {
        let file = few(frames);
        let wishes = Wishes { seed, ..USUAL };
        let whole = map(&file, &wishes, |_, _| ()).expect("a good file");
        let mut run = Run::begin(&file, &wishes).expect("a good file");
        let list = run.lists().expect("a Barnes-Hut run");
        for _ in 0..5 {
            run.iterate().expect("a good run");
            assert_eq!(run.lists().as_ref(), Ok(&list), "lists do not change");
        }
        let parked = run.park().expect("between two iterations");
        let wanted = Lists {
            frames,
            links: list.len() / LINK_RECORD,
            bytes: list.clone(),
        };
        assert_eq!(lists_of(&parked), Ok(wanted));
        assert_eq!(
            ended(Run::import(&file, &wishes, &list).expect("its own lists")),
            whole,
            "{frames} frames"
        );
    }
}

#[test]
fn what_is_not_imported() {
    let (file, list) = (few(9), ring(9));
    let refused = |file: &[u8], list: &[u8]| Run::import(file, &USUAL, list).expect_err("bad");
    let bad = |record, pair| NoRun::List {
        refusal: Refusal(19),
        record,
        pair,
    };
    let mut lonely = list.clone();
    lonely[3 * LINK_RECORD + 8] ^= 1;
    // Record 3 is the link from 1 to 2; its mirror comes after it.
    assert_eq!(refused(&file, &lonely), bad(3, Some([1, 2])));
    let mut itself = list.clone();
    itself[4] = 0;
    assert_eq!(refused(&file, &itself), bad(0, Some([0, 0])));
    assert_eq!(
        refused(&file, &itself).to_string(),
        "refused 19: a rule of the partner's list fails at a record (record 0, counted from 0, from 0 to 0)"
    );
    let tailed = [list.clone(), vec![0]].concat();
    assert_eq!(refused(&file, &tailed), bad(18, None));
    assert_eq!(
        refused(&file, &tailed).to_string(),
        "refused 19: a rule of the partner's list fails at a record (record 18, counted from 0, not whole)"
    );
    assert_eq!(refused(&few(8), &list), bad(1, Some([0, 8])), "a list of more frames");
    let none = |number| NoRun::Frames(Refusal(number).into());
    assert_eq!(refused(&[], &list), none(7));
    assert_eq!(refused(&few(1), &list), none(9));
    assert!(matches!(refused(&[0; 72], &list), NoRun::Frames(_)));
    assert!(Run::import(&file, &USUAL, &[]).is_ok(), "no links at all");
}

#[test]
fn lists_that_are_not_written() {
    let file = few(9);
    let parked = begun(&file, 3).park().expect("between two iterations");
    let refused = |parked: &[u8]| lists_of(parked).expect_err("bad");
    let at = |record| NoMap {
        refusal: Refusal(16),
        with: Some(record),
    };
    assert_eq!(refused(&parked[..40]), at(1));
    assert_eq!(refused(&[]), at(0));
    // An exact run: two frames, one feature, one component; perplexity and rate 1, 10 iterations.
    let one = 1_f64.to_bits();
    let words = [[0, 2, 1, 1], [one, one, 10, 0], [0; 4], [0; 4], [0; 4], [0; 4], [0; 4]];
    let exact: Vec<u8> = words
        .concat()
        .iter()
        .flat_map(|word: &u64| word.to_le_bytes())
        .collect();
    assert_eq!(refused(&exact), Refusal(17).into());
    assert!(refused(&exact).to_string().ends_with("or an exact run has no lists"));
}

#[test]
fn an_exact_run_goes_on_too() {
    let file = few(9);
    let frames: Vec<_> = (0..9).filter_map(|i| fetch(&file, i)).collect();
    let table: Vec<f64> = frames.iter().flat_map(|frame| frame.features).collect();
    let start: Vec<f64> = frames.iter().flat_map(|frame| frame.starts).collect();
    let settings = Settings {
        method: brothanchor::Method::Exact,
        ..settings(9, &in_so_many(None, 260))
    };
    let sizes = sizes(&settings).expect("good settings");
    let mut areas = brothanchor::Areas::new(&sizes, 0);
    let mut rows = brothanchor::Rows::new(&sizes);
    let mut record = prepare(&settings.words(), &table, &start, &mut areas, &mut rows).expect("a good run");
    work(&mut record, &mut areas, 100 * settings.iteration() as u32);
    let resumed =
        ended(Run::resume(&file, &parked(&record, &areas).expect("after 100 iterations")).expect("what was parked"));
    work(&mut record, &mut areas, u32::MAX);
    assert_eq!(bits(&resumed.positions), bits(&areas.positions));
    assert_eq!(
        (resumed.record.iterations(), resumed.record.units()),
        (record.iterations(), record.units())
    );
    assert!(resumed.divergence.is_some());
}

#[test]
fn what_is_not_resumed() {
    let (file, parked) = (few(9), begun(&few(9), 3).park().expect("between two iterations"));
    let refused = |file: &[u8], parked: &[u8]| Run::resume(file, parked).expect_err("bad");
    let at = |record| NoMap {
        refusal: Refusal(16),
        with: Some(record),
    };
    assert_eq!(refused(&file, &[]), NoRun::Parked(at(0)));
    assert_eq!(refused(&file, &parked[..40]), NoRun::Parked(at(1)));
    assert_eq!(
        refused(&file, &[parked.clone(), vec![0]].concat()),
        NoRun::Parked(at(parked.len() as u64 / 32))
    );
    let mut angle = parked.clone();
    angle[63] = 0x7f;
    assert_eq!(refused(&file, &angle), NoRun::Parked(at(1)));
    assert_eq!(
        refused(&file, &angle).to_string(),
        "refused 16: a record of the file is bad (record 1, counted from 0)"
    );
    assert_eq!(refused(&[0; 72], &parked), NoRun::Frames(at(0)));
    let other = refused(&few(8), &parked);
    assert_eq!(
        other,
        NoRun::Other {
            parked: [9, 6, 2],
            frames: 8
        }
    );
    assert_eq!(
        other.to_string(),
        "a run of 9 frames with 6 features on a map of 2 components; the frame file has 8 with 6 for a map of 2"
    );
    let mut features = parked;
    features[16] = 7;
    assert!(matches!(
        refused(&file, &features),
        NoRun::Other { parked: [9, 7, 2], .. }
    ));
}

#[test]
fn small_maps_come_to_an_end() {
    for frames in 2..12 {
        let mut last = (0, 0);
        let made = map(&few(frames), &USUAL, |done, of| last = (done, of)).expect("a good file");
        assert!(matches!(made.record.ending(), "finished" | "stopped"));
        assert_eq!(last.0, made.record.iterations());
        assert!(last.1 == 1000 && last.0 > 250);
    }
}

#[test]
fn what_is_refused() {
    let refused = |file: &[u8]| map(file, &USUAL, |_, _| ()).expect_err("bad");
    assert_eq!(
        refused(&[]),
        NoMap {
            refusal: Refusal(7),
            with: None
        }
    );
    assert_eq!(refused(&few(1)).refusal, Refusal(9));
    assert_eq!(refused(&vec![0; MOST_FRAMES * RECORD + 1]).refusal, Refusal(7));
    assert_eq!(refused(&vec![0; MOST_FRAMES * RECORD]).with, Some(0));
    let mut side = few(9);
    side[3 * RECORD + 4] = 3;
    let none = refused(&side);
    assert_eq!(
        none,
        NoMap {
            refusal: Refusal(16),
            with: Some(3)
        }
    );
    assert_eq!(
        none.to_string(),
        "refused 16: a record of the file is bad (record 3, counted from 0)"
    );
}

#[test]
fn settings_that_are_refused() {
    let with = |perplexity, iterations| {
        let wishes = Wishes {
            perplexity,
            iterations,
            ..USUAL
        };
        map(&few(9), &wishes, |_, _| ()).expect_err("bad").refusal.0
    };
    assert_eq!([with(Some(9.0), None), with(Some(f64::NAN), None)], [10, 2]);
    assert_eq!([with(None, Some(0)), with(None, Some(65_536))], [4, 4]);
}

/// The sample's picture 1218 is a still: its fields stand in the lines, the titles and the numbers beside the dots.
#[test]
fn a_still_in_two_fields() {
    let made = made(&few(19));
    let lines = made.lines();
    let of_the_still: Vec<&str> = lines.lines().skip(17).map(|line| &line[..9]).collect();
    assert_eq!(of_the_still, [" 1218 1 1", " 1218 1 2"]);
    let picture = made.svg();
    for field in 1..=2 {
        assert!(picture.contains(&format!("<title>picture 1218.{field}, side 1</title>")));
    }
    assert!(picture.contains(">1218.2</text>"), "the last frame has its number");
    assert!(picture.contains("picture 1201 to 1218.2, 19 frames in capture order"));
}

#[test]
fn lines_and_picture() {
    let made = made(&few(10));
    let lines = made.lines();
    assert_eq!(lines.lines().count(), 10);
    for (i, line) in lines.lines().enumerate() {
        let words: Vec<&str> = line.split_whitespace().collect();
        let [x, y] = made.place(i);
        assert_eq!(words[..3], [(1201 + i).to_string(), "1".to_string(), "0".to_string()]);
        assert_eq!(
            words[5..],
            [format!("{:016x}", x.to_bits()), format!("{:016x}", y.to_bits())]
        );
        let read: f64 = words[3].parse().expect("a number");
        assert!((read - x).abs() <= 1e-6);
    }
    let picture = made.svg();
    assert!(picture.starts_with("<svg ") && picture.ends_with("</svg>\n"));
    assert_eq!(picture.matches("<circle ").count(), 10);
    assert_eq!(picture.matches("<line ").count(), 9);
    assert!(picture.contains("<title>picture 1210, side 1</title>") && !picture.contains("NaN"));
    let figure = made.divergence.expect("a map has a divergence");
    assert!(picture.contains(&format!("10 frames in capture order; divergence {figure:.6}</text>")));
    let none = Map {
        divergence: None,
        ..made
    };
    assert!(none.svg().contains("; divergence none</text>"));
}

/// A line over pictures that are not on the map is dashed.
#[test]
fn a_gap_in_the_pictures() {
    let mut run = begun(&few(24), 3);
    let dashed = |run: &Run| {
        run.clone()
            .map()
            .expect("a map")
            .svg()
            .matches("stroke-dasharray")
            .count()
    };
    assert_eq!(dashed(&run), 0, "not between the fields of a still either");
    run.take_out(&[0, 4, 5, 17, 18, 23]).expect("a good list");
    assert_eq!(dashed(&run), 2, "not at the ends");
}
