//! The divergence against the independent implementation: up to 200 frames, both methods, every c, on both sides of the
//! exaggeration's end; before, inside and after iterations, and on whatever a caller may have altered. Figure, number and what
//! comes with the number have to be the same, and nothing may have changed.

use crate::both::{bits, number, other_side, told_of, Both};
use crate::case::{marked_nodes, Case};
use crate::met::{all_met, meet, told_name, Met};
use crate::random::Random;
use crate::{damage_node, damage_record, damage_value, each_seed, setting};
use brothanchor::{divergence, sizes, Kind, Method, Settings, Sizes, State};
use oracle::divergence::{self as rules, Refusal};
use oracle::record::{record_of, settings_of};

/// The most frames of most runs, and of one in twenty.
const FEW: usize = 60;
const FRAMES: usize = 200;
/// How much is altered in each run, of all that can be; less where there are many frames, for the time it takes.
const ALTERED: usize = 10;
const ALTERED_OF_MANY: usize = 3;

/// What is told: 0 and the figure's bits, or the number of the refusal and what comes with it.
type Told = (u64, u64);

/// What has to be told after something was altered.
enum Wanted {
    /// The same as before.
    Same,
    /// A refusal by this number.
    Refused(u64),
    /// A figure.
    Figure,
    /// What the rules say.
    Anything,
}

/// A run that stands after an iteration, with the positions before its step.
#[derive(Clone)]
struct Stand {
    both: Both,
    copy: Vec<f64>,
    settings: Settings,
    sizes: Sizes,
}

/// What the library tells, which has to be what the rules say; and nothing has changed.
fn told(both: &Both, copy: &[f64]) -> Told {
    let (before, lent) = (both.clone(), copy.to_vec());
    let told = match divergence(&both.record, &both.areas, copy) {
        Ok(figure) => (0, figure.to_bits()),
        Err((refusal, place)) => (u64::from(refusal.0), place),
    };
    assert_eq!(told, by_the_rules(both, copy));
    assert_eq!(both.difference(&before, None), None, "a part was changed");
    let same = copy.iter().zip(&lent).all(|(a, b)| a.to_bits() == b.to_bits());
    assert!(same, "the copy was changed");
    told
}

/// The same by the independent implementation.
fn by_the_rules(both: &Both, copy: &[f64]) -> Told {
    let record = match record_of(&both.record.words) {
        Ok(record) => record,
        Err(fault) => return told_of(fault),
    };
    match rules::divergence(&record, &other_side(&both.areas), copy) {
        Ok(figure) => (0, bits(figure)),
        Err(Refusal::Entry(fault)) => told_of(fault),
        Err(Refusal::Early) => (17, 0),
    }
}

/// Settings at random, and the iteration after which the figure is asked for: the run's last, or not.
fn settings(random: &mut Random) -> (Settings, usize) {
    let method = random.one_of(&[Method::Exact, Method::BarnesHut]);
    let n = match random.once_in(20) {
        true => random.within(FRAMES / 2 + 1, FRAMES),
        false => random.between(2.0, FEW as f64 + 1.0) as usize,
    };
    let around = random.one_of(&[1, 248, 348]) + random.below(4);
    let anywhere = random.within(1, 1000);
    let asked = random.one_of(&[around, around, anywhere]);
    let settings = Settings {
        n,
        f: random.within(1, 6),
        c: random.within(1, if method == Method::Exact { 8 } else { 3 }),
        method,
        perplexity: random.between(0.3, 60.0).min(n as f64 * 0.999),
        rate: random.between(0.1, 300.0),
        iterations: asked + random.one_of(&[0, 1, 100]),
        angle: random.one_of(&[0.0, 0.3, 0.5, 0.8, 0.99]),
        minimum: random.one_of(&[0.0, f64::NAN, 1e-7, 1e9]),
    };
    (settings, asked)
}

/// One run: before its first iteration, inside one, after one, and then altered in several ways.
fn run(random: &mut Random, met: &mut Met) {
    let (settings, asked) = settings(random);
    let case = Case::good(random, settings, 40 + 10 * settings.n);
    let mut both = Both::prepare(&case).expect("a good run");
    assert_eq!(told(&both, &both.areas.positions), (17, 0));
    meet(met, format!("{:?}, just prepared", settings.method));
    if settings.n > 10 || asked > 400 || random.once_in(2) {
        skip(&mut both, asked - 1);
    }
    let copy = match descend(random, &mut both, asked, met) {
        Some(copy) => copy,
        None => return meet(met, "refused by 15".to_string()),
    };
    let stand = Stand {
        both,
        copy,
        settings,
        sizes: sizes(&settings).expect("good settings"),
    };
    let plain = told(&stand.both, &stand.copy);
    count(&stand, plain, met);
    for _ in 0..if settings.n > FEW { ALTERED_OF_MANY } else { ALTERED } {
        altered(random, &stand, plain, met);
    }
}

/// A record that says that so many iterations are done, and no unit of the next.
fn skip(both: &mut Both, done: usize) {
    let words = &mut both.record.words;
    let iteration = if words[3] == 0 {
        2 * words[0] + 1
    } else {
        2 * words[0] + 2
    };
    words[10] = done as u64;
    words[11] = 0;
    words[12] = words[10] * iteration;
}

/// Works until so many iterations are done or the run has ended, in two calls each; the positions before the last step, unless
/// a step was refused. Of the last iteration the figure is asked for between the calls too.
fn descend(random: &mut Random, both: &mut Both, asked: usize, met: &mut Met) -> Option<Vec<f64>> {
    let iteration = match both.record.words[3] {
        0 => 2 * both.record.words[0] + 1,
        _ => 2 * both.record.words[0] + 2,
    };
    loop {
        let first = random.within(1, iteration as usize - 1) as u32;
        work(both, first)?;
        let copy = both.areas.positions.clone();
        let last = both.record.iterations() + 1 == asked as u64;
        if last {
            inside(random, both, &copy, met);
        }
        let ended = work(both, iteration as u32 - first)?;
        if last || ended {
            return Some(copy);
        }
    }
}

/// So many units, with a longer arena where 14 comes; whether the run has ended, unless 15 came.
fn work(both: &mut Both, budget: u32) -> Option<bool> {
    let mut left = budget;
    loop {
        let worked = both.work(left);
        left -= worked.units as u32;
        match number(&worked) {
            14 => both.areas.nodes.extend(marked_nodes(400)),
            15 => return None,
            _ => return Some(worked.kind != Kind::Running),
        }
    }
}

/// Inside an iteration it is 17; where a node is bad, 25.
fn inside(random: &mut Random, both: &Both, copy: &[f64], met: &mut Met) {
    let method = format!("{:?}", settings_of(&both.record.words).expect("a record").method);
    assert_eq!(told(both, copy), (17, 0));
    meet(met, format!("{method}, inside an iteration"));
    let mut bad = both.clone();
    let used = (both.record.words[13] as usize).min(both.areas.nodes.len());
    damage_node(random, &mut bad.areas.nodes[..used]);
    let told = told(&bad, copy);
    if told.0 == 25 {
        meet(met, format!("{method}, a bad node inside an iteration"));
        meet(met, told_name(told));
    }
}

/// What a run that nobody has altered shows.
fn count(stand: &Stand, plain: Told, met: &mut Met) {
    let Settings { method, c, .. } = stand.settings;
    assert_eq!(plain.0, 0, "a figure after an iteration");
    let done = stand.both.record.iterations();
    meet(met, format!("{method:?}, c {c}"));
    meet(met, format!("{method:?}, iteration {}", around(done)));
    let state = stand.both.record.state().expect("a record");
    if state != State::Running {
        meet(met, format!("{method:?}, {state:?}"));
    }
    if stand.settings.n > FRAMES / 2 {
        meet(met, format!("{method:?}, more than {} frames", FRAMES / 2));
    }
}

/// An iteration by its number, or where it lies.
fn around(done: u64) -> String {
    match done {
        249..=252 | 349..=351 => done.to_string(),
        1 => "the first".to_string(),
        2..=248 => "early".to_string(),
        _ => "late".to_string(),
    }
}

/// What is told of a figure's value.
fn kind(bits: u64) -> &'static str {
    let figure = f64::from_bits(bits);
    match figure {
        _ if figure.is_nan() => "NaN",
        _ if figure.is_infinite() => "infinite",
        _ if figure < 0.0 => "negative",
        _ if figure == 0.0 => "zero",
        _ => "positive",
    }
}

/// Something altered, and what is told then.
fn altered(random: &mut Random, stand: &Stand, plain: Told, met: &mut Met) {
    let mut other = stand.clone();
    let (name, wanted) = match random.below(5) {
        0 => alter_lengths(random, &mut other),
        1 => alter_values(random, &mut other),
        2 => alter_totals(random, &mut other),
        3 => alter_record(random, &mut other),
        _ => alter_contents(random, &mut other),
    };
    let told = told(&other.both, &other.copy);
    match wanted {
        Wanted::Same => assert_eq!(told, plain, "{name}"),
        Wanted::Refused(number) => assert_eq!(told.0, number, "{name}"),
        Wanted::Figure => assert_eq!(told.0, 0, "{name}"),
        Wanted::Anything => {}
    }
    let method = stand.settings.method;
    meet(met, format!("{method:?}, {name}"));
    match told {
        (0, figure) => meet(met, format!("{method:?}, a figure that is {}", kind(figure))),
        _ => meet(met, told_name(told)),
    }
}

/// Areas and copies that are one element short, or longer.
fn alter_lengths(random: &mut Random, stand: &mut Stand) -> (&'static str, Wanted) {
    let (areas, sizes) = (&mut stand.both.areas, &stand.sizes);
    let of_the_tree = if stand.settings.method == Method::Exact {
        Wanted::Same
    } else {
        Wanted::Refused(12)
    };
    let short = Wanted::Refused(12);
    match random.below(10) {
        0 => (cut(&mut stand.copy, sizes.cells, "the copy one short"), short),
        1 => (cut(&mut areas.positions, sizes.cells, "positions one short"), short),
        2 => (cut(&mut areas.increments, sizes.cells, "increments one short"), short),
        3 => (cut(&mut areas.gains, sizes.cells, "gains one short"), short),
        4 => (
            cut(&mut areas.affinities, sizes.affinities, "affinities one short"),
            short,
        ),
        5 => (cut(&mut areas.indices, sizes.indices, "indices one short"), of_the_tree),
        6 => (cut(&mut areas.offsets, sizes.offsets, "offsets one short"), of_the_tree),
        7 => (cut(&mut areas.forces, sizes.forces, "forces one short"), short),
        8 => (cut(&mut areas.nodes, 1, "no nodes"), of_the_tree),
        _ => {
            let more: Vec<f64> = (0..random.within(1, 9)).map(|_| random.odd_value()).collect();
            stand.copy.truncate(sizes.cells);
            stand.copy.extend(more);
            ("a longer copy", Wanted::Same)
        }
    }
}

/// One element less than asked for.
fn cut<T>(area: &mut Vec<T>, asked: usize, name: &'static str) -> &'static str {
    area.truncate(asked.saturating_sub(1));
    name
}

/// Other values: some count, some do not.
fn alter_values(random: &mut Random, stand: &mut Stand) -> (&'static str, Wanted) {
    let (areas, cells) = (&mut stand.both.areas, stand.sizes.cells);
    let linked = match stand.settings.method {
        Method::Exact => stand.sizes.affinities,
        Method::BarnesHut => areas.offsets[stand.settings.n] as usize,
    };
    match random.below(9) {
        0 => {
            damage_value(random, &mut areas.positions);
            damage_value(random, &mut areas.increments);
            damage_value(random, &mut areas.gains);
            ("other positions, increments and gains", Wanted::Same)
        }
        1 => {
            damage_node(random, &mut areas.nodes);
            ("another node after an iteration", Wanted::Same)
        }
        2 => {
            areas.affinities[..linked].iter_mut().for_each(|p| *p = -*p);
            ("affinities below 0", Wanted::Figure)
        }
        3 => {
            stand.copy[..cells].fill(random.odd_value());
            ("a copy of one value", Wanted::Figure)
        }
        4 => {
            areas.affinities[..2].fill(f64::INFINITY);
            ("infinite affinities", Wanted::Figure)
        }
        5 | 6 => {
            damage_value(random, &mut areas.affinities[..linked]);
            ("another affinity", Wanted::Figure)
        }
        _ => {
            damage_value(random, &mut stand.copy[..cells]);
            ("another value in the copy", Wanted::Figure)
        }
    }
}

/// The places that the total is made of: one, or a share of each frame.
fn shares(settings: &Settings) -> Vec<usize> {
    let Settings { n, c, method, .. } = *settings;
    match method {
        Method::Exact => vec![n * c],
        Method::BarnesHut => (0..n).map(|i| i * (2 * c + 1) + 2 * c).collect(),
    }
}

/// Another total.
fn alter_totals(random: &mut Random, stand: &mut Stand) -> (&'static str, Wanted) {
    let (forces, shares) = (&mut stand.both.areas.forces, shares(&stand.settings));
    let one = random.one_of(&shares);
    match random.below(9) {
        0 => {
            forces.fill(random.one_of(&[0.0, -0.0]));
            ("all forces 0", Wanted::Refused(17))
        }
        1 => {
            let zero = random.one_of(&[0.0, -0.0]);
            shares.iter().for_each(|&place| forces[place] = zero);
            ("a total of 0", Wanted::Refused(17))
        }
        2 => {
            shares.iter().for_each(|&place| forces[place] = -1.0 - forces[place]);
            ("a total below 0", Wanted::Figure)
        }
        3 => {
            forces[one] = f64::from_bits(0x7ff8_0000_0000_0001 + random.word() % 9);
            ("a total that is NaN", Wanted::Figure)
        }
        4 => {
            forces[one] = random.one_of(&[f64::INFINITY, f64::NEG_INFINITY]);
            ("an infinite total", Wanted::Figure)
        }
        5 => {
            let least = f64::from_bits(random.within(1, 9) as u64);
            shares.iter().for_each(|&place| forces[place] = least);
            ("a total next to 0", Wanted::Figure)
        }
        6 => {
            // p / q is 0 then, and its ln NaN.
            let least = f64::from_bits(1);
            shares.iter().for_each(|&place| forces[place] = least);
            stand.both.areas.affinities[..2].fill(least);
            ("a total and affinities next to 0", Wanted::Figure)
        }
        _ => {
            forces[one] = random.odd_value();
            ("another value in the total", Wanted::Anything)
        }
    }
}

/// Other words of the record.
fn alter_record(random: &mut Random, stand: &mut Stand) -> (&'static str, Wanted) {
    let words = &mut stand.both.record.words;
    match random.below(9) {
        0 => {
            words[3] = random.one_of(&[2, 3, u64::MAX]);
            words[9] = random.one_of(&[words[9], 7]);
            ("a method that there is not", Wanted::Refused(21))
        }
        1 => {
            words[9] = random.one_of(&[3, 4, u64::MAX]);
            ("a state that there is not", Wanted::Refused(22))
        }
        2 => {
            words[11] += 1;
            stand.copy.clear();
            ("bad counters and no copy", Wanted::Refused(22))
        }
        8 => {
            words[9] = random.one_of(&[3, 4, u64::MAX]);
            let (place, bad) = random.one_of(&[(0, 4097), (1, 0), (2, 9), (4, 0), (5, 0), (6, 65_536)]);
            words[place] = bad;
            ("bad settings and a state that there is not", Wanted::Refused(21))
        }
        3 => {
            words[9] = 0;
            words[6] = 65_535;
            let done = random.one_of(&[1, 250, 251, 65_534]);
            skip(&mut stand.both, done);
            ("another number of iterations", Wanted::Figure)
        }
        4 => {
            words[9] = 0;
            skip(&mut stand.both, 0);
            ("no iteration done", Wanted::Refused(17))
        }
        _ => {
            damage_record(random, &mut stand.both);
            ("another word in the record", Wanted::Anything)
        }
    }
}

/// Other lists. An exact run has none, so there they do not count.
fn alter_contents(random: &mut Random, stand: &mut Stand) -> (&'static str, Wanted) {
    let (areas, n) = (&mut stand.both.areas, stand.settings.n);
    if stand.settings.method == Method::Exact {
        areas.offsets.clear();
        areas.indices.clear();
        areas.nodes.clear();
        return ("no lists and no nodes", Wanted::Same);
    }
    let linked = areas.offsets[n] as usize;
    let (frame, place) = (random.below(n), random.below(linked));
    match random.below(6) {
        0 => {
            areas.offsets[0] = random.within(1, 9) as u32;
            ("a bad first offset", Wanted::Refused(23))
        }
        1 => {
            areas.offsets[frame + 1] = u32::MAX;
            ("a bad offset", Wanted::Refused(23))
        }
        2 => {
            areas.indices[place] = n as u32 + random.below(3) as u32;
            ("a bad index", Wanted::Refused(24))
        }
        3 => {
            areas.indices[place] = n as u32;
            stand.copy.truncate(stand.sizes.cells - 1);
            ("a bad index and a short copy", Wanted::Refused(12))
        }
        4 => {
            areas.indices[place] = n as u32;
            areas.forces.fill(0.0);
            ("a bad index and forces of 0", Wanted::Refused(24))
        }
        _ => {
            areas.indices[place] = frame as u32;
            ("another index", Wanted::Figure)
        }
    }
}

/// What both methods have to meet.
const BY_BOTH: &[&str] = &[
    "just prepared",
    "inside an iteration",
    "c 1",
    "c 2",
    "c 3",
    "iteration the first",
    "iteration early",
    "iteration 249",
    "iteration 250",
    "iteration 251",
    "iteration 349",
    "iteration 350",
    "iteration 351",
    "iteration late",
    "Stopped",
    "Finished",
    "more than 100 frames",
    "the copy one short",
    "positions one short",
    "increments one short",
    "gains one short",
    "affinities one short",
    "indices one short",
    "offsets one short",
    "forces one short",
    "no nodes",
    "a longer copy",
    "other positions, increments and gains",
    "another node after an iteration",
    "affinities below 0",
    "a copy of one value",
    "infinite affinities",
    "another affinity",
    "another value in the copy",
    "all forces 0",
    "a total of 0",
    "a total below 0",
    "a total that is NaN",
    "an infinite total",
    "a total next to 0",
    "a total and affinities next to 0",
    "a method that there is not",
    "a state that there is not",
    "bad settings and a state that there is not",
    "bad counters and no copy",
    "another number of iterations",
    "no iteration done",
    "another word in the record",
];

/// What has to be met besides.
const BY_ONE: &[&str] = &[
    "Exact, c 4",
    "Exact, c 5",
    "Exact, c 6",
    "Exact, c 7",
    "Exact, c 8",
    "Exact, no lists and no nodes",
    "BarnesHut, a bad node inside an iteration",
    "BarnesHut, a bad first offset",
    "BarnesHut, a bad offset",
    "BarnesHut, a bad index",
    "BarnesHut, a bad index and a short copy",
    "BarnesHut, a bad index and forces of 0",
    "BarnesHut, another index",
    "Exact, a figure that is NaN",
    "Exact, a figure that is infinite",
    "Exact, a figure that is negative",
    "Exact, a figure that is zero",
    "Exact, a figure that is positive",
    "BarnesHut, a figure that is NaN",
    "BarnesHut, a figure that is infinite",
    "BarnesHut, a figure that is negative",
    "BarnesHut, a figure that is zero",
    "BarnesHut, a figure that is positive",
    "12",
    "17",
    "21",
    "22",
    "23 with a place",
    "24 with a place",
    "25 with a place",
];

#[test]
fn figures() {
    let met = each_seed("figures", setting("BROTHANCHOR_RUNS", 300), run);
    let both = BY_BOTH
        .iter()
        .flat_map(|what| ["Exact", "BarnesHut"].map(|method| format!("{method}, {what}")));
    let wanted = both.chain(BY_ONE.iter().map(|what| what.to_string()));
    all_met(&met, wanted);
}
