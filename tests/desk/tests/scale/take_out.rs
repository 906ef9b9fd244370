//! Frames taken out of runs, against the independent implementation: running, stopped and finished runs of both methods, thinned
//! again and again with units between; lists, records and areas that are damaged, short and longer. After each call number and
//! word 0, the record and every place of table, old places and all areas have to be the same on both sides, and after a refusal
//! as they were. In increments, gains, affinities and table, which are only moved, a NaN is its bits.

use crate::both::{self, bits, number, other_side, same_areas, Both};
use crate::case::{marked_nodes, numbers, values, Case};
use crate::met::{all_met, meet, told_name, Met};
use crate::parked::{settings, STATES};
use crate::random::Random;
use crate::{damage, damage_record, damage_value, each_seed, setting};
use brothanchor::{sizes, take_out, work, Areas, Method, Settings};
use oracle::record::record_of;
use oracle::take_out::{self as rules, Refusal};
use std::time::Instant;

/// A run, and what is lent besides.
#[derive(Clone)]
struct Lent {
    both: Both,
    table: Vec<f64>,
    old: Vec<u32>,
}

/// How many are left, or why nothing was taken out.
type Told = Result<u64, String>;

/// What is told by number and word 0, and the name of it.
fn named(told: Result<usize, Refusal>) -> ((u64, u64), Told) {
    let refusal = match told {
        Ok(left) => return ((0, left as u64), Ok(left as u64)),
        Err(refusal) => refusal,
    };
    let told = (refusal.number(), refusal.place());
    let name = match refusal {
        Refusal::List => "18 for the list".to_string(),
        Refusal::Links => "18 for the links".to_string(),
        _ => told_name(told),
    };
    (told, Err(name))
}

impl Lent {
    /// A prepared run, with a table and old places that may be longer than asked for.
    fn new(random: &mut Random, case: &Case) -> Lent {
        let both = Both::prepare(case).expect("a good run");
        let mut table = values(case.table.len() + random.below(3));
        table[..case.table.len()].copy_from_slice(&case.table);
        let old = numbers(case.settings.n + random.below(3));
        Lent { both, table, old }
    }

    /// What the record says: samples, and whether a unit of an iteration is done.
    fn samples(&self) -> usize {
        self.both.record.words[0] as usize
    }

    fn is_inside(&self) -> bool {
        self.both.record.words[11] > 0
    }

    fn method(&self) -> Method {
        [Method::Exact, Method::BarnesHut][self.both.record.words[3] as usize]
    }

    /// Takes samples out on both sides.
    fn take_out(&mut self, gone: &[u32]) -> Told {
        let before = self.clone();
        let (both, table, old) = (&mut self.both, &mut self.table, &mut self.old);
        let told = match take_out(&mut both.record, &mut both.areas, table, gone, old) {
            Ok(left) => (0, left as u64),
            Err((refusal, word)) => (u64::from(refusal.0), word),
        };
        let (wanted, name) = self.by_the_rules(&before, gone);
        assert_eq!(told, wanted, "{name:?}");
        if name.is_err() {
            assert_eq!(
                self.both.difference(&before.both, None),
                None,
                "refused, and a part changed"
            );
            assert!(self
                .table
                .iter()
                .zip(&before.table)
                .all(|(a, b)| a.to_bits() == b.to_bits()));
        }
        name
    }

    /// The same by the independent implementation, from what was lent; it has to leave what there is now.
    fn by_the_rules(&self, before: &Lent, gone: &[u32]) -> ((u64, u64), Told) {
        let mut words = before.both.record.words;
        let (mut areas, mut table, mut old) =
            (other_side(&before.both.areas), before.table.clone(), before.old.clone());
        let told = match record_of(&words) {
            Err(fault) => Err(Refusal::Entry(fault)),
            Ok(mut record) => {
                let told = rules::take_out(&mut record, &mut areas, &mut table, gone, &mut old);
                [words[0], words[11], words[12]] =
                    [record.settings.n, record.phase, record.units].map(|word| word as u64);
                told
            }
        };
        let told = named(told);
        same_record(&self.both.record.words, &words);
        let ours = &self.both.areas;
        same_areas(ours, &areas);
        same_bits("increments", &ours.increments, &areas.increments);
        same_bits("gains", &ours.gains, &areas.gains);
        same_bits("affinities", &ours.affinities, &areas.affinities);
        same_bits("table", &self.table, &table);
        assert_eq!(self.old, old, "old places");
        told
    }
}

/// The fourteen words; of the four values a NaN is a NaN.
fn same_record(ours: &[u64; 14], theirs: &[u64; 14]) {
    for (place, (&a, &b)) in ours.iter().zip(theirs).enumerate() {
        let same = match place {
            4 | 5 | 7 | 8 => bits(f64::from_bits(a)) == bits(f64::from_bits(b)),
            _ => a == b,
        };
        assert!(same, "word {place} of the record: {a:x} and {b:x}");
    }
}

/// Every place of what is only moved; NaNs by their bits.
fn same_bits(area: &str, ours: &[f64], theirs: &[f64]) {
    assert_eq!(ours.len(), theirs.len(), "{area}");
    for (place, (a, b)) in ours.iter().zip(theirs).enumerate() {
        let [a, b] = [a, b].map(|v| v.to_bits());
        assert!(a == b, "{area}, place {place}: {a:x} and {b:x}");
    }
}

/// Which samples go.
const KINDS: [&str; 9] = [
    "none",
    "one",
    "the first",
    "the last",
    "all but two",
    "every second",
    "a cluster",
    "a stretch",
    "any",
];

/// The samples of a kind; a cluster of frames has every fourth (`case::table`).
fn samples(random: &mut Random, kind: &str, n: usize) -> Vec<u32> {
    let (one, other) = (random.below(n), random.below(n));
    let (from, to) = (one.min(other), one.max(other));
    let goes = |&i: &usize| match kind {
        "none" => false,
        "one" => i == one,
        "the first" => i == 0,
        "the last" => i == n - 1,
        "all but two" => i != one && i != (one + 1 + other % (n - 1)) % n,
        "every second" => i % 2 == 1,
        "a cluster" => i % 4 == one % 4,
        "a stretch" => (from..to).contains(&i),
        _ => random.once_in(3),
    };
    (0..n).filter(goes).map(|i| i as u32).collect()
}

/// A list that is bad, or just not.
fn damage_list(random: &mut Random, gone: &mut Vec<u32>, n: usize) {
    let place = random.below(gone.len() + 1);
    let any = random.odd_number(n as u64) as u32;
    match random.below(6) {
        0 => gone.push(n as u32),
        1 => gone.insert(place, any),
        2 => gone.extend(gone.last().copied()),
        3 => gone.reverse(),
        4 if place < gone.len() => gone[place] = any,
        _ => gone.insert(place, random.below(n) as u32),
    }
}

/// Lists in which one frame has all links that there may be, to itself and the next.
fn crowd(random: &mut Random, areas: &mut Areas, n: usize, links: usize) {
    let frame = random.below(n);
    for (i, offset) in areas.offsets.iter_mut().take(n + 1).enumerate() {
        *offset = if i > frame { links as u32 } else { 0 };
    }
    for (place, index) in areas.indices.iter_mut().take(links).enumerate() {
        *index = ((frame + place % 2) % n) as u32;
    }
}

/// What the record says of the sizes of its areas; a record that is damaged is asked for nothing.
fn settings_of(lent: &Lent) -> Settings {
    let [n, f, c, _, perplexity, rate, iterations, angle, minimum, ..] = lent.both.record.words;
    let [n, f, c, iterations] = [n, f, c, iterations].map(|word| word as usize);
    let [perplexity, rate, angle, minimum] = [perplexity, rate, angle, minimum].map(f64::from_bits);
    Settings {
        n,
        f,
        c,
        method: lent.method(),
        perplexity,
        rate,
        iterations,
        angle,
        minimum,
    }
}

/// What is lent: the eight areas, table and old places.
const PARTS: usize = 10;

fn name(part: usize) -> &'static str {
    match part {
        8 => "table",
        9 => "old places",
        // The two before the areas are lengths and record.
        _ => both::PARTS[2 + part],
    }
}

/// How much of each part is asked for.
fn asked(lent: &Lent) -> [usize; PARTS] {
    let settings = settings_of(lent);
    let sizes = sizes(&settings).expect("good settings");
    let nodes = match (settings.method, lent.is_inside()) {
        (Method::Exact, _) => 0,
        (_, true) => lent.both.record.words[13] as usize,
        (_, false) => 1,
    };
    [
        sizes.cells,
        sizes.cells,
        sizes.cells,
        sizes.affinities,
        sizes.indices,
        sizes.offsets,
        sizes.forces,
        nodes,
        settings.n * settings.f,
        settings.n,
    ]
}

/// A part is cut down to so many elements.
fn cut(lent: &mut Lent, part: usize, length: usize) {
    let areas = &mut lent.both.areas;
    match part {
        0 => areas.positions.truncate(length),
        1 => areas.increments.truncate(length),
        2 => areas.gains.truncate(length),
        3 => areas.affinities.truncate(length),
        4 => areas.indices.truncate(length),
        5 => areas.offsets.truncate(length),
        6 => areas.forces.truncate(length),
        7 => areas.nodes.truncate(length),
        8 => lent.table.truncate(length),
        _ => lent.old.truncate(length),
    }
}

/// Every part just long enough, and each of them one short.
fn lengths(random: &mut Random, lent: &Lent, met: &mut Met) {
    let kind = random.one_of(&KINDS[..4]);
    let gone = samples(random, kind, lent.samples());
    let asked = asked(lent);
    let mut tight = lent.clone();
    for (part, &length) in asked.iter().enumerate() {
        cut(&mut tight, part, length);
    }
    assert_eq!(
        tight.clone().take_out(&gone),
        lent.clone().take_out(&gone),
        "just long enough"
    );
    meet(met, format!("{:?}, just long enough", lent.method()));
    for part in (0..PARTS).filter(|&part| asked[part] > 0) {
        let name = name(part);
        let mut short = tight.clone();
        cut(&mut short, part, asked[part] - 1);
        // Inside an iteration an arena that is one short of the nodes in use is no area that is short.
        let told = short.take_out(&gone);
        let tree = part == 7 && asked[part] > 1;
        assert_eq!(
            told,
            Err(if tree { "25" } else { "12" }.to_string()),
            "{name} one short"
        );
        meet(met, format!("{:?}, short {name}", lent.method()));
    }
}

/// Something is damaged in a copy of what is lent, or two things are.
fn damaged(random: &mut Random, lent: &Lent, met: &mut Met) {
    let mut other = lent.clone();
    let n = other.samples();
    let kind = random.one_of(&KINDS);
    let mut gone = samples(random, kind, n);
    for _ in 0..random.within(1, 2) {
        match random.below(8) {
            0 => damage_record(random, &mut other.both),
            1 => {
                let (part, asked) = (random.below(PARTS), asked(lent));
                cut(&mut other, part, asked[part].saturating_sub(1));
            }
            2 | 3 => damage_list(random, &mut gone, n),
            4 => damage_value(random, &mut other.both.areas.positions),
            5 if lent.method() == Method::BarnesHut => {
                let links = asked(lent)[4];
                crowd(random, &mut other.both.areas, n, links);
            }
            _ => damage(random, &mut other.both),
        }
    }
    let told = other.take_out(&gone);
    let name = told.err().unwrap_or_else(|| "0".to_string());
    meet(met, format!("{:?}, damaged: {name}", lent.method()));
}

/// Frames of some kind are taken out, if that is allowed; what is told.
fn thin(random: &mut Random, lent: &mut Lent, met: &mut Met) -> Told {
    let kind = random.one_of(&KINDS);
    let gone = samples(random, kind, lent.samples());
    let [state, done] = [9, 10].map(|word| lent.both.record.words[word] as usize);
    let (method, state) = (lent.method(), if done == 0 { "just prepared" } else { STATES[state] });
    let told = lent.take_out(&gone);
    match &told {
        Ok(left) => {
            assert_eq!(*left as usize, lent.samples());
            meet(met, format!("{method:?}, {kind}"));
            meet(met, format!("{method:?}, {state}"));
        }
        Err(name) => meet(met, format!("{method:?}, refused: {name}")),
    }
    told
}

/// So many units on both sides, to the end of the iteration or anywhere; nothing where the run cannot go on.
fn go_on(random: &mut Random, lent: &mut Lent) -> Option<u64> {
    let iteration = settings_of(lent).iteration();
    let left = iteration - lent.both.record.words[11] as usize;
    let any = random.within(1, 2 * iteration);
    let budget = random.one_of(&[any, left, left, left, left + iteration, 1 << 20]);
    let worked = lent.both.work(budget as u32);
    match number(&worked) {
        0 => {}
        14 => lent.both.areas.nodes.extend(marked_nodes(400)),
        _ => return None,
    }
    Some(worked.units)
}

/// One run: thinned, worked and thinned again, with damage on the way.
fn run(random: &mut Random, met: &mut Met) {
    let n = random.one_of(&[6, 12, 40]);
    let n = random.within(2, n);
    let iterations = if n < 8 {
        random.within(251, 254)
    } else {
        random.within(1, 4)
    };
    let mut settings = settings(random, n, iterations);
    if random.once_in(2) {
        settings.perplexity = random.between(0.1, 1.9);
    }
    let case = Case::good(random, settings, 40 + 10 * n);
    let mut lent = Lent::new(random, &case);
    let (mut removals, mut units) = (0, 0);
    for _ in 0..10 {
        for _ in 0..3 {
            damaged(random, &lent, met);
        }
        if random.once_in(4) {
            lengths(random, &lent, met);
        }
        if random.once_in(2) && thin(random, &mut lent, met).is_ok() {
            if removals > 0 && units > 0 {
                meet(met, format!("{:?}, again", settings.method));
            }
            (removals, units) = (removals + 1, 0);
        }
        match go_on(random, &mut lent) {
            Some(done) => units += done,
            None => return meet(met, "refused by 15"),
        }
        if removals > 0 && units > 0 {
            meet(met, format!("{:?}, goes on", settings.method));
        }
    }
}

/// What has to be met by each method.
fn wanted() -> Vec<String> {
    let mut wanted = Vec::new();
    for method in [Method::Exact, Method::BarnesHut] {
        let tree = method == Method::BarnesHut;
        let mut add = |what: &str| wanted.push(format!("{method:?}, {what}"));
        KINDS.iter().chain(&STATES).for_each(|what| add(what));
        for what in ["just prepared", "again", "goes on", "just long enough", "damaged: 0"] {
            add(what);
        }
        for number in ["9", "10", "17"] {
            add(&format!("refused: {number}"));
        }
        for number in ["9", "10", "12", "15", "17", "18 for the list", "21", "22"] {
            add(&format!("damaged: {number}"));
        }
        if tree {
            add("damaged: 18 for the links");
            for number in [23, 24, 25] {
                add(&format!("damaged: {number} with a place"));
            }
        }
        for part in (0..PARTS).filter(|part| tree || ![4, 5, 7].contains(part)) {
            add(&format!("short {}", name(part)));
        }
    }
    wanted
}

#[test]
fn runs_that_frames_are_taken_out_of() {
    let met = each_seed("frames taken out", setting("BROTHANCHOR_RUNS", 300), run);
    all_met(&met, wanted());
}

/// NaNs with payloads, quiet and signalling, of both signs, and −0.0.
const ODD: [u64; 5] = [
    0x7ff8_0000_0000_0abc,
    0x7ff0_0000_0000_0001,
    0xfff8_dead_beef_0123,
    0xfff0_0000_0000_0077,
    0x8000_0000_0000_0000,
];

/// What a removal moves and does not look into, as far as it is in use.
const MOVED: [&str; 4] = ["increments", "gains", "affinities", "table"];

fn moved(lent: &mut Lent) -> [&mut [f64]; 4] {
    let Settings { n, f, c, method, .. } = settings_of(lent);
    let areas = &mut lent.both.areas;
    let held = match method {
        Method::Exact => n * n,
        Method::BarnesHut => areas.offsets[n] as usize,
    };
    [
        &mut areas.increments[..n * c],
        &mut areas.gains[..n * c],
        &mut areas.affinities[..held],
        &mut lent.table[..n * f],
    ]
}

/// The name of odd bits that are left somewhere.
fn kept(method: Method, part: &str, bits: u64) -> String {
    format!("{method:?}, {part} keep {bits:x}")
}

/// Frames are taken out of a copy of what is lent, in which half of what is only moved is odd.
fn odd(random: &mut Random, lent: &Lent, met: &mut Met) {
    let mut other = lent.clone();
    for value in moved(&mut other).into_iter().flatten() {
        if random.once_in(2) {
            *value = f64::from_bits(random.one_of(&ODD));
        }
    }
    let (kind, method) = (random.one_of(&KINDS), lent.method());
    let gone = samples(random, kind, lent.samples());
    if other.take_out(&gone).is_err() || gone.is_empty() {
        return;
    }
    for (part, values) in MOVED.iter().zip(moved(&mut other)) {
        let is_left = |bits: &u64| values.iter().any(|v| v.to_bits() == *bits);
        ODD.iter()
            .copied()
            .filter(is_left)
            .for_each(|bits| meet(met, kept(method, part, bits)));
    }
}

/// One run of few frames, with a copy made odd before each of its calls.
fn odd_run(random: &mut Random, met: &mut Met) {
    let (n, iterations) = (random.within(3, 16), random.within(1, 4));
    let mut settings = settings(random, n, iterations);
    settings.perplexity = random.between(0.5, 1.9);
    let case = Case::good(random, settings, 40 + 10 * n);
    let mut lent = Lent::new(random, &case);
    for _ in 0..4 {
        odd(random, &lent, met);
        if go_on(random, &mut lent).is_none() {
            return;
        }
    }
}

#[test]
fn what_is_moved_keeps_its_bits() {
    let met = each_seed("odd bits moved", setting("BROTHANCHOR_RUNS", 300), odd_run);
    let mut wanted = Vec::new();
    for method in [Method::Exact, Method::BarnesHut] {
        for part in MOVED {
            wanted.extend(ODD.map(|bits| kept(method, part, bits)));
        }
    }
    all_met(&met, wanted);
}

/// So many frames go, one of each stretch of equal length. That may not take longer than three iterations.
fn take_share(random: &mut Random, lent: &mut Lent, share: usize) {
    let n = lent.samples();
    let from = |i: usize| i * n / share;
    let gone: Vec<u32> = (0..share)
        .map(|i| random.within(from(i), from(i + 1) - 1) as u32)
        .collect();
    let Lent {
        mut both,
        mut table,
        mut old,
    } = lent.clone();
    let begun = Instant::now();
    let told = take_out(&mut both.record, &mut both.areas, &mut table, &gone, &mut old);
    let taken = begun.elapsed();
    assert_eq!(told, Ok(n - share));
    let mut both = lent.both.clone();
    let begun = Instant::now();
    work(&mut both.record, &mut both.areas, settings_of(lent).iteration() as u32);
    let worked = begun.elapsed();
    println!("{share} of {n} frames are taken out in {taken:?}, an iteration is done in {worked:?}");
    assert!(taken < 3 * worked);
    assert_eq!(lent.take_out(&gone), Ok((n - share) as u64));
}

/// As many frames as may be, of which 400 go, and then a tenth of those that are left, with an iteration before, between and after.
fn full_side(method: Method) {
    let random = &mut Random::new(setting("BROTHANCHOR_SEED", 1));
    let settings = Settings {
        n: 4096,
        f: 6,
        c: 2,
        method,
        perplexity: 30.0,
        rate: 100.0,
        iterations: 1000,
        angle: 0.5,
        minimum: 0.0,
    };
    let case = Case::good(random, settings, 100_000);
    let mut lent = Lent::new(random, &case);
    for share in [400, 369] {
        lent.both.work(settings_of(&lent).iteration() as u32);
        take_share(random, &mut lent, share);
    }
    lent.both.work(settings_of(&lent).iteration() as u32);
    assert_eq!(lent.both.record.words[10..12], [3, 0]);
}

#[test]
#[ignore = "takes minutes under an emulator: 4096 frames, three iterations on both sides"]
fn four_hundred_frames_of_4096() {
    full_side(Method::BarnesHut);
}

#[test]
#[ignore = "takes minutes: 4096 frames, every pair of them, three iterations on both sides"]
fn four_hundred_frames_of_4096_exactly() {
    full_side(Method::Exact);
}
