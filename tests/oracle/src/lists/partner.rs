//! The lists of partners' lists: files that are loaded or refused, and runs whose lists are written or not. Every value is
//! listed by its bits.
//!
//! A case of `partner` is, in words:
//!
//! | words | hold |
//! |---|---|
//! | 1 | the number of words of the case, this one included |
//! | 9 | the settings; the word of the method is any, and is not looked at |
//! | 1 | how long the record's area is, 14 at most |
//! | 1 | how long the start is |
//! | 1 | how long the file is, in bytes |
//! | 8 | how long the areas are: positions, increments, gains, affinities, indices, offsets, forces, nodes |
//! | as many | the start |
//! | bytes / 8, rounded up | the file, filled up with zeros to whole words |
//! | 2 | the answer: number, and the links or the place |
//! | 14 | of a list that is loaded: the record |
//! | as many | of a list that is loaded: positions, increments, gains, affinities, indices, offsets |
//!
//! Before the call the record and every area are marks: place i holds the bits 4000000000000000 + i, or the number 40000000 + i,
//! in hex. A list that is loaded leaves the first n·(2c + 1) forces zero and the others their marks; one that is refused leaves
//! everything as it was. What was loaded has to be written as the same bytes.
//!
//! A case of `lists` is one of `parks` (`lists/park.rs`): record, eight lengths, the target's length in bytes, the areas from
//! positions to offsets; then the answer (number, and the records written or what comes with the number) and the whole target.
//! Forces may hold anything, every node is zeros, and byte i of the target is i mod 251 and one before the call.
//!
//! No area is longer than 48 elements, the forces 96, the nodes 4, the start 48; a file or a target has 1,408 bytes at most.

use super::descent::{marked_numbers, marks};
use super::park::{below, contents, counted, lengths, one_of, run, shorten, words_of, STANDINGS};
use crate::descent::{Areas, Method, Record, Settings, Standing};
use crate::partner::{import, write_lists, Link, LINK};
use crate::scatter::SplitMix64;
use crate::tree::Node;
use crate::words::from_bytes;

/// What is lent for loading.
#[derive(Clone, Debug)]
struct Loading {
    /// The settings, but for the word of the method.
    settings: Settings,
    method: u64,
    /// How many words there are for the record.
    record: usize,
    start: Vec<f64>,
    file: Vec<u8>,
    areas: Areas,
}

/// Settings of n frames with k neighbours each, or as many as there are.
pub fn settings(n: usize, c: usize, k: usize) -> Settings {
    Settings {
        n,
        f: 6,
        c,
        method: Method::BarnesHut,
        perplexity: if k <= 2 { 0.25 } else { (k - 1) as f64 / 3.0 - 0.01 },
        rate: 200.0,
        iterations: 1000,
        angle: 0.5,
        minimum: 1e-7,
    }
}

/// Areas of marks, each so much longer than asked for.
fn marked(settings: &Settings, more: usize) -> Areas {
    let Settings { n, c, .. } = *settings;
    Areas {
        positions: marks(n * c + more),
        increments: marks(n * c + more),
        gains: marks(n * c + more),
        affinities: marks(settings.links() + more),
        indices: marked_numbers(settings.links() + more),
        offsets: marked_numbers(n + 1 + more),
        forces: marks(n * (2 * c + 1) + more),
        nodes: vec![Node::default(); 1 + more],
    }
}

/// The bytes of links.
pub fn file_of(links: &[Link]) -> Vec<u8> {
    links.iter().flat_map(|link| link.bytes()).collect()
}

/// A weight that a good list may have.
pub fn weight(random: &mut SplitMix64) -> u64 {
    let (share, any) = (random.unit(), random.next() >> 1);
    let odd = if any >> 52 < 0x7ff { any.max(1) } else { 1 };
    let shares = [
        share.max(1e-9),
        share.max(1e-9),
        5e-324,
        f64::MIN_POSITIVE,
        f64::MAX,
        1.0,
    ]
    .map(f64::to_bits);
    one_of(
        random,
        &[shares[0], shares[1], shares[2], shares[3], shares[4], shares[5], odd],
    )
}

/// A good list of so many pairs of n frames at most, each pair there in both directions.
pub fn good(random: &mut SplitMix64, n: usize, pairs: usize) -> Vec<Link> {
    let mut all: Vec<(u32, u32)> = (0..n as u32)
        .flat_map(|i| (i + 1..n as u32).map(move |j| (i, j)))
        .collect();
    let mut found = Vec::new();
    while found.len() < 2 * pairs && !all.is_empty() {
        let (from, to) = all.swap_remove(below(random, all.len()));
        let weight = weight(random);
        let link = Link { from, to, weight };
        found.extend([link, link.mirror()]);
    }
    found.sort_by_key(|link| (link.from, link.to));
    found
}

/// The weights that no good list has.
pub const BAD_WEIGHTS: [u64; 9] = [
    0,
    1 << 63,
    0xbff0_0000_0000_0000,
    0x8000_0000_0000_0001,
    0x7ff0_0000_0000_0000,
    0xfff0_0000_0000_0000,
    0x7ff8_0000_0000_0000,
    0x7ff0_0000_0000_0001,
    u64::MAX,
];

/// Ways to break a rule, or nearly so.
pub const WAYS: usize = 15;

/// A list in which something is other at a place, where there is one.
pub fn break_at(random: &mut SplitMix64, links: &mut Vec<Link>, place: usize, n: usize, way: usize) {
    if links.is_empty() {
        return;
    }
    let place = place % links.len();
    let other = one_of(random, &BAD_WEIGHTS);
    let link = links[place];
    let mirror = links.iter().position(|other| *other == link.mirror());
    match way {
        0 => links[place].from = one_of(random, &[n as u32, u32::MAX, link.from + (1 << 16)]),
        1 => links[place].to = one_of(random, &[n as u32, u32::MAX, link.to + (1 << 24)]),
        2 => drop(links.remove(place)),
        3 => links.insert(place, link),
        4 => {
            let next = (place + 1) % links.len();
            links.swap(place, next);
        }
        5 => links[place].to = link.from,
        6 => links[place].from = link.to,
        7 => links[place].weight = other,
        // Both of them, so that the mirror is there.
        8 => {
            links[place].weight = other;
            if let Some(mirror) = mirror {
                links[mirror].weight = other;
            }
        }
        9 => links[place].weight ^= 1 << below(random, 64),
        10 => links[place] = link.mirror(),
        11 => links.rotate_left(place),
        12 => links.push(link.mirror()),
        // A link of a frame with itself, where it belongs.
        13 => put(links, Link { to: link.from, ..link }),
        // A link with a frame that there is not, and its mirror.
        _ => {
            let far = Link {
                to: one_of(random, &[n as u32, u32::MAX]),
                ..link
            };
            put(links, far);
            put(links, far.mirror());
        }
    }
}

/// One link more, before the first that is not below it.
fn put(links: &mut Vec<Link>, link: Link) {
    let below = |other: &&Link| (other.from, other.to) < (link.from, link.to);
    let place = links.iter().filter(below).count();
    links.insert(place, link);
}

impl Loading {
    /// A list into areas so much longer than asked for.
    fn new(random: &mut SplitMix64, settings: Settings, links: &[Link], more: usize) -> Loading {
        let start = (0..settings.n * settings.c).map(|_| random.coordinate()).collect();
        Loading {
            settings,
            method: one_of(random, &[0, 1, 1, 2, u64::MAX]),
            record: 14,
            start,
            file: file_of(links),
            areas: marked(&settings, more),
        }
    }

    /// The words of the case.
    fn case(&self) -> Vec<u64> {
        let mut areas = self.areas.clone();
        let told = self.load(&mut areas);
        let mut words = words_of(&record_of(self.settings))[..9].to_vec();
        words[3] = self.method;
        words.extend([self.record, self.start.len(), self.file.len()].map(|length| length as u64));
        words.extend(lengths(&areas));
        words.extend(self.start.iter().map(|v| v.to_bits()));
        words.extend(from_bytes(&self.file));
        match told {
            Ok(links) => {
                words.extend([0, links]);
                words.extend(words_of(&record_of(self.settings)));
                words.extend(contents(&areas));
            }
            Err((number, place)) => words.extend([number, place]),
        }
        counted(words)
    }

    /// The links, or number and place. A short record's area is told with the other areas: 12 stands before 19 alone.
    fn load(&self, areas: &mut Areas) -> Result<u64, (u64, u64)> {
        let told = import(self.settings, &self.start, &self.file, areas)
            .map(|record| u64::from(areas.offsets[record.settings.n]))
            .map_err(|refusal| (refusal.number(), refusal.place()));
        match told {
            Ok(_) | Err((19, _)) if self.record < 14 => {
                *areas = self.areas.clone();
                Err((12, 0))
            }
            told => told,
        }
    }
}

/// The record of a run with nothing done.
fn record_of(settings: Settings) -> Record {
    Record {
        settings: Settings {
            method: Method::BarnesHut,
            ..settings
        },
        standing: Standing::Running,
        done: 0,
        phase: 0,
        units: 0,
        used: 0,
    }
}

/// Frames, components and neighbours of runs whose areas are small enough.
const SHAPES: [(usize, usize, usize); 9] = [
    (2, 1, 1),
    (3, 2, 2),
    (4, 3, 3),
    (5, 2, 4),
    (5, 1, 2),
    (6, 3, 3),
    (8, 2, 2),
    (10, 1, 2),
    (11, 2, 2),
];

/// Good lists: none, one pair, as many as may be, any.
fn loaded(random: &mut SplitMix64) -> Vec<Loading> {
    let mut found = Vec::new();
    for (turn, (n, c, k)) in SHAPES.into_iter().enumerate() {
        let settings = settings(n, c, k);
        let most = settings.links() / 2;
        for pairs in [0, 1, most / 2, most] {
            let links = good(random, n, pairs);
            found.push(Loading::new(random, settings, &links, (turn + pairs) % 3));
        }
    }
    found
}

/// Each rule broken at each place of a list of five frames, and several at once.
fn broken(random: &mut SplitMix64) -> Vec<Loading> {
    let mut found = Vec::new();
    let settings = settings(5, 1, 2);
    for way in 0..WAYS {
        for place in 0..8 {
            let mut links = good(random, 5, 4);
            break_at(random, &mut links, place, 5, way);
            found.push(Loading::new(random, settings, &links, 0));
        }
    }
    for _ in 0..60 {
        let mut links = good(random, 5, 6);
        for _ in 0..2 + below(random, 3) {
            let (place, way) = (below(random, 12), below(random, WAYS));
            break_at(random, &mut links, place, 5, way);
        }
        found.push(Loading::new(random, settings, &links, 0));
    }
    found
}

/// A path of three frames: four links.
fn path() -> Vec<Link> {
    let link = |from, to, weight: f64| Link {
        from,
        to,
        weight: weight.to_bits(),
    };
    vec![link(0, 1, 0.5), link(1, 0, 0.5), link(1, 2, 0.25), link(2, 1, 0.25)]
}

/// Every byte of a small file, each with a few others in its place; every length of it.
fn bytes(random: &mut SplitMix64) -> Vec<Loading> {
    let whole = Loading::new(random, settings(3, 1, 2), &path(), 0);
    let mut found = Vec::new();
    for place in 0..whole.file.len() {
        for other in [1, 0x80, 0xff] {
            let mut damaged = whole.clone();
            damaged.file[place] ^= other;
            found.push(damaged);
        }
    }
    for length in 0..whole.file.len() {
        let mut shorter = whole.clone();
        shorter.file.truncate(length);
        found.push(shorter);
    }
    for more in 1..LINK {
        let mut longer = whole.clone();
        longer.file.extend(vec![one_of(random, &[0, 3, 255]); more]);
        found.push(longer);
    }
    found
}

/// An upper triangle and then a lower one; as many records as may be, and more of them.
fn halves(random: &mut SplitMix64) -> Vec<Loading> {
    let mut found = Vec::new();
    for (n, c, k) in SHAPES {
        let settings = settings(n, c, k);
        let mut links = good(random, n, settings.links() / 2);
        links.sort_by_key(|link| (link.from > link.to, link.from, link.to));
        found.push(Loading::new(random, settings, &links, 0));
    }
    for (n, k) in [(6, 2), (8, 2), (10, 2)] {
        let settings = settings(n, 1, k);
        for more in [1, 2, 3] {
            let links = good(random, n, settings.links() / 2 + more);
            let mut over = Loading::new(random, settings, &links, 0);
            found.push(over.clone());
            over.file.truncate(LINK * (settings.links() + 1));
            found.push(over.clone());
            over.file.truncate(LINK * settings.links() + 5);
            found.push(over);
        }
    }
    found
}

/// Each of 1 to 12, from both sides, most with a bad file behind it.
fn refused(random: &mut SplitMix64) -> Vec<Loading> {
    let links = good(random, 4, 3);
    let good = Loading::new(random, settings(4, 2, 2), &links, 0);
    let mut found = Vec::new();
    let mut set = |change: &dyn Fn(&mut Settings)| {
        for bytes in [0, 7] {
            let mut other = good.clone();
            change(&mut other.settings);
            other.file.truncate(other.file.len() - bytes);
            found.push(other);
        }
    };
    for c in [0, 4, 8, 9] {
        set(&|settings| settings.c = c);
    }
    for perplexity in [0.0, -1.0, f64::NAN, f64::INFINITY, 4.0, 4.5, 3.999] {
        set(&|settings| settings.perplexity = perplexity);
    }
    for rate in [0.0, -0.0, f64::NAN, f64::INFINITY, 5e-324] {
        set(&|settings| settings.rate = rate);
    }
    for iterations in [0, 1, 65_535, 65_536] {
        set(&|settings| settings.iterations = iterations);
    }
    for angle in [1.0, -0.0, 0.999, -1e-9, f64::NAN] {
        set(&|settings| settings.angle = angle);
    }
    for n in [0, 1, 4097, usize::MAX] {
        set(&|settings| settings.n = n);
    }
    for f in [0, 1, 256, 257] {
        set(&|settings| settings.f = f);
    }
    for minimum in [0.0, -1.0, f64::NAN, f64::INFINITY] {
        set(&|settings| settings.minimum = minimum);
    }
    // Two at once: the first is told.
    set(&|settings| (settings.c, settings.perplexity) = (9, 0.0));
    set(&|settings| (settings.rate, settings.iterations) = (0.0, 0));
    set(&|settings| (settings.angle, settings.c) = (1.0, 4));
    set(&|settings| (settings.c, settings.n) = (4, 0));
    set(&|settings| (settings.n, settings.perplexity) = (1, 1.0));
    for (place, value) in [
        (0, f64::NAN),
        (7, f64::INFINITY),
        (3, 1_048_576.0),
        (3, -1_048_577.0),
        (0, -0.0),
    ] {
        let mut other = good.clone();
        other.start[place] = value;
        found.push(other);
    }
    for more in [-1_isize, 1] {
        let mut other = good.clone();
        other.start.resize((8 + more) as usize, 0.5);
        shorten(&mut other.areas, 0);
        found.push(other);
    }
    for which in 0..8 {
        let mut other = good.clone();
        shorten(&mut other.areas, which);
        found.push(other.clone());
        other.file.clear();
        found.push(other.clone());
        other.file.push(1);
        found.push(other);
    }
    for record in [0, 13] {
        let mut other = good.clone();
        other.record = record;
        found.push(other.clone());
        other.file.pop();
        found.push(other);
    }
    found
}

/// Partners' lists that are loaded, and those that are not.
pub fn import_cases() -> Vec<Vec<u64>> {
    let mut random = SplitMix64::new(291);
    let random = &mut random;
    let all = [
        loaded(random),
        broken(random),
        bytes(random),
        halves(random),
        refused(random),
    ];
    all.concat().iter().map(Loading::case).collect()
}

/// Runs whose lists are written, into targets of several lengths, and runs whose lists are not.
pub fn write_cases() -> Vec<Vec<u64>> {
    let mut random = SplitMix64::new(292);
    let random = &mut random;
    let mut found = Vec::new();
    for turn in 0..12 {
        for standing in STANDINGS {
            let (n, c) = (2 + below(random, 4), 1 + turn % 3);
            let (mut record, mut areas) = run(random, Method::BarnesHut, n, c, standing);
            let links = areas.offsets[n] as usize;
            let target = LINK * links;
            let longer = target + one_of(random, &[0, 1, 15, 16, 40]);
            found.push(write_case(&record, &areas, longer));
            if links > 0 {
                let short = one_of(random, &[target - 1, target - LINK, 0]);
                found.push(write_case(&record, &areas, short));
            }
            if standing == Standing::Running {
                // Inside an iteration: an arena of one empty node is well formed.
                let phase = 1 + below(random, 2 * n + 1);
                record.phase = phase;
                record.units += phase;
                record.used = 1;
                found.push(write_case(&record, &areas, longer));
                record.used = one_of(random, &[0, 2, 9]);
                found.push(write_case(&record, &areas, longer));
                record.used = 1;
            }
            spoil(random, &mut record, &mut areas, turn);
            found.push(write_case(&record, &areas, longer));
        }
    }
    for turn in 0..8 {
        let (record, mut areas) = run(random, Method::Exact, 2 + turn % 4, 1 + turn, STANDINGS[turn % 3]);
        let target = one_of(random, &[0, 16, 100]);
        found.push(write_case(&record, &areas, target));
        shorten(&mut areas, turn % 4);
        found.push(write_case(&record, &areas, target));
    }
    // What import leaves, and what it would not take.
    for loading in loaded(random).into_iter().take(20) {
        let mut areas = loading.areas.clone();
        let record = import(loading.settings, &loading.start, &loading.file, &mut areas).expect("a good list");
        found.push(write_case(&record, &areas, loading.file.len() + 3));
    }
    found
}

/// Something that lists are not written with.
fn spoil(random: &mut SplitMix64, record: &mut Record, areas: &mut Areas, turn: usize) {
    let n = record.settings.n;
    match turn {
        0..=7 => shorten(areas, turn),
        8 => areas.offsets[below(random, n + 1)] += 1,
        9 if areas.offsets[n] > 0 => areas.indices[below(random, areas.offsets[n] as usize)] = n as u32,
        9 => areas.offsets[0] = 1,
        10 => record.done += 1,
        _ => record.settings.perplexity = one_of(random, &[0.0, f64::NAN, 4096.0]),
    }
}

/// The mark of a byte in a target.
fn byte_mark(place: usize) -> u8 {
    (place % 251) as u8 + 1
}

/// Writing: the record, the areas, the target's length; then number, word 0 and the whole target.
fn write_case(record: &Record, areas: &Areas, target: usize) -> Vec<u64> {
    let mut bytes: Vec<u8> = (0..target).map(byte_mark).collect();
    let told = write_lists(record, areas, &mut bytes);
    let mut words = words_of(record).to_vec();
    words.extend(lengths(areas));
    words.push(target as u64);
    words.extend(contents(areas));
    words.extend(match told {
        Ok(records) => [0, records as u64],
        Err(refusal) => [refusal.number(), refusal.place()],
    });
    words.extend(from_bytes(&bytes));
    counted(words)
}

#[cfg(test)]
mod tests {
    use super::*;
    use crate::partner::{first_bad, links, Rule, RULES};
    use std::collections::{BTreeMap, HashMap};

    /// How often each number is answered.
    fn told(cases: &[Vec<u64>], at: impl Fn(&[u64]) -> usize) -> BTreeMap<u64, usize> {
        let mut told = BTreeMap::new();
        for case in cases {
            assert_eq!(case[0], case.len() as u64);
            *told.entry(case[at(case)]).or_default() += 1;
        }
        told
    }

    #[test]
    fn sizes_and_what_is_met() {
        let (imports, writes) = (import_cases(), write_cases());
        for cases in [&imports, &writes] {
            assert!(8 * cases.concat().len() < 278_528, "{}", 8 * cases.concat().len());
        }
        let loaded = told(&imports, |case| 21 + case[11] as usize + (case[12] as usize + 7) / 8);
        for number in (0..=7).chain(9..=12).chain([19]) {
            assert!(loaded.get(&number) > Some(&1), "{number}: {loaded:?}");
        }
        assert!(loaded[&0] > 50 && loaded[&19] > 300, "{loaded:?}");
        let written = told(&writes, |case| 24 + case[15..21].iter().sum::<u64>() as usize);
        for number in [0, 12, 17] {
            assert!(written.get(&number) > Some(&4), "{written:?}");
        }
        for number in 21..=25 {
            assert!(written.get(&number) > Some(&1), "{written:?}");
        }
        assert_eq!(written.get(&13), None);
    }

    #[test]
    fn areas_are_small() {
        for case in import_cases() {
            assert!(case[10] <= 14 && case[11] <= 48 && case[12] <= 1408, "{case:?}");
            assert!(case[13..19].iter().all(|&length| length <= 48), "{case:?}");
            assert!(case[19] <= 96 && case[20] <= 4, "{case:?}");
        }
        for case in write_cases() {
            assert!(case[15..21].iter().all(|&length| length <= 48), "{case:?}");
            assert!(case[21] <= 96 && case[22] <= 4 && case[23] <= 1408, "{case:?}");
        }
    }

    #[test]
    fn every_rule_is_broken_alone_and_with_others() {
        let mut random = SplitMix64::new(291);
        let random = &mut random;
        let all = [loaded(random), broken(random), bytes(random), halves(random)].concat();
        let mut alone: HashMap<Rule, usize> = HashMap::new();
        let mut together = 0;
        for loading in &all {
            match first_bad(&loading.file, loading.settings.n, loading.settings.links()) {
                Some((_, rules)) if rules.len() == 1 => *alone.entry(rules[0]).or_default() += 1,
                Some(_) => together += 1,
                None => assert!(loading.file.len() % LINK == 0),
            }
        }
        for rule in RULES {
            assert!(alone.get(&rule) > Some(&1), "{rule:?}: {alone:?}");
        }
        assert!(together > 40, "{together}");
        assert!(all
            .iter()
            .any(|loading| links(&loading.file).len() == loading.settings.links()));
    }
}
