//! Replays the lists of whole runs by the format that `tests/README.md` describes, as a program of the port is to do.

#[path = "replay/digests.rs"]
mod digests;
#[path = "replay/marks.rs"]
mod marks;

use digests::{digest, listed, of_numbers, of_values};
use marks::{marked_numbers, marked_values};
use oracle::descent::{prepare, work, Answer, Areas, Method, Record, Rows, Settings, Standing};
use oracle::scatter::SplitMix64;
use oracle::tree::Node;
use oracle::{lists, words};

/// The words of a list, one after the other.
struct Words<'a>(&'a [u64]);

impl Words<'_> {
    fn one(&mut self) -> u64 {
        let word = self.0[0];
        self.0 = &self.0[1..];
        word
    }

    fn number(&mut self) -> usize {
        self.one() as usize
    }

    fn value(&mut self) -> f64 {
        f64::from_bits(self.one())
    }

    fn values(&mut self, count: usize) -> Vec<f64> {
        (0..count).map(|_| self.value()).collect()
    }

    fn numbers(&mut self, count: usize) -> Vec<usize> {
        (0..count).map(|_| self.number()).collect()
    }

    /// Whether the next words are these.
    fn are(&mut self, wanted: &[u64]) -> bool {
        wanted.iter().filter(|&&word| self.one() != word).count() == 0
    }
}

/// Of a node's twelve words nine are values, the marks as in an area of values; three are numbers.
fn marked_nodes(length: usize) -> Vec<Node> {
    let value = |place: usize| f64::from_bits((1 << 62) + place as u64);
    let three = |place: usize| [value(place), value(place + 1), value(place + 2)];
    let number = |place: usize| (1 << 30) + place as u32;
    let node = |i: usize| Node {
        centre: three(12 * i),
        half: three(12 * i + 3),
        mass: three(12 * i + 6),
        count: number(12 * i + 9),
        first: number(12 * i + 10),
        leaf: number(12 * i + 11),
    };
    (0..length).map(node).collect()
}

fn of_nodes(nodes: &[Node]) -> u64 {
    let mut words = Vec::new();
    for node in nodes {
        let values = [node.centre, node.half, node.mass].concat();
        words.extend(values.iter().map(|&v| listed(v)));
        words.extend([node.count, node.first, node.leaf].map(u64::from));
    }
    digest(nodes.len(), words)
}

fn digests(areas: &Areas) -> Vec<u64> {
    vec![
        of_values(&areas.positions),
        of_values(&areas.increments),
        of_values(&areas.gains),
        of_values(&areas.affinities),
        of_numbers(&areas.indices),
        of_numbers(&areas.offsets),
        of_values(&areas.forces),
        of_nodes(&areas.nodes),
    ]
}

fn method(number: usize) -> Method {
    [Method::Exact, Method::BarnesHut][number]
}

fn standing(number: usize) -> Standing {
    [Standing::Running, Standing::Stopped, Standing::Finished][number]
}

fn fields(record: &Record) -> [u64; 14] {
    let s = &record.settings;
    [
        s.n as u64,
        s.f as u64,
        s.c as u64,
        u64::from(s.method == Method::BarnesHut),
        listed(s.perplexity),
        listed(s.rate),
        s.iterations as u64,
        listed(s.angle),
        listed(s.minimum),
        (0..3).find(|&k| standing(k) == record.standing).expect("a state") as u64,
        record.done as u64,
        record.phase as u64,
        record.units as u64,
        record.used as u64,
    ]
}

fn alter_record(record: &mut Record, field: usize, word: u64) {
    let (number, value) = (word as usize, f64::from_bits(word));
    match field {
        0 => record.settings.n = number,
        1 => record.settings.f = number,
        2 => record.settings.c = number,
        3 => record.settings.method = method(number),
        4 => record.settings.perplexity = value,
        5 => record.settings.rate = value,
        6 => record.settings.iterations = number,
        7 => record.settings.angle = value,
        8 => record.settings.minimum = value,
        9 => record.standing = standing(number),
        10 => record.done = number,
        11 => record.phase = number,
        12 => record.units = number,
        _ => record.used = number,
    }
}

fn alter_area(areas: &mut Areas, area: usize, place: usize, word: u64) {
    let value = f64::from_bits(word);
    match area {
        0 => areas.positions[place] = value,
        1 => areas.increments[place] = value,
        2 => areas.gains[place] = value,
        3 => areas.affinities[place] = value,
        4 => areas.indices[place] = word as u32,
        5 => areas.offsets[place] = word as u32,
        6 => areas.forces[place] = value,
        _ => alter_node(&mut areas.nodes[place / 12], place % 12, word),
    }
}

fn alter_node(node: &mut Node, field: usize, word: u64) {
    let value = f64::from_bits(word);
    match field {
        0..=2 => node.centre[field] = value,
        3..=5 => node.half[field - 3] = value,
        6..=8 => node.mass[field - 6] = value,
        9 => node.count = word as u32,
        10 => node.first = word as u32,
        _ => node.leaf = word as u32,
    }
}

/// The first so many places of each area.
fn lend(areas: &Areas, lengths: &[usize]) -> Areas {
    Areas {
        positions: areas.positions[..lengths[0]].to_vec(),
        increments: areas.increments[..lengths[1]].to_vec(),
        gains: areas.gains[..lengths[2]].to_vec(),
        affinities: areas.affinities[..lengths[3]].to_vec(),
        indices: areas.indices[..lengths[4]].to_vec(),
        offsets: areas.offsets[..lengths[5]].to_vec(),
        forces: areas.forces[..lengths[6]].to_vec(),
        nodes: areas.nodes[..lengths[7]].to_vec(),
    }
}

fn take_back(areas: &mut Areas, lent: &Areas) {
    areas.positions[..lent.positions.len()].copy_from_slice(&lent.positions);
    areas.increments[..lent.increments.len()].copy_from_slice(&lent.increments);
    areas.gains[..lent.gains.len()].copy_from_slice(&lent.gains);
    areas.affinities[..lent.affinities.len()].copy_from_slice(&lent.affinities);
    areas.indices[..lent.indices.len()].copy_from_slice(&lent.indices);
    areas.offsets[..lent.offsets.len()].copy_from_slice(&lent.offsets);
    areas.forces[..lent.forces.len()].copy_from_slice(&lent.forces);
    areas.nodes[..lent.nodes.len()].copy_from_slice(&lent.nodes);
}

/// A call and what comes of it.
fn call_right(list: &mut Words, record: &mut Record, areas: &mut Areas) -> bool {
    let (part, place, word) = (list.number(), list.number(), list.one());
    match part {
        0 => {}
        1 => alter_record(record, place, word),
        _ => alter_area(areas, part - 2, place, word),
    }
    let mut lent = lend(areas, &list.numbers(8));
    let budget = list.one() as u32;
    let answer = match work(record, &mut lent, budget) {
        Answer::Running(units) => [0, 0, units],
        Answer::Stopped(units) => [1, 0, units],
        Answer::Finished(units) => [2, 0, units],
        Answer::Refused(number, units) => [3, number, units],
    };
    take_back(areas, &lent);
    let same = [list.are(&answer), list.are(&fields(record)), list.are(&digests(areas))];
    same == [true; 3]
}

fn marked_areas(lengths: &[u64]) -> Areas {
    Areas {
        positions: marked_values(lengths[0]),
        increments: marked_values(lengths[1]),
        gains: marked_values(lengths[2]),
        affinities: marked_values(lengths[3]),
        indices: marked_numbers(lengths[4]),
        offsets: marked_numbers(lengths[5]),
        forces: marked_values(lengths[6]),
        nodes: marked_nodes(lengths[7] as usize),
    }
}

fn marked_rows(lengths: &[u64]) -> Rows {
    Rows {
        values: marked_values(lengths[8]),
        indices: marked_numbers(lengths[9]),
    }
}

/// One case, whose words these are.
fn case_right(case: &[u64]) -> bool {
    let mut list = Words(case);
    list.one();
    let settings = Settings {
        n: list.number(),
        f: list.number(),
        c: list.number(),
        method: method(list.number()),
        perplexity: list.value(),
        rate: list.value(),
        iterations: list.number(),
        angle: list.value(),
        minimum: list.value(),
    };
    let lengths: Vec<u64> = (0..10).map(|_| list.one()).collect();
    let (table, start) = (list.number(), list.number());
    let (table, start) = (list.values(table), list.values(start));
    let (mut areas, mut rows) = (marked_areas(&lengths), marked_rows(&lengths));
    let prepared = prepare(settings, &table, &start, &mut areas, &mut rows);
    let answer = prepared.as_ref().err().copied().unwrap_or(0);
    let rows = [of_values(&rows.values), of_numbers(&rows.indices)];
    let mut right = [list.are(&[answer]), list.are(&digests(&areas)), list.are(&rows)] == [true; 3];
    let calls = list.number();
    if let Ok(mut record) = prepared {
        for _ in 0..calls {
            right &= call_right(&mut list, &mut record, &mut areas);
        }
    }
    right && list.0.is_empty()
}

/// The cases of a list, by the lengths that they begin with.
fn cases(mut list: &[u64]) -> Vec<Vec<u64>> {
    let mut found = Vec::new();
    while !list.is_empty() {
        let (case, rest) = list.split_at(list[0] as usize);
        found.push(case.to_vec());
        list = rest;
    }
    found
}

/// The two lists as they are committed.
fn committed() -> Vec<Vec<u64>> {
    let crates = std::path::Path::new(env!("CARGO_MANIFEST_DIR")).join("../../crates");
    let ours = lists::all()
        .into_iter()
        .filter(|list| list.replayer == "replay_descent");
    ours.flat_map(|list| {
        let bytes = std::fs::read(list.path(&crates)).expect("a committed list");
        cases(&words::from_bytes(&bytes))
    })
    .collect()
}

#[test]
fn every_case_comes_out_right() {
    for (number, case) in committed().iter().enumerate() {
        assert!(case_right(case), "case {number}");
    }
}

#[test]
fn a_flipped_answer_is_noticed() {
    let mut random = SplitMix64::new(131);
    for case in committed() {
        let before = 22 + (case[20] + case[21]) as usize;
        let mut places: Vec<usize> = (before..before + 11).collect();
        for call in 0..case[before + 11] as usize {
            let first = before + 12 + 37 * call;
            places.extend(first + 12..first + 37);
        }
        for _ in 0..8 {
            let mut damaged = case.clone();
            damaged[places[random.next() as usize % places.len()]] ^= 1 << (random.next() % 64);
            assert!(!case_right(&damaged));
        }
    }
}
