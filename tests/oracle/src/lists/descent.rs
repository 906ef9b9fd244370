//! The lists of whole runs: a preparation, then work calls with budgets, with areas lent shorter and with one field or
//! place altered before a call. After the preparation and after each call the list has the answer, the record, and a
//! digest of every area.

use super::gradient::listed;
use crate::descent::{prepare, work, Answer, Areas, Method, Record, Rows, Settings, Standing};
use crate::scatter::mix;
use crate::tree::Node;

mod faults;
mod runs;

pub use faults::cases as fault_cases;
pub use runs::cases as run_cases;

/// How many areas a work call is lent.
const LENT: usize = 8;
/// How many words a call has.
pub const CALL_WORDS: usize = 3 + LENT + 1 + 3 + FIELDS + LENT;
/// How many fields a record has.
const FIELDS: usize = 14;

/// The areas by their numbers.
const POSITIONS: usize = 0;
const GAINS: usize = 2;
const AFFINITIES: usize = 3;
const INDICES: usize = 4;
const OFFSETS: usize = 5;
const FORCES: usize = 6;
const NODES: usize = 7;
/// How many words a node has, and which of them are its numbers; the values come before them.
const NODE_WORDS: usize = 12;
const COUNT: usize = 9;
const FIRST: usize = 10;
const LEAF: usize = 11;

/// The record's fields by their numbers.
const N: usize = 0;
const F: usize = 1;
const C: usize = 2;
const METHOD: usize = 3;
const PERPLEXITY: usize = 4;
const RATE: usize = 5;
const ITERATIONS: usize = 6;
const ANGLE: usize = 7;
const MINIMUM: usize = 8;
const STANDING: usize = 9;
const DONE: usize = 10;
const PHASE: usize = 11;
const UNITS: usize = 12;
const USED: usize = 13;

/// What is altered before a call.
#[derive(Clone, Copy, Debug)]
enum Alteration {
    Nothing,
    /// A field of the record becomes the value with these bits.
    Field(usize, u64),
    /// A place of an area does; the places of the nodes are their words.
    Place(usize, usize, u64),
}

/// A call to come.
#[derive(Clone, Debug)]
struct Call {
    alteration: Alteration,
    /// How much of each area is lent.
    lengths: [usize; LENT],
    budget: u32,
}

/// What a case starts from.
#[derive(Clone, Debug)]
struct Start {
    settings: Settings,
    table: Vec<f64>,
    start: Vec<f64>,
    /// The lengths of the eight areas, then of the two preparation rows.
    lengths: [usize; LENT + 2],
}

/// A case in the making.
struct Case {
    words: Vec<u64>,
    lengths: [usize; LENT],
    areas: Areas,
    /// None where the preparation was refused.
    record: Option<Record>,
    calls: u64,
    /// Where the number of calls stands.
    calls_at: usize,
}

/// The digest of an area: it starts as the number of elements, and each element's word is added and mixed in.
fn digest(length: usize, words: impl Iterator<Item = u64>) -> u64 {
    words.fold(length as u64, |digest, word| mix(digest.wrapping_add(word)))
}

pub(super) fn digest_values(values: &[f64]) -> u64 {
    digest(values.len(), values.iter().map(|&v| listed(v)))
}

pub(super) fn digest_numbers(numbers: &[u32]) -> u64 {
    digest(numbers.len(), numbers.iter().map(|&v| u64::from(v)))
}

/// A node is an element of twelve words.
fn digest_nodes(nodes: &[Node]) -> u64 {
    digest(nodes.len(), nodes.iter().flat_map(|node| node.words()))
}

/// The digests of the eight areas.
pub(super) fn digests(areas: &Areas) -> [u64; LENT] {
    [
        digest_values(&areas.positions),
        digest_values(&areas.increments),
        digest_values(&areas.gains),
        digest_values(&areas.affinities),
        digest_numbers(&areas.indices),
        digest_numbers(&areas.offsets),
        digest_values(&areas.forces),
        digest_nodes(&areas.nodes),
    ]
}

/// Place i holds the value with the bits 4000000000000000 + i.
pub fn marks(length: usize) -> Vec<f64> {
    (0..length as u64)
        .map(|i| f64::from_bits(0x4000_0000_0000_0000 + i))
        .collect()
}

/// Place i holds 40000000 + i, in hex.
pub fn marked_numbers(length: usize) -> Vec<u32> {
    (0..length as u32).map(|i| 0x4000_0000 + i).collect()
}

/// Each word of the nodes holds its mark by its place among them, as in an area of its kind.
fn marked_nodes(length: usize) -> Vec<Node> {
    let mut nodes = vec![Node::default(); length];
    for place in 0..NODE_WORDS * length {
        let (node, field) = (place / NODE_WORDS, place % NODE_WORDS);
        let mark = if field < COUNT {
            0x4000_0000_0000_0000
        } else {
            0x4000_0000
        };
        nodes[node].alter(field, mark + place as u64);
    }
    nodes
}

impl Node {
    /// The node as words: centre, half and mass by their bits, then count, first child and leaf.
    fn words(&self) -> [u64; NODE_WORDS] {
        let mut words = [0; NODE_WORDS];
        let values = self.centre.iter().chain(&self.half).chain(&self.mass);
        for (word, &value) in words.iter_mut().zip(values) {
            *word = listed(value);
        }
        words[COUNT] = u64::from(self.count);
        words[FIRST] = u64::from(self.first);
        words[LEAF] = u64::from(self.leaf);
        words
    }

    /// One of the words becomes another.
    fn alter(&mut self, field: usize, bits: u64) {
        match field {
            COUNT => self.count = bits as u32,
            FIRST => self.first = bits as u32,
            LEAF => self.leaf = bits as u32,
            _ => [&mut self.centre, &mut self.half, &mut self.mass][field / 3][field % 3] = f64::from_bits(bits),
        }
    }
}

impl Settings {
    /// The settings as words.
    fn words(&self) -> [u64; 9] {
        [
            self.n as u64,
            self.f as u64,
            self.c as u64,
            match self.method {
                Method::Exact => 0,
                Method::BarnesHut => 1,
            },
            listed(self.perplexity),
            listed(self.rate),
            self.iterations as u64,
            listed(self.angle),
            listed(self.minimum),
        ]
    }
}

impl Record {
    /// The record as words: the settings, the state, iterations done, units of the iteration, all units, nodes in use.
    pub(super) fn words(&self) -> Vec<u64> {
        let mut words = self.settings.words().to_vec();
        words.extend([
            match self.standing {
                Standing::Running => 0,
                Standing::Stopped => 1,
                Standing::Finished => 2,
            },
            self.done as u64,
            self.phase as u64,
            self.units as u64,
            self.used as u64,
        ]);
        words
    }

    /// One field becomes the value with the given bits.
    fn alter(&mut self, field: usize, bits: u64) {
        let (number, value) = (bits as usize, f64::from_bits(bits));
        match field {
            N => self.settings.n = number,
            F => self.settings.f = number,
            C => self.settings.c = number,
            METHOD => self.settings.method = [Method::Exact, Method::BarnesHut][number],
            PERPLEXITY => self.settings.perplexity = value,
            RATE => self.settings.rate = value,
            ITERATIONS => self.settings.iterations = number,
            ANGLE => self.settings.angle = value,
            MINIMUM => self.settings.minimum = value,
            STANDING => self.standing = [Standing::Running, Standing::Stopped, Standing::Finished][number],
            DONE => self.done = number,
            PHASE => self.phase = number,
            UNITS => self.units = number,
            USED => self.used = number,
            _ => panic!("no such field: {field}"),
        }
    }
}

/// The values of an area of values, the numbers of one of numbers, the nodes of the arena.
enum Part<'a> {
    Values(&'a mut Vec<f64>),
    Numbers(&'a mut Vec<u32>),
    Nodes(&'a mut Vec<Node>),
}

/// An area by its number.
fn part(areas: &mut Areas, area: usize) -> Part<'_> {
    match area {
        POSITIONS => Part::Values(&mut areas.positions),
        1 => Part::Values(&mut areas.increments),
        GAINS => Part::Values(&mut areas.gains),
        AFFINITIES => Part::Values(&mut areas.affinities),
        INDICES => Part::Numbers(&mut areas.indices),
        OFFSETS => Part::Numbers(&mut areas.offsets),
        FORCES => Part::Values(&mut areas.forces),
        NODES => Part::Nodes(&mut areas.nodes),
        _ => panic!("no such area: {area}"),
    }
}

/// What a place holds, as a word.
fn held(areas: &mut Areas, area: usize, place: usize) -> u64 {
    match part(areas, area) {
        Part::Values(values) => listed(values[place]),
        Part::Numbers(numbers) => u64::from(numbers[place]),
        Part::Nodes(nodes) => nodes[place / NODE_WORDS].words()[place % NODE_WORDS],
    }
}

/// A place holds another word.
fn alter(areas: &mut Areas, area: usize, place: usize, bits: u64) {
    match part(areas, area) {
        Part::Values(values) => values[place] = f64::from_bits(bits),
        Part::Numbers(numbers) => numbers[place] = bits as u32,
        Part::Nodes(nodes) => nodes[place / NODE_WORDS].alter(place % NODE_WORDS, bits),
    }
}

/// The areas cut down to what is lent.
fn cut(areas: &Areas, lengths: &[usize; LENT]) -> Areas {
    let mut lent = areas.clone();
    for (area, &length) in lengths.iter().enumerate() {
        match part(&mut lent, area) {
            Part::Values(values) => values.truncate(length),
            Part::Numbers(numbers) => numbers.truncate(length),
            Part::Nodes(nodes) => nodes.truncate(length),
        }
    }
    lent
}

/// What was lent goes back to the front of the areas.
fn put_back(areas: &mut Areas, lent: &mut Areas) {
    for area in 0..LENT {
        match (part(areas, area), part(lent, area)) {
            (Part::Values(whole), Part::Values(cut)) => whole[..cut.len()].copy_from_slice(cut),
            (Part::Numbers(whole), Part::Numbers(cut)) => whole[..cut.len()].copy_from_slice(cut),
            (Part::Nodes(whole), Part::Nodes(cut)) => whole[..cut.len()].copy_from_slice(cut),
            _ => unreachable!("an area keeps its kind"),
        }
    }
}

impl Case {
    /// The preparation.
    fn new(from: &Start) -> Case {
        let lengths = from.lengths;
        let mut areas = Areas {
            positions: marks(lengths[POSITIONS]),
            increments: marks(lengths[1]),
            gains: marks(lengths[GAINS]),
            affinities: marks(lengths[AFFINITIES]),
            indices: marked_numbers(lengths[INDICES]),
            offsets: marked_numbers(lengths[OFFSETS]),
            forces: marks(lengths[FORCES]),
            nodes: marked_nodes(lengths[NODES]),
        };
        let mut rows = Rows {
            values: marks(lengths[LENT]),
            indices: marked_numbers(lengths[LENT + 1]),
        };
        let mut words = vec![0];
        words.extend(from.settings.words());
        words.extend(lengths.iter().map(|&length| length as u64));
        words.extend([from.table.len() as u64, from.start.len() as u64]);
        words.extend(from.table.iter().chain(&from.start).map(|&v| listed(v)));
        let prepared = prepare(from.settings, &from.table, &from.start, &mut areas, &mut rows);
        words.push(prepared.err().unwrap_or(0));
        words.extend(digests(&areas));
        words.extend([digest_values(&rows.values), digest_numbers(&rows.indices)]);
        words.push(0);
        let mut lent = [0; LENT];
        lent.copy_from_slice(&lengths[..LENT]);
        Case {
            calls_at: words.len() - 1,
            words,
            lengths: lent,
            areas,
            record: prepared.ok(),
            calls: 0,
        }
    }

    /// A record of a run that was prepared.
    fn record(&self) -> &Record {
        self.record.as_ref().expect("a run that was prepared")
    }

    /// One call, and what it gives.
    fn call(&mut self, call: &Call) -> Answer {
        let mut record = *self.record();
        let (part_number, place, bits) = match call.alteration {
            Alteration::Nothing => (0, 0, 0),
            Alteration::Field(field, bits) => (1, field, bits),
            Alteration::Place(area, place, bits) => (2 + area, place, bits),
        };
        match call.alteration {
            Alteration::Nothing => {}
            Alteration::Field(field, bits) => record.alter(field, bits),
            Alteration::Place(area, place, bits) => alter(&mut self.areas, area, place, bits),
        }
        self.words.extend([part_number as u64, place as u64, bits]);
        self.words.extend(call.lengths.iter().map(|&length| length as u64));
        self.words.push(u64::from(call.budget));
        let mut lent = cut(&self.areas, &call.lengths);
        let answer = work(&mut record, &mut lent, call.budget);
        put_back(&mut self.areas, &mut lent);
        self.words.extend(match answer {
            Answer::Running(units) => [0, 0, units],
            Answer::Stopped(units) => [1, 0, units],
            Answer::Finished(units) => [2, 0, units],
            Answer::Refused(number, units) => [3, number, units],
        });
        self.words.extend(record.words());
        self.words.extend(digests(&self.areas));
        self.record = Some(record);
        self.calls += 1;
        answer
    }

    /// A call with all areas whole.
    fn plain(&mut self, budget: u32) -> Answer {
        self.altered(Alteration::Nothing, budget)
    }

    /// A call with all areas whole, after an alteration.
    fn altered(&mut self, alteration: Alteration, budget: u32) -> Answer {
        let lengths = self.lengths;
        self.call(&Call {
            alteration,
            lengths,
            budget,
        })
    }

    /// A call that is lent so much of one area.
    fn shortened(&mut self, area: usize, length: usize, budget: u32) -> Answer {
        let mut lengths = self.lengths;
        lengths[area] = length;
        self.call(&Call {
            alteration: Alteration::Nothing,
            lengths,
            budget,
        })
    }

    /// A call after an alteration, and one after it was taken back.
    fn there_and_back(&mut self, alteration: Alteration, budget: u32) -> Answer {
        let before = match alteration {
            Alteration::Nothing => Alteration::Nothing,
            Alteration::Field(field, _) => Alteration::Field(field, self.record().words()[field]),
            Alteration::Place(area, place, _) => Alteration::Place(area, place, held(&mut self.areas, area, place)),
        };
        let answer = self.altered(alteration, budget);
        self.altered(before, 0);
        answer
    }

    /// The case with its length and its number of calls.
    fn done(mut self) -> Vec<u64> {
        self.words[0] = self.words.len() as u64;
        self.words[self.calls_at] = self.calls;
        self.words
    }
}

/// Lengths that are enough for the settings, with room for the given nodes, and in each area a few places more.
fn roomy(settings: &Settings, nodes: usize) -> [usize; LENT + 2] {
    let mut lengths = tight(settings, nodes);
    for (area, length) in lengths.iter_mut().enumerate() {
        *length += 1 + area % 3;
    }
    lengths
}

/// Lengths that are just enough; an exact run has no lists and no arena.
fn tight(settings: &Settings, nodes: usize) -> [usize; LENT + 2] {
    let Settings { n, c, .. } = *settings;
    let cells = n * c;
    let forces = n * (2 * c + 1);
    match settings.method {
        Method::Exact => [cells, cells, cells, n * n, 0, 0, forces, 0, n, n],
        Method::BarnesHut => {
            let links = 2 * n * crate::elementary::neighbours(settings.perplexity, n);
            [cells, cells, cells, links, links, n + 1, forces, nodes, n, n]
        }
    }
}

#[cfg(test)]
mod tests {
    use super::*;

    #[test]
    fn a_digest_tells_signs_places_and_lengths() {
        let digest = |values: &[f64]| digest_values(values);
        assert_ne!(digest(&[1.0, 2.0]), digest(&[-1.0, -2.0]));
        assert_ne!(digest(&[1.0, 2.0]), digest(&[2.0, 1.0]));
        assert_ne!(digest(&[0.0, 0.0]), digest(&[0.0]));
        assert_ne!(digest(&[0.0]), digest(&[-0.0]));
        assert_eq!(digest(&[]), 0);
        assert_eq!(digest_numbers(&[5]), mix(6));
    }

    #[test]
    fn a_node_is_twelve_words() {
        let nodes = marked_nodes(2);
        let marks = |from: u64| (0..NODE_WORDS as u64).map(move |i| from + i + if i < 9 { 1 << 62 } else { 1 << 30 });
        assert!(nodes[0].words().into_iter().eq(marks(0)) && nodes[1].words().into_iter().eq(marks(12)));
        assert_eq!(
            (nodes[1].mass[2].to_bits(), nodes[1].leaf),
            ((1 << 62) + 20, (1 << 30) + 23)
        );
        let all = marks(0).chain(marks(12));
        assert_eq!(
            digest_nodes(&nodes),
            all.fold(2_u64, |digest, word| mix(digest.wrapping_add(word)))
        );
        for field in 0..NODE_WORDS {
            let mut node = nodes[0];
            node.alter(field, 5);
            let mut words = nodes[0].words();
            words[field] = 5;
            assert_eq!(node.words(), words);
        }
    }

    /// Where a case has preparation's answer: after its length, the settings, the lengths, the table and the start.
    fn prepared(case: &[u64]) -> usize {
        let table = 1 + 9 + LENT + 2;
        table + 2 + (case[table] + case[table + 1]) as usize
    }

    /// The cases follow each other, and each has the calls that it says.
    fn is_well_made(cases: &[Vec<u64>]) {
        assert!(8 * cases.concat().len() < 275_000);
        for case in cases {
            assert_eq!(case[0], case.len() as u64);
            let answer = prepared(case);
            let calls = case[answer + 1 + LENT + 2] as usize;
            assert_eq!(case.len(), answer + 1 + LENT + 2 + 1 + calls * CALL_WORDS);
            assert_eq!(case[answer] == 0, calls > 0);
        }
    }

    /// How many calls there are with the given kind and number.
    fn calls(cases: &[Vec<u64>], kind: u64, number: u64) -> usize {
        let answers = cases.iter().flat_map(|case| {
            let first = prepared(case) + 1 + LENT + 2 + 1;
            let answer = 3 + LENT + 1;
            case[first..]
                .chunks(CALL_WORDS)
                .map(move |call| (call[answer], call[answer + 1]))
        });
        answers.filter(|&answer| answer == (kind, number)).count()
    }

    #[test]
    fn runs_reach_what_they_are_meant_to() {
        let cases = run_cases();
        is_well_made(&cases);
        assert!(calls(&cases, 0, 0) > 100 && calls(&cases, 1, 0) > 3 && calls(&cases, 2, 0) > 50);
        assert!(calls(&cases, 3, 14) > 10 && calls(&cases, 3, 15) > 8);
        assert!(cases.iter().any(|case| case[1] == 64));
        for c in 1..=8 {
            assert!(cases.iter().any(|case| case[3] == c && case[4] == 0));
        }
        for c in 1..=3 {
            assert!(cases.iter().any(|case| case[3] == c && case[4] == 1));
        }
    }

    #[test]
    fn faults_reach_what_they_are_meant_to() {
        let cases = fault_cases();
        is_well_made(&cases);
        for number in [12, 21, 22, 23, 24, 25] {
            assert!(calls(&cases, 3, number) > 5, "{number}");
        }
        assert_eq!(calls(&cases, 3, 13), 0);
        for number in 1..=12 {
            let refused = cases.iter().filter(|case| case[prepared(case)] == number);
            assert!(refused.count() > 0, "{number}");
        }
    }
}
