//! The library and the independent implementation side by side: each call is made on both, and all that there is
//! afterwards has to be the same, bit for bit.

use crate::case::Case;
use brothanchor::{prepare, prepare_strip, work, Areas, Kind, Node, Record, Refusal, Rows, Worked};
use oracle::descent;
use oracle::record::{record_of, settings_of};
use oracle::{strip, tree};

/// The library's memory, and the record if there is one. The other side's is made of it for each call.
#[derive(Clone)]
pub struct Both {
    pub areas: Areas,
    pub record: Record,
}

/// How each side prepares a run.
type Prepares = fn(&[u64], &[f64], &[f64], &mut Areas, &mut Rows) -> Result<Record, Refusal>;
type TheirPrepares =
    fn(descent::Settings, &[f64], &[f64], &mut descent::Areas, &mut descent::Rows) -> Result<descent::Record, u64>;

impl Both {
    /// Prepares on both sides: the run, or the number of the refusal.
    pub fn prepare(case: &Case) -> Result<Both, u64> {
        Both::prepared(case, prepare, descent::prepare)
    }

    /// The same as the run of a strip.
    pub fn prepare_strip(case: &Case) -> Result<Both, u64> {
        Both::prepared(case, prepare_strip, strip::prepare_strip)
    }

    fn prepared(case: &Case, ours: Prepares, theirs: TheirPrepares) -> Result<Both, u64> {
        let (mut areas, mut rows) = (case.areas.clone(), case.rows.clone());
        let settings = case.settings.words();
        let ours = ours(&settings, &case.table, &case.start, &mut areas, &mut rows);

        let mut their_areas = other_side(&case.areas);
        let mut their_rows = descent::Rows {
            values: case.rows.values.clone(),
            indices: case.rows.indices.clone(),
        };
        let settings = settings_of(&settings).expect("settings");
        let record = theirs(settings, &case.table, &case.start, &mut their_areas, &mut their_rows);

        same_areas(&areas, &their_areas);
        same_rows(&rows, &their_rows);
        let ours = ours.map_err(|refusal| u64::from(refusal.0));
        assert_eq!(
            ours.map(|record| record.words),
            record.as_ref().map(words_of).map_err(|&number| number)
        );
        ours.map(|record| Both { areas, record })
    }

    /// A work call on both sides: all words of the answer, the record and every area have to be the same.
    pub fn work(&mut self, budget: u32) -> Worked {
        let mut theirs = other_side(&self.areas);
        let before = self.record;
        let worked = work(&mut self.record, &mut self.areas, budget);
        // A call that is refused at its entry changes no word, any other the five after the settings.
        let mut wanted = before.words;
        let told = match record_of(&before.words) {
            Err(fault) => answer_words(descent::Answer::Refused(fault.number(), 0), Some(fault)),
            Ok(mut record) => {
                let fault = descent::fault(&record, &theirs);
                let answer = descent::work(&mut record, &mut theirs, budget);
                if fault.is_none() {
                    wanted[9..].copy_from_slice(&words_of(&record)[9..]);
                }
                answer_words(answer, fault)
            }
        };
        assert_eq!(worked.words, told);
        assert_eq!(self.record.words, wanted);
        same_areas(&self.areas, &theirs);
        worked
    }
}

/// What a call is lent, by parts.
pub const PARTS: [&str; 10] = [
    "lengths",
    "record",
    "positions",
    "increments",
    "gains",
    "affinities",
    "indices",
    "offsets",
    "forces",
    "nodes",
];

impl Both {
    /// The first part that has other bits than the other's, but for one that is not looked at. Of areas of two lengths the
    /// common places are compared.
    pub fn difference(&self, other: &Both, but: Option<usize>) -> Option<usize> {
        let (a, b) = (&self.areas, &other.areas);
        let values = |a: &[f64], b: &[f64]| a.iter().zip(b).all(|(a, b)| a.to_bits() == b.to_bits());
        let numbers = |a: &[u32], b: &[u32]| a.iter().zip(b).all(|(a, b)| a == b);
        let same = [
            lengths(a) == lengths(b),
            self.record == other.record,
            values(&a.positions, &b.positions),
            values(&a.increments, &b.increments),
            values(&a.gains, &b.gains),
            values(&a.affinities, &b.affinities),
            numbers(&a.indices, &b.indices),
            numbers(&a.offsets, &b.offsets),
            values(&a.forces, &b.forces),
            a.nodes.iter().zip(&b.nodes).all(|(a, b)| node_bits(a) == node_bits(b)),
        ];
        (0..PARTS.len()).find(|&part| !same[part] && Some(part) != but)
    }
}

fn lengths(areas: &Areas) -> [usize; 8] {
    [
        areas.positions.len(),
        areas.increments.len(),
        areas.gains.len(),
        areas.affinities.len(),
        areas.indices.len(),
        areas.offsets.len(),
        areas.forces.len(),
        areas.nodes.len(),
    ]
}

/// A node by its bits.
pub fn node_bits(node: &Node) -> ([[u64; 3]; 3], [u32; 3]) {
    let values = [node.centre, node.half, node.mass].map(|three| three.map(f64::to_bits));
    (values, [node.count, node.first, node.leaf])
}

/// The number of a refusal, or 0.
pub fn number(worked: &Worked) -> u64 {
    match worked.kind {
        Kind::Refused(refusal) => u64::from(refusal.0),
        _ => 0,
    }
}

/// The other side's answer, and what it found bad, as the five words of the library: kind, number, units, fault, value.
fn answer_words(answer: descent::Answer, fault: Option<descent::Fault>) -> [u64; 5] {
    let (kind, number, units) = match answer {
        descent::Answer::Running(units) => (0, 0, units),
        descent::Answer::Stopped(units) => (1, 0, units),
        descent::Answer::Finished(units) => (2, 0, units),
        descent::Answer::Refused(number, units) => (3, number, units),
    };
    let value = fault.map_or(0, descent::Fault::place);
    [kind, number, units, fault.map_or(0, fault_word), value]
}

/// What was found bad as a word of the library.
fn fault_word(fault: descent::Fault) -> u64 {
    match fault {
        descent::Fault::Settings(_) => 1,
        descent::Fault::Counters => 2,
        descent::Fault::Areas => 3,
        descent::Fault::Offsets(_) => 4,
        descent::Fault::Index(_) => 5,
        descent::Fault::Tree(_) => 6,
    }
}

/// Number and place of what the entry tests found.
pub fn told_of(fault: descent::Fault) -> (u64, u64) {
    (fault.number(), fault.place())
}

fn words_of(record: &descent::Record) -> [u64; 14] {
    let settings = &record.settings;
    [
        settings.n as u64,
        settings.f as u64,
        settings.c as u64,
        settings.method as u64,
        bits(settings.perplexity),
        bits(settings.rate),
        settings.iterations as u64,
        bits(settings.angle),
        bits(settings.minimum),
        record.standing as u64,
        record.done as u64,
        record.phase as u64,
        record.units as u64,
        record.used as u64,
    ]
}

/// A value's bits; every NaN is one.
pub fn bits(value: f64) -> u64 {
    if value.is_nan() {
        return 0x7ff8_0000_0000_0000;
    }
    value.to_bits()
}

pub fn other_side(areas: &Areas) -> descent::Areas {
    descent::Areas {
        positions: areas.positions.clone(),
        increments: areas.increments.clone(),
        gains: areas.gains.clone(),
        affinities: areas.affinities.clone(),
        indices: areas.indices.clone(),
        offsets: areas.offsets.clone(),
        forces: areas.forces.clone(),
        nodes: areas.nodes.iter().map(other_node).collect(),
    }
}

pub fn other_node(node: &Node) -> tree::Node {
    tree::Node {
        centre: node.centre,
        half: node.half,
        mass: node.mass,
        count: node.count,
        first: node.first,
        leaf: node.leaf,
    }
}

/// Every place of every area, tails included.
pub fn same_areas(ours: &Areas, theirs: &descent::Areas) {
    same_values("positions", &ours.positions, &theirs.positions);
    same_values("increments", &ours.increments, &theirs.increments);
    same_values("gains", &ours.gains, &theirs.gains);
    same_values("affinities", &ours.affinities, &theirs.affinities);
    assert!(ours.indices == theirs.indices, "indices");
    assert!(ours.offsets == theirs.offsets, "offsets");
    same_values("forces", &ours.forces, &theirs.forces);
    assert_eq!(ours.nodes.len(), theirs.nodes.len(), "nodes");
    for (i, (ours, theirs)) in ours.nodes.iter().zip(&theirs.nodes).enumerate() {
        let same = three_bits(&ours.centre) == three_bits(&theirs.centre)
            && three_bits(&ours.half) == three_bits(&theirs.half)
            && three_bits(&ours.mass) == three_bits(&theirs.mass)
            && [ours.count, ours.first, ours.leaf] == [theirs.count, theirs.first, theirs.leaf];
        assert!(same, "node {i}: {ours:?} and {theirs:?}");
    }
}

fn three_bits(values: &[f64; 3]) -> [u64; 3] {
    values.map(bits)
}

fn same_rows(ours: &Rows, theirs: &descent::Rows) {
    same_values("row values", &ours.values, &theirs.values);
    assert!(ours.indices == theirs.indices, "row indices");
}

fn same_values(area: &str, ours: &[f64], theirs: &[f64]) {
    assert_eq!(ours.len(), theirs.len(), "{area}");
    for (place, (a, b)) in ours.iter().zip(theirs).enumerate() {
        assert!(bits(*a) == bits(*b), "{area}, place {place}: {a:e} and {b:e}");
    }
}
