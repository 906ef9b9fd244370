//! The lists of parked runs: writing and reading, with every refusal among them; and runs and damage for other tests.

use super::descent::{marked_numbers, marks};
use crate::descent::{Areas, Method, Record, Settings, Standing};
use crate::park::{park, unpark, Refusal, RECORD};
use crate::scatter::SplitMix64;
use crate::tree::Node;
use crate::words::from_bytes;

/// The largest magnitude of a position, increment or gain, 2^100, by its bits.
const LARGEST: u64 = 0x4630_0000_0000_0000;
/// NaNs of several payloads, quiet and signalling, with both signs.
const NANS: [u64; 4] = [
    0x7ff8_0000_0000_0000,
    0x7ff0_0000_0000_0001,
    0xfff8_dead_beef_0123,
    0xffff_ffff_ffff_ffff,
];
/// The three states.
pub const STANDINGS: [Standing; 3] = [Standing::Running, Standing::Stopped, Standing::Finished];

/// Choices at random.
pub(super) fn below(random: &mut SplitMix64, bound: usize) -> usize {
    (random.next() % bound as u64) as usize
}

pub(super) fn one_of<T: Copy>(random: &mut SplitMix64, choices: &[T]) -> T {
    choices[below(random, choices.len())]
}

/// Settings of a run that may stand so.
fn settings(random: &mut SplitMix64, method: Method, n: usize, c: usize, standing: Standing) -> Settings {
    let tree = method == Method::BarnesHut;
    let nan = f64::from_bits(one_of(random, &NANS));
    let any = f64::from_bits(random.next());
    let (long, share) = (below(random, 65_285), random.unit());
    Settings {
        n,
        f: one_of(random, &[1, 3, 6, 256]),
        c,
        method,
        perplexity: one_of(random, &[0.1, 0.5, share.max(1e-3) * n as f64 * 0.999]),
        rate: one_of(random, &[5.0, 200.0, f64::MIN_POSITIVE, f64::MAX]),
        iterations: match standing {
            Standing::Stopped => 251 + one_of(random, &[0, 1, long, 65_284]),
            _ => 1 + one_of(random, &[0, 1, 249, 250, long, 65_534]),
        },
        angle: if tree {
            one_of(random, &[0.0, -0.0, 0.5, 0.99])
        } else {
            one_of(random, &[0.0, 0.5, -0.0, nan, any])
        },
        minimum: match standing {
            Standing::Stopped => one_of(random, &[1e-7, f64::MAX, f64::INFINITY, 5e-324]),
            _ => one_of(random, &[0.0, -0.0, 1e-7, nan, any]),
        },
    }
}

/// How many iterations are done in a run that stands so.
pub(super) fn done(random: &mut SplitMix64, settings: &Settings, standing: Standing) -> usize {
    match standing {
        Standing::Running => below(random, settings.iterations),
        Standing::Stopped => 251 + below(random, settings.iterations - 250),
        Standing::Finished => settings.iterations,
    }
}

/// The record of a run between two iterations. Nodes in use are what a caller may have left there.
pub(super) fn between(random: &mut SplitMix64, settings: Settings, standing: Standing, done: usize) -> Record {
    Record {
        settings,
        standing,
        done,
        phase: 0,
        units: done * settings.iteration(),
        used: one_of(random, &[0, 1, 9, 70_000]),
    }
}

/// A value that a step may give.
fn calm(random: &mut SplitMix64) -> f64 {
    let wide = random.unit() - 0.5;
    let largest = f64::from_bits(LARGEST);
    one_of(
        random,
        &[wide, wide * 1e9, wide * 1e-9, 0.0, -0.0, 5e-324, largest, -largest],
    )
}

/// An affinity: an ordinary one, or any bits at all.
fn affinity(random: &mut SplitMix64) -> f64 {
    let (share, any) = (random.unit(), f64::from_bits(random.next()));
    let nan = f64::from_bits(one_of(random, &NANS));
    one_of(random, &[share, share, 0.0, any, nan])
}

/// A run between two iterations, with areas of just the length asked for. Its record says what a caller may have left there:
/// nodes in use, and an exact run's angle.
pub fn run(random: &mut SplitMix64, method: Method, n: usize, c: usize, standing: Standing) -> (Record, Areas) {
    let settings = settings(random, method, n, c, standing);
    let done = done(random, &settings, standing);
    let record = between(random, settings, standing, done);
    let mut cells = || (0..n * c).map(|_| calm(random)).collect();
    let (positions, increments, gains) = (cells(), cells(), cells());
    let room = if method == Method::Exact { 0 } else { settings.links() };
    let held = if method == Method::Exact { n * n } else { room };
    let links = one_of(random, &[0, room, room / 2, room * 2 / 3]);
    let affinities = (0..held).map(|_| affinity(random)).collect();
    let indices = (0..room).map(|_| below(random, n) as u32).collect();
    let mut offsets: Vec<u32> = (0..=n).map(|_| below(random, links + 1) as u32).collect();
    offsets.sort_unstable();
    offsets[0] = 0;
    offsets[n] = links as u32;
    let areas = Areas {
        positions,
        increments,
        gains,
        affinities,
        indices,
        offsets: if method == Method::Exact { Vec::new() } else { offsets },
        forces: vec![0.25; n * (2 * c + 1)],
        nodes: vec![Node::default(); usize::from(method == Method::BarnesHut)],
    };
    (record, areas)
}

/// The file of a run that can be parked.
pub fn file(record: &Record, areas: &Areas) -> Vec<u8> {
    let settings = &record.settings;
    let cells = (settings.n * settings.c + 3) / 4;
    let lists = (settings.n * settings.n).max(settings.n + 1 + 2 * settings.links()) + 9;
    let mut target = vec![0; RECORD * (3 + 3 * cells + lists)];
    let records = park(record, areas, &mut target).expect("a run that can be parked");
    target.truncate(RECORD * records);
    target
}

/// Another word in the place of one, chosen so that a rule is broken or just kept.
pub fn other_word(random: &mut SplitMix64, word: u64, n: u64) -> u64 {
    let any = random.next();
    one_of(
        random,
        &[
            word.wrapping_add(1),
            word.wrapping_sub(1),
            word ^ 1 << 63,
            word.wrapping_add(1 << 32),
            0,
            1,
            2,
            3,
            9,
            n,
            n - 1,
            250,
            251,
            256,
            257,
            4096,
            4097,
            65_535,
            65_536,
            1 << 63,
            0x3fe0_0000_0000_0000,
            0x3ff0_0000_0000_0000,
            0x7ff0_0000_0000_0000,
            NANS[1],
            LARGEST,
            LARGEST + 1,
            LARGEST | 1 << 63,
            (n as f64).to_bits(),
            u64::MAX,
            any,
        ],
    )
}

/// A file with something wrong, or other: a word, a byte, its length, or two of them.
pub fn damage(random: &mut SplitMix64, file: &mut Vec<u8>) {
    let n = u64::from_le_bytes(file[8..16].try_into().expect("eight bytes"));
    match below(random, 8) {
        0 => {
            let place = below(random, file.len());
            file[place] = random.next() as u8;
        }
        1 => file.truncate(below(random, file.len())),
        2 => {
            let more = one_of(random, &[1, 8, 31, 32, 33, 64]);
            file.extend(vec![one_of(random, &[0, 255]); more]);
        }
        3 => {
            let place = 8 * below(random, 12.min(file.len() / 8));
            put_other(random, file, place, n);
        }
        4 => {
            damage_word(random, file, n);
            damage_word(random, file, n);
        }
        _ => damage_word(random, file, n),
    }
}

fn damage_word(random: &mut SplitMix64, file: &mut [u8], n: u64) {
    let place = 8 * below(random, file.len() / 8);
    put_other(random, file, place, n);
}

fn put_other(random: &mut SplitMix64, file: &mut [u8], place: usize, n: u64) {
    let word = u64::from_le_bytes(file[place..place + 8].try_into().expect("eight bytes"));
    let other = other_word(random, word, n.max(1));
    file[place..place + 8].copy_from_slice(&other.to_le_bytes());
}

/// The record as fourteen words, every bit as it is.
pub fn words_of(record: &Record) -> [u64; 14] {
    let Settings { n, f, c, method, .. } = record.settings;
    let [n, f, c, iterations] = [n, f, c, record.settings.iterations].map(|number| number as u64);
    let [perplexity, rate, angle, minimum] = [
        record.settings.perplexity,
        record.settings.rate,
        record.settings.angle,
        record.settings.minimum,
    ]
    .map(f64::to_bits);
    let state = STANDINGS.iter().position(|&standing| standing == record.standing);
    let [done, phase, units, used] = [record.done, record.phase, record.units, record.used].map(|number| number as u64);
    let method = u64::from(method == Method::BarnesHut);
    let state = state.expect("one of three") as u64;
    [
        n, f, c, method, perplexity, rate, iterations, angle, minimum, state, done, phase, units, used,
    ]
}

/// How long the eight areas are.
pub(super) fn lengths(areas: &Areas) -> [u64; 8] {
    [
        areas.positions.len(),
        areas.increments.len(),
        areas.gains.len(),
        areas.affinities.len(),
        areas.indices.len(),
        areas.offsets.len(),
        areas.forces.len(),
        areas.nodes.len(),
    ]
    .map(|length| length as u64)
}

/// Every element of the areas as a word, from positions to offsets.
pub(crate) fn contents(areas: &Areas) -> Vec<u64> {
    let values = [&areas.positions, &areas.increments, &areas.gains, &areas.affinities];
    let mut words: Vec<u64> = values
        .iter()
        .flat_map(|area| area.iter().map(|v| v.to_bits()))
        .collect();
    words.extend(areas.indices.iter().chain(&areas.offsets).map(|&k| u64::from(k)));
    words
}

/// What comes with a number: the record, or what a divergence tells of a fault; else 0.
pub fn place_of(refusal: Refusal) -> u64 {
    match refusal {
        Refusal::Record(place) => place as u64,
        Refusal::Entry(fault) => fault.place(),
        _ => 0,
    }
}

/// A length, then what follows it.
pub(super) fn counted(words: Vec<u64>) -> Vec<u64> {
    let mut case = vec![words.len() as u64 + 1];
    case.extend(words);
    case
}

/// The mark of a byte in a target.
pub(super) fn byte_mark(place: usize) -> u8 {
    (place % 251) as u8 + 1
}

/// Writing: the record, the areas, the target's length; then number, word 0 and the whole target.
fn park_case(record: &Record, areas: &Areas, target: usize) -> Vec<u64> {
    let mut bytes: Vec<u8> = (0..target).map(byte_mark).collect();
    let told = park(record, areas, &mut bytes);
    let mut words = words_of(record).to_vec();
    words.extend(lengths(areas));
    words.push(target as u64);
    words.extend(contents(areas));
    words.extend(match told {
        Ok(records) => [0, records as u64],
        Err(refusal) => [refusal.number(), place_of(refusal)],
    });
    words.extend(from_bytes(&bytes));
    counted(words)
}

/// Reading: the file, how long each area is; then number and word 0, and of a file that is read the record's words and all of
/// the areas from positions to offsets.
fn unpark_case(file: &[u8], lent: &Areas) -> Vec<u64> {
    let mut areas = lent.clone();
    let told = unpark(file, &mut areas);
    let mut words = vec![file.len() as u64];
    words.extend(from_bytes(file));
    words.extend(lengths(&areas));
    match told {
        Ok(record) => {
            words.extend([0, (file.len() / RECORD) as u64]);
            words.extend(words_of(&record));
            words.extend(contents(&areas));
        }
        Err(refusal) => words.extend([refusal.number(), place_of(refusal)]),
    }
    counted(words)
}

/// Areas of marks, as long as a run's and so much longer.
fn marked(areas: &Areas, more: usize) -> Areas {
    let longer = |length: usize| marks(length + more);
    Areas {
        positions: longer(areas.positions.len()),
        increments: longer(areas.increments.len()),
        gains: longer(areas.gains.len()),
        affinities: longer(areas.affinities.len()),
        indices: marked_numbers(areas.indices.len() + more),
        offsets: marked_numbers(areas.offsets.len() + more),
        forces: longer(areas.forces.len()),
        nodes: areas.nodes.clone(),
    }
}

/// One element less in one of the eight areas.
pub(crate) fn shorten(areas: &mut Areas, which: usize) {
    match which {
        0 => drop(areas.positions.pop()),
        1 => drop(areas.increments.pop()),
        2 => drop(areas.gains.pop()),
        3 => drop(areas.affinities.pop()),
        4 => drop(areas.indices.pop()),
        5 => drop(areas.offsets.pop()),
        6 => drop(areas.forces.pop()),
        _ => drop(areas.nodes.pop()),
    }
}

/// Both methods with few frames, every c, every state, each several times.
fn runs(random: &mut SplitMix64, times: usize) -> Vec<(Record, Areas)> {
    let mut found = Vec::new();
    for k in 0..times {
        for (method, most) in [(Method::Exact, 8), (Method::BarnesHut, 3)] {
            for standing in STANDINGS {
                let c = 1 + (k + found.len()) % most;
                let n = 2 + below(random, 4);
                found.push(run(random, method, n, c, standing));
            }
        }
    }
    found
}

/// Something that a run cannot be parked with, or just can.
fn spoil(random: &mut SplitMix64, record: &mut Record, areas: &mut Areas) {
    let tree = record.settings.method == Method::BarnesHut;
    let place = below(random, areas.positions.len());
    let barred = f64::from_bits(one_of(random, &[LARGEST, LARGEST + 1, NANS[0], NANS[1], u64::MAX]));
    match below(random, 14) {
        0 => shorten(areas, below(random, 8)),
        1 => areas.positions[place] = barred,
        2 => areas.increments[place] = barred,
        3 => areas.gains[place] = -barred,
        4..=7 if record.standing == Standing::Running => {
            // Inside an iteration: an arena of one empty node is well formed.
            record.phase = 1 + below(random, 2 * record.settings.n);
            record.units += record.phase;
            record.used = one_of(random, &[0, 1, 1, 2]);
            areas.gains[place] = one_of(random, &[1.0, barred]);
        }
        4..=7 => record.phase = 1,
        8 => record.settings.perplexity = one_of(random, &[0.0, barred, 4096.0]),
        9 => record.done += 1,
        10 if tree => areas.offsets[below(random, record.settings.n + 1)] += 1,
        11 if tree && !areas.indices.is_empty() => areas.indices[0] = record.settings.n as u32,
        12 => record.units = record.units.wrapping_sub(1),
        _ => record.settings.c = one_of(random, &[0, 4, 9]),
    }
}

/// Runs that are written, into targets of several lengths, and runs that are not.
pub fn park_cases() -> Vec<Vec<u64>> {
    let mut random = SplitMix64::new(271);
    let mut found = Vec::new();
    for (record, areas) in runs(&mut random, 13) {
        let asked = file(&record, &areas).len();
        let target = asked + one_of(&mut random, &[0, 0, 1, 31, 40]);
        found.push(park_case(&record, &areas, target));
        let short = one_of(&mut random, &[asked - 1, asked - RECORD, RECORD * 3, 0]);
        found.push(park_case(&record, &areas, short));
        let (mut record, mut areas) = (record, areas);
        spoil(&mut random, &mut record, &mut areas);
        found.push(park_case(&record, &areas, target));
    }
    found
}

/// Files that are read, into areas that are just long enough, longer or one short, and files that are not.
pub fn unpark_cases() -> Vec<Vec<u64>> {
    let mut random = SplitMix64::new(272);
    let mut found = Vec::new();
    for (k, (record, areas)) in runs(&mut random, 10).iter().enumerate() {
        let mut bytes = file(record, areas);
        let mut lent = marked(areas, k % 3);
        found.push(unpark_case(&bytes, &lent));
        damage(&mut random, &mut bytes);
        found.push(unpark_case(&bytes, &lent));
        bytes = file(record, areas);
        damage(&mut random, &mut bytes);
        found.push(unpark_case(&bytes, &lent));
        bytes = file(record, areas);
        lent = marked(areas, 0);
        shorten(&mut lent, k % 8);
        found.push(unpark_case(&bytes, &lent));
        bytes.truncate(bytes.len() - 1);
        found.push(unpark_case(&bytes, &lent));
    }
    found.extend([0, 1, 31, 32, 96].map(|length| unpark_case(&vec![0; length], &marked(&Areas::none(), 0))));
    found
}

impl Areas {
    /// No room at all.
    fn none() -> Areas {
        Areas {
            positions: Vec::new(),
            increments: Vec::new(),
            gains: Vec::new(),
            affinities: Vec::new(),
            indices: Vec::new(),
            offsets: Vec::new(),
            forces: Vec::new(),
            nodes: Vec::new(),
        }
    }
}

#[cfg(test)]
mod tests {
    use super::*;
    use std::collections::BTreeMap;

    /// How often each number is answered.
    fn told(cases: &[Vec<u64>], at: impl Fn(&[u64]) -> usize) -> BTreeMap<u64, usize> {
        let mut told = BTreeMap::new();
        for case in cases {
            assert_eq!(case[0], case.len() as u64);
            *told.entry(case[at(case)]).or_default() += 1;
        }
        told
    }

    #[test]
    fn sizes_and_what_is_met() {
        let (parks, unparks) = (park_cases(), unpark_cases());
        for cases in [&parks, &unparks] {
            assert!(8 * cases.concat().len() < 278_528, "{}", 8 * cases.concat().len());
        }
        let written = told(&parks, |case| 24 + case[15..21].iter().sum::<u64>() as usize);
        for number in [0, 12, 15, 17] {
            assert!(written.get(&number) > Some(&4), "{written:?}");
        }
        for number in 21..=25 {
            assert!(written.get(&number) > Some(&0), "{written:?}");
        }
        assert_eq!(written.get(&13), None);
        let read = told(&unparks, |case| 10 + (case[1] as usize + 7) / 8);
        for number in [0, 12, 16] {
            assert!(read.get(&number) > Some(&20), "{read:?}");
        }
    }

    #[test]
    fn every_record_of_a_head_is_refused() {
        let mut places = [0; 4];
        for case in unpark_cases() {
            let at = 10 + (case[1] as usize + 7) / 8;
            if case[at] == 16 {
                places[(case[at + 1] as usize).min(3)] += 1;
            }
        }
        assert!(places.iter().all(|&count| count > 3), "{places:?}");
    }
}
