//! The list of strips: ended runs whose frames are handed out along one line, and runs whose frames are not. Every value is listed
//! by its bits.
//!
//! A case is, in words:
//!
//! | words | hold |
//! |---|---|
//! | 1 | the number of words of the case, this one included |
//! | 14 | the record |
//! | 8 | how long the areas are: positions, increments, gains, affinities, indices, offsets, forces, nodes |
//! | 2 | how long the order is, and how long the gaps are |
//! | as many | positions, increments, gains, affinities, indices, offsets |
//! | 2 | the answer: number, and the frames or what comes with the number |
//! | as many | the whole order afterwards, then all gaps afterwards |
//!
//! Forces may hold anything, every node is zeros, and before the call order and gaps are marks: place i of the order holds the number
//! 40000000 + i, of the gaps the bits 4000000000000000 + i, in hex. No area is longer than 48 elements, the forces 96, the nodes 4.

use super::descent::{marked_numbers, marks};
use super::park::{below, between, contents, counted, done, lengths, one_of, shorten, words_of};
use crate::descent::{Areas, Method, Record, Settings, Standing};
use crate::scatter::SplitMix64;
use crate::strip::{hand_out, WIDEST};
use crate::take_out::take_out;
use crate::tree::Node;

/// 2^100, the largest magnitude of a position, and the next number above it.
pub const LARGEST: f64 = 1_267_650_600_228_229_401_496_703_205_376.0;
pub const BEYOND: f64 = LARGEST * (1.0 + f64::EPSILON);
/// The angle next above the widest.
pub const WIDER: f64 = WIDEST * (1.0 + f64::EPSILON);
/// The smallest value above zero.
const LEAST: f64 = 5e-324;

/// Positions that are barred: NaNs of several payloads and both signs, infinite, just too large.
pub fn barred() -> [f64; 7] {
    let [quiet, signalling, negative] = [0x7ff8_0000_0000_0000, 0x7ff0_0000_0000_0001, u64::MAX].map(f64::from_bits);
    [
        quiet,
        signalling,
        negative,
        f64::INFINITY,
        f64::NEG_INFINITY,
        BEYOND,
        -BEYOND,
    ]
}

/// What is lent for handing out.
#[derive(Clone, Debug)]
struct Strip {
    record: Record,
    areas: Areas,
    /// How long the order is, and how long the gaps are.
    order: usize,
    gaps: usize,
}

/// Settings of n frames within the profile, of a run that may stand so.
fn settings(random: &mut SplitMix64, n: usize, standing: Standing) -> Settings {
    let stopped = standing == Standing::Stopped;
    Settings {
        n,
        f: one_of(random, &[1, 6, 256]),
        c: 1,
        method: Method::BarnesHut,
        perplexity: 0.25,
        rate: 50.0,
        iterations: if stopped { 300 } else { 1 + below(random, 1000) },
        angle: one_of(random, &[0.0, -0.0, 0.3, WIDEST]),
        minimum: if stopped {
            1e-7
        } else {
            one_of(random, &[0.0, f64::NAN, 1e-7])
        },
    }
}

impl Strip {
    /// An ended run whose frames stand there; areas, order and gaps are just long enough.
    fn new(random: &mut SplitMix64, positions: &[f64]) -> Strip {
        let standing = one_of(random, &[Standing::Finished, Standing::Finished, Standing::Stopped]);
        let settings = settings(random, positions.len(), standing);
        Strip::of(random, settings, standing, positions)
    }

    /// A run by these settings that stands so. Increments, gains and weights may be anything.
    fn of(random: &mut SplitMix64, settings: Settings, standing: Standing, positions: &[f64]) -> Strip {
        let Settings { n, c, method, .. } = settings;
        let tree = method == Method::BarnesHut;
        let done = done(random, &settings, standing);
        let record = between(random, settings, standing, done);
        let room = if tree { settings.links() } else { 0 };
        let held = if tree { room } else { n * n };
        let mut offsets: Vec<u32> = (0..=n).map(|_| below(random, n + 1) as u32).collect();
        offsets.sort_unstable();
        offsets[0] = 0;
        let mut any = |length: usize| -> Vec<f64> {
            let value = |_| one_of(random, &[0.0, 1.0, -0.5, f64::NAN, f64::INFINITY]);
            (0..length).map(value).collect()
        };
        let (increments, gains, affinities) = (any(n * c), any(n * c), any(held));
        let areas = Areas {
            positions: positions.to_vec(),
            increments,
            gains,
            affinities,
            indices: (0..room).map(|_| below(random, n) as u32).collect(),
            offsets: if tree { offsets } else { Vec::new() },
            forces: vec![0.25; n * (2 * c + 1)],
            nodes: vec![Node::default(); usize::from(tree)],
        };
        Strip {
            record,
            areas,
            order: n,
            gaps: n,
        }
    }

    /// Everything given, what is told, and order and gaps afterwards.
    fn case(&self) -> Vec<u64> {
        let (mut order, mut gaps) = (marked_numbers(self.order), marks(self.gaps));
        let told = hand_out(&self.record, &self.areas, &mut order, &mut gaps);
        let mut words = words_of(&self.record).to_vec();
        words.extend(lengths(&self.areas));
        words.extend([self.order, self.gaps].map(|length| length as u64));
        words.extend(contents(&self.areas));
        words.extend(match told {
            Ok(frames) => [0, frames as u64],
            Err(refusal) => [refusal.number(), refusal.place()],
        });
        words.extend(order.iter().map(|&frame| u64::from(frame)));
        words.extend(gaps.iter().map(|gap| gap.to_bits()));
        counted(words)
    }
}

/// All rows of n of these values.
fn rows(n: usize, values: &[f64]) -> Vec<Vec<f64>> {
    let mut rows = vec![Vec::new()];
    for _ in 0..n {
        rows = rows
            .iter()
            .flat_map(|row: &Vec<f64>| values.iter().map(move |&v| [&row[..], &[v]].concat()))
            .collect();
    }
    rows
}

/// Every row of two, three and four frames at a few places; two frames of which one or both are barred.
fn every_row(random: &mut SplitMix64) -> Vec<Strip> {
    let two = [-LARGEST, -1.5, -LEAST, -0.0, 0.0, LEAST, 1e-300, LARGEST];
    let mut found = rows(2, &two);
    found.extend(rows(3, &[-LARGEST, -0.0, 0.0, LEAST]));
    found.extend(rows(4, &[-0.0, 0.0, 1.0]));
    for barred in barred() {
        found.extend([vec![barred, 0.0], vec![1.0, barred], vec![barred, barred]]);
    }
    found.iter().map(|row| Strip::new(random, row)).collect()
}

/// Five to twelve frames: all in one place, zeros of both signs, rising, falling, many ties, at random; order and gaps are longer
/// by turns.
fn more_frames(random: &mut SplitMix64) -> Vec<Strip> {
    let mut found = Vec::new();
    for n in 5..=12 {
        for kind in 0..6 {
            let place = |i: usize, random: &mut SplitMix64| match kind {
                0 => one_of(random, &[LARGEST]),
                1 => one_of(random, &[0.0, -0.0]),
                2 => i as f64 * LEAST,
                3 => -(i as f64),
                4 => one_of(random, &[-1.0, -0.0, 0.0, 2.5, LARGEST, -LARGEST]),
                _ => random.unit() - 0.5,
            };
            let positions: Vec<f64> = (0..n).map(|i| place(i, random)).collect();
            let mut strip = Strip::new(random, &positions);
            strip.order += kind % 3;
            strip.gaps += (kind + n) % 4;
            found.push(strip);
        }
    }
    found
}

/// Each setting of the profile from both sides; settings that are bad, or whose areas are too short, before it.
fn settings_at_bounds(random: &mut SplitMix64) -> Vec<Strip> {
    let mut found = Vec::new();
    let good = Strip::new(random, &[1.0, -1.0, 0.0]);
    for angle in [0.0, -0.0, 0.25, WIDEST, WIDER, 0.99, 1.0, -LEAST, f64::NAN] {
        let mut other = good.clone();
        other.record.settings.angle = angle;
        found.push(other);
    }
    // More components, or every pair of frames, with areas that are long enough; by the exact method no angle counts.
    for (method, c) in [
        (Method::BarnesHut, 2),
        (Method::BarnesHut, 3),
        (Method::Exact, 1),
        (Method::Exact, 2),
        (Method::Exact, 8),
    ] {
        for (standing, bad) in [(Standing::Finished, 0.0), (Standing::Running, f64::NAN)] {
            let inside = settings(random, 3, standing);
            let outside = Settings { method, c, ..inside };
            let mut other = Strip::of(random, outside, standing, &vec![bad; 3 * c]);
            other.order -= usize::from(bad.is_nan());
            found.push(other);
        }
    }
    for n in [1, 2, 4, 1024, 1025, 4096, 4097] {
        let mut other = good.clone();
        other.record.settings.n = n;
        other.record.units = other.record.done * other.record.settings.iteration();
        found.push(other);
    }
    found
}

/// Areas one short and longer, with values behind the frames that would be barred; orders and gaps of every length up to n + 2.
fn lengths_around(random: &mut SplitMix64) -> Vec<Strip> {
    let mut found = Vec::new();
    for n in [2, 5] {
        let positions: Vec<f64> = (0..n).map(|i| f64::from(i % 2)).collect();
        let good = Strip::new(random, &positions);
        for which in 0..8 {
            let mut short = good.clone();
            shorten(&mut short.areas, which);
            found.push(short);
        }
        for length in 0..positions.len() + 3 {
            for (order, gaps) in [(length, good.gaps), (good.order, length), (length, length + 1)] {
                found.push(Strip {
                    order,
                    gaps,
                    ..good.clone()
                });
            }
        }
        let mut longer = good;
        longer.areas.positions.extend(barred());
        longer.areas.increments.push(f64::NAN);
        longer.areas.offsets.push(u32::MAX);
        longer.areas.indices.push(u32::MAX);
        found.push(longer);
    }
    found
}

/// Runs that frames were taken out of once they had ended.
fn thinned(random: &mut SplitMix64) -> Vec<Strip> {
    let mut found = Vec::new();
    for gone in [&[][..], &[0], &[4], &[1, 3], &[0, 1, 2]] {
        let mut strip = Strip::new(random, &[0.5, -2.0, -0.0, 0.5, 3.0]);
        let mut table = vec![1.0; 5 * strip.record.settings.f];
        let left = take_out(&mut strip.record, &mut strip.areas, &mut table, gone, &mut [0; 5]);
        assert_eq!(left, Ok(5 - gone.len()), "frames that can be taken out");
        found.push(strip.clone());
        strip.order = 5 - gone.len();
        found.push(strip);
    }
    found
}

/// Runs that have not ended: with nothing done, with some iterations done, and inside one with a good tree.
fn not_ended(random: &mut SplitMix64) -> Vec<Strip> {
    let mut found = Vec::new();
    for done in [0, 1, 250] {
        let settings = settings(random, 2, Standing::Running);
        let settings = Settings {
            iterations: 300,
            ..settings
        };
        let mut strip = Strip::of(random, settings, Standing::Running, &[0.5, -0.5]);
        strip.record.done = done;
        strip.record.units = done * settings.iteration();
        found.push(strip.clone());
        within(&mut strip.record, 1);
        found.push(strip);
    }
    found
}

/// How many faults there are.
const FAULTS: usize = 12;

/// The faults in the order of their tests: settings, counters, an area, an offset, an index, the tree, the profile, inside an
/// iteration and before one, a position, the order and the gaps.
fn spoil(strip: &mut Strip, fault: usize) {
    let Strip { record, areas, .. } = strip;
    let n = record.settings.n;
    match fault {
        0 => record.settings.perplexity = 0.0,
        1 => record.units += 1,
        2 => shorten(areas, n % 8),
        3 => areas.offsets[1] = u32::MAX,
        4 => {
            areas.offsets[1..].fill(1);
            areas.indices[0] = n as u32;
        }
        5 => within(record, 9),
        6 => record.settings.angle = WIDER,
        7 => within(record, 1),
        8 => running(record),
        9 => areas.positions[n - 1] = barred()[n % 7],
        10 => strip.order -= 1,
        _ => strip.gaps -= 1,
    }
}

/// A running run whose last iteration is to be done.
fn running(record: &mut Record) {
    if record.standing != Standing::Running {
        record.standing = Standing::Running;
        record.done = record.settings.iterations - 1;
        record.units = record.done * record.settings.iteration();
    }
}

/// A running run whose box is done, with so many nodes in use; there is one.
fn within(record: &mut Record, used: usize) {
    running(record);
    if record.phase == 0 {
        record.phase = 1;
        record.units += 1;
    }
    record.used = used;
}

/// Each fault alone, and every two at once.
fn faults(random: &mut SplitMix64) -> Vec<Strip> {
    let mut found = Vec::new();
    for first in 0..FAULTS {
        for second in first..FAULTS {
            let n = 2 + (first + second) % 2;
            let mut strip = Strip::new(random, &vec![1.0; n]);
            // What sets the record to an iteration comes before what alters its counters.
            if second > first {
                spoil(&mut strip, second);
            }
            spoil(&mut strip, first);
            found.push(strip);
        }
    }
    found
}

/// Runs that are handed out, and runs that are not.
pub fn cases() -> Vec<Vec<u64>> {
    let mut random = SplitMix64::new(309);
    let random = &mut random;
    let all = [
        every_row(random),
        more_frames(random),
        settings_at_bounds(random),
        lengths_around(random),
        thinned(random),
        not_ended(random),
        faults(random),
    ];
    all.concat().iter().map(Strip::case).collect()
}

#[cfg(test)]
mod tests {
    use super::*;
    use std::collections::BTreeMap;

    /// Where the answer stands.
    fn answer(case: &[u64]) -> usize {
        25 + case[15..21].iter().sum::<u64>() as usize
    }

    #[test]
    fn sizes_and_what_is_met() {
        let cases = cases();
        assert!(8 * cases.concat().len() < 278_528, "{}", 8 * cases.concat().len());
        let mut told: BTreeMap<u64, usize> = BTreeMap::new();
        for case in &cases {
            assert_eq!(case[0], case.len() as u64);
            assert!(case[15..21].iter().all(|&length| length <= 48), "{case:?}");
            assert!(
                case[21] <= 96 && case[22] <= 4 && case[23] <= 48 && case[24] <= 48,
                "{case:?}"
            );
            *told.entry(case[answer(case)]).or_default() += 1;
        }
        for number in [0, 12, 15, 17, 20, 21, 22, 23, 24, 25] {
            assert!(told.get(&number) > Some(&6), "{told:?}");
        }
        assert!(told[&0] > 250, "{told:?}");
    }

    #[test]
    fn the_earlier_of_two_faults_is_told() {
        let numbers = [21, 22, 12, 23, 24, 25, 20, 17, 17, 15, 12, 12];
        let mut strips = faults(&mut SplitMix64::new(5)).into_iter();
        for (first, &number) in numbers.iter().enumerate() {
            for second in first..FAULTS {
                let case = strips.next().expect("a case for every two").case();
                assert_eq!(case[answer(&case)], number, "{first} and {second}");
            }
        }
        assert!(strips.next().is_none());
    }

    #[test]
    fn zeros_of_both_signs_have_both_gaps() {
        let mut random = SplitMix64::new(5);
        let mut met = [0; 2];
        for strip in every_row(&mut random).iter().filter(|strip| strip.gaps == 2) {
            let case = strip.case();
            let gap = case[case.len() - 1];
            met[0] += usize::from(gap == 0);
            met[1] += usize::from(gap == 1 << 63);
        }
        // +0.0 after +0.0 or −0.0, and equal places; −0.0 only where −0.0 comes after +0.0.
        assert!(met[0] >= 9 && met[1] == 1, "{met:?}");
    }
}
