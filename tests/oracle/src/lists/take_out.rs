//! The list of frames taken out of runs: every refusal at its boundary, and every two of them at once.

use super::descent::{digest_numbers, digest_values, digests, marked_numbers, marks};
use super::gradient::listed;
use super::park::{below, between, contents, counted, done, lengths, one_of, shorten, STANDINGS};
use crate::descent::{Areas, Method, Record, Settings, Standing};
use crate::scatter::SplitMix64;
use crate::take_out::take_out;
use crate::tree::Node;

mod faults;

/// A run, and what is lent besides.
#[derive(Clone, Debug)]
struct Taking {
    record: Record,
    areas: Areas,
    table: Vec<f64>,
    gone: Vec<u32>,
    /// How many old places there are.
    old: usize,
}

/// Settings of a run that may have ended in any way.
fn settings(random: &mut SplitMix64, method: Method, n: usize, c: usize) -> Settings {
    let share = random.unit();
    Settings {
        n,
        f: 1 + below(random, 3),
        c,
        method,
        perplexity: one_of(random, &[0.1, 0.5, 0.5, share.max(1e-3) * n as f64 * 0.999]),
        rate: one_of(random, &[5.0, 200.0]),
        iterations: 251 + below(random, 100),
        angle: one_of(random, &[0.0, 0.5, -0.0]),
        minimum: one_of(random, &[1e-7, f64::INFINITY]),
    }
}

/// Mostly ordinary values, odd ones among them.
fn values(random: &mut SplitMix64, count: usize) -> Vec<f64> {
    let mut one = || {
        let ordinary = random.unit() * 20.0 - 10.0;
        let odd = one_of(random, &[0.0, -0.0, f64::NAN, f64::INFINITY, -f64::MAX, 5e-324]);
        one_of(random, &[ordinary, ordinary, ordinary, odd])
    };
    (0..count).map(|_| one()).collect()
}

/// Rising offsets, from 0 to the number of links.
fn offsets(random: &mut SplitMix64, n: usize, links: usize) -> Vec<u32> {
    let mut offsets: Vec<u32> = (0..=n).map(|_| below(random, links + 1) as u32).collect();
    offsets[0] = 0;
    offsets[n] = links as u32;
    offsets.sort_unstable();
    offsets
}

impl Taking {
    /// A run between two iterations with ordinary positions; all is just long enough, and nothing goes.
    fn new(random: &mut SplitMix64, settings: Settings, standing: Standing) -> Taking {
        let Settings { n, f, c, .. } = settings;
        let tree = settings.method == Method::BarnesHut;
        let done = done(random, &settings, standing);
        let room = if tree { settings.links() } else { 0 };
        let links = room - below(random, room / 2 + 1);
        Taking {
            record: between(random, settings, standing, done),
            areas: Areas {
                positions: (0..n * c).map(|_| random.unit() * 20.0 - 10.0).collect(),
                increments: values(random, n * c),
                gains: values(random, n * c),
                affinities: values(random, if tree { room } else { n * n }),
                indices: (0..room).map(|_| below(random, n) as u32).collect(),
                offsets: if tree { offsets(random, n, links) } else { Vec::new() },
                forces: marks(n * (2 * c + 1)),
                nodes: vec![Node::default(); usize::from(tree)],
            },
            table: values(random, n * f),
            gone: Vec::new(),
            old: n,
        }
    }

    /// So many places more in every area; an exact run has lists then, which are not looked at.
    fn lengthen(&mut self, more: usize) {
        let areas = &mut self.areas;
        for area in [
            &mut areas.positions,
            &mut areas.increments,
            &mut areas.gains,
            &mut areas.affinities,
            &mut areas.forces,
            &mut self.table,
        ] {
            let length = area.len() + more;
            area.extend_from_slice(&marks(length)[length - more..]);
        }
        for area in [&mut areas.indices, &mut areas.offsets] {
            let length = area.len() + more;
            area.extend_from_slice(&marked_numbers(length)[length - more..]);
        }
        self.old += more;
    }

    /// One element less in one of the eight areas, the table or the old places.
    fn shorten(&mut self, which: usize) {
        match which {
            8 => drop(self.table.pop()),
            9 => self.old -= 1,
            _ => shorten(&mut self.areas, which),
        }
    }

    /// Lists in which the last frame has so many links, all to itself; no other has any.
    fn link(&mut self, links: usize) {
        let n = self.record.settings.n;
        self.areas.offsets[..=n].fill(0);
        self.areas.offsets[n] = links as u32;
        self.areas.indices[..links].fill(n as u32 - 1);
    }

    /// Number and word 0, the record and the digests of nine areas afterwards.
    fn answer(&self) -> Vec<u64> {
        let mut after = self.clone();
        let mut old = marked_numbers(self.old);
        let told = take_out(
            &mut after.record,
            &mut after.areas,
            &mut after.table,
            &self.gone,
            &mut old,
        );
        let mut words = match told {
            Ok(left) => vec![0, left as u64],
            Err(refusal) => vec![refusal.number(), refusal.place()],
        };
        words.extend(after.record.words());
        words.extend(&digests(&after.areas)[..7]);
        words.extend([digest_values(&after.table), digest_numbers(&old)]);
        words
    }

    /// The record, how long each area is, what the areas hold; then the answer.
    fn case(&self) -> Vec<u64> {
        let mut words = self.record.words();
        words.extend(lengths(&self.areas));
        words.extend([self.table.len(), self.gone.len(), self.old].map(|length| length as u64));
        // The numbers among the words are too small for the bits of a NaN.
        words.extend(
            contents(&self.areas)
                .into_iter()
                .map(|word| listed(f64::from_bits(word))),
        );
        words.extend(self.table.iter().map(|&v| listed(v)));
        words.extend(self.gone.iter().map(|&sample| u64::from(sample)));
        words.extend(self.answer());
        counted(words)
    }
}

/// Which samples go, by kind.
const KINDS: usize = 9;

fn removal(random: &mut SplitMix64, kind: usize, n: usize) -> Vec<u32> {
    let (first, second) = (below(random, n), below(random, n - 1));
    let second = if second < first { second } else { second + 1 };
    let goes = |i: &usize| match kind {
        0 => false,
        1 => *i == 0,
        2 => *i == n - 1,
        3 => *i == first,
        4 => i % 2 == 0,
        5 => *i != first && *i != second,
        6 => *i != first,
        7 => true,
        _ => random.next() % 2 == 0,
    };
    (0..n).filter(goes).map(|i| i as u32).collect()
}

/// Both methods, every c and every state, some frames gone, areas just long enough and longer.
fn thinned(random: &mut SplitMix64) -> Vec<Taking> {
    let mut found = Vec::new();
    for (method, most, times) in [(Method::Exact, 8, 1), (Method::BarnesHut, 3, 2)] {
        for k in 0..3 * most * times {
            let c = 1 + k % most;
            let more = below(random, if c < 4 { 4 } else { 3 });
            let n = if k % 7 == 6 { 2 } else { 3 + more };
            let settings = settings(random, method, n, c);
            let mut taking = Taking::new(random, settings, STANDINGS[k / most % 3]);
            let kind = if n == 2 { 0 } else { one_of(random, &[1, 2, 3, 4, 5, 8]) };
            taking.gone = removal(random, kind, n);
            taking.lengthen(one_of(random, &[0, 0, 1, 2]));
            found.push(taking);
        }
    }
    found
}

/// Each kind of removal of a run of six frames by each method, with a perplexity that two frames allow.
fn kinds(random: &mut SplitMix64) -> Vec<Taking> {
    let mut found = Vec::new();
    for method in [Method::Exact, Method::BarnesHut] {
        for kind in 0..KINDS {
            let settings = Settings {
                perplexity: 0.5,
                ..settings(random, method, 6, 1 + kind % 2)
            };
            let mut taking = Taking::new(random, settings, Standing::Running);
            taking.gone = removal(random, kind, 6);
            found.push(taking);
        }
    }
    found
}

/// Every case.
pub fn cases() -> Vec<Vec<u64>> {
    let mut random = SplitMix64::new(281);
    let mut found = thinned(&mut random);
    found.extend(kinds(&mut random));
    found.extend(faults::singles(&mut random));
    found.extend(faults::pairs(&mut random).into_iter().map(|(_, taking)| taking));
    found.iter().map(Taking::case).collect()
}

#[cfg(test)]
mod tests;
