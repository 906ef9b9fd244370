//! What is refused, what is just not, and every two faults at once.

use super::{settings, Taking};
use crate::descent::{Method, Settings, Standing};
use crate::elementary::CALM;
use crate::scatter::SplitMix64;

/// The frames of these runs, and the most links: a perplexity of 0.5 gives each two neighbours, and so does one of 2.
const N: usize = 3;
const LINKS: usize = 12;
const METHODS: [Method; 2] = [Method::Exact, Method::BarnesHut];

/// What makes a run be refused: the number, whether an exact run knows it too, and how it comes about.
type Fault = (u64, bool, fn(&mut Taking));

/// The faults in the order in which they are tested.
const FAULTS: [Fault; 14] = [
    (21, true, |taking| taking.record.settings.rate = 0.0),
    (22, true, |taking| taking.record.units += 1),
    (12, true, |taking| taking.shorten(6)),
    (12, true, |taking| taking.shorten(8)),
    (12, true, |taking| taking.shorten(9)),
    (23, false, |taking| taking.areas.offsets[2] = LINKS as u32 + 1),
    (24, false, |taking| taking.areas.indices[3] = N as u32),
    (25, false, |taking| inside(taking, 0)),
    (17, true, |taking| inside(taking, 1)),
    (18, true, |taking| taking.gone.push(N as u32)),
    (9, true, |taking| taking.gone = vec![0, 1]),
    (10, true, |taking| {
        taking.gone = vec![0];
        taking.record.settings.perplexity = 2.0;
    }),
    (18, false, |taking| {
        taking.gone = vec![0];
        taking.link(LINKS);
    }),
    (15, true, |taking| taking.areas.positions[N - 1] = f64::NAN),
];

/// A running run of three frames on a line, each with four links to the others.
fn plain(random: &mut SplitMix64, method: Method) -> Taking {
    let settings = Settings {
        perplexity: 0.5,
        ..settings(random, method, N, 1)
    };
    let mut taking = Taking::new(random, settings, Standing::Running);
    if method == Method::BarnesHut {
        for (place, index) in taking.areas.indices.iter_mut().enumerate() {
            *index = ((place / 4 + 1 + place % 2) % N) as u32;
        }
        taking.areas.offsets = (0..=N).map(|i| (4 * i) as u32).collect();
    }
    taking
}

/// One unit of an iteration is done, and so many nodes are in use: one that is all zeros is well formed.
fn inside(taking: &mut Taking, used: usize) {
    taking.record.phase = 1;
    taking.record.units = taking.record.done * taking.record.settings.iteration() + 1;
    taking.record.used = used;
}

/// Every fault alone, and every two at once, the later one made first: the number of the earlier one, and the run.
pub(super) fn pairs(random: &mut SplitMix64) -> Vec<(u64, Taking)> {
    let mut found = Vec::new();
    for method in METHODS {
        let known = |fault: &&Fault| fault.1 || method == Method::BarnesHut;
        let faults: Vec<&Fault> = FAULTS.iter().filter(known).collect();
        for later in 0..faults.len() {
            for earlier in 0..=later {
                let mut taking = plain(random, method);
                (faults[later].2)(&mut taking);
                if earlier < later {
                    (faults[earlier].2)(&mut taking);
                }
                found.push((faults[earlier].0, taking));
            }
        }
    }
    found
}

/// Settings and counters that no run has.
const RECORDS: [fn(&mut Taking); 16] = [
    |taking| taking.record.settings.c = 0,
    |taking| taking.record.settings.perplexity = f64::NAN,
    |taking| taking.record.settings.rate = -1.0,
    |taking| taking.record.settings.iterations = 0,
    |taking| taking.record.settings.angle = 1.0,
    |taking| taking.record.settings.c = 4,
    |taking| taking.record.settings.n = 0,
    |taking| taking.record.settings.n = 4097,
    |taking| taking.record.settings.f = 0,
    |taking| taking.record.settings.f = 257,
    |taking| taking.record.settings.n = 1,
    |taking| taking.record.settings.perplexity = N as f64,
    |taking| taking.record.phase = 1,
    |taking| taking.record.done += 1,
    |taking| taking.record.standing = Standing::Finished,
    |taking| taking.record.standing = Standing::Stopped,
];

/// Lists that do not rise or name what is not there, and those that leave too few.
const LISTS: [&[u32]; 11] = [
    &[1, 0],
    &[1, 1],
    &[0, 2, 1],
    &[N as u32],
    &[0, N as u32],
    &[u32::MAX],
    &[2, u32::MAX],
    &[0, 1, 2, 2],
    &[0, 2],
    &[0, 1, 2],
    &[2],
];

/// Offsets and indices that no run has, those just inside the rule too.
const CONTENTS: [fn(&mut Taking); 6] = [
    |taking| taking.areas.offsets[0] = 1,
    |taking| taking.areas.offsets[2] = taking.areas.offsets[1] - 1,
    |taking| taking.areas.offsets[N] = LINKS as u32 + 1,
    |taking| taking.areas.offsets[2] = taking.areas.offsets[1],
    |taking| taking.areas.indices[LINKS - 1] = N as u32,
    |taking| taking.areas.indices[LINKS - 1] = N as u32 - 1,
];

/// Links of the last frame, and what goes: as many as are allowed afterwards, and one more.
const LEFT: [(usize, &[u32]); 4] = [(4, &[0]), (5, &[1]), (5, &[2]), (12, &[])];

/// Positions, and what goes. 2^100 is the last that is allowed, and only what is centred counts.
const POSITIONS: [([f64; N], &[u32]); 13] = [
    ([CALM, -CALM, 0.0], &[]),
    ([CALM, -CALM, 1.0], &[2]),
    ([CALM, -CALM, -CALM], &[]),
    ([CALM, -CALM, -CALM], &[1]),
    ([CALM, -CALM, 0.0], &[1]),
    ([4.0 * CALM, -4.0 * CALM, 0.0], &[2]),
    ([4.0 * CALM, 4.0 * CALM, 4.0 * CALM], &[0]),
    ([f64::NAN, 1.0, 2.0], &[0]),
    ([f64::NAN, 1.0, 2.0], &[1]),
    ([1.0, f64::INFINITY, 2.0], &[1]),
    ([1.0, f64::INFINITY, 2.0], &[2]),
    ([f64::MAX, f64::MAX, f64::MAX], &[0]),
    ([-0.0, -0.0, 5e-324], &[2]),
];

/// Each rule by itself, on both sides of its boundary.
pub(super) fn singles(random: &mut SplitMix64) -> Vec<Taking> {
    let mut found = Vec::new();
    let mut add = |method: Method, spoil: &dyn Fn(&mut Taking)| {
        let mut taking = plain(random, method);
        taking.gone = vec![1];
        spoil(&mut taking);
        found.push(taking);
    };
    for method in METHODS {
        RECORDS.iter().for_each(|spoil| add(method, spoil));
        (0..10).for_each(|which| add(method, &|taking| taking.shorten(which)));
        for gone in LISTS {
            add(method, &|taking| taking.gone = gone.to_vec());
        }
        for (positions, gone) in POSITIONS {
            add(method, &|taking| {
                taking.areas.positions = positions.to_vec();
                taking.gone = gone.to_vec();
            });
        }
        for perplexity in [2.0, f64::from_bits(2.0_f64.to_bits() - 1)] {
            add(method, &|taking| {
                taking.record.settings.perplexity = perplexity;
                taking.gone = vec![2];
            });
        }
    }
    CONTENTS.iter().for_each(|spoil| add(Method::BarnesHut, spoil));
    for (links, gone) in LEFT {
        add(Method::BarnesHut, &|taking| {
            taking.link(links);
            taking.gone = gone.to_vec();
        });
    }
    found
}
