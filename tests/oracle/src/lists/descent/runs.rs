//! Runs that go well, or are refused by 14 or 15 and go on.

use super::{roomy, tight, Alteration, Call, Case, Start, NODES, POSITIONS, RATE};
use crate::descent::{Answer, Method, Settings};
use crate::scatter::SplitMix64;
use crate::tree::DEEPEST;

/// Every case of the list.
pub fn cases() -> Vec<Vec<u64>> {
    let mut random = SplitMix64::new(111);
    let mut found = Vec::new();
    found.extend(parted(&mut random));
    found.extend(unit_by_unit(&mut random));
    found.extend(long(&mut random));
    found.extend(many_frames(&mut random));
    found.extend(short_arenas(&mut random));
    found.extend(large_steps(&mut random));
    found
}

/// Settings of a small run.
pub(super) fn small(method: Method, n: usize, c: usize) -> Settings {
    Settings {
        n,
        f: 1 + n % 3,
        c,
        method,
        perplexity: if n == 2 { 1.0 } else { 1.5 },
        rate: 20.0,
        iterations: 3,
        angle: 0.5,
        minimum: 1e-7,
    }
}

/// A table and a start for the settings, by chance.
pub(super) fn start(random: &mut SplitMix64, settings: Settings, nodes: usize) -> Start {
    let table = (0..settings.n * settings.f)
        .map(|_| random.unit() * 8.0 - 4.0)
        .collect();
    let start = (0..settings.n * settings.c)
        .map(|_| random.unit() * 2.0 - 1.0)
        .collect();
    Start {
        settings,
        table,
        start,
        lengths: roomy(&settings, nodes),
    }
}

/// Every number of components by the methods that have it, in calls of random budgets, and two calls after the end.
fn parted(random: &mut SplitMix64) -> Vec<Vec<u64>> {
    let mut found = Vec::new();
    let exact = (1..=8).map(|c| (Method::Exact, c));
    let tree = (1..=3).map(|c| (Method::BarnesHut, c));
    for (method, c) in exact.chain(tree) {
        let sizes = match method {
            Method::Exact => vec![2, 3 + c],
            Method::BarnesHut => vec![2, 3, 6, 11, 17],
        };
        for n in sizes {
            let mut settings = small(method, n, c);
            settings.angle = [0.0, 0.5, 0.99, -0.0][found.len() % 4];
            settings.rate = [1.0, 20.0, 200.0][found.len() % 3];
            let mut from = start(random, settings, 300);
            if found.len() % 2 == 0 {
                from.lengths = tight(&settings, 300);
            }
            let mut case = Case::new(&from);
            let most = 2 * settings.iteration() as u64;
            while let Answer::Running(_) = case.plain((random.next() % most) as u32) {}
            case.plain(0);
            case.plain(u32::MAX);
            found.push(case.done());
        }
    }
    found
}

/// Each unit in a call of its own, with a budget of 0 between two iterations.
fn unit_by_unit(random: &mut SplitMix64) -> Vec<Vec<u64>> {
    [(Method::Exact, 2), (Method::BarnesHut, 1), (Method::BarnesHut, 3)]
        .into_iter()
        .map(|(method, c)| {
            let settings = Settings {
                iterations: 2,
                ..small(method, 4, c)
            };
            let mut case = Case::new(&start(random, settings, 200));
            loop {
                if let Answer::Finished(_) = case.plain(1) {
                    break;
                }
                if case.record().phase == 0 {
                    case.plain(0);
                }
            }
            case.done()
        })
        .collect()
}

/// Past the exaggeration: runs that stop, at the first chance or later, and runs that never do.
fn long(random: &mut SplitMix64) -> Vec<Vec<u64>> {
    let minima = [f64::INFINITY, f64::NAN, 0.0, -1.0, 1e-2, 1e300, f64::from_bits(1)];
    let mut found = Vec::new();
    for (turn, minimum) in minima.into_iter().enumerate() {
        for method in [Method::Exact, Method::BarnesHut] {
            let settings = Settings {
                iterations: [251, 254, 300][turn % 3],
                minimum,
                rate: 0.5,
                ..small(method, 2 + turn % 4, 1 + turn % 3)
            };
            let mut case = Case::new(&start(random, settings, 300));
            let iteration = settings.iteration() as u32;
            case.plain(249 * iteration);
            case.plain(iteration - 1);
            case.plain(1);
            case.plain(iteration);
            case.plain(u32::MAX);
            case.plain(3);
            found.push(case.done());
        }
    }
    found
}

/// Up to 64 frames.
fn many_frames(random: &mut SplitMix64) -> Vec<Vec<u64>> {
    let sizes = [
        (Method::BarnesHut, 64, 2),
        (Method::BarnesHut, 40, 1),
        (Method::BarnesHut, 33, 3),
        (Method::Exact, 64, 2),
        (Method::Exact, 40, 3),
    ];
    sizes
        .into_iter()
        .map(|(method, n, c)| {
            let settings = Settings {
                f: 3,
                perplexity: 5.0,
                iterations: 2,
                ..small(method, n, c)
            };
            let mut case = Case::new(&start(random, settings, 400));
            case.plain(n as u32 / 2);
            case.plain(n as u32);
            case.plain(u32::MAX);
            case.done()
        })
        .collect()
}

/// Arenas that are too short, lent longer in each call: each is refused at the first point that needs more nodes.
fn short_arenas(random: &mut SplitMix64) -> Vec<Vec<u64>> {
    let mut found = Vec::new();
    for (n, c, together) in [(2, 1, true), (7, 2, false), (6, 1, false), (5, 3, false), (4, 2, true)] {
        let mut from = start(random, small(Method::BarnesHut, n, c), 0);
        if together {
            // Two frames in one place: as many levels as there may be.
            from.start.copy_within(0..c, c);
        }
        let most = 1 + DEEPEST * (1 << c) * (n - 1);
        from.lengths = tight(&from.settings, most.min(512));
        let mut case = Case::new(&from);
        let mut nodes = 1;
        loop {
            let mut lengths = case.lengths;
            lengths[NODES] = nodes.min(lengths[NODES]);
            let call = Call {
                alteration: Alteration::Nothing,
                lengths,
                budget: 1000,
            };
            match case.call(&call) {
                Answer::Refused(14, _) if together => nodes = if nodes < 100 { 100 } else { most },
                Answer::Refused(14, _) => nodes += 1 << c,
                _ => break,
            }
            // Refused again, and not at budget 0.
            if case.calls == 1 {
                case.call(&call);
                case.call(&Call { budget: 0, ..call });
            }
        }
        found.push(case.done());
    }
    found
}

/// Steps that would give too large values, and go on with a smaller rate or with a position put right.
fn large_steps(random: &mut SplitMix64) -> Vec<Vec<u64>> {
    let mut found = Vec::new();
    for (method, c) in [
        (Method::Exact, 1),
        (Method::BarnesHut, 2),
        (Method::Exact, 8),
        (Method::BarnesHut, 1),
    ] {
        let settings = Settings {
            rate: 1e31,
            ..small(method, 5, c)
        };
        let mut case = Case::new(&start(random, settings, 300));
        case.plain(u32::MAX);
        case.plain(1);
        case.plain(0);
        case.altered(Alteration::Field(RATE, 0.5_f64.to_bits()), 1);
        // A wild position: what it gives is refused at the finish.
        for wild in [f64::NAN, f64::INFINITY, 2e30] {
            let place = random.next() as usize % (5 * c);
            case.altered(Alteration::Place(POSITIONS, place, super::listed(wild)), u32::MAX);
            case.altered(Alteration::Place(POSITIONS, place, 0.25_f64.to_bits()), 2);
        }
        case.plain(u32::MAX);
        found.push(case.done());
    }
    found
}
