//! Preparations that are refused by 1 to 12, and work calls that are refused by 21, 22, 12, 23, 24 or 25 at their entry.

use super::runs::{small, start};
use super::*;
use crate::scatter::SplitMix64;

/// Every case of the list.
pub fn cases() -> Vec<Vec<u64>> {
    let mut random = SplitMix64::new(121);
    let mut found = Vec::new();
    found.extend(refused_settings(&mut random));
    found.extend(refused_contents(&mut random));
    found.extend(refused_areas(&mut random));
    found.extend(bad_records(&mut random));
    found.extend(short_areas(&mut random));
    found.extend(bad_lists(&mut random));
    found.extend(bad_trees(&mut random));
    found
}

/// 1 to 7, 9 and 10, and what lies just inside.
fn refused_settings(random: &mut SplitMix64) -> Vec<Vec<u64>> {
    let changes: [fn(&mut Settings); 28] = [
        |s| s.c = 0,
        |s| s.c = 9,
        |s| (s.c, s.perplexity) = (9, f64::NAN),
        |s| s.perplexity = f64::NAN,
        |s| s.perplexity = 0.0,
        |s| s.perplexity = f64::INFINITY,
        |s| (s.perplexity, s.rate) = (-1.0, 0.0),
        |s| s.rate = f64::NAN,
        |s| s.rate = -0.0,
        |s| (s.rate, s.iterations) = (f64::INFINITY, 0),
        |s| s.iterations = 0,
        |s| (s.iterations, s.angle) = (65_536, 2.0),
        |s| s.iterations = 65_535,
        |s| s.angle = 1.0,
        |s| s.angle = f64::NAN,
        |s| (s.angle, s.c) = (-1e-300, 4),
        |s| s.angle = -0.0,
        |s| (s.method, s.angle) = (Method::Exact, f64::NAN),
        |s| s.c = 4,
        |s| (s.c, s.n) = (8, 0),
        |s| s.n = 0,
        |s| s.n = 4097,
        |s| s.f = 0,
        |s| s.f = 257,
        |s| s.f = 3,
        |s| s.perplexity = 3.0,
        |s| s.perplexity = f64::from_bits(3.0_f64.to_bits() - 1),
        |s| (s.perplexity, s.minimum) = (f64::from_bits(1), f64::NEG_INFINITY),
    ];
    changes
        .iter()
        .map(|change| {
            let mut from = start(random, small(Method::BarnesHut, 3, 2), 40);
            // so that the longest lists fit too
            from.lengths[AFFINITIES] = 14;
            from.lengths[INDICES] = 13;
            change(&mut from.settings);
            let mut case = Case::new(&from);
            if case.record.is_some() {
                case.plain(3);
            }
            case.done()
        })
        .collect()
}

/// 7 by the table's length, 8, 9 and 11.
fn refused_contents(random: &mut SplitMix64) -> Vec<Vec<u64>> {
    let above = f64::from_bits(1_048_576.0_f64.to_bits() + 1);
    let changes: [fn(&mut Start, f64); 12] = [
        |from, _| from.table.truncate(2),
        |from, _| from.table.push(1.0),
        |from, wild| from.table[1] = wild,
        |from, _| from.table[0] = f64::NAN,
        |from, wild| (from.table[2], from.start[0]) = (-wild, wild),
        |from, _| {
            from.settings.n = 1;
            from.table.truncate(1);
            from.start.truncate(2);
        },
        |from, _| {
            from.settings.n = 1;
            from.table = vec![f64::INFINITY];
        },
        |from, _| from.start.truncate(5),
        |from, _| from.start.push(0.0),
        |from, wild| from.start[3] = wild,
        |from, _| from.start[5] = f64::NEG_INFINITY,
        |from, _| (from.start[4], from.table[0]) = (-1_048_576.0, 1_048_576.0),
    ];
    changes
        .iter()
        .map(|change| {
            let mut from = start(random, small(Method::Exact, 3, 2), 0);
            from.settings.f = 1;
            from.table.truncate(3);
            change(&mut from, above);
            let mut case = Case::new(&from);
            if case.record.is_some() {
                case.plain(3);
            }
            case.done()
        })
        .collect()
}

/// 12 for each area that is one place short, for an arena of no node, and none for the other method's areas.
fn refused_areas(random: &mut SplitMix64) -> Vec<Vec<u64>> {
    let mut found = Vec::new();
    for method in [Method::Exact, Method::BarnesHut] {
        let mut from = start(random, small(method, 3, 1), 1);
        from.lengths = tight(&from.settings, 1);
        for area in 0..LENT + 2 {
            let length = from.lengths[area];
            if length > 0 {
                from.lengths[area] -= 1;
                found.push(Case::new(&from).done());
                from.lengths[area] = length;
            }
        }
        let mut case = Case::new(&from);
        case.plain(2);
        found.push(case.done());
    }
    found
}

/// Every field of the record, altered at the start of an iteration, inside one and at the end.
fn bad_records(random: &mut SplitMix64) -> Vec<Vec<u64>> {
    let mut found = Vec::new();
    for method in [Method::Exact, Method::BarnesHut] {
        for units in [0, 5, u32::MAX] {
            let settings = small(method, 3, 2);
            let mut case = Case::new(&start(random, settings, 60));
            case.plain(units);
            let record = *case.record();
            let one_more = |field: usize| Alteration::Field(field, record.words()[field] + 1);
            let mut alterations = vec![
                Alteration::Field(N, 2),
                Alteration::Field(F, 0),
                Alteration::Field(C, 9),
                Alteration::Field(C, 4),
                Alteration::Field(METHOD, 1 - record.words()[METHOD]),
                Alteration::Field(PERPLEXITY, f64::NAN.to_bits()),
                Alteration::Field(PERPLEXITY, 3.0_f64.to_bits()),
                Alteration::Field(RATE, 0),
                Alteration::Field(ITERATIONS, record.done as u64),
                Alteration::Field(ITERATIONS, 70_000),
                Alteration::Field(ANGLE, 1.0_f64.to_bits()),
                Alteration::Field(MINIMUM, f64::NAN.to_bits()),
                Alteration::Field(STANDING, (record.words()[STANDING] + 1) % 3),
                Alteration::Field(STANDING, (record.words()[STANDING] + 2) % 3),
                Alteration::Field(UNITS, u64::MAX),
                Alteration::Field(DONE, u64::MAX),
                Alteration::Field(USED, 0),
                Alteration::Field(USED, 1000),
            ];
            alterations.extend([DONE, PHASE, UNITS].map(one_more));
            for alteration in alterations {
                case.there_and_back(alteration, 0);
            }
            case.plain(1);
            found.push(case.done());
        }
    }
    // Stopped at 250, at 251 and past what is set; a stopped run whose minimum is none.
    let settings = Settings {
        iterations: 252,
        minimum: f64::INFINITY,
        ..small(Method::Exact, 2, 1)
    };
    let mut case = Case::new(&start(random, settings, 0));
    case.plain(u32::MAX);
    for (field, bits) in [
        (MINIMUM, 0),
        (MINIMUM, f64::NAN.to_bits()),
        (ITERATIONS, 250),
        (ITERATIONS, 251),
        (DONE, 250),
    ] {
        case.there_and_back(Alteration::Field(field, bits), 7);
    }
    case.altered(Alteration::Field(DONE, 250), 0);
    case.altered(Alteration::Field(UNITS, 250 * settings.iteration() as u64), 0);
    case.altered(Alteration::Field(STANDING, 0), 2);
    found.push(case.done());
    found
}

/// Each area one place short, none at all, and one longer arena after another.
fn short_areas(random: &mut SplitMix64) -> Vec<Vec<u64>> {
    let mut found = Vec::new();
    for method in [Method::Exact, Method::BarnesHut] {
        let settings = small(method, 4, 2);
        let mut case = Case::new(&start(random, settings, 80));
        let least = tight(&settings, 1);
        for units in [0, 6] {
            case.plain(units);
            for (area, &length) in least[..LENT].iter().enumerate() {
                case.shortened(area, length, 0);
                if length > 0 {
                    case.shortened(area, length - 1, 1);
                }
            }
        }
        // The record comes before the areas.
        let mut lengths = case.lengths;
        lengths[GAINS] = 0;
        case.call(&Call {
            alteration: Alteration::Field(PHASE, 99),
            lengths,
            budget: 1,
        });
        found.push(case.done());
    }
    found
}

/// Offsets and indices, in order and not, at the start of an iteration and inside one.
fn bad_lists(random: &mut SplitMix64) -> Vec<Vec<u64>> {
    let settings = small(Method::BarnesHut, 4, 1);
    let mut case = Case::new(&start(random, settings, 80));
    let most = tight(&settings, 0)[INDICES] as u64;
    for units in [0, 3] {
        case.plain(units);
        let links = u64::from(case.areas.offsets[4]);
        for (place, word) in [
            (0, 1),
            (1, links + 1),
            (2, 0),
            (2, u64::from(u32::MAX)),
            (4, most),
            (4, most + 1),
            (4, u64::from(case.areas.offsets[3])),
            (4, u64::from(case.areas.offsets[3]) - 1),
            (5, 0),
        ] {
            case.there_and_back(Alteration::Place(OFFSETS, place, word), 0);
        }
        for (place, word) in [
            (0, 4),
            (0, 3),
            (links as usize - 1, 9),
            (links as usize, u64::from(u32::MAX)),
        ] {
            case.there_and_back(Alteration::Place(INDICES, place, word), 0);
        }
    }
    // The areas come before the contents.
    let mut lengths = case.lengths;
    lengths[FORCES] = 0;
    case.call(&Call {
        alteration: Alteration::Place(OFFSETS, 0, 1),
        lengths,
        budget: 1,
    });
    case.altered(Alteration::Place(OFFSETS, 0, 0), u32::MAX);
    vec![case.done()]
}

/// Nodes in use, counts, points and child blocks; outside an iteration none of them is looked at. A node's values are
/// never looked at here, each of the nine once.
fn bad_trees(random: &mut SplitMix64) -> Vec<Vec<u64>> {
    let mut found = Vec::new();
    for c in 1..=3 {
        let settings = small(Method::BarnesHut, 5, c);
        let mut case = Case::new(&start(random, settings, 120));
        for (turn, units) in [0, 4, 7].into_iter().enumerate() {
            case.plain(units);
            let used = case.record().used as u64;
            let last = (used.max(1) - 1) as usize;
            for (node, field, word) in [
                (0, COUNT, 6),
                (0, COUNT, 5),
                (0, LEAF, 6),
                (0, LEAF, 5),
                (0, FIRST, 0),
                (0, FIRST, used),
                (last, COUNT, 6),
                (last, FIRST, used - used.min(1)),
                (last, FIRST, 1),
                (last, LEAF, 7),
                (last + 1, COUNT, 77),
            ] {
                case.there_and_back(Alteration::Place(NODES, NODE_WORDS * node + field, word), 0);
            }
            for word in [0, 1, used + 1, 121] {
                case.there_and_back(Alteration::Field(USED, word), 0);
            }
            case.there_and_back(Alteration::Place(NODES, 3 * (c - 1) + turn, f64::NAN.to_bits()), 0);
        }
        case.plain(u32::MAX);
        found.push(case.done());
    }
    found
}
