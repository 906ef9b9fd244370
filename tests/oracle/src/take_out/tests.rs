//! Tests of taking frames out.

use super::*;
use crate::descent::{prepare, work, Answer, Rows, Standing};
use crate::elementary::CALM;
use crate::lists::park::shorten;
use crate::scatter::SplitMix64;
use crate::tree::{Node, DEEPEST};

/// A run with what is lent besides.
#[derive(Clone, Debug, PartialEq)]
struct Lent {
    record: Record,
    areas: Areas,
    table: Vec<f64>,
    old: Vec<u32>,
}

impl Lent {
    /// Takes samples out; refused, nothing may have changed.
    fn take_out(&mut self, gone: &[u32]) -> Result<usize, Refusal> {
        let before = format!("{self:?}");
        let told = take_out(&mut self.record, &mut self.areas, &mut self.table, gone, &mut self.old);
        assert!(told.is_ok() || before == format!("{self:?}"), "refused, and changed");
        told
    }

    /// The number and what comes with it.
    fn refused(&self, gone: &[u32]) -> (u64, u64) {
        let told = self.clone().take_out(gone);
        told.map_or_else(|refusal| (refusal.number(), refusal.place()), |left| (0, left as u64))
    }
}

/// Four frames on a line, after 3 of 10 iterations, with tails of sevens and nines.
fn four(method: Method) -> Lent {
    let settings = Settings {
        n: 4,
        f: 2,
        c: 1,
        method,
        perplexity: 1.0,
        rate: 5.0,
        iterations: 10,
        angle: 0.5,
        minimum: 0.0,
    };
    let tree = method == Method::BarnesHut;
    let tailed = |values: &[f64], more: usize| [values, &vec![7.0; more][..]].concat();
    let matrix: Vec<f64> = (0..16).map(f64::from).collect();
    let weights: Vec<f64> = [0.5, -0.0, 0.25, 0.125, f64::INFINITY, 1.0].to_vec();
    Lent {
        record: Record {
            settings,
            standing: Standing::Running,
            done: 3,
            phase: 0,
            units: 3 * settings.iteration(),
            used: 9,
        },
        areas: Areas {
            positions: vec![1.0, 2.0, 3.0, 7.0, 7.0],
            increments: vec![0.1, 0.2, 0.3, 0.4, 7.0],
            gains: vec![1.1, 1.2, 1.3, 1.4, 7.0],
            affinities: if tree { tailed(&weights, 20) } else { tailed(&matrix, 1) },
            indices: [&[1, 3, 0, 0, 1, 2][..], &[9; 20]].concat(),
            offsets: vec![0, 2, 3, 3, 6, 9],
            forces: vec![7.0; 13],
            nodes: vec![Node::unused(7.5, 9); 2],
        },
        table: vec![10.0, 11.0, 20.0, 21.0, 30.0, 31.0, 40.0, 41.0, 7.0],
        old: vec![9; 6],
    }
}

fn bits(values: &[f64]) -> Vec<u64> {
    values.iter().map(|v| v.to_bits()).collect()
}

#[test]
fn one_frame_of_four_by_lists() {
    let mut lent = four(Method::BarnesHut);
    let before = lent.clone();
    assert_eq!(lent.take_out(&[2]), Ok(3));
    // 1, 2 and 7 around 10/3.
    let mean = 10.0 / 3.0;
    let areas = &lent.areas;
    assert_eq!(areas.positions, [1.0 - mean, 2.0 - mean, 7.0 - mean, 0.0, 7.0]);
    assert_eq!(areas.increments, [0.1, 0.2, 0.4, 0.0, 7.0]);
    assert_eq!(areas.gains, [1.1, 1.2, 1.4, 0.0, 7.0]);
    assert_eq!(
        areas.indices[..7],
        [1, 2, 0, 0, 1, 0, 9],
        "frame 3 is 2 now, its link to 2 is gone"
    );
    let weights = [0.5, -0.0, 0.25, 0.125, f64::INFINITY, 0.0, 7.0];
    assert_eq!(bits(&areas.affinities[..7]), bits(&weights));
    assert_eq!(areas.offsets, [0, 2, 3, 5, 0, 9]);
    assert_eq!(bits(&areas.forces), bits(&[&[0.0; 12][..], &[7.0]].concat()));
    assert_eq!(areas.nodes, before.areas.nodes);
    assert_eq!(lent.table, [10.0, 11.0, 20.0, 21.0, 40.0, 41.0, 0.0, 0.0, 7.0]);
    assert_eq!(lent.old, [0, 1, 3, 9, 9, 9]);
    let mut record = before.record;
    record.settings.n = 3;
    record.units = 3 * 8;
    assert_eq!(lent.record, record, "nodes in use stay");
}

#[test]
fn two_frames_of_four_by_the_matrix() {
    let mut lent = four(Method::Exact);
    let before = lent.clone();
    assert_eq!(lent.take_out(&[0, 2]), Ok(2));
    assert_eq!(lent.areas.positions, [-2.5, 2.5, 0.0, 0.0, 7.0]);
    let matrix = [&[5.0, 7.0, 13.0, 15.0][..], &[0.0; 12], &[7.0]].concat();
    assert_eq!(bits(&lent.areas.affinities), bits(&matrix));
    assert_eq!(lent.areas.indices, before.areas.indices, "an exact run has no lists");
    assert_eq!(lent.areas.offsets, before.areas.offsets);
    assert_eq!((lent.record.settings.n, lent.record.units), (2, 3 * 5));
    assert_eq!(lent.old, [1, 3, 9, 9, 9, 9]);
    assert_eq!(lent.table[..5], [20.0, 21.0, 40.0, 41.0, 0.0]);
}

#[test]
fn an_empty_list_centres() {
    for method in [Method::Exact, Method::BarnesHut] {
        let mut lent = four(method);
        let mut wanted = lent.clone();
        assert_eq!(lent.take_out(&[]), Ok(4));
        wanted.areas.positions = vec![1.0 - 3.25, 2.0 - 3.25, 3.0 - 3.25, 7.0 - 3.25, 7.0];
        wanted.areas.forces[..12].fill(0.0);
        wanted.old[..4].copy_from_slice(&[0, 1, 2, 3]);
        assert_eq!(lent, wanted);
    }
}

#[test]
fn an_ended_run_may_be_thinned() {
    for standing in [Standing::Stopped, Standing::Finished] {
        let mut lent = four(Method::BarnesHut);
        lent.record.settings.iterations = 300;
        lent.record.settings.minimum = 1e-7;
        lent.record.standing = standing;
        lent.record.done = if standing == Standing::Stopped { 251 } else { 300 };
        lent.record.units = lent.record.done * 10;
        assert_eq!(lent.take_out(&[3]), Ok(3));
        assert_eq!(
            (lent.record.standing, lent.record.units),
            (standing, lent.record.done * 8)
        );
        assert_eq!(descent_of(&mut lent, 5), lent.record.standing);
    }
}

/// So many units; how the run stands then.
fn descent_of(lent: &mut Lent, budget: u32) -> Standing {
    let answer = work(&mut lent.record, &mut lent.areas, budget);
    assert!(!matches!(answer, Answer::Refused(..)), "{answer:?}");
    lent.record.standing
}

#[test]
fn lists_that_are_bad() {
    for method in [Method::Exact, Method::BarnesHut] {
        let lent = four(method);
        for gone in [
            &[1, 1][..],
            &[1, 0],
            &[4],
            &[0, 4],
            &[3, 4],
            &[u32::MAX],
            &[0, 1, 2, 3, 3],
        ] {
            assert_eq!(lent.refused(gone), (18, 0), "{gone:?}");
        }
        for gone in [&[0, 1, 2][..], &[1, 2, 3], &[0, 1, 2, 3]] {
            assert_eq!(lent.refused(gone), (9, 0), "{gone:?}");
        }
        assert_eq!(lent.refused(&[0, 3]), (0, 2));
    }
}

#[test]
fn perplexity_and_what_is_left() {
    for method in [Method::Exact, Method::BarnesHut] {
        let mut lent = four(method);
        for (perplexity, told) in [(2.0, (10, 0)), (f64::from_bits(2.0_f64.to_bits() - 1), (0, 2))] {
            lent.record.settings.perplexity = perplexity;
            assert_eq!(lent.refused(&[0, 3]), told);
            assert_eq!(lent.refused(&[3]), (0, 3));
        }
    }
}

/// Perplexity 0.1 has two neighbours, and one where two frames are left: 4 links, 3 frames have 12.
#[test]
fn links_and_what_is_left() {
    let mut lent = four(Method::BarnesHut);
    lent.record.settings.perplexity = 0.1;
    for (links, left, told) in [(4, 2, 0), (5, 2, 18), (12, 3, 0), (13, 3, 18), (16, 4, 0)] {
        lent.areas.offsets[..5].copy_from_slice(&[0, links, links, links, links]);
        lent.areas.indices[..16].fill(1);
        let gone = [&[][..], &[3], &[2, 3]][4 - left];
        assert_eq!(lent.refused(gone).0, told, "{links} links, {left} left");
    }
}

#[test]
fn positions_and_what_is_left() {
    for method in [Method::Exact, Method::BarnesHut] {
        let mut lent = four(method);
        let mut told = |positions: [f64; 4], gone: &[u32]| {
            lent.areas.positions[..4].copy_from_slice(&positions);
            lent.refused(gone).0
        };
        let above = f64::from_bits(CALM.to_bits() + 1);
        assert_eq!(told([CALM, -CALM, 0.0, 0.0], &[]), 0);
        assert_eq!(told([CALM, -CALM, 0.0, -CALM], &[]), 15, "only after centring");
        assert_eq!(told([CALM, -CALM, 0.0, -CALM], &[3]), 0);
        assert_eq!(told([above, -above, 0.0, 0.0], &[]), 15);
        assert_eq!(told([2.0 * CALM; 4], &[]), 0, "only what is centred counts");
        for odd in [f64::NAN, f64::INFINITY, f64::MAX] {
            assert_eq!(told([1.0, odd, 2.0, 3.0], &[2]), 15);
            assert_eq!(told([1.0, odd, 2.0, 3.0], &[1]), 0, "what goes may hold anything");
        }
    }
}

#[test]
fn increments_and_gains_may_hold_anything() {
    let mut lent = four(Method::Exact);
    lent.areas.increments[0] = f64::NAN;
    lent.areas.gains[1] = f64::INFINITY;
    lent.table[0] = f64::NAN;
    assert_eq!(lent.take_out(&[3]), Ok(3));
    assert!(lent.areas.increments[0].is_nan() && lent.table[0].is_nan());
}

#[test]
fn what_is_moved_keeps_its_bits() {
    // Signalling and quiet NaNs of both signs, and −0.0 last.
    let odd = [
        0xfff0_0000_0000_0077,
        0x7ff8_0000_0000_0abc,
        0x7ff0_0000_0000_0001,
        1 << 63,
    ]
    .map(f64::from_bits);
    for method in [Method::Exact, Method::BarnesHut] {
        let mut lent = four(method);
        let areas = &mut lent.areas;
        for area in [&mut areas.increments, &mut areas.gains, &mut areas.affinities] {
            area[..4].copy_from_slice(&odd);
        }
        lent.table[4..8].copy_from_slice(&odd);
        assert_eq!(lent.take_out(&[2]), Ok(3));
        let stay = bits(&[odd[0], odd[1], odd[3]]);
        for area in [&lent.areas.increments, &lent.areas.gains] {
            assert_eq!(bits(&area[..3]), stay);
        }
        // The four links are not of frame 2; of the matrix the third column is.
        let weights = if method == Method::Exact { stay } else { bits(&odd) };
        assert_eq!(bits(&lent.areas.affinities[..weights.len()]), weights);
        assert_eq!(bits(&lent.table[4..6]), bits(&odd[2..]));
    }
}

#[test]
fn areas_that_are_too_short() {
    for method in [Method::Exact, Method::BarnesHut] {
        let tree = method == Method::BarnesHut;
        let mut lent = four(method);
        let links = if tree { lent.record.settings.links() } else { 16 };
        lent.areas.affinities.truncate(links);
        lent.areas.indices.truncate(links);
        lent.areas.offsets.truncate(5);
        lent.areas.nodes.truncate(1);
        for area in [
            &mut lent.areas.positions,
            &mut lent.areas.increments,
            &mut lent.areas.gains,
        ] {
            area.truncate(4);
        }
        lent.areas.forces.truncate(12);
        lent.table.truncate(8);
        lent.old.truncate(4);
        assert_eq!(lent.refused(&[1]), (0, 3), "just long enough");
        for which in 0..10 {
            let mut short = lent.clone();
            match which {
                8 => drop(short.table.pop()),
                9 => drop(short.old.pop()),
                _ => shorten(&mut short.areas, which),
            }
            let asked = tree || !matches!(which, 4 | 5 | 7);
            assert_eq!(short.refused(&[1]), if asked { (12, 0) } else { (0, 3) }, "{which}");
        }
    }
}

/// One fault after the other is added, from the last test to the first: each time the new one is told.
#[test]
fn the_order_of_the_tests() {
    let mut lent = four(Method::BarnesHut);
    let mut gone = vec![0, 1];
    lent.areas.positions[3] = f64::NAN;
    assert_eq!(lent.refused(&gone), (15, 0));
    lent.areas.offsets[..5].copy_from_slice(&[0, 0, 0, 0, 5]);
    lent.areas.indices[..5].fill(2);
    assert_eq!(lent.clone().take_out(&gone), Err(Refusal::Links));
    lent.record.settings.perplexity = 2.0;
    assert_eq!(lent.refused(&gone), (10, 0));
    gone.push(2);
    assert_eq!(lent.refused(&gone), (9, 0));
    gone.push(2);
    assert_eq!(lent.refused(&gone), (18, 0));
    lent.record.phase = 1;
    lent.record.units += 1;
    lent.record.used = 1;
    lent.areas.nodes[0] = Node::default();
    assert_eq!(lent.refused(&gone), (17, 0));
    lent.record.used = 3;
    assert_eq!(lent.refused(&gone), (25, 0), "the tree");
    lent.areas.indices[4] = 4;
    assert_eq!(lent.refused(&gone), (24, 4), "the index at place 4");
    lent.areas.offsets[2] = 1;
    assert_eq!(
        lent.refused(&gone),
        (23, 2),
        "the list of frame 2 ends before it begins"
    );
    lent.old.truncate(3);
    assert_eq!(lent.refused(&gone), (12, 0));
    lent.old.push(9);
    lent.table.truncate(7);
    assert_eq!(lent.refused(&gone), (12, 0));
    lent.record.units += 1;
    assert_eq!(lent.refused(&gone), (22, 0));
    lent.record.settings.rate = 0.0;
    assert_eq!(lent.refused(&gone), (21, 3));
}

/// A run of random frames after so many iterations.
fn begun(settings: Settings, seed: u64, iterations: usize) -> Lent {
    let mut random = SplitMix64::new(seed);
    let Settings { n, f, c, .. } = settings;
    let table: Vec<f64> = (0..n * f).map(|_| random.unit() * 4.0).collect();
    let start: Vec<f64> = (0..n * c).map(|_| random.coordinate()).collect();
    let mut areas = Areas {
        positions: vec![7.0; n * c + 2],
        increments: vec![7.0; n * c + 2],
        gains: vec![7.0; n * c + 2],
        affinities: vec![7.0; 2 * n * n],
        indices: vec![9; 2 * n * n],
        offsets: vec![9; n + 3],
        forces: vec![7.0; n * (2 * c + 1) + 2],
        nodes: vec![Node::unused(7.5, 9); 8 * DEEPEST * n],
    };
    let mut rows = Rows {
        values: vec![0.0; n],
        indices: vec![0; n],
    };
    let record = prepare(settings, &table, &start, &mut areas, &mut rows).expect("a good run");
    let old = vec![9; n];
    let mut lent = Lent {
        record,
        areas,
        table,
        old,
    };
    descent_of(&mut lent, (iterations * settings.iteration()) as u32);
    assert_eq!((lent.record.done, lent.record.phase), (iterations, 0));
    lent
}

/// Settings of such runs, both methods, c 1 to 3.
fn each_settings(mut one: impl FnMut(Settings, u64)) {
    for (k, method) in [Method::Exact, Method::BarnesHut].into_iter().enumerate() {
        for c in 1..=3 {
            let settings = Settings {
                n: 12,
                f: 3,
                c,
                method,
                perplexity: 1.5,
                rate: 5.0,
                iterations: 40,
                angle: 0.5,
                minimum: 0.0,
            };
            one(settings, 3 * k as u64 + c as u64);
        }
    }
}

#[test]
fn one_after_the_other_leave_what_the_union_leaves() {
    each_settings(|settings, seed| {
        let lent = begun(settings, seed, 7);
        let mut random = SplitMix64::new(seed + 20);
        for _ in 0..20 {
            let union: Vec<u32> = (0..12).filter(|_| random.next() % 3 == 0).collect();
            let (first, second): (Vec<u32>, Vec<u32>) = union.iter().partition(|_| random.next() % 2 == 0);
            let (mut twice, mut once) = (lent.clone(), lent.clone());
            assert_eq!(once.take_out(&union), Ok(12 - union.len()));
            assert_eq!(twice.take_out(&first), Ok(12 - first.len()));
            let between = twice.old[..12 - first.len()].to_vec();
            let renamed: Vec<u32> = second
                .iter()
                .map(|sample| between.binary_search(sample).expect("still there") as u32)
                .collect();
            assert_eq!(twice.take_out(&renamed), Ok(12 - union.len()));
            let left = 12 - union.len();
            let back: Vec<u32> = twice.old[..left].iter().map(|&i| between[i as usize]).collect();
            assert_eq!(back, once.old[..left], "the old places one through the other");
            for (a, b) in twice.areas.positions.iter().zip(&once.areas.positions) {
                assert!((a - b).abs() < 1e-9, "centred twice and once");
            }
            twice.areas.positions = once.areas.positions.clone();
            twice.old = once.old.clone();
            assert_eq!(twice, once);
        }
    });
}

#[test]
fn a_thinned_run_goes_on_to_its_end() {
    each_settings(|settings, seed| {
        for gone in [
            &[][..],
            &[0],
            &[11],
            &[0, 2, 4, 6, 8, 10],
            &[2, 3, 4, 5, 6, 7, 8, 9, 10, 11],
        ] {
            let mut lent = begun(settings, seed, 7);
            assert_eq!(lent.take_out(gone), Ok(12 - gone.len()));
            assert_eq!(crate::descent::fault(&lent.record, &lent.areas), None);
            // Calls of any budget leave what one call leaves.
            let mut whole = lent.clone();
            while descent_of(&mut lent, 5) == Standing::Running {}
            assert_eq!(descent_of(&mut whole, u32::MAX), Standing::Finished);
            assert_eq!(lent, whole);
            assert_eq!(lent.record.units, 40 * lent.record.settings.iteration());
        }
    });
}
