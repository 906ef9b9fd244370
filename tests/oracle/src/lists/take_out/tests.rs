//! What the list of frames taken out reaches.

use super::faults::{pairs, singles};
use super::*;
use std::collections::BTreeMap;

/// How often each number is told.
fn told<'a>(takings: impl IntoIterator<Item = &'a Taking>) -> BTreeMap<u64, usize> {
    let mut told = BTreeMap::new();
    for taking in takings {
        *told.entry(taking.answer()[0]).or_default() += 1;
    }
    told
}

#[test]
fn sizes_and_what_is_met() {
    let cases = cases();
    assert!(cases.iter().all(|case| case[0] == case.len() as u64));
    let bytes = 8 * cases.concat().len();
    assert!(bytes < 266_240, "{bytes} bytes");
    let mut random = SplitMix64::new(1);
    for method in [Method::Exact, Method::BarnesHut] {
        let takings = [thinned(&mut random), kinds(&mut random), singles(&mut random)].concat();
        let met = told(takings.iter().filter(|taking| taking.record.settings.method == method));
        let of_the_lists: &[u64] = if method == Method::BarnesHut { &[23, 24] } else { &[] };
        for number in [0, 9, 10, 12, 15, 18, 21, 22].iter().chain(of_the_lists) {
            assert!(met.get(number) > Some(&0), "{method:?}: {met:?}");
        }
        assert!(met.get(&0) > Some(&25), "{met:?}");
    }
}

#[test]
fn every_state_and_every_number_of_components_is_thinned() {
    let good: Vec<Taking> = thinned(&mut SplitMix64::new(281))
        .into_iter()
        .filter(|taking| taking.answer()[0] == 0)
        .collect();
    let any = |wanted: &dyn Fn(&Record) -> bool| {
        good.iter()
            .any(|taking| !taking.gone.is_empty() && wanted(&taking.record))
    };
    for (method, most) in [(Method::Exact, 8), (Method::BarnesHut, 3)] {
        for c in 1..=most {
            assert!(
                any(&|record| record.settings.method == method && record.settings.c == c),
                "{method:?}, {c}"
            );
        }
        for standing in STANDINGS {
            assert!(
                any(&|record| record.settings.method == method && record.standing == standing),
                "{method:?}, {standing:?}"
            );
        }
    }
}

#[test]
fn of_two_faults_the_earlier_is_told() {
    let pairs = pairs(&mut SplitMix64::new(2));
    for (number, taking) in &pairs {
        assert_eq!(taking.answer()[0], *number, "{taking:?}");
    }
    for wanted in 21..=25 {
        assert!(pairs.iter().any(|(number, _)| *number == wanted), "{wanted}");
    }
}
