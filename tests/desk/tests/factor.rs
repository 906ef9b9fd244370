//! Features that are multiplied before the library sees them: the map is the one of a file that has them multiplied already.

use brothanchor::map::{map, Map, Run, Wishes, RECORD};
use brothanchor::scaling::Scaling;
use brothanchor::strip::{Strip, StripRun};
use brothanchor::{Refusal, Remedy, Sight, FEATURES};
use oracle::lists::sample;

/// Where a record's features lie.
const FIRST: usize = 8;

/// The sample's first frames.
fn few(frames: usize) -> Vec<u8> {
    sample::file()[..frames * RECORD].to_vec()
}

/// The file with every feature multiplied.
fn multiplied(file: &[u8], factor: f64) -> Vec<u8> {
    let mut file = file.to_vec();
    for record in file.chunks_mut(RECORD) {
        for feature in record[FIRST..FIRST + 8 * FEATURES].chunks_mut(8) {
            let value = f64::from_le_bytes(feature.try_into().expect("eight bytes"));
            feature.copy_from_slice(&(value * factor).to_le_bytes());
        }
    }
    file
}

/// In so many iterations, with the features multiplied.
fn wishes(iterations: usize, scaling: Option<Scaling>) -> Wishes {
    Wishes {
        iterations: Some(iterations),
        scaling,
        ..Wishes::default()
    }
}

fn made(file: &[u8], iterations: usize, scaling: Option<Scaling>) -> Map {
    map(file, &wishes(iterations, scaling), |_, _| ()).expect("a good file")
}

fn bits(values: &[f64]) -> Vec<u64> {
    values.iter().map(|v| v.to_bits()).collect()
}

/// What a map says but for its frames' own features.
fn said(map: &Map) -> (String, Vec<u64>, [u64; 14], Option<u64>) {
    let divergence = map.divergence.map(f64::to_bits);
    (map.lines(), bits(&map.positions), map.record.words, divergence)
}

#[test]
fn a_map_is_that_of_the_multiplied_file() {
    for (frames, iterations) in [(24, 60), (120, 3)] {
        let file = few(frames);
        let plain = made(&file, iterations, None);
        for factor in [64.0, 0.3, 1e-200] {
            let ours = made(&file, iterations, Some(Scaling::By(factor)));
            let theirs = made(&multiplied(&file, factor), iterations, None);
            assert_eq!(said(&ours), said(&theirs), "{frames} frames times {factor}");
            assert_ne!(
                bits(&ours.positions),
                bits(&plain.positions),
                "{frames} frames times {factor}"
            );
            assert_eq!((ours.factor, theirs.factor), (factor, 1.0));
            assert_eq!(ours.frames, plain.frames, "the frames keep their own features");
        }
    }
}

#[test]
fn a_strip_is_that_of_the_multiplied_file() {
    let strip = |file: &[u8], scaling| Strip::of(file, &wishes(60, scaling), |_, _| ()).expect("a good file");
    let file = few(24);
    for factor in [64.0, 0.3] {
        let ours = strip(&file, Some(Scaling::By(factor)));
        let theirs = strip(&multiplied(&file, factor), None);
        assert_eq!(ours.lines(), theirs.lines());
        assert_eq!((ours.record, ours.factor), (theirs.record, factor));
        assert_ne!(ours.lines(), strip(&file, None).lines());
        let told = format!(" text-anchor=\"end\">features times {factor}</text>\n</svg>\n");
        assert!(ours.svg().ends_with(&told) && !theirs.svg().contains("features"));
        assert_eq!(ours.svg().lines().count(), theirs.svg().lines().count() + 1);
    }
    assert_eq!(strip(&file, Some(Scaling::By(1.0))), strip(&file, None));
}

/// A power of two that leaves neighbours near changes nothing else: every search goes through the same shares.
#[test]
fn a_power_of_two_rounds_nothing() {
    let file = few(24);
    for factor in [0.25, 2.0, 0.0009765625] {
        let ours = made(&file, 60, Some(Scaling::By(factor)));
        assert_eq!(said(&ours), said(&made(&file, 60, None)), "times {factor}");
    }
}

/// Unasked nothing is multiplied, and 1 is what nothing is: the map and its picture are the same, byte for byte.
#[test]
fn one_is_the_default() {
    let file = few(24);
    let (plain, one) = (made(&file, 60, None), made(&file, 60, Some(Scaling::By(1.0))));
    assert_eq!(plain, one);
    assert_eq!((plain.lines(), plain.svg()), (one.lines(), one.svg()));
    assert!(!plain.svg().contains("features"));
}

/// The foot of the picture says the factor, and no other line of it is another.
#[test]
fn the_picture_tells_it() {
    let file = few(24);
    let ours = made(&file, 60, Some(Scaling::By(0.25))).svg();
    let theirs = made(&multiplied(&file, 0.25), 60, None).svg();
    let told = "<text x=\"930\" y=\"974\" text-anchor=\"end\">features times 0.25</text>\n";
    assert_eq!(ours.replace(told, ""), theirs);
    assert_ne!(ours, theirs);
}

/// The factor chosen for a file, for one that is multiplied already, for two frames, and for two at one place.
#[test]
fn a_factor_that_is_chosen() {
    let file = few(24);
    let auto = made(&file, 20, Some(Scaling::Auto));
    assert_eq!(auto.factor.log2().fract(), 0.0, "a power of two");
    assert_eq!(auto, made(&file, 20, Some(Scaling::By(auto.factor))));
    for (power, factor) in [(64.0, auto.factor / 64.0), (0.125, auto.factor * 8.0)] {
        let other = made(&multiplied(&file, power), 20, Some(Scaling::Auto));
        assert_eq!(other.factor, factor);
        assert_eq!(said(&other), said(&auto), "no other rounding");
    }
    // Two frames, 13 apart in one feature: 169 times 1/256 is nearest to 1.
    let mut two = multiplied(&few(2), 0.0);
    two[FIRST..FIRST + 8].copy_from_slice(&13.0f64.to_le_bytes());
    assert_eq!(made(&two, 20, Some(Scaling::Auto)).factor, 0.0625);
    assert_eq!(made(&multiplied(&two, 0.0), 20, Some(Scaling::Auto)).factor, 1.0);
}

/// Past 2^20 a feature is refused by 8, as ever; a factor that is chosen leads to none.
#[test]
fn past_what_a_feature_may_be() {
    let file = few(24);
    let refused = |factor| Run::begin(&file, &wishes(20, Some(Scaling::By(factor)))).expect_err("too large");
    for factor in [1e30, f64::MAX] {
        assert_eq!(refused(factor), Refusal(8).into(), "{factor}");
    }
    let values: Vec<f64> = file
        .chunks(RECORD)
        .flat_map(|record| record[FIRST..FIRST + 8 * FEATURES].chunks(8))
        .map(|bytes| f64::from_le_bytes(bytes.try_into().expect("eight bytes")).abs())
        .collect();
    let largest = values.iter().copied().fold(0.0, f64::max);
    let most = 2.0f64.powi((1_048_576.0 / largest).log2().floor() as i32);
    assert!(Run::begin(&file, &wishes(20, Some(Scaling::By(most)))).is_ok());
    assert_eq!(refused(2.0 * most), Refusal(8).into());
    assert!(Run::begin(&multiplied(&file, most), &wishes(20, Some(Scaling::Auto))).is_ok());
}

/// A parked run has no features: read back it goes the same way, but it does not know the factor.
#[test]
fn a_run_that_is_read_back() {
    let file = few(24);
    let mut run = Run::begin(&file, &wishes(40, Some(Scaling::By(0.25)))).expect("a good file");
    assert_eq!(run.factor(), 0.25);
    while run.done() < 20 {
        run.iterate().expect("a good run");
    }
    let mut woken = Run::resume(&file, &run.park().expect("between two iterations")).expect("a good run");
    assert_eq!(woken.factor(), 1.0);
    woken.work(|_, _| ()).expect("a good run");
    let ours = woken.map().expect("a map");
    assert_eq!(said(&ours), said(&made(&file, 40, Some(Scaling::By(0.25)))));
}

/// The sample sees its neighbours, unasked and by the factor that is chosen. Multiplied, many of its frames are blind, and the factor that
/// is told is the one that would be chosen.
#[test]
fn frames_that_are_blind() {
    let file = sample::file();
    let frames = file.len() / RECORD;
    let told = |file: &[u8], scaling| {
        let run = Run::begin(file, &wishes(1, scaling)).expect("a good file");
        let strip = StripRun::begin(file, &wishes(1, scaling)).expect("a good file");
        assert_eq!(run.blindness(), strip.blindness());
        run.blindness()
    };
    for scaling in [None, Some(Scaling::Auto), Some(Scaling::By(0.125))] {
        assert_eq!(told(&file, scaling), None, "{scaling:?}");
    }
    for factor in [64.0, 1024.0] {
        let far = multiplied(&file, factor);
        let blindness = told(&far, None).expect("blind frames");
        assert_eq!(blindness.frames, frames);
        assert!(blindness.sight.blind > frames / 3 && blindness.sight.alone == 0);
        let chosen = Run::begin(&far, &wishes(1, Some(Scaling::Auto)))
            .expect("a good file")
            .factor();
        assert_eq!(blindness.remedy, Remedy::Factor(chosen, 0));
        assert_eq!(told(&far, Some(Scaling::By(chosen))), None);
        assert_eq!(told(&far, Some(Scaling::Auto)), None);
        // Multiplied by the command it is the same, and the factor is in the place of that one.
        let other = told(&file, Some(Scaling::By(factor))).expect("blind frames");
        assert_eq!(other.sight, blindness.sight);
        assert_eq!(other.remedy, Remedy::Factor(chosen * factor, 0));
    }
    let most = told(&multiplied(&file, 1024.0), None).expect("blind frames");
    assert_eq!(
        most.sight,
        Sight {
            blind: frames,
            alone: 0
        }
    );
}

/// A run that was read back, or that begins from a list, may have other affinities than its frames' features: nothing is told of it.
#[test]
fn runs_without_features_tell_nothing() {
    let far = multiplied(&few(24), 1024.0);
    let run = Run::begin(&far, &wishes(1, None)).expect("a good file");
    assert!(run.blindness().is_some());
    let parked = run.park().expect("before the first iteration");
    assert_eq!(Run::resume(&far, &parked).expect("a good run").blindness(), None);
    let list = run.lists().expect("a tree's lists");
    assert_eq!(
        Run::import(&far, &wishes(1, None), &list)
            .expect("a good list")
            .blindness(),
        None
    );
}
