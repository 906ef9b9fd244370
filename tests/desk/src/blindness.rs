//! What the operator is told where many frames are blind: how many there are, and a factor by which there would be fewer.

use crate::blind::{blind, Sight, SightRows};
use crate::map::table;
use crate::scaling::{number, Scaling};
use crate::Frame;
use std::fmt;

/// More than one frame in so many is many.
const MANY: usize = 100;

/// How many powers of two are tried, each a sixteenth of the one before.
const POWERS: usize = 2;

/// A power of two only moves the rounds of a search: a frame that becomes blind in a later round stays so. These parts of the best factor,
/// which are no powers of two, are tried last.
const BESIDE: [f64; 2] = [0.85, 0.65];

/// Where the perplexity stands in the words of settings.
const PERPLEXITY: usize = 4;

/// A search is left where it is met within 1e-5, and no row has one below 1: what is below this is never met.
const LEAST_MET: f64 = 0.99999;

/// Many frames that are blind.
#[derive(Clone, Copy, Debug, PartialEq)]
pub struct Blindness {
    /// How many frames there are, and what is counted among them.
    pub frames: usize,
    pub sight: Sight,
    pub remedy: Remedy,
}

/// What to do about it.
#[derive(Clone, Copy, Debug, PartialEq)]
pub enum Remedy {
    /// Features multiplied by this, and how many frames would be blind then.
    Factor(f64, usize),
    /// No factor that was tried leaves fewer; a higher perplexity may.
    NoneFound,
    /// No factor was tried: all but a few of them are alone.
    NoneTried,
    /// No factor was tried: the perplexity is one that is never met.
    Perplexity,
}

impl Blindness {
    /// Of frames whose features are multiplied, by settings as words. Nothing where no more than one frame in a hundred is blind.
    pub(crate) fn of(frames: &[Frame], settings: &[u64], in_use: f64) -> Option<Blindness> {
        let n = frames.len();
        let seen = |factor: f64| {
            let table: Vec<f64> = table(frames).iter().map(|feature| feature * factor).collect();
            blind(settings, &table, &mut SightRows::new(n)).ok()
        };
        let sight = seen(in_use).filter(|sight| are_many(sight.blind, n))?;
        let remedy = if are_few(&sight, n) {
            Remedy::NoneTried
        } else if f64::from_bits(settings[PERPLEXITY]) < LEAST_MET {
            Remedy::Perplexity
        } else {
            match best((in_use, sight), powers(frames, in_use), n, seen) {
                (_, other) if other == sight => Remedy::NoneFound,
                (factor, other) => Remedy::Factor(factor, other.blind),
            }
        };
        Some(Blindness {
            frames: n,
            sight,
            remedy,
        })
    }
}

/// Whether they are more than one frame in a hundred.
fn are_many(count: usize, frames: usize) -> bool {
    MANY * count > frames
}

/// Whether those that a factor can help, which are not alone, are no more than one frame in a hundred.
fn are_few(sight: &Sight, frames: usize) -> bool {
    !are_many(sight.blind - sight.alone, frames)
}

/// The powers of two to try: the one that is chosen for these frames, where it is below the one in use, and else a quarter of that one;
/// then a sixteenth of it.
fn powers(frames: &[Frame], in_use: f64) -> impl Iterator<Item = f64> {
    let chosen = Scaling::Auto.factor(frames);
    let first = if chosen < in_use {
        chosen
    } else {
        power_below(in_use / 4.0)
    };
    std::iter::successors(Some(first), |factor| Some(factor / 16.0))
        .take(POWERS)
        .filter(|&factor| factor > 0.0)
}

/// The largest power of two that is no more than this; 0 where it is subnormal.
fn power_below(factor: f64) -> f64 {
    f64::from_bits(factor.to_bits() & 0x7ff0_0000_0000_0000)
}

/// The factors beside this one, in three digits.
fn beside(factor: f64) -> [f64; 2] {
    BESIDE.map(|part| format!("{:.2e}", part * factor).parse().unwrap_or(factor))
}

/// The first factor by which few are blind, those that are alone apart; else the one by which fewest are. First the powers are tried, then
/// the two beside the best so far, be it the one in use.
fn best(
    in_use: (f64, Sight),
    powers: impl Iterator<Item = f64>,
    frames: usize,
    seen: impl Fn(f64) -> Option<Sight>,
) -> (f64, Sight) {
    let better = |best: (f64, Sight), factor: f64| {
        if are_few(&best.1, frames) {
            return best;
        }
        let other = seen(factor).filter(|other| other.blind < best.1.blind);
        other.map_or(best, |other| (factor, other))
    };
    let best = powers.fold(in_use, better);
    beside(best.0).into_iter().fold(best, better)
}

impl fmt::Display for Blindness {
    fn fmt(&self, f: &mut fmt::Formatter<'_>) -> fmt::Result {
        let Sight { blind, alone } = self.sight;
        let [are, their] = if blind == 1 { ["is", "its"] } else { ["are", "their"] };
        write!(
            f,
            "{blind} of {} frames {are} blind: all {their} neighbours count alike",
            self.frames
        )?;
        if alone > 0 {
            let have = if alone == 1 { "has" } else { "have" };
            write!(f, " ({alone} of them only {have} neighbours at distance 0)")?;
        }
        match self.remedy {
            Remedy::Factor(factor, 0) => write!(f, "; try --scale {}, which leaves none", number(factor)),
            Remedy::Factor(factor, blind) => write!(f, "; try --scale {}, which leaves {blind}", number(factor)),
            Remedy::NoneFound => write!(f, "; none of the factors tried helps; a higher --perplexity may"),
            Remedy::NoneTried => write!(f, "; no factor was tried, since none parts frames at the same place"),
            Remedy::Perplexity => write!(f, "; no perplexity below {LEAST_MET} is ever met, so ask for 1 or more"),
        }
    }
}

#[cfg(test)]
mod tests {
    use super::*;
    use crate::map::{settings, Wishes};
    use crate::scaling::tests::frames;

    fn of(first: &[f64], perplexity: Option<f64>, factor: f64) -> Option<Blindness> {
        let wishes = Wishes {
            perplexity,
            ..Wishes::default()
        };
        Blindness::of(&frames(first), &settings(first.len(), &wishes).words(), factor)
    }

    fn told(first: &[f64], perplexity: Option<f64>, factor: f64) -> String {
        of(first, perplexity, factor).map_or_else(String::new, |blindness| blindness.to_string())
    }

    /// So many frames along a line, at growing steps so that no two neighbours are equally near.
    fn line(count: usize, step: f64) -> Vec<f64> {
        (0..count).map(|i| (i as f64 + 0.001 * (i * i) as f64) * step).collect()
    }

    #[test]
    fn none_are_told_where_they_see() {
        assert_eq!(of(&line(40, 1.0), None, 1.0), None);
        assert_eq!(of(&line(40, 64.0), None, 1.0 / 64.0), None);
        assert_eq!(of(&[], None, 1.0), None, "7");
        assert_eq!(of(&[1.0], None, 1.0), None, "9");
        assert_eq!(of(&line(3, 1.0), Some(3.0), 1.0), None, "10");
        assert_eq!(of(&line(3, 1e9), None, 1.0), None, "8");
    }

    #[test]
    fn far_frames_are_told_with_a_factor() {
        assert_eq!(
            told(&line(40, 64.0), None, 1.0),
            "40 of 40 frames are blind: all their neighbours count alike; try --scale 0.015625, which leaves none"
        );
        let remedy = of(&line(40, 1.0), None, 64.0).map(|told| told.remedy);
        assert_eq!(remedy, Some(Remedy::Factor(1.0, 0)));
    }

    /// Two frames, and three, have a perplexity below 1 where none is asked for.
    #[test]
    fn two_and_three_frames() {
        let never = "; no perplexity below 0.99999 is ever met, so ask for 1 or more";
        assert_eq!(
            told(&[0.0, 1.0], None, 1.0),
            format!("2 of 2 frames are blind: all their neighbours count alike{never}")
        );
        assert!(told(&line(3, 1.0), None, 1.0).ends_with(never));
        assert_eq!(
            told(&[0.0, 1e5], Some(1.0), 1.0),
            "2 of 2 frames are blind: all their neighbours count alike; try --scale 7.62939453125e-6, which leaves none"
        );
        assert_eq!(
            told(&[0.0, 0.0], None, 1.0),
            "2 of 2 frames are blind: all their neighbours count alike (2 of them only have neighbours at distance 0); no factor was tried, since none parts frames at the same place"
        );
        assert_eq!(told(&[0.0, 1.0], Some(1.0), 1.0), "");
        assert_eq!(told(&[0.0, 1.0], Some(0.999995), 1.0), "");
    }

    /// One in a hundred is not many, and one in ninety-nine is.
    #[test]
    fn more_than_one_in_a_hundred() {
        for (near, many) in [(99, false), (98, true)] {
            let mut first = line(near, 1.0);
            first.push(1e5);
            let told = of(&first, None, 1.0);
            assert_eq!(told.is_some(), many, "{near} near ones");
            assert!(told.map_or(true, |told| told.sight.blind == 1));
        }
    }

    /// The factor that is chosen goes by the frame in the middle and would not help one far off; a smaller one does.
    #[test]
    fn a_frame_far_off() {
        let mut first = line(40, 0.5);
        first.push(60.0);
        assert_eq!(Scaling::Auto.factor(&frames(&first)), 2.0);
        assert_eq!(
            told(&first, None, 1.0),
            "1 of 41 frames is blind: all its neighbours count alike; try --scale 0.015625, which leaves none"
        );
        // With the factor that is chosen already.
        assert_eq!(
            told(&first, None, 2.0),
            "1 of 41 frames is blind: all its neighbours count alike; try --scale 0.03125, which leaves none"
        );
    }

    /// Frames at one place: where all the blind but a few are such, no factor is tried.
    #[test]
    fn frames_that_are_alone() {
        let untried = "; no factor was tried, since none parts frames at the same place";
        assert_eq!(
            told(&[7.0; 60], None, 1.0),
            format!("60 of 60 frames are blind: all their neighbours count alike (60 of them only have neighbours at distance 0){untried}")
        );
        let beside = |others: &[f64]| [&[7.0; 60], others].concat();
        let mut near: Vec<f64> = line(40, 1.0).iter().map(|value| value + 500.0).collect();
        assert_eq!(
            told(&beside(&near), Some(10.0), 1.0),
            format!("60 of 100 frames are blind: all their neighbours count alike (60 of them only have neighbours at distance 0){untried}")
        );
        near[39] = 9000.0;
        assert_eq!(
            told(&beside(&near), Some(10.0), 1.0),
            format!("61 of 100 frames are blind: all their neighbours count alike (60 of them only have neighbours at distance 0){untried}")
        );
        let far: Vec<f64> = line(40, 64.0).iter().map(|value| value + 500.0).collect();
        assert_eq!(
            told(&beside(&far), Some(10.0), 1.0),
            "100 of 100 frames are blind: all their neighbours count alike (60 of them only have neighbours at distance 0); try --scale 0.001953125, which leaves 60"
        );
    }

    /// Distances that round away: no two frames are the same, and yet most are alone.
    #[test]
    fn distances_that_come_out_as_0() {
        let first: Vec<f64> = (0..60).map(|i| 1e6 + 1e-5 * f64::from(i)).collect();
        let Some(Blindness { sight, remedy, .. }) = of(&first, None, 1.0) else {
            panic!("blind frames");
        };
        assert!(sight.alone > 30);
        assert_eq!(remedy == Remedy::NoneTried, sight.blind == sight.alone);
    }

    #[test]
    fn where_no_factor_helps() {
        assert_eq!(
            told(&line(40, 1.0), Some(0.5), 1.0),
            "40 of 40 frames are blind: all their neighbours count alike; no perplexity below 0.99999 is ever met, so ask for 1 or more"
        );
        // Neighbours that are equally near on both sides, where fewer than two are to count.
        let even: Vec<f64> = (0..40).map(f64::from).collect();
        assert_eq!(
            told(&even, Some(1.5), 1.0),
            "38 of 40 frames are blind: all their neighbours count alike; none of the factors tried helps; a higher --perplexity may"
        );
    }

    /// Squared distances of 30 and 34, perplexity 1.38: a sigma of 0.95 would do, and is stepped over by halving from 1, 2 or 4. So that
    /// frame is blind by every power of two, and by 0.53 it is not.
    #[test]
    fn a_factor_that_is_no_power_of_two() {
        let first = [0.0, 30.0f64.sqrt(), -(34.0f64.sqrt())];
        let is_told = |factor: f64| of(&first, Some(1.38), factor).map(|told| told.sight.blind);
        for power in [1.0, 0.5, 0.25, 0.0625, 0.0009765625] {
            assert_eq!(is_told(power), Some(1), "{power}");
        }
        assert_eq!(is_told(0.53), None);
        // Nearer to each other, so that a factor tried does.
        assert_eq!(
            told(&first.map(|value| 0.83 * value), Some(1.38), 1.0),
            "1 of 3 frames is blind: all its neighbours count alike; try --scale 0.65, which leaves none"
        );
    }

    #[test]
    fn the_factors_to_try() {
        let of = |first: &[f64], in_use: f64| powers(&frames(first), in_use).collect::<Vec<f64>>();
        assert_eq!(of(&[0.0, 16.0], 1.0), [0.0625, 0.00390625]);
        assert_eq!(of(&[0.0, 1.0], 1.0), [0.25, 0.015625]);
        assert_eq!(of(&[0.0, 0.25], 0.3), [0.0625, 0.00390625]);
        assert_eq!(of(&[0.0, 0.25], 5e-324), []);
        assert_eq!(power_below(0.75), 0.5);
        assert_eq!(power_below(8.0), 8.0);
        assert_eq!(beside(1.0), [0.85, 0.65]);
        assert_eq!(beside(0.25), [0.212, 0.163]);
        assert_eq!(beside(0.0009765625), [0.00083, 0.000635]);
        assert_eq!(beside(1e-310), [8.5e-311, 6.5e-311]);
    }

    /// The first power by which few are blind, else the factor by which fewest are; where that is still many, the one beside it is tried.
    #[test]
    fn the_best_of_several() {
        let sight = |blind: usize| Sight { blind, alone: 0 };
        let tried = |counts: &[(f64, usize)]| {
            let seen = |factor: f64| {
                let found = counts.iter().find(|&&(other, _)| other == factor);
                Some(sight(found.expect("a factor that is tried").1))
            };
            best((1.0, sight(300)), [0.5, 0.125].into_iter(), 1000, seen).0
        };
        assert_eq!(tried(&[(0.5, 10)]), 0.5);
        assert_eq!(tried(&[(0.5, 11), (0.125, 10)]), 0.125);
        assert_eq!(tried(&[(0.5, 200), (0.125, 250), (0.425, 200), (0.325, 201)]), 0.5);
        assert_eq!(tried(&[(0.5, 200), (0.125, 250), (0.425, 199), (0.325, 199)]), 0.425);
        assert_eq!(tried(&[(0.5, 200), (0.125, 250), (0.425, 10)]), 0.425);
        assert_eq!(tried(&[(0.5, 300), (0.125, 300), (0.85, 299), (0.65, 298)]), 0.65);
        assert_eq!(tried(&[(0.5, 300), (0.125, 300), (0.85, 300), (0.65, 301)]), 1.0);
    }
}
