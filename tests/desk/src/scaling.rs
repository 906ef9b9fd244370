//! What every feature is multiplied by before the library sees it.

use crate::Frame;

/// The largest magnitude that a feature may have.
const LARGEST: f64 = 1_048_576.0;

/// How a run's features are multiplied.
#[derive(Clone, Copy, Debug, PartialEq)]
pub enum Scaling {
    /// By this factor.
    By(f64),
    /// By the power of two that brings the median of the frames' nearest squared distances nearest to 1.
    Auto,
}

impl Scaling {
    /// As on the command line: a finite number above 0, or `auto`.
    pub fn read(text: &str) -> Option<Scaling> {
        match text {
            "auto" => Some(Scaling::Auto),
            _ => text.parse().ok().filter(is_factor).map(Scaling::By),
        }
    }

    /// The factor for these frames.
    pub fn factor(self, frames: &[Frame]) -> f64 {
        match self {
            Scaling::By(factor) => factor,
            Scaling::Auto => median_nearest(frames).map_or(1.0, |median| power_of_two(median, largest(frames))),
        }
    }
}

fn is_factor(factor: &f64) -> bool {
    factor.is_finite() && *factor > 0.0
}

/// The factor as it is asked for.
pub(crate) fn number(factor: f64) -> String {
    format!("{factor:?}").trim_end_matches(".0").to_string()
}

/// The factor in words.
pub fn told(factor: f64) -> String {
    format!("times {}", number(factor))
}

/// The median of the squared distances from each frame to the nearest one at another place, the lower of the two in the middle.
/// Frames that have none are left out; nothing where all stand at one place.
fn median_nearest(frames: &[Frame]) -> Option<f64> {
    let nearest = |frame: &Frame| {
        let elsewhere = frames.iter().map(|other| squared_distance(frame, other));
        elsewhere.filter(|&squared| squared > 0.0).min_by(f64::total_cmp)
    };
    let mut all: Vec<f64> = frames.iter().filter_map(nearest).collect();
    all.sort_by(f64::total_cmp);
    all.get(all.len().saturating_sub(1) / 2).copied()
}

fn squared_distance(one: &Frame, other: &Frame) -> f64 {
    let differences = one.features.iter().zip(&other.features).map(|(a, b)| a - b);
    differences.map(|difference| difference * difference).sum()
}

fn largest(frames: &[Frame]) -> f64 {
    let features = frames.iter().flat_map(|frame| frame.features);
    features.map(f64::abs).fold(0.0, f64::max)
}

/// The power of two whose square brings a median nearest to 1, by its logarithm: from 1/2 on and below 2, so that of two that are
/// as near it is the smaller one. It takes no feature past what one may be.
fn power_of_two(median: f64, largest: f64) -> f64 {
    let (mut median, mut factor) = (median, 1.0);
    while median >= 2.0 {
        median /= 4.0;
        factor /= 2.0;
    }
    while median < 0.5 && 2.0 * factor * largest <= LARGEST {
        median *= 4.0;
        factor *= 2.0;
    }
    factor
}

#[cfg(test)]
pub(crate) mod tests {
    use super::*;

    /// Frames whose first features are these, and whose others are zero.
    pub(crate) fn frames(first: &[f64]) -> Vec<Frame> {
        let frame = |(picture, &first): (u32, &f64)| Frame {
            picture,
            side: 1,
            field: 0,
            features: [first, 0.0, 0.0, 0.0, 0.0, 0.0],
            starts: [0.0; 2],
        };
        (1..).zip(first).map(frame).collect()
    }

    fn auto(first: &[f64]) -> f64 {
        Scaling::Auto.factor(&frames(first))
    }

    #[test]
    fn what_a_factor_is() {
        for (text, scaling) in [
            ("auto", Scaling::Auto),
            ("1", Scaling::By(1.0)),
            ("0.3", Scaling::By(0.3)),
            ("1e-3", Scaling::By(0.001)),
            ("5e-324", Scaling::By(5e-324)),
            ("1e308", Scaling::By(1e308)),
        ] {
            assert_eq!(Scaling::read(text), Some(scaling), "{text}");
        }
        for text in [
            "",
            "0",
            "-0",
            "-1",
            "nan",
            "inf",
            "-inf",
            "1e309",
            "1e-400",
            "Auto",
            "automatic",
            "1/4",
            " 1",
            "0,5",
        ] {
            assert_eq!(Scaling::read(text), None, "{text}");
        }
    }

    #[test]
    fn what_is_told() {
        for (factor, words) in [
            (1.0, "times 1"),
            (10.0, "times 10"),
            (0.25, "times 0.25"),
            (0.3, "times 0.3"),
            (0.0009765625, "times 0.0009765625"),
            (2.0f64.powi(-25), "times 2.9802322387695313e-8"),
            (1e20, "times 1e20"),
        ] {
            assert_eq!(told(factor), words);
        }
    }

    #[test]
    fn the_power_of_two_nearest_to_1() {
        for (median, factor) in [
            (1.0, 1.0),
            (1.999, 1.0),
            (0.5, 1.0),
            (0.4999, 2.0),
            (0.125, 2.0),
            (0.12, 4.0),
            // Halved it would be 1/2 and else 2: as near, so the smaller factor.
            (2.0, 0.5),
            (7.999, 0.5),
            (8.0, 0.25),
            (300.0, 0.0625),
        ] {
            assert_eq!(power_of_two(median, 1.0), factor, "{median}");
        }
        // Over all magnitudes no other power of two is nearer, and none as near is smaller.
        for exponent in -1074..=1023 {
            for more in [1.0, 1.3, 1.5, 1.9] {
                let median = more * 2.0f64.powi(exponent / 2) * 2.0f64.powi(exponent - exponent / 2);
                let chosen = power_of_two(median, 0.0).log2();
                let off = |e: f64| (2.0 * e + median.log2()).abs();
                assert!(off(chosen) <= off(chosen + 1.0), "{median}");
                assert!(off(chosen) < off(chosen - 1.0), "{median}");
            }
        }
    }

    #[test]
    fn the_median_of_the_nearest() {
        let median = |first: &[f64]| median_nearest(&frames(first));
        assert_eq!(median(&[]), None);
        assert_eq!(median(&[3.0]), None);
        assert_eq!(median(&[3.0, 3.0, 3.0]), None);
        assert_eq!(median(&[0.0, 3.0]), Some(9.0));
        // Nearest: 1, 1, 9, 16, 16.
        assert_eq!(median(&[0.0, 1.0, 4.0, 8.0, 12.0]), Some(9.0));
        // Nearest: 1, 1, 9, 16: the lower of the two in the middle.
        assert_eq!(median(&[0.0, 1.0, 4.0, 8.0]), Some(1.0));
        // A repeat is no neighbour: the nearest one at another place counts, for both.
        assert_eq!(median(&[0.0, 0.0, 5.0]), Some(25.0));
    }

    #[test]
    fn the_factor_for_frames() {
        assert_eq!(auto(&[]), 1.0);
        assert_eq!(auto(&[7.0, 7.0]), 1.0);
        assert_eq!(auto(&[0.0, 1.0]), 1.0);
        assert_eq!(auto(&[0.0, 16.0, 33.0]), 0.0625);
        assert_eq!(auto(&[-16.0, 0.0, 17.0]), 0.0625);
        assert_eq!(auto(&[0.0, 0.25]), 4.0);
        assert_eq!(auto(&[LARGEST, -LARGEST]), 2.0f64.powi(-21));
        assert_eq!(Scaling::By(0.3).factor(&frames(&[0.0, 16.0])), 0.3);
    }

    #[test]
    fn no_feature_passes_what_it_may_be() {
        assert_eq!(auto(&[LARGEST, LARGEST - 0.25]), 1.0);
        assert_eq!(auto(&[LARGEST / 2.0, LARGEST / 2.0 - 0.25]), 2.0);
        assert_eq!(auto(&[-LARGEST / 2.0 - 1.0, 0.0, 0.25]), 1.0);
        for first in [[1e-160, 3e-160], [2.5e-162, -2.5e-162], [1e-20, 1e5], [0.0, 1e-100]] {
            let factor = auto(&first);
            assert!(first.iter().all(|value| (value * factor).abs() <= LARGEST), "{first:?}");
            assert!(factor.is_finite() && factor >= 1.0 / LARGEST, "{first:?}");
        }
    }
}
