//! The sample frame file: 240 pictures of a disc that never was, in capture order.
//!
//! Film runs slower than video, so every fifth picture is the one before it once more, but for noise: a pulldown repeat.
//! The third shot is cut into the second, which goes on after it: two splices. Some pictures are stills, stored as two fields.

use crate::frames::{record, FEATURES, STARTS};
use crate::scatter::SplitMix64;

/// The first picture.
const FIRST: u32 = 1201;
/// Every so many pictures the last one is repeated.
const PULLDOWN: usize = 5;
/// Pictures that are stored as two fields.
const STILLS: [u32; 4] = [1218, 1263, 1317, 1402];
/// Shots by number, with the part of the shot that is shown, in hundredths, and its pictures.
const CUTS: [(usize, usize, usize, usize); 5] = [
    (0, 0, 100, 50),
    (1, 0, 55, 40),
    (2, 0, 100, 45),
    (1, 55, 100, 35),
    (3, 0, 100, 70),
];

/// How a shot's features go: from somewhere, by a bent way.
struct Shot {
    from: [f64; FEATURES],
    along: [f64; FEATURES],
    bend: [f64; FEATURES],
}

/// Six random features, each within the reach.
fn somewhere(random: &mut SplitMix64, reach: f64) -> [f64; FEATURES] {
    [(); FEATURES].map(|()| (random.unit() - 0.5) * 2.0 * reach)
}

impl Shot {
    fn new(random: &mut SplitMix64) -> Shot {
        Shot {
            from: somewhere(random, 8.0),
            along: somewhere(random, 5.0),
            bend: somewhere(random, 4.0),
        }
    }

    /// The features at a time from 0 to 1.
    fn at(&self, t: f64) -> [f64; FEATURES] {
        let mut features = self.from;
        for (d, feature) in features.iter_mut().enumerate() {
            *feature += self.along[d] * t + self.bend[d] * t * (1.0 - t);
        }
        features
    }
}

/// Where each picture stands in its shot, before the transfer's noise.
fn pictures(random: &mut SplitMix64) -> Vec<[f64; FEATURES]> {
    let shots = [(); 4].map(|()| Shot::new(random));
    let mut pictures: Vec<[f64; FEATURES]> = Vec::new();
    for (shot, from, to, count) in CUTS {
        for i in 0..count {
            let share = i as f64 / count as f64;
            let t = (from as f64 + (to - from) as f64 * share) / 100.0;
            match pictures.last() {
                Some(&last) if i % PULLDOWN == PULLDOWN - 1 => pictures.push(last),
                _ => pictures.push(shots[shot].at(t)),
            }
        }
    }
    pictures
}

/// The records by picture and field: a still has one for each of its fields.
fn stored(pictures: &[[f64; FEATURES]]) -> Vec<(u32, u8, [f64; FEATURES])> {
    let fields = |picture: u32| if STILLS.contains(&picture) { 1..=2 } else { 0..=0 };
    let numbered = (FIRST..).zip(pictures);
    numbered
        .flat_map(|(picture, &features)| fields(picture).map(move |field| (picture, field, features)))
        .collect()
}

/// The file.
pub fn file() -> Vec<u8> {
    let mut random = SplitMix64::new(1985);
    let pictures = pictures(&mut random);
    let mut bytes = Vec::new();
    for (picture, field, features) in stored(&pictures) {
        let noise = somewhere(&mut random, 0.01);
        let mut values = [0.0; FEATURES + STARTS];
        for d in 0..FEATURES {
            values[d] = features[d] + noise[d];
        }
        for start in &mut values[FEATURES..] {
            *start = random.coordinate();
        }
        bytes.extend(record(picture, 1, field, &values));
    }
    bytes
}

#[cfg(test)]
mod tests {
    use super::*;
    use crate::frames::{check, Checked};

    #[test]
    fn the_sample_is_good() {
        assert_eq!(check(&file()), Checked::Good(244));
    }
}
