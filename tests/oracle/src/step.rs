//! The step and its centring as the scope paper writes them, with refusal 15 before any change.

use crate::elementary::is_calm;

/// The answer of a refused step.
pub const REFUSED: u64 = 15;

/// What a step changes.
#[derive(Clone, Debug, PartialEq)]
pub struct Moving {
    /// Positions, frame by frame.
    pub positions: Vec<f64>,
    /// Increments, one for each position.
    pub increments: Vec<f64>,
    /// Gains, one for each position.
    pub gains: Vec<f64>,
}

impl Moving {
    /// What the step would give, refusal or not.
    fn moved(&self, c: usize, momentum: f64, rate: f64, gradient: &[f64]) -> Moving {
        let mut new = self.clone();
        for (e, &g) in gradient.iter().enumerate() {
            let old = self.increments[e];
            let changed = if g * old > 0.0 {
                self.gains[e] * 0.8
            } else {
                self.gains[e] + 0.2
            };
            let gain = if changed < 0.01 { 0.01 } else { changed };
            new.gains[e] = gain;
            new.increments[e] = momentum * old - (rate * gain) * g;
            new.positions[e] += new.increments[e];
        }
        centre(&mut new.positions, c);
        new
    }

    /// Whether every value may be kept.
    fn is_calm(&self) -> bool {
        [&self.positions, &self.increments, &self.gains]
            .iter()
            .all(|values| values.iter().all(|&v| is_calm(v)))
    }

    /// The step: 0 when done, 15 when refused, and then nothing has changed.
    pub fn step(&mut self, c: usize, momentum: f64, rate: f64, gradient: &[f64]) -> u64 {
        let new = self.moved(c, momentum, rate, gradient);
        if !new.is_calm() {
            return REFUSED;
        }
        *self = new;
        0
    }
}

/// Takes the mean of each component off: the sum by rising frame over the number of frames.
pub fn centre(positions: &mut [f64], c: usize) {
    let count = (positions.len() / c) as f64;
    for d in 0..c {
        let mut sum = 0.0;
        for position in positions.iter().skip(d).step_by(c) {
            sum += position;
        }
        let mean = sum / count;
        for position in positions.iter_mut().skip(d).step_by(c) {
            *position -= mean;
        }
    }
}

#[cfg(test)]
mod tests {
    use super::*;
    use crate::elementary::CALM;

    fn moving(positions: &[f64], increment: f64, gain: f64) -> Moving {
        Moving {
            positions: positions.to_vec(),
            increments: vec![increment; positions.len()],
            gains: vec![gain; positions.len()],
        }
    }

    #[test]
    fn gains() {
        let after = |gain, increment, gradient| {
            let mut moving = moving(&[0.0], increment, gain);
            assert_eq!(moving.step(1, 0.5, 1.0, &[gradient]), 0);
            moving.gains[0]
        };
        assert_eq!(after(0.012, 1.0, 1.0), 0.01);
        assert_eq!(after(1.0, 0.0, 1.0), 1.2);
        assert_eq!(after(1.0, -1.0, 1.0), 1.2);
        assert_eq!(after(1.0, -1.0, -1.0), 0.8);
    }

    #[test]
    fn the_last_calm_positions() {
        let mut calm = moving(&[CALM, -CALM], 0.0, 1.0);
        assert_eq!(calm.step(1, 0.5, 1.0, &[0.0, 0.0]), 0);
        assert_eq!(calm.positions, [CALM, -CALM]);
        let above = f64::from_bits(CALM.to_bits() + 1);
        let mut wild = moving(&[above, -above], 0.0, 1.0);
        let before = wild.clone();
        assert_eq!(wild.step(1, 0.5, 1.0, &[0.0, 0.0]), REFUSED);
        assert_eq!(wild, before);
    }

    #[test]
    fn centring_by_component() {
        let mut pair = moving(&[1.0, 10.0, 3.0, 30.0], 0.0, 1.0);
        assert_eq!(pair.step(2, 0.5, 1.0, &[0.0; 4]), 0);
        assert_eq!(pair.positions, [-1.0, -10.0, 1.0, 10.0]);
    }
}
