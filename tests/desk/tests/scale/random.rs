//! Choices at random, each from a seed.

use oracle::scatter::SplitMix64;

/// A source of choices.
pub struct Random(SplitMix64);

impl Random {
    pub fn new(seed: u64) -> Random {
        Random(SplitMix64::new(seed))
    }

    /// For what takes its choices from the source itself.
    pub fn source(&mut self) -> &mut SplitMix64 {
        &mut self.0
    }

    pub fn word(&mut self) -> u64 {
        self.0.next()
    }

    /// From 0 to below 1.
    pub fn unit(&mut self) -> f64 {
        self.0.unit()
    }

    /// From 0 to below the bound.
    pub fn below(&mut self, bound: usize) -> usize {
        (self.word() % bound as u64) as usize
    }

    /// From the first number to the last.
    pub fn within(&mut self, first: usize, last: usize) -> usize {
        first + self.below(last - first + 1)
    }

    /// True once in so many times.
    pub fn once_in(&mut self, times: usize) -> bool {
        self.below(times) == 0
    }

    /// One of them.
    pub fn one_of<T: Copy>(&mut self, choices: &[T]) -> T {
        choices[self.below(choices.len())]
    }

    /// Between two positive numbers, small ones as often as large ones.
    pub fn between(&mut self, least: f64, most: f64) -> f64 {
        least * (most / least).powf(self.unit())
    }

    /// A value that a test is likely to stumble over.
    pub fn odd_value(&mut self) -> f64 {
        let any = f64::from_bits(self.word());
        let usual = [
            0.0,
            -0.0,
            1.0,
            -1.0,
            0.5,
            f64::NAN,
            f64::INFINITY,
            f64::NEG_INFINITY,
            f64::MIN_POSITIVE,
        ];
        let bounds = [1_048_576.0, 1_048_576.5, 2_f64.powi(100), -(2_f64.powi(101)), any];
        match self.below(2) {
            0 => self.one_of(&usual),
            _ => self.one_of(&bounds),
        }
    }

    /// A number that a test is likely to stumble over, some of them near one that is known.
    pub fn odd_number(&mut self, near: u64) -> u64 {
        let small = self.below(8) as u64;
        let any = self.word();
        let choices = [
            0,
            1,
            small,
            near.wrapping_add(1),
            near.wrapping_sub(1),
            near / 2,
            u64::from(u32::MAX),
            u64::MAX,
            any,
        ];
        self.one_of(&choices)
    }
}
