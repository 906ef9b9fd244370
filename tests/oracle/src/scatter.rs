//! The scope paper's scatter: starting positions from the public generator SplitMix64.

/// The most components that a map may have.
pub const MOST_COMPONENTS: usize = 8;
/// The most samples that a map may have.
pub const MOST_SAMPLES: usize = 4096;

/// The public generator SplitMix64. The seed is the state before the first addition.
#[derive(Clone, Debug)]
pub struct SplitMix64 {
    state: u64,
}

impl SplitMix64 {
    /// A generator that starts from `seed`.
    pub fn new(seed: u64) -> Self {
        SplitMix64 { state: seed }
    }

    /// The next 64 bits.
    #[allow(clippy::should_implement_trait)]
    pub fn next(&mut self) -> u64 {
        self.state = self.state.wrapping_add(0x9E37_79B9_7F4A_7C15);
        mix(self.state)
    }

    /// The next number in [0, 1): the top 53 bits over 2^53, which is exact.
    pub fn unit(&mut self) -> f64 {
        (self.next() >> 11) as f64 / 9_007_199_254_740_992.0
    }

    /// The next starting coordinate.
    pub fn coordinate(&mut self) -> f64 {
        (self.unit() - 0.5) * 1e-4
    }
}

/// The generator's output for a state.
pub fn mix(z: u64) -> u64 {
    let z = (z ^ (z >> 30)).wrapping_mul(0xBF58_476D_1CE4_E5B9);
    let z = (z ^ (z >> 27)).wrapping_mul(0x94D0_49BB_1331_11EB);
    z ^ (z >> 31)
}

/// Why a scatter is refused.
#[derive(Clone, Copy, Debug, PartialEq, Eq)]
pub enum Refusal {
    /// The number of components is 0 or above 8.
    Components,
    /// The number of samples is 0 or above 4096.
    Samples,
    /// The area is shorter than samples times components.
    Area,
}

impl Refusal {
    /// The paper's number for the refusal.
    pub fn number(self) -> u64 {
        match self {
            Refusal::Components => 1,
            Refusal::Samples => 7,
            Refusal::Area => 12,
        }
    }
}

/// Writes the starting positions of `n` samples with `c` components, row by row, and keeps the tail.
/// Refusing, it writes nothing.
pub fn scatter(seed: u64, n: usize, c: usize, area: &mut [f64]) -> Result<(), Refusal> {
    if c == 0 || c > MOST_COMPONENTS {
        return Err(Refusal::Components);
    }
    if n == 0 || n > MOST_SAMPLES {
        return Err(Refusal::Samples);
    }
    let positions = area.get_mut(..n * c).ok_or(Refusal::Area)?;
    let mut random = SplitMix64::new(seed);
    for place in positions {
        *place = random.coordinate();
    }
    Ok(())
}

#[cfg(test)]
mod tests {
    use super::*;

    #[test]
    fn published_outputs() {
        let mut random = SplitMix64::new(1_234_567);
        assert_eq!(random.next(), 6_457_827_717_110_365_317);
        assert_eq!(random.next(), 3_203_168_211_198_807_973);
        assert_eq!(random.next(), 9_817_491_932_198_370_423);
        assert_eq!(SplitMix64::new(0).next(), 0xE220_A839_7B1D_CDAF);
    }

    #[test]
    fn coordinates_stay_in_the_small_square() {
        let mut random = SplitMix64::new(9);
        for _ in 0..10_000 {
            let v = random.coordinate();
            assert!((-5e-5..5e-5).contains(&v));
        }
    }

    #[test]
    fn refusals_come_in_the_papers_order() {
        let mut area = [7.0; 3];
        assert_eq!(scatter(1, 0, 0, &mut area), Err(Refusal::Components));
        assert_eq!(scatter(1, 4097, 9, &mut area), Err(Refusal::Components));
        assert_eq!(scatter(1, 0, 8, &mut area), Err(Refusal::Samples));
        assert_eq!(scatter(1, 4097, 1, &mut area), Err(Refusal::Samples));
        assert_eq!(scatter(1, 2, 2, &mut area), Err(Refusal::Area));
        assert_eq!(area, [7.0; 3]);
    }

    #[test]
    fn a_longer_area_keeps_its_tail() {
        let mut area = [7.0; 5];
        assert_eq!(scatter(0, 1, 2, &mut area), Ok(()));
        let first = ((0xE220_A839_7B1D_CDAF_u64 >> 11) as f64 / 2.0_f64.powi(53) - 0.5) * 1e-4;
        assert_eq!(area[0].to_bits(), first.to_bits());
        assert_ne!(area[1], 7.0);
        assert_eq!(area[2..], [7.0; 3]);
    }
}
