//! exp and ln as the scope paper writes them, and its small tests on numbers.
//!
//! Each arithmetic sign below is one rounded operation of IEEE 754 binary64, in the order of the paper.

/// Bits of the natural logarithm of 2, rounded: the paper's L.
pub const L: u64 = 0x3FE6_2E42_FEFA_39EF;
/// Bits of the upper part of L, short enough that a whole number of up to 11 bits times it is exact.
const HI: u64 = 0x3FE6_2E42_FEE0_0000;
/// Bits of what HI leaves of the logarithm of 2.
const LO: u64 = 0x3DEA_39EF_3579_3C76;
/// Bits of the root of 2, rounded: ln halves a mantissa above it.
pub const ROOT_OF_TWO: u64 = 0x3FF6_A09E_667F_3BCD;
/// Bits of the one NaN that exp and ln answer.
pub const NAN: u64 = 0x7FF8_0000_0000_0000;

/// The largest magnitude of a table or start value: 2^20.
pub const DOMAIN: f64 = 1_048_576.0;
/// The largest magnitude that a step may give: 2^100.
pub const CALM: f64 = 1_267_650_600_228_229_401_496_703_205_376.0;

/// Below this exp is zero.
pub const LOWEST: f64 = -745.0;
/// Below this exp is rounded into the subnormals.
pub const LOWEST_NORMAL: f64 = -708.0;
/// What is added to k there, and taken away again by the second product.
const RAISE: i64 = 64;

/// Bits of the fraction of an f64.
const FRACTION_BITS: u32 = 52;
/// The fraction's bits, all set.
const FRACTION: u64 = (1 << FRACTION_BITS) - 1;
/// What is added to an exponent to store it.
const BIAS: i64 = 1023;

/// The paper's exp, with the subnormal answers of request 2026-05.
pub fn exp(x: f64) -> f64 {
    if x.is_nan() {
        return f64::from_bits(NAN);
    }
    if x < LOWEST {
        return 0.0;
    }
    if x > 709.0 {
        return f64::INFINITY;
    }
    if x < LOWEST_NORMAL {
        return raised_exp(x) * power_of_two(-RAISE);
    }
    let (t, k) = exp_parts(x);
    t * power_of_two(k)
}

/// What exp has below -708 before the product that rounds: t·2^(k+64). It is exact.
pub fn raised_exp(x: f64) -> f64 {
    let (t, k) = exp_parts(x);
    t * power_of_two(k + RAISE)
}

/// The t and the k of exp.
fn exp_parts(x: f64) -> (f64, i64) {
    let k = exponent_of_exp(x);
    let (whole, hi, lo) = (k as f64, f64::from_bits(HI), f64::from_bits(LO));
    let r = (x - whole * hi) - whole * lo;
    (exp_series(r), k)
}

/// The k that exp uses: from -1075 to -1021 for an x from -745 to below -708, from -1021 to 1023 for one from there to 709.
pub fn exponent_of_exp(x: f64) -> i64 {
    nearest_whole(x / f64::from_bits(L))
}

/// The whole number nearest to `quotient`, halves away from zero. The fraction is exact, so no rounding enters.
fn nearest_whole(quotient: f64) -> i64 {
    let whole = quotient as i64;
    let fraction = quotient - whole as f64;
    if fraction >= 0.5 {
        whole + 1
    } else if fraction <= -0.5 {
        whole - 1
    } else {
        whole
    }
}

/// exp of a small number: t = 1, then t = 1 + (r/m)·t for m from 13 down to 1.
fn exp_series(r: f64) -> f64 {
    let mut t = 1.0;
    for m in (1..=13).rev() {
        t = 1.0 + (r / f64::from(m)) * t;
    }
    t
}

/// 2^k from its bits, for k from -1022 to 1023.
fn power_of_two(k: i64) -> f64 {
    debug_assert!((-1022..=1023).contains(&k));
    f64::from_bits(((k + BIAS) as u64) << FRACTION_BITS)
}

/// The paper's ln.
pub fn ln(v: f64) -> f64 {
    if v.is_nan() || v <= 0.0 {
        return f64::from_bits(NAN);
    }
    if v == f64::INFINITY {
        return v;
    }
    let (m, k) = below_root_of_two(mantissa_and_exponent(v));
    let (whole, hi, lo) = (k as f64, f64::from_bits(HI), f64::from_bits(LO));
    let s = (m - 1.0) / (m + 1.0);
    let t = ln_series(s * s);
    whole * hi + ((2.0 * s) * t + whole * lo)
}

/// Halves a mantissa above the root of 2 and adds 1 to its exponent; leaves the others.
fn below_root_of_two((m, k): (f64, i64)) -> (f64, i64) {
    if m > f64::from_bits(ROOT_OF_TWO) {
        (m / 2.0, k + 1)
    } else {
        (m, k)
    }
}

/// m and k with v = m·2^k and m in [1, 2), for a finite v above 0. A subnormal is normalised by its leading zeros.
fn mantissa_and_exponent(v: f64) -> (f64, i64) {
    let field = v.to_bits() >> FRACTION_BITS;
    let fraction = v.to_bits() & FRACTION;
    if field == 0 {
        let shift = fraction.leading_zeros() - (63 - FRACTION_BITS);
        (mantissa(fraction << shift), 1 - BIAS - i64::from(shift))
    } else {
        (mantissa(fraction), field as i64 - BIAS)
    }
}

/// The number in [1, 2) with the given fraction; a bit above the fraction's is dropped.
fn mantissa(fraction: u64) -> f64 {
    f64::from_bits((fraction & FRACTION) | (BIAS as u64) << FRACTION_BITS)
}

/// t = 1/21, then t = 1/d + z·t for d = 19, 17 .. 1.
fn ln_series(z: f64) -> f64 {
    let mut t = 1.0 / 21.0;
    for d in (1..=19).rev().step_by(2) {
        t = 1.0 / f64::from(d) + z * t;
    }
    t
}

/// The magnitude: `v` with its sign bit cleared.
pub fn absolute(v: f64) -> f64 {
    f64::from_bits(v.to_bits() & !(1 << 63))
}

/// The larger of `v` and a constant: the constant unless `v` is above it, so also for NaN.
pub fn at_least(v: f64, constant: f64) -> f64 {
    if v > constant {
        v
    } else {
        constant
    }
}

/// Whether `v` may stand in a table or a start: finite and at most 2^20 in magnitude.
pub fn in_domain(v: f64) -> bool {
    v.is_finite() && absolute(v) <= DOMAIN
}

/// Whether a step may give `v`: no NaN and at most 2^100 in magnitude.
pub fn is_calm(v: f64) -> bool {
    !v.is_nan() && absolute(v) <= CALM
}

/// How many neighbours a frame keeps: min(ceil(3·perplexity) + 1, n − 1), at least 1. The product is rounded first.
pub fn neighbours(perplexity: f64, n: usize) -> usize {
    let wanted = ((3.0 * perplexity).ceil() as usize).saturating_add(1);
    wanted.min(n.saturating_sub(1)).max(1)
}

#[cfg(test)]
mod tests {
    use super::*;
    use crate::differences::ulps_apart;
    use crate::scatter::SplitMix64;

    #[test]
    fn exact_cases() {
        assert_eq!(exp(0.0).to_bits(), 1.0_f64.to_bits());
        assert_eq!(exp(-0.0).to_bits(), 1.0_f64.to_bits());
        assert_eq!(exp(1.0).to_bits(), 0x4005_BF0A_8B14_576A);
        assert_eq!(exp(-10.0).to_bits(), 0x3F07_CD79_B564_7C9A);
        assert_eq!(ln(1.0).to_bits(), 0.0_f64.to_bits());
        assert_eq!(ln(2.0).to_bits(), 0x3FE6_2E42_FEFA_39EF);
        assert_eq!(ln(10.0).to_bits(), 0x4002_6BB1_BBB5_5516);
        assert_eq!(ln(f64::from_bits(1)).to_bits(), 0xC087_4385_446D_71C3);
    }

    #[test]
    fn limits_of_exp() {
        assert_eq!(exp(f64::from_bits(0xFFF0_0000_0000_0001)).to_bits(), NAN);
        assert_eq!(exp(f64::NEG_INFINITY).to_bits(), 0);
        assert_eq!(exp(-708.0).to_bits(), 0x0017_C8AB_2288_C9AC);
        assert_eq!(exp(-720.0).to_bits(), 0x0000_0009_93B4_DC95);
        assert_eq!(exp(-745.0).to_bits(), 1);
        assert_eq!(exp(-745.000_000_000_000_1).to_bits(), 0);
        assert!(exp(709.0) < f64::INFINITY);
        assert_eq!(exp(709.000_000_000_001), f64::INFINITY);
    }

    #[test]
    fn limits_of_ln() {
        for bad in [
            0.0,
            -0.0,
            -1.0,
            f64::NEG_INFINITY,
            -f64::MIN_POSITIVE,
            f64::NAN,
            -f64::NAN,
        ] {
            assert_eq!(ln(bad).to_bits(), NAN);
        }
        assert_eq!(ln(f64::INFINITY), f64::INFINITY);
    }

    #[test]
    fn a_half_goes_away_from_zero() {
        assert_eq!(nearest_whole(0.5), 1);
        assert_eq!(nearest_whole(-0.5), -1);
        assert_eq!(nearest_whole(2.5), 3);
        assert_eq!(nearest_whole(-2.5), -3);
        assert_eq!(nearest_whole(0.499_999_999_999_999_94), 0);
        assert_eq!(exponent_of_exp(f64::from_bits(L) / 2.0), 1);
        assert_eq!(exponent_of_exp(-f64::from_bits(L) / 2.0), -1);
        assert_eq!(exponent_of_exp(-745.0), -1075);
        assert_eq!(exponent_of_exp(-708.000_000_000_000_1), -1021);
        assert_eq!(exponent_of_exp(-708.0), -1021);
        assert_eq!(exponent_of_exp(709.0), 1023);
    }

    /// t·2^(k+64) has t's own digits, and is a normal number: nothing is rounded but by the last product.
    #[test]
    fn the_first_product_is_exact() {
        let mut random = SplitMix64::new(73);
        for _ in 0..400_000 {
            let x = -708.0 - 37.0 * random.unit();
            let (t, k) = exp_parts(x);
            let raised = raised_exp(x);
            assert!(raised >= f64::MIN_POSITIVE);
            assert_eq!(raised.to_bits() & FRACTION, t.to_bits() & FRACTION);
            let place = |v: f64| (v.to_bits() >> FRACTION_BITS) as i64;
            assert_eq!(place(raised), place(t) + k + RAISE);
        }
    }

    #[test]
    fn powers_of_two_are_exact() {
        for k in -1022..=1023 {
            assert_eq!(power_of_two(k), 2.0_f64.powi(k as i32));
        }
    }

    #[test]
    fn mantissas_build_the_number_again() {
        for place in 0..52 {
            let (m, k) = mantissa_and_exponent(f64::from_bits(1 << place));
            assert_eq!((m, k), (1.0, place - 1074));
        }
        assert_eq!(mantissa_and_exponent(f64::from_bits(3)), (1.5, -1073));
        assert_eq!(mantissa_and_exponent(f64::MIN_POSITIVE), (1.0, -1022));
        assert_eq!(mantissa_and_exponent(10.0), (1.25, 3));
        let root = f64::from_bits(ROOT_OF_TWO);
        assert_eq!(below_root_of_two((root, 4)), (root, 4));
        assert_eq!(below_root_of_two((1.5, 4)), (0.75, 5));
    }

    #[test]
    fn exp_is_near_the_library() {
        let mut random = SplitMix64::new(71);
        for _ in 0..400_000 {
            let x = random.unit() * 1454.0 - 745.0;
            assert!(ulps_apart(exp(x), x.exp()) <= 2, "exp {x:e}");
        }
    }

    #[test]
    fn ln_is_near_the_library() {
        let mut random = SplitMix64::new(72);
        for _ in 0..400_000 {
            let everywhere = f64::from_bits(random.next() >> 1);
            let share = random.unit();
            for v in [everywhere, share, share * 4.0] {
                if v > 0.0 && v.is_finite() {
                    assert!(ulps_apart(ln(v), v.ln()) <= 4, "ln {v:e}");
                }
            }
        }
    }

    #[test]
    fn bounds() {
        assert_eq!(CALM, 2.0_f64.powi(100));
        assert_eq!(DOMAIN, 2.0_f64.powi(20));
        assert!(in_domain(DOMAIN) && in_domain(-DOMAIN) && in_domain(-0.0));
        assert!(!in_domain(1_048_576.000_000_000_2) && !in_domain(f64::NAN) && !in_domain(f64::NEG_INFINITY));
        assert!(is_calm(CALM) && is_calm(-CALM) && !is_calm(CALM * 1.000_000_000_000_000_3));
        assert!(!is_calm(f64::NAN) && !is_calm(f64::INFINITY));
        assert_eq!(absolute(-0.0).to_bits(), 0);
        assert_eq!(absolute(f64::NEG_INFINITY), f64::INFINITY);
        assert_eq!(at_least(f64::NAN, 0.5), 0.5);
        assert_eq!(at_least(0.25, 0.5), 0.5);
        assert_eq!(at_least(0.75, 0.5), 0.75);
        assert_eq!(at_least(-0.0, 0.0).to_bits(), 0);
    }

    #[test]
    fn numbers_of_neighbours() {
        assert_eq!(neighbours(30.0, 4096), 91);
        assert_eq!(neighbours(30.1, 4096), 92);
        assert_eq!(neighbours(30.0, 50), 49);
        assert_eq!(neighbours(1.0, 2), 1);
        assert_eq!(neighbours(f64::from_bits(1), 4096), 2);
        // 3 times the f64 after 1/3 lies above 1 but is rounded to it; the one after that gives more than 1.
        let third = (1.0_f64 / 3.0).to_bits();
        let after = |steps| neighbours(f64::from_bits(third + steps), 4096);
        assert_eq!([after(0), after(1), after(2)], [2, 2, 3]);
    }
}
