//! Digests of areas, by the format of tests/README.md.

use oracle::scatter::mix;

/// A value's bits; any NaN is one.
pub fn listed(v: f64) -> u64 {
    if v.is_nan() {
        0x7FF8_0000_0000_0000
    } else {
        v.to_bits()
    }
}

/// The digest of an area of so many elements, by their words.
pub fn digest(elements: usize, words: Vec<u64>) -> u64 {
    let mut digest = elements as u64;
    for word in words {
        digest = mix(digest.wrapping_add(word));
    }
    digest
}

pub fn of_values(values: &[f64]) -> u64 {
    digest(values.len(), values.iter().map(|&v| listed(v)).collect())
}

pub fn of_numbers(numbers: &[u32]) -> u64 {
    digest(numbers.len(), numbers.iter().map(|&v| u64::from(v)).collect())
}
