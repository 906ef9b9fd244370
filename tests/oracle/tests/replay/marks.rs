//! What an area holds before a call, by the formats of tests/README.md.

/// Place i holds the value with the bits 4000000000000000 + i, in hex.
pub fn marked_values(length: u64) -> Vec<f64> {
    (0..length).map(|i| f64::from_bits((1 << 62) + i)).collect()
}

/// Place i holds 40000000 + i, in hex.
pub fn marked_numbers(length: u64) -> Vec<u32> {
    (0..length).map(|i| (1 << 30) + i as u32).collect()
}
