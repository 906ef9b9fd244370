//! Lists whose cases begin with their number of words, as they are read.

use oracle::words::from_bytes;
use std::fs;
use std::path::Path;

/// The words of a list below the folder of crates, case by case, without the number of words that each begins with.
pub fn cases(list: &str) -> Vec<Vec<u64>> {
    let crates = Path::new(env!("CARGO_MANIFEST_DIR")).join("../../crates");
    let bytes = fs::read(crates.join(list)).expect("a list");
    let mut words = &from_bytes(&bytes)[..];
    let mut found = Vec::new();
    while !words.is_empty() {
        let (case, rest) = words.split_at(words[0] as usize);
        found.push(case[1..].to_vec());
        words = rest;
    }
    found
}

/// Takes words from the front.
pub struct Reader<'a>(pub &'a [u64]);

impl Reader<'_> {
    pub fn one(&mut self) -> u64 {
        self.many(1)[0]
    }

    pub fn many(&mut self, count: u64) -> Vec<u64> {
        let (words, rest) = self.0.split_at(count as usize);
        self.0 = rest;
        words.to_vec()
    }

    // Not every list has values and numbers.
    #[allow(dead_code)]
    pub fn values(&mut self, count: u64) -> Vec<f64> {
        self.many(count).into_iter().map(f64::from_bits).collect()
    }

    #[allow(dead_code)]
    pub fn numbers(&mut self, count: u64) -> Vec<u32> {
        self.many(count).into_iter().map(|word| word as u32).collect()
    }
}
