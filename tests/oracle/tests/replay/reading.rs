//! The runs of lists whose cases begin with their number of words, as they are read.

#[path = "cases.rs"]
mod words;

use oracle::descent::{Areas, Record};
use oracle::record::record_of;
use oracle::tree::Node;
pub use words::{cases, Reader};

impl Reader<'_> {
    /// Areas of these lengths, of which the first six are listed; the forces come from elsewhere, and every node is zeros.
    pub fn areas(&mut self, lengths: &[u64], forces: Vec<f64>) -> Areas {
        Areas {
            positions: self.values(lengths[0]),
            increments: self.values(lengths[1]),
            gains: self.values(lengths[2]),
            affinities: self.values(lengths[3]),
            indices: self.numbers(lengths[4]),
            offsets: self.numbers(lengths[5]),
            forces,
            nodes: vec![Node::default(); lengths[7] as usize],
        }
    }
}

/// The record that fourteen words say.
pub fn record(words: &[u64]) -> Record {
    record_of(words).expect("a record")
}
