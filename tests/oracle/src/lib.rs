//! The scope paper's rules in plain Rust, written from its text alone, and the replay lists made from them.
//!
//! Nothing here is shared with the port: the two were written apart, so that a slip in one shows up as a difference
//! between them. Only the standard library is used.

pub mod bench;
pub mod blind;
pub mod descent;
pub mod differences;
pub mod divergence;
pub mod elementary;
pub mod far;
pub mod frames;
pub mod gradient;
pub mod lists;
pub mod monitor;
pub mod moved;
pub mod park;
pub mod partner;
pub mod preparation;
pub mod record;
pub mod salvage;
pub mod scatter;
pub mod sigma;
pub mod step;
pub mod strip;
pub mod take_out;
pub mod tree;
pub mod words;
pub mod worth;
