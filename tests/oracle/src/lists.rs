//! The replay lists: inputs with the answers that the scope paper's rules give, as words of 64 bits.
//!
//! The lists are made anew from fixed seeds, so every run makes the same bytes.

pub mod bench;
pub mod blind;
pub mod descent;
pub mod divergence;
pub mod elementary;
pub mod far;
pub mod frames;
pub mod gradient;
pub mod monitor;
pub mod park;
pub mod partner;
pub mod preparation;
pub mod salvage;
pub mod sample;
pub mod scatter;
pub mod sigma;
pub mod step;
pub mod strip;
pub mod take_out;

use crate::bench::printed;
use std::path::{Path, PathBuf};

/// One list and where it belongs.
#[derive(Clone, Debug)]
pub struct List {
    /// The crate that replays the list.
    pub replayer: &'static str,
    /// The list's name, without its ending.
    pub name: &'static str,
    /// How many cases the list holds.
    pub cases: usize,
    /// All cases, one after the other.
    pub words: Vec<u64>,
}

impl List {
    /// A list of the given cases.
    fn new(replayer: &'static str, name: &'static str, cases: &[Vec<u64>]) -> Self {
        List {
            replayer,
            name,
            cases: cases.len(),
            words: cases.concat(),
        }
    }

    /// Where the list lies, below the folder of crates.
    pub fn path(&self, crates: &Path) -> PathBuf {
        let file = format!("{}.words", self.name);
        crates.join(self.replayer).join("data").join(file)
    }
}

/// Every list.
pub fn all() -> Vec<List> {
    vec![
        List::new("replay_elementary", "exp", &elementary::exp_cases()),
        List::new("replay_elementary", "far", &far::exp_cases()),
        List::new("replay_elementary", "ln", &elementary::ln_cases()),
        List::new("replay_elementary", "bounds", &elementary::bounds_cases()),
        List::new("replay_elementary", "neighbours", &elementary::neighbours_cases()),
        List::new("replay_scatter", "scatter", &scatter::cases()),
        List::new("replay_frames", "frames", &frames::cases()),
        List::new("replay_affinity", "sigma", &sigma::cases()),
        List::new("replay_gradient", "exact", &gradient::cases()),
        List::new("replay_gradient", "step", &step::cases()),
        List::new("replay_gradient", "pairs", &divergence::pairs_cases()),
        List::new("replay_forces", "links", &divergence::links_cases()),
        List::new("replay_preparation", "preparation", &preparation::cases()),
        List::new("replay_preparation", "larger", &preparation::larger_cases()),
        List::new("replay_preparation", "far", &far::preparation_cases()),
        List::new("replay_descent", "runs", &descent::run_cases()),
        List::new("replay_descent", "faults", &descent::fault_cases()),
        List::new("replay_park", "parks", &park::park_cases()),
        List::new("replay_park", "unparks", &park::unpark_cases()),
        List::new("replay_take_out", "takes", &take_out::cases()),
        List::new("replay_import", "partner", &partner::import_cases()),
        List::new("replay_import", "lists", &partner::write_cases()),
        List::new("replay_strip", "strip", &strip::cases()),
        List::new("replay_monitor", "narrow", &monitor::narrow_cases()),
        List::new("replay_monitor", "writes", &monitor::write_cases()),
        List::new("replay_monitor", "reads", &monitor::read_cases()),
        List::new("replay_salvage", "bytes", &salvage::byte_cases()),
        List::new("replay_salvage", "orders", &salvage::order_cases()),
        List::new("replay_salvage", "scuffed", &salvage::file_cases()),
        List::new("replay_blind", "searches", &blind::search_cases()),
        List::new("replay_blind", "refusals", &blind::refusal_cases()),
        List::new("bench_cases", "files", &bench::cases()),
    ]
}

/// The files that are no lists, those beside the bench's programs and the sample: where each lies as seen from the folder
/// of crates, and what it holds.
pub fn files() -> Vec<(&'static str, Vec<u8>)> {
    vec![
        ("bench/stdin", bench::example()),
        ("bench/stdout", printed(&bench::example()).into_bytes()),
        ("bench_cases/stdout", bench::text().into_bytes()),
        ("../sample.frames", sample::file()),
    ]
}
