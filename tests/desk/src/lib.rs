//! Brothanchor for Rust: a safe wrapper over libdesk.a, the proved library of the map-maker.
//!
//! All memory is the caller's. A refusal at entry changes nothing. The library tests whatever it is given, so nothing
//! here can be called wrongly; a slice brings its own length, and the borrow checker keeps areas from overlapping.

pub mod beside;
mod blind;
mod blindness;
mod handing;
mod labels;
mod library;
pub mod map;
mod monitor;
mod parking;
mod partner;
mod picture;
pub mod pictures;
mod refusal;
mod run;
mod salvage;
pub mod scaling;
pub mod strip;
mod strip_picture;
mod thinning;

pub use blind::{blind, blind_words, Sight, SightRows};
pub use blindness::{Blindness, Remedy};
pub use handing::{hand_out, prepare_strip, prepare_strip_words};
pub use monitor::{read_monitor, write_monitor, Placed, MONITOR_RECORD};
pub use parking::{park, parked, parked_bytes, unpark, unpark_words, wake, PARKED_RECORD};
pub use partner::{import, import_words, lists, lists_bytes, pair, write_lists, LINK_RECORD};
pub use refusal::Refusal;
pub use run::{
    divergence, prepare, sizes, work, Areas, Fault, Kind, Method, Node, Record, Rows, Settings, Sizes, State, Worked,
};
pub use salvage::{salvage, Dropped, Rule, Salvaged, Stretch};
pub use thinning::take_out;

/// Components of a frame file's starts, features of its frames.
pub const STARTS: usize = 2;
pub const FEATURES: usize = 6;

/// One record of a frame file.
#[derive(Clone, Copy, Debug, PartialEq)]
pub struct Frame {
    /// The picture's number; it never falls through the file.
    pub picture: u32,
    /// 1 or 2.
    pub side: u8,
    /// 0 for a whole frame, 1 or 2 for a field of a still.
    pub field: u8,
    /// The frame's row of the table.
    pub features: [f64; FEATURES],
    /// Where the frame starts on the map.
    pub starts: [f64; STARTS],
}

impl Frame {
    /// The picture's number, and the field's behind a point where the record is one: `1203`, `1203.1`.
    pub fn name(&self) -> String {
        match self.field {
            0 => self.picture.to_string(),
            field => format!("{}.{field}", self.picture),
        }
    }
}

/// n·c starting positions from a seed, at the front of the area.
pub fn scatter(positions: &mut [f64], n: u32, c: u32, seed: u64) -> Result<(), Refusal> {
    let number = unsafe { library::brothanchor_scatter(positions.as_mut_ptr(), positions.len(), n, c, seed) };
    Refusal::unless_0(number)
}

/// How many frames a frame file has; or 16 with the place of its first bad record, counted from 0.
pub fn frames(file: &[u8]) -> Result<usize, (Refusal, usize)> {
    let mut place = [0];
    let number = unsafe { library::brothanchor_frames(file.as_ptr(), file.len(), place.as_mut_ptr(), place.len()) };
    let place = place[0] as usize;
    Refusal::unless_0(number)
        .map(|()| place)
        .map_err(|refusal| (refusal, place))
}

/// Record i of a file as words: picture, side, field, the bits of its features and starts. 12 where there are fewer than eleven.
pub fn frame_words(file: &[u8], i: usize, words: &mut [u64]) -> Result<(), Refusal> {
    let number = unsafe { library::brothanchor_frame(file.as_ptr(), file.len(), i, words.as_mut_ptr(), words.len()) };
    Refusal::unless_0(number)
}

/// Record i of a file; zeros past its whole records.
pub fn frame(file: &[u8], i: usize) -> Frame {
    let mut words = [0; 11];
    frame_words(file, i, &mut words).expect("the area is long enough");
    let value = |at: usize| f64::from_bits(words[at]);
    Frame {
        picture: words[0] as u32,
        side: words[1] as u8,
        field: words[2] as u8,
        features: [value(3), value(4), value(5), value(6), value(7), value(8)],
        starts: [value(9), value(10)],
    }
}
