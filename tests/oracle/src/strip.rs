//! Frames along one line: the strip profile, from the text of change request 2026-09.

use crate::descent::{fault, prepare, refusal, Areas, Fault, Method, Record, Rows, Settings, Standing};
use crate::elementary::is_calm;

/// The most frames along a strip, and the widest angle.
pub const MOST_STRIP: usize = 1024;
pub const WIDEST: f64 = 0.5;

/// Why no frames are handed out.
#[derive(Clone, Copy, Debug, PartialEq, Eq)]
pub enum Refusal {
    /// The entry tests of a work call.
    Entry(Fault),
    /// The settings are outside the profile.
    Profile,
    /// The run has not ended.
    Running,
    /// A position is NaN or above 2^100 in magnitude.
    Barred,
    /// The area of the order, or that of the gaps, has fewer places than there are frames.
    Short,
}

impl Refusal {
    /// The number of the refusal.
    pub fn number(self) -> u64 {
        match self {
            Refusal::Entry(fault) => fault.number(),
            Refusal::Profile => 20,
            Refusal::Running => 17,
            Refusal::Barred => 15,
            Refusal::Short => 12,
        }
    }

    /// What comes with the number: what a work call tells of its entry; else 0.
    pub fn place(self) -> u64 {
        match self {
            Refusal::Entry(fault) => fault.place(),
            _ => 0,
        }
    }
}

/// Whether settings are those of a strip: one component, Barnes-Hut, an angle of at most 0.5, at most 1024 frames.
pub fn in_profile(settings: &Settings) -> bool {
    let Settings {
        n, c, method, angle, ..
    } = *settings;
    c == 1 && method == Method::BarnesHut && angle <= WIDEST && n <= MOST_STRIP
}

/// Prepares the run of a strip: preparation with one more test, 20, after 11 and before 12.
pub fn prepare_strip(
    settings: Settings,
    table: &[f64],
    start: &[f64],
    areas: &mut Areas,
    rows: &mut Rows,
) -> Result<Record, u64> {
    match refusal(&settings, table, start, areas, rows) {
        None | Some(12) if !in_profile(&settings) => Err(20),
        _ => prepare(settings, table, start, areas, rows),
    }
}

/// Hands out the frames of an ended run by rising position, equal ones by their numbers, and each one's gap to the one before it;
/// how many there are.
pub fn hand_out(record: &Record, areas: &Areas, order: &mut [u32], gaps: &mut [f64]) -> Result<usize, Refusal> {
    if let Some(fault) = fault(record, areas) {
        return Err(Refusal::Entry(fault));
    }
    if !in_profile(&record.settings) {
        return Err(Refusal::Profile);
    }
    if record.standing == Standing::Running {
        return Err(Refusal::Running);
    }
    let n = record.settings.n;
    let positions = &areas.positions[..n];
    if positions.iter().any(|&v| !is_calm(v)) {
        return Err(Refusal::Barred);
    }
    if order.len() < n || gaps.len() < n {
        return Err(Refusal::Short);
    }
    let mut frames: Vec<usize> = (0..n).collect();
    // A stable sort, by which frames that are equal keep the order of their numbers; zeros of either sign are equal.
    frames.sort_by(|&a, &b| positions[a].partial_cmp(&positions[b]).expect("no NaN"));
    let mut before = None;
    for (place, &frame) in frames.iter().enumerate() {
        order[place] = frame as u32;
        gaps[place] = before.map_or(0.0, |before| positions[frame] - before);
        before = Some(positions[frame]);
    }
    Ok(n)
}
