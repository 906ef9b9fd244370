//! The calls of a strip: a run of frames along one line prepared, and its frames handed out once it has ended.

use crate::library;
use crate::run::{prepare_by, Areas, Given, Record, Rows};
use crate::Refusal;

/// Prepares the run of a strip by settings given as words: as `prepare`, but 20 for settings outside the profile, after 11 and before
/// 12. Refused, nothing has changed.
pub fn prepare_strip(
    settings: &[u64],
    table: &[f64],
    start: &[f64],
    areas: &mut Areas,
    rows: &mut Rows,
) -> Result<Record, Refusal> {
    let mut record = Record { words: [0; 14] };
    prepare_strip_words(settings, table, start, areas, rows, &mut record.words).map(|()| record)
}

/// The same with the record's words, fourteen or more, in an area of their own. Fewer words are 12, as any other short area.
pub fn prepare_strip_words(
    settings: &[u64],
    table: &[f64],
    start: &[f64],
    areas: &mut Areas,
    rows: &mut Rows,
    words: &mut [u64],
) -> Result<(), Refusal> {
    let given = Given { settings, table, start };
    prepare_by(library::brothanchor_prepare_strip, &given, areas, rows, words)
}

/// Hands out the frames of an ended run along its line, and answers how many there are: the front of the order names the samples by
/// rising position, equal ones by their numbers, and the front of the gaps has for each how far it is from the one before it, +0.0 for
/// the first. Of the run nothing is changed; refused, nothing is written. Refused: 21 to 25 and 12 as in a work call, with what comes with
/// the number there; 20 for settings outside the profile; 17 before the run has ended; 15 where a position is NaN or above 2^100 in
/// magnitude; then 12 where order or gaps have fewer places than there are frames.
pub fn hand_out(record: &Record, areas: &Areas, order: &mut [u32], gaps: &mut [f64]) -> Result<usize, (Refusal, u64)> {
    let mut answer = [0];
    let number = unsafe {
        library::brothanchor_strip(
            record.words.as_ptr(),
            record.words.len(),
            areas.positions.as_ptr(),
            areas.positions.len(),
            areas.increments.as_ptr(),
            areas.increments.len(),
            areas.gains.as_ptr(),
            areas.gains.len(),
            areas.affinities.as_ptr(),
            areas.affinities.len(),
            areas.indices.as_ptr(),
            areas.indices.len(),
            areas.offsets.as_ptr(),
            areas.offsets.len(),
            areas.forces.as_ptr(),
            areas.forces.len(),
            areas.nodes.as_ptr(),
            areas.nodes.len(),
            order.as_mut_ptr(),
            order.len(),
            gaps.as_mut_ptr(),
            gaps.len(),
            answer.as_mut_ptr(),
            answer.len(),
        )
    };
    Refusal::unless_counted(number, answer)
}
