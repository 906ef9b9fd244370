//! Frames taken out of a run.

use crate::library;
use crate::run::{Areas, Record};
use crate::Refusal;

/// Takes the samples that a rising list names out of a run and of its table, and answers how many are left; the first so many
/// old places then say which samples they were. What is left closes ranks in the front of table and areas, positions around
/// their own mean; the room that becomes free, and all forces, are zeros. Refused, nothing has changed: 21 to 25 and 12 as in a work
/// call, with what comes with the number there, 12 also for a table below n·f values or fewer than n old places; 17 inside an
/// iteration; 18 where the list does not rise strictly or names a sample that there is not; then for what would be left 9, 10,
/// 18 for more links than its lists may have, and 15 for a centred position that is NaN or above 2^100 in magnitude.
pub fn take_out(
    record: &mut Record,
    areas: &mut Areas,
    table: &mut [f64],
    gone: &[u32],
    old: &mut [u32],
) -> Result<usize, (Refusal, u64)> {
    let mut answer = [0];
    let number = unsafe {
        library::brothanchor_take_out(
            record.words.as_mut_ptr(),
            record.words.len(),
            areas.positions.as_mut_ptr(),
            areas.positions.len(),
            areas.increments.as_mut_ptr(),
            areas.increments.len(),
            areas.gains.as_mut_ptr(),
            areas.gains.len(),
            areas.affinities.as_mut_ptr(),
            areas.affinities.len(),
            areas.indices.as_mut_ptr(),
            areas.indices.len(),
            areas.offsets.as_mut_ptr(),
            areas.offsets.len(),
            areas.forces.as_mut_ptr(),
            areas.forces.len(),
            areas.nodes.as_ptr(),
            areas.nodes.len(),
            table.as_mut_ptr(),
            table.len(),
            gone.as_ptr(),
            gone.len(),
            old.as_mut_ptr(),
            old.len(),
            answer.as_mut_ptr(),
            answer.len(),
        )
    };
    Refusal::unless_counted(number, answer)
}
