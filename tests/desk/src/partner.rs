//! A neighbour list that another tool made, checked and loaded; and a run's lists, written for other tools.

use crate::library;
use crate::run::{Areas, Record};
use crate::Refusal;

/// The bytes of a record of a partner's list: from and to, 4 bytes each, and the weight, 8 bytes, little-endian.
pub const LINK_RECORD: usize = 16;

/// Loads a partner's list into areas that may be longer, by settings given as words and from a start; the record of the
/// Barnes-Hut run that may start from it, whatever the word of the method is. Of the arena it takes the number of nodes alone.
/// Refused, nothing has changed: 21 for fewer than nine words, 1 to 7, 9 to 12 as of a preparation, then 19 with the place of the
/// first record at which a rule of the list fails, counted from 0.
pub fn import(settings: &[u64], start: &[f64], file: &[u8], areas: &mut Areas) -> Result<Record, (Refusal, u64)> {
    let mut record = Record { words: [0; 14] };
    import_words(settings, start, file, &mut record.words, areas).map(|_| record)
}

/// The same with the record's words, fourteen or more, in an area of their own; how many links the list has. Fewer words are 12,
/// as any other short area.
pub fn import_words(
    settings: &[u64],
    start: &[f64],
    file: &[u8],
    words: &mut [u64],
    areas: &mut Areas,
) -> Result<usize, (Refusal, u64)> {
    let mut answer = [0];
    let number = unsafe {
        library::brothanchor_import(
            settings.as_ptr(),
            settings.len(),
            start.as_ptr(),
            start.len(),
            file.as_ptr(),
            file.len(),
            words.as_mut_ptr(),
            words.len(),
            areas.positions.as_mut_ptr(),
            areas.positions.len(),
            areas.increments.as_mut_ptr(),
            areas.increments.len(),
            areas.gains.as_mut_ptr(),
            areas.gains.len(),
            areas.affinities.as_mut_ptr(),
            areas.affinities.len(),
            areas.indices.as_mut_ptr(),
            areas.indices.len(),
            areas.offsets.as_mut_ptr(),
            areas.offsets.len(),
            areas.forces.as_mut_ptr(),
            areas.forces.len(),
            areas.nodes.len(),
            answer.as_mut_ptr(),
            answer.len(),
        )
    };
    Refusal::unless_counted(number, answer)
}

/// Writes a run's lists to the front of the target, and answers how many records they have. Of the run nothing is changed; refused,
/// nothing is written. Refused: 21 to 25 and 12 as in a work call, with what comes with the number there; 17 for an exact run; then 12
/// for a target below 16 bytes a link.
pub fn write_lists(record: &Record, areas: &Areas, target: &mut [u8]) -> Result<usize, (Refusal, u64)> {
    let mut answer = [0];
    let number = unsafe {
        library::brothanchor_lists(
            record.words.as_ptr(),
            record.words.len(),
            areas.positions.as_ptr(),
            areas.positions.len(),
            areas.increments.as_ptr(),
            areas.increments.len(),
            areas.gains.as_ptr(),
            areas.gains.len(),
            areas.affinities.as_ptr(),
            areas.affinities.len(),
            areas.indices.as_ptr(),
            areas.indices.len(),
            areas.offsets.as_ptr(),
            areas.offsets.len(),
            areas.forces.as_ptr(),
            areas.forces.len(),
            areas.nodes.as_ptr(),
            areas.nodes.len(),
            target.as_mut_ptr(),
            target.len(),
            answer.as_mut_ptr(),
            answer.len(),
        )
    };
    Refusal::unless_counted(number, answer)
}

/// How long the lists of a run are, in bytes; of a record that is not well formed any number.
pub fn lists_bytes(record: &Record, areas: &Areas) -> usize {
    let [n, ..] = record.words;
    let last = usize::try_from(n).ok().and_then(|n| areas.offsets.get(n));
    let links = last.map_or(0, |&links| links as usize);
    LINK_RECORD * links.min(areas.indices.len())
}

/// The lists of a run, as `write_lists` writes them.
pub fn lists(record: &Record, areas: &Areas) -> Result<Vec<u8>, (Refusal, u64)> {
    let mut target = vec![0; lists_bytes(record, areas)];
    let records = write_lists(record, areas, &mut target)?;
    target.truncate(LINK_RECORD * records);
    Ok(target)
}

/// The pair of frames that a record of a list names, from and to; nothing where it is not whole.
pub fn pair(file: &[u8], place: usize) -> Option<[u32; 2]> {
    let begin = place.checked_mul(LINK_RECORD)?;
    let bytes = file.get(begin..begin.checked_add(LINK_RECORD)?)?;
    let number = |at: usize| Some(u32::from_le_bytes(bytes[at..at + 4].try_into().ok()?));
    Some([number(0)?, number(4)?])
}

#[cfg(test)]
mod tests {
    use super::*;

    #[test]
    fn pairs_of_whole_records() {
        let mut file = vec![0; 40];
        file[16] = 3;
        file[20..24].copy_from_slice(&[0, 1, 0, 0xff]);
        assert_eq!(pair(&file, 0), Some([0, 0]));
        assert_eq!(pair(&file, 1), Some([3, 0xff00_0100]));
        assert_eq!(pair(&file, 2), None);
        assert_eq!(pair(&file, usize::MAX), None);
    }
}
