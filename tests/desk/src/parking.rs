//! A run parked overnight: written into 32-byte records, and read back.

use crate::library;
use crate::run::{sizes, Areas, Method, Record, Settings, Sizes};
use crate::Refusal;

/// The bytes of a record of a parked run: four little-endian values.
pub const PARKED_RECORD: usize = 32;
/// The most frames and components that a run has.
const MOST_FRAMES: u64 = 4096;
const MOST_COMPONENTS: u64 = 8;

/// Writes a run to the front of the target, and answers how many records it has. Of the run nothing is changed; refused, nothing
/// is written. Refused: 21 to 25 and 12 as in a work call, with what comes with the number there; 17 inside an iteration; 15 where a
/// position, increment or gain is NaN or above 2^100 in magnitude; then 12 for a short target.
pub fn park(record: &Record, areas: &Areas, target: &mut [u8]) -> Result<usize, (Refusal, u64)> {
    let mut answer = [0];
    let number = unsafe {
        library::brothanchor_park(
            record.words.as_ptr(),
            record.words.len(),
            areas.positions.as_ptr(),
            areas.positions.len(),
            areas.increments.as_ptr(),
            areas.increments.len(),
            areas.gains.as_ptr(),
            areas.gains.len(),
            areas.affinities.as_ptr(),
            areas.affinities.len(),
            areas.indices.as_ptr(),
            areas.indices.len(),
            areas.offsets.as_ptr(),
            areas.offsets.len(),
            areas.forces.as_ptr(),
            areas.forces.len(),
            areas.nodes.as_ptr(),
            areas.nodes.len(),
            target.as_mut_ptr(),
            target.len(),
            answer.as_mut_ptr(),
            answer.len(),
        )
    };
    Refusal::unless_counted(number, answer)
}

/// Reads a parked run into areas that may be longer, and answers its record. Of the arena it takes the number of nodes alone.
/// Refused, nothing has changed: 16 with the place of the first bad record, counted from 0; then 12 where an area is too short.
pub fn unpark(file: &[u8], areas: &mut Areas) -> Result<Record, (Refusal, u64)> {
    let mut record = Record { words: [0; 14] };
    unpark_words(file, &mut record.words, areas).map(|_| record)
}

/// The same with the record's words, fourteen or more, in an area of their own; how many records the file has. Fewer words are 12,
/// as any other short area.
pub fn unpark_words(file: &[u8], words: &mut [u64], areas: &mut Areas) -> Result<usize, (Refusal, u64)> {
    let mut answer = [0];
    let number = unsafe {
        library::brothanchor_unpark(
            file.as_ptr(),
            file.len(),
            words.as_mut_ptr(),
            words.len(),
            areas.positions.as_mut_ptr(),
            areas.positions.len(),
            areas.increments.as_mut_ptr(),
            areas.increments.len(),
            areas.gains.as_mut_ptr(),
            areas.gains.len(),
            areas.affinities.as_mut_ptr(),
            areas.affinities.len(),
            areas.indices.as_mut_ptr(),
            areas.indices.len(),
            areas.offsets.as_mut_ptr(),
            areas.offsets.len(),
            areas.forces.as_mut_ptr(),
            areas.forces.len(),
            areas.nodes.len(),
            answer.as_mut_ptr(),
            answer.len(),
        )
    };
    Refusal::unless_counted(number, answer)
}

/// How long the file of a run is, in bytes; of a record that is not well formed any number.
pub fn parked_bytes(record: &Record, areas: &Areas) -> usize {
    let [n, _, c, method, ..] = record.words;
    let (n, c) = (n.min(MOST_FRAMES) as usize, c.min(MOST_COMPONENTS) as usize);
    let records = |values: usize| (values + 3) / 4;
    let held = match method {
        0 => records(n * n),
        _ => {
            let links = areas.offsets.get(n).map_or(0, |&links| links as usize);
            records(n + 1) + 2 * records(links.min(areas.indices.len()))
        }
    };
    PARKED_RECORD * (3 + 3 * records(n * c) + held)
}

/// The file of a run, as `park` writes it.
pub fn parked(record: &Record, areas: &Areas) -> Result<Vec<u8>, (Refusal, u64)> {
    let mut target = vec![0; parked_bytes(record, areas)];
    let records = park(record, areas, &mut target)?;
    target.truncate(PARKED_RECORD * records);
    Ok(target)
}

/// A parked run in areas of its own, just as long as it asks for, with an arena in which 14 never comes; or what `unpark`
/// refuses.
pub fn wake(file: &[u8]) -> Result<(Record, Areas), (Refusal, u64)> {
    let nothing = Sizes {
        cells: 0,
        affinities: 0,
        indices: 0,
        offsets: 0,
        forces: 0,
        rows: 0,
        nodes: 0,
    };
    // The file is judged first, into no areas at all: those that a bad one asks for may be large.
    if let Err((Refusal(16), place)) = unpark(file, &mut Areas::new(&nothing, 0)) {
        return Err((Refusal(16), place));
    }
    let sizes = head(file).and_then(|settings| sizes(&settings).ok()).unwrap_or(nothing);
    let mut areas = Areas::new(&sizes, sizes.nodes);
    unpark(file, &mut areas).map(|record| (record, areas))
}

/// The settings at the front of a file, as far as they say how long the areas are.
fn head(file: &[u8]) -> Option<Settings> {
    let word = |i: usize| {
        let bytes = file.get(8 * i..8 * i + 8)?;
        Some(u64::from_le_bytes(bytes.try_into().ok()?))
    };
    let number = |i: usize| Some(word(i)? as usize);
    let value = |i: usize| Some(f64::from_bits(word(i)?));
    Some(Settings {
        method: match word(0)? {
            0 => Method::Exact,
            1 => Method::BarnesHut,
            _ => return None,
        },
        n: number(1)?,
        f: number(2)?,
        c: number(3)?,
        perplexity: value(4)?,
        rate: value(5)?,
        iterations: number(6)?,
        angle: value(7)?,
        minimum: value(8)?,
    })
}
