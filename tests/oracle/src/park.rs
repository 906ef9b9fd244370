//! Parking a run and reading it back, from the text of change request 2026-02.

use crate::descent::{fault, Areas, Fault, Method, Record, Settings, Standing};
use crate::elementary::is_calm;

/// Values in a record, and its bytes.
const VALUES: usize = 4;
pub const RECORD: usize = 8 * VALUES;
/// The records before the areas.
pub const HEAD: usize = 3;

/// Why nothing was written, or nothing read.
#[derive(Clone, Copy, Debug, PartialEq, Eq)]
pub enum Refusal {
    /// Writing: the entry tests of a work call.
    Entry(Fault),
    /// Writing: a unit of the next iteration is done.
    Inside,
    /// Writing: a position, increment or gain that a step may not give.
    Barred,
    /// Reading: the first record that is bad.
    Record(usize),
    /// Writing: the target is too short. Reading: an area is.
    Short,
}

impl Refusal {
    /// The number of the refusal.
    pub fn number(self) -> u64 {
        match self {
            Refusal::Entry(fault) => fault.number(),
            Refusal::Inside => 17,
            Refusal::Barred => 15,
            Refusal::Record(_) => 16,
            Refusal::Short => 12,
        }
    }
}

/// Writes a run to the front of the target; how many records it has.
pub fn park(record: &Record, areas: &Areas, target: &mut [u8]) -> Result<usize, Refusal> {
    if let Some(fault) = fault(record, areas) {
        return Err(Refusal::Entry(fault));
    }
    if record.phase > 0 {
        return Err(Refusal::Inside);
    }
    let cells = record.settings.n * record.settings.c;
    let moving = [&areas.positions, &areas.increments, &areas.gains];
    if moving.iter().any(|area| area[..cells].iter().any(|&v| !is_calm(v))) {
        return Err(Refusal::Barred);
    }
    let words = laid(record, areas);
    if target.len() < 8 * words.len() {
        return Err(Refusal::Short);
    }
    for (bytes, word) in target.chunks_mut(8).zip(&words) {
        bytes.copy_from_slice(&word.to_le_bytes());
    }
    Ok(words.len() / VALUES)
}

/// The words of a run in the order of its file: three records of numbers, then the areas.
fn laid(record: &Record, areas: &Areas) -> Vec<u64> {
    let Settings { n, f, c, method, .. } = record.settings;
    let tree = method == Method::BarnesHut;
    let links = if tree { areas.offsets[n] as usize } else { 0 };
    let angle = if tree { record.settings.angle.to_bits() } else { 0 };
    let mut words = vec![u64::from(tree), n as u64, f as u64, c as u64];
    words.extend([record.settings.perplexity, record.settings.rate].map(f64::to_bits));
    words.extend([record.settings.iterations as u64, angle]);
    words.extend([record.settings.minimum.to_bits(), record.done as u64]);
    words.extend([state(record.standing), links as u64]);
    for area in [&areas.positions, &areas.increments, &areas.gains] {
        lay(&mut words, area[..n * c].iter().map(|v| v.to_bits()));
    }
    if tree {
        lay(&mut words, areas.offsets[..=n].iter().map(|&k| u64::from(k)));
        lay(&mut words, areas.indices[..links].iter().map(|&k| u64::from(k)));
        lay(&mut words, areas.affinities[..links].iter().map(|v| v.to_bits()));
    } else {
        lay(&mut words, areas.affinities[..n * n].iter().map(|v| v.to_bits()));
    }
    words
}

/// An area, filled up with zeros to a whole record.
fn lay(words: &mut Vec<u64>, area: impl Iterator<Item = u64>) {
    words.extend(area);
    words.resize((words.len() + VALUES - 1) / VALUES * VALUES, 0);
}

fn state(standing: Standing) -> u64 {
    match standing {
        Standing::Running => 0,
        Standing::Stopped => 1,
        Standing::Finished => 2,
    }
}

/// Reads a run into areas that may be longer; the record of the run.
pub fn unpark(file: &[u8], areas: &mut Areas) -> Result<Record, Refusal> {
    let parked = read(file).map_err(Refusal::Record)?;
    let record = parked.record;
    let Settings { n, c, .. } = record.settings;
    if !areas.fit(&record.settings) {
        return Err(Refusal::Short);
    }
    put(&mut areas.positions, &parked.positions, f64::from_bits);
    put(&mut areas.increments, &parked.increments, f64::from_bits);
    put(&mut areas.gains, &parked.gains, f64::from_bits);
    put(&mut areas.affinities, &parked.affinities, f64::from_bits);
    put(&mut areas.indices, &parked.indices, |word| word as u32);
    put(&mut areas.offsets, &parked.offsets, |word| word as u32);
    areas.forces[..n * (2 * c + 1)].fill(0.0);
    Ok(record)
}

/// What was read, at the front of an area.
fn put<T>(area: &mut [T], words: &[u64], of: impl Fn(u64) -> T) {
    for (place, &word) in area.iter_mut().zip(words) {
        *place = of(word);
    }
}

/// What a good file holds.
struct Parked {
    record: Record,
    positions: Vec<u64>,
    increments: Vec<u64>,
    gains: Vec<u64>,
    /// The matrix, or the links' weights.
    affinities: Vec<u64>,
    /// Of the lists; none in an exact run.
    indices: Vec<u64>,
    offsets: Vec<u64>,
}

/// The whole file, or the place of its first bad record.
fn read(file: &[u8]) -> Result<Parked, usize> {
    let mut records = Records { file, place: 0 };
    let (record, links) = head(&mut records)?;
    let Settings { n, c, method, .. } = record.settings;
    let calm = |_, word| is_calm(f64::from_bits(word));
    let positions = records.area(n * c, calm)?;
    let increments = records.area(n * c, calm)?;
    let gains = records.area(n * c, calm)?;
    let (mut indices, mut offsets) = (Vec::new(), Vec::new());
    let affinities = if method == Method::Exact {
        records.area(n * n, |_, _| true)?
    } else {
        let mut last = 0;
        let rises = |frame, offset| {
            let begins = frame > 0 || offset == 0;
            let ends = frame < n || offset == links as u64;
            let fits = begins && ends && last <= offset && offset <= links as u64;
            last = offset;
            fits
        };
        offsets = records.area(n + 1, rises)?;
        indices = records.area(links, |_, index| index < n as u64)?;
        records.area(links, |_, _| true)?
    };
    if !records.file.is_empty() {
        return Err(records.place);
    }
    Ok(Parked {
        record,
        positions,
        increments,
        gains,
        affinities,
        indices,
        offsets,
    })
}

/// The record that the first three say, and the links listed.
fn head(records: &mut Records) -> Result<(Record, usize), usize> {
    let method = |word| match word {
        0 => Some((Method::Exact, 8)),
        1 => Some((Method::BarnesHut, 3)),
        _ => None,
    };
    let [which, n, f, c] = records.next()?;
    let (method, most) = method(which).ok_or_else(|| records.last())?;
    records.demand((2..=4096).contains(&n) && (1..=256).contains(&f) && (1..=most).contains(&c))?;

    let [perplexity, rate, iterations, angle] = records.next()?;
    let settings = Settings {
        n: n as usize,
        f: f as usize,
        c: c as usize,
        method,
        perplexity: f64::from_bits(perplexity),
        rate: f64::from_bits(rate),
        iterations: iterations as usize,
        angle: f64::from_bits(angle),
        minimum: 0.0,
    };
    let positive = |v: f64| v > 0.0 && v < f64::INFINITY;
    records.demand(positive(settings.perplexity) && settings.perplexity < n as f64 && positive(settings.rate))?;
    records.demand((1..=65_535).contains(&iterations))?;
    records.demand(match method {
        Method::Exact => angle == 0,
        Method::BarnesHut => settings.angle >= 0.0 && settings.angle < 1.0,
    })?;

    let [minimum, done, state, links] = records.next()?;
    let minimum = f64::from_bits(minimum);
    let (standing, fits) = match state {
        0 => (Standing::Running, done < iterations),
        1 => {
            let late = (251..=iterations).contains(&done);
            (Standing::Stopped, late && minimum > 0.0)
        }
        2 => (Standing::Finished, done == iterations),
        _ => return Err(records.last()),
    };
    let room = if method == Method::Exact { 0 } else { settings.links() };
    records.demand(fits && links <= room as u64)?;
    let settings = Settings { minimum, ..settings };
    let record = Record {
        settings,
        standing,
        done: done as usize,
        phase: 0,
        units: done as usize * settings.iteration(),
        used: 0,
    };
    Ok((record, links as usize))
}

/// A file that is taken record by record.
struct Records<'a> {
    /// What is left of it.
    file: &'a [u8],
    /// The place of the next record.
    place: usize,
}

impl Records<'_> {
    /// The next record; its place where it is missing or broken.
    fn next(&mut self) -> Result<[u64; VALUES], usize> {
        if self.file.len() < RECORD {
            return Err(self.place);
        }
        let (bytes, rest) = self.file.split_at(RECORD);
        self.file = rest;
        self.place += 1;
        let mut words = [0; VALUES];
        for (word, bytes) in words.iter_mut().zip(bytes.chunks(8)) {
            *word = bytes.iter().rev().fold(0, |word, &byte| word << 8 | u64::from(byte));
        }
        Ok(words)
    }

    /// The place of the record taken last.
    fn last(&self) -> usize {
        self.place - 1
    }

    /// The record taken last is bad unless this holds.
    fn demand(&self, holds: bool) -> Result<(), usize> {
        if holds {
            Ok(())
        } else {
            Err(self.last())
        }
    }

    /// An area of so many values, each of which has to be good in its place, with zeros to a whole record.
    fn area(&mut self, length: usize, mut good: impl FnMut(usize, u64) -> bool) -> Result<Vec<u64>, usize> {
        let mut found = Vec::new();
        while found.len() < length {
            let words = self.next()?;
            let (values, filling) = words.split_at(VALUES.min(length - found.len()));
            for &value in values {
                self.demand(good(found.len(), value))?;
                found.push(value);
            }
            self.demand(filling.iter().all(|&word| word == 0))?;
        }
        Ok(found)
    }
}

#[cfg(test)]
mod tests;
