//! Runs by the Rust wrapper. Reads runs from standard input and writes what comes of each, all as little-endian words of 64 bits.
//!
//! A run: nine words of settings; the number of table values and their bits; the number of start values and their bits; 1 where it
//! starts from a scatter instead, else 0; the scatter's seed; 1 for a strip, else 0; the number of calls, and of each call its budget.
//!
//! What comes of it: the number of its refusal; where that is 0, after each call the number of a refusal, the units done and the
//! fourteen words of the record; then the areas, each by its length and its bits: positions, increments, gains, affinities, indices,
//! offsets, forces; then the number of the divergence's refusal and the figure's bits; then the parked run, its bytes as words, by
//! its length, 0 where it cannot be parked.

use brothanchor::{
    divergence, parked, prepare, prepare_strip, scatter, sizes, work, Areas, Kind, Method, Record, Rows, Settings,
};
use std::io::{self, Read, Write};

/// The words of standard input, one after the other.
struct Words {
    bytes: Vec<u8>,
    at: usize,
}

impl Words {
    fn next(&mut self) -> u64 {
        let word = self.bytes[self.at..self.at + 8].try_into().expect("a whole word");
        self.at += 8;
        u64::from_le_bytes(word)
    }

    fn take(&mut self, count: usize) -> Vec<u64> {
        (0..count).map(|_| self.next()).collect()
    }

    /// Words with their number before them.
    fn list(&mut self) -> Vec<u64> {
        let count = self.next() as usize;
        self.take(count)
    }

    fn values(&mut self) -> Vec<f64> {
        self.list().into_iter().map(f64::from_bits).collect()
    }
}

/// Settings as the wrapper has them.
fn settings(words: &[u64]) -> Settings {
    Settings {
        n: words[0] as usize,
        f: words[1] as usize,
        c: words[2] as usize,
        method: if words[3] == 0 {
            Method::Exact
        } else {
            Method::BarnesHut
        },
        perplexity: f64::from_bits(words[4]),
        rate: f64::from_bits(words[5]),
        iterations: words[6] as usize,
        angle: f64::from_bits(words[7]),
        minimum: f64::from_bits(words[8]),
    }
}

/// Does a budget, in calls of which none goes past the end of an iteration, so that the copy is that before the last step. Answers the
/// number of a refusal and the units done.
fn worked(record: &mut Record, areas: &mut Areas, copy: &mut [f64], iteration: u64, budget: u64) -> [u64; 2] {
    let mut done = 0;
    while done < budget {
        let left = iteration - record.words[11];
        if record.words[9] == 0 {
            copy.copy_from_slice(&areas.positions);
        }
        let answer = work(record, areas, left.min(budget - done) as u32);
        done += answer.units;
        match answer.kind {
            Kind::Running => {}
            Kind::Refused(refusal) => return [refusal.0.into(), done],
            _ => break,
        }
    }
    [0, done]
}

/// An area's words, with their number before them.
fn put(out: &mut Vec<u64>, words: impl ExactSizeIterator<Item = u64>) {
    out.push(words.len() as u64);
    out.extend(words);
}

/// The areas, the divergence and the parked run.
fn put_end(out: &mut Vec<u64>, record: &Record, areas: &Areas, copy: &[f64]) {
    for area in [&areas.positions, &areas.increments, &areas.gains, &areas.affinities] {
        put(out, area.iter().map(|value| value.to_bits()));
    }
    put(out, areas.indices.iter().map(|&index| index.into()));
    put(out, areas.offsets.iter().map(|&offset| offset.into()));
    put(out, areas.forces.iter().map(|value| value.to_bits()));
    match divergence(record, areas, copy) {
        Ok(figure) => out.extend([0, figure.to_bits()]),
        Err((refusal, _)) => out.extend([refusal.0.into(), 0]),
    }
    let file = parked(record, areas).unwrap_or_default();
    let word = |bytes: &[u8]| u64::from_le_bytes(bytes.try_into().expect("a whole word"));
    put(out, file.chunks_exact(8).map(word));
}

/// One run.
fn run(input: &mut Words, out: &mut Vec<u64>) {
    let words = input.take(9);
    let (table, mut start) = (input.values(), input.values());
    let (is_scatter, seed) = (input.next() == 1, input.next());
    let is_strip = input.next() == 1;
    let calls = input.list();
    let settings = settings(&words);
    let sizes = match sizes(&settings) {
        Ok(sizes) => sizes,
        Err(refusal) => return out.push(refusal.0.into()),
    };
    if is_scatter {
        start = vec![0.0; settings.n * settings.c];
        scatter(&mut start, settings.n as u32, settings.c as u32, seed).expect("room for the scatter");
    }
    let mut areas = Areas::new(&sizes, sizes.nodes);
    let prepare = if is_strip { prepare_strip } else { prepare };
    let mut record = match prepare(&words, &table, &start, &mut areas, &mut Rows::new(&sizes)) {
        Ok(record) => record,
        Err(refusal) => return out.push(refusal.0.into()),
    };
    out.push(0);
    let mut copy = areas.positions.clone();
    for budget in calls {
        out.extend(worked(
            &mut record,
            &mut areas,
            &mut copy,
            settings.iteration() as u64,
            budget,
        ));
        out.extend(record.words);
    }
    put_end(out, &record, &areas, &copy);
}

fn main() -> io::Result<()> {
    let mut input = Words {
        bytes: Vec::new(),
        at: 0,
    };
    io::stdin().lock().read_to_end(&mut input.bytes)?;
    let mut out = Vec::new();
    while input.at < input.bytes.len() {
        run(&mut input, &mut out);
    }
    let bytes: Vec<u8> = out.into_iter().flat_map(u64::to_le_bytes).collect();
    io::stdout().lock().write_all(&bytes)
}
