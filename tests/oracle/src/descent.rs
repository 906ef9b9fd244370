//! The whole descent as the scope paper has it: settings, preparation, the run record, and the work call by units.

use crate::elementary::{absolute, at_least, in_domain, neighbours};
use crate::preparation::Table;
use crate::scatter::{MOST_COMPONENTS, MOST_SAMPLES};
use crate::step::{Moving, REFUSED};
use crate::tree::{self, Node};

/// The most features, the most iterations, the most components of a Barnes-Hut run.
const MOST_FEATURES: usize = 256;
const MOST_ITERATIONS: usize = 65_535;
const MOST_TREE_COMPONENTS: usize = 3;
/// The iterations with exaggeration, which no early stop ends.
const EXAGGERATED: usize = 250;
/// The least Z, and the least q: 2^-52.
const LEAST: f64 = f64::EPSILON;

/// Which gradient a run goes by.
#[derive(Clone, Copy, Debug, PartialEq, Eq)]
pub enum Method {
    /// Every pair of frames.
    Exact,
    /// The tree.
    BarnesHut,
}

/// How a run stands.
#[derive(Clone, Copy, Debug, PartialEq, Eq)]
pub enum Standing {
    /// Not yet at its end.
    Running,
    /// The gradient's norm was below the minimum.
    Stopped,
    /// All iterations are done.
    Finished,
}

/// What a run goes by.
#[derive(Clone, Copy, Debug, PartialEq)]
pub struct Settings {
    /// Samples.
    pub n: usize,
    /// Features.
    pub f: usize,
    /// Components.
    pub c: usize,
    /// Exact or Barnes-Hut.
    pub method: Method,
    /// The perplexity.
    pub perplexity: f64,
    /// The learning rate.
    pub rate: f64,
    /// How many iterations.
    pub iterations: usize,
    /// The angle of a Barnes-Hut run.
    pub angle: f64,
    /// The norm below which a run stops.
    pub minimum: f64,
}

/// Finite and above 0.
fn is_positive(v: f64) -> bool {
    v.is_finite() && v > 0.0
}

impl Settings {
    /// The number of the first of 1 to 6 that applies, or 7 for n or f.
    pub(crate) fn early_fault(&self) -> Option<u64> {
        let tree = self.method == Method::BarnesHut;
        let tests = [
            (self.c == 0 || self.c > MOST_COMPONENTS, 1),
            (!is_positive(self.perplexity), 2),
            (!is_positive(self.rate), 3),
            (self.iterations == 0 || self.iterations > MOST_ITERATIONS, 4),
            (tree && !(self.angle >= 0.0 && self.angle < 1.0), 5),
            (tree && self.c > MOST_TREE_COMPONENTS, 6),
            (self.n == 0 || self.n > MOST_SAMPLES, 7),
            (self.f == 0 || self.f > MOST_FEATURES, 7),
        ];
        tests.iter().find(|test| test.0).map(|test| test.1)
    }

    /// 9 or 10.
    pub(crate) fn late_fault(&self) -> Option<u64> {
        if self.n == 1 {
            return Some(9);
        }
        (self.perplexity >= self.n as f64).then_some(10)
    }

    /// The number of the first of 1 to 10 that applies to the settings alone.
    pub(crate) fn fault(&self) -> Option<u64> {
        self.early_fault().or_else(|| self.late_fault())
    }

    /// The units of an iteration.
    pub fn iteration(&self) -> usize {
        match self.method {
            Method::Exact => 2 * self.n + 1,
            Method::BarnesHut => 2 * self.n + 2,
        }
    }

    /// Places for weights and indices in the lists: 2·n·k.
    pub fn links(&self) -> usize {
        2 * self.n * neighbours(self.perplexity, self.n)
    }

    /// Places of the positions: n·c.
    fn cells(&self) -> usize {
        self.n * self.c
    }
}

/// The run record.
#[derive(Clone, Copy, Debug, PartialEq)]
pub struct Record {
    /// What the run goes by.
    pub settings: Settings,
    /// How it stands.
    pub standing: Standing,
    /// Iterations done.
    pub done: usize,
    /// Units done in the current iteration.
    pub phase: usize,
    /// Units done in all.
    pub units: usize,
    /// Nodes in use.
    pub used: usize,
}

impl Record {
    /// Whether total, phase and state fit each other.
    fn counters_fit(&self) -> bool {
        let whole = self.done as u128 * self.settings.iteration() as u128;
        let begun = match (self.units as u128).checked_sub(whole) {
            Some(begun) => begun,
            None => return false,
        };
        let set = self.settings.iterations;
        let state = match self.standing {
            Standing::Running => self.done < set,
            Standing::Finished => self.done == set && begun == 0,
            Standing::Stopped => {
                self.done > EXAGGERATED && self.done <= set && self.settings.minimum > 0.0 && begun == 0
            }
        };
        state && begun < self.settings.iteration() as u128 && self.phase as u128 == begun
    }
}

/// What is lent to a work call.
#[derive(Clone, Debug, PartialEq)]
pub struct Areas {
    /// n·c.
    pub positions: Vec<f64>,
    /// n·c.
    pub increments: Vec<f64>,
    /// n·c.
    pub gains: Vec<f64>,
    /// The n·n affinities of an exact run, the 2·n·k weights of a Barnes-Hut run.
    pub affinities: Vec<f64>,
    /// 2·n·k.
    pub indices: Vec<u32>,
    /// n + 1.
    pub offsets: Vec<u32>,
    /// n·(2c + 1).
    pub forces: Vec<f64>,
    /// The arena: at least one node.
    pub nodes: Vec<Node>,
}

/// What is lent to preparation besides.
#[derive(Clone, Debug, PartialEq)]
pub struct Rows {
    /// n values.
    pub values: Vec<f64>,
    /// n indices.
    pub indices: Vec<u32>,
}

/// What a work call finds bad before it does any unit.
#[derive(Clone, Copy, Debug, PartialEq, Eq)]
pub enum Fault {
    /// The settings, by the number that they would have had.
    Settings(u64),
    /// The counters or the phase.
    Counters,
    /// An area is too short.
    Areas,
    /// An offset, by the frame whose list it ends; 0 for the first offset, which ends none.
    Offsets(usize),
    /// A listed index, by its place.
    Index(usize),
    /// The tree, by its lowest faulty node; 0 where the number of nodes in use is bad.
    Tree(usize),
}

impl Fault {
    /// The number that a call is refused by.
    pub fn number(self) -> u64 {
        match self {
            Fault::Settings(_) => 21,
            Fault::Counters => 22,
            Fault::Areas => 12,
            Fault::Offsets(_) => 23,
            Fault::Index(_) => 24,
            Fault::Tree(_) => 25,
        }
    }

    /// What comes with the number: a number of the settings, a frame, a place, a node; else 0.
    pub fn place(self) -> u64 {
        match self {
            Fault::Settings(number) => number,
            Fault::Offsets(place) | Fault::Index(place) | Fault::Tree(place) => place as u64,
            Fault::Counters | Fault::Areas => 0,
        }
    }
}

/// What a work call answers: a state with the units done, or the number of a refusal with the units done before it.
#[derive(Clone, Copy, Debug, PartialEq, Eq)]
pub enum Answer {
    /// The budget is used up.
    Running(u64),
    /// The run has stopped.
    Stopped(u64),
    /// The run has finished.
    Finished(u64),
    /// 12 or 21 to 25 before any unit; 14 or 15 by a unit.
    Refused(u64, u64),
}

impl Areas {
    /// Whether each area is long enough.
    pub fn fit(&self, settings: &Settings) -> bool {
        let cells = settings.cells();
        let of_the_method = match settings.method {
            Method::Exact => self.affinities.len() >= settings.n * settings.n,
            Method::BarnesHut => {
                self.affinities.len() >= settings.links()
                    && self.indices.len() >= settings.links()
                    && self.offsets.len() > settings.n
                    && tree::room(&self.nodes) > 0
            }
        };
        self.positions.len() >= cells
            && self.increments.len() >= cells
            && self.gains.len() >= cells
            && self.forces.len() >= settings.n * (2 * settings.c + 1)
            && of_the_method
    }

    /// The first thing in a Barnes-Hut run's contents that is not in order.
    fn fault(&self, record: &Record) -> Option<Fault> {
        let Settings { n, c, .. } = record.settings;
        let offsets: Vec<usize> = self.offsets[..=n].iter().map(|&offset| offset as usize).collect();
        let most = record.settings.links();
        if offsets[0] != 0 {
            return Some(Fault::Offsets(0));
        }
        if let Some(i) = (0..n).find(|&i| offsets[i + 1] < offsets[i] || offsets[i + 1] > most) {
            return Some(Fault::Offsets(i));
        }
        if let Some(place) = self.indices[..offsets[n]].iter().position(|&j| j as usize >= n) {
            return Some(Fault::Index(place));
        }
        if record.phase == 0 {
            return None;
        }
        tree::fault(&self.nodes, record.used, n, c).map(Fault::Tree)
    }
}

/// Prepares a run: the record, or the number of the first test that fails; then nothing has changed.
pub fn prepare(
    settings: Settings,
    table: &[f64],
    start: &[f64],
    areas: &mut Areas,
    rows: &mut Rows,
) -> Result<Record, u64> {
    refusal(&settings, table, start, areas, rows).map_or(Ok(()), Err)?;
    let Settings { n, f, c, .. } = settings;
    let cells = settings.cells();
    areas.positions[..cells].copy_from_slice(start);
    areas.increments[..cells].fill(0.0);
    areas.gains[..cells].fill(1.0);
    areas.forces[..n * (2 * c + 1)].fill(0.0);
    rows.values[..n].fill(0.0);
    rows.indices[..n].fill(0);
    let table = Table { n, f, values: table };
    match settings.method {
        Method::Exact => areas.affinities[..n * n].copy_from_slice(&table.exact(settings.perplexity)),
        Method::BarnesHut => {
            let mut place = 0;
            areas.offsets[0] = 0;
            for (i, list) in table.lists(settings.perplexity).iter().enumerate() {
                for &(j, weight) in list {
                    areas.indices[place] = j as u32;
                    areas.affinities[place] = weight;
                    place += 1;
                }
                areas.offsets[i + 1] = place as u32;
            }
        }
    }
    Ok(Record {
        settings,
        standing: Standing::Running,
        done: 0,
        phase: 0,
        units: 0,
        used: 0,
    })
}

/// The first of 1 to 12 that applies.
pub(crate) fn refusal(settings: &Settings, table: &[f64], start: &[f64], areas: &Areas, rows: &Rows) -> Option<u64> {
    let outside = |values: &[f64]| values.iter().any(|&v| !in_domain(v));
    if let Some(number) = settings.early_fault() {
        return Some(number);
    }
    if table.len() != settings.n * settings.f {
        return Some(7);
    }
    if outside(table) {
        return Some(8);
    }
    if let Some(number) = settings.late_fault() {
        return Some(number);
    }
    if start.len() != settings.cells() || outside(start) {
        return Some(11);
    }
    let rows_fit = rows.values.len() >= settings.n && rows.indices.len() >= settings.n;
    (!areas.fit(settings) || !rows_fit).then_some(12)
}

/// What a work call would be refused by at its entry: the record first, then the areas, then the contents.
pub fn fault(record: &Record, areas: &Areas) -> Option<Fault> {
    fault_beside(record, areas, |_| true)
}

/// The same of a call that is lent something besides, which has to be long enough by good settings: it is tested with the areas.
pub fn fault_beside(record: &Record, areas: &Areas, beside: impl Fn(&Settings) -> bool) -> Option<Fault> {
    let settings = &record.settings;
    if let Some(number) = settings.fault() {
        return Some(Fault::Settings(number));
    }
    if !record.counters_fit() {
        return Some(Fault::Counters);
    }
    if !areas.fit(settings) || !beside(settings) {
        return Some(Fault::Areas);
    }
    match settings.method {
        Method::Exact => None,
        Method::BarnesHut => areas.fault(record),
    }
}

/// A work call.
pub fn work(record: &mut Record, areas: &mut Areas, budget: u32) -> Answer {
    let settings = record.settings;
    if let Some(fault) = fault(record, areas) {
        return Answer::Refused(fault.number(), 0);
    }
    let mut units = 0;
    while record.standing == Standing::Running && units < u64::from(budget) {
        let done = match settings.method {
            Method::Exact => exact_unit(record, areas),
            Method::BarnesHut => tree_unit(record, areas),
        };
        if let Err(number) = done {
            return Answer::Refused(number, units);
        }
        units += 1;
    }
    match record.standing {
        Standing::Running => Answer::Running(units),
        Standing::Stopped => Answer::Stopped(units),
        Standing::Finished => Answer::Finished(units),
    }
}

impl Record {
    /// 12 in the first iterations, then 1.
    fn exaggeration(&self) -> f64 {
        if self.done < EXAGGERATED {
            12.0
        } else {
            1.0
        }
    }

    /// 0.5 in the first iterations, then 0.8.
    fn momentum(&self) -> f64 {
        if self.done < EXAGGERATED {
            0.5
        } else {
            0.8
        }
    }

    /// One unit more within an iteration.
    fn advance(&mut self) {
        self.phase += 1;
        self.units += 1;
    }
}

/// One unit of a Barnes-Hut run: box, insertions, forces, finish.
fn tree_unit(record: &mut Record, areas: &mut Areas) -> Result<(), u64> {
    let Settings { n, c, angle, .. } = record.settings;
    let phase = record.phase;
    if phase == 0 {
        tree::plant(&mut areas.nodes, &areas.positions, n, c);
        record.used = 1;
    } else if phase <= n {
        let grown = tree::insert(&mut areas.nodes, record.used, &areas.positions, c, phase - 1);
        record.used = grown.ok_or(14_u64)?;
    } else if phase <= 2 * n {
        let i = phase - n - 1;
        let (repulsion, share) = tree::repulsion(&areas.nodes, &areas.positions, c, i, angle);
        let attraction = attraction(areas, c, i, record.exaggeration());
        let forces = &mut areas.forces[i * (2 * c + 1)..(i + 1) * (2 * c + 1)];
        forces[..c].copy_from_slice(&attraction[..c]);
        forces[c..2 * c].copy_from_slice(&repulsion[..c]);
        forces[2 * c] = share;
    } else {
        let gradient = tree_gradient(&areas.forces, n, c);
        return finish(record, areas, &gradient);
    }
    record.advance();
    Ok(())
}

/// What point i's links pull.
fn attraction(areas: &Areas, c: usize, i: usize, exaggeration: f64) -> [f64; 3] {
    let mut pulled = [0.0; 3];
    for place in areas.offsets[i] as usize..areas.offsets[i + 1] as usize {
        let j = areas.indices[place] as usize;
        let mut apart = [0.0; 3];
        let mut squared = 0.0;
        for (d, apart) in apart.iter_mut().enumerate().take(c) {
            *apart = areas.positions[i * c + d] - areas.positions[j * c + d];
            squared += *apart * *apart;
        }
        let pull = exaggeration * areas.affinities[place] / (1.0 + squared);
        for d in 0..c {
            pulled[d] += pull * apart[d];
        }
    }
    pulled
}

/// 4·(attraction − repulsion/Z), with Z the sum of the shares, at least 2^-52.
fn tree_gradient(forces: &[f64], n: usize, c: usize) -> Vec<f64> {
    let rows: Vec<&[f64]> = forces.chunks(2 * c + 1).take(n).collect();
    let mut z = 0.0;
    for row in &rows {
        z += row[2 * c];
    }
    let z = at_least(z, LEAST);
    rows.iter()
        .flat_map(|row| (0..c).map(move |d| 4.0 * (row[d] - row[c + d] / z)))
        .collect()
}

/// One unit of an exact run: rows of the total, rows of the gradient, finish.
fn exact_unit(record: &mut Record, areas: &mut Areas) -> Result<(), u64> {
    let Settings { n, c, .. } = record.settings;
    let phase = record.phase;
    let total = n * c;
    if phase < n {
        let mut sum = if phase == 0 { 0.0 } else { areas.forces[total] };
        for j in 0..n {
            sum += numerator(&areas.positions, c, phase, j);
        }
        areas.forces[total] = sum;
    } else if phase < 2 * n {
        let i = phase - n;
        let row = exact_row(record, areas, i);
        areas.forces[i * c..(i + 1) * c].copy_from_slice(&row);
    } else {
        let gradient = areas.forces[..total].to_vec();
        return finish(record, areas, &gradient);
    }
    record.advance();
    Ok(())
}

/// The Student-t numerator of two frames; 0 for a frame and itself.
fn numerator(positions: &[f64], c: usize, i: usize, j: usize) -> f64 {
    if i == j {
        return 0.0;
    }
    let mut squared = 0.0;
    for d in 0..c {
        let apart = positions[i * c + d] - positions[j * c + d];
        squared += apart * apart;
    }
    1.0 / (1.0 + squared)
}

/// Frame i's gradient: (y·s − Σ w·y)·4.
fn exact_row(record: &Record, areas: &Areas, i: usize) -> Vec<f64> {
    let Settings { n, c, .. } = record.settings;
    let total = areas.forces[n * c];
    let weight = |j: usize| {
        let numerator = numerator(&areas.positions, c, i, j);
        let q = at_least(numerator / total, LEAST);
        (areas.affinities[i * n + j] * record.exaggeration() - q) * numerator
    };
    let weights: Vec<f64> = (0..n).map(weight).collect();
    let mut sum = 0.0;
    for w in &weights {
        sum += w;
    }
    let along = |d: usize| {
        let mut along = 0.0;
        for (j, w) in weights.iter().enumerate() {
            along += w * areas.positions[j * c + d];
        }
        (areas.positions[i * c + d] * sum - along) * 4.0
    };
    (0..c).map(along).collect()
}

/// The step, or 15; then the test whether the run ends, by stopping first.
fn finish(record: &mut Record, areas: &mut Areas, gradient: &[f64]) -> Result<(), u64> {
    let settings = record.settings;
    let cells = settings.cells();
    let mut moving = Moving {
        positions: areas.positions[..cells].to_vec(),
        increments: areas.increments[..cells].to_vec(),
        gains: areas.gains[..cells].to_vec(),
    };
    if moving.step(settings.c, record.momentum(), settings.rate, gradient) == REFUSED {
        return Err(REFUSED);
    }
    areas.positions[..cells].copy_from_slice(&moving.positions);
    areas.increments[..cells].copy_from_slice(&moving.increments);
    areas.gains[..cells].copy_from_slice(&moving.gains);
    let mut norm = 0.0;
    for &g in gradient {
        norm = at_least(absolute(g), norm);
    }
    let stops = record.done >= EXAGGERATED && settings.minimum > 0.0 && norm < settings.minimum;
    record.done += 1;
    record.phase = 0;
    record.units += 1;
    if stops {
        record.standing = Standing::Stopped;
    } else if record.done == settings.iterations {
        record.standing = Standing::Finished;
    }
    Ok(())
}

#[cfg(test)]
mod tests;
