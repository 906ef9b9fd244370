//! A run: its settings, its record, its areas, and the calls on them.

use crate::library;
use crate::Refusal;
use std::mem::size_of;

/// Which gradient a run goes by.
#[derive(Clone, Copy, Debug, PartialEq, Eq)]
pub enum Method {
    /// Every pair of frames.
    Exact = 0,
    /// The tree.
    BarnesHut = 1,
}

/// What a run goes by.
#[derive(Clone, Copy, Debug, PartialEq)]
pub struct Settings {
    /// Samples: the frames on the map.
    pub n: usize,
    /// Features of a frame.
    pub f: usize,
    /// Components of the map.
    pub c: usize,
    /// Exact or Barnes-Hut.
    pub method: Method,
    /// The perplexity.
    pub perplexity: f64,
    /// The learning rate.
    pub rate: f64,
    /// How many iterations.
    pub iterations: usize,
    /// The angle; not looked at in an exact run.
    pub angle: f64,
    /// The gradient below which a run stops; NaN, zero or negative never stops one.
    pub minimum: f64,
}

impl Settings {
    /// The settings as nine words.
    pub fn words(&self) -> [u64; 9] {
        [
            self.n as u64,
            self.f as u64,
            self.c as u64,
            self.method as u64,
            self.perplexity.to_bits(),
            self.rate.to_bits(),
            self.iterations as u64,
            self.angle.to_bits(),
            self.minimum.to_bits(),
        ]
    }

    /// The units of an iteration.
    pub fn iteration(&self) -> usize {
        match self.method {
            Method::Exact => 2 * self.n + 1,
            Method::BarnesHut => 2 * self.n + 2,
        }
    }
}

/// How a run stands.
#[derive(Clone, Copy, Debug, PartialEq, Eq)]
pub enum State {
    /// Not yet at its end.
    Running,
    /// The gradient was below the minimum.
    Stopped,
    /// All iterations are done.
    Finished,
}

/// A run record, as fourteen words. A host may keep them and come back to them.
#[derive(Clone, Copy, Debug, PartialEq, Eq)]
pub struct Record {
    /// The nine words of the settings, the state, iterations done, units done in the iteration, units in all, nodes in use.
    pub words: [u64; 14],
}

impl Record {
    /// How the run stands, if the words are a record.
    pub fn state(&self) -> Option<State> {
        match unsafe { library::brothanchor_state(self.words.as_ptr(), self.words.len()) } {
            0 => Some(State::Running),
            1 => Some(State::Stopped),
            2 => Some(State::Finished),
            _ => None,
        }
    }

    /// How it ended, in a word.
    pub fn ending(&self) -> &'static str {
        match self.state() {
            Some(State::Stopped) => "stopped",
            Some(State::Finished) => "finished",
            _ => "not at its end",
        }
    }

    /// Iterations done.
    pub fn iterations(&self) -> u64 {
        unsafe { library::brothanchor_iterations(self.words.as_ptr(), self.words.len()) }
    }

    /// Units done in all.
    pub fn units(&self) -> u64 {
        unsafe { library::brothanchor_units(self.words.as_ptr(), self.words.len()) }
    }
}

/// How long the areas must be.
#[derive(Clone, Copy, Debug, PartialEq, Eq)]
pub struct Sizes {
    /// Positions, increments and gains, each.
    pub cells: usize,
    /// Affinities.
    pub affinities: usize,
    /// Indices; 0 for an exact run.
    pub indices: usize,
    /// Offsets; 0 for an exact run.
    pub offsets: usize,
    /// Forces.
    pub forces: usize,
    /// Row values and row indices, each.
    pub rows: usize,
    /// Nodes with which 14 never comes; 0 for an exact run. One is enough to begin.
    pub nodes: usize,
}

/// How long the areas of a run must be.
pub fn sizes(settings: &Settings) -> Result<Sizes, Refusal> {
    let words = settings.words();
    let mut sizes = [0_u64; 7];
    let number = unsafe { library::brothanchor_sizes(words.as_ptr(), words.len(), sizes.as_mut_ptr(), sizes.len()) };
    Refusal::unless_0(number)?;
    let [cells, affinities, indices, offsets, forces, rows, nodes] = sizes.map(|size| size as usize);
    Ok(Sizes {
        cells,
        affinities,
        indices,
        offsets,
        forces,
        rows,
        nodes,
    })
}

/// A node of the arena as it lies in memory, `struct brothanchor_node` of the header: plain numbers, so that any bits
/// are a node.
#[repr(C)]
#[derive(Clone, Copy, Debug, Default, PartialEq)]
pub struct Node {
    /// The middle of the cell, by component.
    pub centre: [f64; 3],
    /// Half the cell's width in each component.
    pub half: [f64; 3],
    /// The mean of the cell's points.
    pub mass: [f64; 3],
    /// How many points lie in the cell.
    pub count: u32,
    /// The number of the first child; 0 for a leaf.
    pub first: u32,
    /// The leaf's point and 1; 0 where it holds none.
    pub leaf: u32,
}

// The library and the header have 88 bytes too.
const _: () = assert!(size_of::<Node>() == 88);

/// What is lent to every call of a run.
#[derive(Clone, Debug, PartialEq)]
pub struct Areas {
    /// Where the frames stand: n·c.
    pub positions: Vec<f64>,
    /// n·c.
    pub increments: Vec<f64>,
    /// n·c.
    pub gains: Vec<f64>,
    /// n·n affinities of an exact run, 2·n·k weights of a Barnes-Hut run.
    pub affinities: Vec<f64>,
    /// 2·n·k.
    pub indices: Vec<u32>,
    /// n + 1.
    pub offsets: Vec<u32>,
    /// n·(2c + 1).
    pub forces: Vec<f64>,
    /// The arena.
    pub nodes: Vec<Node>,
}

impl Areas {
    /// Just as long as asked for, with an arena of so many nodes.
    pub fn new(sizes: &Sizes, nodes: usize) -> Areas {
        Areas {
            positions: vec![0.0; sizes.cells],
            increments: vec![0.0; sizes.cells],
            gains: vec![0.0; sizes.cells],
            affinities: vec![0.0; sizes.affinities],
            indices: vec![0; sizes.indices],
            offsets: vec![0; sizes.offsets],
            forces: vec![0.0; sizes.forces],
            nodes: vec![Node::default(); nodes],
        }
    }
}

/// What is lent to preparation besides.
#[derive(Clone, Debug, PartialEq)]
pub struct Rows {
    /// n values.
    pub values: Vec<f64>,
    /// n numbers.
    pub indices: Vec<u32>,
}

impl Rows {
    /// Just as long as asked for.
    pub fn new(sizes: &Sizes) -> Rows {
        Rows {
            values: vec![0.0; sizes.rows],
            indices: vec![0; sizes.rows],
        }
    }
}

/// What a run is prepared from.
pub(crate) struct Given<'a> {
    /// The settings, as words.
    pub settings: &'a [u64],
    /// The frames' rows.
    pub table: &'a [f64],
    /// Where the frames start.
    pub start: &'a [f64],
}

/// Prepares a run by settings given as words. Refused, nothing has changed.
pub fn prepare(
    settings: &[u64],
    table: &[f64],
    start: &[f64],
    areas: &mut Areas,
    rows: &mut Rows,
) -> Result<Record, Refusal> {
    let mut record = Record { words: [0; 14] };
    let given = Given { settings, table, start };
    prepare_by(library::brothanchor_prepare, &given, areas, rows, &mut record.words).map(|()| record)
}

/// Prepares a run by one of the calls for it, with the record's words in an area of their own.
pub(crate) fn prepare_by(
    call: library::Prepares,
    given: &Given,
    areas: &mut Areas,
    rows: &mut Rows,
    words: &mut [u64],
) -> Result<(), Refusal> {
    Refusal::unless_0(unsafe {
        call(
            given.settings.as_ptr(),
            given.settings.len(),
            given.table.as_ptr(),
            given.table.len(),
            given.start.as_ptr(),
            given.start.len(),
            areas.positions.as_mut_ptr(),
            areas.positions.len(),
            areas.increments.as_mut_ptr(),
            areas.increments.len(),
            areas.gains.as_mut_ptr(),
            areas.gains.len(),
            areas.affinities.as_mut_ptr(),
            areas.affinities.len(),
            areas.indices.as_mut_ptr(),
            areas.indices.len(),
            areas.offsets.as_mut_ptr(),
            areas.offsets.len(),
            areas.forces.as_mut_ptr(),
            areas.forces.len(),
            rows.values.as_mut_ptr(),
            rows.values.len(),
            rows.indices.as_mut_ptr(),
            rows.indices.len(),
            areas.nodes.len(),
            words.as_mut_ptr(),
            words.len(),
        )
    })
}

/// How a work call ended.
#[derive(Clone, Copy, Debug, PartialEq, Eq)]
pub enum Kind {
    /// The budget is done.
    Running,
    /// The run has stopped.
    Stopped,
    /// The run has finished.
    Finished,
    /// Refused: by 12 or 21 to 25 at its entry, by 14 or 15 at a unit.
    Refused(Refusal),
}

/// What was found bad at the entry.
#[derive(Clone, Copy, Debug, PartialEq, Eq)]
pub enum Fault {
    /// The settings, by the number that they would have had.
    Settings(u64),
    /// The counters or the phase, or words that are no record.
    Counters,
    /// An area is too short.
    Areas,
    /// An offset, by the frame whose list it ends; 0 for the first one, which ends none.
    Offsets(u64),
    /// A listed index, by its place.
    Index(u64),
    /// The tree, by its lowest faulty node; 0 where the number of nodes in use is bad.
    Tree(u64),
}

/// What a work call answers.
#[derive(Clone, Copy, Debug, PartialEq, Eq)]
pub struct Worked {
    /// How it ended.
    pub kind: Kind,
    /// The units done in this call.
    pub units: u64,
    /// What was found bad at the entry, if anything.
    pub fault: Option<Fault>,
    /// The five words that say so: kind, number, units, fault and its value.
    pub words: [u64; 5],
}

impl Worked {
    /// What comes with what was found bad; else 0.
    pub fn value(&self) -> u64 {
        self.words[4]
    }

    /// An answer by its five words.
    fn of(words: [u64; 5]) -> Worked {
        let [kind, number, units, fault, value] = words;
        let kind = match kind {
            0 => Kind::Running,
            1 => Kind::Stopped,
            2 => Kind::Finished,
            _ => Kind::Refused(Refusal(number as u32)),
        };
        let fault = match fault {
            1 => Some(Fault::Settings(value)),
            2 => Some(Fault::Counters),
            3 => Some(Fault::Areas),
            4 => Some(Fault::Offsets(value)),
            5 => Some(Fault::Index(value)),
            6 => Some(Fault::Tree(value)),
            _ => None,
        };
        Worked {
            kind,
            units,
            fault,
            words,
        }
    }
}

/// Does units until the budget is done, one is refused or the run has ended.
pub fn work(record: &mut Record, areas: &mut Areas, budget: u32) -> Worked {
    let mut answer = [0; 5];
    let number = unsafe {
        library::brothanchor_work(
            record.words.as_mut_ptr(),
            record.words.len(),
            areas.positions.as_mut_ptr(),
            areas.positions.len(),
            areas.increments.as_mut_ptr(),
            areas.increments.len(),
            areas.gains.as_mut_ptr(),
            areas.gains.len(),
            areas.affinities.as_ptr(),
            areas.affinities.len(),
            areas.indices.as_ptr(),
            areas.indices.len(),
            areas.offsets.as_ptr(),
            areas.offsets.len(),
            areas.forces.as_mut_ptr(),
            areas.forces.len(),
            areas.nodes.as_mut_ptr(),
            areas.nodes.len(),
            budget,
            answer.as_mut_ptr(),
            answer.len(),
        )
    };
    debug_assert_eq!(u64::from(number), answer[1], "the answer area is long enough");
    Worked::of(answer)
}

/// The Kullback-Leibler figure of the iteration just finished. The copy holds the positions before its step, n·c values or
/// more; nothing is changed. Refused: 21, 22, 12 and 23 to 25 as in a work call, with what comes with the number there (a number of
/// the settings, a frame, a place, a node; else 0), 12 also for a short copy; then 17 where no iteration has just ended or the forces
/// give a total of 0.
pub fn divergence(record: &Record, areas: &Areas, copy: &[f64]) -> Result<f64, (Refusal, u64)> {
    let mut answer = [0];
    let number = unsafe {
        library::brothanchor_divergence(
            record.words.as_ptr(),
            record.words.len(),
            areas.positions.as_ptr(),
            areas.positions.len(),
            areas.increments.as_ptr(),
            areas.increments.len(),
            areas.gains.as_ptr(),
            areas.gains.len(),
            areas.affinities.as_ptr(),
            areas.affinities.len(),
            areas.indices.as_ptr(),
            areas.indices.len(),
            areas.offsets.as_ptr(),
            areas.offsets.len(),
            areas.forces.as_ptr(),
            areas.forces.len(),
            areas.nodes.as_ptr(),
            areas.nodes.len(),
            copy.as_ptr(),
            copy.len(),
            answer.as_mut_ptr(),
            answer.len(),
        )
    };
    let [word] = answer;
    Refusal::unless_0(number)
        .map(|()| f64::from_bits(word))
        .map_err(|refusal| (refusal, word))
}
