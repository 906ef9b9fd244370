//! The library's side of a contest.

use crate::contest::Contestant;
use crate::frames;
use brothanchor::{
    divergence, park, parked, prepare, scatter, sizes, take_out, unpark, work, Areas, Method, Node, Record, Rows,
    Settings,
};

/// A run at the start of an iteration.
pub struct Run {
    pub settings: Settings,
    pub table: Vec<f64>,
    pub start: Vec<f64>,
    pub record: Record,
    pub areas: Areas,
    /// Whether what an iteration fills anew is zeroed before each round.
    pub cleared: bool,
}

/// Settings of the contests: n frames of six features on a map of two components.
pub fn settings(method: Method, n: usize) -> Settings {
    Settings {
        n,
        f: 6,
        c: 2,
        method,
        perplexity: 30.0,
        rate: 200.0,
        iterations: 1000,
        angle: 0.5,
        minimum: 0.0,
    }
}

/// A run after so many iterations.
pub fn prepared(settings: Settings, iterations: usize) -> Run {
    let (n, c) = (settings.n, settings.c);
    let sizes = sizes(&settings).expect("good settings");
    let mut areas = Areas::new(&sizes, (5 << c) * n);
    let table = frames(n);
    let mut start = vec![0.0; c * n];
    scatter(&mut start, n as u32, c as u32, 1).expect("room for all");
    let mut record =
        prepare(&settings.words(), &table, &start, &mut areas, &mut Rows::new(&sizes)).expect("a good run");
    work(&mut record, &mut areas, (iterations * settings.iteration()) as u32);
    assert_eq!(record.iterations(), iterations as u64, "the arena is long enough");
    Run {
        settings,
        table,
        start,
        record,
        areas,
        cleared: false,
    }
}

/// One iteration by the library.
pub struct Working {
    from: (Record, [Vec<f64>; 3]),
    record: Record,
    areas: Areas,
    iteration: u32,
    cleared: bool,
}

impl Working {
    pub fn new(run: &Run) -> Working {
        let areas = run.areas.clone();
        Working {
            from: (
                run.record,
                [areas.positions.clone(), areas.increments.clone(), areas.gains.clone()],
            ),
            record: run.record,
            areas,
            iteration: run.settings.iteration() as u32,
            cleared: run.cleared,
        }
    }

    /// So many units in one call.
    pub fn units(&mut self, budget: u32) {
        let worked = work(&mut self.record, &mut self.areas, budget);
        assert_eq!(worked.units, u64::from(budget));
    }
}

impl Contestant for Working {
    fn name(&self) -> &'static str {
        "the library"
    }

    fn reset(&mut self) {
        let (record, [positions, increments, gains]) = &self.from;
        self.record = *record;
        self.areas.positions.copy_from_slice(positions);
        self.areas.increments.copy_from_slice(increments);
        self.areas.gains.copy_from_slice(gains);
        if self.cleared {
            self.areas.forces.fill(0.0);
            self.areas.nodes.fill(Node::default());
        }
    }

    fn work(&mut self) {
        self.units(self.iteration);
    }

    fn result(&self) -> Option<Vec<f64>> {
        Some(self.areas.positions.clone())
    }
}

/// A preparation by the library.
pub struct Preparing {
    settings: Settings,
    table: Vec<f64>,
    start: Vec<f64>,
    areas: Areas,
    rows: Rows,
}

impl Preparing {
    pub fn new(run: &Run) -> Preparing {
        Preparing {
            settings: run.settings,
            table: run.table.clone(),
            start: run.start.clone(),
            areas: run.areas.clone(),
            rows: Rows::new(&sizes(&run.settings).expect("good settings")),
        }
    }
}

impl Contestant for Preparing {
    fn name(&self) -> &'static str {
        "the library"
    }

    fn reset(&mut self) {
        self.areas.affinities.fill(0.0);
    }

    fn work(&mut self) {
        prepare(
            &self.settings.words(),
            &self.table,
            &self.start,
            &mut self.areas,
            &mut self.rows,
        )
        .expect("a good run");
    }

    fn result(&self) -> Option<Vec<f64>> {
        Some(self.areas.affinities.clone())
    }
}

/// The figure of the iteration just finished. The positions stand for their copy: the work is the same.
pub struct Telling {
    record: Record,
    areas: Areas,
    copy: Vec<f64>,
    figure: f64,
}

impl Telling {
    pub fn new(run: &Run) -> Telling {
        Telling {
            record: run.record,
            areas: run.areas.clone(),
            copy: run.areas.positions.clone(),
            figure: 0.0,
        }
    }
}

impl Contestant for Telling {
    fn name(&self) -> &'static str {
        "the figure"
    }

    fn reset(&mut self) {
        self.figure = 0.0;
    }

    fn work(&mut self) {
        self.figure = divergence(&self.record, &self.areas, &self.copy).expect("an iteration has just ended");
    }

    fn result(&self) -> Option<Vec<f64>> {
        None
    }
}

/// So many frames taken out of a run, every tenth from the first on.
pub struct Thinning {
    from: (Record, Areas, Vec<f64>),
    gone: Vec<u32>,
    record: Record,
    areas: Areas,
    table: Vec<f64>,
    old: Vec<u32>,
}

impl Thinning {
    pub fn new(run: &Run, frames: u32) -> Thinning {
        Thinning {
            from: (run.record, run.areas.clone(), run.table.clone()),
            gone: (0..frames).map(|i| 10 * i).collect(),
            record: run.record,
            areas: run.areas.clone(),
            table: run.table.clone(),
            old: vec![0; run.settings.n],
        }
    }
}

impl Contestant for Thinning {
    fn name(&self) -> &'static str {
        "taking frames out"
    }

    fn reset(&mut self) {
        self.record = self.from.0;
        self.areas.clone_from(&self.from.1);
        self.table.clone_from(&self.from.2);
    }

    fn work(&mut self) {
        let (areas, table) = (&mut self.areas, &mut self.table);
        let left = take_out(&mut self.record, areas, table, &self.gone, &mut self.old);
        assert_eq!(left, Ok(self.old.len() - self.gone.len()));
    }

    fn result(&self) -> Option<Vec<f64>> {
        None
    }
}

/// A run written into its file.
pub struct Parking {
    record: Record,
    areas: Areas,
    file: Vec<u8>,
}

impl Parking {
    pub fn new(run: &Run) -> Parking {
        Parking {
            record: run.record,
            areas: run.areas.clone(),
            file: parked(&run.record, &run.areas).expect("between two iterations"),
        }
    }
}

impl Contestant for Parking {
    fn name(&self) -> &'static str {
        "parking"
    }

    fn reset(&mut self) {
        self.file.fill(0);
    }

    fn work(&mut self) {
        let records = park(&self.record, &self.areas, &mut self.file);
        assert_eq!(records.map(|records| 32 * records), Ok(self.file.len()));
    }

    fn result(&self) -> Option<Vec<f64>> {
        Some(values(&self.file))
    }
}

/// A run read back from its file.
pub struct Reading {
    areas: Areas,
    file: Vec<u8>,
}

impl Reading {
    pub fn new(run: &Run) -> Reading {
        Reading {
            areas: run.areas.clone(),
            file: parked(&run.record, &run.areas).expect("between two iterations"),
        }
    }
}

impl Contestant for Reading {
    fn name(&self) -> &'static str {
        "reading"
    }

    fn reset(&mut self) {
        self.areas.affinities.fill(0.0);
    }

    fn work(&mut self) {
        unpark(&self.file, &mut self.areas).expect("what was written");
    }

    fn result(&self) -> Option<Vec<f64>> {
        None
    }
}

/// A copy of a parked run's bytes.
pub struct Copying {
    from: Vec<u8>,
    to: Vec<u8>,
}

impl Copying {
    pub fn new(run: &Run) -> Copying {
        let from = parked(&run.record, &run.areas).expect("between two iterations");
        let to = from.clone();
        Copying { from, to }
    }
}

impl Contestant for Copying {
    fn name(&self) -> &'static str {
        "a copy of the bytes"
    }

    fn reset(&mut self) {
        self.to.fill(0);
    }

    fn work(&mut self) {
        self.to.copy_from_slice(&self.from);
    }

    fn result(&self) -> Option<Vec<f64>> {
        Some(values(&self.to))
    }
}

/// Bytes as values, to be compared.
fn values(bytes: &[u8]) -> Vec<f64> {
    bytes.iter().map(|&byte| f64::from(byte)).collect()
}
