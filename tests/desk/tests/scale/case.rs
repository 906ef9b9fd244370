//! A case: settings, table, start, and areas that are long enough or not quite.

use crate::random::Random;
use brothanchor::{sizes, Areas, Method, Node, Rows, Settings, Sizes};

/// What one run starts from.
pub struct Case {
    pub settings: Settings,
    pub table: Vec<f64>,
    pub start: Vec<f64>,
    pub areas: Areas,
    pub rows: Rows,
}

/// How large a case may be.
#[derive(Clone, Copy)]
pub struct Scope {
    pub exact: usize,
    pub tree: usize,
}

impl Case {
    /// A case from a seed; one in ten is to be refused by its preparation.
    pub fn new(random: &mut Random, scope: Scope) -> Case {
        let settings = settings(random, scope);
        let Settings { n, f, c, .. } = settings;
        let sizes = sizes(&settings).expect("good settings");
        let nodes = nodes(random, &sizes);
        let (areas, rows) = areas(random, &sizes, nodes);
        let (frames, places) = (random.below(5), random.below(5));
        let mut case = Case {
            settings,
            table: table(random, n, f, frames),
            start: start(random, n * c, places),
            areas,
            rows,
        };
        if random.once_in(10) {
            case.spoil(random);
        }
        case
    }

    /// A case that is not refused, by these settings and with so many nodes.
    pub fn good(random: &mut Random, settings: Settings, nodes: usize) -> Case {
        let Settings { n, f, c, .. } = settings;
        let sizes = sizes(&settings).expect("good settings");
        let (areas, rows) = areas(random, &sizes, nodes.min(sizes.nodes));
        let (frames, places) = (random.below(5), random.below(5));
        Case {
            settings,
            table: table(random, n, f, frames),
            start: start(random, n * c, places),
            areas,
            rows,
        }
    }

    /// As many frames as may be, in clusters, for one iteration.
    pub fn largest(random: &mut Random, method: Method, c: usize, perplexity: f64) -> Case {
        let (n, f) = (4096, 6);
        let settings = Settings {
            n,
            f,
            c,
            method,
            perplexity,
            rate: 100.0,
            iterations: 1,
            angle: 0.5,
            minimum: 0.0,
        };
        let sizes = sizes(&settings).expect("good settings");
        let (areas, rows) = areas(random, &sizes, sizes.nodes.min(100_000));
        Case {
            settings,
            table: table(random, n, f, 1),
            start: start(random, n * c, 2),
            areas,
            rows,
        }
    }

    /// One thing that preparation refuses, or nearly so.
    pub fn spoil(&mut self, random: &mut Random) {
        let settings = &mut self.settings;
        match random.below(12) {
            0 => settings.c = random.one_of(&[0, 4, 9, usize::MAX]),
            1 => settings.perplexity = random.odd_value(),
            2 => settings.rate = random.odd_value(),
            3 => settings.iterations = random.one_of(&[0, 65_535, 65_536]),
            4 => settings.angle = random.odd_value(),
            5 => settings.n = random.one_of(&[0, 1, 4097]),
            6 => settings.f = random.one_of(&[0, 257, usize::MAX]),
            7 => settings.perplexity = settings.n as f64,
            8 => put(&mut self.table, random),
            9 => put(&mut self.start, random),
            10 => drop(self.table.pop()),
            _ => shorten(&mut self.areas, random.below(8)),
        }
    }
}

/// An odd value somewhere.
fn put(values: &mut [f64], random: &mut Random) {
    let place = random.below(values.len());
    values[place] = random.odd_value();
}

/// Takes the last element of one of the eight areas.
pub fn shorten(areas: &mut Areas, which: usize) {
    match which {
        0 => drop(areas.positions.pop()),
        1 => drop(areas.increments.pop()),
        2 => drop(areas.gains.pop()),
        3 => drop(areas.affinities.pop()),
        4 => drop(areas.indices.pop()),
        5 => drop(areas.offsets.pop()),
        6 => drop(areas.forces.pop()),
        _ => drop(areas.nodes.pop()),
    }
}

fn settings(random: &mut Random, scope: Scope) -> Settings {
    let method = random.one_of(&[Method::Exact, Method::BarnesHut]);
    let (most, components) = match method {
        Method::Exact => (scope.exact, 8),
        Method::BarnesHut => (scope.tree, 3),
    };
    let n = random.between(2.0, most as f64 + 1.0) as usize;
    let long = n <= 8 && random.once_in(3);
    Settings {
        n,
        f: if random.once_in(20) { 256 } else { random.within(1, 8) },
        c: random.within(1, components),
        method,
        perplexity: random.between(0.3, 60.0).min(n as f64 * 0.999),
        rate: random.between(0.1, 2000.0),
        iterations: if long {
            random.within(250, 256)
        } else {
            random.within(1, 4)
        },
        angle: random.one_of(&[0.0, 0.3, 0.5, 0.8, 0.99]),
        minimum: random.one_of(&[0.0, f64::NAN, 1e-7, 1e-3, 1e9]),
    }
}

/// Frames at random, in clusters, with ties, all alike, or at the ends of the domain.
fn table(random: &mut Random, n: usize, f: usize, kind: usize) -> Vec<f64> {
    let heaps: Vec<f64> = (0..4 * f).map(|_| random.unit() * 50.0).collect();
    let one = |i: usize| {
        let value = random.unit() - 0.5;
        match kind {
            0 => value * 10.0,
            1 => heaps[(i / f % 4) * f + i % f] + value * 0.1,
            2 => (value * 6.0).round(),
            3 => heaps[i % f],
            _ => (value * 2_097_152.0).clamp(-1_048_576.0, 1_048_576.0),
        }
    };
    (0..n * f).map(one).collect()
}

/// Starts close together, wide apart, on a grid, or all in one place.
fn start(random: &mut Random, cells: usize, kind: usize) -> Vec<f64> {
    let one = |_| {
        let value = random.unit() - 0.5;
        match kind {
            0 | 1 => value * 1e-4,
            2 => value * 100.0,
            3 => (value * 8.0).round(),
            _ => 3.25,
        }
    };
    (0..cells).map(one).collect()
}

/// An arena that is large enough, or only to begin with.
fn nodes(random: &mut Random, sizes: &Sizes) -> usize {
    if random.once_in(2) {
        sizes.nodes
    } else {
        random.within(1, 1 + sizes.nodes.min(200))
    }
}

/// Areas of marks, each a little longer than asked for.
fn areas(random: &mut Random, sizes: &Sizes, nodes: usize) -> (Areas, Rows) {
    let mut more = |asked: usize| asked + random.below(4);
    let areas = Areas {
        positions: values(more(sizes.cells)),
        increments: values(more(sizes.cells)),
        gains: values(more(sizes.cells)),
        affinities: values(more(sizes.affinities)),
        indices: numbers(more(sizes.indices)),
        offsets: numbers(more(sizes.offsets)),
        forces: values(more(sizes.forces)),
        nodes: marked_nodes(more(nodes)),
    };
    let rows = Rows {
        values: values(more(sizes.rows)),
        indices: numbers(more(sizes.rows)),
    };
    (areas, rows)
}

/// A mark for each place.
pub fn values(length: usize) -> Vec<f64> {
    (0..length).map(value).collect()
}

pub fn numbers(length: usize) -> Vec<u32> {
    (0..length).map(number).collect()
}

/// A mark for each of the twelve words of each node.
pub fn marked_nodes(length: usize) -> Vec<Node> {
    let three = |place: usize| [value(place), value(place + 1), value(place + 2)];
    let node = |i: usize| Node {
        centre: three(12 * i),
        half: three(12 * i + 3),
        mass: three(12 * i + 6),
        count: number(12 * i + 9),
        first: number(12 * i + 10),
        leaf: number(12 * i + 11),
    };
    (0..length).map(node).collect()
}

fn value(place: usize) -> f64 {
    f64::from_bits(0x4000_0000_0000_0000 + place as u64)
}

fn number(place: usize) -> u32 {
    0x4000_0000 + place as u32
}
