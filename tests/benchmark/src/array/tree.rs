//! An iteration by the tree, with all nodes in one array of structs and a walk that is a loop with a stack of its own: of the
//! cells still to be looked at, or, where RANGES, of the children left on each level. All
//! walks come before the pulls.

use super::{apart, bounds, corner, gradient, middle_of, pace, squared_width, Lists, Moving, DEEPEST};
use crate::contest::Contestant;
use crate::library::Run;

/// A cell of the tree.
#[derive(Clone, Copy)]
struct Node<const C: usize> {
    mass: [f64; C],
    /// The longest side, squared.
    squared: f64,
    count: u32,
    /// The first child; 0 where there is none.
    first: u32,
    /// The point and one; 0 where there is none.
    leaf: u32,
    centre: [f64; C],
    half: [f64; C],
}

impl<const C: usize> Node<C> {
    fn new(centre: [f64; C], half: [f64; C]) -> Node<C> {
        Node {
            mass: [0.0; C],
            squared: squared_width(&half),
            count: 0,
            first: 0,
            leaf: 0,
            centre,
            half,
        }
    }

    fn absorb(&mut self, p: &[f64; C]) {
        self.count += 1;
        let count = f64::from(self.count);
        let share = (count - 1.0) / count;
        for (mass, v) in self.mass.iter_mut().zip(p) {
            *mass = *mass * share + v / count;
        }
    }

    /// What the node adds as one body.
    fn push(&self, away: &[f64; C], squared: f64, (force, share): &mut Sums<C>) {
        let inverse = 1.0 / (1.0 + squared);
        let part = f64::from(self.count) * inverse;
        *share += part;
        let part = part * inverse;
        for d in 0..C {
            force[d] += part * away[d];
        }
    }
}

/// The repulsion on a point, and its share of the normaliser.
type Sums<const C: usize> = ([f64; C], f64);

/// One iteration by the tree.
pub struct Tree<const C: usize, const RANGES: bool> {
    from: Moving<C>,
    moving: Moving<C>,
    nodes: Vec<Node<C>>,
    lists: Lists,
    squared_angle: f64,
    pace: (f64, f64),
    rate: f64,
    cleared: bool,
}

impl<const C: usize, const RANGES: bool> Tree<C, RANGES> {
    pub fn new(run: &Run) -> Tree<C, RANGES> {
        Tree {
            from: Moving::of(run),
            moving: Moving::of(run),
            nodes: Vec::new(),
            lists: Lists::of(run),
            squared_angle: run.settings.angle * run.settings.angle,
            pace: pace(run.record.iterations()),
            rate: run.settings.rate,
            cleared: run.cleared,
        }
    }

    fn insert(&mut self, j: usize) {
        let p = self.moving.positions[j];
        let mut i = 0;
        for depth in 0.. {
            let node = &mut self.nodes[i];
            node.absorb(&p);
            if node.first == 0 {
                if node.leaf == 0 {
                    node.leaf = j as u32 + 1;
                    return;
                }
                if depth >= DEEPEST {
                    return;
                }
                self.split(i);
            }
            let node = &self.nodes[i];
            i = node.first as usize + corner(&p, &node.centre);
        }
    }

    /// A leaf gets its children, one of which takes its point.
    fn split(&mut self, i: usize) {
        let first = self.nodes.len();
        let node = &mut self.nodes[i];
        let (centre, half, old) = (node.centre, node.half.map(|half| half / 2.0), node.leaf);
        node.first = first as u32;
        node.leaf = 0;
        let child = |corner| Node::new(middle_of(corner, &centre, &half), half);
        self.nodes.extend((0..1 << C).map(child));
        let p = &self.moving.positions[old as usize - 1];
        let child = &mut self.nodes[first + corner(p, &centre)];
        child.absorb(p);
        child.leaf = old;
    }

    /// What the tree does to point j, and its share of the normaliser. On the stack stand the cells still to be looked at.
    fn by_cells(&self, j: usize, stack: &mut [u32; 8 * DEEPEST]) -> Sums<C> {
        let (p, query) = (self.moving.positions[j], j as u32 + 1);
        let mut sums = ([0.0; C], 0.0);
        stack[0] = 0;
        let mut left = 1;
        while left > 0 {
            left -= 1;
            let node = &self.nodes[stack[left] as usize];
            if node.count == 0 || (node.leaf == query && node.count == 1) {
                continue;
            }
            let (away, squared) = apart(&p, &node.mass);
            if node.first == 0 || node.squared < self.squared_angle * squared {
                node.push(&away, squared, &mut sums);
            } else {
                for corner in (0..1 << C).rev() {
                    stack[left] = node.first + corner;
                    left += 1;
                }
            }
        }
        sums
    }

    /// The same. On the stack stand the children still to be looked at, of one level each: the next one and where they end.
    fn by_ranges(&self, j: usize, stack: &mut [(u32, u32); DEEPEST]) -> Sums<C> {
        let (p, query) = (self.moving.positions[j], j as u32 + 1);
        let mut sums = ([0.0; C], 0.0);
        let mut level = 0;
        let (mut at, mut end) = (0, 1);
        loop {
            if at == end {
                if level == 0 {
                    return sums;
                }
                level -= 1;
                (at, end) = stack[level];
                continue;
            }
            let node = &self.nodes[at as usize];
            at += 1;
            if node.count == 0 || (node.leaf == query && node.count == 1) {
                continue;
            }
            let (away, squared) = apart(&p, &node.mass);
            if node.first == 0 || node.squared < self.squared_angle * squared {
                node.push(&away, squared, &mut sums);
            } else {
                stack[level] = (at, end);
                level += 1;
                (at, end) = (node.first, node.first + (1 << C));
            }
        }
    }
}

impl<const C: usize, const RANGES: bool> Contestant for Tree<C, RANGES> {
    fn name(&self) -> &'static str {
        if RANGES {
            "the same, ranges stacked"
        } else {
            "plain Rust over arrays"
        }
    }

    fn reset(&mut self) {
        self.moving.clone_from(&self.from);
        if self.cleared {
            self.nodes.fill(Node::new([0.0; C], [0.0; C]));
        }
    }

    fn work(&mut self) {
        let n = self.moving.positions.len();
        let (centre, half) = bounds(&self.moving.positions);
        self.nodes.clear();
        self.nodes.push(Node::new(centre, half));
        for j in 0..n {
            self.insert(j);
        }
        let (exaggeration, momentum) = self.pace;
        let forces: Vec<_> = if RANGES {
            let mut stack = [(0, 0); DEEPEST];
            (0..n).map(|j| self.by_ranges(j, &mut stack)).collect()
        } else {
            let mut stack = [0; 8 * DEEPEST];
            (0..n).map(|j| self.by_cells(j, &mut stack)).collect()
        };
        let pulls: Vec<_> = (0..n)
            .map(|i| self.lists.pull(i, &self.moving.positions, exaggeration))
            .collect();
        self.moving.step(&gradient(&pulls, &forces), momentum, self.rate);
    }

    fn result(&self) -> Option<Vec<f64>> {
        Some(self.moving.positions.concat())
    }
}
