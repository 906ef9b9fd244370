//! An iteration by the tree, with what the walk reads apart from all else and laid out in the order of the walk: no empty
//! cell, no child links, no stack. A cell is followed by its first child, and says where the walk goes on past it.
//! The tree is made from the root down, the points of a cell put in order by its corners: each cell meets its points by
//! rising number, as insertion has it. Points that lie together walk one after the other, and all walks come before the pulls.

use super::{apart, bounds, corner, gradient, middle_of, pace, squared_width, Lists, Moving, DEEPEST};
use crate::contest::Contestant;
use crate::library::Run;
use std::ops::Range;

/// What the walk reads of a cell.
#[derive(Clone, Copy)]
struct Node<const C: usize> {
    mass: [f64; C],
    /// The longest side, squared; below zero for a leaf, so that it is always narrow enough.
    squared: f64,
    count: u32,
    /// The next cell that is not inside this one.
    past: u32,
}

impl<const C: usize> Default for Node<C> {
    fn default() -> Node<C> {
        Node {
            mass: [0.0; C],
            squared: 0.0,
            count: 0,
            past: 0,
        }
    }
}

/// A point and its number.
#[derive(Clone, Copy)]
struct Point<const C: usize> {
    p: [f64; C],
    j: u32,
}

impl<const C: usize> Default for Point<C> {
    fn default() -> Point<C> {
        Point { p: [0.0; C], j: 0 }
    }
}

/// One iteration by the tree.
pub struct Tree<const C: usize> {
    from: Moving<C>,
    moving: Moving<C>,
    nodes: Vec<Node<C>>,
    /// The points, those of a cell together, by rising number in each.
    points: Vec<Point<C>>,
    /// As many again, to put them in order.
    spare: Vec<Point<C>>,
    /// The leaf that holds a point alone; past all cells where there is none.
    own: Vec<u32>,
    /// The counts from 1 on, and the share that the mass keeps when the last of so many points comes.
    kept: Vec<(f64, f64)>,
    lists: Lists,
    squared_angle: f64,
    pace: (f64, f64),
    rate: f64,
    cleared: bool,
}

impl<const C: usize> Tree<C> {
    pub fn new(run: &Run) -> Tree<C> {
        let n = run.settings.n;
        Tree {
            from: Moving::of(run),
            moving: Moving::of(run),
            nodes: Vec::new(),
            points: vec![Point::default(); n],
            spare: vec![Point::default(); n],
            own: vec![0; n],
            kept: (1..=n)
                .map(|count| count as f64)
                .map(|count| (count, (count - 1.0) / count))
                .collect(),
            lists: Lists::of(run),
            squared_angle: run.settings.angle * run.settings.angle,
            pace: pace(run.record.iterations()),
            rate: run.settings.rate,
            cleared: run.cleared,
        }
    }

    /// The cell of the points in a range, and all cells inside it.
    fn grow(&mut self, range: Range<usize>, centre: &[f64; C], half: &[f64; C], depth: usize) {
        let me = self.nodes.len();
        let leaf = range.len() == 1 || depth >= DEEPEST;
        self.nodes.push(Node {
            mass: self.mass(range.clone()),
            squared: if leaf { -1.0 } else { squared_width(half) },
            count: range.len() as u32,
            past: me as u32 + 1,
        });
        if leaf {
            let own = if range.len() == 1 { me as u32 } else { u32::MAX };
            for point in &self.points[range] {
                self.own[point.j as usize] = own;
            }
            return;
        }
        let half = half.map(|half| half / 2.0);
        let mut from = range.start;
        for (corner, to) in self.part(range, centre).into_iter().enumerate().take(1 << C) {
            if from < to {
                self.grow(from..to, &middle_of(corner, centre, &half), &half, depth + 1);
            }
            from = to;
        }
        self.nodes[me].past = self.nodes.len() as u32;
    }

    /// The mass of the points in a range, one point after the other.
    fn mass(&self, range: Range<usize>) -> [f64; C] {
        let mut mass = [0.0; C];
        for (point, (count, kept)) in self.points[range].iter().zip(&self.kept) {
            for (mass, v) in mass.iter_mut().zip(&point.p) {
                *mass = *mass * kept + v / count;
            }
        }
        mass
    }

    /// Puts the points of a range in order by their corners, and tells where each corner's end.
    fn part(&mut self, range: Range<usize>, centre: &[f64; C]) -> [usize; 8] {
        let (points, spare) = (&mut self.points[range.clone()], &mut self.spare[range.clone()]);
        let mut ends = [0; 8];
        for point in points.iter() {
            ends[corner(&point.p, centre)] += 1;
        }
        let mut sum = 0;
        for end in &mut ends {
            (*end, sum) = (sum, sum + *end);
        }
        for point in points.iter() {
            let end = &mut ends[corner(&point.p, centre)];
            spare[*end] = *point;
            *end += 1;
        }
        points.copy_from_slice(spare);
        ends.map(|end| range.start + end)
    }

    /// What the tree does to a point, and its share of the normaliser: up to its own leaf, and past it.
    fn repel(&self, point: &Point<C>) -> ([f64; C], f64) {
        let own = self.own[point.j as usize] as usize;
        let mut sums = ([0.0; C], 0.0);
        let before = &self.nodes[..own.min(self.nodes.len())];
        let at = self.walk(before, 0, &point.p, &mut sums);
        self.walk(&self.nodes, at + usize::from(at == own), &point.p, &mut sums);
        sums
    }

    /// A walk from a cell to the end of those given.
    #[inline(always)]
    fn walk(&self, nodes: &[Node<C>], mut at: usize, p: &[f64; C], sums: &mut ([f64; C], f64)) -> usize {
        let (mut force, mut share) = *sums;
        while let Some(node) = nodes.get(at) {
            let (away, squared) = apart(p, &node.mass);
            if node.squared < self.squared_angle * squared {
                let inverse = 1.0 / (1.0 + squared);
                let part = f64::from(node.count) * inverse;
                share += part;
                let part = part * inverse;
                for d in 0..C {
                    force[d] += part * away[d];
                }
                at = node.past as usize;
            } else {
                at += 1;
            }
        }
        *sums = (force, share);
        at
    }
}

impl<const C: usize> Contestant for Tree<C> {
    fn name(&self) -> &'static str {
        "the same, hot fields apart"
    }

    fn reset(&mut self) {
        self.moving.clone_from(&self.from);
        if self.cleared {
            self.nodes.fill(Node::default());
            self.points.fill(Point::default());
            self.spare.fill(Point::default());
            self.own.fill(0);
        }
    }

    fn work(&mut self) {
        let n = self.moving.positions.len();
        for (j, (point, p)) in self.points.iter_mut().zip(&self.moving.positions).enumerate() {
            *point = Point { p: *p, j: j as u32 };
        }
        let (centre, half) = bounds(&self.moving.positions);
        self.nodes.clear();
        self.grow(0..n, &centre, &half, 0);
        let mut forces = vec![([0.0; C], 0.0); n];
        for point in &self.points {
            forces[point.j as usize] = self.repel(point);
        }
        let (exaggeration, momentum) = self.pace;
        let pulls: Vec<_> = (0..n)
            .map(|i| self.lists.pull(i, &self.moving.positions, exaggeration))
            .collect();
        self.moving.step(&gradient(&pulls, &forces), momentum, self.rate);
    }

    fn result(&self) -> Option<Vec<f64>> {
        Some(self.moving.positions.concat())
    }
}
