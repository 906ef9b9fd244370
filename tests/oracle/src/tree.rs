//! The space-partitioning tree over a slice of nodes, as the scope paper and the original's text have it.

use crate::elementary::at_least;

/// A leaf this deep, or deeper, keeps its first point.
pub const DEEPEST: usize = 50;
/// The padding of the box, and the least half of its span.
const PADDING: f64 = 1e-12;

/// A cell of the tree as it lies in the arena: plain numbers, so whatever an arena holds is a node.
#[derive(Clone, Copy, Debug, Default, PartialEq)]
pub struct Node {
    /// The middle of the cell.
    pub centre: [f64; 3],
    /// Half its width in each component.
    pub half: [f64; 3],
    /// The centre of mass of its points.
    pub mass: [f64; 3],
    /// How many points there are in it.
    pub count: u32,
    /// The number of the first child; 0 where there is none.
    pub first: u32,
    /// The leaf's point and 1; 0 where there is none.
    pub leaf: u32,
}

/// The coordinates of a point; components that there are not are +0.0.
fn point(positions: &[f64], c: usize, j: usize) -> [f64; 3] {
    let mut p = [0.0; 3];
    p[..c].copy_from_slice(&positions[j * c..j * c + c]);
    p
}

impl Node {
    /// A node with one value in all places of values and one number in all others, as an arena may hold before it is used.
    pub const fn unused(value: f64, number: u32) -> Node {
        Node {
            centre: [value; 3],
            half: [value; 3],
            mass: [value; 3],
            count: number,
            first: number,
            leaf: number,
        }
    }

    /// The leaf's point.
    fn point(&self) -> Option<u32> {
        self.leaf.checked_sub(1)
    }

    /// Which child's cell a point lies in: one bit a component, and a tie goes low.
    fn child_index(&self, c: usize, p: &[f64; 3]) -> usize {
        (0..c).filter(|&d| p[d] > self.centre[d]).map(|d| 1 << d).sum()
    }

    /// The number of the child whose cell a point lies in.
    fn child_of(&self, c: usize, p: &[f64; 3]) -> usize {
        self.first as usize + self.child_index(c, p)
    }

    /// An empty leaf in one of the corners.
    fn child(&self, c: usize, corner: usize) -> Node {
        let mut child = Node::default();
        for d in 0..c {
            child.half[d] = self.half[d] / 2.0;
            child.centre[d] = if corner >> d & 1 == 1 {
                self.centre[d] + child.half[d]
            } else {
                self.centre[d] - child.half[d]
            };
        }
        child
    }

    /// One point more: the count, and the running centre of mass.
    fn absorb(&mut self, c: usize, p: &[f64; 3]) {
        self.count += 1;
        let count = f64::from(self.count);
        for (mass, v) in self.mass.iter_mut().zip(p).take(c) {
            *mass = *mass * ((count - 1.0) / count) + v / count;
        }
    }

    /// The longest side.
    fn width(&self, c: usize) -> f64 {
        let mut widest = 0.0;
        for d in 0..c {
            let width = 2.0 * self.half[d];
            if width > widest {
                widest = width;
            }
        }
        widest
    }
}

/// An insertion under way.
struct Growth<'a> {
    nodes: &'a mut [Node],
    /// Nodes in use.
    used: usize,
    /// What stood in the places written to, first to last.
    before: Vec<(usize, Node)>,
}

impl Growth<'_> {
    fn set(&mut self, i: usize, node: Node) {
        self.before.push((i, self.nodes[i]));
        self.nodes[i] = node;
    }

    /// Point j goes into the subtree of node i; new nodes come last. Whether there was room.
    fn put(&mut self, positions: &[f64], c: usize, mut i: usize, j: u32, mut depth: usize) -> bool {
        let p = point(positions, c, j as usize);
        loop {
            let mut node = self.nodes[i];
            node.absorb(c, &p);
            let old = node.point();
            if node.first == 0 && (old.is_none() || depth >= DEEPEST) {
                node.leaf = old.unwrap_or(j) + 1;
                self.set(i, node);
                return true;
            }
            if node.first != 0 {
                self.set(i, node);
            } else if !self.split(&mut node, c, i) {
                return false;
            } else if let Some(old) = old {
                let at = node.child_of(c, &point(positions, c, old as usize));
                if !self.put(positions, c, at, old, depth + 1) {
                    return false;
                }
            }
            i = node.child_of(c, &p);
            depth += 1;
        }
    }

    /// A leaf gets its children, if there is room for them, and gives up its point.
    fn split(&mut self, node: &mut Node, c: usize, i: usize) -> bool {
        let first = self.used;
        if first + (1 << c) > room(self.nodes) {
            return false;
        }
        for corner in 0..1 << c {
            self.set(first + corner, node.child(c, corner));
        }
        self.used += 1 << c;
        node.first = first as u32;
        node.leaf = 0;
        self.set(i, *node);
        true
    }
}

/// How many nodes of an arena can be used: a number of 32 bits names a node, and the number of nodes is one too.
pub fn room(nodes: &[Node]) -> usize {
    nodes.len().min(u32::MAX as usize)
}

/// The box: node 0 becomes the root over n points.
pub fn plant(nodes: &mut [Node], positions: &[f64], n: usize, c: usize) {
    let mut root = Node::default();
    for d in 0..c {
        let (mut low, mut high) = (f64::INFINITY, f64::NEG_INFINITY);
        for i in 0..n {
            let v = positions[i * c + d];
            if v < low {
                low = v;
            }
            if v > high {
                high = v;
            }
        }
        root.centre[d] = (low + high) / 2.0;
        root.half[d] = at_least((high - low) / 2.0, PADDING) + PADDING;
    }
    nodes[0] = root;
}

/// Point j goes in: the nodes in use afterwards, or none where it needs more nodes than there are; then nothing has
/// changed.
pub fn insert(nodes: &mut [Node], used: usize, positions: &[f64], c: usize, j: usize) -> Option<usize> {
    let mut growth = Growth {
        nodes,
        used,
        before: Vec::new(),
    };
    if growth.put(positions, c, 0, j as u32, 0) {
        return Some(growth.used);
    }
    while let Some((i, node)) = growth.before.pop() {
        growth.nodes[i] = node;
    }
    None
}

/// What the tree does to point j: the repulsion, and its share of the normaliser. The cells still to be looked at wait
/// in a list, the next one last: a chain of altered nodes can be as deep as there are nodes.
pub fn repulsion(nodes: &[Node], positions: &[f64], c: usize, j: usize, angle: f64) -> ([f64; 3], f64) {
    let p = point(positions, c, j);
    let squared_angle = angle * angle;
    let mut gathered = ([0.0; 3], 0.0);
    let mut waiting = vec![0];
    while let Some(i) = waiting.pop() {
        let node = &nodes[i];
        let alone = node.first == 0 && node.point() == Some(j as u32) && node.count == 1;
        if node.count > 0 && !alone && !as_one_body(node, &p, c, squared_angle, &mut gathered) {
            waiting.extend((0..1 << c).rev().map(|corner| node.first as usize + corner));
        }
    }
    gathered
}

/// Adds what a leaf or a cell that is far enough does to a point as one body; any other cell opens, and is told by
/// false.
fn as_one_body(node: &Node, p: &[f64; 3], c: usize, squared_angle: f64, gathered: &mut ([f64; 3], f64)) -> bool {
    let mut away = [0.0; 3];
    let mut squared = 0.0;
    for (d, away) in away.iter_mut().enumerate().take(c) {
        *away = p[d] - node.mass[d];
        squared += *away * *away;
    }
    let width = node.width(c);
    let one_body = node.first == 0 || width * width < squared_angle * squared;
    if !one_body {
        return false;
    }
    let inverse = 1.0 / (1.0 + squared);
    let share = f64::from(node.count) * inverse;
    gathered.1 += share;
    let force = share * inverse;
    for (sum, away) in gathered.0.iter_mut().zip(away).take(c) {
        *sum += force * away;
    }
    true
}

/// The lowest node in use that a run of n points may not have, and 0 where the number of those in use is bad.
pub fn fault(nodes: &[Node], used: usize, n: usize, c: usize) -> Option<usize> {
    if used == 0 || used > room(nodes) {
        return Some(0);
    }
    (0..used).find(|&i| {
        let node = &nodes[i];
        let first = node.first as usize;
        node.count as usize > n
            || node.point().map_or(false, |point| point as usize >= n)
            || (first != 0 && (first <= i || first + (1 << c) > used))
    })
}

#[cfg(test)]
mod tests {
    use super::*;

    fn arena(nodes: usize) -> Vec<Node> {
        vec![Node::default(); nodes]
    }

    fn grown(nodes: &mut [Node], positions: &[f64], c: usize) -> Option<usize> {
        let n = positions.len() / c;
        plant(nodes, positions, n, c);
        (0..n).try_fold(1, |used, j| insert(nodes, used, positions, c, j))
    }

    #[test]
    fn two_points_side_by_side() {
        let mut nodes = arena(9);
        assert_eq!(grown(&mut nodes, &[0.0, 0.0, 1.0, 0.0], 2), Some(5));
        let counts: Vec<u32> = nodes[1..5].iter().map(|node| node.count).collect();
        assert_eq!(counts, [1, 1, 0, 0]);
    }

    #[test]
    fn two_equal_points_take_101_nodes() {
        let positions = [5.0, 5.0];
        let mut full = arena(101);
        assert_eq!(grown(&mut full, &positions, 1), Some(101));
        let both = full[1..].iter().filter(|node| node.count == 2 && node.first == 0);
        assert_eq!(both.count(), 1);
        let z: f64 = (0..2).map(|j| repulsion(&full, &positions, 1, j, 0.0).1).sum();
        assert_eq!(z, 4.0);

        let mut short = arena(100);
        plant(&mut short, &positions, 2, 1);
        assert_eq!(insert(&mut short, 1, &positions, 1, 0), Some(1));
        let before = short.clone();
        assert_eq!(insert(&mut short, 1, &positions, 1, 1), None);
        assert_eq!(short, before);
    }

    #[test]
    fn a_tie_goes_low() {
        let node = Node::default();
        assert_eq!(node.child_index(2, &[0.0, 1.0, 0.0]), 2);
        assert_eq!(node.child_index(2, &[0.0, 0.0, 0.0]), 0);
    }

    /// A chain whose second children are leaves of growing weight: all of them are met, the deepest first.
    #[test]
    fn a_chain_of_any_depth_is_walked() {
        let levels: u32 = 300_000;
        let mut nodes = arena(1 + 2 * levels as usize);
        for level in 0..levels {
            let i = if level == 0 { 0 } else { 2 * level as usize - 1 };
            (nodes[i].count, nodes[i].first) = (2, 2 * level + 1);
            (nodes[2 * level as usize + 2].count, nodes[2 * level as usize + 2].leaf) = (1 + level % 2, 2);
        }
        assert_eq!(fault(&nodes, nodes.len(), 2, 1), None);
        let (force, share) = repulsion(&nodes, &[1.0, 0.0], 1, 0, 0.0);
        assert_eq!((force[0], share), (112_500.0, 225_000.0));
        let used = nodes.len();
        assert_eq!(insert(&mut nodes, used, &[0.0, 0.0], 1, 1), Some(used));
        assert_eq!((nodes[used - 2].leaf, nodes[used - 4].count), (2, 3));
    }

    /// The fault of a tree of three points after a change of one node, the last node being bad too or not.
    fn spoilt(i: usize, change: fn(&mut Node)) -> Option<usize> {
        let mut nodes = arena(9);
        let used = grown(&mut nodes, &[0.0, 1.0, 3.0], 1).expect("room");
        assert_eq!((used, fault(&nodes, used, 3, 1)), (5, None));
        change(&mut nodes[i]);
        let found = fault(&nodes, used, 3, 1);
        nodes[used - 1].count = 77;
        assert_eq!(fault(&nodes, used, 3, 1), found.or(Some(used - 1)));
        found
    }

    #[test]
    fn the_lowest_faulty_node() {
        assert_eq!(spoilt(0, |node| node.count = 4), Some(0));
        assert_eq!(spoilt(0, |node| node.first = 4), Some(0));
        assert_eq!(spoilt(0, |node| node.first = 3), None);
        assert_eq!(spoilt(1, |node| node.first = 1), Some(1));
        assert_eq!(spoilt(2, |node| node.leaf = 4), Some(2));
        assert_eq!(spoilt(2, |node| node.leaf = 3), None);
        assert_eq!(spoilt(4, |node| node.first = 5), Some(4));
        assert_eq!(spoilt(4, |node| node.leaf = u32::MAX), Some(4));
        assert_eq!(spoilt(5, |node| node.leaf = u32::MAX), None);
    }

    #[test]
    fn nodes_in_use() {
        let mut nodes = arena(9);
        let used = grown(&mut nodes, &[0.0, 1.0, 3.0], 1).expect("room");
        assert_eq!(fault(&nodes, 0, 3, 1), Some(0));
        assert_eq!(fault(&nodes, 9, 3, 1), None);
        assert_eq!(fault(&nodes, 10, 3, 1), Some(0));
        assert_eq!(
            fault(&nodes, used - 1, 3, 1),
            Some(1),
            "a child block past those in use"
        );
        assert_eq!(fault(&nodes, used, 2, 1), Some(0), "a count above two");
    }
}
