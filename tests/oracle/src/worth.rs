//! What the tree is worth after i insertions: the four claims, asked of an arena node by node. They are written from
//! their text alone and go through the tree in a way of their own.

use crate::tree::Node;

/// The depth at which a leaf may count more than one point.
const DEEPEST: usize = 50;

/// The nodes in use of an arena.
#[derive(Clone, Copy, Debug)]
pub struct Tree<'a> {
    nodes: &'a [Node],
    c: usize,
}

impl<'a> Tree<'a> {
    /// A tree in c components.
    pub fn new(arena: &'a [Node], used: usize, c: usize) -> Tree<'a> {
        Tree {
            nodes: &arena[..used],
            c,
        }
    }

    /// The children of a node; none of a leaf.
    fn children(&self, node: &Node) -> std::ops::Range<usize> {
        let first = node.first as usize;
        first..if first == 0 { 0 } else { first + (1 << self.c) }
    }

    /// How deep each node is: the way from the root, one level after the other. A node that no way leads to, or two, is
    /// told.
    fn depths(&self) -> Result<Vec<usize>, String> {
        let mut depths = vec![None; self.nodes.len()];
        let mut level = vec![0];
        for depth in 0.. {
            let mut next = Vec::new();
            for &i in &level {
                if depths[i].replace(depth).is_some() {
                    return Err(format!("two ways lead to node {i}"));
                }
                next.extend(self.children(&self.nodes[i]));
            }
            if next.is_empty() {
                break;
            }
            level = next;
        }
        let all = depths.iter().enumerate();
        all.map(|(i, depth)| depth.ok_or(format!("no way leads to node {i}")))
            .collect()
    }

    /// The leaves that count a point, depth first, children rising.
    pub fn leaves(&self) -> Vec<usize> {
        let mut leaves = Vec::new();
        self.gather(0, &mut leaves);
        leaves
    }

    fn gather(&self, i: usize, leaves: &mut Vec<usize>) {
        let node = &self.nodes[i];
        if node.first == 0 && node.count > 0 {
            leaves.push(i);
        }
        for child in self.children(node) {
            self.gather(child, leaves);
        }
    }

    /// Whether i points are in it as the claims say; if not, which of them is broken, and where.
    pub fn holds(&self, i: usize) -> Result<(), String> {
        let depths = self.depths()?;
        if self.nodes[0].count as usize != i {
            return Err(format!("the root counts {} for {i}", self.nodes[0].count));
        }
        for (k, node) in self.nodes.iter().enumerate() {
            let below: u32 = self.children(node).map(|child| self.nodes[child].count).sum();
            if node.first != 0 && node.count != below {
                return Err(format!("node {k} counts {}, its children {below}", node.count));
            }
            if node.first == 0 && (node.count == 0) != (node.leaf == 0) {
                return Err(format!("leaf {k} counts {} and has the word {}", node.count, node.leaf));
            }
            if node.first == 0 && depths[k] < DEEPEST && node.count > 1 {
                return Err(format!("leaf {k} at depth {} counts {}", depths[k], node.count));
            }
        }
        let mut leaves = self.leaves();
        let together: u32 = leaves.iter().map(|&k| self.nodes[k].count).sum();
        if together as usize != i {
            return Err(format!("the leaves count {together} for {i}"));
        }
        leaves.sort_unstable();
        let wanted = (0..self.nodes.len()).filter(|&k| self.nodes[k].first == 0 && self.nodes[k].count > 0);
        if !wanted.eq(leaves) {
            return Err("a leaf is missing from the list, or stands in it twice".into());
        }
        Ok(())
    }

    /// Whether every leaf counts just those of the first i points that lie in its cell, and holds one of them.
    pub fn places(&self, positions: &[f64], i: usize) -> Result<(), String> {
        let mut within = vec![Vec::new(); self.nodes.len()];
        for (j, place) in positions.chunks(self.c).take(i).enumerate() {
            let mut k = 0;
            while self.nodes[k].first != 0 {
                let node = &self.nodes[k];
                let above = place.iter().zip(&node.centre).map(|(x, z)| usize::from(x > z));
                k = node.first as usize + above.enumerate().map(|(d, bit)| bit << d).sum::<usize>();
            }
            within[k].push(j as u32 + 1);
        }
        for (k, node) in self.nodes.iter().enumerate().filter(|(_, node)| node.first == 0) {
            let held = node.leaf == 0 || within[k].contains(&node.leaf);
            if node.count as usize != within[k].len() || !held {
                return Err(format!(
                    "leaf {k} counts {} and has the word {} for {:?}",
                    node.count, node.leaf, within[k]
                ));
            }
        }
        Ok(())
    }

    /// The repulsion on point q and its share of the normaliser, as the sum from +0.0 over the leaves, apart from one that
    /// holds q alone.
    pub fn over_leaves(&self, positions: &[f64], q: usize) -> ([f64; 3], f64) {
        let place = &positions[q * self.c..(q + 1) * self.c];
        let (mut force, mut share) = ([0.0; 3], 0.0);
        for k in self.leaves() {
            let leaf = &self.nodes[k];
            if leaf.count == 1 && leaf.leaf as usize == q + 1 {
                continue;
            }
            let mut squared = 0.0;
            for (x, m) in place.iter().zip(&leaf.mass) {
                squared += (x - m) * (x - m);
            }
            let near = 1.0 / (1.0 + squared);
            let weight = f64::from(leaf.count) * near;
            for (sum, (x, m)) in force.iter_mut().zip(place.iter().zip(&leaf.mass)) {
                *sum += weight * near * (x - m);
            }
            share += weight;
        }
        (force, share)
    }
}

/// Positions of n points in c components that a tree is likely to stumble over, by their kind: at random; a few places for
/// all; on the lines through the centre; subnormal; of every size up to 2^100; all the same.
pub fn hard_positions(kind: usize, n: usize, c: usize, mut word: impl FnMut() -> u64) -> Vec<f64> {
    let signed = |word: u64| if word & 1 == 0 { 1.0 } else { -1.0 };
    (0..n * c)
        .map(|e| {
            let w = word();
            let unit = (w >> 11) as f64 / (1_u64 << 53) as f64;
            match kind % 6 {
                0 => unit - 0.5,
                1 => [0.0, -0.0, 1.0, 1.0 + f64::EPSILON, -3.5][(w >> 3) as usize % 5],
                2 => [-1.0, -0.5, 0.0, 0.5, 1.0][(w >> 3) as usize % 5],
                3 => signed(w) * f64::from_bits((w >> 5) % 9),
                4 => signed(w) * 2.0_f64.powi((w >> 3) as i32 % 201 - 100) * (1.0 + unit) / 2.0,
                _ => [0.1, -7.0, 1e-300][e % c],
            }
        })
        .collect()
}

/// How many kinds of them there are.
pub const HARD_KINDS: usize = 6;

#[cfg(test)]
mod tests {
    use super::*;
    use crate::scatter::SplitMix64;
    use crate::tree::{insert, plant, repulsion};

    fn bits((force, share): ([f64; 3], f64)) -> ([u64; 3], u64) {
        (force.map(f64::to_bits), share.to_bits())
    }

    /// After each insertion, in an arena that held other nodes before.
    #[test]
    fn all_four_hold_after_each_insertion() {
        let mut random = SplitMix64::new(7);
        let (mut trees, mut deepest, mut crowded) = (0, 0, 0);
        for round in 0..240 {
            let (kind, c) = (round % HARD_KINDS, 1 + round / HARD_KINDS % 3);
            let n = 2 + random.next() as usize % 20;
            let positions = hard_positions(kind, n, c, || random.next());
            let mut nodes = vec![Node::unused(f64::NAN, 77); 1 + (1 << c) * DEEPEST * (n - 1)];
            plant(&mut nodes, &positions, n, c);
            let mut used = 1;
            for i in 0..=n {
                let tree = Tree::new(&nodes, used, c);
                assert_eq!(tree.holds(i), Ok(()), "round {round}, {i} points");
                assert_eq!(tree.places(&positions, i), Ok(()), "round {round}, {i} points");
                for angle in [0.0, -0.0] {
                    for q in 0..n {
                        let walked = repulsion(&nodes, &positions, c, q, angle);
                        assert_eq!(
                            bits(walked),
                            bits(tree.over_leaves(&positions, q)),
                            "round {round}, {i} points, point {q}"
                        );
                    }
                }
                if i < n {
                    used = insert(&mut nodes, used, &positions, c, i).expect("room");
                }
            }
            let tree = Tree::new(&nodes, used, c);
            trees += 1;
            deepest = deepest.max(*tree.depths().expect("ways").iter().max().expect("a root"));
            crowded += tree.leaves().iter().filter(|&&k| nodes[k].count > 1).count();
        }
        assert_eq!((trees, deepest), (240, DEEPEST));
        assert!(crowded > 100, "{crowded} leaves with several points");
    }

    /// A tree of three points is spoilt in one place: the claim that this breaks is told.
    #[test]
    fn what_is_broken_is_told() {
        let spoilt = |i: usize, change: fn(&mut Node)| {
            let positions = [0.0, 1.0, 3.0];
            let mut nodes = vec![Node::default(); 9];
            plant(&mut nodes, &positions, 3, 1);
            let used = (0..3).fold(1, |used, j| insert(&mut nodes, used, &positions, 1, j).expect("room"));
            assert_eq!((used, Tree::new(&nodes, used, 1).holds(3)), (5, Ok(())));
            change(&mut nodes[i]);
            Tree::new(&nodes, used, 1).holds(3).expect_err("a broken claim")
        };
        assert_eq!(spoilt(0, |node| node.count = 2), "the root counts 2 for 3");
        assert_eq!(spoilt(2, |node| node.count = 0), "node 0 counts 3, its children 2");
        assert_eq!(spoilt(2, |node| node.leaf = 0), "leaf 2 counts 1 and has the word 0");
        assert_eq!(spoilt(1, |node| node.first = 0), "no way leads to node 3");
        assert_eq!(spoilt(2, |node| node.first = 3), "two ways lead to node 3");
        assert_eq!(spoilt(0, |node| node.first = 3), "no way leads to node 1");
        let crowd = [Node {
            count: 2,
            leaf: 1,
            ..Node::default()
        }];
        assert_eq!(
            Tree::new(&crowd, 1, 2).holds(2),
            Err("leaf 0 at depth 0 counts 2".into())
        );
    }

    /// Two points of a tree that change places are in each other's leaf.
    #[test]
    fn a_point_in_another_cell_is_told() {
        let positions = [0.0, 1.0, 3.0];
        let mut nodes = vec![Node::default(); 9];
        plant(&mut nodes, &positions, 3, 1);
        let used = (0..3).fold(1, |used, j| insert(&mut nodes, used, &positions, 1, j).expect("room"));
        let tree = Tree::new(&nodes, used, 1);
        assert_eq!(tree.places(&positions, 3), Ok(()));
        let told = tree.places(&[3.0, 1.0, 0.0], 3).expect_err("other places");
        assert_eq!(told, "leaf 2 counts 1 and has the word 3 for [1]");
    }

    /// With an angle that is not zero a far cell is one body, and the sum is another.
    #[test]
    fn another_angle_adds_up_otherwise() {
        let positions = [0.0, 100.0, 101.0];
        let mut nodes = vec![Node::default(); 200];
        plant(&mut nodes, &positions, 3, 1);
        let used = (0..3).fold(1, |used, j| insert(&mut nodes, used, &positions, 1, j).expect("room"));
        let tree = Tree::new(&nodes, used, 1);
        assert_eq!(
            bits(repulsion(&nodes, &positions, 1, 0, 0.0)),
            bits(tree.over_leaves(&positions, 0))
        );
        assert_ne!(
            bits(repulsion(&nodes, &positions, 1, 0, 0.9)),
            bits(tree.over_leaves(&positions, 0))
        );
    }
}
