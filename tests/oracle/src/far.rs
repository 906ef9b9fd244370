//! What request 2026-05 changes of the weights, in numbers: how many were zero and are not, by both routes.

use crate::elementary::{exp, LOWEST_NORMAL};
use crate::lists::far::Heaps;
use crate::preparation::{Exp, Table};
use crate::scatter::SplitMix64;

/// How many tables each measurement looks at.
const TABLES: usize = 2_000;

/// The exp before the request: zero below -708.
pub fn cut_exp(x: f64) -> f64 {
    if x < LOWEST_NORMAL {
        0.0
    } else {
        exp(x)
    }
}

/// What became of the weights of many tables.
#[derive(Clone, Copy, Debug, Default, PartialEq, Eq)]
pub struct Weights {
    /// All weights: of two different frames, or links listed.
    pub all: usize,
    /// Zero with the cut at -708.
    pub were_zero: usize,
    /// Zero now.
    pub are_zero: usize,
    /// Zero with the usual library's exp.
    pub library_zero: usize,
    /// Of those that were zero and are not, how many the library gives other bits.
    pub other_bits: usize,
}

impl Weights {
    /// Counts the weights of one table: before, now, by the library.
    fn count(&mut self, were: &[f64], are: &[f64], library: &[f64]) {
        for ((&was, &is), &usual) in were.iter().zip(are).zip(library) {
            self.all += 1;
            self.were_zero += usize::from(was == 0.0);
            self.are_zero += usize::from(is == 0.0);
            self.library_zero += usize::from(usual == 0.0);
            self.other_bits += usize::from(was == 0.0 && is != 0.0 && is.to_bits() != usual.to_bits());
        }
    }
}

/// The affinities of the exact route, without the diagonal.
fn exact(table: &Table, exp: Exp, perplexity: f64) -> Vec<f64> {
    let affinities = table.exact_by(exp, perplexity);
    let off = |&(place, _): &(usize, f64)| place / table.n != place % table.n;
    affinities
        .into_iter()
        .enumerate()
        .filter(off)
        .map(|entry| entry.1)
        .collect()
}

/// The weights of the Barnes-Hut route's lists.
fn listed(table: &Table, exp: Exp, perplexity: f64) -> Vec<f64> {
    let lists = table.lists_by(exp, perplexity);
    lists.into_iter().flatten().map(|link| link.1).collect()
}

/// 24 frames at random, of which so many have one huge feature.
fn scattered(random: &mut SplitMix64, far: usize) -> Heaps {
    let (n, f) = (24, 6);
    let mut values: Vec<f64> = (0..n * f).map(|_| random.unit()).collect();
    let apart = 5.0 + 30.0 * random.unit();
    for frame in 0..far {
        values[frame * f] += apart;
    }
    let perplexity = 1.5 + 4.0 * random.unit();
    Heaps {
        n,
        f,
        values,
        perplexity,
    }
}

/// A kind of table.
type Draw = fn(&mut SplitMix64) -> Heaps;
/// A route's weights.
type Route = fn(&Table, Exp, f64) -> Vec<f64>;

/// What one kind of table gives by one route.
fn measure(route: Route, seed: u64, draw: Draw) -> Weights {
    let mut random = SplitMix64::new(seed);
    let mut found = Weights::default();
    for _ in 0..TABLES {
        let heaps = draw(&mut random);
        let weights = |exp: Exp| route(&heaps.table(), exp, heaps.perplexity);
        found.count(&weights(cut_exp), &weights(exp), &weights(f64::exp));
    }
    found
}

/// The report as the rows of a table.
pub fn report() -> String {
    let kinds: [(&str, Draw); 3] = [
        ("two boxes of 8", |random| Heaps::new(random, 3)),
        ("8 of 24", |random| scattered(random, 8)),
        ("1 of 24", |random| scattered(random, 1)),
    ];
    let routes: [(&str, Route); 2] = [("exact", exact), ("Barnes-Hut", listed)];
    let mut text = String::from(
        "| frames | route | weights | were 0 | are 0 | 0 with the library | new, and other bits than the library |\n|---|---|---|---|---|---|---|\n",
    );
    for (seed, (kind, draw)) in (401..).zip(kinds) {
        for (name, route) in routes {
            let Weights {
                all,
                were_zero,
                are_zero,
                library_zero,
                other_bits,
            } = measure(route, seed, draw);
            text.push_str(&format!(
                "| {kind} | {name} | {all} | {were_zero} | {are_zero} | {library_zero} | {other_bits} |\n"
            ));
        }
    }
    text
}
