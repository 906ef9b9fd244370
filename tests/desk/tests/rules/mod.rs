//! What the tests lend to the independent implementation where the program goes by these settings.

use brothanchor::{Settings, Sizes};
use oracle::descent::{self, Areas, Method, Rows};
use oracle::tree::Node;

/// The settings of a Barnes-Hut run.
pub fn rules_of(ours: &Settings) -> descent::Settings {
    descent::Settings {
        n: ours.n,
        f: ours.f,
        c: ours.c,
        method: Method::BarnesHut,
        perplexity: ours.perplexity,
        rate: ours.rate,
        iterations: ours.iterations,
        angle: ours.angle,
        minimum: ours.minimum,
    }
}

/// Areas just long enough, of zeros.
pub fn areas_of(sizes: &Sizes) -> Areas {
    Areas {
        positions: vec![0.0; sizes.cells],
        increments: vec![0.0; sizes.cells],
        gains: vec![0.0; sizes.cells],
        affinities: vec![0.0; sizes.affinities],
        indices: vec![0; sizes.indices],
        offsets: vec![0; sizes.offsets],
        forces: vec![0.0; sizes.forces],
        nodes: vec![Node::default(); sizes.nodes],
    }
}

/// Rows just long enough.
pub fn rows_of(sizes: &Sizes) -> Rows {
    Rows {
        values: vec![0.0; sizes.rows],
        indices: vec![0; sizes.rows],
    }
}
