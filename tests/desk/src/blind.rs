//! Frames that the sigma search leaves blind, counted.

use crate::library;
use crate::Refusal;

/// What is counted among the frames of a table.
#[derive(Clone, Copy, Debug, PartialEq, Eq)]
pub struct Sight {
    /// Frames whose search ends with all shares equal, for the weights of its last round add up to less than 1e-8.
    pub blind: usize,
    /// Those of them whose distances all come out as 0.
    pub alone: usize,
}

/// What is lent to the count besides the table: n places each.
#[derive(Clone, Debug, PartialEq)]
pub struct SightRows {
    pub squares: Vec<f64>,
    pub values: Vec<f64>,
    pub shares: Vec<f64>,
    pub indices: Vec<u32>,
}

impl SightRows {
    /// For so many frames.
    pub fn new(n: usize) -> SightRows {
        SightRows {
            squares: vec![0.0; n],
            values: vec![0.0; n],
            shares: vec![0.0; n],
            indices: vec![0; n],
        }
    }
}

/// How many frames of a table are blind, and how many of them alone, by settings given as words, of which n, f, the method and the
/// perplexity are looked at. The first n places of the rows end as zeros. Refused, nothing has changed: 21 for words that are no settings,
/// then 2, 7, 8, 9, 10 as of a preparation, then 12 where a row has fewer than n places.
pub fn blind(settings: &[u64], table: &[f64], rows: &mut SightRows) -> Result<Sight, Refusal> {
    let mut answer = [0; 2];
    blind_words(settings, table, rows, &mut answer)?;
    let [blind, alone] = answer.map(|count| count as usize);
    Ok(Sight { blind, alone })
}

/// The same with both counts at the front of an answer of two words or more. Fewer are 12, as any other short area.
pub fn blind_words(settings: &[u64], table: &[f64], rows: &mut SightRows, answer: &mut [u64]) -> Result<(), Refusal> {
    Refusal::unless_0(unsafe {
        library::brothanchor_blind(
            settings.as_ptr(),
            settings.len(),
            table.as_ptr(),
            table.len(),
            rows.squares.as_mut_ptr(),
            rows.squares.len(),
            rows.values.as_mut_ptr(),
            rows.values.len(),
            rows.shares.as_mut_ptr(),
            rows.shares.len(),
            rows.indices.as_mut_ptr(),
            rows.indices.len(),
            answer.as_mut_ptr(),
            answer.len(),
        )
    })
}
