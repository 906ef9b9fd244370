//! Taking frames out of a run, from the text of change request 2026-06.

use crate::descent::{fault_beside, Areas, Fault, Method, Record, Settings};
use crate::elementary::is_calm;
use crate::step::centre;

/// Why nothing was taken out.
#[derive(Clone, Copy, Debug, PartialEq, Eq)]
pub enum Refusal {
    /// The entry tests of a work call; table and old places are tested with the areas.
    Entry(Fault),
    /// A unit of the next iteration is done.
    Inside,
    /// The list does not rise strictly, or names a sample that there is not.
    List,
    /// Fewer than two samples would be left.
    Few,
    /// The perplexity would not be below the number of samples left.
    Perplexity,
    /// More links would be left than the lists of so many samples may have.
    Links,
    /// A centred position would be NaN or above 2^100 in magnitude.
    Barred,
}

impl Refusal {
    /// The number of the refusal.
    pub fn number(self) -> u64 {
        match self {
            Refusal::Entry(fault) => fault.number(),
            Refusal::Inside => 17,
            Refusal::List | Refusal::Links => 18,
            Refusal::Few => 9,
            Refusal::Perplexity => 10,
            Refusal::Barred => 15,
        }
    }

    /// What comes with the number: of the entry tests what a work call tells, else 0.
    pub fn place(self) -> u64 {
        match self {
            Refusal::Entry(fault) => fault.place(),
            _ => 0,
        }
    }
}

/// Takes the samples of the list out of a run and of its table; how many are left, the former number of each in the first of
/// the old places. Refused, nothing has changed.
pub fn take_out(
    record: &mut Record,
    areas: &mut Areas,
    table: &mut [f64],
    gone: &[u32],
    old: &mut [u32],
) -> Result<usize, Refusal> {
    let beside = |settings: &Settings| table.len() >= settings.n * settings.f && old.len() >= settings.n;
    if let Some(fault) = fault_beside(record, areas, beside) {
        return Err(Refusal::Entry(fault));
    }
    if record.phase > 0 {
        return Err(Refusal::Inside);
    }
    let left = Left::of(&record.settings, areas, gone)?;
    let Settings { n, f, .. } = record.settings;
    left.pack(&record.settings, areas);
    let packed = rows(table, &left.samples, f);
    put(table, &packed, n * f);
    for (place, &sample) in old.iter_mut().zip(&left.samples) {
        *place = sample as u32;
    }
    record.settings = left.settings;
    record.units = record.done * left.settings.iteration();
    Ok(left.samples.len())
}

/// What is left of a run.
struct Left {
    /// The samples by their former numbers, rising.
    samples: Vec<usize>,
    settings: Settings,
    /// Around their own mean.
    positions: Vec<f64>,
    lists: Lists,
}

/// The lists of what is left; none in an exact run.
#[derive(Default)]
struct Lists {
    offsets: Vec<u32>,
    indices: Vec<u32>,
    weights: Vec<f64>,
}

impl Left {
    /// The tests of the list and of what would be left.
    fn of(before: &Settings, areas: &Areas, gone: &[u32]) -> Result<Left, Refusal> {
        let samples = samples(before.n, gone)?;
        let settings = thinned(before, samples.len())?;
        let lists = lists(before, areas, &samples);
        if lists.indices.len() > settings.links() {
            return Err(Refusal::Links);
        }
        let mut positions = rows(&areas.positions, &samples, before.c);
        centre(&mut positions, before.c);
        if positions.iter().any(|&v| !is_calm(v)) {
            return Err(Refusal::Barred);
        }
        Ok(Left {
            samples,
            settings,
            positions,
            lists,
        })
    }

    /// Every area as it is afterwards.
    fn pack(&self, before: &Settings, areas: &mut Areas) {
        let Settings { n, c, .. } = *before;
        put(&mut areas.positions, &self.positions, n * c);
        for area in [&mut areas.increments, &mut areas.gains] {
            let packed = rows(area, &self.samples, c);
            put(area, &packed, n * c);
        }
        match before.method {
            Method::Exact => {
                let matrix = matrix(&areas.affinities, n, &self.samples);
                put(&mut areas.affinities, &matrix, n * n);
            }
            Method::BarnesHut => {
                let links = areas.offsets[n] as usize;
                put(&mut areas.affinities, &self.lists.weights, links);
                put(&mut areas.indices, &self.lists.indices, links);
                put(&mut areas.offsets, &self.lists.offsets, n + 1);
            }
        }
        areas.forces[..n * (2 * c + 1)].fill(0.0);
    }
}

/// The samples that are left; or the list is bad.
fn samples(n: usize, gone: &[u32]) -> Result<Vec<usize>, Refusal> {
    let rises = gone.windows(2).all(|pair| pair[0] < pair[1]);
    if !rises || gone.iter().any(|&sample| sample as usize >= n) {
        return Err(Refusal::List);
    }
    Ok((0..n).filter(|&i| gone.binary_search(&(i as u32)).is_err()).collect())
}

/// The settings with so many samples; 9 or 10.
fn thinned(settings: &Settings, n: usize) -> Result<Settings, Refusal> {
    if n < 2 {
        return Err(Refusal::Few);
    }
    if settings.perplexity >= n as f64 {
        return Err(Refusal::Perplexity);
    }
    Ok(Settings { n, ..*settings })
}

/// The links between samples that are left, in their order and with new numbers.
fn lists(before: &Settings, areas: &Areas, samples: &[usize]) -> Lists {
    let mut lists = Lists::default();
    if before.method == Method::Exact {
        return lists;
    }
    lists.offsets.push(0);
    for &i in samples {
        for place in areas.offsets[i] as usize..areas.offsets[i + 1] as usize {
            if let Ok(j) = samples.binary_search(&(areas.indices[place] as usize)) {
                lists.indices.push(j as u32);
                lists.weights.push(areas.affinities[place]);
            }
        }
        lists.offsets.push(lists.indices.len() as u32);
    }
    lists
}

/// The rows of the samples that are left, each so wide.
fn rows(area: &[f64], samples: &[usize], width: usize) -> Vec<f64> {
    let row = |&i: &usize| area[i * width..(i + 1) * width].iter().copied();
    samples.iter().flat_map(row).collect()
}

/// The rows and columns of a matrix of n samples that are left.
fn matrix(affinities: &[f64], n: usize, samples: &[usize]) -> Vec<f64> {
    let row = |&i: &usize| samples.iter().map(move |&j| affinities[i * n + j]);
    samples.iter().flat_map(row).collect()
}

/// What was packed at the front of an area, and zeros as far as the area was in use before.
fn put<T: Copy + Default>(area: &mut [T], packed: &[T], before: usize) {
    area[..packed.len()].copy_from_slice(packed);
    area[packed.len()..before].fill(T::default());
}

#[cfg(test)]
mod tests;
