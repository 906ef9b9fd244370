//! A neighbour list that another tool made, checked and loaded, and a run's lists written for others; from the text of change
//! request 2026-08.

use crate::descent::{fault, Areas, Fault, Method, Record, Settings, Standing};
use crate::elementary::in_domain;
use std::collections::HashSet;

/// The bytes of a record: from, to, weight.
pub const LINK: usize = 16;

/// A record of the file.
#[derive(Clone, Copy, Debug, PartialEq, Eq, Hash)]
pub struct Link {
    pub from: u32,
    pub to: u32,
    /// The weight by its bits.
    pub weight: u64,
}

impl Link {
    /// Sixteen bytes, little-endian.
    pub fn of(bytes: &[u8]) -> Link {
        let number = |bytes: &[u8]| bytes.iter().rev().fold(0, |word, &byte| word << 8 | u64::from(byte));
        Link {
            from: number(&bytes[..4]) as u32,
            to: number(&bytes[4..8]) as u32,
            weight: number(&bytes[8..LINK]),
        }
    }

    pub fn bytes(self) -> [u8; LINK] {
        let mut bytes = [0; LINK];
        bytes[..4].copy_from_slice(&self.from.to_le_bytes());
        bytes[4..8].copy_from_slice(&self.to.to_le_bytes());
        bytes[8..].copy_from_slice(&self.weight.to_le_bytes());
        bytes
    }

    /// The same link the other way round.
    pub fn mirror(self) -> Link {
        Link {
            from: self.to,
            to: self.from,
            weight: self.weight,
        }
    }

    fn pair(self) -> (u32, u32) {
        (self.from, self.to)
    }
}

/// The rules of a partner's list.
#[derive(Clone, Copy, Debug, PartialEq, Eq, Hash)]
pub enum Rule {
    /// There are at most 2·n·k records.
    Room,
    /// A record is whole.
    Whole,
    /// Both indices are below n.
    Index,
    /// The pairs rise strictly.
    Order,
    /// No frame links itself.
    Itself,
    /// The weight is finite and above zero.
    Weight,
    /// The link has its mirror with the same weight bits.
    Mirror,
}

/// Every rule.
pub const RULES: [Rule; 7] = [
    Rule::Room,
    Rule::Whole,
    Rule::Index,
    Rule::Order,
    Rule::Itself,
    Rule::Weight,
    Rule::Mirror,
];

/// Why nothing was loaded, or nothing written.
#[derive(Clone, Copy, Debug, PartialEq, Eq)]
pub enum Refusal {
    /// Loading: the settings, by 1 to 7, 9 or 10.
    Settings(u64),
    /// Loading: the start has another length, or a value outside the domain.
    Start,
    /// Loading: the first record at which a rule fails.
    Record(usize),
    /// Writing: the entry tests of a work call.
    Entry(Fault),
    /// Writing: an exact run has no lists.
    Exact,
    /// Loading: an area is too short. Writing: the target is.
    Short,
}

impl Refusal {
    /// The number of the refusal.
    pub fn number(self) -> u64 {
        match self {
            Refusal::Settings(number) => number,
            Refusal::Start => 11,
            Refusal::Record(_) => 19,
            Refusal::Entry(fault) => fault.number(),
            Refusal::Exact => 17,
            Refusal::Short => 12,
        }
    }

    /// What comes with the number: the record, or what a work call tells of its entry; else 0.
    pub fn place(self) -> u64 {
        match self {
            Refusal::Record(place) => place as u64,
            Refusal::Entry(fault) => fault.place(),
            _ => 0,
        }
    }
}

/// Loads a partner's list into areas that may be longer; the record of a Barnes-Hut run that starts from it, whatever method
/// the settings say. Refused, nothing has changed.
pub fn import(settings: Settings, start: &[f64], file: &[u8], areas: &mut Areas) -> Result<Record, Refusal> {
    let method = Method::BarnesHut;
    let settings = Settings { method, ..settings };
    if let Some(number) = settings.fault() {
        return Err(Refusal::Settings(number));
    }
    let Settings { n, c, .. } = settings;
    if start.len() != n * c || start.iter().any(|&v| !in_domain(v)) {
        return Err(Refusal::Start);
    }
    if !areas.fit(&settings) {
        return Err(Refusal::Short);
    }
    if let Some((place, _)) = first_bad(file, n, settings.links()) {
        return Err(Refusal::Record(place));
    }
    load(areas, n, &links(file));
    areas.positions[..n * c].copy_from_slice(start);
    areas.increments[..n * c].fill(0.0);
    areas.gains[..n * c].fill(1.0);
    areas.forces[..n * (2 * c + 1)].fill(0.0);
    Ok(Record {
        settings,
        standing: Standing::Running,
        done: 0,
        phase: 0,
        units: 0,
        used: 0,
    })
}

/// The whole records of a file.
pub fn links(file: &[u8]) -> Vec<Link> {
    file.chunks_exact(LINK).map(Link::of).collect()
}

/// The first record at which a rule fails, of n frames whose lists may have so many links, and all rules that fail there.
pub fn first_bad(file: &[u8], n: usize, most: usize) -> Option<(usize, Vec<Rule>)> {
    let links = links(file);
    let there: HashSet<Link> = links.iter().copied().collect();
    let mut last = None;
    for (place, &link) in links.iter().enumerate() {
        let mut broken = Vec::new();
        let mut demand = |holds: bool, rule| {
            if !holds {
                broken.push(rule);
            }
        };
        let weight = f64::from_bits(link.weight);
        demand(place < most, Rule::Room);
        demand((link.from as usize) < n && (link.to as usize) < n, Rule::Index);
        demand(last < Some(link.pair()), Rule::Order);
        demand(link.from != link.to, Rule::Itself);
        demand(weight.is_finite() && weight > 0.0, Rule::Weight);
        demand(there.contains(&link.mirror()), Rule::Mirror);
        if !broken.is_empty() {
            return Some((place, broken));
        }
        last = Some(link.pair());
    }
    let mut broken = vec![Rule::Whole];
    if links.len() >= most {
        broken.push(Rule::Room);
    }
    (file.len() % LINK > 0).then_some((links.len(), broken))
}

/// Weights and indices in the file's order, offsets by counting.
fn load(areas: &mut Areas, n: usize, links: &[Link]) {
    for (place, link) in links.iter().enumerate() {
        areas.indices[place] = link.to;
        areas.affinities[place] = f64::from_bits(link.weight);
    }
    let mut lengths = vec![0; n];
    for link in links {
        lengths[link.from as usize] += 1;
    }
    for (frame, offset) in areas.offsets[..=n].iter_mut().enumerate() {
        *offset = lengths[..frame].iter().sum();
    }
}

/// Writes a run's lists to the front of the target; how many records they have.
pub fn write_lists(record: &Record, areas: &Areas, target: &mut [u8]) -> Result<usize, Refusal> {
    if let Some(fault) = fault(record, areas) {
        return Err(Refusal::Entry(fault));
    }
    if record.settings.method == Method::Exact {
        return Err(Refusal::Exact);
    }
    let mut bytes = Vec::new();
    for frame in 0..record.settings.n {
        for place in areas.offsets[frame] as usize..areas.offsets[frame + 1] as usize {
            let link = Link {
                from: frame as u32,
                to: areas.indices[place],
                weight: areas.affinities[place].to_bits(),
            };
            bytes.extend(link.bytes());
        }
    }
    if target.len() < bytes.len() {
        return Err(Refusal::Short);
    }
    target[..bytes.len()].copy_from_slice(&bytes);
    Ok(bytes.len() / LINK)
}

#[cfg(test)]
mod tests;
