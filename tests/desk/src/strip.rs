//! Frames along one line: from the bytes of a frame file to a strip, its lines and its picture.

use crate::blindness::Blindness;
use crate::handing::{hand_out, prepare_strip};
use crate::map::{self, NoMap, Run, Wishes};
use crate::run::{Record, Settings};
use crate::strip_picture;
use crate::Frame;

/// What a strip of n frames goes by: as a map of them, but along one line.
pub fn settings(n: usize, wishes: &Wishes) -> Settings {
    Settings {
        c: 1,
        ..map::settings(n, wishes)
    }
}

/// The run of a strip.
#[derive(Clone, Debug)]
pub struct StripRun {
    run: Run,
}

impl StripRun {
    /// Prepared from a frame file, from the first of each frame's two starts or from a scatter where there is a seed.
    pub fn begin(file: &[u8], wishes: &Wishes) -> Result<StripRun, NoMap> {
        let frames = map::read(file)?;
        let settings = settings(frames.len(), wishes);
        let run = Run::prepared(frames, &settings, wishes, prepare_strip)?;
        Ok(StripRun { run })
    }

    /// What there is to tell where many of its frames are blind.
    pub fn blindness(&self) -> Option<Blindness> {
        self.run.blindness()
    }

    /// Works it to its end. After each iteration `progress` is told how many are done of how many.
    pub fn work(&mut self, progress: impl FnMut(u64, u64)) -> Result<(), NoMap> {
        self.run.work(progress)
    }

    /// Its frames along the strip; 17 where it has not ended.
    pub fn strip(&self) -> Result<Strip, NoMap> {
        let Run {
            frames, record, areas, ..
        } = &self.run;
        let (mut order, mut gaps) = (vec![0; frames.len()], vec![0.0; frames.len()]);
        hand_out(record, areas, &mut order, &mut gaps)?;
        Ok(Strip {
            frames: frames.clone(),
            positions: areas.positions.clone(),
            record: *record,
            order,
            gaps,
            factor: self.run.factor(),
        })
    }
}

/// Frames along one line.
#[derive(Clone, Debug, PartialEq)]
pub struct Strip {
    /// The frames, in capture order, and where each stands.
    pub frames: Vec<Frame>,
    pub positions: Vec<f64>,
    /// The record at the end.
    pub record: Record,
    /// The frames by their places along the strip, and each one's gap to the one before it.
    pub order: Vec<u32>,
    pub gaps: Vec<f64>,
    /// What the features were multiplied by.
    pub factor: f64,
}

impl Strip {
    /// The strip of a frame file. After each iteration `progress` is told how many are done of how many.
    pub fn of(file: &[u8], wishes: &Wishes, progress: impl FnMut(u64, u64)) -> Result<Strip, NoMap> {
        let mut begun = StripRun::begin(file, wishes)?;
        begun.work(progress)?;
        begun.strip()
    }

    /// A line for each frame along the strip: its place, from 0 on, picture, side, field, position and gap, both again as bits.
    pub fn lines(&self) -> String {
        let line = |(place, (&i, gap)): (usize, (&u32, &f64))| {
            let (frame, position) = (&self.frames[i as usize], self.positions[i as usize]);
            let (picture, side, field) = (frame.picture, frame.side, frame.field);
            format!(
                "{place:4} {picture:5} {side} {field} {position:14.6} {gap:14.6} {:016x} {:016x}\n",
                position.to_bits(),
                gap.to_bits()
            )
        };
        self.order.iter().zip(&self.gaps).enumerate().map(line).collect()
    }

    /// The places before which the gaps are largest, the largest first, at most so many; frames in one place have no gap between them.
    pub fn largest_gaps(&self, most: usize) -> Vec<usize> {
        let mut places: Vec<usize> = (1..self.gaps.len()).filter(|&place| self.gaps[place] > 0.0).collect();
        places.sort_by(|&a, &b| self.gaps[b].total_cmp(&self.gaps[a]));
        places.truncate(most);
        places
    }

    /// A still picture of the strip.
    pub fn svg(&self) -> String {
        strip_picture::svg(self)
    }
}
