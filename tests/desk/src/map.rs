//! The main job: from the bytes of a frame file to a map, its lines and its picture.

use crate::blindness::Blindness;
use crate::parking::{parked, wake};
use crate::partner::{import, lists, pair, LINK_RECORD};
use crate::picture;
use crate::run::{divergence, prepare, sizes, work, Areas, Kind, Method, Record, Rows, Settings, State};
use crate::scaling::Scaling;
use crate::thinning::take_out;
use crate::{frame, frames, scatter, Frame, Refusal, FEATURES, STARTS};
use std::fmt;

/// The most frames on a map, and the bytes of a frame in the file.
pub const MOST_FRAMES: usize = 4096;
pub const RECORD: usize = 72;

/// The words of settings, with which a record begins.
const SETTINGS_WORDS: usize = 9;
/// A map is worked in so many iterations, unless it stops before.
const ITERATIONS: usize = 1000;
/// The perplexity, where there are frames enough.
const PERPLEXITY: f64 = 30.0;
/// The least learning rate.
const LEAST_RATE: f64 = 50.0;
/// The first iterations pull so much harder.
const EXAGGERATION: f64 = 12.0;

/// Why there is no map.
#[derive(Clone, Copy, Debug, PartialEq, Eq)]
pub struct NoMap {
    /// The number.
    pub refusal: Refusal,
    /// What comes with it, where something does: with 16 the place of the first bad record, counted from 0; of 21 to 25, which a
    /// call tells of a run, with 21 the number of what is bad in the settings, with 22 nothing, with 23 the frame, with 24 the place
    /// of the index, with 25 the node. A 21 of words that are no settings comes with nothing.
    pub with: Option<u64>,
}

impl From<Refusal> for NoMap {
    fn from(refusal: Refusal) -> NoMap {
        NoMap { refusal, with: None }
    }
}

impl From<(Refusal, u64)> for NoMap {
    fn from((refusal, word): (Refusal, u64)) -> NoMap {
        let with = refusal.brings().then_some(word);
        NoMap { refusal, with }
    }
}

impl fmt::Display for NoMap {
    fn fmt(&self, f: &mut fmt::Formatter<'_>) -> fmt::Result {
        match self.with {
            Some(with) => write!(f, "{}", self.refusal.told(with)),
            None => write!(f, "{}", self.refusal),
        }
    }
}

/// A map, or as much of one as was worked.
#[derive(Clone, Debug, PartialEq)]
pub struct Map {
    /// The frames, in capture order.
    pub frames: Vec<Frame>,
    /// Two coordinates a frame.
    pub positions: Vec<f64>,
    /// The record at the end.
    pub record: Record,
    /// The Kullback-Leibler figure of the last iteration; nothing where there is none (17).
    pub divergence: Option<f64>,
    /// What the features were multiplied by; 1 too where the run does not know, since it was read back or begun from a list.
    pub factor: f64,
}

/// What a map or a strip goes by where it is not as usual.
#[derive(Clone, Copy, Debug, Default, PartialEq)]
pub struct Wishes {
    /// Starts from a scatter by this seed, and not from the frames' own starts.
    pub seed: Option<u64>,
    /// How many iterations, unless the run stops before.
    pub iterations: Option<usize>,
    /// The perplexity.
    pub perplexity: Option<f64>,
    /// Multiplies every feature first.
    pub scaling: Option<Scaling>,
}

/// What a map of n frames goes by. The perplexity, unasked, is a third of the other frames where there are few; the rate grows with n.
pub fn settings(n: usize, wishes: &Wishes) -> Settings {
    let others = n.saturating_sub(1).max(1) as f64;
    Settings {
        n,
        f: FEATURES,
        c: STARTS,
        method: Method::BarnesHut,
        perplexity: wishes.perplexity.unwrap_or(PERPLEXITY.min(others / 3.0)),
        rate: LEAST_RATE.max(n as f64 / (4.0 * EXAGGERATION)),
        iterations: wishes.iterations.unwrap_or(ITERATIONS),
        angle: 0.5,
        minimum: 1e-7,
    }
}

/// Maps a frame file. After each iteration `progress` is told how many are done of how many.
pub fn map(file: &[u8], wishes: &Wishes, progress: impl FnMut(u64, u64)) -> Result<Map, NoMap> {
    let mut run = Run::begin(file, wishes)?;
    run.work(progress)?;
    run.map()
}

/// How a run is prepared: by settings as words, a table and a start.
pub(crate) type Prepares = fn(&[u64], &[f64], &[f64], &mut Areas, &mut Rows) -> Result<Record, Refusal>;

/// A run of a frame file's frames between two of its iterations.
#[derive(Clone, Debug)]
pub struct Run {
    pub(crate) frames: Vec<Frame>,
    pub(crate) record: Record,
    pub(crate) areas: Areas,
    /// The positions before the last step.
    copy: Vec<f64>,
    /// What the features were multiplied by; nothing where it was read back or begun from a list, and does not know.
    factor: Option<f64>,
}

impl Run {
    /// Prepared from a frame file.
    pub fn begin(file: &[u8], wishes: &Wishes) -> Result<Run, NoMap> {
        let frames = read(file)?;
        let settings = settings(frames.len(), wishes);
        Run::prepared(frames, &settings, wishes, prepare)
    }

    /// Prepared by these settings, from the frames' own starts or from a scatter where there is a seed, and from their features,
    /// multiplied where that is wished.
    pub(crate) fn prepared(
        frames: Vec<Frame>,
        settings: &Settings,
        wishes: &Wishes,
        prepare: Prepares,
    ) -> Result<Run, NoMap> {
        let sizes = sizes(settings)?;
        let factor = wishes.scaling.map_or(1.0, |scaling| scaling.factor(&frames));
        let table: Vec<f64> = table(&frames).iter().map(|feature| feature * factor).collect();
        let start = start(&frames, settings.c, wishes.seed)?;
        let mut areas = Areas::new(&sizes, sizes.nodes);
        let record = prepare(&settings.words(), &table, &start, &mut areas, &mut Rows::new(&sizes))?;
        Ok(Run {
            factor: Some(factor),
            ..Run::standing(frames, record, areas)
        })
    }

    /// Begun from a partner's list, which names the frames by their places in the file, counted from 0. Of the frames only their
    /// starting positions are looked at, and these only where there is no seed.
    pub fn import(file: &[u8], wishes: &Wishes, list: &[u8]) -> Result<Run, NoRun> {
        let frames = read(file).map_err(NoRun::Frames)?;
        let settings = settings(frames.len(), wishes);
        let of_frames = |refusal: Refusal| NoRun::Frames(refusal.into());
        let sizes = sizes(&settings).map_err(of_frames)?;
        let start = start(&frames, STARTS, wishes.seed).map_err(of_frames)?;
        let mut areas = Areas::new(&sizes, sizes.nodes);
        let record = import(&settings.words(), &start, list, &mut areas).map_err(|(refusal, place)| NoRun::List {
            refusal,
            record: place,
            pair: pair(list, place as usize),
        })?;
        Ok(Run::standing(frames, record, areas))
    }

    /// Read back from where it was parked. The frames have to be those that it was begun with; only their number is looked at.
    pub fn resume(file: &[u8], parked: &[u8]) -> Result<Run, NoRun> {
        let frames = read(file).map_err(NoRun::Frames)?;
        let (record, areas) = wake(parked).map_err(|told| NoRun::Parked(told.into()))?;
        let [n, f, c, ..] = record.words;
        if [n, f, c] != [frames.len() as u64, FEATURES as u64, STARTS as u64] {
            return Err(NoRun::Other {
                parked: [n, f, c],
                frames: frames.len(),
            });
        }
        Ok(Run::standing(frames, record, areas))
    }

    fn standing(frames: Vec<Frame>, record: Record, areas: Areas) -> Run {
        let copy = areas.positions.clone();
        Run {
            frames,
            record,
            areas,
            copy,
            factor: None,
        }
    }

    /// One iteration more, unless the run has ended.
    pub fn iterate(&mut self) -> Result<(), NoMap> {
        let [n, _, _, method, ..] = self.record.words;
        let units = if method == 0 { 2 * n + 1 } else { 2 * n + 2 };
        if !self.has_ended() {
            self.copy.copy_from_slice(&self.areas.positions);
        }
        let worked = work(&mut self.record, &mut self.areas, units as u32);
        match worked.kind {
            Kind::Refused(refusal) => Err((refusal, worked.value()).into()),
            _ => Ok(()),
        }
    }

    /// Works it to its end. After each iteration `progress` is told how many are done of how many.
    pub fn work(&mut self, mut progress: impl FnMut(u64, u64)) -> Result<(), NoMap> {
        while !self.has_ended() {
            self.iterate()?;
            progress(self.done(), self.of());
        }
        Ok(())
    }

    /// Iterations done, and how many it has at most.
    pub fn done(&self) -> u64 {
        self.record.iterations()
    }

    pub fn of(&self) -> u64 {
        self.record.words[6]
    }

    /// Whether it has stopped or finished.
    pub fn has_ended(&self) -> bool {
        self.record.state() != Some(State::Running)
    }

    /// The frames on its map, in capture order.
    pub fn frames(&self) -> &[Frame] {
        &self.frames
    }

    /// What its features were multiplied by; 1 too where it was read back or begun from a list.
    pub fn factor(&self) -> f64 {
        self.factor.unwrap_or(1.0)
    }

    /// What there is to tell where many of its frames are blind. Nothing where it was read back or begun from a list: its affinities may
    /// be others than those of its frames' features. Where frames were taken out, those that are left are searched anew, which the run
    /// does not do: it keeps what was found among all.
    pub fn blindness(&self) -> Option<Blindness> {
        Blindness::of(&self.frames, &self.record.words[..SETTINGS_WORDS], self.factor?)
    }

    /// Takes the frames at these places out, which have to rise, and centres what is left.
    pub fn take_out(&mut self, places: &[u32]) -> Result<(), NoMap> {
        let mut table = table(&self.frames);
        let mut old = vec![0; self.frames.len()];
        let left = take_out(&mut self.record, &mut self.areas, &mut table, places, &mut old)?;
        self.frames = old[..left].iter().map(|&place| self.frames[place as usize]).collect();
        self.copy.copy_from_slice(&self.areas.positions);
        Ok(())
    }

    /// Its lists as another tool reads them.
    pub fn lists(&self) -> Result<Vec<u8>, NoMap> {
        Ok(lists(&self.record, &self.areas)?)
    }

    /// The run as a file.
    pub fn park(&self) -> Result<Vec<u8>, NoMap> {
        Ok(parked(&self.record, &self.areas)?)
    }

    /// The map as it stands, with the figure of the iteration just finished. A run just read back has none.
    pub fn map(self) -> Result<Map, NoMap> {
        let factor = self.factor();
        let divergence = match divergence(&self.record, &self.areas, &self.copy) {
            Ok(figure) => Some(figure),
            Err((Refusal(17), _)) => None,
            Err(told) => return Err(told.into()),
        };
        // After a removal the areas are longer than what is left.
        let mut positions = self.areas.positions;
        positions.truncate(STARTS * self.frames.len());
        Ok(Map {
            frames: self.frames,
            positions,
            record: self.record,
            divergence,
            factor,
        })
    }
}

/// A parked run's lists.
#[derive(Clone, Debug, PartialEq, Eq)]
pub struct Lists {
    /// How many frames the run has.
    pub frames: usize,
    /// How many links there are.
    pub links: usize,
    /// The file for the partner.
    pub bytes: Vec<u8>,
}

/// The lists of a parked run; its frames are not needed.
pub fn lists_of(parked: &[u8]) -> Result<Lists, NoMap> {
    let (record, areas) = wake(parked)?;
    let bytes = lists(&record, &areas)?;
    Ok(Lists {
        frames: record.words[0] as usize,
        links: bytes.len() / LINK_RECORD,
        bytes,
    })
}

/// Where the frames start on c components: by the first of their own starts, or by a scatter where there is a seed.
fn start(frames: &[Frame], c: usize, seed: Option<u64>) -> Result<Vec<f64>, Refusal> {
    let mut start: Vec<f64> = frames
        .iter()
        .flat_map(|frame| frame.starts.into_iter().take(c))
        .collect();
    if let Some(seed) = seed {
        scatter(&mut start, frames.len() as u32, c as u32, seed)?;
    }
    Ok(start)
}

/// The frames' rows.
pub(crate) fn table(frames: &[Frame]) -> Vec<f64> {
    frames.iter().flat_map(|frame| frame.features).collect()
}

/// Why a run is not resumed, or not begun from a partner's list.
#[derive(Clone, Copy, Debug, PartialEq, Eq)]
pub enum NoRun {
    /// The frame file is refused.
    Frames(NoMap),
    /// The parked run is.
    Parked(NoMap),
    /// It is a run of other frames: their number, their features and the map's components; and how many there are here.
    Other { parked: [u64; 3], frames: usize },
    /// The partner's list is refused: with 19 the place of its first bad record, counted from 0, and the frames that it names,
    /// from and to, where it is whole.
    List {
        refusal: Refusal,
        record: u64,
        pair: Option<[u32; 2]>,
    },
}

impl fmt::Display for NoRun {
    fn fmt(&self, f: &mut fmt::Formatter<'_>) -> fmt::Result {
        match self {
            NoRun::Frames(none) | NoRun::Parked(none) => write!(f, "{none}"),
            NoRun::List {
                refusal: refusal @ Refusal(19),
                record,
                pair,
            } => {
                write!(f, "{refusal} (record {record}, counted from 0")?;
                match pair {
                    Some([from, to]) => write!(f, ", from {from} to {to})"),
                    None => write!(f, ", not whole)"),
                }
            }
            NoRun::List { refusal, .. } => write!(f, "{refusal}"),
            NoRun::Other { parked, frames } => {
                let [n, features, components] = parked;
                write!(
                    f,
                    "a run of {n} frames with {features} features on a map of {components} components; "
                )?;
                write!(f, "the frame file has {frames} with {FEATURES} for a map of {STARTS}")
            }
        }
    }
}

/// The frames of a file; 7 where it is too long, before any record is tested.
pub fn read(file: &[u8]) -> Result<Vec<Frame>, NoMap> {
    if file.len() > MOST_FRAMES * RECORD {
        return Err(Refusal(7).into());
    }
    let count = frames(file).map_err(|(refusal, place)| (refusal, place as u64))?;
    Ok((0..count).map(|i| frame(file, i)).collect())
}

/// The line of a frame on a map: picture, side, field, both coordinates, both again as bits.
pub(crate) fn line(picture: u32, side: u8, field: u8, [x, y]: [f64; STARTS]) -> String {
    format!(
        "{picture:5} {side} {field} {x:14.6} {y:14.6} {:016x} {:016x}\n",
        x.to_bits(),
        y.to_bits()
    )
}

impl Map {
    /// The divergence with six decimals, or that there is none.
    pub fn told_divergence(&self) -> String {
        self.divergence
            .map_or_else(|| "none".to_string(), |figure| format!("{figure:.6}"))
    }

    /// Where frame i stands.
    pub fn place(&self, i: usize) -> [f64; STARTS] {
        [self.positions[STARTS * i], self.positions[STARTS * i + 1]]
    }

    /// A line for each frame: picture, side, field, both coordinates, both again as bits.
    pub fn lines(&self) -> String {
        let line_of = |(i, frame): (usize, &Frame)| line(frame.picture, frame.side, frame.field, self.place(i));
        self.frames.iter().enumerate().map(line_of).collect()
    }

    /// A still picture of the map.
    pub fn svg(&self) -> String {
        picture::svg(self)
    }
}

#[cfg(test)]
mod tests {
    use super::*;
    use crate::handing::hand_out;

    /// A run of the sample's first frames, after an iteration.
    fn begun() -> Run {
        let sample = include_bytes!("../../../sample.frames");
        let mut run = Run::begin(&sample[..24 * RECORD], &Wishes::default()).expect("a good file");
        run.iterate().expect("a good run");
        run
    }

    /// What every call says of a run that was altered; a strip too, since the run is looked at before its profile.
    fn said(alter: impl Fn(&mut Run)) -> String {
        let mut run = begun();
        alter(&mut run);
        let said = run.iterate().expect_err("bad").to_string();
        assert_eq!(run.park().expect_err("bad").to_string(), said);
        assert_eq!(run.lists().expect_err("bad").to_string(), said);
        assert_eq!(run.take_out(&[3]).expect_err("bad").to_string(), said);
        let handed = hand_out(&run.record, &run.areas, &mut [0; 24], &mut [0.0; 24]);
        assert_eq!(NoMap::from(handed.expect_err("bad")).to_string(), said);
        assert_eq!(run.map().expect_err("bad").to_string(), said);
        said
    }

    #[test]
    fn what_to_look_at_in_a_run() {
        for (said, words) in [
            (
                said(|run| run.record.words[5] = 0),
                "refused 21: the settings are bad: the learning rate is not a positive number (3)",
            ),
            (
                said(|run| run.areas.offsets[18] = 0),
                "refused 23: the offsets are bad: the list of frame 17 ends before it begins or past 2·n·k (look at offset 18)",
            ),
            (
                said(|run| run.areas.indices[5] = 24),
                "refused 24: a listed index is bad: the one at place 5 names no frame",
            ),
            (
                said(|run| {
                    run.record.words[11] = 1;
                    run.record.words[12] += 1;
                    run.areas.nodes[2].count = 25;
                }),
                "refused 25: the tree is bad: look at node 2, the first that is faulty",
            ),
        ] {
            assert_eq!(said, words);
        }
        let counters = said(|run| run.record.words[12] += 1);
        assert!(counters.starts_with("refused 22: the counters are bad: "), "{counters}");
    }
}
