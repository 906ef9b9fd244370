//! What is refused, and why.

use std::fmt;

/// The number of a refusal, from 1 to 12 and from 14 to 26.
#[derive(Clone, Copy, Debug, PartialEq, Eq)]
pub struct Refusal(pub u32);

impl Refusal {
    /// A refusal, unless the number is 0.
    pub(crate) fn unless_0(number: u32) -> Result<(), Refusal> {
        match number {
            0 => Ok(()),
            _ => Err(Refusal(number)),
        }
    }

    /// What a call counted in word 0 of its answer; or the refusal with what comes with it there.
    pub(crate) fn unless_counted(number: u32, [word]: [u64; 1]) -> Result<usize, (Refusal, u64)> {
        Refusal::unless_0(number)
            .map(|()| word as usize)
            .map_err(|refusal| (refusal, word))
    }

    /// What the number means.
    pub fn meaning(self) -> &'static str {
        match self.0 {
            1 => "the components are 0 or more than 8",
            2 => "the perplexity is not a positive number",
            3 => "the learning rate is not a positive number",
            4 => "the iterations are 0 or more than 65,535",
            5 => "the angle is not from 0 to below 1",
            6 => "a Barnes-Hut run has more than 3 components",
            7 => "there are no frames or more than 4096, no features or more than 256, or the table has another length",
            8 => "a feature is not finite or above 2^20 in magnitude",
            9 => "a single frame has no map, and at least two have to be left",
            10 => "the perplexity is not below the number of frames, or of those that would be left",
            11 => "the start has another length, or a value that is not finite or above 2^20 in magnitude",
            12 => "a lent area is too short",
            14 => "the next point needs more nodes than the arena has left",
            15 => "a value has left, or the step would leave, the range of numbers that a map may have",
            16 => "a record of the file is bad",
            17 => "the run is inside an iteration, or no iteration has just ended, or the forces give a total of 0, or a strip's run has not ended, or an exact run has no lists",
            18 => "the samples to be taken out do not rise or are not there, or more links would be left than their lists may have",
            19 => "a rule of the partner's list fails at a record",
            20 => "the settings are outside the strip profile: one component, Barnes-Hut, an angle of at most 0.5, at most 1024 frames",
            21 => "the settings are bad",
            22 => "the counters are bad: the state, the iterations done, the units done in this one and in all do not fit each other, there is no such state, or there are fewer than fourteen words",
            23 => "the offsets are bad",
            24 => "a listed index is bad",
            25 => "the tree is bad",
            26 => "a coordinate is not finite, or rounds past the largest single-precision number",
            _ => "no known number",
        }
    }

    /// Whether something comes with the number: a place, a frame, a node, a number of the settings.
    pub fn brings(self) -> bool {
        matches!(self.0, 16 | 19 | 21 | 23 | 24 | 25 | 26)
    }

    /// Number, meaning and what came with the number, in words: what to look at.
    pub fn told(self, with: u64) -> String {
        let plain = self.plain();
        match self.0 {
            16 | 19 => format!("{plain} (record {with}, counted from 0)"),
            21 => format!("{plain}: {}", Refusal::of_settings(with)),
            23 if with == 0 => {
                format!("{plain}: the first is not 0, or the list of frame 0 ends past 2·n·k (look at offsets 0 and 1)")
            }
            23 => format!(
                "{plain}: the list of frame {with} ends before it begins or past 2·n·k (look at offset {})",
                with + 1
            ),
            24 => format!("{plain}: the one at place {with} names no frame"),
            25 if with == 0 => {
                format!("{plain}: the number of nodes in use is 0 or above the arena, or node 0 is faulty")
            }
            25 => format!("{plain}: look at node {with}, the first that is faulty"),
            26 => format!("{plain} (frame {with}, counted from 0)"),
            _ => plain,
        }
    }

    /// Number and meaning.
    fn plain(self) -> String {
        format!("refused {}: {}", self.0, self.meaning())
    }

    /// What is bad in settings, by what comes with 21: the number that a preparation would give, where one does.
    fn of_settings(with: u64) -> String {
        let meaning = match with {
            1..=6 => Refusal(with as u32).meaning(),
            7 => "there are no frames or more than 4096, or no features or more than 256",
            9 => "there is a single frame",
            10 => "the perplexity is not below the number of frames",
            21 => return "the method is neither exact (0) nor Barnes-Hut (1)".to_string(),
            _ => {
                return "there are fewer than nine words, or the method is neither exact (0) nor Barnes-Hut (1)"
                    .to_string()
            }
        };
        format!("{meaning} ({with})")
    }
}

/// Where nothing came with the number. So 21 is of words that are no settings: a preparation has no other reason for it.
impl fmt::Display for Refusal {
    fn fmt(&self, f: &mut fmt::Formatter<'_>) -> fmt::Result {
        match self.0 {
            21 => f.write_str(&self.told(0)),
            _ => f.write_str(&self.plain()),
        }
    }
}

impl std::error::Error for Refusal {}

#[cfg(test)]
mod tests {
    use super::*;

    fn told(number: u32, with: u64) -> String {
        Refusal(number).told(with)
    }

    #[test]
    fn every_number_but_13_has_its_meaning() {
        let unknown = Refusal(0).meaning();
        for number in (1..=12).chain(14..=26) {
            assert_ne!(Refusal(number).meaning(), unknown, "{number}");
        }
        for number in [0, 13, 27] {
            assert_eq!(Refusal(number).meaning(), unknown, "{number}");
        }
    }

    #[test]
    fn what_to_look_at_in_the_settings() {
        let settings = "refused 21: the settings are bad: ";
        for (with, words) in [
            (2, "the perplexity is not a positive number (2)"),
            (6, "a Barnes-Hut run has more than 3 components (6)"),
            (
                7,
                "there are no frames or more than 4096, or no features or more than 256 (7)",
            ),
            (9, "there is a single frame (9)"),
            (10, "the perplexity is not below the number of frames (10)"),
            (21, "the method is neither exact (0) nor Barnes-Hut (1)"),
            (
                0,
                "there are fewer than nine words, or the method is neither exact (0) nor Barnes-Hut (1)",
            ),
        ] {
            assert_eq!(told(21, with), format!("{settings}{words}"));
        }
        for with in (1..=7).chain([9, 10]) {
            assert!(told(21, with).ends_with(&format!(" ({with})")), "{with}");
        }
        assert_eq!(Refusal(21).to_string(), told(21, 0), "nothing came with it");
    }

    #[test]
    fn what_to_look_at_in_the_areas() {
        for (number, with, words) in [
            (23, 17, "the offsets are bad: the list of frame 17 ends before it begins or past 2·n·k (look at offset 18)"),
            (23, 0, "the offsets are bad: the first is not 0, or the list of frame 0 ends past 2·n·k (look at offsets 0 and 1)"),
            (24, 5, "a listed index is bad: the one at place 5 names no frame"),
            (24, 0, "a listed index is bad: the one at place 0 names no frame"),
            (25, 3, "the tree is bad: look at node 3, the first that is faulty"),
            (25, 0, "the tree is bad: the number of nodes in use is 0 or above the arena, or node 0 is faulty"),
        ] {
            assert_eq!(told(number, with), format!("refused {number}: {words}"));
        }
    }

    #[test]
    fn numbers_that_bring_nothing() {
        for number in (1..=12).chain(14..=26).filter(|&number| !Refusal(number).brings()) {
            assert_eq!(told(number, 0), Refusal(number).to_string());
            assert_eq!(told(number, 7), Refusal(number).to_string());
        }
        let brings: Vec<u32> = (0..=27).filter(|&number| Refusal(number).brings()).collect();
        assert_eq!(brings, [16, 19, 21, 23, 24, 25, 26]);
    }

    #[test]
    fn which_record_or_frame() {
        for (number, with, words) in [
            (16, 3, "a record of the file is bad (record 3, counted from 0)"),
            (19, 0, "a rule of the partner's list fails at a record (record 0, counted from 0)"),
            (26, 7, "a coordinate is not finite, or rounds past the largest single-precision number (frame 7, counted from 0)"),
            (26, 0, "a coordinate is not finite, or rounds past the largest single-precision number (frame 0, counted from 0)"),
        ] {
            assert_eq!(told(number, with), format!("refused {number}: {words}"));
        }
    }
}
