//! A record as fourteen words, as a host keeps it; and what is told of words that are no record, from the text of change request
//! 2026-10: the settings come before counters and phase, since the lowest number comes first.

use crate::descent::{Fault, Method, Record, Settings, Standing};

/// The words of a record, and of its settings, which come first.
pub const RECORD_WORDS: usize = 14;
pub const SETTINGS_WORDS: usize = 9;

/// What comes with the number of settings whose method there is not: no number of 1 to 10 tells it.
const NO_METHOD: u64 = 21;

/// The settings that nine words say; nothing where there are fewer, or where there is no such method.
pub fn settings_of(words: &[u64]) -> Option<Settings> {
    let words = words.get(..SETTINGS_WORDS)?;
    let method = match words[3] {
        0 => Method::Exact,
        1 => Method::BarnesHut,
        _ => return None,
    };
    Some(Settings {
        n: words[0] as usize,
        f: words[1] as usize,
        c: words[2] as usize,
        method,
        perplexity: f64::from_bits(words[4]),
        rate: f64::from_bits(words[5]),
        iterations: words[6] as usize,
        angle: f64::from_bits(words[7]),
        minimum: f64::from_bits(words[8]),
    })
}

/// The record that fourteen words say, whatever a call will find bad in it; or what is told of words that are none. Too few words
/// are no counters. A method that there is not is no settings; a state that there is not is told where the settings are good.
pub fn record_of(words: &[u64]) -> Result<Record, Fault> {
    let words = words.get(..RECORD_WORDS).ok_or(Fault::Counters)?;
    let settings = settings_of(words).ok_or(Fault::Settings(NO_METHOD))?;
    let standing = match words[9] {
        0 => Standing::Running,
        1 => Standing::Stopped,
        2 => Standing::Finished,
        _ => return Err(settings.fault().map_or(Fault::Counters, Fault::Settings)),
    };
    Ok(Record {
        settings,
        standing,
        done: words[10] as usize,
        phase: words[11] as usize,
        units: words[12] as usize,
        used: words[13] as usize,
    })
}

#[cfg(test)]
mod tests {
    use super::*;

    /// A running run of five frames with nothing done.
    fn words() -> [u64; RECORD_WORDS] {
        let [perplexity, rate, angle] = [1.5_f64, 100.0, 0.5].map(f64::to_bits);
        [5, 2, 2, 1, perplexity, rate, 300, angle, 0, 0, 0, 0, 0, 0]
    }

    fn told(alter: impl Fn(&mut [u64; RECORD_WORDS])) -> Option<(u64, u64)> {
        let mut words = words();
        alter(&mut words);
        let fault = record_of(&words).err()?;
        Some((fault.number(), fault.place()))
    }

    #[test]
    fn words_that_are_a_record() {
        assert_eq!(told(|_| {}), None);
        let longer = [&words()[..], &[7, 7]].concat();
        assert_eq!(record_of(&longer), record_of(&words()));
        for (state, standing) in [Standing::Running, Standing::Stopped, Standing::Finished]
            .iter()
            .enumerate()
        {
            let mut words = words();
            words[9] = state as u64;
            assert_eq!(record_of(&words).map(|record| record.standing), Ok(*standing));
        }
        // What a call finds bad in a record is not told here.
        assert_eq!(told(|words| words[0] = 0), None);
        assert_eq!(told(|words| words[12] = 1), None);
    }

    #[test]
    fn too_few_words() {
        for count in 0..RECORD_WORDS {
            let mut words = words();
            assert_eq!(record_of(&words[..count]), Err(Fault::Counters));
            words[3] = 7;
            assert_eq!(
                record_of(&words[..count]),
                Err(Fault::Counters),
                "nothing else is looked at"
            );
            assert_eq!(settings_of(&words[..count]), None);
        }
    }

    #[test]
    fn settings_come_before_the_state() {
        for method in [2, 3, u64::MAX] {
            assert_eq!(told(|words| words[3] = method), Some((21, 21)));
            assert_eq!(told(|words| (words[3], words[9]) = (method, 3)), Some((21, 21)));
            assert_eq!(told(|words| (words[3], words[2]) = (method, 0)), Some((21, 21)));
        }
        for state in [3, 4, u64::MAX] {
            assert_eq!(told(|words| words[9] = state), Some((22, 0)));
            assert_eq!(told(|words| (words[9], words[11]) = (state, 5)), Some((22, 0)));
            let [nan, five, one] = [f64::NAN, 5.0, 1.0].map(f64::to_bits);
            for (place, word, number) in [
                (2, 0, 1),
                (4, nan, 2),
                (5, 0, 3),
                (6, 0, 4),
                (7, one, 5),
                (2, 4, 6),
                (0, 0, 7),
                (1, 257, 7),
                (0, 1, 9),
                (4, five, 10),
            ] {
                let both = told(|words| (words[9], words[place]) = (state, word));
                assert_eq!(both, Some((21, number)), "word {place}");
            }
        }
    }

    /// Of an exact run the angle is not looked at, and its components may be 8.
    #[test]
    fn by_the_method() {
        let angle = f64::NAN.to_bits();
        let exact = |words: &mut [u64; RECORD_WORDS]| (words[3], words[9], words[7], words[2]) = (0, 3, angle, 8);
        assert_eq!(told(exact), Some((22, 0)));
    }
}
