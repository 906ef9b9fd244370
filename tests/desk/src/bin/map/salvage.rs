//! The word `salvage`: the good records of a scuffed frame file.

use crate::{fault, one_place, print, read};
use brothanchor::{beside, Dropped, Rule, Salvaged, Stretch};
use std::path::{Path, PathBuf};

/// The word, and how it is used.
pub const WORD: &str = "salvage";
const TAKES: &str = "salvage takes a scuffed frame file and a file to write, as in salvage SCUFFED.frames GOOD.frames";

/// So many bytes are salvaged at most, and what is said of more.
const MOST: u64 = 1 << 28;
const OVER: &str = "over 268,435,456 bytes, more than is salvaged";

/// So many records that are dropped for their order, with none kept between them, are a few.
const FEW: usize = 3;

/// What is asked for.
#[derive(Debug, PartialEq)]
pub struct Asked {
    pub scuffed: PathBuf,
    pub good: PathBuf,
}

/// The words after `salvage`; nothing where they ask for help.
pub fn asked(words: impl Iterator<Item = String>) -> Result<Option<Asked>, String> {
    let words: Vec<String> = words.filter(|word| word != "--progress").collect();
    if words.iter().any(|word| word == "--help" || word == "-h") {
        return Ok(None);
    }
    if let Some(option) = words.iter().find(|word| word.starts_with('-')) {
        return Err(format!("{WORD} has no option {option}"));
    }
    match &words[..] {
        [scuffed, good] => Ok(Some(Asked {
            scuffed: PathBuf::from(scuffed),
            good: PathBuf::from(good),
        })),
        _ => Err(TAKES.to_string()),
    }
}

/// Writes the good records of a scuffed file; a line for each that is dropped, and how many are kept. The scuffed file is never written
/// to. Warnings go to standard error. Where no record is good the lines are printed all the same, before that is refused.
pub fn done(Asked { scuffed, good }: &Asked) -> Result<String, String> {
    let name = scuffed.display();
    if one_place(scuffed, good) {
        return Err(format!(
            "{}: this is the scuffed file, so write the good one to another",
            good.display()
        ));
    }
    let bytes = read(scuffed, MOST).map_err(|error| fault(scuffed, error))?;
    if bytes.len() as u64 > MOST {
        return Err(format!("{name}: {OVER}"));
    }
    let salvaged = Salvaged::of(&bytes).map_err(|refusal| format!("{name}: {refusal}"))?;
    let (kept, dropped) = (salvaged.kept(), salvaged.dropped.len());
    let mut said: String = salvaged.dropped.iter().map(|dropped| line(scuffed, dropped)).collect();
    if kept == 0 {
        print(&said).map_err(|error| format!("standard output: {error}"))?;
        return Err(format!("{name}: {}, so nothing is written", nothing(dropped)));
    }
    beside::write(good, &salvaged.file).map_err(|error| fault(good, error))?;
    salvaged
        .stretches(FEW)
        .iter()
        .for_each(|stretch| warn(scuffed, stretch));
    said += &format!(
        "{name}: {}, {kept} kept, {dropped} dropped\nthe good file: {}\n",
        records(kept + dropped),
        good.display()
    );
    Ok(said)
}

/// What there is to say of a file of which nothing is kept.
fn nothing(dropped: usize) -> String {
    match dropped {
        0 => "there is no record in this file".to_string(),
        _ => format!("of {} none is good", records(dropped)),
    }
}

/// So many records.
fn records(count: usize) -> String {
    match count {
        1 => "1 record".to_string(),
        _ => format!("{count} records"),
    }
}

/// The line of a record that is dropped.
fn line(scuffed: &Path, dropped: &Dropped) -> String {
    let Dropped {
        place,
        rule,
        picture,
        last_kept,
    } = dropped;
    let after = last_kept.filter(|_| *rule == Rule::Order);
    let after = after.map_or_else(String::new, |picture| format!(", picture {picture}"));
    let picture = picture.map_or_else(String::new, |picture| format!(" (picture {picture})"));
    format!(
        "{}: dropped record {place}, counted from 0: {rule}{after}{picture}\n",
        scuffed.display()
    )
}

/// Many records that are dropped for their order, with none kept between them: the one before them may be the bad one.
fn warn(scuffed: &Path, stretch: &Stretch) {
    eprintln!("{}", warning(scuffed, stretch));
}

fn warning(scuffed: &Path, stretch: &Stretch) -> String {
    let Stretch {
        count,
        first,
        last,
        after,
        picture,
    } = stretch;
    format!(
        "map: {}: {count} records from {first} to {last} are dropped for their order: record {after} before them (picture {picture}) may be the scuffed one",
        scuffed.display()
    )
}

#[cfg(test)]
mod tests {
    use super::*;

    fn of(words: &str) -> Result<Option<Asked>, String> {
        asked(words.split_whitespace().map(String::from))
    }

    #[test]
    fn words_of_salvage() {
        let wanted = Asked {
            scuffed: PathBuf::from("a.frames"),
            good: PathBuf::from("b.frames"),
        };
        assert_eq!(of("a.frames --progress b.frames"), Ok(Some(wanted)));
        assert_eq!(of("a.frames --help"), Ok(None));
        for words in ["", "a.frames", "a.frames b.frames c.frames"] {
            assert_eq!(of(words), Err(TAKES.to_string()), "{words}");
        }
        for words in ["a.frames b.frames --out there", "--out a.frames b.frames"] {
            assert_eq!(of(words), Err("salvage has no option --out".to_string()), "{words}");
        }
    }

    #[test]
    fn lines() {
        let told = |rule, picture| {
            line(
                Path::new("a.frames"),
                &Dropped {
                    place: 3,
                    rule,
                    picture,
                    last_kept: Some(1208),
                },
            )
        };
        assert_eq!(
            told(Rule::Side, Some(1204)),
            "a.frames: dropped record 3, counted from 0: its side is not 1 or 2 (picture 1204)\n"
        );
        assert_eq!(
            told(Rule::Tail, None),
            "a.frames: dropped record 3, counted from 0: it is not whole\n"
        );
        assert_eq!(
            told(Rule::Order, Some(1202)),
            "a.frames: dropped record 3, counted from 0: it is out of order after the last record kept, picture 1208 (picture 1202)\n"
        );
        assert_eq!(nothing(1), "of 1 record none is good");
        assert_eq!(nothing(2), "of 2 records none is good");
        assert!(OVER.replace(',', "").starts_with(&format!("over {MOST} bytes")));
        let stretch = Stretch {
            count: 4,
            first: 5,
            last: 9,
            after: 4,
            picture: 66_740,
        };
        assert!(warning(Path::new("a"), &stretch)
            .contains("4 records from 5 to 9 are dropped for their order: record 4 before them (picture 66740)"));
    }
}
