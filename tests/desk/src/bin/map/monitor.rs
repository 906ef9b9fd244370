//! The word `monitor`: maps for the picture monitor, and back to text.

use crate::{fault, one_place, path, read, OUT};
use brothanchor::{beside, Placed, Refusal};
use std::fs;
use std::path::{Path, PathBuf};

/// The word, and how it is used.
pub const WORD: &str = "monitor";
const TAKES: &str = "monitor takes maps, as in monitor NAME.map, or with --text a file for the monitor";
const ONE: &str = "--text takes one file for the monitor and nothing else, as in monitor --text NAME.monitor";

/// The ending of a file for the monitor.
const ENDING: &str = "monitor";

/// What is read, as it is told.
const MAP: &str = "map";
const FILE: &str = "file for the monitor";

/// What 16 means where a map is written: it has no records.
const BAD_FRAME: &str = "picture, side, field or order of a frame is bad";

/// More bytes than any map has, and than any file for the monitor: as text one of 79,999 stills in two fields has some 22 million.
const MOST: u64 = 1 << 25;

/// What is asked for.
#[derive(Debug, PartialEq)]
pub enum Asked {
    /// Each of these maps for the monitor: beside it, or in a folder.
    Write { maps: Vec<PathBuf>, out: Option<PathBuf> },
    /// A file for the monitor as text.
    Text(PathBuf),
}

/// The words after `monitor`; nothing where they ask for help.
pub fn asked(mut words: impl Iterator<Item = String>) -> Result<Option<Asked>, String> {
    let (mut files, mut out, mut text) = (Vec::new(), None, false);
    while let Some(word) = words.next() {
        match word.as_str() {
            "--help" | "-h" => return Ok(None),
            "--progress" => {}
            "--text" => text = true,
            "--out" => out = Some(path(words.next(), OUT)?),
            _ if word.starts_with('-') => return Err(format!("{WORD} has no option {word}")),
            _ => files.push(PathBuf::from(word)),
        }
    }
    match &files[..] {
        [file] if text && out.is_none() => Ok(Some(Asked::Text(file.clone()))),
        _ if text => Err(ONE.to_string()),
        [] => Err(TAKES.to_string()),
        _ => Ok(Some(Asked::Write { maps: files, out })),
    }
}

/// Does what is asked for; what there is to say of it.
pub fn done(asked: &Asked) -> Result<String, String> {
    match asked {
        Asked::Write { maps, out } => write(maps, out.as_deref()),
        Asked::Text(file) => text(file),
    }
}

/// Writes maps for the monitor: none where one is refused, and all are on the disc before the first takes its name.
fn write(maps: &[PathBuf], out: Option<&Path>) -> Result<String, String> {
    let targets: Vec<PathBuf> = maps.iter().map(|map| target(map, out)).collect();
    for (i, target) in targets.iter().enumerate() {
        if let Some(map) = maps.iter().find(|map| one_place(map, target)) {
            let (target, map) = (target.display(), map.display());
            return Err(format!(
                "{target}: this would replace {map}, and --text shows a file for the monitor"
            ));
        }
        if let Some(j) = (0..i).find(|&j| one_place(&targets[j], target) || targets[j] == *target) {
            let (target, one, other) = (target.display(), maps[j].display(), maps[i].display());
            return Err(format!("{target}: {one} and {other} would both be written here"));
        }
    }
    let mut files = Vec::new();
    let mut said = String::new();
    for (map, target) in maps.iter().zip(&targets) {
        let (frames, file) = monitored(map)?;
        said += &format!(
            "{}: {frames} frames\nfor the monitor: {}\n",
            map.display(),
            target.display()
        );
        files.push(file);
    }
    if let Some(folder) = out {
        fs::create_dir_all(folder).map_err(|error| fault(folder, error))?;
    }
    let all: Vec<(&Path, &[u8])> = targets
        .iter()
        .map(PathBuf::as_path)
        .zip(files.iter().map(Vec::as_slice))
        .collect();
    beside::write_all(&all).map_err(|(place, error)| fault(&targets[place], error))?;
    Ok(said)
}

/// Where a map's file for the monitor goes: under its name, beside it or in a folder.
fn target(map: &Path, out: Option<&Path>) -> PathBuf {
    let beside = map.with_extension(ENDING);
    match (out, beside.file_name()) {
        (Some(folder), Some(name)) => folder.join(name),
        _ => beside,
    }
}

/// How many frames a map has, and its file for the monitor.
fn monitored(map: &Path) -> Result<(usize, Vec<u8>), String> {
    let name = map.display();
    let text = String::from_utf8(all_of(map, MAP)?).map_err(|_| format!("{name}: this is no map"))?;
    let placed = Placed::of_lines(&text).map_err(|line| {
        format!(
            "{name}: line {line} is none of a map: picture, side, field, two coordinates and the 16 hex digits of each"
        )
    })?;
    if placed.is_empty() {
        return Err(no_frame(map, MAP));
    }
    let told = |(refusal, place)| format!("{name}: {}", told(&placed, refusal, place));
    placed.file().map(|file| (placed.len(), file)).map_err(told)
}

/// Why frames are refused, with the line and the picture of the one that is.
fn told(placed: &Placed, refusal: Refusal, place: u64) -> String {
    let meaning = match refusal.0 {
        16 => BAD_FRAME,
        _ => refusal.meaning(),
    };
    let at = match placed.pictures.get(place as usize) {
        Some(picture) if refusal.brings() => format!(" (line {}, picture {picture})", place + 1),
        _ => String::new(),
    };
    format!("refused {}: {meaning}{at}", refusal.0)
}

/// A file for the monitor as the lines of a map.
fn text(file: &Path) -> Result<String, String> {
    match Placed::of_file(&all_of(file, FILE)?) {
        Ok(placed) if placed.is_empty() => Err(no_frame(file, FILE)),
        Ok(placed) => Ok(placed.lines()),
        Err((refusal, place)) => Err(format!("{}: {}", file.display(), refusal.told(place))),
    }
}

/// What is said of a file without a frame.
fn no_frame(path: &Path, what: &str) -> String {
    format!("{}: there is no frame in this {what}", path.display())
}

/// All bytes of a file that is not too long.
fn all_of(path: &Path, what: &str) -> Result<Vec<u8>, String> {
    let bytes = read(path, MOST).map_err(|error| fault(path, error))?;
    match bytes.len() as u64 > MOST {
        true => Err(format!("{}: longer than any {what}", path.display())),
        false => Ok(bytes),
    }
}

#[cfg(test)]
mod tests {
    use super::*;

    fn of(words: &str) -> Result<Option<Asked>, String> {
        asked(words.split_whitespace().map(String::from))
    }

    #[test]
    fn words_of_the_monitor() {
        let write = |maps: &[&str], out: Option<&str>| {
            Ok(Some(Asked::Write {
                maps: maps.iter().map(PathBuf::from).collect(),
                out: out.map(PathBuf::from),
            }))
        };
        assert_eq!(of("a.map"), write(&["a.map"], None));
        assert_eq!(
            of("a.map --out there --progress b.map"),
            write(&["a.map", "b.map"], Some("there"))
        );
        for words in ["--text a.monitor", "a.monitor --text --progress"] {
            assert_eq!(of(words), Ok(Some(Asked::Text(PathBuf::from("a.monitor")))), "{words}");
        }
        assert_eq!(of("a.map --help"), Ok(None));
        for (words, why) in [
            ("", TAKES),
            ("--out there", TAKES),
            ("a.map --out", OUT),
            ("--text", ONE),
            ("--text a.monitor b.monitor", ONE),
            ("--text a.monitor --out there", ONE),
            ("a.map --seed 3", "monitor has no option --seed"),
        ] {
            assert_eq!(of(words), Err(why.to_string()), "{words}");
        }
    }

    #[test]
    fn why_frames_are_refused() {
        let placed = Placed {
            pictures: vec![1201, 1203],
            ..Placed::default()
        };
        for (number, place, words) in [
            (16, 1, "refused 16: picture, side, field or order of a frame is bad (line 2, picture 1203)"),
            (26, 0, "refused 26: a coordinate is not finite, or rounds past the largest single-precision number (line 1, picture 1201)"),
            (12, 0, "refused 12: a lent area is too short"),
        ] {
            assert_eq!(told(&placed, Refusal(number), place), words);
        }
    }

    #[test]
    fn where_it_goes() {
        for (map, out, wanted) in [
            ("maps/sample.map", None, "maps/sample.monitor"),
            ("sample", None, "sample.monitor"),
            ("maps/sample.map", Some("there"), "there/sample.monitor"),
            ("/maps/a.b.map", Some("."), "./a.b.monitor"),
        ] {
            assert_eq!(target(Path::new(map), out.map(Path::new)), Path::new(wanted), "{map}");
        }
    }
}
