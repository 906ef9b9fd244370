//! `map FILE [--seed NUMBER] [--out FOLDER] [--iterations N] [--perplexity P] [--scale FACTOR] [--lists LIST] [--until N] [--park RUN]
//! [--every N] [--resume RUN] [--without PICTURES] [--progress]`: maps a frame file; `map lists RUN LIST`: writes a parked run's lists;
//! `map strip FILE [--seed NUMBER] [--out FOLDER] [--iterations N] [--perplexity P] [--scale FACTOR] [--progress]`: puts its frames along
//! one line; `map monitor [--out FOLDER] MAP...`: writes maps for the picture monitor, and `map monitor --text FILE` one of these as text;
//! `map salvage SCUFFED GOOD`: copies the good records of a scuffed frame file; as `help.txt` tells. What goes wrong gets one line on
//! standard error.

#[path = "map/monitor.rs"]
mod monitor;
#[path = "map/salvage.rs"]
mod salvage;

use brothanchor::beside;
use brothanchor::map::{self, Lists, NoMap, NoRun, Run, Wishes, MOST_FRAMES, RECORD};
use brothanchor::pictures::{self, Pictures};
use brothanchor::scaling::{self, Scaling};
use brothanchor::strip::StripRun;
use brothanchor::{Blindness, Refusal};
use std::fs::{self, File};
use std::io::{self, ErrorKind, Read, Write};
use std::path::{Path, PathBuf};
use std::process::ExitCode;
use std::str::FromStr;

/// What `--help` prints, here and in the script `map`.
const HELP: &str = include_str!("../../help.txt");

/// Where maps are written.
const MAPS: &str = "maps";

/// The exit statuses where there is no map: because of the file or the folder, and because of the command line.
const NO_MAP: u8 = 1;
const BAD_WORDS: u8 = 2;

/// What is said of pictures that are not as they have to be.
const WITHOUT: &str = "--without takes pictures and ranges of them, as in 1281-1320,1377";

/// More bytes than any parked run has, and than any partner's list that is loaded.
const MOST_PARKED: u64 = 1 << 30;
const MOST_LISTED: u64 = 1 << 30;

/// The word for writing a parked run's lists, and how it is used.
const LISTS: &str = "lists";
const LISTS_TAKES: &str = "lists takes a parked run and a file to write, as in lists RUN.parked OUT.lists";

/// The word for frames along one line.
const STRIP: &str = "strip";

/// What is said of options of maps and strips whose values are none.
const SEED: &str = "--seed takes a number from 0 to 2^64 - 1";
const OUT: &str = "--out takes a folder";
const ITERATIONS: &str = "--iterations takes a number from 1 to 65535";
const PERPLEXITY: &str = "--perplexity takes a number above 0";
const SCALE: &str = "--scale takes a finite number above 0, or auto";

fn main() -> ExitCode {
    let said = match asked(std::env::args().skip(1)) {
        Ok(Some(Job::Map(asked))) => run(&asked).map_err(|message| (message, NO_MAP)),
        Ok(Some(Job::Lists { run, out })) => write_lists(&run, &out).map_err(|message| (message, NO_MAP)),
        Ok(Some(Job::Strip(asked))) => strip(&asked).map_err(|message| (message, NO_MAP)),
        Ok(Some(Job::Monitor(asked))) => monitor::done(&asked).map_err(|message| (message, NO_MAP)),
        Ok(Some(Job::Salvage(asked))) => salvage::done(&asked).map_err(|message| (message, NO_MAP)),
        Ok(None) => Ok(HELP.to_string()),
        Err(message) => Err((format!("{message} (./map --help explains)"), BAD_WORDS)),
    };
    match said.and_then(|said| print(&said).map_err(|error| (format!("standard output: {error}"), NO_MAP))) {
        Ok(()) => ExitCode::SUCCESS,
        Err((message, status)) => {
            eprintln!("map: {message}");
            ExitCode::from(status)
        }
    }
}

/// Prints what there is to say; a reader that has read enough and gone away is no fault.
fn print(said: &str) -> io::Result<()> {
    let mut out = io::stdout();
    match out.write_all(said.as_bytes()).and_then(|()| out.flush()) {
        Err(error) if error.kind() == ErrorKind::BrokenPipe => Ok(()),
        written => written,
    }
}

/// What the command line asks for.
#[derive(Debug, PartialEq)]
enum Job {
    /// A map, or a part of the way to one.
    Map(Asked),
    /// A parked run's lists, for a partner.
    Lists { run: PathBuf, out: PathBuf },
    /// Frames along one line.
    Strip(Common),
    /// Maps for the picture monitor, or back to text.
    Monitor(monitor::Asked),
    /// The good records of a scuffed frame file.
    Salvage(salvage::Asked),
}

/// What a strip is made of, and a map too.
#[derive(Debug, PartialEq)]
struct Common {
    file: PathBuf,
    out: PathBuf,
    wishes: Wishes,
    progress: bool,
}

/// What a map is made of.
#[derive(Debug, PartialEq)]
struct Asked {
    common: Common,
    /// Begins from this partner's list.
    lists: Option<PathBuf>,
    /// Stops after so many iterations.
    until: Option<u64>,
    /// Where the run is parked, and after how many iterations each time while it goes.
    park: Option<PathBuf>,
    every: Option<u64>,
    /// Goes on from here.
    resume: Option<PathBuf>,
    /// Takes the frames of these pictures out.
    without: Option<Pictures>,
}

/// The words of the command line; nothing where they ask for help.
fn asked(words: impl Iterator<Item = String>) -> Result<Option<Job>, String> {
    let mut words = words.peekable();
    let mut progress = false;
    while words.next_if(|word| word == "--progress").is_some() {
        progress = true;
    }
    if words.next_if(|word| word == LISTS).is_some() {
        return lists_asked(words);
    }
    if words.next_if(|word| word == STRIP).is_some() {
        return strip_asked(words, progress);
    }
    if words.next_if(|word| word == monitor::WORD).is_some() {
        return monitor::asked(words).map(|asked| asked.map(Job::Monitor));
    }
    if words.next_if(|word| word == salvage::WORD).is_some() {
        return salvage::asked(words).map(|asked| asked.map(Job::Salvage));
    }
    map_asked(words, progress)
}

impl Common {
    /// No file, and no options.
    fn bare(progress: bool) -> Common {
        Common {
            file: PathBuf::new(),
            out: PathBuf::from(MAPS),
            wishes: Wishes::default(),
            progress,
        }
    }

    /// Takes a word that is no option of the job's own, and its value where it has one. What is said of an option that there is not
    /// ends with it.
    fn take(&mut self, word: String, words: &mut impl Iterator<Item = String>, no_option: &str) -> Result<(), String> {
        match word.as_str() {
            "--progress" => self.progress = true,
            "--seed" => self.wishes.seed = Some(number(words.next()).ok_or(SEED)?),
            "--out" => self.out = path(words.next(), OUT)?,
            "--iterations" => self.wishes.iterations = Some(number(words.next()).ok_or(ITERATIONS)?),
            "--perplexity" => self.wishes.perplexity = Some(number(words.next()).ok_or(PERPLEXITY)?),
            "--scale" => self.wishes.scaling = Some(scaling_of(words.next()).ok_or(SCALE)?),
            _ if word.starts_with('-') => return Err(format!("{no_option} {word}")),
            _ if self.is_named() => return Err(format!("one frame file at a time, so not {word} too")),
            _ => self.file = PathBuf::from(word),
        }
        Ok(())
    }

    /// Whether there is a frame file.
    fn is_named(&self) -> bool {
        self.file != Path::new("")
    }

    /// With a frame file.
    fn named(self) -> Result<Common, String> {
        match self.is_named() {
            true => Ok(self),
            false => Err("no frame file is named".to_string()),
        }
    }
}

/// The words of a map; nothing where they ask for help.
fn map_asked(mut words: impl Iterator<Item = String>, progress: bool) -> Result<Option<Job>, String> {
    let mut asked = Asked {
        common: Common::bare(progress),
        lists: None,
        until: None,
        park: None,
        every: None,
        resume: None,
        without: None,
    };
    while let Some(word) = words.next() {
        match word.as_str() {
            "--help" | "-h" => return Ok(None),
            "--until" => asked.until = Some(number(words.next()).ok_or("--until takes a number of iterations")?),
            "--every" => {
                let every = number(words.next()).filter(|&every| every > 0);
                asked.every = Some(every.ok_or("--every takes a number of iterations from 1 on")?);
            }
            "--lists" => asked.lists = Some(path(words.next(), "--lists takes a partner's list")?),
            "--park" => asked.park = Some(path(words.next(), "--park takes a file to write")?),
            "--resume" => asked.resume = Some(path(words.next(), "--resume takes a parked run")?),
            "--without" => asked.without = Some(pictures_of(words.next()).ok_or(WITHOUT)?),
            _ => asked.common.take(word, &mut words, "unknown option")?,
        }
    }
    asked.common = asked.common.named()?;
    together(&asked)?;
    Ok(Some(Job::Map(asked)))
}

/// The words after `lists`; nothing where they ask for help.
fn lists_asked(words: impl Iterator<Item = String>) -> Result<Option<Job>, String> {
    let words: Vec<String> = words.filter(|word| word != "--progress").collect();
    if words.iter().any(|word| word == "--help" || word == "-h") {
        return Ok(None);
    }
    match &words[..] {
        _ if words.iter().any(|word| word.starts_with('-')) => Err(LISTS_TAKES.to_string()),
        [run, out] => Ok(Some(Job::Lists {
            run: PathBuf::from(run),
            out: PathBuf::from(out),
        })),
        _ => Err(LISTS_TAKES.to_string()),
    }
}

/// The words after `strip`; nothing where they ask for help.
fn strip_asked(mut words: impl Iterator<Item = String>, progress: bool) -> Result<Option<Job>, String> {
    let mut asked = Common::bare(progress);
    while let Some(word) = words.next() {
        match word.as_str() {
            "--help" | "-h" => return Ok(None),
            _ => asked.take(word, &mut words, "strip has no option")?,
        }
    }
    asked.named().map(|asked| Some(Job::Strip(asked)))
}

fn path(word: Option<String>, why: &str) -> Result<PathBuf, String> {
    word.map(PathBuf::from).ok_or_else(|| why.to_string())
}

fn number<T: FromStr>(word: Option<String>) -> Option<T> {
    word.and_then(|word| word.parse().ok())
}

fn pictures_of(word: Option<String>) -> Option<Pictures> {
    word.and_then(|word| Pictures::read(&word))
}

fn scaling_of(word: Option<String>) -> Option<Scaling> {
    word.and_then(|word| Scaling::read(&word))
}

/// Which words need others, or go without them.
fn together(asked: &Asked) -> Result<(), String> {
    let wishes = &asked.common.wishes;
    for (is_asked, word) in [(asked.until.is_some(), "--until"), (asked.every.is_some(), "--every")] {
        if is_asked && asked.park.is_none() {
            return Err(format!("{word} needs --park, which says where the run is kept"));
        }
    }
    for (is_asked, word) in [
        (wishes.seed.is_some(), "--seed"),
        (wishes.iterations.is_some(), "--iterations"),
        (wishes.perplexity.is_some(), "--perplexity"),
        (wishes.scaling.is_some(), "--scale"),
        (asked.lists.is_some(), "--lists"),
    ] {
        if is_asked && asked.resume.is_some() {
            return Err(format!(
                "{word} is for a run's start and --resume goes on with one, so not both"
            ));
        }
    }
    let bad = |why: &str| Err(why.to_string());
    match (&asked.lists, &asked.without, &wishes.scaling) {
        (Some(_), Some(_), _) => {
            bad("--lists tells of all frames and --without begins with fewer, so not both: park the run first")
        }
        (Some(_), _, Some(_)) => bad("--scale multiplies the features and --lists goes without them, so not both"),
        _ => Ok(()),
    }
}

/// Maps the file, or parks the run; what there is to say of it.
fn run(asked: &Asked) -> Result<String, String> {
    let name = asked.common.file.display();
    if let Some(path) = &asked.park {
        beside::test(path).map_err(|error| fault(path, error))?;
    }
    let others = [&asked.park, &asked.resume, &asked.lists];
    let others: Vec<&Path> = others.into_iter().flatten().map(PathBuf::as_path).collect();
    let targets = || targets(&asked.common, ["map", "svg"], &others);
    if asked.until.is_none() {
        targets()?;
    }
    let Begun { mut run, gone, rest } = begin(asked)?;
    let kept = kept(asked, rest)?;
    warn(&asked.common.file, run.blindness());
    let worked = work(&mut run, asked);
    if asked.common.progress {
        eprint!("\r\x1b[K");
    }
    worked?;
    let (frames, done, of) = (run.frames().len(), run.done(), run.of());
    let scaled = scaled(&asked.common, run.factor());
    if !run.has_ended() {
        return Ok(format!(
            "{gone}{name}: {frames} frames, parked after {done} of {of} iterations\n{scaled}{kept}"
        ));
    }
    let made = run.map().map_err(|none| format!("{name}: {none}"))?;
    let [lines, picture] = written(&asked.common.out, targets()?, [made.lines(), made.svg()])?;
    Ok(format!(
        "{gone}{name}: {frames} frames, {} after {done} iterations ({} units)\n{scaled}its divergence: {}\nthe map: {lines}\nits picture: {picture}\n{kept}",
        made.record.ending(),
        made.record.units(),
        made.told_divergence()
    ))
}

/// Where many frames are blind, a line tells so before the work begins.
fn warn(file: &Path, blindness: Option<Blindness>) {
    if let Some(blindness) = blindness {
        eprintln!("map: {}: {blindness}", file.display());
    }
}

/// What the features were multiplied by, where that was asked for.
fn scaled(asked: &Common, factor: f64) -> String {
    match asked.wishes.scaling {
        Some(_) => format!("the features: {}\n", scaling::told(factor)),
        None => String::new(),
    }
}

/// A run that is to be worked.
struct Begun {
    run: Run,
    /// What there is to say of the frames that were taken out.
    gone: String,
    /// The frame file of what is left, where something was.
    rest: Option<Vec<u8>>,
}

/// The run that is asked for, prepared or read back, without the frames that are to go.
fn begin(asked: &Asked) -> Result<Begun, String> {
    let name = asked.common.file.display();
    let bytes =
        read(&asked.common.file, (MOST_FRAMES * RECORD) as u64).map_err(|error| fault(&asked.common.file, error))?;
    let pictures = match &asked.without {
        Some(pictures) => pictures,
        None => {
            return Ok(Begun {
                run: whole(asked, &bytes)?,
                gone: String::new(),
                rest: None,
            })
        }
    };
    let frames = map::read(&bytes).map_err(|none| format!("{name}: {none}"))?;
    let places = pictures
        .places(&frames)
        .map_err(|range| format!("{name}: no frame is of picture {range}"))?;
    let rest = pictures::left(&bytes, &places);
    let run = match &asked.resume {
        None => whole(asked, &rest)?,
        Some(path) => {
            let mut run = whole(asked, &bytes)?;
            run.take_out(&places)
                .map_err(|refusal| format!("{}: {refusal}", path.display()))?;
            run
        }
    };
    Ok(Begun {
        run,
        gone: format!("{name}: taken out: {}\n", pictures::told(&frames, &places)),
        rest: Some(rest),
    })
}

/// A run of all frames of a file, prepared or read back.
fn whole(asked: &Asked, bytes: &[u8]) -> Result<Run, String> {
    let name = asked.common.file.display();
    let (path, begun) = match (&asked.resume, &asked.lists) {
        (None, None) => return Run::begin(bytes, &asked.common.wishes).map_err(|none| format!("{name}: {none}")),
        (Some(path), _) => {
            let parked = read(path, MOST_PARKED).map_err(|error| fault(path, error))?;
            (path, Run::resume(bytes, &parked))
        }
        (None, Some(path)) => {
            let list = read(path, MOST_LISTED).map_err(|error| fault(path, error))?;
            if list.len() as u64 > MOST_LISTED {
                return Err(format!("{}: longer than any list that is loaded", path.display()));
            }
            (path, Run::import(bytes, &asked.common.wishes, &list))
        }
    };
    begun.map_err(|none| match none {
        NoRun::Frames(_) => format!("{name}: {none}"),
        _ => format!("{}: {none}", path.display()),
    })
}

/// Writes a parked run's lists; what there is to say of them. The file there is the one before or the new one, and never half
/// of it.
fn write_lists(run: &Path, out: &Path) -> Result<String, String> {
    if one_place(run, out) {
        return Err(format!(
            "{}: this is the parked run, so write the lists to another file",
            out.display()
        ));
    }
    let parked = read(run, MOST_PARKED).map_err(|error| fault(run, error))?;
    let made = map::lists_of(&parked).map_err(|none| format!("{}: {none}", run.display()))?;
    beside::write(out, &made.bytes).map_err(|error| fault(out, error))?;
    let Lists { frames, links, .. } = made;
    Ok(format!(
        "{}: {frames} frames, {links} links\nthe lists: {}\n",
        run.display(),
        out.display()
    ))
}

/// Puts the frames of a file along one line; what there is to say of the strip.
fn strip(asked: &Common) -> Result<String, String> {
    let name = asked.file.display();
    let targets = || targets(asked, ["strip", "strip.svg"], &[]);
    targets()?;
    let bytes = read(&asked.file, (MOST_FRAMES * RECORD) as u64).map_err(|error| fault(&asked.file, error))?;
    let refused = |none: NoMap| no_strip(asked, none, bytes.len() / RECORD);
    let mut run = StripRun::begin(&bytes, &asked.wishes).map_err(refused)?;
    warn(&asked.file, run.blindness());
    let worked = run.work(|done, of| tell(asked.progress, done, of));
    if asked.progress {
        eprint!("\r\x1b[K");
    }
    let made = worked.and_then(|()| run.strip()).map_err(refused)?;
    let [lines, picture] = written(&asked.out, targets()?, [made.lines(), made.svg()])?;
    Ok(format!(
        "{name}: {} frames, {} after {} iterations ({} units)\n{}the strip: {lines}\nits picture: {picture}\n",
        made.frames.len(),
        made.record.ending(),
        made.record.iterations(),
        made.record.units(),
        scaled(asked, made.factor)
    ))
}

/// Why there is no strip. Outside the profile only the number of frames can be, by this command.
fn no_strip(asked: &Common, none: NoMap, frames: usize) -> String {
    let name = asked.file.display();
    match none.refusal {
        Refusal(20) => format!("{name}: {none} (here are {frames}), so take fewer"),
        _ => format!("{name}: {none}"),
    }
}

/// Whether both are one file, or would be.
fn one_place(one: &Path, other: &Path) -> bool {
    match (place(one), place(other)) {
        (Some(one), Some(other)) => one == other,
        _ => false,
    }
}

/// Where a file is, or would be in a folder that is there.
fn place(path: &Path) -> Option<PathBuf> {
    let beside = || Some(fs::canonicalize(beside::folder(path)).ok()?.join(path.file_name()?));
    fs::canonicalize(path).ok().or_else(beside)
}

/// What there is to say of the parked run; and of its frame file, which is written first where frames were taken out.
fn kept(asked: &Asked, rest: Option<Vec<u8>>) -> Result<String, String> {
    let path = match &asked.park {
        Some(path) => path,
        None => return Ok(String::new()),
    };
    let mut said = format!("the parked run: {}\n", path.display());
    if let Some(rest) = rest {
        let frames = path.with_extension("frames");
        keep(&rest, &frames, path)?;
        said += &format!("its frames: {}\n", frames.display());
    }
    Ok(said)
}

/// Writes the frames that are left, without which a parked run is no use. A file that is there has to hold just these, so that
/// no frame file is ever lost and none gets the wrong run.
fn keep(rest: &[u8], frames: &Path, run: &Path) -> Result<(), String> {
    let other = |why| {
        Err(format!(
            "{}: {why}, so park the run under another name",
            frames.display()
        ))
    };
    if frames == run {
        return other("the frames that are left go here");
    }
    match read(frames, rest.len() as u64) {
        Ok(there) if there == rest => Ok(()),
        Ok(_) => other("the frames that are left go here, but it holds others"),
        Err(error) if error.kind() == ErrorKind::NotFound => {
            beside::write(frames, rest).map_err(|error| fault(frames, error))
        }
        Err(error) => Err(fault(frames, error)),
    }
}

/// Works the run to its end or as far as asked for, and parks it where that is asked for.
fn work(run: &mut Run, asked: &Asked) -> Result<(), String> {
    let until = asked.until.unwrap_or(u64::MAX);
    while !run.has_ended() && run.done() < until {
        run.iterate()
            .map_err(|refusal| format!("{}: {refusal}", asked.common.file.display()))?;
        tell(asked.common.progress, run.done(), run.of());
        if asked.every.map_or(false, |every| run.done() % every == 0) {
            park(run, asked)?;
        }
    }
    park(run, asked)
}

/// Parks the run where it is asked for: the file there is the one before or the new one, and never half of it.
fn park(run: &Run, asked: &Asked) -> Result<(), String> {
    match &asked.park {
        None => Ok(()),
        Some(path) => {
            let bytes = run.park().map_err(|refusal| format!("{}: {refusal}", path.display()))?;
            beside::write(path, &bytes).map_err(|error| fault(path, error))
        }
    }
}

fn fault(path: &Path, error: io::Error) -> String {
    format!("{}: {error}", path.display())
}

/// The file's bytes, but no more than tell that there are too many.
fn read(path: &Path, most: u64) -> io::Result<Vec<u8>> {
    let mut bytes = Vec::new();
    File::open(path)?.take(most + 1).read_to_end(&mut bytes)?;
    Ok(bytes)
}

/// How far the run is, on a terminal.
fn tell(progress: bool, done: u64, of: u64) {
    if progress {
        eprint!("\rmapping: {done} of {of} iterations");
    }
}

/// The two files of a frame file, each with its ending in the place of the frame file's. Both can be written, as far as can be told
/// before, and neither is the frame file or another that is read or written.
fn targets(asked: &Common, endings: [&str; 2], others: &[&Path]) -> Result<[PathBuf; 2], String> {
    let base = asked.out.join(asked.file.file_name().unwrap_or_default());
    let paths = endings.map(|ending| base.with_extension(ending));
    for path in &paths {
        for other in others.iter().chain([&asked.file.as_path()]) {
            if one_place(path, other) {
                let (path, other) = (path.display(), other.display());
                return Err(format!(
                    "{path}: this would replace {other}, so take another folder with --out"
                ));
            }
        }
    }
    let is_missing = |folder: &&Path| *folder != Path::new("") && !folder.exists();
    match asked.out.ancestors().take_while(is_missing).last() {
        Some(folder) => beside::test(folder).map_err(|error| fault(&asked.out, error))?,
        None => paths
            .iter()
            .try_for_each(|path| beside::test(path).map_err(|error| fault(path, error)))?,
    }
    Ok(paths)
}

/// Writes both files, or neither; where they are.
fn written(out: &Path, paths: [PathBuf; 2], texts: [String; 2]) -> Result<[String; 2], String> {
    fs::create_dir_all(out).map_err(|error| fault(out, error))?;
    let ([one, other], [text, picture]) = (&paths, &texts);
    beside::write_all(&[(one, text.as_bytes()), (other, picture.as_bytes())])
        .map_err(|(place, error)| fault(&paths[place], error))?;
    Ok(paths.map(|path| path.display().to_string()))
}

#[cfg(test)]
mod tests {
    use super::*;

    fn job(words: &str) -> Result<Option<Job>, String> {
        asked(words.split_whitespace().map(String::from))
    }

    /// The words of a map.
    fn of(words: &str) -> Result<Option<Asked>, String> {
        job(words).map(|job| {
            job.map(|job| match job {
                Job::Map(asked) => asked,
                _ => panic!("no map: {words}"),
            })
        })
    }

    #[test]
    fn words_in_any_order() {
        let all = Asked {
            common: Common {
                file: PathBuf::from("disc.frames"),
                out: PathBuf::from("there"),
                wishes: Wishes {
                    seed: Some(3),
                    iterations: Some(90),
                    perplexity: Some(7.5),
                    scaling: Some(Scaling::By(0.25)),
                },
                progress: true,
            },
            lists: None,
            until: Some(40),
            park: Some(PathBuf::from("disc.parked")),
            every: Some(10),
            resume: None,
            without: Pictures::read("7,1281-1320"),
        };
        let words = "--progress --out there --until 40 disc.frames --every 10 --seed 3 --without 7,1281-1320 --scale 0.25 --perplexity 7.5 --park disc.parked --iterations 90";
        assert_eq!(of(words), Ok(Some(all)));
        let bare = of("disc.frames").expect("a file").expect("no help");
        let wanted = Common {
            file: PathBuf::from("disc.frames"),
            ..Common::bare(false)
        };
        assert_eq!(bare.common, wanted);
        assert_eq!(wanted.out, Path::new("maps"));
        let resumed = of("--resume a.parked disc.frames --park a.parked").expect("a file");
        let resumed = resumed.expect("no help");
        assert_eq!(resumed.resume, resumed.park);
        let from = of("--lists a.lists disc.frames --seed 3 --until 4 --park a.parked").expect("a file");
        assert_eq!(from.expect("no help").lists, Some(PathBuf::from("a.lists")));
    }

    #[test]
    fn the_word_lists() {
        let wanted = Job::Lists {
            run: PathBuf::from("a.parked"),
            out: PathBuf::from("a.lists"),
        };
        assert_eq!(job("--progress lists a.parked a.lists"), job("lists a.parked a.lists"));
        assert_eq!(job("lists a.parked a.lists"), Ok(Some(wanted)));
        assert_eq!(job("lists a.parked --help"), Ok(None));
        for words in [
            "lists",
            "lists a.parked",
            "lists a.parked a.lists b.lists",
            "lists a.parked a.lists --seed 3",
            "lists --out there a.parked a.lists",
        ] {
            assert_eq!(job(words), Err(LISTS_TAKES.to_string()), "{words}");
        }
        // Elsewhere it is a name as any other.
        assert_eq!(
            job("disc.frames lists"),
            Err("one frame file at a time, so not lists too".to_string())
        );
    }

    #[test]
    fn the_word_strip() {
        let wanted = Common {
            file: PathBuf::from("disc.frames"),
            out: PathBuf::from("there"),
            wishes: Wishes {
                seed: Some(3),
                iterations: Some(40),
                perplexity: Some(7.5),
                scaling: Some(Scaling::Auto),
            },
            progress: true,
        };
        let words = "strip --out there --progress disc.frames --scale auto --iterations 40 --seed 3 --perplexity 7.5";
        assert_eq!(job(words), Ok(Some(Job::Strip(wanted))));
        for words in [
            "--progress strip disc.frames",
            "--progress --progress strip disc.frames",
        ] {
            let bare = Common {
                file: PathBuf::from("disc.frames"),
                ..Common::bare(true)
            };
            assert_eq!(job(words), Ok(Some(Job::Strip(bare))), "{words}");
        }
        assert_eq!(job("strip disc.frames --help"), Ok(None));
        for (words, why) in [
            ("strip", "no frame file is named"),
            ("strip a b", "one frame file at a time, so not b too"),
            ("strip a --resume b", "strip has no option --resume"),
            ("strip a --seed", SEED),
            ("strip a --out", OUT),
            ("strip a --iterations few", ITERATIONS),
            ("strip a --perplexity", PERPLEXITY),
            ("strip a --scale none", SCALE),
        ] {
            assert_eq!(job(words), Err(why.to_string()), "{words}");
        }
    }

    #[test]
    fn help_is_asked_for() {
        for words in ["--help", "-h", "disc.frames --seed 3 --help", "--help --none"] {
            assert_eq!(of(words), Ok(None), "{words}");
        }
        for option in [
            "--seed NUMBER",
            "--out FOLDER",
            "--lists PARTNER.lists",
            "./map lists RUN.parked OUT.lists",
            "./map strip [FILE.frames]",
            "./map monitor [--out FOLDER] NAME.map...",
            "./map monitor --text FILE.monitor",
            "./map salvage SCUFFED.frames GOOD.frames",
            "--iterations N",
            "--perplexity P",
            "--scale FACTOR",
            "--scale auto",
            "--until N",
            "--park RUN.parked",
            "--every N",
            "--resume RUN.parked",
            "--without PICTURES",
            "--progress",
            "-h, --help",
        ] {
            assert!(HELP.contains(option), "{option}");
        }
        assert!(matches!(of("disc.frames --out --help"), Ok(Some(_))));
    }

    /// Each of these command lines is told to be bad, and why.
    fn told(bad: &[(&str, &str)]) {
        for (words, why) in bad {
            assert_eq!(of(words), Err(why.to_string()), "{words}");
        }
    }

    #[test]
    fn bad_words() {
        let (until, every) = (
            "--until takes a number of iterations",
            "--every takes a number of iterations from 1 on",
        );
        told(&[
            ("", "no frame file is named"),
            ("--seed 3", "no frame file is named"),
            ("disc.frames --sead 3", "unknown option --sead"),
            ("-x disc.frames", "unknown option -x"),
            ("disc.frames --seed", "--seed takes a number from 0 to 2^64 - 1"),
            ("disc.frames --seed -1", SEED),
            ("disc.frames --out", "--out takes a folder"),
            (
                "disc.frames --iterations few",
                "--iterations takes a number from 1 to 65535",
            ),
            ("disc.frames --iterations -1", ITERATIONS),
            ("disc.frames --perplexity", "--perplexity takes a number above 0"),
            ("disc.frames --perplexity many", PERPLEXITY),
            ("disc.frames --scale", "--scale takes a finite number above 0, or auto"),
            ("disc.frames --scale 0", SCALE),
            ("disc.frames --scale -1", SCALE),
            ("disc.frames --scale inf", SCALE),
            ("disc.frames --scale nan", SCALE),
            ("disc.frames --scale much", SCALE),
            ("disc.frames --until", until),
            ("disc.frames --until few --park a", until),
            ("disc.frames --every 0 --park a", every),
            ("disc.frames --park", "--park takes a file to write"),
            ("disc.frames --resume", "--resume takes a parked run"),
            ("disc.frames --without", WITHOUT),
            ("disc.frames --without 1320-1281", WITHOUT),
            ("disc.frames --lists", "--lists takes a partner's list"),
            ("a other.frames", "one frame file at a time, so not other.frames too"),
        ]);
    }

    #[test]
    fn words_that_do_not_go_together() {
        let needs = |word| format!("{word} needs --park, which says where the run is kept");
        told(&[
            ("disc.frames --until 40", &needs("--until")),
            ("disc.frames --every 40 --resume a", &needs("--every")),
        ]);
        let start = |word| format!("{word} is for a run's start and --resume goes on with one, so not both");
        told(&[
            ("disc.frames --seed 3 --resume a", &start("--seed")),
            ("disc.frames --resume a --iterations 40", &start("--iterations")),
            ("disc.frames --perplexity 7 --resume a", &start("--perplexity")),
            ("disc.frames --scale auto --resume a", &start("--scale")),
            ("disc.frames --resume a --scale 1", &start("--scale")),
            ("disc.frames --lists a.lists --resume a", &start("--lists")),
        ]);
        told(&[
            (
                "disc.frames --without 7 --lists a.lists",
                "--lists tells of all frames and --without begins with fewer, so not both: park the run first",
            ),
            (
                "disc.frames --scale 0.25 --lists a.lists",
                "--scale multiplies the features and --lists goes without them, so not both",
            ),
        ]);
    }
}
