//! Files that are never half written: the bytes go to a file beside the target, which then takes its name.

use std::ffi::OsString;
use std::fs::{self, File};
use std::io::{self, Write};
use std::path::{Path, PathBuf};

/// Writes a file. A power cut leaves what was there before, or all of the new bytes.
pub fn write(target: &Path, bytes: &[u8]) -> io::Result<()> {
    write_all(&[(target, bytes)]).map_err(|(_, error)| error)
}

/// Writes files that belong together: all are on the disc before the first one takes its name, so that where one cannot be written
/// none is. With a fault comes the place of its file among them.
pub fn write_all(files: &[(&Path, &[u8])]) -> Result<(), (usize, io::Error)> {
    let mut others = Vec::new();
    for (i, (target, _)) in files.iter().enumerate() {
        others.push(beside(target).map_err(|error| (i, error))?);
    }
    let each = |act: &dyn Fn(&Path, &Path, &[u8]) -> io::Result<()>| {
        let mut all = files.iter().zip(&others).enumerate();
        all.try_for_each(|(i, ((target, bytes), other))| act(target, other, bytes).map_err(|error| (i, error)))
    };
    let written =
        each(&|_, other, bytes| put(other, bytes)).and_then(|()| each(&|target, other, _| fs::rename(other, target)));
    if written.is_err() {
        // What could not take its target's name is of no use.
        others.iter().for_each(|other| drop(fs::remove_file(other)));
    }
    written?;
    // The names are kept in the folders, which have to be on the disc too.
    each(&|target, _, _| File::open(folder(target))?.sync_all())
}

/// Whether a file can be written there; nothing is changed.
pub fn test(target: &Path) -> io::Result<()> {
    let beside = beside(target)?;
    File::create(&beside)?;
    fs::remove_file(beside)
}

/// The bytes, on the disc.
fn put(path: &Path, bytes: &[u8]) -> io::Result<()> {
    let mut file = File::create(path)?;
    file.write_all(bytes)?;
    file.sync_all()
}

/// A name of this process's own in the target's folder; none where the target is there and no file.
fn beside(target: &Path) -> io::Result<PathBuf> {
    let none = |why| Err(io::Error::new(io::ErrorKind::InvalidInput, why));
    if target.exists() && !target.is_file() {
        return none("this is no file");
    }
    let mut other = match target.file_name() {
        Some(name) => OsString::from(name),
        None => return none("this names no file"),
    };
    other.push(format!(".{}.new", std::process::id()));
    Ok(target.with_file_name(other))
}

/// The folder that a file is in.
pub fn folder(target: &Path) -> &Path {
    match target.parent() {
        Some(folder) if folder != Path::new("") => folder,
        _ => Path::new("."),
    }
}

#[cfg(test)]
mod tests {
    use super::*;

    /// A folder of this test's own, which is taken away again.
    struct Room(PathBuf);

    impl Room {
        fn new(name: &str) -> Room {
            let path = std::env::temp_dir().join(format!("beside-{name}-{}", std::process::id()));
            fs::create_dir_all(&path).expect("a folder");
            Room(path)
        }

        fn names(&self) -> Vec<OsString> {
            let entries = fs::read_dir(&self.0).expect("a folder");
            let mut names: Vec<OsString> = entries.map(|entry| entry.expect("a name").file_name()).collect();
            names.sort();
            names
        }
    }

    impl Drop for Room {
        fn drop(&mut self) {
            let _ = fs::remove_dir_all(&self.0);
        }
    }

    #[test]
    fn one_file_then_another_in_its_place() {
        let room = Room::new("place");
        let target = room.0.join("run.parked");
        test(&target).expect("a folder that can be written to");
        assert_eq!(room.names(), [""; 0]);
        for bytes in [&b"the first"[..], b"another"] {
            write(&target, bytes).expect("a file");
            assert_eq!(fs::read(&target).expect("the file"), bytes);
            assert_eq!(room.names(), ["run.parked"]);
        }
    }

    #[test]
    fn both_files_or_none() {
        let room = Room::new("both");
        let [one, other] = ["loop.strip", "loop.strip.svg"].map(|name| room.0.join(name));
        let (nowhere, folder) = (room.0.join("no/where"), room.0.join("folder"));
        fs::create_dir(&folder).expect("a folder");
        for bytes in [&b"the first"[..], b"another"] {
            write_all(&[(&one, bytes), (&other, b"a picture")]).expect("two files");
            for bad in [&nowhere, &folder] {
                let (place, _) = write_all(&[(&one, b"new"), (bad, b"new")]).expect_err("no file");
                assert_eq!(place, 1);
                let (place, _) = write_all(&[(bad, b"new"), (&other, b"new")]).expect_err("no file");
                assert_eq!(place, 0);
            }
            assert_eq!(fs::read(&one).expect("the file"), bytes);
            assert_eq!(fs::read(&other).expect("the file"), b"a picture");
            assert_eq!(room.names(), ["folder", "loop.strip", "loop.strip.svg"]);
        }
    }

    #[test]
    fn what_is_no_file_is_left_alone() {
        let room = Room::new("none");
        for target in [
            room.0.clone(),
            PathBuf::from("/dev/null"),
            PathBuf::from("/"),
            room.0.join("no/where"),
        ] {
            assert!(test(&target).is_err(), "{target:?}");
            assert!(write(&target, b"bytes").is_err(), "{target:?}");
        }
        assert_eq!(room.names(), [""; 0]);
    }
}
