//! `oracle make DIR` writes the replay lists, the bench's files and the sample, as seen from the folder of crates, `oracle show FILE` prints a list as hex,
//! `oracle differences` prints how far the scope paper's rules lie from the usual library, `oracle moved` how far the Rust's divergence lies
//! from the request's, `oracle far` which weights request 2026-05 brings back.

use oracle::{differences, far, lists, moved, words};
use std::fs;
use std::io::{self, Write};
use std::path::Path;
use std::process::ExitCode;

const USAGE: &str = "usage: oracle make DIR | oracle show FILE | oracle differences | oracle moved | oracle far";

fn main() -> ExitCode {
    let arguments: Vec<String> = std::env::args().skip(1).collect();
    match run(&arguments) {
        Ok(()) => ExitCode::SUCCESS,
        Err(message) => {
            eprintln!("{message}");
            ExitCode::FAILURE
        }
    }
}

/// Does what the command line asks.
fn run(arguments: &[String]) -> Result<(), String> {
    let arguments: Vec<&str> = arguments.iter().map(String::as_str).collect();
    match arguments[..] {
        ["make", folder] => make(Path::new(folder)),
        ["show", file] => show(Path::new(file)),
        ["differences"] => print(&differences::report()),
        ["moved"] => print(&moved::report()),
        ["far"] => print(&far::report()),
        _ => Err(USAGE.to_string()),
    }
}

/// Writes each list to its place below the folder of crates.
fn make(crates: &Path) -> Result<(), String> {
    for list in lists::all() {
        let path = list.path(crates);
        if let Some(folder) = path.parent() {
            fs::create_dir_all(folder).map_err(|error| format!("{}: {error}", folder.display()))?;
        }
        let bytes = words::to_bytes(&list.words);
        fs::write(&path, &bytes).map_err(|error| format!("{}: {error}", path.display()))?;
        print(&format!(
            "{}: {} bytes, {} cases\n",
            path.display(),
            bytes.len(),
            list.cases
        ))?;
    }
    for (place, bytes) in lists::files() {
        let path = crates.join(place);
        fs::write(&path, &bytes).map_err(|error| format!("{}: {error}", path.display()))?;
        print(&format!("{}: {} bytes\n", path.display(), bytes.len()))?;
    }
    Ok(())
}

/// Prints the words of a list as hex, one a line.
fn show(file: &Path) -> Result<(), String> {
    let bytes = fs::read(file).map_err(|error| format!("{}: {error}", file.display()))?;
    let lines: String = words::from_bytes(&bytes)
        .iter()
        .map(|word| format!("{word:016x}\n"))
        .collect();
    print(&lines)
}

/// Prints text; a reader that has gone away is an error like any other.
fn print(text: &str) -> Result<(), String> {
    io::stdout()
        .write_all(text.as_bytes())
        .map_err(|error| format!("standard output: {error}"))
}
