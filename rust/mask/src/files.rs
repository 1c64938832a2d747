//! What is read and written: whole files, or `-` for standard input and output.

use crate::failure::{Failure, Outcome, TROUBLE};
use std::ffi::{OsStr, OsString};
use std::fs::{self, File, OpenOptions};
use std::io::{self, ErrorKind, Read, Write};
use std::path::{Path, PathBuf};

const STANDARD: &str = "-";

/// How often a name for an unfinished file is tried.
const TRIES: u32 = 100;

pub fn is_standard(path: &OsStr) -> bool {
    path == STANDARD
}

/// How a file is called in messages.
pub fn name(path: &OsStr) -> String {
    if is_standard(path) {
        "standard input".to_string()
    } else {
        path.to_string_lossy().into_owned()
    }
}

/// The bytes of a file, but one more than `most` at the most: so a longer one is refused as its whole self would be.
pub fn read(path: &OsStr, most: usize) -> Outcome<Vec<u8>> {
    read_front(path, most.saturating_add(1)).map_err(|e| Failure::trouble(name(path), told(&e)))
}

fn read_front(path: &OsStr, most: usize) -> io::Result<Vec<u8>> {
    let mut bytes = Vec::new();
    let most = u64::try_from(most).unwrap_or(u64::MAX);
    if is_standard(path) {
        io::stdin().lock().take(most).read_to_end(&mut bytes)?;
    } else {
        File::open(path)?.take(most).read_to_end(&mut bytes)?;
    }
    Ok(bytes)
}

/// Standard input can be read once.
pub fn only_one_standard(inputs: &[&OsStr]) -> Outcome {
    match inputs.iter().filter(|path| is_standard(path)).count() {
        0 | 1 => Ok(()),
        _ => Err(Failure::usage("standard input can be read once only")),
    }
}

/// Where a command's file goes.
pub enum Output {
    Standard,
    /// A new file, whole or not at all. A link is replaced, and what it leads to stays.
    File(PathBuf),
}

impl Output {
    /// Looks first whether a file may stand there.
    pub fn at(path: &OsStr) -> Outcome<Output> {
        if is_standard(path) {
            return Ok(Output::Standard);
        }
        let shown = path.to_string_lossy();
        let no_name = shown.is_empty() || shown.ends_with('/');
        let path = PathBuf::from(path);
        if no_name || path.file_name().is_none() {
            return Err(Failure::trouble(format!("'{shown}'"), "no name of a file"));
        }
        match fs::metadata(&path) {
            Ok(found) if found.is_dir() => Err(Failure::trouble(shown, "is a folder")),
            Ok(found) if !found.is_file() => Err(Failure::trouble(
                shown,
                "no regular file (- is standard output)",
            )),
            _ => Ok(Output::File(path)),
        }
    }

    pub fn write(&self, bytes: &[u8]) -> Outcome {
        match self {
            Output::Standard => print_bytes(bytes),
            Output::File(path) => {
                replace(path, bytes).map_err(|e| Failure::trouble(path.display(), told(&e)))
            }
        }
    }

    /// Says a line: on standard output, but beside it where that is the file.
    pub fn say(&self, line: &str) -> Outcome {
        let line = format!("{line}\n");
        match self {
            Output::Standard => {
                note(&line);
                Ok(())
            }
            Output::File(_) => print(&line),
        }
    }

    /// What a command ended with, a refusal told beside standard output where that is the file.
    pub fn beside(&self, outcome: Outcome) -> Outcome {
        outcome.map_err(|failure| match (self, failure) {
            (Output::Standard, Failure::Refused { refusal, words, .. }) => Failure::Refused {
                refusal,
                words,
                aside: true,
            },
            (_, failure) => failure,
        })
    }
}

/// Writes a new file beside the path and renames it. Trouble leaves the path as it was, and nothing beside it.
fn replace(path: &Path, bytes: &[u8]) -> io::Result<()> {
    let (mut file, part) = unfinished(path)?;
    let written = file.write_all(bytes).and_then(|()| fs::rename(&part, path));
    if written.is_err() {
        let _ = fs::remove_file(&part);
    }
    written
}

/// A new file beside the path, of a name that nobody has.
fn unfinished(path: &Path) -> io::Result<(File, PathBuf)> {
    let own = std::process::id();
    let mut tried = 0;
    loop {
        let mut name = OsString::from(".");
        name.push(path.file_name().unwrap_or_default());
        name.push(format!(".{own}.{tried}.part"));
        let part = path.with_file_name(name);
        match OpenOptions::new().write(true).create_new(true).open(&part) {
            Err(error) if error.kind() == ErrorKind::AlreadyExists && tried < TRIES => {
                tried = tried.saturating_add(1);
            }
            opened => return opened.map(|file| (file, part)),
        }
    }
}

/// The folder for a command's files; it is made where it is not there.
pub fn folder(path: &OsStr) -> Outcome<PathBuf> {
    let made = fs::create_dir_all(path);
    made.map_err(|e| Failure::trouble(path.to_string_lossy(), told(&e)))?;
    Ok(PathBuf::from(path))
}

/// Prints on standard output.
pub fn print(text: &str) -> Outcome {
    print_bytes(text.as_bytes())
}

/// Whoever reads a pipe may stop when he has seen enough: then nothing more is said.
fn print_bytes(bytes: &[u8]) -> Outcome {
    write_out(io::stdout().lock(), bytes).map_err(|error| match error.kind() {
        ErrorKind::BrokenPipe => Failure::Said(TROUBLE),
        _ => Failure::trouble("standard output", told(&error)),
    })
}

/// Prints on standard error; where that cannot be written, there is nobody to tell.
pub fn note(text: &str) {
    let _ = write_out(io::stderr().lock(), text.as_bytes());
}

/// Writes all of the bytes, and sees to it that they are out.
fn write_out(mut to: impl Write, bytes: &[u8]) -> io::Result<()> {
    to.write_all(bytes)?;
    to.flush()
}

/// What the system says, without its number.
fn told(error: &io::Error) -> String {
    let text = error.to_string();
    match text.split_once(" (os error") {
        Some((words, _)) => words.to_string(),
        None => text,
    }
}
