//! The sub-commands. Each module has one, with its help; another is a line of [`ALL`] more.

use crate::failure::{Failure, Outcome};
use crate::files::{self, Output};
use crate::words;
use mask_cleaner::{Image, Job, Refusal, Table, MAX_IMAGE_FILE, MAX_TABLE_FILE};
use std::ffi::{OsStr, OsString};

mod batch;
mod clean;
mod diff;
mod explain;
mod figures;
mod preview;
mod show;
mod strip;
mod table;
mod three;

/// A sub-command.
pub struct Command {
    /// One word, or two for a group.
    name: &'static str,
    /// What it does, in a line.
    brief: &'static str,
    /// Usage, and after a blank line the rest.
    pub help: &'static str,
    pub run: fn(Vec<OsString>) -> Outcome,
}

const ALL: &[Command] = &[
    clean::COMMAND,
    strip::COMMAND,
    three::COMMAND,
    preview::COMMAND,
    figures::COMMAND,
    show::COMMAND,
    diff::COMMAND,
    table::MAKE,
    table::SHOW,
    explain::COMMAND,
];

impl Command {
    /// The command that the words begin with, and the words behind its name.
    pub fn named(words: &[OsString]) -> Outcome<(&'static Command, &[OsString])> {
        ALL.iter()
            .find_map(|command| Some((command, command.behind(words)?)))
            .ok_or_else(|| {
                let text = match words.first() {
                    Some(word) => format!("there is no command {}", word.to_string_lossy()),
                    None => "a command is wanted".to_string(),
                };
                Failure::Usage(format!("{text}; mask --help lists them"))
            })
    }

    /// The words behind the command's name, if they begin with it.
    fn behind<'a>(&self, words: &'a [OsString]) -> Option<&'a [OsString]> {
        let mut rest = words;
        for part in self.name.split(' ') {
            let (first, behind) = rest.split_first()?;
            if first != part {
                return None;
            }
            rest = behind;
        }
        Some(rest)
    }

    /// The lines of the help before the first blank one.
    pub fn usage(&self) -> &str {
        self.help.split("\n\n").next().unwrap_or_default()
    }
}

/// The help of the whole.
pub fn help() -> String {
    let commands: String = ALL
        .iter()
        .map(|command| format!("  {:12} {}\n", command.name, command.brief))
        .collect();
    format!(
        "usage: mask COMMAND WORDS..\n\nCleans black-and-white sheets of road paint with a filter table, until nothing changes.\n\n{commands}
`mask COMMAND --help` says what a command does. A SHEET is a raw PBM file of 1 to 256 by 256 pixels, a TABLE a file
that `mask table make` writes. `-` is standard input, or standard output.

exit status: 0 done, 1 refused, 2 wrong use or trouble with a file\n"
    )
}

/// A table file, judged.
fn table_of(path: &OsStr, file: &[u8]) -> Outcome<Table> {
    Table::from_file(file).map_err(|refusal| refused(path, refusal))
}

fn read_table(path: &OsStr) -> Outcome<Vec<u8>> {
    files::read(path, MAX_TABLE_FILE)
}

fn read_sheet(path: &OsStr) -> Outcome<Vec<u8>> {
    files::read(path, MAX_IMAGE_FILE)
}

/// A sheet file, read and judged.
fn image_at(path: &OsStr) -> Outcome<Image> {
    Image::from_file(&read_sheet(path)?).map_err(|refusal| refused(path, refusal))
}

/// The refusal of a file.
fn refused(path: &OsStr, refusal: Refusal) -> Failure {
    Failure::refused(files::name(path), refusal, &words::of(&refusal))
}

/// A job that was loaded, and run until nothing changes.
fn rested(mut job: Job, loaded: Result<(), Refusal>) -> Result<Job, Refusal> {
    loaded?;
    job.run()?;
    Ok(job)
}

/// The line of 01's program: width, height, passes, added, removed.
fn line_of(job: &Job) -> String {
    let record = job.record();
    format!(
        "{} {} {} {} {}",
        record.width, record.height, record.passes, record.added, record.removed
    )
}

/// Writes the file of a job that rests, and gives its line.
fn deliver(mut job: Job, about: &OsStr, out: &Output) -> Outcome<String> {
    let line = line_of(&job);
    let file = job.collect().map_err(|refusal| refused(about, refusal))?;
    out.write(&file)?;
    Ok(line)
}
