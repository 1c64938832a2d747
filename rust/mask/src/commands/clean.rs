//! `mask clean`: one sheet, or several into a folder.

use super::{batch, deliver, read_sheet, read_table, refused, rested, table_of, Command};
use crate::arguments::{number, Arguments};
use crate::failure::{Failure, Outcome};
use crate::files::{self, Output};
use mask_cleaner::{Job, Table};
use std::ffi::{OsStr, OsString};

pub const COMMAND: Command = Command {
    name: "clean",
    brief: "clean a sheet, or several into a folder",
    help: "usage: mask clean TABLE SHEET OUT
       mask clean TABLE SHEET.. --into FOLDER [--jobs N]

Cleans SHEET with TABLE until nothing changes, and writes it to OUT. Then prints width, height, passes, added, removed.
A refusal prints `refused` and four numbers, its number, place, witness and position, and leaves OUT as it is; what it
means is said on standard error. `mask explain` says more.

OUT becomes a new file, whole or not at all. If OUT is a link, the new file replaces the link, and what it leads to
stays. A folder, a device or a pipe is not replaced. TABLE or SHEET may be -, standard input. OUT may be -, standard
output: then the line of numbers goes to standard error.

With --into, each sheet is written to FOLDER under its own name, and its line is printed behind its path. FOLDER is
made where it is not there. A refused sheet does not stop the others. --jobs says how many are cleaned at a time;
without it, as many as there are processors.

exit status: 0 done, 1 refused (of several, one at least), 2 wrong use or trouble with a file
",
    run,
};

const INTO: &str = "--into";
const JOBS: &str = "--jobs";

fn run(words: Vec<OsString>) -> Outcome {
    let arguments = Arguments::new(words, &[INTO, JOBS])?;
    let jobs: Option<usize> = arguments.option(JOBS)?.map(number).transpose()?;
    if let Some(folder) = arguments.option(INTO)? {
        return several(&arguments.positions(), folder, jobs);
    }
    if jobs.is_some() {
        return Err(Failure::usage("--jobs is for several sheets, with --into"));
    }
    let [table, sheet, out] = arguments.exactly()?;
    files::only_one_standard(&[table, sheet])?;
    let out = Output::at(out)?;
    out.beside(one(table, sheet, &out))
}

fn one(table: &OsStr, sheet: &OsStr, out: &Output) -> Outcome {
    let (table_file, file) = (read_table(table)?, read_sheet(sheet)?);
    let table = table_of(table, &table_file)?;
    let job = cleaned(&table, &file).map_err(|refusal| refused(sheet, refusal))?;
    out.say(&deliver(job, sheet, out)?)
}

fn several(positions: &[&OsStr], folder: &OsStr, jobs: Option<usize>) -> Outcome {
    let [table, sheets @ ..] = positions else {
        return Err(Failure::usage("TABLE and at least one SHEET are wanted"));
    };
    if jobs == Some(0) {
        return Err(Failure::usage("--jobs is at least 1"));
    }
    let outputs = batch::names(sheets)?;
    let table = table_of(table, &read_table(table)?)?;
    let folder = files::folder(folder)?;
    batch::clean(&table, &outputs, &folder, jobs)
}

/// A job with the sheet, at rest.
pub fn cleaned(table: &Table, file: &[u8]) -> Result<Job, mask_cleaner::Refusal> {
    let mut job = Job::new();
    let loaded = job.load(table, file);
    rested(job, loaded)
}
