//! `mask three`: the majority of three cameras, cleaned.

use super::{deliver, read_sheet, read_table, refused, rested, table_of, Command};
use crate::arguments::Arguments;
use crate::failure::{Failure, Outcome};
use crate::files::{self, Output};
use mask_cleaner::{Image, Job, Reason, Refusal};
use std::ffi::{OsStr, OsString};

pub const COMMAND: Command = Command {
    name: "three",
    brief: "pool three sheets of one size, and clean what two of them agree on",
    help: "usage: mask three TABLE A B C OUT

Pools three sheets of one size: a pixel is black where at least two of A, B and C have it black. Cleans the pool with
TABLE, writes it to OUT and prints width, height, passes, added, removed, as `mask clean` does.

exit status: 0 done, 1 refused, 2 wrong use or trouble with a file
",
    run,
};

fn run(words: Vec<OsString>) -> Outcome {
    let arguments = Arguments::new(words, &[])?;
    let [table, a, b, c, out] = arguments.exactly()?;
    files::only_one_standard(&[table, a, b, c])?;
    let out = Output::at(out)?;
    out.beside(pooled(table, [a, b, c], &out))
}

fn pooled(table: &OsStr, paths: [&OsStr; 3], out: &Output) -> Outcome {
    let table_file = read_table(table)?;
    let [a, b, c] = paths;
    let sheets = [read_sheet(a)?, read_sheet(b)?, read_sheet(c)?];
    let table = table_of(table, &table_file)?;
    let mut job = Job::new();
    let loaded = job.load_three(&table, sheets.each_ref().map(Vec::as_slice));
    let job = rested(job, loaded).map_err(|refusal| sheet_refused(paths, &sheets, refusal))?;
    out.say(&deliver(job, a, out)?)
}

/// The sheet that a refusal is about: 26 says which; else it is the first that is refused by itself.
fn sheet_refused(paths: [&OsStr; 3], sheets: &[Vec<u8>; 3], refusal: Refusal) -> Failure {
    let at = match refusal.reason {
        Reason::SizesDiffer => refusal.place.checked_sub(1),
        _ => sheets
            .iter()
            .position(|file| Image::from_file(file).is_err()),
    };
    let path = at.and_then(|at| paths.get(at).copied());
    refused(path.unwrap_or(OsStr::new("the three sheets")), refusal)
}
