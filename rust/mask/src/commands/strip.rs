//! `mask strip`: up to 16 sheets of one width, cleaned as one.

use super::batch::{names, Sheet};
use super::{image_at, line_of, read_table, refused, rested, table_of, Command};
use crate::arguments::Arguments;
use crate::failure::{Failure, Outcome};
use crate::files::{self, Output};
use mask_cleaner::{Image, Job, Reason, Refusal, StripRecord, Table, MAX_STRIP_PIXELS};
use std::ffi::{OsStr, OsString};

pub const COMMAND: Command = Command {
    name: "strip",
    brief: "clean up to 16 sheets of one width, laid end to end, as one",
    help: "usage: mask strip TABLE SHEET.. --into FOLDER

Lays up to 16 sheets of one width end to end, the first on top, and cleans them as one, across the seams. Each part is
written to FOLDER under its own name. Then prints, for each part, its path, added and removed, and at last the line of the
whole: width, height, passes, added, removed. FOLDER is made where it is not there.
A refusal prints `refused` and four numbers, and writes nothing; what it means is said on standard error.

exit status: 0 done, 1 refused, 2 wrong use or trouble with a file
",
    run,
};

const INTO: &str = "--into";

fn run(words: Vec<OsString>) -> Outcome {
    let arguments = Arguments::new(words, &[INTO])?;
    let positions = arguments.positions();
    let Some(folder) = arguments.option(INTO)? else {
        return Err(Failure::usage("--into FOLDER is wanted"));
    };
    let [table, paths @ ..] = positions.as_slice() else {
        return Err(Failure::usage("TABLE and at least one SHEET are wanted"));
    };
    let sheets = names(paths)?;
    let table = table_of(table, &read_table(table)?)?;
    let images: Vec<Image> = paths
        .iter()
        .map(|path| image_at(path))
        .collect::<Outcome<_>>()?;
    let job = cleaned(&table, &images).map_err(|refusal| part_refused(paths, refusal))?;
    deliver(job, &sheets, folder)
}

/// A job with the strip, at rest.
fn cleaned(table: &Table, images: &[Image]) -> Result<Job, Refusal> {
    let widths: Vec<usize> = images.iter().map(Image::width).collect();
    let heights: Vec<usize> = images.iter().map(Image::height).collect();
    let pixels: Vec<&[u8]> = images.iter().map(Image::pixels).collect();
    let strip = StripRecord::of_widths(&widths, &heights);
    let mut job = Job::for_pixels(MAX_STRIP_PIXELS);
    let loaded = job.load_strip(table, &strip, &pixels.concat());
    rested(job, loaded)
}

/// The refusal of a strip names a part, or all of them.
fn part_refused(paths: &[&OsStr], refusal: Refusal) -> Failure {
    let part = refusal.place.checked_sub(1).and_then(|at| paths.get(at));
    match (refusal.reason, part) {
        (Reason::Parts | Reason::SizeRange, Some(path)) => refused(path, refusal),
        _ => refused(OsStr::new("the strip"), refusal),
    }
}

/// Writes each part under its own name; looks first whether all may be written.
fn deliver(mut job: Job, sheets: &[Sheet], folder: &OsStr) -> Outcome {
    let folder = files::folder(folder)?;
    let output = |sheet: &Sheet| Output::at(folder.join(sheet.name).as_os_str());
    let outputs: Vec<Output> = sheets.iter().map(output).collect::<Outcome<_>>()?;
    let mut lines = String::new();
    for (sheet, (added, removed)) in sheets.iter().zip(job.part_counts()) {
        let path = sheet.path.to_string_lossy();
        lines.push_str(&format!("{path} {added} {removed}\n"));
    }
    lines.push_str(&format!("{}\n", line_of(&job)));
    let parts = job.collect_parts();
    let parts = parts.map_err(|refusal| refused(OsStr::new("the strip"), refusal))?;
    for (output, file) in outputs.iter().zip(parts) {
        output.write(&file)?;
    }
    files::print(&lines)
}
