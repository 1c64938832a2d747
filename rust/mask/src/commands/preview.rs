//! `mask preview`: the 3 × 3 median of a sheet.

use super::{image_at, refused, Command};
use crate::arguments::Arguments;
use crate::failure::Outcome;
use crate::files::Output;
use std::ffi::{OsStr, OsString};

pub const COMMAND: Command = Command {
    name: "preview",
    brief: "write the 3 by 3 median of a sheet",
    help: "usage: mask preview SHEET OUT

Writes the 3 by 3 median of SHEET to OUT, a quick look without a table: a pixel is black where at least five of the nine
around it are. Prints width and height. SHEET and OUT may be -.

exit status: 0 done, 1 refused, 2 wrong use or trouble with a file
",
    run,
};

fn run(words: Vec<OsString>) -> Outcome {
    let arguments = Arguments::new(words, &[])?;
    let [sheet, out] = arguments.exactly()?;
    let out = Output::at(out)?;
    out.beside(preview(sheet, &out))
}

fn preview(sheet: &OsStr, out: &Output) -> Outcome {
    let image = image_at(sheet)?;
    let file = image.preview().and_then(|median| median.to_file());
    out.write(&file.map_err(|refusal| refused(sheet, refusal))?)?;
    out.say(&format!("{} {}", image.width(), image.height()))
}
