//! `mask diff`: what changed from one sheet to another.

use super::{image_at, Command};
use crate::arguments::Arguments;
use crate::failure::{Failure, Outcome};
use crate::files;
use mask_cleaner::Image;
use std::ffi::OsString;

pub const COMMAND: Command = Command {
    name: "diff",
    brief: "show what was added and removed between two sheets",
    help: "usage: mask diff BEFORE AFTER

Shows two sheets of one size as one, a character for each pixel: + was added (white before, black after), - was removed,
# stayed black and . stayed white. Then prints `added A removed R`. BEFORE or AFTER may be -.

exit status: 0 shown, 1 a sheet is refused, 2 wrong use, trouble with a file, or sheets of two sizes
",
    run,
};

fn run(words: Vec<OsString>) -> Outcome {
    let arguments = Arguments::new(words, &[])?;
    let [before, after] = arguments.exactly()?;
    files::only_one_standard(&[before, after])?;
    let (old, new) = (image_at(before)?, image_at(after)?);
    if (old.width(), old.height()) != (new.width(), new.height()) {
        let size = |image: &Image| format!("{} by {}", image.width(), image.height());
        let text = format!(
            "{}, but {} is {}",
            size(&new),
            files::name(before),
            size(&old)
        );
        return Err(Failure::trouble(files::name(after), text));
    }
    files::print(&difference(&old, &new))
}

fn difference(old: &Image, new: &Image) -> String {
    let mut text = String::new();
    for (before, after) in old.rows().zip(new.rows()) {
        text.extend(before.iter().zip(after).map(change));
        text.push('\n');
    }
    let count = |kind: char| {
        let pixels = old.pixels().iter().zip(new.pixels());
        pixels.filter(|pair| change(*pair) == kind).count()
    };
    text.push_str(&format!(
        "added {} removed {}\n",
        count(ADDED),
        count(REMOVED)
    ));
    text
}

const ADDED: char = '+';
const REMOVED: char = '-';

/// A pixel before and after.
fn change(pair: (&u8, &u8)) -> char {
    match pair {
        (0, 0) => '.',
        (0, _) => ADDED,
        (_, 0) => REMOVED,
        _ => '#',
    }
}
