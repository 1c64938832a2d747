//! `mask show`: a sheet or a table as text.

use super::{refused, table_of, Command};
use crate::arguments::Arguments;
use crate::failure::Outcome;
use crate::files;
use crate::picture;
use mask_cleaner::{Image, Table, MAX_IMAGE_FILE};
use std::ffi::OsString;

pub const COMMAND: Command = Command {
    name: "show",
    brief: "show a sheet or a table as text",
    help: "usage: mask show FILE

Shows a sheet, two rows of pixels to a line, or the elements and keepers of a table as pictures: # is in, . is out, the
centre is @ where it is in and + where it is out. FILE may be -. A file that starts with P is taken for a sheet.
`mask table show` gives a table as text that can be edited.

exit status: 0 shown, 1 refused, 2 wrong use or trouble with a file
",
    run,
};

/// No table starts with the first byte of a sheet: it would have 80 elements.
const FIRST_OF_SHEETS: u8 = b'P';

/// Pictures beside each other.
const BESIDE: usize = 6;

fn run(words: Vec<OsString>) -> Outcome {
    let arguments = Arguments::new(words, &[])?;
    let [path] = arguments.exactly()?;
    let file = files::read(path, MAX_IMAGE_FILE)?;
    if file.first() != Some(&FIRST_OF_SHEETS) {
        return files::print(&pictures(&table_of(path, &file)?));
    }
    let image = Image::from_file(&file).map_err(|refusal| refused(path, refusal))?;
    files::print(&picture::of_sheet(&image))
}

/// Elements, then keepers, each below its number.
fn pictures(table: &Table) -> String {
    let titled = |word: &str, masks: &[u32]| -> Vec<(String, u32)> {
        let numbered = (1..).zip(masks);
        numbered
            .map(|(number, mask)| (format!("{word} {number}"), *mask))
            .collect()
    };
    let elements = titled("element", table.elements());
    let keepers = titled("keeper", table.persistents());
    let rows = elements.chunks(BESIDE).chain(keepers.chunks(BESIDE));
    let rows: Vec<String> = rows.map(picture::of_masks).collect();
    rows.join("\n")
}
