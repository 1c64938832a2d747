//! `mask table make` and `mask table show`: tables from drawings, and back.

use super::{read_table, refused, table_of, Command};
use crate::arguments::Arguments;
use crate::drawing::{self, Mistake};
use crate::failure::{Failure, Outcome};
use crate::files::{self, Output};
use std::ffi::{OsStr, OsString};

pub const MAKE: Command = Command {
    name: "table make",
    brief: "make a table from a drawing",
    help: "usage: mask table make FILE.txt OUT

Reads a drawing and writes its table to OUT; then prints the number of elements and of keepers. A drawing has 1 to 64
pictures under the word `element` and 1 to 4 under the word `keeper`, in any order, each of five rows of five characters:

  element       ; the eight neighbours
  .....
  .###.
  .#+#.
  .###.
  .....

# is in and . is out. The centre, the pixel itself, is @ where it is in and + where it is out; an element never has it.
From ; on a line is a comment; blank lines, and spaces around a row, do not matter. FILE.txt and OUT may be -.
A mistake is said with its line and column. A refusal prints `refused` and four numbers, and says which picture it is about.

exit status: 0 done, 1 refused, 2 wrong use, a mistake in the drawing, or trouble with a file
",
    run: make,
};

pub const SHOW: Command = Command {
    name: "table show",
    brief: "show a table as a drawing",
    help: "usage: mask table show TABLE

Prints a table as a drawing, from which `mask table make` makes the same table again. TABLE may be -.

exit status: 0 shown, 1 refused, 2 wrong use or trouble with a file
",
    run: show,
};

/// More than any drawing needs.
const MAX_TEXT: usize = 1 << 20;

fn make(words: Vec<OsString>) -> Outcome {
    let arguments = Arguments::new(words, &[])?;
    let [text, out] = arguments.exactly()?;
    let out = Output::at(out)?;
    out.beside(make_table(text, &out))
}

fn make_table(path: &OsStr, out: &Output) -> Outcome {
    let text = files::read(path, MAX_TEXT)?;
    if text.len() > MAX_TEXT {
        return Err(Failure::trouble(
            files::name(path),
            "too long for a drawing",
        ));
    }
    let text = String::from_utf8_lossy(&text);
    let drawing = drawing::parse(&text).map_err(|mistake| told(path, mistake))?;
    let table = drawing.table().map_err(|refusal| {
        Failure::refused(files::name(path), refusal, &drawing.words(&refusal))
    })?;
    let file = table.to_file().map_err(|refusal| refused(path, refusal))?;
    out.write(&file)?;
    let (elements, keepers) = (table.elements().len(), table.persistents().len());
    out.say(&format!("{elements} {keepers}"))
}

fn told(path: &OsStr, mistake: Mistake) -> Failure {
    let Mistake {
        line,
        column,
        words,
    } = mistake;
    Failure::trouble(
        files::name(path),
        format!("line {line}, column {column}: {words}"),
    )
}

fn show(words: Vec<OsString>) -> Outcome {
    let arguments = Arguments::new(words, &[])?;
    let [path] = arguments.exactly()?;
    let table = table_of(path, &read_table(path)?)?;
    files::print(&drawing::text_of(&table))
}
