//! `mask figures`: balance and cover of a sheet when it is clean.

use super::clean::cleaned;
use super::{read_sheet, read_table, refused, table_of, Command};
use crate::arguments::Arguments;
use crate::failure::Outcome;
use crate::files;
use std::ffi::OsString;

pub const COMMAND: Command = Command {
    name: "figures",
    brief: "balance and cover of a sheet when it is clean",
    help: "usage: mask figures TABLE SHEET

Cleans SHEET with TABLE, writes nothing, and prints `balance B cover C`: B is added less removed, C the black pixels of the
clean sheet in thousandths of all, to the nearest, an exact half to the even one. TABLE or SHEET may be -.

exit status: 0 done, 1 refused, 2 wrong use or trouble with a file
",
    run,
};

fn run(words: Vec<OsString>) -> Outcome {
    let arguments = Arguments::new(words, &[])?;
    let [table, sheet] = arguments.exactly()?;
    files::only_one_standard(&[table, sheet])?;
    let (table_file, file) = (read_table(table)?, read_sheet(sheet)?);
    let table = table_of(table, &table_file)?;
    let figures = cleaned(&table, &file).and_then(|job| job.figures());
    let figures = figures.map_err(|refusal| refused(sheet, refusal))?;
    let (balance, cover) = (figures.balance, figures.cover);
    files::print(&format!("balance {balance} cover {cover}\n"))
}
