//! The mask cleaner for people. Every verdict and every bit comes from the proved library; this program reads words and files, and says what
//! it was told.
//!
//! - [`commands`]: a module for each sub-command, and the list of them.
//! - [`words`]: a refusal in words. [`drawing`]: tables as text. [`picture`]: sheets and masks as text.
//! - [`files`]: what is read and written. [`arguments`]: the words of the command line. [`failure`]: what may end a command.

// nothing that panics: a line that cannot be written is trouble like any other
#![deny(
    clippy::arithmetic_side_effects,
    clippy::indexing_slicing,
    clippy::panic
)]
#![deny(clippy::expect_used, clippy::unwrap_used)]
#![deny(clippy::print_stderr, clippy::print_stdout)]

mod arguments;
mod commands;
mod drawing;
mod failure;
mod files;

mod picture;
mod words;

use commands::Command;
use failure::{Failure, Outcome};
use std::ffi::OsString;
use std::process::ExitCode;

fn main() -> ExitCode {
    let words = std::env::args_os().skip(1).collect();
    match run(words) {
        Ok(()) => ExitCode::SUCCESS,
        Err(failure) => failure.report(),
    }
}

/// `mask COMMAND WORDS..`; a group of commands, as `table`, takes one more word.
fn run(words: Vec<OsString>) -> Outcome {
    match words.first().and_then(|word| word.to_str()) {
        Some("--help" | "-h") => return files::print(&commands::help()),
        Some("--version" | "-V") => {
            return files::print(concat!("mask ", env!("CARGO_PKG_VERSION"), "\n"))
        }
        _ => {}
    }
    let (command, rest) = Command::named(&words)?;
    if asks_for_help(rest) {
        return files::print(command.help);
    }
    (command.run)(rest.to_vec()).map_err(|failure| match failure {
        Failure::Usage(text) => Failure::Usage(format!("{text}\n{}", command.usage())),
        other => other,
    })
}

/// Whether `--help` stands among the words, before a `--`.
fn asks_for_help(words: &[OsString]) -> bool {
    let mut options = words.iter().take_while(|word| *word != "--");
    options.any(|word| word == "--help" || word == "-h")
}
