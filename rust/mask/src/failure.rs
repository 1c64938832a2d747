//! What may end a command before it is done, and the exit status: 0 done, 1 refused, 2 wrong use or trouble.

use crate::files;
use mask_cleaner::Refusal;
use std::fmt::Display;
use std::process::ExitCode;

/// The end of a command, or of a step of it.
pub type Outcome<T = ()> = Result<T, Failure>;

pub const REFUSED: u8 = 1;
pub const TROUBLE: u8 = 2;

/// Why a command is not done.
pub enum Failure {
    /// The words of the command line are not those of the command.
    Usage(String),
    /// A file cannot be read or written, or a text has a mistake.
    Trouble(String),
    /// The library refused. `words` say what, and in which file.
    Refused {
        refusal: Refusal,
        words: String,
        /// Standard output is the command's file, so that the line goes beside it, to standard error.
        aside: bool,
    },
    /// Everything has been said.
    Said(u8),
}

impl Failure {
    pub fn usage(text: impl Into<String>) -> Failure {
        Failure::Usage(text.into())
    }

    pub fn trouble(about: impl Display, text: impl Display) -> Failure {
        Failure::Trouble(format!("{about}: {text}"))
    }

    /// A refusal of what the name says.
    pub fn refused(about: impl Display, refusal: Refusal, words: &str) -> Failure {
        Failure::Refused {
            refusal,
            words: format!("{about}: refused: {words}"),
            aside: false,
        }
    }

    /// Says what ended the command, and gives its exit status.
    pub fn report(self) -> ExitCode {
        match self {
            Failure::Usage(text) | Failure::Trouble(text) => say(&text, TROUBLE),
            Failure::Refused {
                refusal,
                words,
                aside,
            } => {
                let line = line(&refusal);
                if aside {
                    files::note(&line);
                } else if let Err(failure) = files::print(&line) {
                    return failure.report();
                }
                say(&words, REFUSED)
            }
            Failure::Said(status) => ExitCode::from(status),
        }
    }
}

/// A refusal as 01's program prints it.
pub fn line(refusal: &Refusal) -> String {
    let [number, place, witness, position] = refusal.numbers();
    format!("refused {number} {place} {witness} {position}\n")
}

fn say(text: &str, status: u8) -> ExitCode {
    files::note(&format!("mask: {text}\n"));
    ExitCode::from(status)
}
