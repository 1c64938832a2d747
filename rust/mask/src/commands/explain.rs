//! `mask explain`: a refusal in words.

use super::Command;
use crate::arguments::{number, Arguments};
use crate::failure::{Failure, Outcome};
use crate::files;
use crate::words;
use mask_cleaner::{Reason, Refusal};
use std::ffi::{OsStr, OsString};

pub const COMMAND: Command = Command {
    name: "explain",
    brief: "say in words what a refusal means",
    help: "usage: mask explain NUMBER [PLACE [WITNESS [POSITION]]]

Says in words what the line `refused NUMBER PLACE WITNESS POSITION` means, and the rule behind it.

exit status: 0 said, 2 wrong use, or no refusal has the number
",
    run,
};

fn run(words: Vec<OsString>) -> Outcome {
    let arguments = Arguments::new(words, &[])?;
    let positions = arguments.positions();
    let [first, rest @ ..] = positions.as_slice() else {
        return Err(Failure::usage("a NUMBER is wanted"));
    };
    let numbers: Vec<usize> = rest.iter().copied().map(number).collect::<Outcome<_>>()?;
    if numbers.len() > 3 {
        return Err(Failure::usage("four numbers at the most are wanted"));
    }
    let reason = reason(first)?;
    let (number, says, rule) = (reason.number(), said(reason, &numbers), words::rule(reason));
    files::print(&format!("{number}: {says}\n{rule}\n"))
}

/// With fewer numbers than the refusal's words need, what its number means.
fn said(reason: Reason, numbers: &[usize]) -> String {
    let needed = match reason {
        Reason::NotPersistent => 3,
        Reason::ElementsDisjoint => 2,
        _ => 1,
    };
    let field = |at: usize| numbers.get(at).copied().unwrap_or(0);
    if numbers.len() < needed {
        return words::brief(reason);
    }
    words::of(&Refusal::witnessed(reason, field(0), field(1), field(2)))
}

fn reason(word: &OsStr) -> Outcome<Reason> {
    match Reason::from_number(number(word)?) {
        Reason::Unlisted(number) => Err(Failure::Usage(format!(
            "no refusal has the number {number}"
        ))),
        reason => Ok(reason),
    }
}
