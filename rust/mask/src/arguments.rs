//! The words of a command line: positions, and options with a value. `--` ends the options; `-` is a position.

use crate::failure::{Failure, Outcome};
use std::ffi::{OsStr, OsString};
use std::os::unix::ffi::OsStrExt;
use std::str::FromStr;

/// The words of a sub-command, told apart.
pub struct Arguments {
    positions: Vec<OsString>,
    options: Vec<(&'static str, OsString)>,
}

impl Arguments {
    /// Tells the words apart; `known` are the options, each of which has a value.
    pub fn new(words: Vec<OsString>, known: &[&'static str]) -> Outcome<Arguments> {
        let (mut positions, mut options) = (Vec::new(), Vec::new());
        let mut words = words.into_iter();
        while let Some(word) = words.next() {
            if word == "--" {
                positions.extend(words.by_ref());
            } else if !word.as_bytes().starts_with(b"--") {
                positions.push(word);
            } else {
                let (name, value) = parted(&word);
                let shown = name.to_string_lossy();
                let Some(name) = known.iter().find(|option| name == **option) else {
                    return Err(Failure::Usage(format!("there is no option {shown}")));
                };
                let Some(value) = value.or_else(|| words.next()) else {
                    return Err(Failure::Usage(format!("{name} wants a word after it")));
                };
                options.push((*name, value));
            }
        }
        Ok(Arguments { positions, options })
    }

    /// The value of an option that may be given once.
    pub fn option(&self, name: &str) -> Outcome<Option<&OsStr>> {
        let mut values = self.options.iter().filter(|(option, _)| *option == name);
        match (values.next(), values.next()) {
            (_, Some(_)) => Err(Failure::Usage(format!("{name} is given twice"))),
            (found, None) => Ok(found.map(|(_, value)| value.as_os_str())),
        }
    }

    pub fn positions(&self) -> Vec<&OsStr> {
        self.positions.iter().map(OsString::as_os_str).collect()
    }

    /// So many positions, no more and no fewer.
    pub fn exactly<const N: usize>(&self) -> Outcome<[&OsStr; N]> {
        let found = self.positions.len();
        <[&OsStr; N]>::try_from(self.positions())
            .map_err(|_| Failure::Usage(format!("{N} words are wanted, {found} are given")))
    }
}

/// An option's name, and its value where they are one word: `--name=value`.
fn parted(word: &OsStr) -> (&OsStr, Option<OsString>) {
    let mut parts = word.as_bytes().splitn(2, |byte| *byte == b'=');
    let name = OsStr::from_bytes(parts.next().unwrap_or_default());
    let value = parts.next().map(OsStr::from_bytes);
    (name, value.map(OsStr::to_owned))
}

/// A word that is a number.
pub fn number<T: FromStr>(word: &OsStr) -> Outcome<T> {
    let text = word.to_string_lossy();
    let digits = text.bytes().all(|byte| byte.is_ascii_digit());
    match text.parse() {
        Ok(number) if digits => Ok(number),
        _ => Err(Failure::Usage(format!("{text} is no number that fits"))),
    }
}
