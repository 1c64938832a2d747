//! Several sheets, each cleaned by itself, on several threads. What is said of them comes in the order in which they were given.

use super::clean::cleaned;
use super::{deliver, read_sheet, refused};
use crate::failure::{line, Failure, Outcome, REFUSED, TROUBLE};
use crate::files::{self, Output};
use mask_cleaner::Table;
use std::collections::BTreeMap;
use std::ffi::OsStr;
use std::io::{self, IsTerminal};
use std::path::Path;
use std::sync::atomic::{AtomicUsize, Ordering};
use std::sync::mpsc::{channel, Sender};
use std::thread;

/// A sheet, and the name that its file gets in a folder.
pub struct Sheet<'a> {
    pub path: &'a OsStr,
    pub name: &'a OsStr,
}

/// The sheets with their own names, no two of which are the same.
pub fn names<'a>(paths: &[&'a OsStr]) -> Outcome<Vec<Sheet<'a>>> {
    let mut taken: BTreeMap<&OsStr, &OsStr> = BTreeMap::new();
    let mut sheets = Vec::new();
    for path in paths.iter().copied() {
        let shown = path.to_string_lossy();
        let name = Path::new(path).file_name();
        let name = name.filter(|_| !files::is_standard(path)).ok_or_else(|| {
            Failure::Usage(format!("{shown} has no name of its own for the folder"))
        })?;
        if let Some(other) = taken.insert(name, path) {
            let other = other.to_string_lossy();
            return Err(Failure::Usage(format!(
                "{other} and {shown} have one name, and the folder has room for one"
            )));
        }
        sheets.push(Sheet { path, name });
    }
    if sheets.is_empty() {
        return Err(Failure::usage("at least one SHEET is wanted"));
    }
    Ok(sheets)
}

/// Cleans all of them, and prints a line for each.
pub fn clean(table: &Table, sheets: &[Sheet], folder: &Path, jobs: Option<usize>) -> Outcome {
    let processors = thread::available_parallelism().map_or(1, |n| n.get());
    let threads = jobs.unwrap_or(processors).min(sheets.len());
    let next = AtomicUsize::new(0);
    let (tell, told) = channel();
    thread::scope(|scope| {
        let start = |_| {
            let (tell, next) = (tell.clone(), &next);
            let worker = move || work(table, sheets, folder, next, &tell);
            thread::Builder::new().spawn_scoped(scope, worker).ok()
        };
        // where the system has no more threads, the first ones do the work
        if (0..threads).map_while(start).count() == 0 {
            return Err(Failure::Trouble("no thread can be started".to_string()));
        }
        drop(tell);
        let mut report = Report::new(sheets);
        for (at, outcome) in told {
            report.take(at, outcome)?;
        }
        report.end()
    })
}

/// Takes one sheet after the other that nobody has taken, and tells how it went.
fn work(
    table: &Table,
    sheets: &[Sheet],
    folder: &Path,
    next: &AtomicUsize,
    tell: &Sender<(usize, Outcome<String>)>,
) {
    loop {
        let at = next.fetch_add(1, Ordering::Relaxed);
        let Some(sheet) = sheets.get(at) else { return };
        // nobody listens any more where standard output is gone
        if tell.send((at, clean_one(table, sheet, folder))).is_err() {
            return;
        }
    }
}

/// Cleans one, and gives its line.
fn clean_one(table: &Table, sheet: &Sheet, folder: &Path) -> Outcome<String> {
    let out = Output::at(folder.join(sheet.name).as_os_str())?;
    let file = read_sheet(sheet.path)?;
    let job = cleaned(table, &file).map_err(|refusal| refused(sheet.path, refusal))?;
    deliver(job, sheet.path, &out)
}

/// Prints what was told, in the order of the sheets, and counts on a terminal how many are done.
struct Report<'a> {
    sheets: &'a [Sheet<'a>],
    /// Told, but not yet printed.
    waiting: BTreeMap<usize, Outcome<String>>,
    printed: usize,
    done: usize,
    status: u8,
    on_terminal: bool,
}

impl<'a> Report<'a> {
    fn new(sheets: &'a [Sheet<'a>]) -> Report<'a> {
        Report {
            sheets,
            waiting: BTreeMap::new(),
            printed: 0,
            done: 0,
            status: 0,
            on_terminal: io::stderr().is_terminal(),
        }
    }

    fn take(&mut self, at: usize, outcome: Outcome<String>) -> Outcome {
        self.waiting.insert(at, outcome);
        self.done = self.done.saturating_add(1);
        self.progress("");
        while let Some(outcome) = self.waiting.remove(&self.printed) {
            if let Some(sheet) = self.sheets.get(self.printed) {
                self.print(sheet, outcome)?;
            }
            self.printed = self.printed.saturating_add(1);
        }
        let all = self.sheets.len();
        self.progress(&format!("{} of {all} sheets", self.done));
        Ok(())
    }

    /// The line of a sheet, behind its path.
    fn print(&mut self, sheet: &Sheet, outcome: Outcome<String>) -> Outcome {
        let path = sheet.path.to_string_lossy();
        match outcome {
            Ok(said) => files::print(&format!("{path} {said}\n")),
            Err(Failure::Refused { refusal, words, .. }) => {
                self.status = self.status.max(REFUSED);
                files::print(&format!("{path} {}", line(&refusal)))?;
                files::note(&format!("mask: {words}\n"));
                Ok(())
            }
            Err(Failure::Trouble(text)) => {
                self.status = TROUBLE;
                files::note(&format!("mask: {text}\n"));
                Ok(())
            }
            Err(other) => Err(other),
        }
    }

    /// Writes the line of progress anew; an empty one clears it.
    fn progress(&self, text: &str) {
        if self.on_terminal {
            files::note(&format!("\r\x1b[K{text}"));
        }
    }

    fn end(self) -> Outcome {
        self.progress("");
        match self.status {
            0 => Ok(()),
            status => Err(Failure::Said(status)),
        }
    }
}
