//! What the tests share: the real command, run in a folder of its own.
#![allow(dead_code)]

use std::ffi::OsStr;
use std::fs;
use std::io::Write;
use std::path::{Path, PathBuf};
use std::process::{Command, Output, Stdio};
use std::sync::atomic::{AtomicUsize, Ordering};

/// The command as it was built for the tests.
pub const MASK: &str = env!("CARGO_BIN_EXE_mask");

/// The repository.
pub const ROOT: &str = concat!(env!("CARGO_MANIFEST_DIR"), "/../..");

/// Prints a line past the capture of the test runner.
pub fn report(line: &str) {
    writeln!(std::io::stdout(), "    {line}").expect("standard output takes a line");
}

/// A file of the repository.
pub fn file(path: &str) -> Vec<u8> {
    let path = Path::new(ROOT).join(path);
    fs::read(&path).unwrap_or_else(|error| panic!("{}: {error}", path.display()))
}

pub fn text(path: &str) -> String {
    String::from_utf8(file(path)).expect("text")
}

/// The path of a sample, as a word.
pub fn sample(name: &str) -> String {
    format!("{ROOT}/samples/{name}")
}

/// What a command did.
#[derive(Debug, PartialEq, Eq)]
pub struct Ran {
    pub status: i32,
    pub out: Vec<u8>,
    pub err: String,
}

impl Ran {
    fn of(output: Output) -> Ran {
        Ran {
            status: output.status.code().expect("no signal"),
            out: output.stdout,
            err: String::from_utf8(output.stderr).expect("text"),
        }
    }

    pub fn out_text(&self) -> String {
        String::from_utf8(self.out.clone()).expect("text")
    }
}

/// A folder that is removed at the end.
pub struct Folder(PathBuf);

impl Folder {
    pub fn new() -> Folder {
        static COUNT: AtomicUsize = AtomicUsize::new(0);
        let (own, count) = (std::process::id(), COUNT.fetch_add(1, Ordering::Relaxed));
        let path = std::env::temp_dir().join(format!("mask-test-{own}-{count}"));
        fs::create_dir(&path).expect("a new folder");
        Folder(path)
    }

    pub fn path(&self) -> &Path {
        &self.0
    }

    pub fn put(&self, name: &str, bytes: &[u8]) {
        fs::write(self.0.join(name), bytes).expect("a file");
    }

    pub fn get(&self, name: &str) -> Vec<u8> {
        fs::read(self.0.join(name)).unwrap_or_else(|error| panic!("{name}: {error}"))
    }

    /// The names of the files in it, sorted.
    pub fn names(&self) -> Vec<String> {
        let entries = fs::read_dir(&self.0).expect("a folder");
        let name = |entry: fs::DirEntry| entry.file_name().into_string().expect("text");
        let mut names: Vec<String> = entries
            .map(|entry| name(entry.expect("an entry")))
            .collect();
        names.sort();
        names
    }

    /// `mask` with the words, in this folder.
    pub fn command<S: AsRef<OsStr>>(&self, words: &[S]) -> Command {
        let mut command = Command::new(MASK);
        command.args(words).current_dir(&self.0);
        command.stdin(Stdio::null());
        command
    }

    pub fn mask<S: AsRef<OsStr>>(&self, words: &[S]) -> Ran {
        Ran::of(self.command(words).output().expect("the command runs"))
    }

    /// The same with bytes on standard input.
    pub fn mask_with<S: AsRef<OsStr>>(&self, words: &[S], input: &[u8]) -> Ran {
        let mut command = self.command(words);
        command
            .stdin(Stdio::piped())
            .stdout(Stdio::piped())
            .stderr(Stdio::piped());
        let mut child = command.spawn().expect("the command runs");
        let mut stdin = child.stdin.take().expect("a pipe");
        // the command may end before it has read all
        let _ = stdin.write_all(input);
        drop(stdin);
        Ran::of(child.wait_with_output().expect("an end"))
    }

    /// A line of a shell, in this folder.
    pub fn shell(&self, line: &str) -> Ran {
        let mut command = Command::new("bash");
        command
            .args(["-c", line])
            .current_dir(&self.0)
            .stdin(Stdio::null());
        command.env("MASK", MASK);
        Ran::of(command.output().expect("bash runs"))
    }

    /// Nothing on standard output, status 2, and this on standard error.
    pub fn trouble<S: AsRef<OsStr>>(&self, words: &[S], said: &str) {
        let words_shown: Vec<&OsStr> = words.iter().map(AsRef::as_ref).collect();
        let ran = self.mask(words);
        let first = ran.err.lines().next().unwrap_or_default();
        let got = (ran.status, ran.out_text(), first);
        assert_eq!(got, (2, String::new(), said), "{words_shown:?}");
    }
}

impl Drop for Folder {
    fn drop(&mut self) {
        let _ = fs::remove_dir_all(&self.0);
    }
}
