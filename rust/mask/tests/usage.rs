//! Wrong use, help, the man page, and README's examples, run as they stand there.

mod common;

use common::{report, text, Folder, MASK, ROOT};
use std::fs;
use std::os::unix::fs::symlink;

/// The commands that `mask --help` lists.
fn commands(folder: &Folder) -> Vec<String> {
    let help = folder.mask(&["--help"]);
    assert_eq!((help.status, help.err.as_str()), (0, ""));
    let help = help.out_text();
    let listed = help.lines().filter_map(|line| line.strip_prefix("  "));
    let name = |line: &str| {
        line.split("  ")
            .next()
            .unwrap_or_default()
            .trim()
            .to_string()
    };
    listed.map(name).collect()
}

#[test]
fn helps() {
    let folder = Folder::new();
    let commands = commands(&folder);
    let page = text("docs/mask.1").replace('\\', "");
    for command in &commands {
        let words: Vec<&str> = command.split(' ').chain(["--help"]).collect();
        let help = folder.mask(&words);
        assert_eq!((help.status, help.err.as_str()), (0, ""), "{command}");
        let help = help.out_text();
        assert!(
            help.starts_with(&format!("usage: mask {command} ")),
            "{command}"
        );
        assert!(help.contains("\nexit status: 0 "), "{command}");
        assert!(
            help.lines().all(|line| line.chars().count() <= 125),
            "{command}"
        );
        for usage in help.lines().take_while(|line| !line.is_empty()) {
            let usage = usage.trim_start_matches("usage:").trim();
            assert!(page.contains(usage), "the man page has no `{usage}`");
        }
    }
    assert_eq!(commands.len(), 10);
    let version = folder.mask(&["--version"]).out_text();
    assert_eq!(version, format!("mask {}\n", env!("CARGO_PKG_VERSION")));
    report(&format!("commands with help: {}", commands.len()));
}

#[test]
fn wrong_use() {
    let folder = Folder::new();
    folder.trouble::<&str>(&[], "mask: a command is wanted; mask --help lists them");
    folder.trouble(
        &["wash"],
        "mask: there is no command wash; mask --help lists them",
    );
    folder.trouble(
        &["table"],
        "mask: there is no command table; mask --help lists them",
    );
    folder.trouble(
        &["clean", "a", "b"],
        "mask: 3 words are wanted, 2 are given",
    );
    folder.trouble(
        &["clean", "a", "b", "c", "d"],
        "mask: 3 words are wanted, 4 are given",
    );
    folder.trouble(&["clean", "--onto", "d"], "mask: there is no option --onto");
    folder.trouble(
        &["clean", "a", "b", "--into"],
        "mask: --into wants a word after it",
    );
    folder.trouble(
        &["clean", "a", "--into", "d", "--into=e"],
        "mask: --into is given twice",
    );
    folder.trouble(
        &["clean", "a", "b", "--into", "d", "--jobs", "many"],
        "mask: many is no number that fits",
    );
    for command in commands(&folder) {
        let words: Vec<&str> = command.split(' ').collect();
        let ran = folder.mask(&words);
        let usage = folder.mask(&[&words[..], &["-h"]].concat()).out_text();
        let usage = usage.split("\n\n").next().unwrap_or_default();
        assert_eq!((ran.status, ran.out_text().as_str()), (2, ""), "{command}");
        assert!(
            ran.err.ends_with(&format!("{usage}\n")),
            "{command}: {}",
            ran.err
        );
    }
    assert!(folder.names().is_empty());
}

/// A step of README's examples.
enum Step {
    /// A `text` block that has a file's name: the reader saves it.
    Save { name: String, text: String },
    /// In a `console` block, a command behind `$ `, and what it prints.
    Run { command: String, printed: String },
}

fn steps() -> Vec<Step> {
    let readme = text("README.md");
    let (mut steps, mut kind) = (Vec::new(), "");
    for line in readme.lines() {
        if let Some(after) = line.strip_prefix("```") {
            kind = after;
            if let Some(name) = kind.strip_prefix("text ") {
                let (name, text) = (name.to_string(), String::new());
                steps.push(Step::Save { name, text });
            }
        } else if let (Some(command), "console") = (line.strip_prefix("$ "), kind) {
            let command = command.split("   #").next().unwrap_or_default();
            let (command, printed) = (command.to_string(), String::new());
            steps.push(Step::Run { command, printed });
        } else if !kind.is_empty() {
            if let Some(Step::Save { text, .. } | Step::Run { printed: text, .. }) =
                steps.last_mut()
            {
                text.push_str(line);
                text.push('\n');
            }
        }
    }
    steps
}

/// What README shows is what the commands print, one after the other in a folder with the samples.
#[test]
fn readme() {
    let folder = Folder::new();
    fs::create_dir(folder.path().join("bin")).expect("a folder");
    symlink(MASK, folder.path().join("bin/mask")).expect("a link");
    symlink(format!("{ROOT}/samples"), folder.path().join("samples")).expect("a link");
    let (mut saved, mut run) = (0, 0);
    for step in steps() {
        match step {
            Step::Save { name, text } => {
                folder.put(&name, text.as_bytes());
                saved += 1;
            }
            Step::Run { command, printed } => {
                let ran = folder.shell(&format!("{{ {command}\n}} 2>&1"));
                assert_eq!(ran.out_text(), printed, "$ {command}");
                run += 1;
            }
        }
    }
    assert_eq!((saved, run), (1, 10), "README's examples");
    report(&format!("README's examples: {run}"));
}
