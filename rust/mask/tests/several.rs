//! Several sheets at once: `mask clean --into`, `mask strip`, `mask three`, held to the reference.

mod common;

use common::{file, report, sample, Folder, MASK};
use mask_cleaner::TableRecord;
use reference::cases::{median, random_cut, random_image, ring, Random};
use reference::image::{file_of, majority, Image};
use reference::pass::{changes, rest};
use reference::strip::parts_of;
use std::process::Command;

/// The line of a sheet that was cleaned, and its file.
fn cleaned(image: &Image, table: &TableRecord) -> (String, Vec<u8>) {
    let (passes, clean) = rest(image, table);
    let (added, removed) = changes(image, &clean);
    let line = format!(
        "{} {} {passes} {added} {removed}",
        image.width, image.height
    );
    (line, file_of(&clean))
}

fn random_sheets(count: usize, random: &mut Random) -> Vec<Image> {
    let mut sheet = || random_image(1 + random.below(40), 1 + random.below(40), random);
    (0..count).map(|_| sheet()).collect()
}

#[test]
fn folders() {
    let folder = Folder::new();
    let sheets = random_sheets(60, &mut Random::new(71));
    let names: Vec<String> = (0..sheets.len()).map(|i| format!("sheet{i}.pbm")).collect();
    let mut lines = String::new();
    for (name, image) in names.iter().zip(&sheets) {
        folder.put(name, &file_of(image));
        lines.push_str(&format!("{name} {}\n", cleaned(image, &ring()).0));
    }
    for jobs in [None, Some("1"), Some("2"), Some("7"), Some("1000")] {
        let into = format!("clean{}", jobs.unwrap_or_default());
        let mut words = vec!["clean".to_string(), sample("ring.mtb")];
        words.extend(names.iter().cloned());
        words.extend(["--into".to_string(), into.clone()]);
        if let Some(jobs) = jobs {
            words.push(format!("--jobs={jobs}"));
        }
        let ran = folder.mask(&words);
        assert_eq!(
            (ran.status, ran.out_text(), ran.err),
            (0, lines.clone(), String::new())
        );
        for (name, image) in names.iter().zip(&sheets) {
            let file = folder.get(&format!("{into}/{name}"));
            assert_eq!(file, cleaned(image, &ring()).1, "{name}");
        }
    }
    report(&format!("sheets into folders: {}", 5 * sheets.len()));
}

#[test]
fn refused_sheets_do_not_stop_the_others() {
    let folder = Folder::new();
    folder.put("a.pbm", b"P4\n5 5\n\0\0\x20\0\0");
    folder.put("b.pbm", b"P4\n5 5\n\0\0\x20\0");
    folder.put("d.pbm", b"P4\n257 1\n");
    folder.put("e.pbm", b"P4\n1 1\n\x80");
    let ring = sample("ring.mtb");
    let ran = folder.mask(&[
        "clean", &ring, "a.pbm", "b.pbm", "d.pbm", "e.pbm", "--into", "deep/out",
    ]);
    let lines =
        "a.pbm 5 5 1 0 1\nb.pbm refused 11 0 0 0\nd.pbm refused 10 0 0 0\ne.pbm 1 1 0 0 0\n";
    assert_eq!((ran.status, ran.out_text().as_str()), (1, lines));
    let said = "mask: b.pbm: refused: there are more or fewer bytes than the rows need\nmask: d.pbm: refused: width or height is not 1 to 256\n";
    assert_eq!(ran.err, said);
    assert_eq!(folder.get("deep/out/a.pbm"), b"P4\n5 5\n\0\0\0\0\0");
    assert_eq!(folder.shell("ls deep/out").out_text(), "a.pbm\ne.pbm\n");
    let ran = folder.mask(&[
        "clean", &ring, "b.pbm", "c.pbm", "a.pbm", "--into", "deep/out",
    ]);
    assert_eq!(
        (ran.status, ran.out_text().as_str()),
        (2, "b.pbm refused 11 0 0 0\na.pbm 5 5 1 0 1\n")
    );
    assert!(
        ran.err.contains("mask: c.pbm: No such file or directory\n"),
        "{}",
        ran.err
    );
    folder.put("bad.mtb", b"");
    let ran = folder.mask(&["clean", "bad.mtb", "a.pbm", "--into", "none"]);
    assert_eq!(
        (ran.status, ran.out_text().as_str()),
        (1, "refused 1 0 0 0\n")
    );
    assert!(
        !folder.names().contains(&"none".to_string()),
        "no folder is made"
    );
    folder.trouble(
        &["clean", &ring, "a.pbm", "./a.pbm", "--into", "x"],
        "mask: a.pbm and ./a.pbm have one name, and the folder has room for one",
    );
    folder.trouble(
        &["clean", &ring, "-", "--into", "x"],
        "mask: - has no name of its own for the folder",
    );
    folder.trouble(
        &["clean", &ring, "--into", "x"],
        "mask: at least one SHEET is wanted",
    );
    folder.trouble(
        &["clean", &ring, "a.pbm", "--into", "x", "--jobs", "0"],
        "mask: --jobs is at least 1",
    );
    folder.trouble(
        &["clean", &ring, "a.pbm", "--into", "a.pbm"],
        "mask: a.pbm: File exists",
    );
    folder.trouble(
        &["clean", &ring, "a.pbm", "x", "--jobs", "2"],
        "mask: --jobs is for several sheets, with --into",
    );
    assert!(!folder.names().contains(&"x".to_string()));
}

/// On a terminal a line counts what is done, and is gone at the end; elsewhere there is none.
#[test]
fn progress_on_a_terminal() {
    let folder = Folder::new();
    for name in ["a.pbm", "b.pbm"] {
        folder.put(name, b"P4\n5 5\n\0\0\x20\0\0");
    }
    let line = format!(
        "{MASK} clean {} a.pbm b.pbm --into out --jobs 1",
        sample("ring.mtb")
    );
    let script = Command::new("script")
        .args(["--quiet", "--return", "--command", &line, "/dev/null"])
        .current_dir(folder.path())
        .output();
    let Ok(ran) = script else {
        report("no `script` to make a terminal: the line of progress is not tried");
        return;
    };
    let shown = String::from_utf8(ran.stdout).expect("text");
    let clear = "\r\x1b[K";
    let expected = format!(
        "{clear}a.pbm 5 5 1 0 1\r\n{clear}1 of 2 sheets{clear}b.pbm 5 5 1 0 1\r\n{clear}2 of 2 sheets{clear}"
    );
    assert_eq!(shown, expected);
}

#[test]
fn strips() {
    let random = &mut Random::new(72);
    let folder = Folder::new();
    for case in 0..40 {
        let (width, rows) = (1 + random.below(20), 1 + random.below(60));
        let strip = random_image(width, rows, random);
        let heights = random_cut(rows, random);
        let (passes, clean) = rest(&strip, &median());
        let (before, after) = (parts_of(&strip, &heights), parts_of(&clean, &heights));
        let mut words = vec!["strip".to_string(), sample("median.mtb")];
        let (mut lines, into) = (String::new(), format!("out{case}"));
        for (i, (part, clean)) in before.iter().zip(&after).enumerate() {
            let name = format!("part{i}.pbm");
            folder.put(&name, &file_of(part));
            let (added, removed) = changes(part, clean);
            lines.push_str(&format!("{name} {added} {removed}\n"));
            words.push(name);
        }
        words.push(format!("--into={into}"));
        let (added, removed) = changes(&strip, &clean);
        lines.push_str(&format!("{width} {rows} {passes} {added} {removed}\n"));
        let ran = folder.mask(&words);
        assert_eq!(
            (ran.status, ran.out_text(), ran.err),
            (0, lines, String::new())
        );
        for (i, part) in after.iter().enumerate() {
            assert_eq!(folder.get(&format!("{into}/part{i}.pbm")), file_of(part));
        }
    }
    report("strips: 40");
}

#[test]
fn refused_strips() {
    let folder = Folder::new();
    folder.put("a.pbm", b"P4\n5 1\n\0");
    folder.put("b.pbm", b"P4\n6 1\n\0");
    folder.put("c.pbm", b"P4\n5 1\n");
    let ring = sample("ring.mtb");
    let refused = |sheets: &[&str], line: &str, said: &str| {
        let mut words = vec!["strip", &ring];
        words.extend(sheets);
        words.extend(["--into", "out"]);
        let ran = folder.mask(&words);
        let got = (ran.status, ran.out_text(), ran.err);
        assert_eq!(got, (1, format!("{line}\n"), format!("mask: {said}\n")));
    };
    refused(
        &["a.pbm", "b.pbm"],
        "refused 23 2 0 0",
        "b.pbm: refused: part 2 is not as wide as the first",
    );
    refused(
        &["a.pbm", "c.pbm"],
        "refused 11 0 0 0",
        "c.pbm: refused: there are more or fewer bytes than the rows need",
    );
    let names: Vec<String> = (0..17).map(|i| format!("{i}.pbm")).collect();
    for name in &names {
        folder.put(name, b"P4\n5 1\n\0");
    }
    let sheets: Vec<&str> = names.iter().map(String::as_str).collect();
    refused(
        &sheets,
        "refused 23 0 0 0",
        "the strip: refused: there are not 1 to 16 parts",
    );
    assert!(
        !folder.names().contains(&"out".to_string()),
        "nothing is written"
    );
    folder.trouble(&["strip", &ring, "a.pbm"], "mask: --into FOLDER is wanted");
    folder.trouble(
        &["strip", &ring, "--into", "out"],
        "mask: at least one SHEET is wanted",
    );
    let full = folder.shell("mkdir -p out/a.pbm");
    assert_eq!(full.status, 0);
    folder.trouble(
        &["strip", &ring, "0.pbm", "a.pbm", "--into", "out"],
        "mask: out/a.pbm: is a folder",
    );
    assert_eq!(
        folder.shell("ls out").out_text(),
        "a.pbm\n",
        "no part is written"
    );
}

#[test]
fn three_cameras() {
    let random = &mut Random::new(73);
    let folder = Folder::new();
    for _ in 0..40 {
        let (width, height) = (1 + random.below(30), 1 + random.below(30));
        let images = [(); 3].map(|()| random_image(width, height, random));
        for (name, image) in ["a", "b", "c"].iter().zip(&images) {
            folder.put(name, &file_of(image));
        }
        let (line, file) = cleaned(&majority(&images), &ring());
        let ran = folder.mask(&["three", &sample("ring.mtb"), "a", "b", "c", "out"]);
        assert_eq!((ran.status, ran.out_text()), (0, format!("{line}\n")));
        assert_eq!(folder.get("out"), file);
        let piped = folder.mask_with(
            &["three", &sample("ring.mtb"), "a", "-", "c", "-"],
            &folder.get("b"),
        );
        assert_eq!(
            (piped.status, piped.out, piped.err),
            (0, file, format!("{line}\n"))
        );
    }
    let ring = sample("ring.mtb");
    folder.put("a", b"P4\n5 1\n\0");
    folder.put("b", b"P4\n5 2\n\0\0");
    folder.put("bad", b"P4\n5 1\n");
    folder.put("out", b"old");
    let cases = [
        (
            ["a", "a", "b"],
            "refused 26 3 0 0\n",
            "mask: b: refused: sheet 3 does not have the size of the first\n",
        ),
        (
            ["a", "bad", "b"],
            "refused 11 0 0 0\n",
            "mask: bad: refused: there are more or fewer bytes than the rows need\n",
        ),
    ];
    for ([a, b, c], line, said) in cases {
        let ran = folder.mask(&["three", &ring, a, b, c, "out"]);
        assert_eq!(
            (ran.status, ran.out_text().as_str(), ran.err.as_str()),
            (1, line, said)
        );
    }
    assert_eq!(folder.get("out"), b"old");
    report("pools of three: 40");
}

#[test]
fn sample_files_are_as_the_reference_has_them() {
    let worn = reference::image::parse(&file("samples/worn.pbm")).expect("an accepted file");
    let (line, clean) = cleaned(&worn, &median());
    assert_eq!(
        (line.as_str(), clean),
        ("64 22 5 27 57", file("tests/worn_clean.pbm"))
    );
}
