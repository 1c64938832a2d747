//! `mask clean` on one sheet: the cases of 01 and 02, every refusal that a file can bring about, trouble of every kind, and files that stay.

mod common;

use common::{file, report, sample, Folder, Ran};
use std::fs;
use std::os::unix::fs::{symlink, PermissionsExt};

const FIVE: &[u8] = b"P4\n5 5\n\0\0\x20\0\0";
const BLANK: &[u8] = b"P4\n5 5\n\0\0\0\0\0";

fn done(line: &str) -> Ran {
    Ran {
        status: 0,
        out: format!("{line}\n").into_bytes(),
        err: String::new(),
    }
}

#[test]
fn cases() {
    let folder = Folder::new();
    folder.put("corner", b"P4\n4 4\n\x0F\x4F\x0F\x0F");
    folder.put("unused", b"P4\n5 5\n\0\0\x21\0\0");
    folder.put("middle", b"P4\n3 3\n\0\x40\0");
    folder.put("five", FIVE);
    folder.put("tall.mtb", &[0x01, 0x80, 0xD1, 0x08, 0x80, 0xA0, 0x08]);
    folder.put("longest.mtb", &file("tests/longest.mtb"));
    folder.put("worn", &file("samples/worn.pbm"));
    folder.put("worn_clean", &file("tests/worn_clean.pbm"));
    let (ring, median) = (sample("ring.mtb"), sample("median.mtb"));
    let (cross, cobbles) = (sample("cross.mtb"), sample("cobbles.mtb"));
    let worn = file("tests/worn_clean.pbm");
    let corner = b"P4\n4 4\n\0\x40\0\0";
    let middle = b"P4\n3 3\n\0\x40\0";
    let cases: [(&str, &str, &str, &[u8]); 10] = [
        (&median, "worn", "64 22 5 27 57", &worn),
        (&median, "worn_clean", "64 22 0 0 0", &worn),
        (&ring, "five", "5 5 1 0 1", BLANK),
        (&ring, "unused", "5 5 1 0 1", BLANK),
        (&ring, "corner", "4 4 0 0 0", corner),
        (&cobbles, "middle", "3 3 1 0 1", b"P4\n3 3\n\0\0\0"),
        (&cross, "middle", "3 3 0 0 0", middle),
        ("tall.mtb", "middle", "3 3 0 0 0", middle),
        ("longest.mtb", "five", "5 5 0 0 0", FIVE),
        ("./tall.mtb", "./middle", "3 3 0 0 0", middle),
    ];
    for (table, sheet, line, cleaned) in cases {
        let ran = folder.mask(&["clean", table, sheet, "out"]);
        assert_eq!(ran, done(line), "{table} {sheet}");
        assert_eq!(folder.get("out"), cleaned, "{table} {sheet}");
        let piped = folder.mask_with(&["clean", table, "-", "-"], &folder.get(sheet));
        assert_eq!((piped.status, piped.out.as_slice()), (0, cleaned));
        assert_eq!(piped.err, format!("{line}\n"));
    }
    report(&format!("sheets cleaned: {}", cases.len()));
}

/// A table or a sheet that is refused: its bytes, the line, and what is said.
type Refused = (&'static [u8], &'static str, &'static str);

const TABLES: [Refused; 22] = [
    (b"", "1 0 0 0", "the bytes end before or within the count"),
    (b"\x01\xC0\xD3\x1C\x80\xE0", "1 2 0 0", "the bytes end before or within number 2 after the count"),
    (b"\x81\0", "2 0 0 0", "the count has more than four groups, or 0 as the last of several"),
    (b"\x01\xC0\x80\0", "2 1 0 0", "number 1 after the count has more than four groups, or 0 as the last of several"),
    (b"\0", "1 0 0 0", "the bytes end before or within the count"),
    (b"\0\0", "3 0 0 0", "there are not 1 to 64 elements"),
    (b"\x01\x80\x20", "4 1 0 0", "element 1 is 0, above 33554431, has the centre (bit 12), or is not above the one before"),
    (b"\x02\x80\x10\x80\x40\x80\x60", "5 2 1 0", "element 2 shares no position with element 1"),
    (b"\x04\x41\x81\x01\xC0\x01\x81\x80\x80\x08\x80\x60", "5 4 3 0", "element 4 shares no position with element 3"),
    (b"\x04\xC0\x01\xC0\x02\x80\x03\x80\x14\x80\x60", "5 4 1 0", "element 4 shares no position with element 1"),
    (b"\x01\xC0\xD3\x1C\0", "6 2 0 0", "the keeper at place 2 is 0, above 33554431, or not above the one before"),
    (b"\0\x01\x80\xD1\x08\x02\x80\xA0\x08\x80\x60", "6 4 0 0", "the keeper at place 4 is 0, above 33554431, or not above the one before"),
    (b"\x01\xC0\xD3\x1C\x80\x20", "7 1 1 12", "keeper 1 is not persistent: its position in row 3, column 3 (the centre) has no partner in element 1"),
    (b"\x01\xC0\xD3\x1C\x01", "7 1 1 0", "keeper 1 is not persistent: its position in row 1, column 1 has no partner in element 1"),
    (b"\0\x01\xC0\xD3\x1C\x02\x01\x02", "7 1 1 0", "keeper 1 is not persistent: its position in row 1, column 1 has no partner in element 1"),
    (b"\0\x01\x80\xD1\x08\x02\x80\x60\x80\xA0\x10", "7 1 2 12", "keeper 2 is not persistent: its position in row 3, column 3 (the centre) has no partner in element 1"),
    (b"\0\x02\x84\x50\x84\x81\x08\x02\x80\x60\x80\xA0\x08", "7 1 2 12", "keeper 2 is not persistent: its position in row 3, column 3 (the centre) has no partner in element 1"),
    (b"\x01\xC0\xD3\x1C\x80\xE0\x18\0", "8 3 0 0", "bytes follow the last keeper"),
    (b"\0\x02\x80\x10\x80\x40\x02\x80\x60\x80\xA0\x08\0", "8 6 0 0", "bytes follow the last keeper"),
    (b"\0\x01\xC0\xD3\x1C\x01\x80\xE0\x18", "18 2 0 0", "there are not 1 to 4 keepers, or not 2 to 4 behind a leading 0"),
    (b"\x41", "3 0 0 0", "there are not 1 to 64 elements"),
    (b"P4\n5 5\n", "3 0 0 0", "there are not 1 to 64 elements"),
];

const HEADER: &str = "the header is not P4, line feed, width, space, height, line feed";
const LENGTH: &str = "there are more or fewer bytes than the rows need";

const SHEETS: [Refused; 7] = [
    (b"", "9 0 0 0", HEADER),
    (b"P1\n2 2\n0 1\n1 0\n", "9 0 0 0", HEADER),
    (b"P4\n05 5\n\0\0\x20\0\0", "9 0 0 0", HEADER),
    (b"P4\n# a comment\n5 5\n\0\0\x20\0\0", "9 0 0 0", HEADER),
    (
        b"P4\n257 1\n",
        "10 0 0 0",
        "width or height is not 1 to 256",
    ),
    (b"P4\n5 5\n\0\0\x20\0", "11 0 0 0", LENGTH),
    (b"P4\n5 5\n\0\0\x20\0\0\0", "11 0 0 0", LENGTH),
];

#[test]
fn refusals() {
    let folder = Folder::new();
    folder.put("ring.mtb", &file("samples/ring.mtb"));
    folder.put("five.pbm", FIVE);
    let tables = TABLES.map(|case| (case, "bad", "five.pbm"));
    let sheets = SHEETS.map(|case| (case, "ring.mtb", "bad"));
    let both = [(TABLES[0], "bad", "bad")];
    for ((bytes, numbers, words), table, sheet) in tables.into_iter().chain(sheets).chain(both) {
        folder.put("bad", bytes);
        folder.put("out", b"old");
        let ran = folder.mask(&["clean", table, sheet, "out"]);
        let (line, words) = (
            format!("refused {numbers}\n"),
            format!("mask: bad: refused: {words}\n"),
        );
        assert_eq!(
            (ran.status, ran.out_text(), &ran.err),
            (1, line.clone(), &words),
            "{bytes:02X?}"
        );
        assert_eq!(folder.get("out"), b"old", "the output stays");
        let piped = folder.mask(&["clean", table, sheet, "-"]);
        assert_eq!(
            (piped.status, piped.out_text(), piped.err),
            (1, String::new(), line + &words)
        );
    }
    assert_eq!(folder.names(), ["bad", "five.pbm", "out", "ring.mtb"]);
    report(&format!(
        "files refused: {}",
        TABLES.len() + SHEETS.len() + 1
    ));
}

/// What is longer than any file that is accepted, also without an end, is refused as its whole self would be.
#[test]
fn long_files() {
    let folder = Folder::new();
    let ring = file("samples/ring.mtb");
    folder.put("long.mtb", &[ring.as_slice(), &[0; 100_000]].concat());
    folder.put(
        "longest.mtb",
        &[file("tests/longest.mtb").as_slice(), &[0]].concat(),
    );
    folder.put(
        "long.pbm",
        &[file("samples/worn.pbm").as_slice(), &[0; 100_000]].concat(),
    );
    folder.put("largest.pbm", &[&b"P4\n256 256\n"[..], &[0; 8193]].concat());
    let cases = [
        ("long.mtb", "long.pbm", "refused 8 3 0 0\n"),
        ("longest.mtb", "long.pbm", "refused 8 70 0 0\n"),
        ("/dev/zero", "long.pbm", "refused 3 0 0 0\n"),
        ("ring.mtb", "long.pbm", "refused 11 0 0 0\n"),
        ("ring.mtb", "largest.pbm", "refused 11 0 0 0\n"),
        ("ring.mtb", "/dev/zero", "refused 9 0 0 0\n"),
    ];
    folder.put("ring.mtb", &ring);
    for (table, sheet, line) in cases {
        let ran = folder.mask(&["clean", table, sheet, "out"]);
        assert_eq!(
            (ran.status, ran.out_text().as_str()),
            (1, line),
            "{table} {sheet}"
        );
    }
}

#[test]
fn trouble() {
    let folder = Folder::new();
    let ring = sample("ring.mtb");
    folder.put("five.pbm", FIVE);
    folder.put("empty", b"");
    fs::create_dir(folder.path().join("dir")).expect("a folder");
    symlink("nowhere", folder.path().join("to_nothing")).expect("a link");
    let made = folder.shell("mkfifo pipe && ln -s pipe to_pipe");
    assert_eq!(made.status, 0);
    let gone = "No such file or directory";
    let regular = "no regular file (- is standard output)";
    folder.trouble(
        &["clean", "none.mtb", "five.pbm", "out"],
        &format!("mask: none.mtb: {gone}"),
    );
    folder.trouble(
        &["clean", &ring, "to_nothing", "out"],
        &format!("mask: to_nothing: {gone}"),
    );
    folder.trouble(
        &["clean", "dir", "five.pbm", "out"],
        "mask: dir: Is a directory",
    );
    folder.trouble(&["clean", &ring, "dir", "out"], "mask: dir: Is a directory");
    folder.trouble(
        &["clean", &ring, "five.pbm", "dir"],
        "mask: dir: is a folder",
    );
    folder.trouble(
        &["clean", &ring, "five.pbm", "new/"],
        "mask: 'new/': no name of a file",
    );
    folder.trouble(
        &["clean", &ring, "five.pbm", ""],
        "mask: '': no name of a file",
    );
    folder.trouble(
        &["clean", &ring, "five.pbm", "none/out"],
        &format!("mask: none/out: {gone}"),
    );
    folder.trouble(
        &["clean", &ring, "five.pbm", "pipe"],
        &format!("mask: pipe: {regular}"),
    );
    folder.trouble(
        &["clean", &ring, "five.pbm", "to_pipe"],
        &format!("mask: to_pipe: {regular}"),
    );
    folder.trouble(
        &["clean", "empty", "five.pbm", "pipe"],
        &format!("mask: pipe: {regular}"),
    );
    folder.trouble(
        &["clean", &ring, "five.pbm", "/dev/null"],
        &format!("mask: /dev/null: {regular}"),
    );
    folder.trouble(
        &["clean", "-", "-", "out"],
        "mask: standard input can be read once only",
    );
    assert_eq!(
        folder.names(),
        ["dir", "empty", "five.pbm", "pipe", "to_nothing", "to_pipe"]
    );
}

/// A standard output that takes nothing: by then the result is in place. A reader that has seen enough hears nothing.
#[test]
fn standard_output() {
    let folder = Folder::new();
    folder.put("ring.mtb", &file("samples/ring.mtb"));
    folder.put("five.pbm", FIVE);
    let full = folder.shell("\"$MASK\" clean ring.mtb five.pbm out >/dev/full");
    assert_eq!(full.err, "mask: standard output: No space left on device\n");
    assert_eq!((full.status, folder.get("out")), (2, BLANK.to_vec()));
    for words in [
        "clean empty five.pbm out",
        "clean ring.mtb five.pbm -",
        "show five.pbm",
        "--help",
    ] {
        folder.put("empty", b"");
        let full = folder.shell(&format!("\"$MASK\" {words} >/dev/full"));
        assert_eq!(
            full.err, "mask: standard output: No space left on device\n",
            "{words}"
        );
        assert_eq!(full.status, 2, "{words}");
    }
    let stopped = folder.shell("{ sleep 0.2; \"$MASK\" show five.pbm; echo $? >status; } | true");
    assert_eq!(
        (stopped.err, folder.get("status")),
        (String::new(), b"2\n".to_vec())
    );
}

#[test]
fn outputs() {
    let folder = Folder::new();
    let ring = file("samples/ring.mtb");
    folder.put("ring.mtb", &ring);
    folder.put("five.pbm", FIVE);
    symlink("ring.mtb", folder.path().join("link")).expect("a link");
    let clean = |out: &str| folder.mask(&["clean", "ring.mtb", "five.pbm", out]);
    assert_eq!(clean("link"), done("5 5 1 0 1"));
    let link = fs::symlink_metadata(folder.path().join("link")).expect("a file");
    assert!(link.is_file(), "a link becomes a file");
    assert_eq!(
        (folder.get("link"), folder.get("ring.mtb")),
        (BLANK.to_vec(), ring.clone())
    );
    folder.put("same", FIVE);
    assert_eq!(
        folder.mask(&["clean", "ring.mtb", "same", "same"]),
        done("5 5 1 0 1")
    );
    assert_eq!(folder.get("same"), BLANK, "cleaned in place");
    let dashed = folder.mask(&["clean", "--", "ring.mtb", "five.pbm", "--out"]);
    assert_eq!(
        (dashed, folder.get("--out")),
        (done("5 5 1 0 1"), BLANK.to_vec())
    );
    let pipe = folder.shell("\"$MASK\" clean <(cat ring.mtb) five.pbm piped");
    assert_eq!((pipe.status, folder.get("piped")), (0, BLANK.to_vec()));
    let masked =
        folder.shell("umask 027 && \"$MASK\" clean ring.mtb five.pbm masked && stat -c %a masked");
    assert_eq!(
        masked.out_text(),
        "5 5 1 0 1\n640\n",
        "permissions as of any new file"
    );
    let small = folder
        .shell("trap '' XFSZ; ulimit -f 0; \"$MASK\" clean ring.mtb five.pbm same 2>&1 | cat");
    assert_eq!(small.out_text(), "mask: same: File too large\n");
    assert_eq!(folder.get("same"), BLANK, "no half file");
    let names = [
        "--out", "five.pbm", "link", "masked", "piped", "ring.mtb", "same",
    ];
    assert_eq!(folder.names(), names);
}

/// Permissions bind everyone but root, who tries these as nobody.
#[test]
fn permissions() {
    let folder = Folder::new();
    folder.put("ring.mtb", &file("samples/ring.mtb"));
    folder.put("five.pbm", FIVE);
    folder.put("closed.mtb", &file("samples/ring.mtb"));
    let set = |name: &str, mode: u32| {
        let path = folder.path().join(name);
        fs::set_permissions(path, fs::Permissions::from_mode(mode)).expect("permissions");
    };
    fs::copy(common::MASK, folder.path().join("mask")).expect("a copy that nobody can reach too");
    set("mask", 0o755);
    set("closed.mtb", 0o000);
    set(".", 0o555);
    let user = "as_user() { if [ \"$(id -u)\" = 0 ]; then setpriv --reuid=65534 --regid=65534 --clear-groups \"$@\"; else \"$@\"; fi; }";
    let able = folder.shell(&format!("{user}; as_user ./mask --version"));
    if able.status != 0 {
        report("root without setpriv, or a closed folder of temporary files: permissions are not tried");
        set(".", 0o755);
        return;
    }
    let closed = folder.shell(&format!(
        "{user}; as_user ./mask clean closed.mtb five.pbm out"
    ));
    assert_eq!(
        (closed.status, closed.err.as_str()),
        (2, "mask: closed.mtb: Permission denied\n")
    );
    let fixed = folder.shell(&format!(
        "{user}; as_user ./mask clean ring.mtb five.pbm out"
    ));
    assert_eq!(
        (fixed.status, fixed.err.as_str()),
        (2, "mask: out: Permission denied\n")
    );
    set(".", 0o755);
}
