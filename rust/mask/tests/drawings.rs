//! `mask table make` and `mask table show`: inverse to each other, mistakes with line and column, refusals with the pictures that they name.

mod common;

use common::{file, report, sample, text, Folder};
use mask_cleaner::{Refusal, TableRecord};
use reference::cases::{named_tables, random_table, Random};
use reference::table::{check, file_of, MAX_MASK};

/// A picture, drawn anew for the tests.
fn drawn(word: &str, mask: u32) -> String {
    let character = |at: u32| match (at, mask >> at & 1) {
        (12, 1) => '@',
        (12, _) => '+',
        (_, 1) => '#',
        _ => '.',
    };
    let row = |y: u32| (5 * y..5 * y + 5).map(character).collect::<String>();
    let rows: Vec<String> = (0..5).map(row).collect();
    format!("{word}\n{}\n", rows.join("\n"))
}

fn pictures(elements: &[u32], keepers: &[u32]) -> Vec<String> {
    let elements = elements.iter().map(|mask| drawn("element", *mask));
    let keepers = keepers.iter().map(|mask| drawn("keeper", *mask));
    elements.chain(keepers).collect()
}

fn text_of(table: &TableRecord) -> String {
    let (elements, keepers) = (
        &table.elements[..table.count],
        &table.persistents[..table.ranks],
    );
    pictures(elements, keepers).join("\n")
}

/// Shown, a table's file is its drawing; made, the drawing is the file again, to the byte.
fn assert_inverse(folder: &Folder, table: &TableRecord) {
    let (file, text) = (file_of(table), text_of(table));
    let shown = folder.mask_with(&["table", "show", "-"], &file);
    assert_eq!(
        (shown.status, shown.out_text(), shown.err),
        (0, text.clone(), String::new())
    );
    let made = folder.mask_with(&["table", "make", "-", "-"], text.as_bytes());
    let counts = format!("{} {}\n", table.count, table.ranks);
    assert_eq!((made.status, made.out, made.err), (0, file, counts));
}

#[test]
fn inverse() {
    let (folder, random) = (Folder::new(), &mut Random::new(74));
    for (_, table) in named_tables() {
        assert_inverse(&folder, &table);
    }
    for _ in 0..150 {
        assert_inverse(&folder, &random_table(random, 64));
    }
    let longest = reference::table::read(&file("tests/longest.mtb")).expect("an accepted file");
    assert_inverse(&folder, &longest);
    report("tables shown and made again: 155");
}

/// Each sample table has its drawing beside it, which `table show` prints, but for the comment at its head.
#[test]
fn samples() {
    let folder = Folder::new();
    for (name, table) in named_tables() {
        let made = folder.mask(&["table", "make", &sample(&format!("{name}.txt")), "out.mtb"]);
        assert_eq!(
            made.out_text(),
            format!("{} {}\n", table.count, table.ranks)
        );
        let file = file(&format!("samples/{name}.mtb"));
        assert_eq!(
            (folder.get("out.mtb"), &file),
            (file.clone(), &file_of(&table))
        );
        let drawing = text(&format!("samples/{name}.txt"));
        let (comment, rest) = drawing.split_once("\n\n").expect("a comment at the head");
        assert!(comment.lines().all(|line| line.starts_with("; ")), "{name}");
        let shown = folder.mask(&["table", "show", &sample(&format!("{name}.mtb"))]);
        assert_eq!(shown.out_text(), rest, "{name}");
    }
}

/// Pictures in any order, with comments, blank lines, spaces and the line ends of other systems.
#[test]
fn freely_drawn() {
    let (folder, random) = (Folder::new(), &mut Random::new(75));
    for _ in 0..60 {
        let table = random_table(random, 12);
        let (elements, keepers) = (
            &table.elements[..table.count],
            &table.persistents[..table.ranks],
        );
        let mut pictures = pictures(elements, keepers);
        for i in (1..pictures.len()).rev() {
            pictures.swap(i, random.below(i + 1));
        }
        let mut text = random
            .choose(&["", "\u{feff}", "; ## a comment\n\n"])
            .to_string();
        for line in pictures.concat().lines() {
            text.push_str(random.choose::<&str>(&["", "  ", "\t"]));
            text.push_str(line);
            text.push_str(random.choose::<&str>(&[
                "\n",
                "\r\n",
                " ; #####\n",
                "\n\n",
                "   \n  ; é\n",
            ]));
        }
        let made = folder.mask_with(&["table", "make", "-", "-"], text.as_bytes());
        assert_eq!((made.status, made.out), (0, file_of(&table)), "{text}");
    }
    report("tables drawn freely: 60");
}

#[test]
fn mistakes() {
    let folder = Folder::new();
    let centre = "the centre is `+` (out) or `@` (in), not";
    let marks = "marks the centre, which is the third character of the third row";
    let cases = [
        (
            "elment\n",
            "line 1, column 1: `element` or `keeper` is wanted here, not `elment`".to_string(),
        ),
        (
            ".###.\n",
            "line 1, column 1: `element` or `keeper` is wanted here, not `.###.`".to_string(),
        ),
        (
            "\n  element one\n",
            "line 2, column 3: `element` or `keeper` is wanted here, not `element one`".to_string(),
        ),
        (
            "element\n.....\n",
            "line 1, column 1: row 2 of this picture is missing".to_string(),
        ),
        (
            "; x\n\n element\n.....\n.....\n..+..\n.....\nkeeper\n",
            "line 3, column 2: row 5 of this picture is missing".to_string(),
        ),
        (
            "element\n.....\n.#x#.\n",
            "line 3, column 3: `x` is neither `#` (in) nor `.` (out)".to_string(),
        ),
        (
            "element\n.....\n  .#é#.\n",
            "line 3, column 5: `é` is neither `#` (in) nor `.` (out)".to_string(),
        ),
        (
            "element\n.....\n.....\n.....\n",
            format!("line 4, column 3: {centre} `.`"),
        ),
        (
            "keeper\n.....\n.....\n..#..\n",
            format!("line 4, column 3: {centre} `#`"),
        ),
        (
            "element\n.....\n..+..\n",
            format!("line 3, column 3: `+` {marks}"),
        ),
        (
            "element\n.....\n.....\n.@...\n",
            format!("line 4, column 2: `@` {marks}"),
        ),
        (
            "element\n....\n",
            "line 2, column 5: a row has five characters, this one 4".to_string(),
        ),
        (
            "element\n......\n",
            "line 2, column 6: a row has five characters, this one 6".to_string(),
        ),
        (
            "element\n.....\n.....\n..+..\n.....\n.....\n.....\n",
            "line 7, column 1: `element` or `keeper` is wanted here, not `.....`".to_string(),
        ),
    ];
    folder.put("out", b"old");
    for (text, said) in &cases {
        folder.put("table.txt", text.as_bytes());
        folder.trouble(
            &["table", "make", "table.txt", "out"],
            &format!("mask: table.txt: {said}"),
        );
    }
    folder.put("table.txt", b"element\n..\xFF..\n");
    folder.trouble(
        &["table", "make", "table.txt", "out"],
        "mask: table.txt: line 2, column 3: `\u{fffd}` is neither `#` (in) nor `.` (out)",
    );
    folder.put("table.txt", &vec![b'\n'; (1 << 20) + 1]);
    folder.trouble(
        &["table", "make", "table.txt", "out"],
        "mask: table.txt: too long for a drawing",
    );
    assert_eq!(folder.get("out"), b"old");
    report(&format!("mistakes: {}", cases.len() + 2));
}

/// The line of a drawing's refusal, and what is said of it first.
fn refused(folder: &Folder, elements: &[u32], keepers: &[u32]) -> (String, String) {
    folder.put("table.txt", pictures(elements, keepers).concat().as_bytes());
    folder.put("out", b"old");
    let ran = folder.mask(&["table", "make", "table.txt", "out"]);
    assert_eq!(
        (ran.status, folder.get("out")),
        (1, b"old".to_vec()),
        "{}",
        ran.err
    );
    let said = ran.err.lines().next().unwrap_or_default();
    let said = said
        .strip_prefix("mask: table.txt: refused: ")
        .expect("a refusal in words");
    (ran.out_text(), said.to_string())
}

#[test]
fn refusals_name_pictures() {
    let folder = Folder::new();
    let refused = |elements: &[u32], keepers: &[u32]| refused(&folder, elements, keepers);
    let is = |line: &str, words: &str| (format!("refused {line}\n"), words.to_string());
    let (ring, square) = (469_440, 405_504);
    assert_eq!(
        refused(&[], &[square]),
        is("3 0 0 0", "there are not 1 to 64 elements")
    );
    let many: Vec<u32> = (0..65).map(|i| ring | i << 20).collect();
    assert_eq!(
        refused(&many, &[square]),
        is("3 0 0 0", "there are not 1 to 64 elements")
    );
    assert_eq!(
        refused(&[ring, 0], &[square]),
        is("4 1 0 0", "the element of line 7 is empty")
    );
    let own = "the element of line 1 has the centre, which is the pixel itself";
    assert_eq!(refused(&[4096, ring], &[square]), is("4 1 0 0", own));
    let twice = "the element of line 13 is the one of line 1";
    assert_eq!(refused(&[ring, 64, ring], &[square]), is("4 3 0 0", twice));
    let keepers = "there are not 1 to 4 keepers, or not 2 to 4 behind a leading 0";
    assert_eq!(refused(&[ring], &[]), is("18 2 0 0", keepers));
    assert_eq!(refused(&[ring], &[1, 2, 3, 4, 5]), is("18 2 0 0", keepers));
    assert_eq!(
        refused(&[ring], &[0]),
        is("6 2 0 0", "the keeper of line 7 is empty")
    );
    assert_eq!(
        refused(&[ring], &[square, 0]),
        is("6 3 0 0", "the keeper of line 13 is empty")
    );
    let twice = "the keeper of line 19 is the one of line 7";
    assert_eq!(refused(&[ring], &[square, 3, square]), is("6 5 0 0", twice));
    // the pictures are put in order: 2048 is the first element, 8192 the second
    let apart = "the element of line 1 shares no position with the one of line 7";
    assert_eq!(refused(&[8192, 2048], &[12_288]), is("5 2 1 0", apart));
    let lone = "the keeper of line 13 is not persistent: its position in row 3, column 3 (the centre) has no partner in the element of line 1";
    assert_eq!(
        refused(&[141_440], &[12_288, 266_240]),
        is("7 1 2 12", lone)
    );
    let ran = folder.mask(&["table", "make", "table.txt", "out"]);
    let below: Vec<&str> = ran.err.lines().skip(1).collect();
    let shown = [
        "line 13   line 1",
        ".....     .....",
        ".....     ..#..",
        "..@..     .#+#.",
        "...#.     ..#..",
        ".....     .....",
    ];
    assert_eq!(below, shown, "the pictures stand below");
}

/// Whatever is drawn, the verdict is that of the rules on the masks in rising order.
#[test]
fn verdicts() {
    let (folder, random) = (Folder::new(), &mut Random::new(76));
    let mut numbers = std::collections::BTreeSet::new();
    for _ in 0..400 {
        let table = random_table(random, 6);
        let mut elements = table.elements[..table.count].to_vec();
        let mut keepers = table.persistents[..table.ranks].to_vec();
        for list in [&mut elements, &mut keepers] {
            let at = random.below(list.len());
            match random.below(7) {
                0 => list[at] ^= 1 << random.below(25),
                1 => list[at] = random.number() as u32 & MAX_MASK,
                2 => list.push(list[at]),
                3 => list[at] = 0,
                4 => list.clear(),
                _ => {}
            }
        }
        let text = pictures(&elements, &keepers).concat();
        elements.sort_unstable();
        keepers.sort_unstable();
        let record = TableRecord::new(&elements, &keepers);
        let made = folder.mask_with(&["table", "make", "-", "out"], text.as_bytes());
        let line = match check(&record) {
            Ok(()) => format!("{} {}\n", record.count, record.ranks),
            Err(refusal) => line(&refusal),
        };
        assert_eq!(made.out_text(), line, "{text}");
        numbers.insert(check(&record).map_or_else(|refusal| refusal.reason.number(), |()| 0));
    }
    assert_eq!(
        numbers.into_iter().collect::<Vec<u32>>(),
        [0, 3, 4, 5, 6, 7, 18]
    );
    report("drawings judged: 400");
}

fn line(refusal: &Refusal) -> String {
    let [number, place, witness, position] = refusal.numbers();
    format!("refused {number} {place} {witness} {position}\n")
}
