//! The commands that show: `show`, `diff`, `preview`, `figures`, `explain`, held to the reference where there is something to compute.

mod common;

use common::{report, sample, Folder};
use mask_cleaner::Reason;
use reference::cases::{cobbles, random_image, ring, Random};
use reference::image::{file_of, Image};
use reference::pass;

#[test]
fn sheets() {
    let (folder, random) = (Folder::new(), &mut Random::new(77));
    let blocks = [' ', '▀', '▄', '█'];
    for _ in 0..60 {
        let image = random_image(1 + random.below(40), 1 + random.below(40), random);
        let pixel = |x: usize, y: usize| match y < image.height {
            true => usize::from(image.pixels[y * image.width + x]),
            false => 0,
        };
        let row = |y: usize| -> String {
            let block = |x: usize| blocks[pixel(x, 2 * y) + 2 * pixel(x, 2 * y + 1)];
            let line: String = (0..image.width).map(block).collect();
            format!("{}\n", line.trim_end())
        };
        let expected: String = (0..image.height.div_ceil(2)).map(row).collect();
        let shown = folder.mask_with(&["show", "-"], &file_of(&image));
        assert_eq!(
            (shown.status, shown.out_text(), shown.err),
            (0, expected, String::new())
        );
    }
    let locale = folder.shell(&format!("LC_ALL=C \"$MASK\" show {}", sample("worn.pbm")));
    assert_eq!(locale.out, folder.mask(&["show", &sample("worn.pbm")]).out);
    report("sheets shown: 60");
}

#[test]
fn tables() {
    let folder = Folder::new();
    let shown = folder.mask_with(&["show", "-"], &reference::table::file_of(&cobbles()));
    let rows = [
        "element 1\n.....\n..#..\n.#+#.\n..#..\n.....\n",
        "keeper 1   keeper 2\n.....      .....\n.....      .....\n..@#.      ..@..\n.....      ..#..\n.....      .....\n",
    ];
    assert_eq!(shown.out_text(), rows.join("\n"));
    let median = folder.mask(&["show", &sample("median.mtb")]);
    assert_eq!(median.status, 0);
    assert_eq!(median.out_text().matches("element").count(), 56);
    assert!(median.out_text().lines().all(|line| line.len() <= 80));
}

#[test]
fn refused_files() {
    let folder = Folder::new();
    folder.put("bad.pbm", b"P4\n5 5\n\0");
    folder.put("bad.mtb", b"\x01");
    for (name, line) in [
        ("bad.pbm", "refused 11 0 0 0\n"),
        ("bad.mtb", "refused 1 1 0 0\n"),
    ] {
        let shown = folder.mask(&["show", name]);
        assert_eq!((shown.status, shown.out_text().as_str()), (1, line));
    }
    let shown = folder.mask(&["table", "show", "bad.mtb"]);
    assert_eq!(
        (shown.status, shown.out_text().as_str()),
        (1, "refused 1 1 0 0\n")
    );
    folder.put("out", b"old");
    let preview = folder.mask(&["preview", "bad.pbm", "out"]);
    assert_eq!(
        (preview.status, preview.out_text().as_str()),
        (1, "refused 11 0 0 0\n")
    );
    assert_eq!(folder.get("out"), b"old");
    let figures = folder.mask(&["figures", &sample("ring.mtb"), "bad.pbm"]);
    assert_eq!(
        (figures.status, figures.out_text().as_str()),
        (1, "refused 11 0 0 0\n")
    );
    let diff = folder.mask(&["diff", &sample("worn.pbm"), "bad.pbm"]);
    assert_eq!(
        (diff.status, diff.out_text().as_str()),
        (1, "refused 11 0 0 0\n")
    );
    folder.trouble(&["show", "none"], "mask: none: No such file or directory");
}

#[test]
fn differences() {
    let (folder, random) = (Folder::new(), &mut Random::new(78));
    for _ in 0..60 {
        let (width, height) = (1 + random.below(40), 1 + random.below(40));
        let [before, after] = [(); 2].map(|()| random_image(width, height, random));
        folder.put("before", &file_of(&before));
        let mut expected = String::new();
        for (i, pair) in before.pixels.iter().zip(&after.pixels).enumerate() {
            expected.push(match pair {
                (0, 1) => '+',
                (1, 0) => '-',
                (1, 1) => '#',
                _ => '.',
            });
            if (i + 1) % width == 0 {
                expected.push('\n');
            }
        }
        let (added, removed) = pass::changes(&before, &after);
        expected.push_str(&format!("added {added} removed {removed}\n"));
        let diff = folder.mask_with(&["diff", "before", "-"], &file_of(&after));
        assert_eq!(
            (diff.status, diff.out_text(), diff.err),
            (0, expected, String::new())
        );
    }
    folder.put("a", &file_of(&Image::new(2, 1, &[0, 1])));
    folder.put("b", &file_of(&Image::new(1, 2, &[0, 1])));
    folder.trouble(&["diff", "a", "b"], "mask: b: 1 by 2, but a is 2 by 1");
    report("differences: 60");
}

#[test]
fn previews_and_figures() {
    let (folder, random) = (Folder::new(), &mut Random::new(79));
    for _ in 0..60 {
        let image = random_image(1 + random.below(40), 1 + random.below(40), random);
        let (width, height) = (image.width, image.height);
        let mut median = vec![0; image.pixels.len()];
        pass::preview(width, height, &image.pixels, &mut median).expect("accepted");
        folder.put("sheet", &file_of(&image));
        let preview = folder.mask(&["preview", "sheet", "out"]);
        assert_eq!(
            (preview.status, preview.out_text()),
            (0, format!("{width} {height}\n"))
        );
        assert_eq!(
            folder.get("out"),
            file_of(&Image::new(width, height, &median))
        );
        let (_, clean) = pass::rest(&image, &ring());
        let (added, removed) = pass::changes(&image, &clean);
        let figures = folder.mask(&["figures", &sample("ring.mtb"), "sheet"]);
        let (doubled, pixels) = (2000 * clean.black(), clean.pixels.len());
        let line = figures.out_text();
        let words: Vec<&str> = line.split_whitespace().collect();
        let [_, balance, _, cover] = words[..] else {
            panic!("{line}")
        };
        assert_eq!(balance, (added as i64 - removed as i64).to_string());
        let cover: usize = cover.parse().expect("a number");
        assert!(doubled.abs_diff(2 * cover * pixels) <= pixels, "{line}");
    }
    let worn = folder.mask(&["figures", &sample("median.mtb"), &sample("worn.pbm")]);
    assert_eq!(worn.out_text(), "balance -30 cover 344\n");
    // 1 black of 16 pixels is 62.5, and a half goes to the even one (02, T-05)
    folder.put("corner", b"P4\n4 4\n\0\x40\0\0");
    let corner = folder.mask(&["figures", &sample("ring.mtb"), "corner"]);
    assert_eq!(corner.out_text(), "balance 0 cover 62\n");
    report("previews and figures: 60");
}

#[test]
fn refusals_explained() {
    let folder = Folder::new();
    for reason in Reason::ALL {
        let number = reason.number().to_string();
        for places in [
            &[][..],
            &["3"],
            &["3", "2"],
            &["3", "2", "7"],
            &["0", "0", "0"],
        ] {
            let ran = folder.mask(&[&["explain", &number], places].concat());
            let lines: Vec<String> = ran.out_text().lines().map(String::from).collect();
            assert_eq!(
                (ran.status, lines.len(), ran.err.as_str()),
                (0, 2, ""),
                "{reason:?}"
            );
            assert!(lines[0].starts_with(&format!("{number}: ")) && lines[1].len() > 20);
        }
    }
    let first = |words: &[&str]| {
        let ran = folder.mask(&[&["explain"], words].concat());
        ran.out_text()
            .lines()
            .next()
            .unwrap_or_default()
            .to_string()
    };
    assert_eq!(
        first(&["5", "4", "3"]),
        "5: element 4 shares no position with element 3"
    );
    assert_eq!(first(&["7", "2", "1", "0"]), "7: keeper 1 is not persistent: its position in row 1, column 1 has no partner in element 2");
    assert_eq!(
        first(&["26", "3"]),
        "26: sheet 3 does not have the size of the first"
    );
    assert_eq!(
        first(&["5", "4"]),
        first(&["5"]),
        "without the other element"
    );
    assert_eq!(
        first(&["7", "2", "1"]),
        first(&["7"]),
        "without the position"
    );
    for bad in ["0", "19", "27", "4294967295"] {
        folder.trouble(
            &["explain", bad],
            &format!("mask: no refusal has the number {bad}"),
        );
    }
    for bad in ["x", "-1", "+5", "4294967296", ""] {
        folder.trouble(
            &["explain", bad],
            &format!("mask: {bad} is no number that fits"),
        );
    }
    folder.trouble(
        &["explain", "5", "1", "2", "3", "4"],
        "mask: four numbers at the most are wanted",
    );
}
