//! The reference by itself: the trials of 01 and 02 (T-01, T-08, T-12) over it, and the quick pass beside the one by definition.

mod common;

use common::report;
use mask_cleaner::{
    JobRecord, PartCounts, Progress, StripRecord, TableRecord, MAX_ELEMENTS, MAX_RANKS,
};
use reference::cases::{cobbles, cross, median, random_cut, random_image, random_table, ring};
use reference::cases::{Kind, Random};
use reference::fast::Filter;
use reference::image::{majority, Image};
use reference::model::{Answer, Book, Call};
use reference::pass::{changes, one_pass, plain, rest};
use reference::{job, strip, table::check};

fn only(width: usize, height: usize, black: impl Fn(usize, usize) -> bool) -> Image {
    Image::from_fn(width, height, |x, y| u8::from(black(x, y)))
}

#[test]
fn trials() {
    let speck = only(5, 5, |x, y| (x, y) == (2, 2));
    assert_eq!(rest(&speck, &ring()), (1, only(5, 5, |_, _| false)));
    let near_corner = only(4, 4, |x, y| (x, y) == (1, 1));
    assert_eq!(rest(&near_corner, &ring()), (0, near_corner.clone()));
    for single in [only(1, 1, |_, _| true), only(1, 1, |_, _| false)] {
        assert_eq!(rest(&single, &ring()), (0, single.clone()));
    }
    let middle = only(3, 3, |x, y| (x, y) == (1, 1));
    assert_eq!(rest(&middle, &cobbles()), (1, only(3, 3, |_, _| false)));
    for persistent in [12_288, 135_168] {
        let alone = TableRecord::new(&[141_440], &[persistent]);
        assert_eq!(rest(&middle, &alone), (0, middle.clone()));
    }
    let dash = only(24, 24, |x, y| {
        (11..=12).contains(&x) && (9..=14).contains(&y)
    });
    let (passes, clean) = rest(&dash, &median());
    assert_eq!((passes, changes(&dash, &clean)), (3, (0, 12)));
}

#[test]
fn chessboard() {
    let board = Kind::Chessboard.image(6, 6, &mut Random::new(0));
    assert_eq!(rest(&board, &cross()), (0, board.clone()));
    let plainly = plain(&board, &[141_440]);
    let inner = |i: usize| (1..5).contains(&(i % 6)) && (1..5).contains(&(i / 6));
    for i in 0..36 {
        assert_eq!(plainly.pixels[i] != board.pixels[i], inner(i), "pixel {i}");
    }
}

#[test]
fn every_pattern_of_three_pixels() {
    let images = [0, 1, 2].map(|i| only(8, 1, |x, _| x >> i & 1 == 1));
    let expected = Image::new(8, 1, &[0, 0, 0, 1, 0, 1, 1, 1]);
    assert_eq!(majority(&images), expected);
}

/// 02's strip (T-08), by the reference and by the book.
#[test]
fn dot_above_a_seam() {
    let dot = only(5, 5, |x, y| (x, y) == (2, 2));
    let (shape, pixels) = (StripRecord::new(5, &[3, 2]), dot.pixels.clone());
    let (mut record, mut one, mut two) = (JobRecord::EMPTY, vec![7; 25], vec![8; 25]);
    let loaded = job::load_strip(&mut record, &ring(), &shape, &pixels, &mut one, &two);
    assert_eq!((loaded, record.strip, &one), (Ok(()), shape, &pixels));
    assert_eq!(
        job::run(&mut record, &mut one, &mut two),
        Ok(Progress::Stable)
    );
    let mut counts = PartCounts::NONE;
    counts.removed[0] = 1;
    assert_eq!(
        (record.passes, record.removed, record.counts),
        (1, 1, counts)
    );
    let mut out = [7; 20];
    let files = *b"P4\n5 3\n\0\0\0P4\n5 2\n\0\0\x07";
    assert_eq!(job::collect(&mut record, &one, &two, &mut out), Ok(19));
    assert_eq!((out, record), (files, JobRecord::EMPTY));
    let load = Call::LoadStrip {
        table: ring(),
        strip: shape,
        pixels,
    };
    let mut book = Book::default();
    for call in [load, Call::Run] {
        assert!(book.enter(&call, [25, 25]).is_ok());
    }
    let changed = book.entry.as_ref().map(|entry| entry.changed_in_parts());
    assert_eq!(changed, Some(counts));
    let collected = book.enter(&Call::Collect { out_length: 19 }, [25, 25]);
    assert_eq!(collected, Ok(Answer::File(files[..19].to_vec())));
}

/// Parts and their changes sum to the whole's, whatever the cut.
#[test]
fn parts_sum_to_the_whole() {
    let mut random = Random::new(3);
    for _ in 0..3000 {
        let (width, rows) = (1 + random.below(9), 1 + random.below(400));
        let (from, to) = (
            random_image(width, rows, &mut random),
            random_image(width, rows, &mut random),
        );
        let heights = random_cut(rows, &mut random);
        assert!(heights.len() <= 16 && heights.iter().all(|h| (1..=256).contains(h)));
        let parts = [&from, &to].map(|image| strip::parts_of(image, &heights));
        let pixels: Vec<&[u8]> = parts[0].iter().map(|part| &part.pixels[..]).collect();
        assert_eq!(pixels.concat(), from.pixels);
        let pairs = parts[0].iter().zip(&parts[1]);
        let sum = pairs.fold((0, 0), |(added, removed), (from, to)| {
            let (more, fewer) = changes(from, to);
            (added + more, removed + fewer)
        });
        assert_eq!(sum, changes(&from, &to));
    }
    report("parts that sum to the whole: 3000 cuts");
}

#[test]
fn random_tables_are_accepted() {
    let mut random = Random::new(1);
    let mut counts = [0; MAX_ELEMENTS + 1];
    let mut ranks = [0; MAX_RANKS + 1];
    for _ in 0..2000 {
        let table = random_table(&mut random, 64);
        assert_eq!(check(&table), Ok(()), "{table:?}");
        counts[table.count] += 1;
        ranks[table.ranks] += 1;
    }
    let reached = counts.iter().filter(|n| **n > 0).count();
    assert!(reached > 50, "only {reached} numbers of elements");
    assert!(ranks[1..].iter().all(|n| *n > 200), "{ranks:?}");
    report(&format!(
        "random tables: 2000, with {reached} different numbers of elements"
    ));
}

#[test]
fn fast_equals_definition() {
    let mut random = Random::new(2);
    let mut changing = 0;
    let cases = 6000;
    for case in 0..cases {
        let (widest, highest) = match case % 40 {
            0 => (70, 70),
            20 => (6, 4096),
            _ => (20, 20),
        };
        let (width, height) = (1 + random.below(widest), 1 + random.below(highest));
        let table = random_table(&mut random, 64);
        let image = random_image(width, height, &mut random);
        let expected = one_pass(&image, &table);
        let mut next = vec![0; width * height];
        let counts = Filter::new(&table, width, height).pass(&image.pixels, &mut next);
        assert_eq!(next, expected.pixels, "{table:?} {image:?}");
        assert_eq!(counts, changes(&image, &expected));
        changing += usize::from(expected != image);
    }
    report(&format!(
        "quick pass beside the definition: {cases} cases, {changing} of them changing"
    ));
    assert!(changing > cases / 10);
}
