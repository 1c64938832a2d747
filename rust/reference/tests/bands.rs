//! Bands of 64 columns and blocks of 64 rows: sides that end beside them, marks at their edges, both colours, and tables whose elements
//! are found in different ways.

mod common;

use common::compare::{compare_runs, some_table, Counts};
use common::{loaded, report, view};
use mask_cleaner::Table;
use mask_cleaner::TableRecord;
use reference::cases::{
    cross, lasting_tables, median, named_tables, opposite, random_figure, random_image,
    random_table, Random,
};
use reference::image::Image;
use reference::pass::one_pass;
use reference::table::Offset;

const WIDTHS: [usize; 18] = [
    1, 2, 3, 4, 5, 6, 7, 63, 64, 65, 127, 128, 129, 191, 192, 193, 255, 256,
];

const HEIGHTS: [usize; 15] = [1, 2, 3, 4, 5, 6, 7, 63, 64, 65, 66, 128, 129, 255, 256];

/// Every pair of a width and a height.
fn sizes() -> impl Iterator<Item = (usize, usize)> {
    let rows_of = |width| HEIGHTS.map(|height| (width, height));
    WIDTHS.into_iter().flat_map(rows_of)
}

/// One of 01's and 02's tables, one whose runs are long, or a random one of 1 to 64 elements.
fn any_table(random: &mut Random) -> TableRecord {
    match random.below(3) {
        0 => random.choose(&named_tables()).1,
        1 => *random.choose(&lasting_tables()),
        _ => some_table(random),
    }
}

#[test]
fn sides_around_bands_and_blocks() {
    let mut random = Random::new(110);
    let mut counts = Counts::default();
    for (width, height) in sizes() {
        let table = any_table(&mut random);
        let image = random_image(width, height, &mut random);
        compare_runs(&image, &table, |n| n < 2, &mut random, &mut counts);
    }
    counts.report("sides around bands and blocks");
    assert!(counts.changing >= 150, "too few passes change");
}

/// The places of a side where something begins or ends: its own ends, and where a band or block meets the next.
fn places(side: usize) -> impl Iterator<Item = usize> {
    let near = move |i: &usize| *i < 3 || side - i <= 3 || (i + 2) % 64 < 5;
    (0..side).filter(near)
}

/// Sizes that are long in one direction.
const LONG: [(usize, usize); 8] = [
    (256, 1),
    (256, 5),
    (193, 5),
    (64, 5),
    (1, 256),
    (5, 256),
    (5, 129),
    (5, 65),
];

/// One pixel in either colour at each such place, by the cross, by the median and by a random table.
#[test]
fn a_pixel_at_every_edge() {
    let mut random = Random::new(111);
    let mut counts = Counts::default();
    let (mut pixels, mut changed) = (0, 0);
    for (width, height) in LONG {
        for (at_x, at_y) in places(width).flat_map(|x| places(height).map(move |y| (x, y))) {
            for colour in [0, 1] {
                let image = Image::from_fn(width, height, |x, y| {
                    colour ^ u8::from((x, y) != (at_x, at_y))
                });
                let tables = [cross(), median(), random_table(&mut random, 6)];
                let passes = tables.map(|table| {
                    compare_runs(&image, &table, |n| n == 0, &mut random, &mut counts)
                });
                pixels += 1;
                changed += usize::from(passes != [0; 3]);
            }
        }
    }
    counts.report("a pixel at every edge");
    report(&format!("  pixels: {pixels}, changed: {changed}"));
    assert!(3 * changed >= 2 * pixels);
}

/// The table's run on the image: the stable image, passes, added and removed.
fn run(table: &Table, image: &Image) -> (Vec<u8>, usize, usize, usize) {
    let mut job = loaded(table, image);
    job.run().expect("an accepted run");
    let record = job.record();
    let (passes, added, removed) = (record.passes, record.added, record.removed);
    (view(&job).to_vec(), passes, added, removed)
}

#[test]
fn colours_exchanged() {
    let mut random = Random::new(112);
    let (mut cases, mut changing) = (0, 0);
    for (width, height) in sizes() {
        for _ in 0..12 {
            let table = Table::from_record(any_table(&mut random)).expect("an accepted table");
            let image = random_image(width, height, &mut random);
            let (clean, passes, added, removed) = run(&table, &image);
            let exchanged = clean.iter().map(|pixel| 1 - pixel).collect();
            let expected = (exchanged, passes, removed, added);
            assert_eq!(run(&table, &image.exchanged()), expected);
            cases += 1;
            changing += usize::from(passes > 0);
        }
    }
    report(&format!(
        "colours exchanged: {cases} pairs of jobs, {changing} of them changing"
    ));
    assert!(3 * changing >= cases);
}

/// The opposite positions of a table's elements.
#[derive(Clone, Copy, Debug)]
enum Opposites {
    /// No element has two.
    None,
    /// Some elements have two, some have none.
    Some,
    /// Every position has its opposite.
    All,
}

/// A random table of at least two elements where `several` says so, else of one, whose elements have such opposites.
fn table_with(opposites: Opposites, several: bool, random: &mut Random) -> TableRecord {
    loop {
        let table = random_table(random, if several { 6 } else { 1 });
        let mut elements = table.elements[..table.count].to_vec();
        if matches!(opposites, Opposites::All) {
            elements.iter_mut().for_each(|e| *e |= opposite(*e));
            elements.sort_unstable();
            elements.dedup();
        }
        let facing = elements.iter().filter(|e| **e & opposite(**e) != 0).count();
        let wanted = match opposites {
            Opposites::None => facing == 0,
            Opposites::Some => 0 < facing && facing < elements.len(),
            Opposites::All => true,
        };
        if wanted && several == (elements.len() > 1) {
            return TableRecord::new(&elements, &table.persistents[..table.ranks]);
        }
    }
}

/// A figure with a side that ends near the end of a band or block, or a small one.
fn figure(random: &mut Random) -> Image {
    let band = *random.choose(&[64, 64, 128, 192, 250]);
    let (long, short) = (band - 3 + random.below(10), 1 + random.below(12));
    let (width, height) = *random.choose(&[(long, short), (short, long), (short, short)]);
    random_figure(width, height, random)
}

/// Tables of one element and of several, whose elements have opposite positions or not.
#[test]
fn opposite_positions() {
    let mut random = Random::new(113);
    for (opposites, several) in [
        (Opposites::None, false),
        (Opposites::All, false),
        (Opposites::None, true),
        (Opposites::Some, true),
        (Opposites::All, true),
    ] {
        let mut counts = Counts::default();
        for _ in 0..900 {
            let table = table_with(opposites, several, &mut random);
            compare_runs(
                &figure(&mut random),
                &table,
                |n| n < 2,
                &mut random,
                &mut counts,
            );
        }
        let elements = if several { "several" } else { "one" };
        counts.report(&format!("{elements}, opposite positions {opposites:?}"));
        assert!(counts.changing >= 300, "too few passes change");
    }
}

/// An element of two opposite positions in each of the twelve directions, kept by the two pixels that it brings together.
#[test]
fn two_opposite_positions() {
    let mut random = Random::new(114);
    let mut counts = Counts::default();
    let mut changed = 0;
    for offset in Offset::all().take(12) {
        let one = 1 << offset.position();
        let table = TableRecord::new(&[one | opposite(one)], &[one | 1 << 12]);
        for _ in 0..200 {
            compare_runs(
                &figure(&mut random),
                &table,
                |n| n < 2,
                &mut random,
                &mut counts,
            );
        }
        let noise = Image::from_fn(70, 70, |_, _| random.below(2) as u8);
        changed += usize::from(one_pass(&noise, &table) != noise);
    }
    counts.report("two opposite positions");
    assert_eq!(changed, 12, "each direction changes something");
}

/// Tables of two elements: with two pairs of positions, or with one pair in common.
#[test]
fn two_elements() {
    let mut random = Random::new(115);
    let mut counts = Counts::default();
    let mut tables = 0;
    while tables < 3000 {
        let table = random_table(&mut random, 2);
        if table.count == 2 {
            compare_runs(
                &figure(&mut random),
                &table,
                |n| n < 2,
                &mut random,
                &mut counts,
            );
            tables += 1;
        }
    }
    counts.report("two elements");
    assert!(counts.changing >= 1000, "too few passes change");
}
