//! T-09 over the library's jobs: how far a pixel sees, and a strip beside its parts cleaned alone.

mod common;

use common::{loaded, loaded_strip, report, view};
use mask_cleaner::TableRecord;
use mask_cleaner::{Job, Table};
use reference::cases::{long_column, long_row, random_image, random_table, Random};
use reference::image::Image;

/// How far one pass sees, in rows and in columns.
const REACH: usize = 6;

fn accepted(record: TableRecord) -> Table {
    Table::from_record(record).expect("an accepted table")
}

/// A random table, or one that sees as far as any.
fn table(random: &mut Random) -> Table {
    accepted(match random.below(4) {
        0 => long_column(),
        1 => long_row(),
        _ => random_table(random, 16),
    })
}

/// A random image, or columns of black dashes of five to eight pixels with gaps of one to three.
fn image(width: usize, height: usize, random: &mut Random) -> Image {
    if random.percent(50) {
        return random_image(width, height, random);
    }
    let mut image = Image::from_fn(width, height, |_, _| 1);
    for x in 0..width {
        let mut y = random.below(9);
        while y < height {
            let gap = 1 + random.below(3);
            for row in y..height.min(y + gap) {
                image.pixels[row * width + x] = 0;
            }
            y += gap + 5 + random.below(4);
        }
    }
    image
}

/// The pixels after so many passes, quiet ones too.
fn after(table: &Table, image: &Image, passes: usize) -> Vec<u8> {
    passed(loaded(table, image), passes)
}

fn passed(mut job: Job, passes: usize) -> Vec<u8> {
    for _ in 0..passes {
        job.pass().expect("an accepted pass");
    }
    view(&job).to_vec()
}

/// The image with every pixel more than so many rows or columns from (row, column) drawn anew.
fn drawn_anew(
    image: &Image,
    (row, column): (usize, usize),
    distance: usize,
    random: &mut Random,
) -> Image {
    Image::from_fn(image.width, image.height, |x, y| {
        if y.abs_diff(row) > distance || x.abs_diff(column) > distance {
            random.below(2) as u8
        } else {
            image.pixels[y * image.width + x]
        }
    })
}

/// The rows of a strip from `top` on, as an image of their own.
fn part_of(strip: &Image, top: usize, height: usize) -> Image {
    let (from, to) = (top * strip.width, (top + height) * strip.width);
    Image::new(strip.width, height, &strip.pixels[from..to])
}

/// The rows of its own part between a row and the nearest seam; the strip's own edges are no seams.
fn between(heights: &[usize], part: usize, row: usize) -> usize {
    let above = (part > 0).then_some(row);
    let below = (part + 1 < heights.len()).then(|| heights[part] - 1 - row);
    above.into_iter().chain(below).min().unwrap_or(usize::MAX)
}

/// For each row of a strip that is loaded as one: the rows between it and the nearest seam, and how many of its pixels differ from the
/// part's, cleaned alone.
fn beside_parts(
    table: &Table,
    strip: &Image,
    heights: &[usize],
    passes: usize,
) -> Vec<(usize, usize)> {
    let whole = passed(loaded_strip(table, strip, heights), passes);
    let mut alone = Vec::new();
    let mut rows = Vec::new();
    for (part, height) in heights.iter().enumerate() {
        let top = rows.len();
        alone.extend(after(table, &part_of(strip, top, *height), passes));
        rows.extend((0..*height).map(|row| between(heights, part, row)));
    }
    let differ = |row: usize| {
        let pixels = row * strip.width..(row + 1) * strip.width;
        pixels.filter(|i| whole[*i] != alone[*i]).count()
    };
    rows.into_iter()
        .enumerate()
        .map(|(row, n)| (n, differ(row)))
        .collect()
}

#[test]
fn locality() {
    let mut random = Random::new(90);
    let (cases, mut differing, mut felt) = (20_000, 0, 0);
    for _ in 0..cases {
        let table = table(&mut random);
        let (width, height) = (1 + random.below(64), 1 + random.below(64));
        let one = image(width, height, &mut random);
        let place = (random.below(height), random.below(width));
        let (passes, pixel) = (random.below(5), place.0 * width + place.1);
        let value = after(&table, &one, passes)[pixel];
        let other = drawn_anew(&one, place, REACH * passes, &mut random);
        assert_eq!(after(&table, &other, passes)[pixel], value);
        differing += usize::from(one != other);
        if passes > 0 {
            let nearer = drawn_anew(&one, place, REACH * passes - 1, &mut random);
            felt += usize::from(after(&table, &nearer, passes)[pixel] != value);
        }
    }
    report(&format!(
        "locality: {cases} pairs of images, {differing} not equal; one row or column nearer, the pixel differs in {felt}"
    ));
    assert!(differing > cases / 2 && felt > 0);
}

#[test]
fn parts_alone() {
    let mut random = Random::new(91);
    let (cases, mut compared, mut felt) = (6000, 0, 0);
    for _ in 0..cases {
        let (table, passes) = (table(&mut random), random.below(4));
        let (parts, highest) = *random.choose(&[(4, 60), (4, 60), (4, 60), (16, 40), (3, 256)]);
        let parts = 1 + random.below(parts);
        let heights: Vec<usize> = (0..parts).map(|_| 1 + random.below(highest)).collect();
        let width = 1 + random.below(24);
        let strip = image(width, heights.iter().sum(), &mut random);
        for (between, differing) in beside_parts(&table, &strip, &heights, passes) {
            if between >= REACH * passes {
                assert_eq!(differing, 0);
                compared += 1;
            } else if between + 1 == REACH * passes {
                felt += differing;
            }
        }
    }
    report(&format!(
        "parts alone: {cases} strips, {compared} rows compared; with one row less to a seam, {felt} pixels differ"
    ));
    assert!(felt > 0);
}

/// The cases of 02's request: six columns away a pixel is felt, and five rows to a seam are too few.
#[test]
fn six_is_needed() {
    let (row, column) = (accepted(long_row()), accepted(long_column()));
    let gap = Image::new(13, 1, &[1, 1, 1, 1, 1, 0, 0, 0, 1, 1, 1, 1, 1]);
    let cut = Image::new(13, 1, &[0, 1, 1, 1, 1, 0, 0, 0, 1, 1, 1, 1, 1]);
    assert_eq!(
        after(&row, &gap, 1),
        [1, 1, 1, 1, 1, 0, 1, 0, 1, 1, 1, 1, 1]
    );
    assert_eq!(after(&row, &cut, 1), cut.pixels);
    let strip = Image::new(1, 16, &[1, 1, 1, 1, 1, 0, 0, 0, 1, 1, 1, 1, 1, 1, 1, 1]);
    assert_eq!(beside_parts(&column, &strip, &[12, 4], 1)[6], (5, 1));
    assert_eq!(beside_parts(&column, &strip, &[13, 3], 1)[6], (6, 0));
}
