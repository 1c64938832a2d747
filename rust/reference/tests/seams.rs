//! Passes over strips (02, T-08), across the seams: beside the same image in one piece, beside the reference and beside the quick version.

mod common;

use common::compare::{finish, pass, scramble, Counts, CHANGED, STABLE};
use common::strips::{
    assert_counts, assert_files, cut, in_one_piece, load_of, loaded, present, random_strip,
};
use common::{assert_same, report, Side, State};
use mask_cleaner::{Refusal, TableRecord, MAX_PARTS, MAX_SIDE};
use reference::cases::{
    cross, lasting_tables, long_column, median, named_tables, random_image, random_table, ring,
    Kind, Random,
};
use reference::fast::Filter;
use reference::image::{file_of, Image};
use reference::model::{Answer, Call};
use reference::pass::one_pass;
use reference::strip::{files_of, parts_of};

/// A call of the library on two jobs; answers, areas and, but for the parts, the records are the same.
fn apply_alike(call: &Call, strip: &mut State, whole: &mut State) -> Result<Answer, Refusal> {
    let answer = strip.apply(Side::Library, call, &mut []);
    assert_eq!(whole.apply(Side::Library, call, &mut []), answer);
    assert_eq!(in_one_piece(&strip.record), whole.record);
    assert_same("first area", &strip.first, &whole.first, whole.record);
    assert_same("second area", &strip.second, &whole.second, whole.record);
    answer
}

/// The image in parts and in one piece: pass by pass, by a run, and in what collect writes. How many passes changed something.
fn beside_one_piece(
    image: &Image,
    heights: &[usize],
    table: &TableRecord,
    random: &mut Random,
) -> usize {
    let pixels = image.pixels.len();
    let mut whole = State::empty(random.bytes(pixels + 3), random.bytes(pixels + 5));
    let mut strip = whole.clone();
    let (table, file) = (*table, file_of(image));
    let loads = [
        load_of(image, heights, &table, random),
        Call::Load { table, file },
    ];
    for (state, load) in [&mut strip, &mut whole].into_iter().zip(&loads) {
        assert_eq!(
            state.apply(Side::Library, load, &mut []),
            Ok(Answer::Loaded)
        );
    }
    let mut runs = [strip.clone(), whole.clone()];
    while apply_alike(&Call::Pass, &mut strip, &mut whole) == Ok(CHANGED) {
        assert_counts(&strip, image, heights);
    }
    let [run, whole_run] = &mut runs;
    assert_eq!(apply_alike(&Call::Run, run, whole_run), Ok(STABLE));
    assert_eq!(*run, strip, "a run ends as its passes called singly");
    for call in [Call::View, Call::Figures] {
        assert!(apply_alike(&call, &mut strip, &mut whole).is_ok());
    }
    let passes = strip.record.passes;
    assert_counts(&strip, image, heights);
    assert_files(&mut strip, random);
    passes
}

#[test]
fn cuts_of_one_image() {
    let mut random = Random::new(144);
    let (mut jobs, mut passes) = (0, 0);
    for (widest, rows, cases) in [(12, 24, 3000), (70, 256, 400), (256, 256, 60)] {
        for _ in 0..cases {
            let (table, image, _) = random_strip(widest, rows, &mut random);
            for _ in 0..3 {
                let heights = cut(image.height, &mut random);
                passes += beside_one_piece(&image, &heights, &table, &mut random);
                jobs += 1;
            }
        }
    }
    report(&format!(
        "cuts of one image: {jobs}, {passes} passes that change something"
    ));
    assert!(passes >= jobs / 3);
}

/// A strip by library and reference: passes until it is stable, at most so many, a run, then all other calls.
fn compare(
    image: &Image,
    heights: &[usize],
    table: &TableRecord,
    most: usize,
    (random, counts): (&mut Random, &mut Counts),
) {
    let mut state = loaded(image, heights, table, random);
    let mut run = state.clone();
    counts.jobs += 1;
    let stable = (0..most).any(|_| !pass(&mut state, counts));
    assert_counts(&state, image, heights);
    if stable {
        scramble(&mut run, random);
        assert_eq!(run.apply_both(&Call::Run, &mut []), Ok(STABLE));
        assert_eq!(run, state, "a run ends as its passes called singly");
    }
    let files = files_of(image, heights).len();
    finish(&mut state, files, random);
}

/// Tables that see far, those of 01 and 02, those whose runs are long, and random ones.
fn any_table(random: &mut Random) -> TableRecord {
    match random.below(6) {
        0 => long_column(),
        1 => random.choose(&named_tables()).1,
        2 | 3 => *random.choose(&lasting_tables()),
        _ => random_table(random, 8),
    }
}

/// A random image, or columns of black dashes with gaps, by which a pass tells that sees six rows far.
fn tall_image(width: usize, rows: usize, random: &mut Random) -> Image {
    if random.percent(60) {
        return random_image(width, rows, random);
    }
    let (dash, gap) = (5 + random.below(4), 1 + random.below(3));
    let starts: Vec<usize> = (0..width).map(|_| random.below(dash + gap)).collect();
    Image::from_fn(width, rows, |x, y| {
        u8::from((y + starts[x]) % (dash + gap) >= gap) ^ u8::from(random.percent(1))
    })
}

/// More rows than a single image has, narrow enough for the reference.
#[test]
fn tall_strips() {
    let mut random = Random::new(145);
    let mut counts = Counts::default();
    for case in 0..300 {
        let rows = match case % 6 {
            0 => 1 + random.below(4096),
            _ => 1 + random.below(700),
        };
        let (image, heights) = (
            tall_image(1 + random.below(7), rows, &mut random),
            cut(rows, &mut random),
        );
        let table = any_table(&mut random);
        compare(&image, &heights, &table, 8, (&mut random, &mut counts));
    }
    counts.report("tall strips");
    assert!(counts.changing >= counts.jobs / 3, "too few passes change");
}

/// Sixteen parts of one row, of few rows, and of as many as there can be; in one column and in several.
#[test]
fn sixteen_parts() {
    let mut random = Random::new(146);
    let mut counts = Counts::default();
    for (height, cases) in [(1, 300), (2, 100), (6, 40), (64, 12), (256, 6)] {
        for _ in 0..cases {
            let (width, table) = (1 + random.below(6), any_table(&mut random));
            let image = tall_image(width, MAX_PARTS * height, &mut random);
            let heights = [height; MAX_PARTS];
            compare(&image, &heights, &table, 5, (&mut random, &mut counts));
        }
    }
    counts.report("sixteen parts");
    assert!(counts.changing >= 60, "too few passes change");
}

/// The library beside the quick version, pass by pass, at most so many, and by a run to the end. How many passes changed something.
fn beside_filter(
    image: &Image,
    heights: &[usize],
    table: &TableRecord,
    most: usize,
    random: &mut Random,
) -> usize {
    let mut state = State::holding_strip(image, heights, *table, 0, random);
    let mut run = state.clone();
    let mut filter = Filter::new(table, image.width, image.height);
    let (mut from, mut to) = (image.pixels.clone(), vec![0; image.pixels.len()]);
    for n in 0..most {
        let changed = filter.pass(&from, &mut to) != (0, 0);
        let answer = state.apply(Side::Library, &Call::Pass, &mut []);
        assert_eq!(answer, Ok(if changed { CHANGED } else { STABLE }));
        let area = [&state.second, &state.first][n % 2];
        assert_same("next image", &area[..to.len()], &to, (&state.record, n));
        assert_counts(&state, image, heights);
        std::mem::swap(&mut from, &mut to);
        if !changed {
            assert_eq!(run.apply(Side::Library, &Call::Run, &mut []), Ok(STABLE));
            assert!(run == state, "a run ends as its passes called singly");
            break;
        }
    }
    state.record.passes
}

/// Widths beside the ends of blocks of columns, up to 4096 rows.
#[test]
fn large_strips() {
    let mut random = Random::new(147);
    let (mut jobs, mut passes) = (0, 0);
    for width in [1, 2, 8, 63, 64, 65, 127, 128, 129, 192, 255, 256] {
        for _ in 0..6 {
            let rows = 200 + random.below(1200);
            let image = tall_image(width, rows, &mut random);
            let heights = cut(rows, &mut random);
            let table = any_table(&mut random);
            passes += beside_filter(&image, &heights, &table, 12, &mut random);
            jobs += 1;
        }
    }
    for (_, table) in named_tables() {
        for kind in [Kind::Noise, Kind::Worn, Kind::Blocks, Kind::White] {
            let image = kind.image(MAX_SIDE, 16 * MAX_SIDE, &mut random);
            passes += beside_filter(&image, &[MAX_SIDE; MAX_PARTS], &table, 3, &mut random);
            jobs += 1;
        }
    }
    report(&format!(
        "large strips: {jobs}, {passes} passes that change something"
    ));
    assert!(passes >= jobs);
}

/// A strip's pixels after one pass, by library and reference.
fn after_pass(
    image: &Image,
    heights: &[usize],
    table: &TableRecord,
    random: &mut Random,
) -> Vec<u8> {
    let mut state = State::holding_strip(image, heights, *table, 0, random);
    assert!(state.apply_both(&Call::Pass, &mut []).is_ok());
    present(&state).to_vec()
}

/// One pixel of either colour at every row of a strip: it comes out as in one piece, and not always as in its part alone.
#[test]
fn a_pixel_at_every_row() {
    let mut random = Random::new(148);
    let (heights, mut cases, mut felt) = ([7, 1, 1, 9, 6, 13, 2], 0, 0);
    let rows = heights.iter().sum();
    for table in [ring(), cross(), median(), long_column()] {
        for (at, colour) in (0..rows).flat_map(|row| [(row, 0), (row, 1)]) {
            let image = Image::from_fn(5, rows, |x, y| colour ^ u8::from((x, y) == (2, at)));
            let whole = one_pass(&image, &table).pixels;
            assert_eq!(after_pass(&image, &heights, &table, &mut random), whole);
            let alone: Vec<u8> = parts_of(&image, &heights)
                .iter()
                .flat_map(|part| after_pass(part, &[part.height], &table, &mut random))
                .collect();
            cases += 1;
            felt += usize::from(alone != whole);
        }
    }
    report(&format!(
        "a pixel at every row: {cases}, in its part alone another image: {felt}"
    ));
    assert!(felt >= 20, "a seam must tell");
}
