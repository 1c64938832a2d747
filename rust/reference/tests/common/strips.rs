//! Strips for tests: loads, what the parts must count, and what collect must write.

use super::compare::some_table;
use super::{assert_same, litter, Side, State};
use mask_cleaner::library;
use mask_cleaner::{JobRecord, PartCounts, Reason, Refusal, StripRecord, TableRecord, MAX_SIDE};
use reference::cases::{random_cut, random_image, Random};
use reference::image::Image;
use reference::model::{Answer, Call};
use reference::strip::files_of;

/// A strip's load, with anything past its parts.
pub fn load_of(image: &Image, heights: &[usize], table: &TableRecord, random: &mut Random) -> Call {
    let mut strip = StripRecord::new(image.width, heights);
    litter(&mut strip, random);
    Call::LoadStrip {
        table: *table,
        strip,
        pixels: image.pixels.clone(),
    }
}

/// A strip of at most so many rows with its table and parts.
pub fn random_strip(
    widest: usize,
    rows: usize,
    random: &mut Random,
) -> (TableRecord, Image, Vec<usize>) {
    let (width, rows) = (1 + random.below(widest), 1 + random.below(rows));
    let image = random_image(width, rows, random);
    let heights = random_cut(rows, random);
    (some_table(random), image, heights)
}

/// The image loaded as a strip, by library and reference, to areas of random bytes.
pub fn loaded(image: &Image, heights: &[usize], table: &TableRecord, random: &mut Random) -> State {
    let pixels = image.pixels.len();
    let (first, second) = (pixels + random.below(9), pixels + random.below(9));
    let mut state = State::empty(random.bytes(first), random.bytes(second));
    let call = load_of(image, heights, table, random);
    assert_eq!(state.apply_both(&call, &mut []), Ok(Answer::Loaded));
    let record = reference::job::loaded(table, image.width, heights);
    assert_eq!(state.record, record, "places past the parts are 0");
    state
}

/// What each part gains and loses between two images of a strip.
pub fn part_changes(before: &[u8], after: &[u8], width: usize, heights: &[usize]) -> PartCounts {
    let (mut counts, mut from) = (PartCounts::NONE, 0);
    for (i, height) in heights.iter().enumerate() {
        let to = from + width * height;
        let pairs = before[from..to].iter().zip(&after[from..to]);
        counts.added[i] = pairs.clone().filter(|(b, a)| a > b).count();
        counts.removed[i] = pairs.filter(|(b, a)| a < b).count();
        from = to;
    }
    counts
}

/// The present image of a job of the library.
pub fn present(state: &State) -> &[u8] {
    let view = library::view(&state.record, &state.first, &state.second);
    view.expect("an accepted view")
}

/// Each part has what its rows gained and lost since the load: no pixel changes twice.
pub fn assert_counts(state: &State, image: &Image, heights: &[usize]) {
    let counts = part_changes(&image.pixels, present(state), image.width, heights);
    let JobRecord { added, removed, .. } = state.record;
    assert_eq!(state.record.counts, counts, "{heights:?}");
    let sums = (counts.added.iter().sum(), counts.removed.iter().sum());
    assert_eq!((added, removed), sums);
}

/// The record of a strip as if its image were in one piece.
pub fn in_one_piece(record: &JobRecord) -> JobRecord {
    let JobRecord { width, height, .. } = *record;
    let mut counts = PartCounts::NONE;
    (counts.added[0], counts.removed[0]) = (record.added, record.removed);
    JobRecord {
        strip: StripRecord::new(width, &[height]),
        counts,
        ..*record
    }
}

/// Collect writes a file for each part, which the library reads back as that part, and nothing behind the last one; an output that is a byte
/// too short is refused. How many bytes the files have.
pub fn assert_files(state: &mut State, random: &mut Random) -> usize {
    let (record, pixels) = (state.record, present(state).to_vec());
    let heights = &record.strip.heights[..record.strip.parts];
    let files = files_of(&Image::new(record.width, record.height, &pixels), heights);
    let before = state.clone();
    let mut short = random.output(files.len() - 1);
    let unwritten = short.clone();
    let collect = Call::Collect { out_length: 0 };
    let answer = state.apply(Side::Library, &collect, &mut short);
    assert_eq!(answer, Err(Refusal::of(Reason::AreaShort)));
    assert!(*state == before && short == unwritten, "nothing is altered");
    let (length, behind) = (files.len(), random.below(9));
    let mut out = random.output(length + behind);
    let past = out[length..].to_vec();
    let answer = state.apply(Side::Library, &collect, &mut out);
    assert!(
        answer == Ok(Answer::File(files)),
        "the files of {heights:?}"
    );
    assert_eq!(state.record, JobRecord::EMPTY);
    assert_eq!(read_back(&out, &record, &pixels), past);
    length
}

/// Reads a file of each part from the front of the bytes; they have the pixels. What is behind the files.
fn read_back<'a>(files: &'a [u8], record: &JobRecord, mut pixels: &[u8]) -> &'a [u8] {
    let (mut rest, width) = (files, record.width);
    for height in &record.strip.heights[..record.strip.parts] {
        let header = format!("P4\n{width} {height}\n").len();
        let (file, behind) = rest.split_at(header + width.div_ceil(8) * height);
        let (part, other_parts) = pixels.split_at(width * height);
        let mut area = vec![7; part.len()];
        let size = library::read_image(file, &mut area);
        assert_eq!(size, Ok((width, *height)));
        assert_same("part", &area, part, record.strip);
        (rest, pixels) = (behind, other_parts);
    }
    rest
}

/// Parts that a random cut seldom begins with: rows of their own, and parts that end beside the ends of blocks of rows.
const BEGINNINGS: [&[usize]; 8] = [
    &[1; 15],
    &[6; 5],
    &[5, 7, 12, 13],
    &[63, 1, 64, 65],
    &[127, 1, 1],
    &[128, 128],
    &[134, 6],
    &[140],
];

/// A cut that begins so where that can be, or a random one.
pub fn cut(rows: usize, random: &mut Random) -> Vec<usize> {
    let beginning = *random.choose(&BEGINNINGS);
    let rest = rows.saturating_sub(beginning.iter().sum());
    if (1..=MAX_SIDE).contains(&rest) {
        return [beginning, &[rest]].concat();
    }
    random_cut(rows, random)
}
