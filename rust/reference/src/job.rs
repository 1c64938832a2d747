//! 01, "The job": load, load of three files and of a strip, pass, run, a channel's pass and run, view, figures, collect on a record and two areas.

use crate::image::{self, Image};
use crate::strip::{self, Strip};
use crate::{pass as rule, quota as round, table};
use mask_cleaner::{
    Figures, JobRecord, Progress, QuotaRecord, Reason, Refusal, StripRecord, TableRecord,
    MAX_PARTS, STAGE_EMPTY, STAGE_LOADED, STAGE_STABLE,
};

/// The record after a load, of an image or of a strip of at most 16 parts of one width. Nothing is checked.
pub fn loaded(table: &TableRecord, width: usize, heights: &[usize]) -> JobRecord {
    JobRecord {
        stage: STAGE_LOADED,
        width,
        height: heights.iter().sum(),
        table: *table,
        strip: StripRecord::new(width, heights),
        ..JobRecord::EMPTY
    }
}

/// The area that holds the present image: the first when passes is even.
fn present_area<'a>(record: &JobRecord, first: &'a [u8], second: &'a [u8]) -> &'a [u8] {
    [first, second][record.passes % 2]
}

fn pixels(record: &JobRecord) -> usize {
    record.width * record.height
}

/// The present image of a sound record.
fn present(record: &JobRecord, first: &[u8], second: &[u8]) -> Image {
    let area = present_area(record, first, second);
    Image::new(record.width, record.height, &area[..pixels(record)])
}

/// The heights of a sound record's parts.
fn heights(record: &JobRecord) -> &[usize] {
    &record.strip.heights[..record.strip.parts]
}

/// Rule 14, without its clause on passes.
fn check_sound(record: &JobRecord, first: &[u8], second: &[u8]) -> Result<(), Refusal> {
    let sound = match record.stage {
        STAGE_EMPTY => *record == JobRecord::EMPTY,
        STAGE_LOADED | STAGE_STABLE => is_sound_loaded(record, first, second),
        _ => false,
    };
    refuse_unless(sound, Reason::Unsound)
}

fn is_sound_loaded(record: &JobRecord, first: &[u8], second: &[u8]) -> bool {
    if !has_sound_parts(record) {
        return false;
    }
    let pixels = pixels(record);
    if first.len() < pixels || second.len() < pixels {
        return false;
    }
    let present = &present_area(record, first, second)[..pixels];
    table::check(&record.table).is_ok()
        && present.iter().all(|p| *p <= 1)
        && record.passes <= pixels
        && changed(record) <= pixels as u128
}

/// What 14 asks of the parts (T-08): they are as a load accepts them, have the record's width, and sum to its height, added
/// and removed; past them is nothing.
fn has_sound_parts(record: &JobRecord) -> bool {
    let JobRecord { strip, counts, .. } = record;
    let Ok((width, heights)) = strip::check_parts(strip) else {
        return false;
    };
    let nothing_past = |places: &[usize; MAX_PARTS]| places[strip.parts..].iter().all(|n| *n == 0);
    let sums_to = |numbers: &[usize], total: usize| sum(numbers) == total as u128;
    width == record.width
        && sums_to(&heights, record.height)
        && nothing_past(&strip.widths)
        && nothing_past(&strip.heights)
        && nothing_past(&counts.added)
        && nothing_past(&counts.removed)
        && sums_to(&counts.added, record.added)
        && sums_to(&counts.removed, record.removed)
}

/// A sum as a number, whatever the record says.
fn sum(numbers: &[usize]) -> u128 {
    numbers.iter().map(|n| *n as u128).sum()
}

/// Added + removed, likewise.
fn changed(record: &JobRecord) -> u128 {
    sum(&[record.added, record.removed])
}

fn refuse_unless(condition: bool, reason: Reason) -> Result<(), Refusal> {
    if condition {
        Ok(())
    } else {
        Err(Refusal::of(reason))
    }
}

/// 14, then 16.
fn check_loaded(record: &JobRecord, first: &[u8], second: &[u8]) -> Result<(), Refusal> {
    check_sound(record, first, second)?;
    refuse_unless(record.stage != STAGE_EMPTY, Reason::NothingLoaded)
}

/// A load of one file.
pub fn load(
    record: &mut JobRecord,
    table: &TableRecord,
    file: &[u8],
    first: &mut [u8],
    second: &[u8],
) -> Result<(), Refusal> {
    let image = image::parse(file).map(Strip::single);
    load_image(record, table, image, first, second)
}

/// A load of the majority of three (T-12).
pub fn load_three(
    record: &mut JobRecord,
    table: &TableRecord,
    files: [&[u8]; 3],
    first: &mut [u8],
    second: &[u8],
) -> Result<(), Refusal> {
    let image = image::parse_three(files).map(Strip::single);
    load_image(record, table, image, first, second)
}

/// A load of a strip (T-08).
pub fn load_strip(
    record: &mut JobRecord,
    table: &TableRecord,
    strip: &StripRecord,
    pixels: &[u8],
    first: &mut [u8],
    second: &[u8],
) -> Result<(), Refusal> {
    load_image(record, table, strip::check(strip, pixels), first, second)
}

/// 14, 15, table, what the image was refused by, 13. The second area stays as it is.
fn load_image(
    record: &mut JobRecord,
    table: &TableRecord,
    image: Result<Strip, Refusal>,
    first: &mut [u8],
    second: &[u8],
) -> Result<(), Refusal> {
    check_sound(record, first, second)?;
    refuse_unless(record.stage == STAGE_EMPTY, Reason::NotCollected)?;
    table::check(table)?;
    let Strip { image, heights } = image?;
    refuse_unless(second.len() >= image.pixels.len(), Reason::AreaShort)?;
    image::fill(first, &image.pixels)?;
    *record = loaded(table, image.width, &heights);
    Ok(())
}

/// 14, 16, then 14's clause on a changing pass.
pub fn pass(
    record: &mut JobRecord,
    first: &mut [u8],
    second: &mut [u8],
) -> Result<Progress, Refusal> {
    check_loaded(record, first, second)?;
    if record.stage == STAGE_STABLE {
        return Ok(Progress::Stable);
    }
    let before = present(record, first, second);
    let after = rule::one_pass(&before, &record.table);
    let (added, removed) = rule::changes(&before, &after);
    let quiet = added + removed == 0;
    if !quiet {
        let pixels = pixels(record);
        let total = changed(record) + (added + removed) as u128;
        let fits = record.passes < pixels && total <= pixels as u128;
        refuse_unless(fits, Reason::Unsound)?;
    }
    let other = if record.passes % 2 == 1 {
        first
    } else {
        second
    };
    other[..after.pixels.len()].copy_from_slice(&after.pixels);
    if quiet {
        record.stage = STAGE_STABLE;
        return Ok(Progress::Stable);
    }
    record.passes += 1;
    record.added += added;
    record.removed += removed;
    count_parts(record, &before, &after);
    Ok(Progress::Changed)
}

/// Adds to each part what its own rows gained and lost.
fn count_parts(record: &mut JobRecord, before: &Image, after: &Image) {
    let befores = strip::parts_of(before, heights(record));
    let afters = strip::parts_of(after, heights(record));
    for (i, (before, after)) in befores.iter().zip(&afters).enumerate() {
        let (added, removed) = rule::changes(before, after);
        record.counts.added[i] += added;
        record.counts.removed[i] += removed;
    }
}

/// Passes until one answers "at rest"; one that is refused ends it, and those before it stay.
pub fn run(
    record: &mut JobRecord,
    first: &mut [u8],
    second: &mut [u8],
) -> Result<Progress, Refusal> {
    while pass(record, first, second)? == Progress::Changed {}
    Ok(Progress::Stable)
}

/// A pass of a lane (T-10): 25, 14, 16, 24, and then a pass as it is. An accepted one at stage 1 spends a pass of the round.
pub fn channel_pass(
    record: &mut JobRecord,
    quota: &mut QuotaRecord,
    channel: usize,
    first: &mut [u8],
    second: &mut [u8],
) -> Result<Progress, Refusal> {
    round::check_channel(quota, channel)?;
    check_loaded(record, first, second)?;
    if record.stage == STAGE_STABLE {
        return Ok(Progress::Stable);
    }
    round::check_left(quota, channel)?;
    let progress = pass(record, first, second)?;
    round::spend(quota, channel);
    Ok(progress)
}

/// A lane's run: its passes, until one answers "at rest" or is refused. Those before stay, and are spent.
pub fn channel_run(
    record: &mut JobRecord,
    quota: &mut QuotaRecord,
    channel: usize,
    first: &mut [u8],
    second: &mut [u8],
) -> Result<Progress, Refusal> {
    while channel_pass(record, quota, channel, first, second)? == Progress::Changed {}
    Ok(Progress::Stable)
}

/// 14, 16; the present image's bytes.
pub fn view<'a>(
    record: &JobRecord,
    first: &'a [u8],
    second: &'a [u8],
) -> Result<&'a [u8], Refusal> {
    check_loaded(record, first, second)?;
    Ok(&present_area(record, first, second)[..pixels(record)])
}

/// 14, 16; balance and cover.
pub fn figures(record: &JobRecord, first: &[u8], second: &[u8]) -> Result<Figures, Refusal> {
    check_loaded(record, first, second)?;
    let black = present(record, first, second).black();
    Ok(Figures {
        balance: record.added as i64 - record.removed as i64,
        cover: cover(black, pixels(record)),
    })
}

/// Of all whole thousandths the nearest one; of two equally near the even one.
fn cover(black: usize, pixels: usize) -> usize {
    let distance = |thousandths: &usize| (thousandths * pixels).abs_diff(1000 * black);
    (0..=1000)
        .min_by_key(|thousandths| (distance(thousandths), thousandths % 2))
        .expect("there are thousandths")
}

/// 14, 16, 17, 13; writes the files of the parts and empties the record.
pub fn collect(
    record: &mut JobRecord,
    first: &[u8],
    second: &[u8],
    out: &mut [u8],
) -> Result<usize, Refusal> {
    check_loaded(record, first, second)?;
    refuse_unless(record.stage == STAGE_STABLE, Reason::NotStable)?;
    let files = strip::files_of(&present(record, first, second), heights(record));
    image::fill(out, &files)?;
    *record = JobRecord::EMPTY;
    Ok(files.len())
}
