//! The library's calls, made safe: a record may hold any values, a slice may have any length.
//!
//! Each function is one call of `include/mask_cleaner.h`. After a refusal all that was lent is unchanged,
//! but for a run that meets a pass refused as unsound, or without a pass left in its quota: it keeps the passes before.
//! A thread that calls needs 128 KB of stack, and 256 KB for strips.

use crate::ffi;
use crate::record::{
    front, Figures, JobRecord, Progress, QuotaRecord, StripRecord, TableRecord, MAX_RANKS,
};
use crate::refusal::{Reason, Refusal};

/// Judges a table record.
pub fn check_table(table: &TableRecord) -> Result<(), Refusal> {
    // SAFETY: the record passes by value.
    let answer = unsafe { ffi::mask_table_check(*table) };
    verdict(answer, true)
}

/// Reads a table file.
pub fn read_table(file: &[u8]) -> Result<TableRecord, Refusal> {
    // SAFETY: the pointer and length are those of a slice that is only read.
    let answer = unsafe { ffi::mask_table_read(file.as_ptr(), file.len()) };
    let nothing = answer.table == TableRecord::EMPTY;
    verdict(answer.verdict, nothing)?;
    Ok(answer.table)
}

/// Writes a table's file to the front of the output; gives its length.
pub fn write_table(table: &TableRecord, out: &mut [u8]) -> Result<usize, Refusal> {
    // SAFETY: the pointer and length are those of a slice that nobody else uses.
    let answer = unsafe { ffi::mask_table_write(*table, out.as_mut_ptr(), out.len()) };
    verdict(answer.verdict, answer.length == 0)?;
    Ok(answer.length)
}

/// Reads an image file to the front of the area; gives width and height.
pub fn read_image(file: &[u8], area: &mut [u8]) -> Result<(usize, usize), Refusal> {
    // SAFETY: pointers and lengths are those of slices; nobody else uses the area.
    let answer =
        unsafe { ffi::mask_image_read(file.as_ptr(), file.len(), area.as_mut_ptr(), area.len()) };
    let nothing = (answer.width, answer.height) == (0, 0);
    verdict(answer.verdict, nothing)?;
    Ok((answer.width, answer.height))
}

/// Writes an image's file to the front of the output; gives its length.
pub fn write_image(
    width: usize,
    height: usize,
    pixels: &[u8],
    out: &mut [u8],
) -> Result<usize, Refusal> {
    // SAFETY: pointers and lengths are those of slices; nobody else uses the output.
    let answer = unsafe {
        ffi::mask_image_write(
            width,
            height,
            pixels.as_ptr(),
            pixels.len(),
            out.as_mut_ptr(),
            out.len(),
        )
    };
    verdict(answer.verdict, answer.length == 0)?;
    Ok(answer.length)
}

/// Fills the area with the 3 × 3 median of the pixels.
pub fn preview(width: usize, height: usize, pixels: &[u8], area: &mut [u8]) -> Result<(), Refusal> {
    // SAFETY: pointers and lengths are those of slices; nobody else uses the area.
    let answer = unsafe {
        ffi::mask_preview(
            width,
            height,
            pixels.as_ptr(),
            pixels.len(),
            area.as_mut_ptr(),
            area.len(),
        )
    };
    verdict(answer, true)
}

/// Loads an image file.
pub fn load(
    record: &mut JobRecord,
    table: &TableRecord,
    file: &[u8],
    first: &mut [u8],
    second: &[u8],
) -> Result<(), Refusal> {
    // SAFETY: pointers and lengths are those of slices; nobody else uses the record or the first area.
    let answer = unsafe {
        ffi::mask_load(
            record,
            *table,
            file.as_ptr(),
            file.len(),
            first.as_mut_ptr(),
            first.len(),
            second.as_ptr(),
            second.len(),
        )
    };
    verdict(answer, true)
}

/// Loads the majority of three files' images.
pub fn load_three(
    record: &mut JobRecord,
    table: &TableRecord,
    [one, two, three]: [&[u8]; 3],
    first: &mut [u8],
    second: &[u8],
) -> Result<(), Refusal> {
    // SAFETY: pointers and lengths are those of slices; nobody else uses the record or the first area.
    let answer = unsafe {
        ffi::mask_load_three(
            record,
            *table,
            one.as_ptr(),
            one.len(),
            two.as_ptr(),
            two.len(),
            three.as_ptr(),
            three.len(),
            first.as_mut_ptr(),
            first.len(),
            second.as_ptr(),
            second.len(),
        )
    };
    verdict(answer, true)
}

/// Loads a strip; the pixels are those of all its parts, one part after the other.
pub fn load_strip(
    record: &mut JobRecord,
    table: &TableRecord,
    strip: &StripRecord,
    pixels: &[u8],
    first: &mut [u8],
    second: &[u8],
) -> Result<(), Refusal> {
    // SAFETY: pointers and lengths are those of slices; nobody else uses the record or the first area.
    let answer = unsafe {
        ffi::mask_load_strip(
            record,
            *table,
            *strip,
            pixels.as_ptr(),
            pixels.len(),
            first.as_mut_ptr(),
            first.len(),
            second.as_ptr(),
            second.len(),
        )
    };
    verdict(answer, true)
}

/// One pass.
pub fn pass(
    record: &mut JobRecord,
    first: &mut [u8],
    second: &mut [u8],
) -> Result<Progress, Refusal> {
    // SAFETY: pointers and lengths are those of slices; nobody else uses record and areas.
    let answer = unsafe {
        ffi::mask_pass(
            record,
            first.as_mut_ptr(),
            first.len(),
            second.as_mut_ptr(),
            second.len(),
        )
    };
    progress(answer.verdict, answer.stable)
}

/// Passes until nothing changes.
pub fn run(
    record: &mut JobRecord,
    first: &mut [u8],
    second: &mut [u8],
) -> Result<Progress, Refusal> {
    // SAFETY: pointers and lengths are those of slices; nobody else uses record and areas.
    let answer = unsafe {
        ffi::mask_run(
            record,
            first.as_mut_ptr(),
            first.len(),
            second.as_mut_ptr(),
            second.len(),
        )
    };
    progress(answer.verdict, answer.stable)
}

/// Opens a quota or begins it anew, with all of its allowance left.
pub fn open_quota(quota: &mut QuotaRecord) -> Result<(), Refusal> {
    // SAFETY: the quota passes by value.
    let answer = unsafe { ffi::mask_quota_open(*quota) };
    *quota = answer.quota;
    verdict(answer.verdict, true)
}

/// A channel's pass. The quota is what the call hands back, refused or not.
pub fn channel_pass(
    record: &mut JobRecord,
    quota: &mut QuotaRecord,
    channel: usize,
    first: &mut [u8],
    second: &mut [u8],
) -> Result<Progress, Refusal> {
    // SAFETY: pointers and lengths are those of slices; nobody else uses record and areas.
    let answer = unsafe {
        ffi::mask_channel_pass(
            record,
            *quota,
            channel,
            first.as_mut_ptr(),
            first.len(),
            second.as_mut_ptr(),
            second.len(),
        )
    };
    *quota = answer.quota;
    progress(answer.verdict, answer.stable)
}

/// A channel's run. The quota is what the call hands back, refused or not.
pub fn channel_run(
    record: &mut JobRecord,
    quota: &mut QuotaRecord,
    channel: usize,
    first: &mut [u8],
    second: &mut [u8],
) -> Result<Progress, Refusal> {
    // SAFETY: pointers and lengths are those of slices; nobody else uses record and areas.
    let answer = unsafe {
        ffi::mask_channel_run(
            record,
            *quota,
            channel,
            first.as_mut_ptr(),
            first.len(),
            second.as_mut_ptr(),
            second.len(),
        )
    };
    *quota = answer.quota;
    progress(answer.verdict, answer.stable)
}

/// The present image: the first width × height bytes of the area that holds it.
pub fn view<'a>(
    record: &JobRecord,
    first: &'a [u8],
    second: &'a [u8],
) -> Result<&'a [u8], Refusal> {
    // SAFETY: pointers and lengths are those of slices that are only read.
    let answer = unsafe {
        ffi::mask_view(
            *record,
            first.as_ptr(),
            first.len(),
            second.as_ptr(),
            second.len(),
        )
    };
    let nothing = (answer.area, answer.length) == (0, 0);
    verdict(answer.verdict, nothing)?;
    let area = if answer.area == 1 { first } else { second };
    Ok(front(area, answer.length))
}

/// Balance and cover of the present image.
pub fn figures(record: &JobRecord, first: &[u8], second: &[u8]) -> Result<Figures, Refusal> {
    // SAFETY: pointers and lengths are those of slices that are only read.
    let answer = unsafe {
        ffi::mask_figures(
            *record,
            first.as_ptr(),
            first.len(),
            second.as_ptr(),
            second.len(),
        )
    };
    let nothing = (answer.balance, answer.cover) == (0, 0);
    verdict(answer.verdict, nothing)?;
    Ok(Figures {
        balance: answer.balance,
        cover: answer.cover,
    })
}

/// Writes the file of each part to the output, one after another, and empties the record; gives the length of all.
pub fn collect(
    record: &mut JobRecord,
    first: &[u8],
    second: &[u8],
    out: &mut [u8],
) -> Result<usize, Refusal> {
    // SAFETY: pointers and lengths are those of slices; nobody else uses record and output.
    let answer = unsafe {
        ffi::mask_collect(
            record,
            first.as_ptr(),
            first.len(),
            second.as_ptr(),
            second.len(),
            out.as_mut_ptr(),
            out.len(),
        )
    };
    verdict(answer.verdict, answer.length == 0)?;
    Ok(answer.length)
}

fn progress(answer: ffi::Verdict, stable: u32) -> Result<Progress, Refusal> {
    verdict(answer, stable == 0)?;
    Ok(if stable == 0 {
        Progress::Changed
    } else {
        Progress::Stable
    })
}

/// The verdict of an answer. `nothing` says that all else in it is zero. With debug assertions each answer is held to what the header promises.
fn verdict(verdict: ffi::Verdict, nothing: bool) -> Result<(), Refusal> {
    let ffi::Verdict {
        number,
        place,
        witness,
        position,
    } = verdict;
    if number == 0 {
        debug_assert_eq!((place, witness, position), (0, 0, 0), "an accepted answer");
        return Ok(());
    }
    let refusal = Refusal::witnessed(Reason::from_number(number), place, witness, position);
    debug_assert!(nothing && is_possible(&refusal), "the answer {refusal}");
    Err(refusal)
}

/// The number is listed; witness and position are zero where the reason gives none, and else in their range.
fn is_possible(refusal: &Refusal) -> bool {
    let Refusal {
        reason,
        place,
        witness,
        position,
    } = *refusal;
    match reason {
        Reason::ElementsDisjoint => (1..place).contains(&witness) && position == 0,
        Reason::NotPersistent => (1..=MAX_RANKS).contains(&witness) && position < 25,
        Reason::Unlisted(_) => false,
        _ => (witness, position) == (0, 0),
    }
}
