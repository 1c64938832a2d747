//! The C interface, as `include/mask_cleaner.h` declares it. A slice passes as pointer and length.
//!
//! A pass or run uses some 56 KB of stack, and the header asks for 128 KB, for strips 256: a main thread (8 MB) and the
//! threads of tests (2 MB) have it; a thread made with a smaller stack may not.

use crate::record::{JobRecord, PartCounts, QuotaRecord, StripRecord, TableRecord};
use std::mem::{offset_of, size_of};

/// What every answer starts with.
#[repr(C)]
pub struct Verdict {
    pub number: u32,
    pub place: usize,
    pub witness: usize,
    pub position: usize,
}

#[repr(C)]
pub struct TableRead {
    pub verdict: Verdict,
    pub table: TableRecord,
}

#[repr(C)]
pub struct ImageSize {
    pub verdict: Verdict,
    pub width: usize,
    pub height: usize,
}

#[repr(C)]
pub struct Length {
    pub verdict: Verdict,
    pub length: usize,
}

#[repr(C)]
pub struct Progress {
    pub verdict: Verdict,
    /// 0 changed, 1 at rest.
    pub stable: u32,
}

#[repr(C)]
pub struct Part {
    pub verdict: Verdict,
    /// 1 first, 2 second.
    pub area: u32,
    pub length: usize,
}

#[repr(C)]
pub struct Figures {
    pub verdict: Verdict,
    pub balance: i64,
    pub cover: usize,
}

#[repr(C)]
pub struct QuotaAnswer {
    pub verdict: Verdict,
    pub quota: QuotaRecord,
}

#[repr(C)]
pub struct ChannelProgress {
    pub verdict: Verdict,
    /// 0 changed, 1 at rest.
    pub stable: u32,
    pub quota: QuotaRecord,
}

// The sizes of the header's records and answers.
const _: () = assert!(size_of::<TableRecord>() == 288);
const _: () = assert!(size_of::<StripRecord>() == 264);
const _: () = assert!(size_of::<PartCounts>() == 256);
const _: () = assert!(size_of::<JobRecord>() == 856);
const _: () = assert!(offset_of!(JobRecord, table) == 48);
const _: () = assert!(offset_of!(JobRecord, strip) == 336);
const _: () = assert!(offset_of!(JobRecord, counts) == 600);
const _: () = assert!(size_of::<QuotaRecord>() == 88);
const _: () = assert!(offset_of!(QuotaRecord, left) == 48);
const _: () = assert!(size_of::<Verdict>() == 32);
const _: () = assert!(size_of::<TableRead>() == 320);
const _: () = assert!(size_of::<ImageSize>() == 48);
const _: () = assert!(size_of::<Length>() == 40);
const _: () = assert!(size_of::<Progress>() == 40);
const _: () = assert!(size_of::<Part>() == 48);
const _: () = assert!(size_of::<Figures>() == 48);
const _: () = assert!(size_of::<QuotaAnswer>() == 120);
const _: () = assert!(size_of::<ChannelProgress>() == 128);
const _: () = assert!(offset_of!(ChannelProgress, quota) == 40);

extern "C" {
    pub fn mask_table_check(table: TableRecord) -> Verdict;
    pub fn mask_table_read(file: *const u8, file_length: usize) -> TableRead;
    pub fn mask_table_write(table: TableRecord, out: *mut u8, out_length: usize) -> Length;
    pub fn mask_image_read(
        file: *const u8,
        file_length: usize,
        area: *mut u8,
        area_length: usize,
    ) -> ImageSize;
    pub fn mask_image_write(
        width: usize,
        height: usize,
        pixels: *const u8,
        pixels_length: usize,
        out: *mut u8,
        out_length: usize,
    ) -> Length;
    pub fn mask_preview(
        width: usize,
        height: usize,
        pixels: *const u8,
        pixels_length: usize,
        area: *mut u8,
        area_length: usize,
    ) -> Verdict;
    pub fn mask_load(
        job: *mut JobRecord,
        table: TableRecord,
        file: *const u8,
        file_length: usize,
        first: *mut u8,
        first_length: usize,
        second: *const u8,
        second_length: usize,
    ) -> Verdict;
    pub fn mask_load_three(
        job: *mut JobRecord,
        table: TableRecord,
        one: *const u8,
        one_length: usize,
        two: *const u8,
        two_length: usize,
        three: *const u8,
        three_length: usize,
        first: *mut u8,
        first_length: usize,
        second: *const u8,
        second_length: usize,
    ) -> Verdict;
    pub fn mask_load_strip(
        job: *mut JobRecord,
        table: TableRecord,
        strip: StripRecord,
        pixels: *const u8,
        pixels_length: usize,
        first: *mut u8,
        first_length: usize,
        second: *const u8,
        second_length: usize,
    ) -> Verdict;
    pub fn mask_pass(
        job: *mut JobRecord,
        first: *mut u8,
        first_length: usize,
        second: *mut u8,
        second_length: usize,
    ) -> Progress;
    pub fn mask_run(
        job: *mut JobRecord,
        first: *mut u8,
        first_length: usize,
        second: *mut u8,
        second_length: usize,
    ) -> Progress;
    pub fn mask_quota_open(quota: QuotaRecord) -> QuotaAnswer;
    pub fn mask_channel_pass(
        job: *mut JobRecord,
        quota: QuotaRecord,
        channel: usize,
        first: *mut u8,
        first_length: usize,
        second: *mut u8,
        second_length: usize,
    ) -> ChannelProgress;
    pub fn mask_channel_run(
        job: *mut JobRecord,
        quota: QuotaRecord,
        channel: usize,
        first: *mut u8,
        first_length: usize,
        second: *mut u8,
        second_length: usize,
    ) -> ChannelProgress;
    pub fn mask_view(
        job: JobRecord,
        first: *const u8,
        first_length: usize,
        second: *const u8,
        second_length: usize,
    ) -> Part;
    pub fn mask_figures(
        job: JobRecord,
        first: *const u8,
        first_length: usize,
        second: *const u8,
        second_length: usize,
    ) -> Figures;
    pub fn mask_collect(
        job: *mut JobRecord,
        first: *const u8,
        first_length: usize,
        second: *const u8,
        second_length: usize,
        out: *mut u8,
        out_length: usize,
    ) -> Length;
}
