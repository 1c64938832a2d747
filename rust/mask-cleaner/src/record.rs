//! Records and answers: plain data, as `include/mask_cleaner.h` lays it out. Any values may stand in a record.

/// The places for elements in a table record.
pub const MAX_ELEMENTS: usize = 64;

/// The places for persistent elements in a table record.
pub const MAX_RANKS: usize = 4;

/// The largest width and the largest height of an image, and of each part of a strip.
pub const MAX_SIDE: usize = 256;

/// The pixels of the largest single image.
pub const MAX_PIXELS: usize = MAX_SIDE * MAX_SIDE;

/// The most parts of a strip.
pub const MAX_PARTS: usize = 16;

/// The pixels of the largest strip.
pub const MAX_STRIP_PIXELS: usize = MAX_PARTS * MAX_PIXELS;

/// The most channels of a quota.
pub const MAX_CHANNELS: usize = 4;

/// The bytes of the longest table file: the leading 0, both counts, and all elements and persistent elements of four bytes each.
pub const MAX_TABLE_FILE: usize = 3 + 4 * (MAX_ELEMENTS + MAX_RANKS);

/// The bytes of the longest image file: the header `P4`, `256 256`, and 256 rows of 32 bytes.
pub const MAX_IMAGE_FILE: usize = 11 + 32 * MAX_SIDE;

/// A table: the structuring elements and the persistent elements, as masks. The position in row y and column x of the 5 × 5 window, both
/// from 0, has bit 5 × y + x.
#[repr(C)]
#[derive(Clone, Copy, Debug, PartialEq, Eq)]
pub struct TableRecord {
    /// The number of elements.
    pub count: usize,
    /// They rise. Zero past the count.
    pub elements: [u32; MAX_ELEMENTS],
    /// The number of persistent elements; a rank is the number of one of them, from 1.
    pub ranks: usize,
    /// They rise. Zero past the ranks.
    pub persistents: [u32; MAX_RANKS],
}

impl TableRecord {
    /// Every field 0.
    pub const EMPTY: TableRecord = TableRecord {
        count: 0,
        elements: [0; MAX_ELEMENTS],
        ranks: 0,
        persistents: [0; MAX_RANKS],
    };

    /// The record of these masks. Nothing is checked here: lists that are too long for the places leave the record refused by 3 or 18.
    pub fn new(elements: &[u32], persistents: &[u32]) -> TableRecord {
        let mut record = TableRecord {
            count: elements.len(),
            ranks: persistents.len(),
            ..TableRecord::EMPTY
        };
        fill(&mut record.elements, elements);
        fill(&mut record.persistents, persistents);
        record
    }
}

/// Puts as many items at the front as there are places.
fn fill<T: Copy>(places: &mut [T], items: &[T]) {
    for (place, item) in places.iter_mut().zip(items) {
        *place = *item;
    }
}

/// As many items from the front as the count says, or all of them.
pub(crate) fn front<T>(items: &[T], count: usize) -> &[T] {
    items.get(..count).unwrap_or(items)
}

/// A strip: its number of parts, and the width and height of each.
#[repr(C)]
#[derive(Clone, Copy, Debug, PartialEq, Eq)]
pub struct StripRecord {
    /// 1 to 16 images of one width, laid end to end.
    pub parts: usize,
    /// As an argument of a load, what stands past the parts is not looked at; in a job's record it is zero.
    pub widths: [usize; MAX_PARTS],
    /// Likewise.
    pub heights: [usize; MAX_PARTS],
}

impl StripRecord {
    /// Every field 0.
    pub const EMPTY: StripRecord = StripRecord {
        parts: 0,
        widths: [0; MAX_PARTS],
        heights: [0; MAX_PARTS],
    };

    /// Parts of one width. Nothing is checked here: parts beyond the places leave the strip refused by 23.
    pub fn new(width: usize, heights: &[usize]) -> StripRecord {
        StripRecord::of_widths(&vec![width; heights.len()], heights)
    }

    /// Parts of these widths and heights, of each as many as there are heights; likewise.
    pub fn of_widths(widths: &[usize], heights: &[usize]) -> StripRecord {
        let mut record = StripRecord {
            parts: heights.len(),
            ..StripRecord::EMPTY
        };
        fill(&mut record.widths, widths);
        fill(&mut record.heights, heights);
        record
    }
}

/// Of each part, the pixels of its own rows that went from 0 to 1, and from 1 to 0.
#[repr(C)]
#[derive(Clone, Copy, Debug, PartialEq, Eq)]
pub struct PartCounts {
    /// Zero past the parts.
    pub added: [usize; MAX_PARTS],
    /// Likewise.
    pub removed: [usize; MAX_PARTS],
}

impl PartCounts {
    /// Every field 0.
    pub const NONE: PartCounts = PartCounts {
        added: [0; MAX_PARTS],
        removed: [0; MAX_PARTS],
    };
}

/// The stage of a job that holds no image.
pub const STAGE_EMPTY: u8 = 0;
/// The stage after a load, while passes may change pixels.
pub const STAGE_LOADED: u8 = 1;
/// The stage after a pass that changed nothing (at rest).
pub const STAGE_STABLE: u8 = 2;

/// A job. It starts empty; after that only the calls write it.
#[repr(C)]
#[derive(Clone, Copy, Debug, PartialEq, Eq)]
pub struct JobRecord {
    /// One of the three stages.
    pub stage: u8,
    /// Pixels in a row.
    pub width: usize,
    /// Rows, of a strip those of all its parts.
    pub height: usize,
    /// Passes that changed pixels.
    pub passes: usize,
    /// Pixels that went from 0 to 1.
    pub added: usize,
    /// Pixels that went from 1 to 0.
    pub removed: usize,
    /// The table that it was loaded with.
    pub table: TableRecord,
    /// A single image is one part.
    pub strip: StripRecord,
    /// They sum to added and removed.
    pub counts: PartCounts,
}

impl JobRecord {
    /// Every field 0.
    pub const EMPTY: JobRecord = JobRecord {
        stage: STAGE_EMPTY,
        width: 0,
        height: 0,
        passes: 0,
        added: 0,
        removed: 0,
        table: TableRecord::EMPTY,
        strip: StripRecord::EMPTY,
        counts: PartCounts::NONE,
    };
}

/// An allowance of passes that channels share. Channels count from 1.
#[repr(C)]
#[derive(Clone, Copy, Debug, PartialEq, Eq)]
pub struct QuotaRecord {
    /// 1 to 4 jobs.
    pub channels: usize,
    /// Passes for all channels together.
    pub allowance: usize,
    /// Passes for each alone. What stands past the channels is not looked at where a quota is opened, and zero afterwards.
    pub reserves: [usize; MAX_CHANNELS],
    /// What is left of each reserve.
    pub left: [usize; MAX_CHANNELS],
    /// What is left of that which the reserves leave of the allowance.
    pub pool: usize,
}

impl QuotaRecord {
    /// Nothing is checked, and nothing left until it is opened.
    pub fn new(channels: usize, allowance: usize, reserves: [usize; MAX_CHANNELS]) -> QuotaRecord {
        QuotaRecord {
            channels,
            allowance,
            reserves,
            left: [0; MAX_CHANNELS],
            pool: 0,
        }
    }
}

/// What an accepted pass or run says.
#[derive(Clone, Copy, Debug, PartialEq, Eq)]
pub enum Progress {
    /// Pixels changed.
    Changed,
    /// Nothing changed: the image is at rest.
    Stable,
}

/// What accepted figures say.
#[derive(Clone, Copy, Debug, PartialEq, Eq)]
pub struct Figures {
    /// Added less removed.
    pub balance: i64,
    /// Black pixels in thousandths of all: to the nearest whole number, an exact half to the even one.
    pub cover: usize,
}
