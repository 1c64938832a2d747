//! A job with its own record and areas.

use crate::library;
use crate::quota::Quota;
use crate::record::{front, Figures, JobRecord, PartCounts, Progress, StripRecord};
use crate::record::{MAX_IMAGE_FILE, MAX_PIXELS, MAX_STRIP_PIXELS};
use crate::refusal::Refusal;
use crate::table::Table;
use std::fmt;

/// A job with its own record and areas. Only the calls below alter them, so none is refused as unsound.
#[derive(Clone)]
pub struct Job {
    record: JobRecord,
    first: Vec<u8>,
    second: Vec<u8>,
}

impl Job {
    /// An empty job, with room for the largest single image.
    pub fn new() -> Job {
        Job::for_pixels(MAX_PIXELS)
    }

    /// An empty job, with room for so many pixels; a strip has at most [`MAX_STRIP_PIXELS`], and no job needs more.
    pub fn for_pixels(pixels: usize) -> Job {
        let room = pixels.min(MAX_STRIP_PIXELS);
        Job {
            record: JobRecord::EMPTY,
            first: vec![0; room],
            second: vec![0; room],
        }
    }

    /// The job as a record: stage, size, passes, added, removed, table, parts.
    pub fn record(&self) -> &JobRecord {
        &self.record
    }

    /// Loads an image file. Refused by 15, 9, 10, 11, 13.
    pub fn load(&mut self, table: &Table, file: &[u8]) -> Result<(), Refusal> {
        let Job {
            record,
            first,
            second,
        } = self;
        library::load(record, table.record(), file, first, second)
    }

    /// Loads the majority of three images of one size: a pixel is black where at least two have it black. Refused by 15; 9, 10, 11
    /// for one file after the other; 26, 13.
    pub fn load_three(&mut self, table: &Table, files: [&[u8]; 3]) -> Result<(), Refusal> {
        let Job {
            record,
            first,
            second,
        } = self;
        library::load_three(record, table.record(), files, first, second)
    }

    /// Loads a strip, whose parts are cleaned as one image. The pixels are those of all parts, one part after the other.
    /// Refused by 15, 23, 10, 23, 11, 12, 13.
    pub fn load_strip(
        &mut self,
        table: &Table,
        strip: &StripRecord,
        pixels: &[u8],
    ) -> Result<(), Refusal> {
        let Job {
            record,
            first,
            second,
        } = self;
        library::load_strip(record, table.record(), strip, pixels, first, second)
    }

    /// One pass. Refused by 16.
    pub fn pass(&mut self) -> Result<Progress, Refusal> {
        library::pass(&mut self.record, &mut self.first, &mut self.second)
    }

    /// Passes until nothing changes. Refused by 16.
    pub fn run(&mut self) -> Result<(), Refusal> {
        library::run(&mut self.record, &mut self.first, &mut self.second).map(|_| ())
    }

    /// A pass that the quota pays for, from the channel's reserve first. At rest, and where it is refused, it costs nothing.
    /// Refused by 25, 16, 24.
    pub fn channel_pass(&mut self, quota: &mut Quota, channel: usize) -> Result<Progress, Refusal> {
        let Job {
            record,
            first,
            second,
        } = self;
        library::channel_pass(record, &mut quota.0, channel, first, second)
    }

    /// Passes until nothing changes, each paid for by the quota. Where none is left for the next, the finished ones stay.
    /// Refused by 25, 16, 24.
    pub fn channel_run(&mut self, quota: &mut Quota, channel: usize) -> Result<(), Refusal> {
        let Job {
            record,
            first,
            second,
        } = self;
        library::channel_run(record, &mut quota.0, channel, first, second).map(|_| ())
    }

    /// The present image, one byte a pixel. Refused by 16.
    pub fn view(&self) -> Result<&[u8], Refusal> {
        library::view(&self.record, &self.first, &self.second)
    }

    /// Balance and cover of the present image. Refused by 16.
    pub fn figures(&self) -> Result<Figures, Refusal> {
        library::figures(&self.record, &self.first, &self.second)
    }

    /// The height of each part of a strip, of a single image its own; none of an empty job.
    pub fn heights(&self) -> &[usize] {
        let StripRecord { parts, heights, .. } = &self.record.strip;
        front(heights, *parts)
    }

    /// What each part gained, pixels that went from 0 to 1, and lost.
    pub fn part_counts(&self) -> impl Iterator<Item = (usize, usize)> + '_ {
        let PartCounts { added, removed } = &self.record.counts;
        let counts = added.iter().copied().zip(removed.iter().copied());
        counts.take(self.record.strip.parts)
    }

    /// The image file of a stable image; of a strip, the files of its parts one after another. The job is empty afterwards.
    /// Refused by 16, 17.
    pub fn collect(&mut self) -> Result<Vec<u8>, Refusal> {
        let room = self.heights().len().saturating_mul(MAX_IMAGE_FILE);
        let mut files = vec![0; room];
        let length = library::collect(&mut self.record, &self.first, &self.second, &mut files)?;
        files.truncate(length);
        Ok(files)
    }

    /// What [`Job::collect`] gives, as a file for each part.
    pub fn collect_parts(&mut self) -> Result<Vec<Vec<u8>>, Refusal> {
        let lengths = self.file_lengths();
        let files = self.collect()?;
        let mut rest = files.iter().copied();
        let part = |length| rest.by_ref().take(length).collect();
        Ok(lengths.into_iter().map(part).collect())
    }

    /// The bytes of each part's file: header and rows.
    fn file_lengths(&self) -> Vec<usize> {
        let width = self.record.width;
        let length = |height: &usize| {
            let rows = width.div_ceil(8).saturating_mul(*height);
            rows.saturating_add(format!("P4\n{width} {height}\n").len())
        };
        self.heights().iter().map(length).collect()
    }
}

impl Default for Job {
    fn default() -> Job {
        Job::new()
    }
}

/// The counts, without table and pixels.
impl fmt::Debug for Job {
    fn fmt(&self, f: &mut fmt::Formatter<'_>) -> fmt::Result {
        let record = &self.record;
        f.debug_struct("Job")
            .field("stage", &record.stage)
            .field("width", &record.width)
            .field("height", &record.height)
            .field("passes", &record.passes)
            .field("added", &record.added)
            .field("removed", &record.removed)
            .finish_non_exhaustive()
    }
}
