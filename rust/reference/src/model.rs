//! 01, "Lists of calls": the book beside a list. It sees the calls' arguments and the areas' lengths,
//! never the record or the areas' bytes.

use crate::image::{self, Image};
use crate::pass::{changes, one_pass};
use crate::quota;
use crate::strip::{self, Strip};
use crate::table;
use mask_cleaner::{
    Figures, PartCounts, Progress, QuotaRecord, Reason, Refusal, StripRecord, TableRecord,
};

/// A call of a list, with its arguments beside record and areas.
#[allow(clippy::large_enum_variant)]
#[derive(Clone, Debug)]
pub enum Call {
    Load {
        table: TableRecord,
        file: Vec<u8>,
    },
    LoadThree {
        table: TableRecord,
        files: [Vec<u8>; 3],
    },
    LoadStrip {
        table: TableRecord,
        strip: StripRecord,
        pixels: Vec<u8>,
    },
    Pass,
    Run,
    View,
    Figures,
    Collect {
        out_length: usize,
    },
}

/// A call of a list that is handed a quota, and the channel's number (T-10).
#[derive(Clone, Copy, Debug, PartialEq, Eq)]
pub enum ChannelCall {
    Pass,
    Run,
}

/// What an accepted call says; for collect, what it writes: the file, or the files of a strip.
#[derive(Clone, Debug, PartialEq, Eq)]
pub enum Answer {
    Loaded,
    Progress(Progress),
    Pixels(Vec<u8>),
    Figures(Figures),
    File(Vec<u8>),
}

/// Empty, or a table, a row of images with their parts and perhaps a mark.
#[derive(Clone, Debug, Default)]
pub struct Book {
    pub entry: Option<Entry>,
}

#[derive(Clone, Debug)]
pub struct Entry {
    pub table: TableRecord,
    /// At least one.
    pub images: Vec<Image>,
    /// Of their parts; one where the image is single.
    pub heights: Vec<usize>,
    /// The mark.
    pub stable: bool,
}

impl Book {
    /// Enters a call and gives its answer. A refused call leaves the book alone.
    pub fn enter(&mut self, call: &Call, areas: [usize; 2]) -> Result<Answer, Refusal> {
        match call {
            Call::Load { table, file } => {
                self.load(table, image::parse(file).map(Strip::single), areas)
            }
            Call::LoadThree { table, files } => {
                let files = files.each_ref().map(Vec::as_slice);
                let image = image::parse_three(files);
                self.load(table, image.map(Strip::single), areas)
            }
            Call::LoadStrip {
                table,
                strip,
                pixels,
            } => self.load(table, strip::check(strip, pixels), areas),
            Call::Pass => Ok(Answer::Progress(self.entry_mut()?.pass())),
            Call::Run => Ok(Answer::Progress(self.entry_mut()?.run())),
            Call::View => Ok(Answer::Pixels(self.entry_mut()?.last().pixels.clone())),
            Call::Figures => Ok(Answer::Figures(self.entry_mut()?.figures())),
            Call::Collect { out_length } => self.collect(*out_length),
        }
    }

    /// Enters a channel's call, and gives its answer and the quota afterwards. 25 and 24 follow from the quota. A refused call leaves
    /// book and quota alone, but for a run that 24 stops: its finished passes are in both.
    pub fn enter_channel(
        &mut self,
        call: ChannelCall,
        quota: &mut QuotaRecord,
        channel: usize,
    ) -> Result<Answer, Refusal> {
        quota::check_channel(quota, channel)?;
        let entry = self.entry_mut()?;
        entry.metered(call, quota, channel).map(Answer::Progress)
    }

    fn entry_mut(&mut self) -> Result<&mut Entry, Refusal> {
        self.entry
            .as_mut()
            .ok_or(Refusal::of(Reason::NothingLoaded))
    }

    /// Takes in the image, of one file or of three, or the strip.
    fn load(
        &mut self,
        table: &TableRecord,
        image: Result<Strip, Refusal>,
        areas: [usize; 2],
    ) -> Result<Answer, Refusal> {
        if self.entry.is_some() {
            return Err(Refusal::of(Reason::NotCollected));
        }
        table::check(table)?;
        let Strip { image, heights } = image?;
        if areas.into_iter().any(|length| length < image.pixels.len()) {
            return Err(Refusal::of(Reason::AreaShort));
        }
        self.entry = Some(Entry {
            table: *table,
            images: vec![image],
            heights,
            stable: false,
        });
        Ok(Answer::Loaded)
    }

    fn collect(&mut self, out_length: usize) -> Result<Answer, Refusal> {
        let entry = self.entry_mut()?;
        if !entry.stable {
            return Err(Refusal::of(Reason::NotStable));
        }
        let files = strip::files_of(entry.last(), &entry.heights);
        if out_length < files.len() {
            return Err(Refusal::of(Reason::AreaShort));
        }
        self.entry = None;
        Ok(Answer::File(files))
    }
}

impl Entry {
    pub fn last(&self) -> &Image {
        self.images.last().expect("a row of images is never empty")
    }

    pub fn pixels(&self) -> usize {
        self.last().pixels.len()
    }

    /// The steps from image to next image.
    pub fn steps(&self) -> impl Iterator<Item = (&Image, &Image)> {
        self.images.iter().zip(self.images.iter().skip(1))
    }

    /// Pixels that go from 0 to 1, and from 1 to 0, over all steps.
    pub fn changed(&self) -> (usize, usize) {
        self.steps().fold((0, 0), |(added, removed), (from, to)| {
            let (more, fewer) = changes(from, to);
            (added + more, removed + fewer)
        })
    }

    /// The same of each part, in its own rows.
    pub fn changed_in_parts(&self) -> PartCounts {
        let parts = self.heights.iter().enumerate();
        let part_of_row: Vec<usize> = parts.flat_map(|(part, rows)| vec![part; *rows]).collect();
        let mut counts = PartCounts::NONE;
        for (from, to) in self.steps() {
            for (i, pair) in from.pixels.iter().zip(&to.pixels).enumerate() {
                let part = part_of_row[i / from.width];
                match pair {
                    (0, 1) => counts.added[part] += 1,
                    (1, 0) => counts.removed[part] += 1,
                    _ => {}
                }
            }
        }
        counts
    }

    fn pass(&mut self) -> Progress {
        if self.stable {
            return Progress::Stable;
        }
        let next = one_pass(self.last(), &self.table);
        if next == *self.last() {
            self.stable = true;
            return Progress::Stable;
        }
        self.images.push(next);
        Progress::Changed
    }

    /// Passes until the mark stands, at most pixels + 1.
    fn run(&mut self) -> Progress {
        for _ in 0..=self.pixels() {
            if self.pass() == Progress::Stable {
                return Progress::Stable;
            }
        }
        panic!("no rest after pixels + 1 passes");
    }

    /// The passes that the call needs are made at once where the quota has them. Else a pass makes none, and a run as many as there are.
    fn metered(
        &mut self,
        call: ChannelCall,
        quota: &mut QuotaRecord,
        channel: usize,
    ) -> Result<Progress, Refusal> {
        let mut ahead = self.clone();
        let progress = match call {
            ChannelCall::Pass => ahead.pass(),
            ChannelCall::Run => ahead.run(),
        };
        let needed = self.passes_to(&ahead);
        let available = quota.left[channel - 1].saturating_add(quota.pool);
        pay(quota, channel, needed.min(available));
        if needed <= available {
            *self = ahead;
            return Ok(progress);
        }
        for _ in 0..available {
            self.pass();
        }
        Err(Refusal::at(Reason::AllowanceSpent, channel))
    }

    /// The passes from here to there that a quota pays for: those that join an image, and the one that sets the mark.
    fn passes_to(&self, there: &Entry) -> usize {
        let joined = there.images.len() - self.images.len();
        joined + usize::from(there.stable && !self.stable)
    }

    fn figures(&self) -> Figures {
        let (added, removed) = self.changed();
        Figures {
            balance: added as i64 - removed as i64,
            cover: cover(self.last().black(), self.pixels()),
        }
    }
}

/// So many passes less, as many as can be from the channel's reserve.
fn pay(quota: &mut QuotaRecord, channel: usize, passes: usize) {
    let left = &mut quota.left[channel - 1];
    let from_reserve = passes.min(*left);
    *left -= from_reserve;
    quota.pool -= passes - from_reserve;
}

/// Thousandths: a half is added and the rest cut off. Nothing is left exactly where a half was added to a half.
fn cover(black: usize, pixels: usize) -> usize {
    let sum = 2000 * black + pixels;
    let near = sum / (2 * pixels);
    match sum % (2 * pixels) {
        0 => near & !1,
        _ => near,
    }
}
