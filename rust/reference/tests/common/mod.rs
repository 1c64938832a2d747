//! What the tests share: a loaded job, a job's state under the library or the reference, what lists of calls are made of, and a tally of answers.
#![allow(dead_code)]

use mask_cleaner::library;
use mask_cleaner::{Job, Table};
use mask_cleaner::{
    JobRecord, Reason, Refusal, StripRecord, TableRecord, MAX_ELEMENTS, MAX_PARTS, MAX_RANKS,
    MAX_SIDE,
};
use reference::cases::{random_cut, random_image, random_table, Random};
use reference::image::{file_of, Image};
use reference::model::{Answer, Call};
use std::collections::BTreeMap;
use std::fmt;
use std::io::Write;
use std::ops::RangeInclusive;
use std::slice::ChunksExactMut;

pub mod book;
pub mod channels;
pub mod compare;
pub mod fleet;
pub mod strips;
pub mod tables;

/// Prints a line past the capture of the test runner.
pub fn report(line: &str) {
    writeln!(std::io::stdout(), "    {line}").expect("standard output takes a line");
}

/// The bytes are those that are expected; else the first place where they are not.
pub fn assert_same(name: &str, bytes: &[u8], expected: &[u8], context: impl fmt::Debug) {
    assert_eq!(bytes.len(), expected.len(), "{name}: {context:?}");
    if bytes != expected {
        let place = (0..bytes.len()).find(|i| bytes[*i] != expected[*i]);
        let i = place.expect("a place");
        let (is, must) = (bytes[i], expected[i]);
        panic!("{name}: byte {i} is {is}, not {must}: {context:?}");
    }
}

/// A job of the library with the image loaded.
pub fn loaded(table: &Table, image: &Image) -> Job {
    let mut job = Job::for_pixels(image.pixels.len());
    job.load(table, &file_of(image)).expect("an accepted load");
    job
}

/// A job of the library with the majority of the images loaded.
pub fn loaded_three(table: &Table, images: &[Image; 3]) -> Job {
    let mut job = Job::for_pixels(images[0].pixels.len());
    let files = images.each_ref().map(file_of);
    let loaded = job.load_three(table, slices(&files));
    loaded.expect("an accepted load");
    job
}

/// A job of the library with the image loaded as a strip of parts of these heights.
pub fn loaded_strip(table: &Table, image: &Image, heights: &[usize]) -> Job {
    let mut job = Job::for_pixels(image.pixels.len());
    let strip = StripRecord::new(image.width, heights);
    let loaded = job.load_strip(table, &strip, &image.pixels);
    loaded.expect("an accepted load");
    job
}

pub fn slices(files: &[Vec<u8>; 3]) -> [&[u8]; 3] {
    files.each_ref().map(Vec::as_slice)
}

/// The present image of a job that holds one.
pub fn view(job: &Job) -> &[u8] {
    job.view().expect("an accepted view")
}

/// A job's record and areas.
#[derive(Clone, PartialEq, Eq)]
pub struct State {
    pub record: JobRecord,
    pub first: Vec<u8>,
    pub second: Vec<u8>,
}

/// Bytes, or only how many where they are too many to read.
struct Shown<'a>(&'a [u8]);

impl fmt::Debug for Shown<'_> {
    fn fmt(&self, f: &mut fmt::Formatter<'_>) -> fmt::Result {
        match self.0.len() {
            0..=4096 => write!(f, "{:?}", self.0),
            length => write!(f, "{length} bytes"),
        }
    }
}

impl fmt::Debug for State {
    fn fmt(&self, f: &mut fmt::Formatter<'_>) -> fmt::Result {
        f.debug_struct("State")
            .field("record", &self.record)
            .field("first", &Shown(&self.first))
            .field("second", &Shown(&self.second))
            .finish()
    }
}

#[derive(Clone, Copy, Debug)]
pub enum Side {
    Library,
    Reference,
}

impl State {
    pub fn empty(first: Vec<u8>, second: Vec<u8>) -> State {
        State {
            record: JobRecord::EMPTY,
            first,
            second,
        }
    }

    /// A loaded image after so many passes: in the area that their parity names, a few bytes behind it, and any bytes in the other area.
    pub fn holding(image: &Image, table: TableRecord, passes: usize, random: &mut Random) -> State {
        State::holding_strip(image, &[image.height], table, passes, random)
    }

    /// The same with an image in parts.
    pub fn holding_strip(
        image: &Image,
        heights: &[usize],
        table: TableRecord,
        passes: usize,
        random: &mut Random,
    ) -> State {
        let (mut present, behind) = (image.pixels.clone(), random.below(4));
        present.extend(random.bytes(behind));
        let other = random.below(4) + image.pixels.len();
        let other = random.bytes(other);
        let (first, second) = if passes % 2 == 1 {
            (other, present)
        } else {
            (present, other)
        };
        let record = JobRecord {
            passes,
            ..reference::job::loaded(&table, image.width, heights)
        };
        State {
            record,
            first,
            second,
        }
    }

    /// Sets added and removed, and shares them among the parts.
    pub fn set_changed(&mut self, added: usize, removed: usize, random: &mut Random) {
        let record = &mut self.record;
        (record.added, record.removed) = (added, removed);
        record.counts.added = shares(added, record.strip.parts, random);
        record.counts.removed = shares(removed, record.strip.parts, random);
    }

    pub fn areas(&self) -> [usize; 2] {
        [self.first.len(), self.second.len()]
    }

    /// The call's answer; `out` is lent to collect.
    pub fn apply(&mut self, side: Side, call: &Call, out: &mut [u8]) -> Result<Answer, Refusal> {
        match side {
            Side::Library => self.by_library(call, out),
            Side::Reference => self.by_reference(call, out),
        }
    }

    fn by_library(&mut self, call: &Call, out: &mut [u8]) -> Result<Answer, Refusal> {
        let State {
            record,
            first,
            second,
        } = self;
        match call {
            Call::Load { table, file } => {
                library::load(record, table, file, first, second).map(|()| Answer::Loaded)
            }
            Call::LoadThree { table, files } => {
                library::load_three(record, table, slices(files), first, second)
                    .map(|()| Answer::Loaded)
            }
            Call::LoadStrip {
                table,
                strip,
                pixels,
            } => library::load_strip(record, table, strip, pixels, first, second)
                .map(|()| Answer::Loaded),
            Call::Pass => library::pass(record, first, second).map(Answer::Progress),
            Call::Run => library::run(record, first, second).map(Answer::Progress),
            Call::View => library::view(record, first, second).map(|p| Answer::Pixels(p.to_vec())),
            Call::Figures => library::figures(record, first, second).map(Answer::Figures),
            Call::Collect { .. } => library::collect(record, first, second, out)
                .map(|length| Answer::File(out[..length].to_vec())),
        }
    }

    fn by_reference(&mut self, call: &Call, out: &mut [u8]) -> Result<Answer, Refusal> {
        use reference::job;
        let State {
            record,
            first,
            second,
        } = self;
        match call {
            Call::Load { table, file } => {
                job::load(record, table, file, first, second).map(|()| Answer::Loaded)
            }
            Call::LoadThree { table, files } => {
                job::load_three(record, table, slices(files), first, second)
                    .map(|()| Answer::Loaded)
            }
            Call::LoadStrip {
                table,
                strip,
                pixels,
            } => job::load_strip(record, table, strip, pixels, first, second)
                .map(|()| Answer::Loaded),
            Call::Pass => job::pass(record, first, second).map(Answer::Progress),
            Call::Run => job::run(record, first, second).map(Answer::Progress),
            Call::View => job::view(record, first, second).map(|p| Answer::Pixels(p.to_vec())),
            Call::Figures => job::figures(record, first, second).map(Answer::Figures),
            Call::Collect { .. } => job::collect(record, first, second, out)
                .map(|length| Answer::File(out[..length].to_vec())),
        }
    }

    /// Makes the call by the library and by the reference; answer, record, areas and output must agree.
    pub fn apply_both(&mut self, call: &Call, out: &mut [u8]) -> Result<Answer, Refusal> {
        let before = self.clone();
        let mut other = self.clone();
        let mut other_out = out.to_vec();
        let answer = self.apply(Side::Library, call, out);
        let expected = other.apply(Side::Reference, call, &mut other_out);
        assert_eq!(answer, expected, "{call:?} on {before:?}");
        assert_eq!(self.record, other.record, "{call:?} on {before:?}");
        assert_same("first area", &self.first, &other.first, (call, &before));
        assert_same("second area", &self.second, &other.second, (call, &before));
        assert_same("output", out, &other_out, (call, &before));
        if matches!(call, Call::View) {
            self.assert_same_part();
        }
        answer
    }

    /// Both views show a part of the same area.
    fn assert_same_part(&self) {
        let State {
            record,
            first,
            second,
        } = self;
        let part = library::view(record, first, second).map(<[u8]>::as_ptr);
        let expected = reference::job::view(record, first, second).map(<[u8]>::as_ptr);
        assert_eq!(part, expected);
    }
}

/// Numbers for so many parts that sum to the total, and zeros past them. Often all of it is at one part.
pub fn shares(total: usize, parts: usize, random: &mut Random) -> [usize; MAX_PARTS] {
    let (mut shares, mut left) = ([0; MAX_PARTS], total);
    for share in &mut shares[..parts - 1] {
        *share = match random.below(3) {
            0 => 0,
            1 => left,
            _ => (random.number() % (left as u64).saturating_add(1)) as usize,
        };
        left -= *share;
    }
    shares[parts - 1] = left;
    let turn = random.below(parts);
    shares[..parts].rotate_left(turn);
    shares
}

/// A strip, and the pixel bytes of its parts.
type StripBytes = (StripRecord, Vec<u8>);

/// What a list of calls draws its arguments from: accepted tables, files and strips, and damaged ones.
pub struct Stock {
    tables: Vec<TableRecord>,
    files: Vec<Vec<u8>>,
    /// Accepted ones of one size.
    alike: Vec<Vec<u8>>,
    strips: Vec<StripBytes>,
}

impl Stock {
    /// Images and strips with sides up to the longest.
    pub fn new(random: &mut Random, longest: usize) -> Stock {
        let mut tables: Vec<TableRecord> = (0..3).map(|_| random_table(random, 12)).collect();
        let mut files: Vec<Vec<u8>> = Vec::new();
        for _ in 0..4 {
            let (width, height) = (1 + random.below(longest), 1 + random.below(longest));
            files.push(random_file(width, height, random));
        }
        let (width, height) = (1 + random.below(longest), 1 + random.below(longest));
        let alike = (0..3).map(|_| random_file(width, height, random)).collect();
        let mut table = tables[0];
        for _ in 0..1 + random.below(3) {
            table = damaged_table(table, random);
        }
        tables.push(table);
        files.push(damaged_file(files[0].clone(), random));
        let mut strips: Vec<StripBytes> = (0..3).map(|_| random_strip(longest, random)).collect();
        for _ in 0..2 {
            strips.push(damaged_strip(random.choose(&strips[..3]).clone(), random));
        }
        Stock {
            tables,
            files,
            alike,
            strips,
        }
    }

    pub fn call(&self, random: &mut Random) -> Call {
        match random.below(23) {
            0..=2 => Call::Load {
                table: *random.choose(&self.tables),
                file: random.choose(&self.files).clone(),
            },
            3 | 4 => Call::LoadThree {
                table: *random.choose(&self.tables),
                files: [(); 3].map(|()| self.one_of_three(random)),
            },
            5..=7 => self.load_strip(random),
            8..=14 => Call::Pass,
            15 | 16 => Call::Run,
            17 | 18 => Call::View,
            19 => Call::Figures,
            _ => Call::Collect {
                out_length: *random.choose(&[0, 7, 8, 9, 30, 60, 60, 180, 180]),
            },
        }
    }

    fn load_strip(&self, random: &mut Random) -> Call {
        let (strip, pixels) = random.choose(&self.strips).clone();
        Call::LoadStrip {
            table: *random.choose(&self.tables),
            strip,
            pixels,
        }
    }

    /// A file for a load of three, mostly of the size that they have in common.
    fn one_of_three(&self, random: &mut Random) -> Vec<u8> {
        let files = if random.percent(80) {
            &self.alike
        } else {
            &self.files
        };
        random.choose(files).clone()
    }
}

/// An accepted file, with ones in its unused bits or without.
fn random_file(width: usize, height: usize, random: &mut Random) -> Vec<u8> {
    let mut file = file_of(&random_image(width, height, random));
    if random.percent(50) {
        fill_unused(&mut file, width, height, random);
    }
    file
}

/// An accepted strip, with anything past its parts.
fn random_strip(longest: usize, random: &mut Random) -> StripBytes {
    let (width, rows) = (1 + random.below(longest), 1 + random.below(longest));
    let mut strip = StripRecord::new(width, &random_cut(rows, random));
    litter(&mut strip, random);
    (strip, random_image(width, rows, random).pixels)
}

/// Puts anything past the parts: zeros, sides that a part may have, and others.
pub fn litter(strip: &mut StripRecord, random: &mut Random) {
    let past = strip.parts.min(MAX_PARTS);
    let widths = strip.widths[past..].iter_mut();
    for place in widths.chain(&mut strip.heights[past..]) {
        let side = 1 + random.below(MAX_SIDE);
        *place = *random.choose(&[0, side, 257, usize::MAX]);
    }
}

/// One to three damages, some of which leave it accepted.
fn damaged_strip((mut strip, mut pixels): StripBytes, random: &mut Random) -> StripBytes {
    for _ in 0..1 + random.below(3) {
        let part = random.below(strip.parts.clamp(1, MAX_PARTS));
        let place = random.below(pixels.len() + 1);
        match random.below(8) {
            0 => strip.parts = *random.choose(&[0, 17, 18, usize::MAX]),
            1 => strip.parts = 1 + random.below(MAX_PARTS),
            2 => strip.widths[part] = 1 + random.below(9),
            3 => strip.widths[part] = *random.choose(&[0, 257, usize::MAX]),
            4 => strip.heights[part] = *random.choose(&[0, 257, usize::MAX]),
            5 => pixels.truncate(place),
            6 => pixels.insert(place, 1),
            _ => pixels.iter_mut().skip(place).take(1).for_each(|p| *p += 2),
        }
    }
    (strip, pixels)
}

fn damaged_table(mut table: TableRecord, random: &mut Random) -> TableRecord {
    let lowest = table.elements[0] & table.elements[0].wrapping_neg();
    match random.below(8) {
        0 => table.count = *random.choose(&[0, 65]),
        1 => table.elements[random.below(MAX_ELEMENTS)] ^= 1 << random.below(32),
        2 => table.persistents[0] = 0,
        3 => table.persistents[random.below(MAX_RANKS)] ^= 1 << random.below(25),
        4 => table.ranks = *random.choose(&[0, 5]),
        5 => table.ranks = 1 + random.below(MAX_RANKS),
        6 => table.elements[0] = lowest,
        _ => table.elements[0] = 4096,
    }
    table
}

fn damaged_file(mut file: Vec<u8>, random: &mut Random) -> Vec<u8> {
    let place = random.below(file.len());
    match random.below(4) {
        0 => file.truncate(place),
        1 => file.push(0),
        2 => file[place] ^= 1 << random.below(8),
        _ => file = b"P4\n257 1\n".to_vec(),
    }
    file
}

/// The rows of a file of that size, and how many low bits of a row's last byte stand for no pixel.
fn rows_of(file: &mut [u8], width: usize, height: usize) -> (ChunksExactMut<'_, u8>, usize) {
    let row_bytes = width.div_ceil(8);
    let start = file.len() - row_bytes * height;
    let rows = file[start..].chunks_exact_mut(row_bytes);
    (rows, 8 * row_bytes - width)
}

/// Puts random bits where the file has unused ones, as some cameras do.
pub fn fill_unused(file: &mut [u8], width: usize, height: usize, random: &mut Random) {
    let (rows, unused) = rows_of(file, width, height);
    for row in rows {
        let last = row.len() - 1;
        row[last] ^= random.below(1 << unused) as u8;
    }
}

/// The file with zeros in its unused bits.
pub fn cleared(file: &[u8], width: usize, height: usize) -> Vec<u8> {
    let mut file = file.to_vec();
    let (rows, unused) = rows_of(&mut file, width, height);
    for row in rows {
        let last = row.len() - 1;
        row[last] = row[last] >> unused << unused;
    }
    file
}

/// The reasons whose numbers are in the range.
pub fn reasons(numbers: RangeInclusive<u32>) -> Vec<Reason> {
    let mut reasons = Reason::ALL.to_vec();
    reasons.retain(|reason| numbers.contains(&reason.number()));
    reasons
}

/// How often each answer was given.
#[derive(Default)]
pub struct Tally {
    pub cases: usize,
    pub accepted: usize,
    refused: BTreeMap<Reason, BTreeMap<usize, usize>>,
}

impl Tally {
    /// Counts an answer and hands it on.
    pub fn note<T>(&mut self, answer: Result<T, Refusal>) -> Result<T, Refusal> {
        self.cases += 1;
        match &answer {
            Ok(_) => self.accepted += 1,
            Err(Refusal { reason, place, .. }) => {
                let places = self.refused.entry(*reason).or_default();
                *places.entry(*place).or_default() += 1;
            }
        }
        answer
    }

    /// How many times the reason was given.
    pub fn times(&self, reason: Reason) -> usize {
        self.refused.get(&reason).map_or(0, |p| p.values().sum())
    }

    /// How many times it was given at the place.
    pub fn times_at(&self, reason: Reason, place: usize) -> usize {
        let places = self.refused.get(&reason);
        places.and_then(|p| p.get(&place)).copied().unwrap_or(0)
    }

    /// At how many places the reason was given.
    pub fn places(&self, reason: Reason) -> usize {
        self.refused.get(&reason).map_or(0, BTreeMap::len)
    }

    pub fn report(&self, title: &str) {
        report(&format!(
            "{title}: {} cases, {} accepted",
            self.cases, self.accepted
        ));
        for reason in self.refused.keys() {
            let (times, places) = (self.times(*reason), self.places(*reason));
            let number = reason.number();
            report(&format!(
                "  refused by {number}: {times} times, places: {places}"
            ));
        }
    }
}

/// Refusals that have only one place must be given often, others at many places.
pub fn assert_reached(tally: &Tally, reasons: &[Reason], single: &[Reason]) {
    for reason in reasons {
        assert!(tally.times(*reason) >= 20, "{reason:?} is given too seldom");
        let needed = if single.contains(reason) { 1 } else { 15 };
        assert!(
            tally.places(*reason) >= needed,
            "{reason:?} at too few places"
        );
    }
}
