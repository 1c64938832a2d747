//! Jobs by library and reference: passes called singly, runs, then all other calls.

use super::{report, State};
use mask_cleaner::library;
use mask_cleaner::{JobRecord, Progress, TableRecord, STAGE_STABLE};
use reference::cases::{cobbles, cross, median, random_table, ring, Random};
use reference::fast::Filter;
use reference::image::{file_of, Image};
use reference::model::{Answer, Call};

pub const CHANGED: Answer = Answer::Progress(Progress::Changed);
pub const STABLE: Answer = Answer::Progress(Progress::Stable);

/// What a test ran.
#[derive(Default)]
pub struct Counts {
    pub jobs: usize,
    pub passes: usize,
    pub changing: usize,
}

impl Counts {
    pub fn report(&self, title: &str) {
        report(&format!(
            "{title}: {} jobs, {} passes, {} of them changing",
            self.jobs, self.passes, self.changing
        ));
    }
}

/// Up to so many pixels a job is done twice, by passes and by a run.
const RUN_PIXELS: usize = 1500;

/// Loads an image and makes passes until it is stable, at most so many, then all other calls; library and reference agree after each.
pub fn compare(
    image: &Image,
    table: &TableRecord,
    most: usize,
    random: &mut Random,
    counts: &mut Counts,
) {
    let load = load_of(image, table);
    let mut state = loaded(image, &load, random);
    counts.jobs += 1;
    for _ in 0..most {
        if !pass(&mut state, counts) {
            break;
        }
    }
    let (stable, files) = (state.clone(), file_of(image).len());
    finish(&mut state, files, random);
    if image.pixels.len() <= RUN_PIXELS {
        assert_eq!(state.apply_both(&load, &mut []), Ok(Answer::Loaded));
        assert_eq!(state.apply_both(&Call::Run, &mut []), Ok(STABLE));
        assert_eq!(state, stable, "a run ends as its passes called singly");
        finish(&mut state, files, random);
    }
}

/// Makes passes until the image is stable, and runs that begin after so many of them as `begins` says. Every run ends as the passes do,
/// whatever the area had that a pass fills. How many passes changed something.
pub fn compare_runs(
    image: &Image,
    table: &TableRecord,
    begins: impl Fn(usize) -> bool,
    random: &mut Random,
    counts: &mut Counts,
) -> usize {
    let mut state = loaded(image, &load_of(image, table), random);
    let mut states = vec![state.clone()];
    counts.jobs += 1;
    while pass(&mut state, counts) {
        states.push(state.clone());
    }
    let passes = states.len() - 1;
    for (begin, mut run) in states.into_iter().enumerate() {
        if begins(begin) {
            scramble(&mut run, random);
            assert_eq!(run.apply_both(&Call::Run, &mut []), Ok(STABLE));
            assert_eq!(run, state, "a run after {begin} passes");
            counts.jobs += 1;
        }
    }
    finish(&mut state, file_of(image).len(), random);
    passes
}

/// A run of the library beside one of the quick version. How many passes changed something.
pub fn compare_with_filter(image: &Image, table: &TableRecord, random: &mut Random) -> usize {
    let Image { width, height, .. } = *image;
    let pixels = width * height;
    let mut record = JobRecord::EMPTY;
    let (mut first, mut second) = (random.bytes(pixels), random.bytes(pixels));
    library::load(&mut record, table, &file_of(image), &mut first, &second).expect("accepted");
    let answer = library::run(&mut record, &mut first, &mut second);
    assert_eq!(answer, Ok(Progress::Stable));
    let (mut clean, mut other) = (image.pixels.clone(), vec![0; pixels]);
    let totals = Filter::new(table, width, height).run(&mut clean, &mut other);
    assert_eq!(totals, (record.passes, record.added, record.removed));
    assert_eq!(
        clean, first,
        "both areas hold the stable image after a quiet pass"
    );
    assert_eq!(clean, second);
    record.passes
}

fn load_of(image: &Image, table: &TableRecord) -> Call {
    Call::Load {
        table: *table,
        file: file_of(image),
    }
}

/// The image loaded to areas of random bytes, some of them longer than the image.
fn loaded(image: &Image, load: &Call, random: &mut Random) -> State {
    let pixels = image.pixels.len();
    let (first, second) = (pixels + random.below(9), pixels + random.below(9));
    let mut state = State::empty(random.bytes(first), random.bytes(second));
    assert_eq!(state.apply_both(load, &mut []), Ok(Answer::Loaded));
    state
}

/// A pass; whether it changed something.
pub fn pass(state: &mut State, counts: &mut Counts) -> bool {
    let answer = state.apply_both(&Call::Pass, &mut []);
    counts.passes += 1;
    if answer == Ok(STABLE) {
        return false;
    }
    assert_eq!(answer, Ok(CHANGED));
    counts.changing += 1;
    true
}

/// Other bytes in the area that does not have the image.
pub fn scramble(state: &mut State, random: &mut Random) {
    let State {
        record,
        first,
        second,
    } = state;
    let other = if record.passes % 2 == 1 {
        first
    } else {
        second
    };
    other[..record.width * record.height].fill_with(|| random.byte());
}

/// View and figures; then collect, of files of so many bytes, which is refused while the image is not stable.
pub fn finish(state: &mut State, files: usize, random: &mut Random) {
    let stable = state.record.stage == STAGE_STABLE;
    for call in [Call::View, Call::Figures] {
        let answer = state.apply_both(&call, &mut []);
        assert!(answer.is_ok());
    }
    let out_length = files + random.below(9);
    let mut out = random.output(out_length);
    let answer = state.apply_both(&Call::Collect { out_length }, &mut out);
    assert_eq!(answer.is_ok(), stable);
}

pub fn some_table(random: &mut Random) -> TableRecord {
    match random.below(9) {
        0 => ring(),
        1 => cross(),
        2 => median(),
        3 => cobbles(),
        4 => random_table(random, 1),
        5 => random_table(random, 4),
        _ => random_table(random, 64),
    }
}
