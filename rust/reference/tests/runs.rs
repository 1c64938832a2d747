//! Runs of many passes: those that begin after passes called singly, and those that 14's clause on passes stops on the way.

mod common;

use common::compare::{compare_runs, compare_with_filter, Counts, STABLE};
use common::{report, State};
use mask_cleaner::{Reason, Refusal, TableRecord};
use reference::cases::{lasting_tables, random_figure, Random};
use reference::fast::Filter;
use reference::image::Image;
use reference::model::Call;

/// Sizes beside the ends of bands and blocks.
const SIZES: [(usize, usize); 12] = [
    (63, 66),
    (64, 65),
    (65, 64),
    (66, 63),
    (129, 30),
    (30, 129),
    (193, 20),
    (20, 193),
    (256, 14),
    (14, 256),
    (255, 7),
    (7, 255),
];

/// The pixels before and after each pass that changes some, until the image is stable.
fn steps(image: &Image, table: &TableRecord) -> Vec<(Vec<u8>, Vec<u8>)> {
    let mut filter = Filter::new(table, image.width, image.height);
    let (mut from, mut to) = (image.pixels.clone(), image.pixels.clone());
    let mut steps = Vec::new();
    while filter.pass(&from, &mut to) != (0, 0) {
        steps.push((from.clone(), to.clone()));
        std::mem::swap(&mut from, &mut to);
    }
    steps
}

/// How many pixels each pass changes.
fn changes(image: &Image, table: &TableRecord) -> Vec<usize> {
    let differ =
        |(from, to): (Vec<u8>, Vec<u8>)| from.iter().zip(&to).filter(|(a, b)| a != b).count();
    steps(image, table).into_iter().map(differ).collect()
}

/// How many rows a change lies, at most, from the nearest one of the pass before.
fn farthest(image: &Image, table: &TableRecord) -> usize {
    let rows = |(from, to): (Vec<u8>, Vec<u8>)| {
        let rows = from.chunks(image.width).zip(to.chunks(image.width));
        let rows = rows.enumerate().filter(|(_, (a, b))| a != b);
        rows.map(|(row, _)| row).collect::<Vec<usize>>()
    };
    let changed: Vec<Vec<usize>> = steps(image, table).into_iter().map(rows).collect();
    let far = |before: &[usize], row: &usize| before.iter().map(|r| r.abs_diff(*row)).min();
    let passes = changed.windows(2);
    let distances = passes.flat_map(|two| two[1].iter().map(|row| far(&two[0], row)));
    distances.max().flatten().unwrap_or(0)
}

/// Of some tables and images of the size those with the longest run, and what each of its passes changes.
fn lasting(
    (width, height): (usize, usize),
    random: &mut Random,
) -> (TableRecord, Image, Vec<usize>) {
    let tries = (0..20).map(|_| {
        let table = *random.choose(&lasting_tables());
        let image = random_figure(width, height, random);
        let changes = changes(&image, &table);
        (table, image, changes)
    });
    let longest = tries.max_by_key(|(_, _, changes)| changes.len());
    longest.expect("some tries")
}

#[test]
fn runs_after_passes() {
    let mut random = Random::new(120);
    let mut counts = Counts::default();
    let mut longest = 0;
    for size in SIZES {
        for _ in 0..6 {
            let (table, image, changes) = lasting(size, &mut random);
            let some = |n| n < 6 || n % 45 == 0;
            let passes = compare_runs(&image, &table, some, &mut random, &mut counts);
            assert_eq!(passes, changes.len());
            longest = longest.max(passes);
        }
    }
    counts.report("runs after passes");
    report(&format!("  the longest has {longest} passes"));
    assert!(longest >= 12);
}

/// Runs in which a pixel changes six rows, and no fewer, away from all that changed in the pass before: as far as a pass sees.
#[test]
fn changes_six_rows_apart() {
    let mut random = Random::new(122);
    let mut counts = Counts::default();
    let (table, mut far) = (lasting_tables()[3], [0; 7]);
    while far[6] < 30 {
        let (width, height) = (8 + random.below(6), 30 + random.below(50));
        let image = random_figure(width, height, &mut random);
        let rows = farthest(&image, &table);
        if rows >= 4 {
            far[rows] += 1;
            compare_runs(&image, &table, |n| n < 2, &mut random, &mut counts);
        }
    }
    counts.report("changes far apart");
    let [.., four, five, six] = far;
    report(&format!("  by four rows {four}, five {five}, six {six}"));
}

/// 256 × 256 pixels: a run beside the quick version.
#[test]
fn long_runs_on_large_images() {
    let mut random = Random::new(123);
    let (jobs, mut passes, mut longest) = (300, 0, 0);
    for _ in 0..jobs {
        let table = *random.choose(&lasting_tables());
        let image = random_figure(256, 256, &mut random);
        let run = compare_with_filter(&image, &table, &mut random);
        (passes, longest) = (passes + run, longest.max(run));
    }
    report(&format!(
        "long runs on large images: {jobs} jobs, {passes} passes, at most {longest}"
    ));
    assert!(longest >= 12);
}

/// A run that stops after `kept` passes, or ends where `stops` says no; once more, and nothing changes.
fn run(mut state: State, kept: usize, stops: bool) {
    let before = state.record.passes;
    let expected = if stops {
        Err(Refusal::of(Reason::Unsound))
    } else {
        Ok(STABLE)
    };
    assert_eq!(state.apply_both(&Call::Run, &mut []), expected);
    assert_eq!(state.record.passes, before + kept);
    let after = state.clone();
    assert_eq!(state.apply_both(&Call::Run, &mut []), expected);
    assert_eq!(state, after);
}

/// The image as it is after so many passes, with room for so many changes left.
fn with_room(
    image: &Image,
    table: &TableRecord,
    passes: usize,
    room: usize,
    random: &mut Random,
) -> State {
    let mut state = State::holding(image, *table, passes, random);
    let changed = image.pixels.len() - room;
    let added = random.below(changed + 1);
    state.set_changed(added, changed - added, random);
    state
}

/// For every number of passes that a run can make: counts that leave room for just these, for all but one of the changes of the next,
/// and for no more passes.
#[test]
fn runs_stopped_by_the_clause() {
    let mut random = Random::new(121);
    let (mut runs, mut stopped, mut kept_some) = (0, 0, 0);
    for size in SIZES {
        for _ in 0..2 {
            let (table, image, changes) = lasting(size, &mut random);
            let pixels = image.pixels.len();
            let last = changes.len();
            for kept in (0..=last).filter(|n| *n < 5 || n + 2 > last) {
                let stops = kept < last;
                let least: usize = changes[..kept].iter().sum();
                let most = least + changes.get(kept).map_or(0, |next| next - 1);
                for room in [least, most] {
                    let passes = random.below(8);
                    let state = with_room(&image, &table, passes, room, &mut random);
                    run(state, kept, stops);
                }
                let state = with_room(&image, &table, pixels - kept, pixels, &mut random);
                run(state, kept, stops);
                runs += 3;
                stopped += 3 * usize::from(stops);
                kept_some += 3 * usize::from(stops && kept > 0);
            }
        }
    }
    report(&format!(
        "runs that 14's clause on passes may stop: {runs}, stopped {stopped}, {kept_some} of them with passes kept"
    ));
    assert!(kept_some >= 100 && stopped < runs);
}
