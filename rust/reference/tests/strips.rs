//! Strips (02, T-08): what a load refuses and in which order, what each part gains and loses, collect part by part, figures, and 14's clause
//! on passes.

mod common;

use common::compare::{CHANGED, STABLE};
use common::strips::{
    assert_counts, assert_files, cut, in_one_piece, load_of, loaded, present, random_strip,
};
use common::{assert_same, litter, report, Side, State};
use mask_cleaner::{
    Figures, JobRecord, PartCounts, Reason, Refusal, StripRecord, TableRecord, MAX_PARTS, MAX_SIDE,
};
use reference::cases::{lasting_tables, random_figure, ring, Kind, Random};
use reference::fast::Filter;
use reference::image::{file_of, Image};
use reference::model::{Answer, Book, Call};

/// Makes a load by library, reference and book, into areas of such lengths; number and place of its answer, 0 where it is accepted. A
/// refused one alters nothing.
fn load(call: &Call, record: JobRecord, areas: [usize; 2]) -> (u32, usize) {
    let mut state = State::empty(vec![1; areas[0]], vec![8; areas[1]]);
    state.record = record;
    let before = state.clone();
    let answer = state.apply_both(call, &mut []);
    if record == JobRecord::EMPTY {
        assert_eq!(Book::default().enter(call, areas), answer, "{call:?}");
    }
    assert_eq!(answer.is_err(), state == before, "{call:?}");
    answer.map_or_else(|r| (r.reason.number(), r.place), |_| (0, 0))
}

/// The number of parts, their widths and heights, how many bytes, which of them is 2, and the areas' lengths.
type Load = (
    usize,
    &'static [usize],
    &'static [usize],
    usize,
    Option<usize>,
    [usize; 2],
);

const FIT: [usize; 2] = [25, 25];
const TWO: &[usize] = &[3, 2];
const MANY: &[usize] = &[1; 16];
const WIDE: &[usize] = &[5; 16];
const LAST_LOW: &[usize] = &[1, 1, 1, 1, 1, 1, 1, 1, 1, 1, 1, 1, 1, 1, 1, 0];
const LAST_NARROW: &[usize] = &[5, 5, 5, 5, 5, 5, 5, 5, 5, 5, 5, 5, 5, 5, 5, 4];

/// 02's cases, and some beside them: number and place.
const LOADS: [(Load, u32, usize); 33] = [
    ((0, &[5], &[5], 25, None, FIT), 23, 0),
    ((17, WIDE, MANY, 80, None, [80, 80]), 23, 0),
    ((3, &[5, 0, 5], &[1, 2, 300], 25, None, FIT), 10, 2),
    ((3, &[5, 4, 5], &[1, 2, 257], 25, None, FIT), 10, 3),
    ((3, &[5, 4, 6], &[1, 2, 2], 25, None, FIT), 23, 2),
    ((2, &[5, 5], TWO, 24, None, FIT), 11, 0),
    ((2, &[5, 5], TWO, 25, Some(20), FIT), 12, 4),
    ((2, &[5, 5], TWO, 25, None, [24, 24]), 13, 0),
    ((1, &[257], &[5], 25, None, FIT), 10, 1),
    ((2, &[5, 5], TWO, 25, None, FIT), 0, 0),
    // beside them
    ((usize::MAX, WIDE, MANY, 80, None, [80, 80]), 23, 0),
    ((0, &[], &[], 0, None, [0, 0]), 23, 0),
    ((1, &[5], &[0], 0, None, FIT), 10, 1),
    ((1, &[5], &[257], 25, None, FIT), 10, 1),
    ((1, &[0], &[5], 0, None, FIT), 10, 1),
    ((1, &[5], &[5], 25, None, FIT), 0, 0),
    ((2, &[0, 0], TWO, 0, None, FIT), 10, 1),
    ((2, &[5, usize::MAX], TWO, 25, None, FIT), 10, 2),
    ((2, &[5, 5], &[usize::MAX, 6], 25, None, FIT), 10, 1),
    ((2, &[5, 5], &[6, usize::MAX], 25, None, FIT), 10, 2),
    ((16, WIDE, MANY, 80, None, [80, 80]), 0, 0),
    ((16, WIDE, LAST_LOW, 75, None, [80, 80]), 10, 16),
    ((16, LAST_NARROW, MANY, 80, None, [80, 80]), 23, 16),
    ((16, WIDE, MANY, 80, Some(79), [80, 80]), 12, 15),
    ((2, &[5, 5], TWO, 26, None, [26, 26]), 11, 0),
    ((2, &[5, 5], TWO, 0, None, FIT), 11, 0),
    ((2, &[5, 5], TWO, 25, Some(0), FIT), 12, 0),
    ((2, &[5, 5], TWO, 25, Some(14), FIT), 12, 2),
    ((2, &[5, 5], TWO, 25, Some(15), FIT), 12, 3),
    ((2, &[5, 5], TWO, 24, Some(20), [3, 3]), 11, 0),
    ((2, &[5, 5], TWO, 25, Some(7), [3, 3]), 12, 1),
    ((2, &[5, 5], TWO, 25, None, [24, 25]), 13, 0),
    ((2, &[5, 5], TWO, 25, None, [25, 24]), 13, 0),
];

#[test]
fn loads_of_the_request() {
    let mut random = Random::new(140);
    for ((parts, widths, heights, bytes, bad, areas), number, place) in LOADS {
        let mut strip = StripRecord::EMPTY;
        strip.parts = parts;
        strip.widths[..widths.len()].copy_from_slice(widths);
        strip.heights[..heights.len()].copy_from_slice(heights);
        let mut pixels = vec![0; bytes];
        bad.into_iter().for_each(|i| pixels[i] = 2);
        for littered in [false, true] {
            if littered {
                litter(&mut strip, &mut random);
            }
            let call = Call::LoadStrip {
                table: ring(),
                strip,
                pixels: pixels.clone(),
            };
            let answer = load(&call, JobRecord::EMPTY, areas);
            assert_eq!(answer, (number, place), "{call:?}");
        }
    }
    report(&format!("loads of the request: {}", LOADS.len()));
}

/// Number and place of each fault of a load, in the order in which they are refused: an unsound record, one that is loaded, the table, the
/// number of parts, a part's size, a part's width, the count of bytes, a byte, an area.
const FAULTS: [(u32, usize); 9] = [
    (14, 0),
    (15, 0),
    (5, 2),
    (23, 0),
    (10, 2),
    (23, 3),
    (11, 0),
    (12, 1),
    (13, 0),
];

/// A load with these faults.
fn faulty_load(has: impl Fn(usize) -> bool, random: &mut Random) -> (u32, usize) {
    let (mut strip, mut pixels) = (StripRecord::new(5, &[2, 1, 2]), vec![0; 25]);
    let (mut table, mut record, mut areas) = (ring(), JobRecord::EMPTY, [25, 26]);
    if has(8) {
        areas = *random.choose(&[[24, 26], [26, 24], [1, 1]]);
    }
    if has(7) {
        pixels[7] = 2;
    }
    if has(6) {
        pixels.resize(*random.choose(&[24, 26, 8, 1_048_576]), 0);
    }
    if has(5) {
        strip.widths[2] = *random.choose(&[1, 4, 6, 256]);
    }
    if has(4) {
        strip.heights[1] = *random.choose(&[0, 257, usize::MAX]);
    }
    if has(3) {
        strip.parts = *random.choose(&[0, 17, usize::MAX]);
    }
    if has(2) {
        table = TableRecord::new(&[2048, 8192], &[12_288]);
    }
    if has(1) {
        record = reference::job::loaded(&ring(), 1, &[1]);
    }
    if has(0) {
        record.stage = 3;
    }
    let call = Call::LoadStrip {
        table,
        strip,
        pixels,
    };
    load(&call, record, areas)
}

/// Every set of faults: the first of them speaks.
#[test]
fn order_of_refusals() {
    let mut random = Random::new(141);
    let sets = 0..1 << FAULTS.len();
    for faults in sets.clone() {
        let has = |i: usize| faults >> i & 1 == 1;
        let first = (0..FAULTS.len()).find(|i| has(*i));
        let expected = first.map_or((0, 0), |i| FAULTS[i]);
        for _ in 0..4 {
            let answer = faulty_load(has, &mut random);
            assert_eq!(
                answer, expected,
                "faults {faults:09b}, the first at the right"
            );
        }
    }
    report(&format!("sets of faults of a load: {}", sets.len()));
}

/// A whole job: all answers, record and areas at the end, and what is written.
fn job_of(
    strip: StripRecord,
    table: TableRecord,
    image: &Image,
    areas: &[Vec<u8>; 2],
) -> (Vec<Answer>, State, Vec<u8>) {
    let [first, second] = areas.clone();
    let (mut state, mut out) = (State::empty(first, second), vec![7; 400]);
    let load = Call::LoadStrip {
        table,
        strip,
        pixels: image.pixels.clone(),
    };
    let collect = Call::Collect { out_length: 400 };
    let calls = [load, Call::Run, Call::View, Call::Figures, collect];
    let answers = calls.map(|call| state.apply_both(&call, &mut out));
    let answers = answers.map(|answer| answer.expect("an accepted call"));
    (answers.to_vec(), state, out)
}

/// Whatever stands past the parts, all is the same.
#[test]
fn anything_past_the_parts() {
    let mut random = Random::new(142);
    let mut littered = [0; MAX_PARTS];
    while littered[1..].iter().any(|n| *n < 20) {
        let (table, image, heights) = random_strip(9, 30, &mut random);
        let areas = [random.bytes(270), random.bytes(280)];
        let strip = StripRecord::new(image.width, &heights);
        let mut other = strip;
        litter(&mut other, &mut random);
        if other != strip {
            let expected = job_of(strip, table, &image, &areas);
            assert_eq!(job_of(other, table, &image, &areas), expected);
            littered[heights.len()] += 1;
        }
    }
    report(&format!(
        "strips with anything past the parts: of 0, 1 .. 15 parts {littered:?}"
    ));
}

/// 02's case: the black pixel goes, though it lies at the edge of its part.
#[test]
fn a_dot_above_the_seam() {
    let mut random = Random::new(143);
    let image = Image::from_fn(5, 5, |x, y| u8::from((x, y) == (2, 2)));
    let mut state = loaded(&image, &[3, 2], &ring(), &mut random);
    assert_eq!(state.apply_both(&Call::Pass, &mut []), Ok(CHANGED));
    let record = state.record;
    assert_eq!((record.passes, record.added, record.removed), (1, 0, 1));
    let mut counts = PartCounts::NONE;
    counts.removed[0] = 1;
    assert_eq!(record.counts, counts);
    assert_eq!(state.apply_both(&Call::Pass, &mut []), Ok(STABLE));
    assert_eq!(
        state.apply_both(&Call::View, &mut []),
        Ok(Answer::Pixels(vec![0; 25]))
    );
    let figures = Figures {
        balance: -1,
        cover: 0,
    };
    assert_eq!(
        state.apply_both(&Call::Figures, &mut []),
        Ok(Answer::Figures(figures))
    );
    let files = b"P4\n5 3\n\x00\x00\x00P4\n5 2\n\x00\x00".to_vec();
    let collect = Call::Collect { out_length: 0 };
    let short = state.apply_both(&collect, &mut [7; 18]);
    assert_eq!(short, Err(Refusal::of(Reason::AreaShort)));
    let collected = state.apply_both(&collect, &mut [7; 19]);
    assert_eq!(collected, Ok(Answer::File(files)));
    assert_eq!(state.record, JobRecord::EMPTY);
    let alone = Image::new(5, 3, &image.pixels[..15]);
    let mut alone = loaded(&alone, &[3], &ring(), &mut random);
    assert_eq!(
        alone.apply_both(&Call::Pass, &mut []),
        Ok(STABLE),
        "it stays in its part alone"
    );
}

/// Part i has i + 1 specks of the other colour, which go in one pass, and each part says how many were its own.
#[test]
fn every_part_counts_its_own() {
    let numbers: Vec<usize> = (1..=MAX_PARTS).collect();
    for colour in [0, 1] {
        let image = Image::from_fn(4 * MAX_PARTS + 1, 5 * MAX_PARTS, |x, y| {
            let speck = y % 5 == 2 && x % 4 == 2 && x / 4 <= y / 5;
            colour ^ u8::from(speck)
        });
        let mut state = loaded(&image, &[5; MAX_PARTS], &ring(), &mut Random::new(149));
        assert_eq!(state.apply_both(&Call::Run, &mut []), Ok(STABLE));
        let PartCounts { added, removed } = state.record.counts;
        let (told, other) = if colour == 0 {
            (removed, added)
        } else {
            (added, removed)
        };
        assert_eq!((&told[..], other), (&numbers[..], [0; MAX_PARTS]));
        assert_eq!(state.record.passes, 1);
    }
    report("every part counts its own: 2 cases");
}

/// A strip of one part is the image of the same size: the load leaves the same, whatever its form, and so do runs.
#[test]
fn one_part_is_an_image() {
    let mut random = Random::new(150);
    for _ in 0..400 {
        let (table, image, _) = random_strip(40, 40, &mut random);
        let (pixels, file) = (image.pixels.len(), file_of(&image));
        let loads = [
            load_of(&image, &[image.height], &table, &mut random),
            Call::LoadThree {
                table,
                files: [(); 3].map(|()| file.clone()),
            },
            Call::Load { table, file },
        ];
        let areas = (random.bytes(pixels + 2), random.bytes(pixels));
        let states = loads.map(|load| {
            let mut state = State::empty(areas.0.clone(), areas.1.clone());
            assert_eq!(state.apply_both(&load, &mut []), Ok(Answer::Loaded));
            assert_eq!(state.apply_both(&Call::Run, &mut []), Ok(STABLE));
            assert_eq!(state.record, in_one_piece(&state.record));
            state
        });
        assert!(states[0] == states[1] && states[1] == states[2]);
    }
    report("strips of one part: 400 cases");
}

/// What collect wrote, read part by part and loaded as a strip again: nothing changes any more.
#[test]
fn collected_strips_stay() {
    let mut random = Random::new(151);
    let (cases, mut changed) = (400, 0);
    for _ in 0..cases {
        let (table, image, heights) = random_strip(20, 300, &mut random);
        let mut state = loaded(&image, &heights, &table, &mut random);
        assert_eq!(state.apply(Side::Library, &Call::Run, &mut []), Ok(STABLE));
        let clean = Image::new(image.width, image.height, present(&state));
        changed += usize::from(state.record.passes > 0);
        assert_files(&mut state, &mut random);
        let load = load_of(&clean, &heights, &table, &mut random);
        assert_eq!(state.apply_both(&load, &mut []), Ok(Answer::Loaded));
        assert_eq!(state.apply_both(&Call::Run, &mut []), Ok(STABLE));
        let JobRecord { passes, counts, .. } = state.record;
        assert_eq!((passes, counts), (0, PartCounts::NONE));
        assert_eq!(present(&state), clean.pixels);
    }
    report(&format!(
        "collected strips loaded again: {cases}, {changed} were changed before"
    ));
    assert!(changed >= cases / 5);
}

/// The largest strip, in areas that are just long enough, and one of them a byte too short.
#[test]
fn largest_strip() {
    let mut random = Random::new(152);
    let (pixels, heights) = (1_048_576, [MAX_SIDE; MAX_PARTS]);
    let image = Kind::Worn.image(MAX_SIDE, MAX_PARTS * MAX_SIDE, &mut random);
    let load = load_of(&image, &heights, &ring(), &mut random);
    for (first, second) in [(pixels - 1, pixels), (pixels, pixels - 1)] {
        let mut state = State::empty(vec![7; first], vec![8; second]);
        let before = state.clone();
        let answer = state.apply(Side::Library, &load, &mut []);
        assert_eq!(answer, Err(Refusal::of(Reason::AreaShort)));
        assert!(state == before, "nothing is altered");
    }
    let mut state = State::empty(vec![7; pixels], vec![8; pixels]);
    let answer = state.apply(Side::Library, &load, &mut []);
    assert_eq!(answer, Ok(Answer::Loaded));
    let record = reference::job::loaded(&ring(), MAX_SIDE, &heights);
    assert_eq!(state.record, record);
    assert_same("first area", &state.first, &image.pixels, "loaded");
    assert!(state.second.iter().all(|byte| *byte == 8));
    assert_eq!(state.apply(Side::Library, &Call::Run, &mut []), Ok(STABLE));
    assert_counts(&state, &image, &heights);
    assert!(state.record.counts.removed.iter().all(|n| *n > 0));
    assert_eq!(assert_files(&mut state, &mut random), 131_248);
    report("the largest strip: 1 case");
}

/// Cover and balance are those of all parts together, also of more pixels than a single image has.
#[test]
fn figures_of_the_whole_strip() {
    let mut random = Random::new(153);
    let heights = [MAX_SIDE; MAX_PARTS];
    let cases = [
        (0, 0),
        (524, 0),
        (525, 1),
        (65_536, 62),
        (196_608, 188),
        (524_288, 500),
        (1_048_576, 1000),
    ];
    for (black, cover) in cases {
        let image = Image::from_fn(MAX_SIDE, 16 * MAX_SIDE, |x, y| {
            u8::from(256 * y + x < black)
        });
        let mut state = State::holding_strip(&image, &heights, ring(), 1, &mut random);
        state.set_changed(300_000, 700_000, &mut random);
        let answer = state.apply_both(&Call::Figures, &mut []);
        let balance = -400_000;
        assert_eq!(answer, Ok(Answer::Figures(Figures { balance, cover })));
    }
    report(&format!(
        "figures of the whole strip: {} cases",
        cases.len()
    ));
}

/// The changes of each pass of a run.
fn changes_of_run(image: &Image, table: &TableRecord) -> Vec<usize> {
    let mut filter = Filter::new(table, image.width, image.height);
    let (mut from, mut to) = (image.pixels.clone(), image.pixels.clone());
    let mut changes = Vec::new();
    loop {
        let (added, removed) = filter.pass(&from, &mut to);
        if added + removed == 0 {
            return changes;
        }
        changes.push(added + removed);
        std::mem::swap(&mut from, &mut to);
    }
}

/// A made-up record of a strip whose counts leave room for so many changes. The other area has any bytes, and so has what is behind the image
/// in both.
fn with_room(
    image: &Image,
    heights: &[usize],
    table: &TableRecord,
    (passes, room): (usize, usize),
    random: &mut Random,
) -> State {
    let mut state = State::holding_strip(image, heights, *table, passes, random);
    for area in [&mut state.first, &mut state.second] {
        let behind = random.bytes(40);
        area.extend(behind);
    }
    let changed = image.pixels.len() - room;
    let added = random.below(changed + 1);
    state.set_changed(added, changed - added, random);
    state
}

/// A strip that the table changes: a random one, or one that changes in one part alone. With what each pass changes.
fn changing(random: &mut Random) -> (TableRecord, Image, Vec<usize>, Vec<usize>) {
    loop {
        let (table, mut image, heights) = random_strip(12, 300, random);
        let part = random.below(heights.len());
        let top: usize = heights[..part].iter().sum();
        if random.percent(50) {
            let rows = top * image.width..(top + heights[part]) * image.width;
            let kept = image.pixels[rows.clone()].to_vec();
            image.pixels.fill(0);
            image.pixels[rows].copy_from_slice(&kept);
        }
        let changes = changes_of_run(&image, &table);
        if !changes.is_empty() {
            return (table, image, heights, changes);
        }
    }
}

/// A pass or run that 14's clause refuses at once: no byte of record, areas and what is behind the images is altered.
fn assert_unwritten(state: &State, by_both: bool) {
    for call in [Call::Pass, Call::Run] {
        let mut after = state.clone();
        let answer = if by_both {
            after.apply_both(&call, &mut [])
        } else {
            after.apply(Side::Library, &call, &mut [])
        };
        assert_eq!(answer, Err(Refusal::of(Reason::Unsound)), "{state:?}");
        assert_eq!(after.record, state.record);
        assert_same("first area", &after.first, &state.first, &call);
        assert_same("second area", &after.second, &state.second, &call);
    }
}

/// Counts that leave room for none of a pass's changes, for all but one, and for all of them; passes that leave room for none.
#[test]
fn a_pass_without_room_writes_nothing() {
    let mut random = Random::new(154);
    let (cases, mut parts) = (400, [0; MAX_PARTS + 1]);
    for _ in 0..cases {
        let (table, image, heights, changes) = changing(&mut random);
        let (pixels, changed) = (image.pixels.len(), changes[0]);
        let passes = random.below(4).min(pixels - 1);
        for room in [0, random.below(changed), changed - 1] {
            let given = (passes, room);
            let state = with_room(&image, &heights, &table, given, &mut random);
            assert_unwritten(&state, true);
        }
        let given = (pixels, pixels);
        assert_unwritten(
            &with_room(&image, &heights, &table, given, &mut random),
            true,
        );
        let given = (passes, changed);
        let mut state = with_room(&image, &heights, &table, given, &mut random);
        assert_eq!(state.apply_both(&Call::Pass, &mut []), Ok(CHANGED));
        let JobRecord { added, removed, .. } = state.record;
        assert_eq!(added + removed, pixels, "the counts are full");
        parts[heights.len()] += 1;
    }
    report(&format!(
        "passes without room: {cases} strips, of 0, 1 .. parts {parts:?}"
    ));
    assert!(parts[1..].iter().all(|n| *n >= 5));
}

/// The same on strips of 256 × 4096: the changes are in all parts, in the first alone, and in the last alone.
#[test]
fn a_pass_without_room_over_many_pixels() {
    let mut random = Random::new(155);
    let (rows, heights) = (MAX_PARTS * MAX_SIDE, [MAX_SIDE; MAX_PARTS]);
    let noise = Kind::Noise.image(MAX_SIDE, rows, &mut random);
    let speck = |row: usize| Image::from_fn(MAX_SIDE, rows, |x, y| u8::from((x, y) == (100, row)));
    for image in [noise, speck(5), speck(rows - 6)] {
        let changed = changes_of_run(&image, &ring())[0];
        for given in [(0, 0), (1, changed - 1), (image.pixels.len(), changed)] {
            let state = with_room(&image, &heights, &ring(), given, &mut random);
            assert_unwritten(&state, false);
        }
        let mut state = with_room(&image, &heights, &ring(), (5, changed), &mut random);
        let answer = state.apply(Side::Library, &Call::Pass, &mut []);
        assert_eq!((answer, state.record.passes), (Ok(CHANGED), 6));
    }
    report("passes without room over many pixels: 3 strips");
}

/// A run that is refused on the way keeps the passes before: those called singly, and nothing else is written.
#[test]
fn runs_stopped_by_the_clause() {
    let mut random = Random::new(156);
    let (mut stopped, mut several) = (0, 0);
    while stopped < 300 {
        let table = *random.choose(&lasting_tables());
        let (width, rows) = (4 + random.below(12), 20 + random.below(380));
        let image = random_figure(width, rows, &mut random);
        let (heights, changes) = (cut(rows, &mut random), changes_of_run(&image, &table));
        for kept in (1..changes.len()).take(4) {
            let least: usize = changes[..kept].iter().sum();
            let room = least + random.below(changes[kept]);
            let (passes, pixels) = (random.below(5), image.pixels.len());
            for given in [(passes, room), (pixels - kept, pixels)] {
                let mut state = with_room(&image, &heights, &table, given, &mut random);
                let mut singly = state.clone();
                let answer = state.apply_both(&Call::Run, &mut []);
                assert_eq!(answer, Err(Refusal::of(Reason::Unsound)));
                assert_eq!(state.record.passes, given.0 + kept);
                for _ in 0..kept {
                    let answer = singly.apply(Side::Library, &Call::Pass, &mut []);
                    assert_eq!(answer, Ok(CHANGED));
                }
                assert_eq!(state, singly, "a run is its passes called singly");
                assert_unwritten(&state, true);
                stopped += 1;
                several += usize::from(heights.len() > 1);
            }
        }
    }
    report(&format!(
        "runs stopped with passes kept: {stopped}, {several} of them of several parts"
    ));
    assert!(several >= 200);
}
