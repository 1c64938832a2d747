//! Records that a caller made up: library and reference agree on every call, for each clause of 14 and for its clause on passes, and in lists of
//! calls between which others alter record and areas.

mod common;

use common::channels::{any_quota, CALLS};
use common::{reasons, report, shares, State, Stock, Tally};
use mask_cleaner::{
    JobRecord, Progress, Reason, Refusal, StripRecord, TableRecord, MAX_CHANNELS, MAX_ELEMENTS,
    MAX_PARTS, MAX_RANKS, MAX_SIDE, STAGE_LOADED, STAGE_STABLE,
};
use reference::cases::{cobbles, random_cut, random_image, random_table, ring, Kind, Random};
use reference::image::{file_of, Image};
use reference::model::{Answer, Call, ChannelCall};
use reference::pass::{changes, one_pass};

const CHANGED: Answer = Answer::Progress(Progress::Changed);

/// The clauses of 14 that a record and areas can break.
#[derive(Clone, Copy, Debug)]
enum Clause {
    None,
    Stage,
    EmptyWithField,
    Table,
    ShortFirst,
    ShortSecond,
    Pixel,
    Passes,
    Changed,
    ChangedWraps,
    /// The parts of T-08, here and below.
    NoParts,
    TooManyParts,
    SizeOfPart,
    WidthOfPart,
    Width,
    Height,
    HeightsWrap,
    PastWidths,
    PastHeights,
    PastAdded,
    PastRemoved,
    AddedSum,
    AddedWraps,
    RemovedSum,
    RemovedWraps,
    SumsExchanged,
}

const CLAUSES: [Clause; 26] = [
    Clause::None,
    Clause::Stage,
    Clause::EmptyWithField,
    Clause::Table,
    Clause::ShortFirst,
    Clause::ShortSecond,
    Clause::Pixel,
    Clause::Passes,
    Clause::Changed,
    Clause::ChangedWraps,
    Clause::NoParts,
    Clause::TooManyParts,
    Clause::SizeOfPart,
    Clause::WidthOfPart,
    Clause::Width,
    Clause::Height,
    Clause::HeightsWrap,
    Clause::PastWidths,
    Clause::PastHeights,
    Clause::PastAdded,
    Clause::PastRemoved,
    Clause::AddedSum,
    Clause::AddedWraps,
    Clause::RemovedSum,
    Clause::RemovedWraps,
    Clause::SumsExchanged,
];

/// A sound state: an image in the area that the parity of passes names, other bytes in the other area. Half of the images have one part.
fn sound(random: &mut Random) -> State {
    let (width, height) = (1 + random.below(12), 1 + random.below(18));
    let pixels = width * height;
    let image = random_image(width, height, random);
    let heights = if random.percent(50) {
        vec![height]
    } else {
        random_cut(height, random)
    };
    let (passes, added) = (random.below(pixels + 1), random.below(pixels + 1));
    let table = random_table(random, 10);
    let mut state = State::holding_strip(&image, &heights, table, passes, random);
    state.record.stage = *random.choose(&[STAGE_LOADED, STAGE_LOADED, STAGE_STABLE]);
    let removed = random.below(pixels + 1 - added);
    state.set_changed(added, removed, random);
    state
}

/// A sound state that can break the clause: with more parts than one, with fewer or as many as there can be, or with other counts.
fn sound_for(clause: Clause, random: &mut Random) -> State {
    loop {
        let state = sound(random);
        let JobRecord { added, removed, .. } = state.record;
        let parts = state.record.strip.parts;
        let fits = match clause {
            Clause::TooManyParts => parts == MAX_PARTS,
            Clause::WidthOfPart | Clause::HeightsWrap => parts > 1,
            Clause::AddedWraps | Clause::RemovedWraps => parts > 1,
            Clause::PastWidths | Clause::PastHeights => parts < MAX_PARTS,
            Clause::PastAdded | Clause::PastRemoved => parts < MAX_PARTS,
            Clause::SumsExchanged => added != removed,
            _ => true,
        };
        if fits {
            return state;
        }
    }
}

/// Breaks one clause and, as far as that can be, no other.
fn damage(state: &mut State, clause: Clause, random: &mut Random) {
    let State {
        record,
        first,
        second,
    } = state;
    let pixels = record.width * record.height;
    match clause {
        Clause::None => {}
        Clause::Stage => record.stage = 3 + random.below(253) as u8,
        Clause::EmptyWithField => *record = empty_with_field(random),
        Clause::Table => damage_table(&mut record.table, random),
        Clause::ShortFirst => first.truncate(random.below(pixels)),
        Clause::ShortSecond => second.truncate(random.below(pixels)),
        Clause::Pixel => {
            let place = random.below(pixels);
            let present = if record.passes % 2 == 1 {
                second
            } else {
                first
            };
            present[place] = 2 + random.below(254) as u8;
        }
        Clause::Passes => record.passes = more(pixels, random),
        Clause::Changed => {
            let (added, over) = (record.added, pixels - record.added);
            let removed = over + 1 + random.below(9);
            state.set_changed(added, removed, random);
        }
        Clause::ChangedWraps => {
            let most = usize::MAX - random.below(3);
            let other = random.below(pixels + 9);
            let (added, removed) = *random.choose(&[(most, other), (other, most)]);
            state.set_changed(added, removed, random);
        }
        _ => damage_parts(state, clause, random),
    }
}

fn damage_parts(state: &mut State, clause: Clause, random: &mut Random) {
    let record = &mut state.record;
    let JobRecord { width, height, .. } = *record;
    let parts = record.strip.parts;
    let part = random.below(parts);
    match clause {
        Clause::NoParts => {
            *record = JobRecord {
                stage: record.stage,
                table: record.table,
                ..JobRecord::EMPTY
            }
        }
        Clause::TooManyParts => record.strip.parts = *random.choose(&[17, 18, 32, usize::MAX]),
        Clause::SizeOfPart => damage_size_of(state, part, random),
        Clause::WidthOfPart => record.strip.widths[part.max(1)] = another(width, random),
        Clause::Width => {
            record.width = another(width, random);
            fit(state, random);
        }
        Clause::Height => {
            record.height = another(height, random);
            fit(state, random);
        }
        Clause::HeightsWrap => wrap(&mut record.strip.heights[..parts], random),
        Clause::AddedSum => one_more_or_less(&mut record.counts.added[part], random),
        Clause::AddedWraps => wrap(&mut record.counts.added[..parts], random),
        Clause::RemovedSum => one_more_or_less(&mut record.counts.removed[part], random),
        Clause::RemovedWraps => wrap(&mut record.counts.removed[..parts], random),
        Clause::SumsExchanged => {
            std::mem::swap(&mut record.counts.added, &mut record.counts.removed)
        }
        _ => damage_past(state, clause, random),
    }
}

/// A part of a bad size; the record has the width of all parts and the sum of their heights, and the areas fit.
fn damage_size_of(state: &mut State, part: usize, random: &mut Random) {
    let JobRecord {
        width,
        height,
        strip,
        ..
    } = &mut state.record;
    let side = *random.choose(&[0, 257, 258, 300]);
    if random.percent(50) {
        *width = side;
        strip.widths[..strip.parts].fill(side);
    } else {
        *height = *height - strip.heights[part] + side;
        strip.heights[part] = side;
    }
    fit(state, random);
}

/// A side that is not bad, and not the given one.
fn another(side: usize, random: &mut Random) -> usize {
    let other = 1 + random.below(MAX_SIDE - 1);
    let near = if side > 1 { side - 1 } else { side + 1 };
    *random.choose(&[near, if other < side { other } else { other + 1 }])
}

/// Areas that fit the record's size, with nothing but pixels in them, and counts that it allows.
fn fit(state: &mut State, random: &mut Random) {
    let pixels = state.record.width * state.record.height;
    for area in [&mut state.first, &mut state.second] {
        area.resize(pixels + random.below(4), 0);
        area.iter_mut().for_each(|byte| *byte %= 2);
    }
    let JobRecord { added, removed, .. } = state.record;
    let added = added.min(pixels);
    state.record.passes = state.record.passes.min(pixels);
    state.set_changed(added, removed.min(pixels - added), random);
}

/// A place past the parts that is not zero. The record's number is the sum without it or, where that can be, the sum with it.
fn damage_past(state: &mut State, clause: Clause, random: &mut Random) {
    let JobRecord {
        width,
        height,
        added,
        removed,
        strip,
        counts,
        ..
    } = &mut state.record;
    let place = strip.parts + random.below(MAX_PARTS - strip.parts);
    let value = *random.choose(&[1, 2, *width, usize::MAX]);
    let counted = value <= *width * *height - *added - *removed && random.percent(50);
    let (field, sum) = match clause {
        Clause::PastWidths => (&mut strip.widths, None),
        Clause::PastHeights => (&mut strip.heights, Some(height)),
        Clause::PastAdded => (&mut counts.added, Some(added)),
        _ => (&mut counts.removed, Some(removed)),
    };
    field[place] = value;
    if let (true, Some(sum)) = (counted, sum) {
        *sum += value;
    }
    if matches!(clause, Clause::PastHeights) {
        fit(state, random);
    }
}

fn one_more_or_less(place: &mut usize, random: &mut Random) {
    if *place > 0 && random.percent(50) {
        *place -= 1;
    } else {
        *place += 1;
    }
}

/// Numbers of at least two parts that have the same sum only where it wraps.
fn wrap(places: &mut [usize], random: &mut Random) {
    let one = random.below(places.len());
    let other = (one + 1 + random.below(places.len() - 1)) % places.len();
    let moved = *random.choose(&[places[one] + 1, places[one] + 9, 1 << 63]);
    places[one] = places[one].wrapping_sub(moved);
    places[other] = places[other].wrapping_add(moved);
}

/// Only the record's width or height, to anything.
fn damage_size(record: &mut JobRecord, random: &mut Random) {
    let side = *random.choose(&[0, 257, 65_536, 1 << 32, usize::MAX]);
    if random.percent(50) {
        record.width = side;
    } else {
        record.height = side;
    }
}

/// Among the damages are tables that a load refuses by 5 and 7, with a witness: in a record they are 14's like any other.
fn damage_table(table: &mut TableRecord, random: &mut Random) {
    match random.below(8) {
        0 => table.count = *random.choose(&[0, 65, usize::MAX]),
        1 => table.ranks = *random.choose(&[0, 5, usize::MAX]),
        2 => table.persistents[0] = 0,
        3 => table.persistents[random.below(MAX_RANKS)] = u32::MAX,
        4 => table.elements[0] |= 4096,
        5 => *table = TableRecord::new(&[65, 129, 192, 16_777_217], &[12_288]),
        6 => *table = TableRecord::new(&[141_440], &[12_288, 266_240]),
        _ => table.elements[63] = 1,
    }
}

/// A number above the pixels, of the same parity or not.
fn more(pixels: usize, random: &mut Random) -> usize {
    *random.choose(&[pixels + 1, pixels + 2, 65_537, usize::MAX, usize::MAX - 1])
}

/// Stage 0 with one other field that is not zero.
fn empty_with_field(random: &mut Random) -> JobRecord {
    let mut record = JobRecord::EMPTY;
    let value = 1 + random.below(300);
    let part = random.below(MAX_PARTS);
    match random.below(14) {
        0 => record.width = value,
        1 => record.height = value,
        2 => record.passes = value,
        3 => record.added = value,
        4 => record.removed = value,
        5 => record.table.count = value,
        6 => record.table.elements[random.below(MAX_ELEMENTS)] = value as u32,
        7 => record.table.ranks = value,
        8 => record.table.persistents[random.below(MAX_RANKS)] = value as u32,
        9 => record.strip.parts = value,
        10 => record.strip.widths[part] = value,
        11 => record.strip.heights[part] = value,
        12 => record.counts.added[part] = value,
        _ => record.counts.removed[part] = value,
    }
    record
}

/// Each of the ten calls on copies of a state, a channel's with a quota that has the channel.
fn try_all(state: &State, random: &mut Random, tally: &mut Tally) {
    let load = Call::Load {
        table: random_table(random, 3),
        file: file_of(&Kind::Noise.image(3, 3, random)),
    };
    let load_three = Call::LoadThree {
        table: random_table(random, 3),
        files: [(); 3].map(|()| file_of(&Kind::Noise.image(3, 3, random))),
    };
    let load_strip = Call::LoadStrip {
        table: random_table(random, 3),
        strip: StripRecord::new(3, &[1, 2]),
        pixels: Kind::Noise.image(3, 3, random).pixels,
    };
    let collect = Call::Collect { out_length: 60 };
    let calls = [
        load,
        load_three,
        load_strip,
        Call::Pass,
        Call::Run,
        Call::View,
        Call::Figures,
        collect,
    ];
    for call in calls {
        let mut copy = state.clone();
        let length = *random.choose(&[0, 8, 60, 200]);
        let mut out = random.output(length);
        let answer = tally.note(copy.apply_both(&call, &mut out));
        let keeps_passes = matches!(call, Call::Run);
        if answer.is_err() && !keeps_passes {
            assert_eq!(copy, *state, "a refused call alters nothing");
        }
    }
    for call in CALLS {
        let (mut copy, channels) = (state.clone(), 1 + random.below(MAX_CHANNELS));
        let handed = any_quota(channels, random);
        let (mut quota, channel) = (handed, 1 + random.below(channels));
        let answer = tally.note(copy.apply_channel_both(call, &mut quota, channel));
        let keeps_passes = call == ChannelCall::Run;
        if answer.is_err() && !keeps_passes {
            assert_eq!((&copy, quota), (state, handed), "nor its quota");
        }
    }
}

#[test]
fn each_clause() {
    let mut random = Random::new(60);
    for clause in CLAUSES {
        let mut tally = Tally::default();
        for _ in 0..1500 {
            let mut state = sound_for(clause, &mut random);
            damage(&mut state, clause, &mut random);
            try_all(&state, &mut random, &mut tally);
        }
        tally.report(&format!("made-up records, {clause:?}"));
        let unsound = tally.times(Reason::Unsound);
        match clause {
            Clause::None => assert!(tally.accepted > 0 && unsound < tally.cases / 2),
            _ => assert_eq!(unsound, tally.cases, "every call is refused by 14"),
        }
    }
}

#[test]
fn empty_record_with_any_areas() {
    let mut random = Random::new(61);
    let mut tally = Tally::default();
    for _ in 0..600 {
        let (first, second) = (random.below(12), random.below(12));
        let state = State::empty(random.bytes(first), random.bytes(second));
        try_all(&state, &mut random, &mut tally);
    }
    tally.report("empty records with any areas");
    assert_eq!(tally.times(Reason::Unsound), 0);
}

/// An image that the table changes, with the changes of its first two passes.
fn changing(random: &mut Random) -> (State, usize, usize) {
    loop {
        let mut state = sound(random);
        state.record.stage = STAGE_LOADED;
        let State { record, .. } = &state;
        let pixels = record.width * record.height;
        let present = [&state.first, &state.second][record.passes % 2];
        let image = Image::new(record.width, record.height, &present[..pixels]);
        let once = one_pass(&image, &record.table);
        let twice = one_pass(&once, &record.table);
        let (added, removed) = changes(&image, &once);
        let (added_next, removed_next) = changes(&once, &twice);
        if added + removed > 0 {
            return (state, added + removed, added_next + removed_next);
        }
    }
}

#[test]
fn pass_clause() {
    let mut random = Random::new(62);
    let mut tally = Tally::default();
    let (mut refused, mut accepted) = (0, 0);
    for _ in 0..3000 {
        let (mut state, changed, _) = changing(&mut random);
        let pixels = state.record.width * state.record.height;
        if random.percent(50) {
            raise_passes(&mut state, pixels);
        } else {
            state.record.passes %= 2;
        }
        let most = pixels - changed + random.below(3);
        state.set_changed(most.min(pixels), 0, &mut random);
        let mut copy = state.clone();
        let answer = tally.note(copy.apply_both(&Call::Pass, &mut []));
        if answer == Err(Refusal::of(Reason::Unsound)) {
            assert_eq!(copy, state);
            refused += 1;
        } else {
            accepted += 1;
        }
        try_all(&state, &mut random, &mut tally);
    }
    tally.report("records near 14's clause on passes");
    report(&format!(
        "  passes refused by it: {refused}, accepted: {accepted}"
    ));
    assert!(refused >= 100 && accepted >= 100);
}

/// Sets passes to the greatest number of its parity that is at most the pixels.
fn raise_passes(state: &mut State, pixels: usize) {
    let parity = state.record.passes % 2;
    state.record.passes = pixels - (pixels + parity) % 2;
}

#[test]
fn run_keeps_its_passes() {
    let mut random = Random::new(63);
    let mut kept = 0;
    let mut cases = 0;
    while cases < 400 {
        let (mut state, changed, changed_next) = changing(&mut random);
        if changed_next == 0 {
            continue;
        }
        cases += 1;
        let pixels = state.record.width * state.record.height;
        let room = changed + random.below(changed_next);
        state.record.passes %= 2;
        state.set_changed(0, pixels.saturating_sub(room), &mut random);
        let before = state.record.passes;
        let mut singly = state.clone();
        let answer = state.apply_both(&Call::Run, &mut []);
        while singly.apply_both(&Call::Pass, &mut []) == Ok(CHANGED) {}
        assert_eq!(state, singly, "a run is its passes called singly");
        let refused = answer == Err(Refusal::of(Reason::Unsound));
        kept += usize::from(refused && state.record.passes > before);
    }
    report(&format!(
        "runs that meet 14's clause on passes: {cases} cases, {kept} of them with passes kept"
    ));
    assert!(kept >= 100);
}

/// Numbers beside zero, the pixels and powers of two, up to the greatest.
fn near_the_ceilings(pixels: usize) -> Vec<usize> {
    let ceilings = [0, pixels, 1 << 16, 1 << 20, 1 << 32, 1 << 63];
    let near = ceilings.map(|n| [n.wrapping_sub(1), n, n + 1]);
    let far = [
        pixels.wrapping_neg(),
        pixels.wrapping_neg() - 1,
        usize::MAX - 1,
    ];
    [near.concat(), far.to_vec()].concat()
}

/// Widths, heights and how many cases of each.
const SIZES_AND_CASES: [(usize, usize, usize); 6] = [
    (1, 1, 1500),
    (3, 3, 1500),
    (65, 3, 1500),
    (3, 300, 300),
    (256, 256, 40),
    (256, 4096, 4),
];

/// Passes, added and removed, each near a ceiling: where two of them together wrap, too. The images are cut into parts.
#[test]
fn counts_near_the_ceilings() {
    let mut random = Random::new(65);
    let mut tally = Tally::default();
    let (mut wrapping, mut full) = (0, 0);
    for (width, height, cases) in SIZES_AND_CASES {
        let near = near_the_ceilings(width * height);
        for _ in 0..cases {
            let image = Kind::Worn.image(width, height, &mut random);
            let (cut, passes) = (random_cut(height, &mut random), *random.choose(&near));
            let mut state = State::holding_strip(&image, &cut, ring(), passes, &mut random);
            let small = random.percent(50);
            let choices = if small { &near[..6] } else { &near };
            let (added, removed) = (*random.choose(choices), *random.choose(choices));
            state.set_changed(added, removed, &mut random);
            wrapping += usize::from(added.checked_add(removed).is_none());
            full += usize::from(added.checked_add(removed) == Some(width * height));
            try_all(&state, &mut random, &mut tally);
        }
    }
    tally.report("counts near the ceilings");
    report(&format!(
        "  added and removed wrap: {wrapping}, are the pixels: {full}"
    ));
    assert!(wrapping >= 500 && full >= 100 && tally.accepted >= 500);
}

/// Alters the parts, often so that the record stays sound: other cuts, other shares of the counts, more counts.
fn alter_parts(record: &mut JobRecord, random: &mut Random) {
    let JobRecord {
        width,
        height,
        added,
        removed,
        strip,
        counts,
        ..
    } = record;
    let part = random.below(MAX_PARTS);
    match random.below(6) {
        0 | 1 if (1..=MAX_SIDE).contains(height) => {
            *strip = StripRecord::new(*width, &random_cut(*height, random));
            counts.added = shares(*added, strip.parts, random);
            counts.removed = shares(*removed, strip.parts, random);
        }
        2 => {
            *added = added.wrapping_add(1);
            counts.added[0] = counts.added[0].wrapping_add(1);
        }
        3 => strip.parts = random.below(18),
        4 => strip.widths.swap(0, part),
        _ => counts.removed.swap(0, part),
    }
}

/// Alters one field of the record, often to a value that is sound, or a byte of an area, or empties the record.
fn alter(state: &mut State, random: &mut Random) {
    let State {
        record,
        first,
        second,
    } = state;
    let pixels = record.width.saturating_mul(record.height);
    let area = if random.percent(50) { first } else { second };
    let place = random.below(area.len() + 1);
    match random.below(18) {
        0 | 1 => record.stage = *random.choose(&[STAGE_LOADED, STAGE_STABLE]),
        2 => record.stage = random.below(4) as u8,
        3 => record.passes = *random.choose(&[0, 1, pixels, pixels.saturating_add(1)]),
        4 => record.added = *random.choose(&[0, pixels, usize::MAX]),
        5 => record.removed = *random.choose(&[0, pixels / 2, pixels, usize::MAX]),
        6 => std::mem::swap(&mut record.width, &mut record.height),
        7 => damage_size(record, random),
        8 => damage_table(&mut record.table, random),
        9 => record.table = *random.choose(&[TableRecord::EMPTY, ring(), cobbles()]),
        10..=12 => *record = JobRecord::EMPTY,
        13..=16 => alter_parts(record, random),
        _ => area
            .iter_mut()
            .skip(place)
            .take(1)
            .for_each(|byte| *byte = random.byte() % 3),
    }
}

#[test]
fn lists_between_alterations() {
    let mut random = Random::new(64);
    let mut tally = Tally::default();
    let (lists, calls, mut altered) = (20_000, 16, 0);
    for _ in 0..lists {
        let stock = Stock::new(&mut random, 9);
        let room = random.below(90);
        let other = if random.percent(75) {
            room
        } else {
            random.below(90)
        };
        let mut state = State::empty(random.bytes(room), random.bytes(other));
        for _ in 0..calls {
            if random.percent(15) {
                alter(&mut state, &mut random);
                altered += 1;
            }
            let call = stock.call(&mut random);
            let length = random.below(120);
            let mut out = random.output(length);
            let answer = tally.note(state.apply_both(&call, &mut out));
            if !matches!(call, Call::LoadStrip { .. }) {
                let pixel = answer.is_err_and(|refusal| refusal.reason == Reason::PixelValue);
                assert!(!pixel, "12 never comes from a file");
            }
        }
    }
    report(&format!(
        "lists of {calls} calls: {lists}, with {altered} alterations by others"
    ));
    tally.report("calls in such lists");
    let given = [
        reasons(3..=7),
        reasons(9..=18),
        reasons(23..=23),
        reasons(26..=26),
    ];
    for reason in given.concat() {
        assert!(tally.times(reason) >= 100, "{reason:?}");
    }
    assert!(tally.accepted >= tally.cases / 10);
}
