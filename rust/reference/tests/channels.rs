//! A channel's pass and run (02, T-10: those of a lane): the request's case, every order of refusal, quotas by hand, and the plain calls beside them.

mod common;

use common::channels::{any_quota, available, opened, spent, CALLS, RANGE};
use common::compare::{some_table, CHANGED, STABLE};
use common::fleet::{Fleet, Member};
use common::{reasons, report, Side, State, Tally};
use mask_cleaner::{
    JobRecord, QuotaRecord, Reason, Refusal, MAX_CHANNELS, STAGE_LOADED, STAGE_STABLE,
};
use reference::cases::{
    lasting_tables, median, random_cut, random_figure, random_image, ring, Kind, Random,
};
use reference::image::{file_of, Image};
use reference::model::{Answer, Call, ChannelCall};

/// 01's median dash: three passes and a quiet one.
fn dash() -> Image {
    Image::from_fn(24, 24, |x, y| {
        u8::from((11..=12).contains(&x) && (9..=14).contains(&y))
    })
}

/// Passes, removed and stage of a channel, then what is left of the reserves of two channels, and the pool.
fn numbers(fleet: &Fleet, channel: usize) -> [usize; 6] {
    let record = &fleet.members[channel - 1].state.record;
    let [one, two, ..] = fleet.quota.left;
    let stage = usize::from(record.stage);
    [
        record.passes,
        record.removed,
        stage,
        one,
        two,
        fleet.quota.pool,
    ]
}

/// The request's two lanes: allowance 5, floors 2 and 1.
#[test]
fn two_lanes_of_the_request() {
    let mut random = Random::new(200);
    let members = (0..2).map(|_| Member::new([576, 576], &mut random));
    let mut fleet = Fleet::new(5, [2, 1, 9, 9], members.collect());
    assert_eq!(
        fleet.quota.reserves,
        [2, 1, 0, 0],
        "reserves past the channels"
    );
    let load = Call::Load {
        table: median(),
        file: file_of(&dash()),
    };
    for job in 0..2 {
        assert_eq!(fleet.own(job, &load, &mut []), Ok(Answer::Loaded));
    }
    assert_eq!(numbers(&fleet, 1), [0, 0, 1, 2, 1, 2]);
    assert_eq!(fleet.channel(ChannelCall::Run, 2), Err(spent(2)));
    assert_eq!(numbers(&fleet, 2), [3, 12, 1, 2, 0, 0]);
    assert_eq!(fleet.channel(ChannelCall::Run, 1), Err(spent(1)));
    assert_eq!(numbers(&fleet, 1), [2, 8, 1, 0, 0, 0]);
    fleet.renew();
    assert_eq!(numbers(&fleet, 1), [2, 8, 1, 2, 1, 2]);
    assert_eq!(fleet.channel(ChannelCall::Run, 1), Ok(STABLE));
    assert_eq!(numbers(&fleet, 1), [3, 12, 2, 0, 1, 2]);
    assert_eq!(fleet.channel(ChannelCall::Run, 2), Ok(STABLE));
    assert_eq!(numbers(&fleet, 2), [3, 12, 2, 0, 0, 2]);
    for (call, channel) in [(CALLS[0], 1), (CALLS[0], 2), (CALLS[1], 1), (CALLS[1], 2)] {
        assert_eq!(fleet.channel(call, channel), Ok(STABLE));
        assert_eq!(numbers(&fleet, channel), [3, 12, 2, 0, 0, 2]);
    }
    report("the request's two lanes: 1 case");
}

/// Two passes from the floor, then two from the pool, then none.
#[test]
fn reserve_before_pool() {
    let mut random = Random::new(201);
    let image = random_figure(40, 40, &mut random);
    let mut state = State::holding(&image, lasting_tables()[3], 0, &mut random);
    let mut quota = opened(2, 5, [1, 2, 0, 0]);
    for (left, pool) in [(1, 2), (0, 2), (0, 1), (0, 0)] {
        state.record.stage = STAGE_LOADED;
        let answer = state.apply_channel_both(ChannelCall::Pass, &mut quota, 2);
        assert!(answer.is_ok());
        assert_eq!((quota.left, quota.pool), ([1, left, 0, 0], pool));
    }
    state.record.stage = STAGE_LOADED;
    for call in CALLS {
        let answer = state.apply_channel_both(call, &mut quota, 2);
        assert_eq!(answer, Err(spent(2)), "channel 1 has its reserve still");
    }
    report("reserve before pool: 1 case");
}

const MAX: usize = usize::MAX;
const HALF: usize = 1 << 63;

/// What a call must do, made of the library's plain calls: 25; view gives 14 and 16; 24; a pass, which is paid for unless at rest.
fn by_plain_calls(
    state: &mut State,
    call: ChannelCall,
    quota: &mut QuotaRecord,
    channel: usize,
) -> Result<Answer, Refusal> {
    if quota.channels > MAX_CHANNELS || !(1..=quota.channels).contains(&channel) {
        return Err(RANGE);
    }
    loop {
        state.apply(Side::Library, &Call::View, &mut [])?;
        let loaded = state.record.stage == STAGE_LOADED;
        if loaded && available(quota, channel) == 0 {
            return Err(spent(channel));
        }
        let answer = state.apply(Side::Library, &Call::Pass, &mut [])?;
        let left = &mut quota.left[channel - 1];
        match (loaded, *left) {
            (true, 0) => quota.pool -= 1,
            (true, _) => *left -= 1,
            _ => {}
        }
        if call == ChannelCall::Pass || answer == STABLE {
            return Ok(answer);
        }
    }
}

/// The call by library and reference, and as plain calls do it.
fn apply(
    state: &mut State,
    call: ChannelCall,
    quota: &mut QuotaRecord,
    channel: usize,
) -> Result<Answer, Refusal> {
    let (mut plain, mut plain_quota) = (state.clone(), *quota);
    let expected = by_plain_calls(&mut plain, call, &mut plain_quota, channel);
    let answer = state.apply_channel_both(call, quota, channel);
    assert_eq!(answer, expected, "{call:?} {channel} {plain_quota:?}");
    assert_eq!(*quota, plain_quota);
    assert_eq!(*state, plain);
    answer
}

/// What can be wrong with a call, from the first that is said to the last.
#[derive(Clone, Copy, Debug, PartialEq, Eq, PartialOrd, Ord)]
enum Fault {
    Quota,
    Unsound,
    Empty,
    Spent,
    PassClause,
}

const FAULTS: [Fault; 5] = [
    Fault::Quota,
    Fault::Unsound,
    Fault::Empty,
    Fault::Spent,
    Fault::PassClause,
];

/// The ring's dot, whose first pass changes it, with these faults. An empty record has no full counts; an unsound one that is empty has a
/// field that is not zero.
fn faulty(faults: &[Fault], random: &mut Random) -> (State, QuotaRecord) {
    let has = |fault| faults.contains(&fault);
    let image = Image::from_fn(5, 5, |x, y| u8::from((x, y) == (2, 2)));
    let mut state = State::holding(&image, ring(), 0, random);
    if has(Fault::PassClause) {
        state.set_changed(20, 5, random);
    }
    if has(Fault::Empty) {
        state.record = JobRecord::EMPTY;
    }
    if has(Fault::Unsound) {
        state.record.passes = 26;
    }
    let mut quota = opened(2, 5, [2, 1, 0, 0]);
    if has(Fault::Spent) {
        (quota.left[1], quota.pool) = (0, 0);
    }
    if has(Fault::Quota) {
        quota.channels = *random.choose(&[0, 1, 5, MAX]);
    }
    (state, quota)
}

/// Every set of faults: the first of them is said. Nothing is altered.
#[test]
fn every_order() {
    let mut random = Random::new(204);
    for set in 0..32 {
        let has = |i: &usize| set >> i & 1 == 1;
        let faults: Vec<Fault> = (0..5).filter(has).map(|i| FAULTS[i]).collect();
        for call in CALLS {
            let (mut state, mut quota) = faulty(&faults, &mut random);
            let before = (state.clone(), quota);
            let answer = apply(&mut state, call, &mut quota, 2);
            let expected = faults.first().map(|fault| match fault {
                Fault::Quota => RANGE,
                Fault::Unsound | Fault::PassClause => Refusal::of(Reason::Unsound),
                Fault::Empty => Refusal::of(Reason::NothingLoaded),
                Fault::Spent => spent(2),
            });
            assert_eq!(answer.err(), expected, "{faults:?}");
            if expected.is_some() {
                assert_eq!((state, quota), before, "{faults:?}");
            }
        }
    }
    report("orders of refusal: 32 sets of faults, by pass and run");
}

/// At rest nothing is asked and nothing spent, by a quota with passes left or without; but 25 comes before.
#[test]
fn at_rest() {
    let mut random = Random::new(205);
    let image = Kind::White.image(6, 5, &mut random);
    let mut state = State::holding(&image, ring(), 3, &mut random);
    state.record.stage = STAGE_STABLE;
    let before = state.clone();
    for (left, pool) in [(0, 0), (0, 1), (1, 0), (MAX, MAX)] {
        for call in CALLS {
            let mut quota = QuotaRecord {
                left: [left; MAX_CHANNELS],
                pool,
                ..opened(3, 0, [0; MAX_CHANNELS])
            };
            let handed = quota;
            assert_eq!(apply(&mut state, call, &mut quota, 3), Ok(STABLE));
            assert_eq!(apply(&mut state, call, &mut quota, 4), Err(RANGE));
            assert_eq!((quota, &state), (handed, &before));
        }
    }
    report("calls at rest: 8 cases");
}

/// A sheet that changes no more, but is at stage 1: its pass needs one. Without it, stage 1 stays.
#[test]
fn quiet_pass_needs_a_pass() {
    let mut random = Random::new(206);
    for call in CALLS {
        let image = Kind::Black.image(7, 9, &mut random);
        let mut state = State::holding(&image, median(), 0, &mut random);
        let before = state.clone();
        let mut quota = opened(1, 0, [0; MAX_CHANNELS]);
        assert_eq!(apply(&mut state, call, &mut quota, 1), Err(spent(1)));
        assert_eq!((&state, quota.pool), (&before, 0));
        for from_reserve in [0, 1] {
            let mut state = before.clone();
            let mut quota = opened(1, 2, [from_reserve, 0, 0, 0]);
            for _ in 0..3 {
                assert_eq!(apply(&mut state, call, &mut quota, 1), Ok(STABLE));
                let rest = (quota.left[0], quota.pool);
                assert_eq!(rest, (0, 1), "one pass in all: the others are at rest");
            }
            assert_eq!(state.record.stage, STAGE_STABLE);
        }
    }
    report("quiet passes: 6 cases");
}

/// No channels, five, more than can be; channel 0 and one past the last: 25 before all else, and nothing is altered.
#[test]
fn no_such_channel() {
    let mut random = Random::new(207);
    let image = dash();
    let state = State::holding(&image, median(), 0, &mut random);
    let mut unsound = state.clone();
    unsound.record.added = MAX;
    let states = [state, unsound, State::empty(vec![7; 9], vec![])];
    let (mut cases, mut refused) = (0, 0);
    for channels in [0, 1, 2, 3, 4, 5, 6, HALF, MAX] {
        for channel in [0, 1, 2, 3, 4, 5, 6, HALF, MAX] {
            let exists = channels <= 4 && (1..=channels).contains(&channel);
            for (state, call) in states.iter().flat_map(|s| CALLS.map(|call| (s, call))) {
                let mut after = state.clone();
                let handed = any_quota(channels, &mut random);
                let mut quota = handed;
                let answer = apply(&mut after, call, &mut quota, channel);
                assert_eq!(answer == Err(RANGE), !exists, "{channel} of {channels}");
                if !exists {
                    assert_eq!((&after, quota), (state, handed));
                }
                (cases, refused) = (cases + 1, refused + usize::from(!exists));
            }
        }
    }
    report(&format!(
        "channels of quotas: {cases} cases, {refused} without the channel"
    ));
    assert_eq!(refused, 6 * (81 - 10));
}

/// What is left of reserve and pool before a pass and after it: no sum of them wraps.
const CEILINGS: [([usize; 2], [usize; 2]); 8] = [
    ([HALF, HALF], [HALF - 1, HALF]),
    ([MAX, MAX], [MAX - 1, MAX]),
    ([MAX, 1], [MAX - 1, 1]),
    ([1, MAX], [0, MAX]),
    ([0, MAX], [0, MAX - 1]),
    ([0, HALF], [0, HALF - 1]),
    ([0, 1 << 32], [0, (1 << 32) - 1]),
    ([1 << 32, 0], [(1 << 32) - 1, 0]),
];

/// Quotas made by hand, in which all but the channel's numbers are the greatest or 0.
#[test]
fn numbers_near_the_ceiling() {
    let mut random = Random::new(208);
    for ([left, pool], after) in CEILINGS {
        for (channel, others) in (1..=MAX_CHANNELS).flat_map(|c| [(c, 0), (c, MAX)]) {
            let mut quota = QuotaRecord {
                left: [others; MAX_CHANNELS],
                pool,
                ..QuotaRecord::new(MAX_CHANNELS, others, [others; MAX_CHANNELS])
            };
            quota.left[channel - 1] = left;
            let handed = quota;
            let mut state = State::holding(&dash(), median(), 0, &mut random);
            let answer = apply(&mut state, ChannelCall::Pass, &mut quota, channel);
            assert_eq!(answer, Ok(CHANGED));
            let mut expected = handed;
            (expected.left[channel - 1], expected.pool) = (after[0], after[1]);
            assert_eq!(quota, expected);
            let answer = apply(&mut state, ChannelCall::Run, &mut quota, channel);
            assert_eq!(answer, Ok(STABLE));
            let rest = available(&handed, channel) - available(&quota, channel);
            assert_eq!(rest, 4, "three passes and the quiet one");
        }
    }
    report(&format!(
        "numbers near 2^64: {} cases, each in 8 quotas",
        CEILINGS.len()
    ));
}

/// A record made by hand: of an image or a strip, at any stage, often with counts that leave little room, sometimes unsound.
fn any_state(random: &mut Random) -> State {
    let (width, height) = (1 + random.below(14), 1 + random.below(14));
    let pixels = width * height;
    let (image, table) = if random.percent(50) {
        (random_image(width, height, random), some_table(random))
    } else {
        let table = *random.choose(&lasting_tables());
        (random_figure(width, height, random), table)
    };
    let heights = random_cut(height, random);
    let room = *random.choose(&[0, 1, pixels / 4, pixels, pixels, pixels, pixels]);
    let passes = *random.choose(&[0, 0, 0, 0, 1, pixels - 1, pixels]);
    let mut state = State::holding_strip(&image, &heights, table, passes, random);
    let changed = pixels - room;
    let added = random.below(changed + 1);
    state.set_changed(added, changed - added, random);
    match random.below(12) {
        0 => state.record = JobRecord::EMPTY,
        1 => state.record.stage = 3,
        2 => state.first.truncate(pixels - 1),
        3 => state.record.added = MAX,
        4 | 5 => state.record.stage = STAGE_STABLE,
        _ => {}
    }
    state
}

/// Any record and any two quotas of as many channels: each call is its plain calls, and of two refusals that differ one is 24.
#[test]
fn any_records_and_quotas() {
    let mut random = Random::new(209);
    let mut tally = Tally::default();
    let (mut differ, mut kept) = (0, 0);
    for _ in 0..9000 {
        let state = any_state(&mut random);
        let (mut channels, mut channel) = (4, 1 + random.below(4));
        if random.percent(30) {
            channels = *random.choose(&[0, 1, 2, 3, 5, MAX]);
            channel = *random.choose(&[0, 1, 2, 3, 4, 5, MAX]);
        }
        for call in CALLS {
            let answers = [(); 2].map(|()| {
                let handed = any_quota(channels, &mut random);
                let (mut after, mut quota) = (state.clone(), handed);
                let answer = tally.note(apply(&mut after, call, &mut quota, channel));
                if answer.is_err() && call == ChannelCall::Pass {
                    assert_eq!((&after, quota), (&state, handed));
                }
                kept += usize::from(answer.is_err() && after != state);
                answer.err()
            });
            let is_24 = |r: &Option<Refusal>| *r == Some(spent(channel));
            differ += usize::from(answers[0] != answers[1]);
            assert!(answers[0] == answers[1] || answers.iter().any(is_24));
        }
    }
    tally.report("any records with any quotas");
    report(&format!(
        "  two quotas differ: {differ}, refused runs with passes kept: {kept}"
    ));
    for reason in [reasons(14..=14), reasons(16..=16), reasons(24..=25)].concat() {
        assert!(tally.times(reason) >= 500, "{reason:?}");
    }
    assert!(differ >= 100 && kept >= 100 && tally.accepted >= 1000);
}
