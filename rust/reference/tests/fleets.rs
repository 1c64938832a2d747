//! Fleets (02, T-10: the lanes of a round together): runs that 24 stops after any number of passes, strips in channels, and random calls on up to four
//! jobs and their quota, with a book beside each and the same job alone.

mod common;

use common::channels::{spent, CALLS};
use common::compare::{CHANGED, STABLE};
use common::fleet::{Fleet, Given, Member};
use common::strips::{assert_counts, assert_files, cut, load_of, loaded, random_strip};
use common::{report, Side, State, Stock};
use mask_cleaner::{QuotaRecord, Reason, TableRecord, MAX_CHANNELS, STAGE_EMPTY};
use reference::cases::{lasting_tables, random_cut, random_figure, Random};
use reference::image::{file_of, Image};
use reference::model::{Call, ChannelCall};

/// A quota that has so many passes for the channel, some of them in its reserve, and any in those of others.
fn with_passes(passes: usize, channel: usize, random: &mut Random) -> QuotaRecord {
    let mut quota = QuotaRecord::new(MAX_CHANNELS, 0, [0; MAX_CHANNELS]);
    quota.left = [(); MAX_CHANNELS].map(|()| random.below(9));
    quota.left[channel - 1] = random.below(passes + 1);
    quota.pool = passes - quota.left[channel - 1];
    quota
}

/// Runs of an image or strip with no pass left, with one, and so on, until they have all that they need; each is continued in a new round. How
/// many were stopped.
fn stop_everywhere(
    image: &Image,
    heights: &[usize],
    table: &TableRecord,
    random: &mut Random,
) -> usize {
    let mut singly = loaded(image, heights, table, random);
    let start = singly.clone();
    let mut stopped = 0;
    loop {
        let channel = 1 + random.below(MAX_CHANNELS);
        let mut quota = with_passes(stopped, channel, random);
        let others = quota;
        let mut state = start.clone();
        let answer = state.apply_channel_both(ChannelCall::Run, &mut quota, channel);
        assert_eq!(answer.err(), Some(spent(channel)));
        assert_eq!(state, singly, "as many passes called singly");
        assert_counts(&state, image, heights);
        let mut expected = others;
        (expected.left[channel - 1], expected.pool) = (0, 0);
        assert_eq!(
            quota, expected,
            "nothing is left, and the others keep theirs"
        );
        stopped += 1;
        if singly.apply(Side::Library, &Call::Pass, &mut []) != Ok(CHANGED) {
            break;
        }
    }
    let channel = 1 + random.below(MAX_CHANNELS);
    let mut quota = with_passes(stopped + random.below(2), channel, random);
    let mut state = start;
    let pool = quota.pool + quota.left[channel - 1] - stopped;
    let answer = state.apply_channel_both(ChannelCall::Run, &mut quota, channel);
    assert_eq!(answer, Ok(STABLE), "the passes, and the quiet one");
    assert_eq!(quota.pool + quota.left[channel - 1], pool);
    assert_eq!(state, singly);
    stopped
}

#[test]
fn stopped_after_any_number_of_passes() {
    let mut random = Random::new(210);
    let (images, mut stopped, mut longest) = (150, 0, 0);
    for _ in 0..images {
        let table = *random.choose(&lasting_tables());
        let (width, height) = (4 + random.below(40), 4 + random.below(40));
        let image = random_figure(width, height, &mut random);
        let stops = stop_everywhere(&image, &[height], &table, &mut random);
        (stopped, longest) = (stopped + stops, longest.max(stops));
    }
    report(&format!(
        "runs stopped by 24: {stopped} of {images} images, at most {longest} of one"
    ));
    assert!(stopped >= 300 && longest >= 6);
}

/// Strips, cut at the ends of blocks of rows too: the parts count what their rows gained and lost, also where 24 stops a run.
#[test]
fn strips_in_channels() {
    let mut random = Random::new(211);
    let (strips, mut stopped, mut several) = (120, 0, 0);
    for i in 0..strips {
        let (table, image, heights) = if i % 2 == 0 {
            random_strip(12, 60, &mut random)
        } else {
            let (width, rows) = (4 + random.below(12), 20 + random.below(280));
            let image = random_figure(width, rows, &mut random);
            (
                *random.choose(&lasting_tables()),
                image,
                cut(rows, &mut random),
            )
        };
        stopped += stop_everywhere(&image, &heights, &table, &mut random);
        several += usize::from(heights.len() > 1);
        let mut state = loaded(&image, &heights, &table, &mut random);
        let mut quota = with_passes(image.pixels.len() + 1, 3, &mut random);
        assert_eq!(
            state.apply_channel_both(ChannelCall::Run, &mut quota, 3),
            Ok(STABLE)
        );
        assert_files(&mut state, &mut random);
    }
    report(&format!(
        "strips in channels: {strips}, {several} of several parts, {stopped} runs stopped"
    ));
    assert!(several >= 60 && stopped >= 150);
}

/// A fleet of one to four channels with small reserves, any numbers past the channels, and a small pool.
fn random_fleet(pixels: usize, random: &mut Random) -> Fleet {
    let channels = 1 + random.below(MAX_CHANNELS);
    let mut reserves = [(); MAX_CHANNELS].map(|()| *random.choose(&[0, 0, 1, 2, 3, 5]));
    let allowance = reserves[..channels].iter().sum::<usize>() + *random.choose(&[0, 0, 1, 2, 4]);
    reserves[channels..].fill(*random.choose(&[0, 1, usize::MAX]));
    let members = (0..channels).map(|_| {
        let least = if random.percent(10) { 0 } else { pixels };
        let lengths = [(); 2].map(|()| least + random.below(pixels));
        Member::new(lengths, random)
    });
    Fleet::new(allowance, reserves, members.collect())
}

/// What a job needs to go on: a load of an image or strip that takes some passes, or a collect.
fn next_call(state: &State, longest: usize, random: &mut Random) -> Call {
    if state.record.stage != STAGE_EMPTY {
        return Call::Collect {
            out_length: 16 * (11 + longest * longest),
        };
    }
    let (width, height) = (1 + random.below(longest), 1 + random.below(longest));
    let image = random_figure(width, height, random);
    let table = *random.choose(&lasting_tables());
    if random.percent(50) {
        let file = file_of(&image);
        return Call::Load { table, file };
    }
    load_of(&image, &random_cut(height, random), &table, random)
}

/// One move: a channel's call, mostly of a channel that there is, a new round, or any call of a job.
fn random_move(
    fleet: &mut Fleet,
    (stock, longest): (&Stock, usize),
    random: &mut Random,
    given: &mut Given,
) {
    let channels = fleet.members.len();
    match random.below(100) {
        0..=49 => {
            let call = *random.choose(&CALLS);
            let channel = if random.percent(95) {
                1 + random.below(channels)
            } else {
                *random.choose(&[0, channels + 1, 5, usize::MAX])
            };
            given.channel(fleet, call, channel);
        }
        50..=52 => {
            fleet.renew();
            given.renewed += 1;
        }
        _ => {
            let job = random.below(channels);
            let call = if random.percent(50) {
                next_call(&fleet.members[job].state, longest, random)
            } else {
                stock.call(random)
            };
            let out_length = match call {
                Call::Collect { out_length } => out_length,
                _ => 0,
            };
            let mut out = random.output(out_length);
            let answer = fleet.own(job, &call, &mut out);
            drop(given.own.note(answer));
        }
    }
}

fn play(fleets: usize, longest: usize, most: usize, random: &mut Random) -> Given {
    let mut given = Given::default();
    for _ in 0..fleets {
        let stock = Stock::new(random, longest);
        let mut fleet = random_fleet(longest * longest, random);
        for _ in 0..1 + random.below(most) {
            random_move(&mut fleet, (&stock, longest), random, &mut given);
        }
    }
    given
}

#[test]
fn short_fleets() {
    let fleets = 6000;
    let given = play(fleets, 8, 60, &mut Random::new(212));
    given.report(&format!("fleets: {fleets}"));
    for tally in [&given.passes, &given.runs] {
        for channel in 1..=MAX_CHANNELS {
            assert!(tally.times_at(Reason::AllowanceSpent, channel) >= 200);
        }
        assert!(tally.times(Reason::QuotaRange) >= 500);
        assert!(tally.times(Reason::NothingLoaded) >= 500);
        assert_eq!(
            tally.times(Reason::Unsound),
            0,
            "no call of a list answers 14"
        );
        assert!(tally.accepted >= 5000);
    }
    assert!(given.stopped >= 200 && given.from_pool >= 1000 && given.renewed >= 1000);
}

#[test]
fn long_fleets() {
    let fleets = 60;
    let given = play(fleets, 16, 600, &mut Random::new(213));
    given.report(&format!("long fleets: {fleets}"));
    assert_eq!(given.own.times(Reason::Unsound), 0);
    assert!(given.stopped >= 20 && given.renewed >= 200);
}
