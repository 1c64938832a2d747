//! A channel's calls (02, T-10) by library and reference, and quotas for them.

use super::{assert_same, Side, State};
use mask_cleaner::library;
use mask_cleaner::{QuotaRecord, Reason, Refusal, MAX_CHANNELS};
use reference::cases::Random;
use reference::model::{Answer, ChannelCall};
use reference::{job, quota};

pub const CALLS: [ChannelCall; 2] = [ChannelCall::Pass, ChannelCall::Run];

/// 25.
pub const RANGE: Refusal = Refusal {
    reason: Reason::QuotaRange,
    place: 0,
    witness: 0,
    position: 0,
};

/// 24.
pub fn spent(channel: usize) -> Refusal {
    Refusal::at(Reason::AllowanceSpent, channel)
}

impl State {
    /// The call's answer; the quota is what it hands back.
    pub fn apply_channel(
        &mut self,
        side: Side,
        call: ChannelCall,
        quota: &mut QuotaRecord,
        channel: usize,
    ) -> Result<Answer, Refusal> {
        let State {
            record,
            first,
            second,
        } = self;
        let make = match (side, call) {
            (Side::Library, ChannelCall::Pass) => library::channel_pass,
            (Side::Library, ChannelCall::Run) => library::channel_run,
            (Side::Reference, ChannelCall::Pass) => job::channel_pass,
            (Side::Reference, ChannelCall::Run) => job::channel_run,
        };
        make(record, quota, channel, first, second).map(Answer::Progress)
    }

    /// Makes the call by the library and by the reference; answer, record, areas and quota must agree.
    pub fn apply_channel_both(
        &mut self,
        call: ChannelCall,
        quota: &mut QuotaRecord,
        channel: usize,
    ) -> Result<Answer, Refusal> {
        let context = (call, *quota, channel, self.clone());
        let (mut other, mut other_quota) = (self.clone(), *quota);
        let answer = self.apply_channel(Side::Library, call, quota, channel);
        let expected = other.apply_channel(Side::Reference, call, &mut other_quota, channel);
        assert_eq!(answer, expected, "{context:?}");
        assert_eq!(*quota, other_quota, "{context:?}");
        assert_eq!(self.record, other.record, "{context:?}");
        assert_same("first area", &self.first, &other.first, &context);
        assert_same("second area", &self.second, &other.second, &context);
        answer
    }
}

/// Opens a quota by library and reference, which agree in answer and quota; a refused one is as it was.
pub fn open_both(quota: &mut QuotaRecord) -> Result<(), Refusal> {
    let before = *quota;
    let mut other = *quota;
    let answer = library::open_quota(quota);
    assert_eq!(answer, quota::open(&mut other), "{before:?}");
    assert_eq!(*quota, other, "{before:?}");
    if answer.is_err() {
        assert_eq!(*quota, before, "a refused quota is handed back as it was");
    }
    answer
}

/// An opened quota.
pub fn opened(channels: usize, allowance: usize, reserves: [usize; MAX_CHANNELS]) -> QuotaRecord {
    let mut quota = QuotaRecord::new(channels, allowance, reserves);
    assert_eq!(open_both(&mut quota), Ok(()));
    quota
}

/// Small numbers, and those beside 2^32, 2^63 and 2^64.
pub fn any_number(random: &mut Random) -> usize {
    let small = random.below(6);
    let near: usize = *random.choose(&[1 << 32, 1 << 62, 1 << 63, 0]);
    match random.below(9) {
        0..=2 => 0,
        3..=5 => small,
        6 | 7 => near.wrapping_sub(small),
        _ => random.number() as usize,
    }
}

/// A quota made by hand: of so many channels, with any other numbers.
pub fn any_quota(channels: usize, random: &mut Random) -> QuotaRecord {
    QuotaRecord {
        channels,
        allowance: any_number(random),
        reserves: [(); MAX_CHANNELS].map(|()| any_number(random)),
        left: [(); MAX_CHANNELS].map(|()| any_number(random)),
        pool: any_number(random),
    }
}

/// The passes that a channel of the quota may still make.
pub fn available(quota: &QuotaRecord, channel: usize) -> u128 {
    quota.left[channel - 1] as u128 + quota.pool as u128
}
