//! T-10: the round of passes that lanes share. A round is a quota, a lane a channel, a floor a reserve.

use mask_cleaner::{QuotaRecord, Reason, Refusal, MAX_CHANNELS};

/// 25 for the number of channels, or for reserves that sum above the allowance; then all of it is left. Reserves past the channels are
/// unread, and nothing stands there afterwards.
pub fn open(quota: &mut QuotaRecord) -> Result<(), Refusal> {
    if !(1..=MAX_CHANNELS).contains(&quota.channels) {
        return Err(Refusal::of(Reason::QuotaRange));
    }
    let mut reserves = [0; MAX_CHANNELS];
    let read = &quota.reserves[..quota.channels];
    reserves[..quota.channels].copy_from_slice(read);
    let sum = read.iter().map(|reserve| *reserve as u128).sum::<u128>();
    if sum > quota.allowance as u128 {
        return Err(Refusal::of(Reason::QuotaRange));
    }
    *quota = QuotaRecord {
        reserves,
        left: reserves,
        pool: quota.allowance - sum as usize,
        ..*quota
    };
    Ok(())
}

/// 25 where a call is handed more channels than there can be, or names one that the quota has not.
pub fn check_channel(quota: &QuotaRecord, channel: usize) -> Result<(), Refusal> {
    let too_many = quota.channels > MAX_CHANNELS;
    if too_many || channel == 0 || channel > quota.channels {
        return Err(Refusal::of(Reason::QuotaRange));
    }
    Ok(())
}

/// 24 where neither the channel's reserve nor the pool has a pass left.
pub fn check_left(quota: &QuotaRecord, channel: usize) -> Result<(), Refusal> {
    if quota.left[channel - 1] == 0 && quota.pool == 0 {
        return Err(Refusal::at(Reason::AllowanceSpent, channel));
    }
    Ok(())
}

/// One pass less, from the channel's reserve first.
pub fn spend(quota: &mut QuotaRecord, channel: usize) {
    let left = &mut quota.left[channel - 1];
    if *left > 0 {
        *left -= 1;
    } else {
        quota.pool -= 1;
    }
}
