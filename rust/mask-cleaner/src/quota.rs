//! A quota that the library opened.

use crate::library;
use crate::record::{front, QuotaRecord, MAX_CHANNELS};
use crate::refusal::Refusal;

/// A quota that the library opened: an allowance of passes that up to four jobs share. Only the calls of jobs and [`Quota::renew`]
/// alter it, so a channel can always use its reserve.
#[derive(Clone, Debug, PartialEq, Eq)]
pub struct Quota(pub(crate) QuotaRecord);

impl Quota {
    /// So many channels, counted from 1, share the allowance; each has its reserve. Reserves past the channels are not looked at.
    /// Refused by 25.
    pub fn open(
        channels: usize,
        allowance: usize,
        reserves: [usize; MAX_CHANNELS],
    ) -> Result<Quota, Refusal> {
        let mut quota = Quota(QuotaRecord::new(channels, allowance, reserves));
        quota.renew()?;
        Ok(quota)
    }

    /// Begins anew, with all of the allowance left. The jobs stay as they are. A quota that was opened is not refused.
    pub fn renew(&mut self) -> Result<(), Refusal> {
        library::open_quota(&mut self.0)
    }

    /// The quota as a record.
    pub fn record(&self) -> &QuotaRecord {
        &self.0
    }

    /// Passes for all channels together.
    pub fn allowance(&self) -> usize {
        self.0.allowance
    }

    /// One for each channel.
    pub fn reserves(&self) -> &[usize] {
        front(&self.0.reserves, self.0.channels)
    }

    /// What is left of each reserve.
    pub fn left(&self) -> &[usize] {
        front(&self.0.left, self.0.channels)
    }

    /// What is left of that which the reserves leave of the allowance.
    pub fn pool(&self) -> usize {
        self.0.pool
    }
}
