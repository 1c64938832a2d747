//! The channels of a quota together (02, T-10: the lanes of a round), each with a book beside its job, and with the same job alone.

use super::book::assert_book;
use super::channels::{open_both, opened};
use super::{report, Side, State, Tally};
use mask_cleaner::{QuotaRecord, Reason, Refusal, MAX_CHANNELS};
use reference::cases::Random;
use reference::model::{Answer, Book, Call, ChannelCall};

/// A channel's job, its book, and a job of the library that gets plain passes in place of the channel's.
#[derive(Clone, Debug)]
pub struct Member {
    pub state: State,
    pub book: Book,
    alone: State,
}

impl Member {
    /// Empty, with areas of random bytes.
    pub fn new(lengths: [usize; 2], random: &mut Random) -> Member {
        let [first, second] = lengths.map(|length| random.bytes(length));
        let state = State::empty(first, second);
        Member {
            alone: state.clone(),
            state,
            book: Book::default(),
        }
    }

    fn assert_alone(&self) {
        assert_book(&self.state, &self.book);
        assert_eq!(
            self.state, self.alone,
            "the job alone, after as many passes"
        );
    }
}

/// What the moves of fleets gave. A run is stopped where 24 comes after passes.
#[derive(Default)]
pub struct Given {
    pub own: Tally,
    pub passes: Tally,
    pub runs: Tally,
    pub stopped: usize,
    pub from_pool: usize,
    pub renewed: usize,
}

impl Given {
    /// A channel's call, noted.
    pub fn channel(&mut self, fleet: &mut Fleet, call: ChannelCall, channel: usize) {
        let pool = fleet.quota.pool;
        let spent: usize = fleet.spent.iter().sum();
        let answer = fleet.channel(call, channel);
        let made = fleet.spent.iter().sum::<usize>() - spent;
        self.stopped += usize::from(answer.is_err() && made > 0);
        self.from_pool += pool - fleet.quota.pool;
        match call {
            ChannelCall::Pass => drop(self.passes.note(answer)),
            ChannelCall::Run => drop(self.runs.note(answer)),
        }
    }

    pub fn report(&self, title: &str) {
        report(&format!(
            "{title}, with {} new rounds, {} runs stopped with passes kept, {} passes from the pool",
            self.renewed, self.stopped, self.from_pool
        ));
        self.own.report("calls of the jobs");
        self.passes.report("passes of channels");
        self.runs.report("runs of channels");
    }
}

/// A quota that was opened, its channels, and what each of them spent since.
pub struct Fleet {
    pub quota: QuotaRecord,
    pub members: Vec<Member>,
    pub spent: [usize; MAX_CHANNELS],
    opened: QuotaRecord,
}

impl Fleet {
    pub fn new(allowance: usize, reserves: [usize; MAX_CHANNELS], members: Vec<Member>) -> Fleet {
        let quota = opened(members.len(), allowance, reserves);
        Fleet {
            quota,
            members,
            spent: [0; MAX_CHANNELS],
            opened: quota,
        }
    }

    /// A plain call on a job.
    pub fn own(&mut self, job: usize, call: &Call, out: &mut [u8]) -> Result<Answer, Refusal> {
        let Member { state, book, alone } = &mut self.members[job];
        let expected = book.enter(call, state.areas());
        let mut other_out = out.to_vec();
        let answer = state.apply_both(call, out);
        assert_eq!(answer, expected, "{call:?}");
        assert_eq!(alone.apply(Side::Library, call, &mut other_out), answer);
        self.members[job].assert_alone();
        answer
    }

    /// A call of a channel on its own job; where there is no such channel, on the first one's.
    pub fn channel(&mut self, call: ChannelCall, channel: usize) -> Result<Answer, Refusal> {
        let (before, spent) = (self.quota, self.spent);
        let known = (1..=self.members.len()).contains(&channel);
        let job = if known { channel - 1 } else { 0 };
        let member = &mut self.members[job];
        let mut by_book = self.quota;
        let expected = member.book.enter_channel(call, &mut by_book, channel);
        let answer = member
            .state
            .apply_channel_both(call, &mut self.quota, channel);
        assert_eq!(answer, expected, "{call:?} {channel} with {before:?}");
        assert_eq!(self.quota, by_book, "{call:?} {channel} with {before:?}");
        let cost = rest(&before) - rest(&self.quota);
        let at_rest = usize::from(cost == 0 && answer.is_ok());
        for _ in 0..cost + at_rest {
            let pass = member.alone.apply(Side::Library, &Call::Pass, &mut []);
            assert!(pass.is_ok());
        }
        member.assert_alone();
        if known {
            self.spent[job] += cost;
            self.assert_usable(call, answer.as_ref().err(), channel, spent[job]);
        } else {
            assert_eq!(answer, Err(Refusal::of(Reason::QuotaRange)));
        }
        self.assert_round();
        answer
    }

    /// A channel that has not spent its reserve can make a pass; a run that 24 stops has used all of it, and the pool.
    fn assert_usable(
        &self,
        call: ChannelCall,
        refusal: Option<&Refusal>,
        channel: usize,
        spent: usize,
    ) {
        let place = channel - 1;
        let reserve = self.quota.reserves[place];
        let loaded = self.members[place].book.entry.is_some();
        if call == ChannelCall::Pass && loaded && spent < reserve {
            assert_eq!(refusal, None, "a pass within the reserve");
        }
        if refusal.is_some_and(|r| r.reason == Reason::AllowanceSpent) {
            assert_eq!(refusal, Some(&Refusal::at(Reason::AllowanceSpent, channel)));
            assert!(self.spent[place] >= reserve);
            assert_eq!((self.quota.left[place], self.quota.pool), (0, 0));
        }
    }

    /// A new round: as the first one was opened.
    pub fn renew(&mut self) {
        assert_eq!(open_both(&mut self.quota), Ok(()));
        assert_eq!(self.quota, self.opened);
        self.spent = [0; MAX_CHANNELS];
        self.assert_round();
    }

    /// Of its reserve a channel has left what it did not spend; what was spent and what is left are the allowance.
    fn assert_round(&self) {
        let QuotaRecord {
            channels,
            allowance,
            reserves,
            left,
            ..
        } = self.quota;
        assert_eq!(
            (channels, allowance),
            (self.opened.channels, self.opened.allowance)
        );
        assert_eq!(reserves, self.opened.reserves);
        for (i, reserve) in reserves.into_iter().enumerate() {
            assert_eq!(left[i], reserve.saturating_sub(self.spent[i]));
        }
        let spent: usize = self.spent.iter().sum();
        assert_eq!(spent + rest(&self.quota), allowance);
    }
}

/// What is left of all reserves and of the pool, in a quota that was opened.
fn rest(quota: &QuotaRecord) -> usize {
    quota.left.iter().sum::<usize>() + quota.pool
}
