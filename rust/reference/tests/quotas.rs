//! Quotas (02, T-10: rounds): what opening one refuses and gives, with numbers up to 2^64; and the types for everyday use.

mod common;

use common::channels::{any_number, any_quota, open_both, spent, RANGE};
use common::{loaded, report, Tally};
use mask_cleaner::{Progress, QuotaRecord, Reason, MAX_CHANNELS};
use mask_cleaner::{Quota, Table};
use reference::cases::{median, Random};
use reference::image::Image;

const MAX: usize = usize::MAX;
const HALF: usize = 1 << 63;
const QUARTER: usize = 1 << 62;

/// Channels, allowance and reserves; the pool where it is opened, and nothing where it is refused.
type Opening = (usize, usize, [usize; MAX_CHANNELS], Option<usize>);

const OPENINGS: [Opening; 25] = [
    (2, 5, [2, 1, 9, 9], Some(2)),
    (2, 5, [3, 3, 0, 0], None),
    (2, 5, [3, 2, 9, 9], Some(0)),
    (0, 5, [0, 0, 0, 0], None),
    (5, 5, [0, 0, 0, 0], None),
    (2, MAX, [HALF, HALF, 0, 0], None),
    // beside them
    (0, 0, [0, 0, 0, 0], None),
    (MAX, 5, [1, 1, 1, 1], None),
    (HALF, 5, [1, 1, 1, 1], None),
    (1, 0, [0, MAX, MAX, MAX], Some(0)),
    (1, 0, [1, 0, 0, 0], None),
    (1, 1, [1, MAX, 0, 0], Some(0)),
    (1, MAX, [MAX, MAX, MAX, MAX], Some(0)),
    (2, MAX, [MAX, 0, 1, 0], Some(0)),
    (2, MAX, [MAX, 1, 0, 0], None),
    (2, MAX, [1, MAX, 0, 0], None),
    (2, MAX, [MAX, MAX, 0, 0], None),
    (2, MAX - 1, [MAX, 0, 0, 0], None),
    (2, MAX, [HALF, HALF - 1, HALF, 0], Some(0)),
    (4, MAX, [QUARTER, QUARTER, QUARTER, QUARTER], None),
    (4, 0, [QUARTER, QUARTER, QUARTER, QUARTER], None),
    (4, MAX, [QUARTER, QUARTER, QUARTER, QUARTER - 1], Some(0)),
    (4, MAX, [MAX, MAX, MAX, MAX], None),
    (3, MAX, [0, 0, 0, MAX], Some(MAX)),
    (4, 10, [1, 2, 3, 4], Some(0)),
];

/// What stood in left and pool is not looked at.
#[test]
fn openings() {
    let mut random = Random::new(202);
    for (channels, allowance, reserves, pool) in OPENINGS {
        for by_hand in [false, true] {
            let mut quota = QuotaRecord::new(channels, allowance, reserves);
            if by_hand {
                quota.left = any_quota(1, &mut random).left;
                quota.pool = any_number(&mut random);
            }
            let answer = open_both(&mut quota);
            let expected = pool.map(|_| ()).ok_or(RANGE);
            assert_eq!(answer, expected, "{quota:?}");
            let Some(pool) = pool else { continue };
            let mut kept = reserves;
            kept[channels..].fill(0);
            assert_eq!((quota.left, quota.pool), (kept, pool));
            assert_eq!(quota.reserves, kept);
            assert_eq!((quota.channels, quota.allowance), (channels, allowance));
        }
    }
    report(&format!("openings: {} cases, each twice", OPENINGS.len()));
}

#[test]
fn random_openings() {
    let mut random = Random::new(203);
    let mut tally = Tally::default();
    for _ in 0..20_000 {
        let channels = *random.choose(&[0, 1, 2, 3, 4, 5, 1 << 32, MAX]);
        let mut quota = any_quota(channels, &mut random);
        let before = quota;
        let most = channels.min(MAX_CHANNELS);
        let sum: u128 = before.reserves[..most].iter().map(|n| *n as u128).sum();
        let accepted = (1..=4).contains(&channels) && sum <= before.allowance as u128;
        assert_eq!(tally.note(open_both(&mut quota)).is_ok(), accepted);
        if accepted {
            let rest: u128 = quota.left.iter().map(|n| *n as u128).sum();
            assert_eq!(rest + quota.pool as u128, quota.allowance as u128);
            let again = quota;
            (quota.left, quota.pool) = (before.left, before.pool);
            assert_eq!(open_both(&mut quota), Ok(()));
            assert_eq!(quota, again, "a new round is as the first one");
        }
    }
    tally.report("quotas opened");
    assert!(tally.accepted >= 1000 && tally.times(Reason::QuotaRange) >= 1000);
}

/// The quota is stored after every call, refused or not.
#[test]
fn everyday_use() {
    let table = Table::from_record(median()).expect("an accepted table");
    let dash = Image::from_fn(24, 24, |x, y| {
        u8::from((11..=12).contains(&x) && (9..=14).contains(&y))
    });
    let mut jobs = [loaded(&table, &dash), loaded(&table, &dash)];
    let mut quota = Quota::open(2, 5, [2, 1, 9, 9]).expect("an accepted quota");
    assert_eq!((quota.allowance(), quota.reserves()), (5, &[2, 1][..]));
    let [one, two] = &mut jobs;
    assert_eq!(one.channel_pass(&mut quota, 1), Ok(Progress::Changed));
    assert_eq!((quota.left(), quota.pool()), (&[1, 1][..], 2));
    assert_eq!(two.channel_run(&mut quota, 2), Err(spent(2)));
    assert_eq!((quota.left(), quota.pool()), (&[1, 0][..], 0));
    assert_eq!((two.record().passes, two.record().removed), (3, 12));
    assert_eq!(two.channel_pass(&mut quota, 2), Err(spent(2)));
    for channel in [0, 3, usize::MAX] {
        assert_eq!(two.channel_run(&mut quota, channel), Err(RANGE));
    }
    assert_eq!(
        two.pass(),
        Ok(Progress::Stable),
        "a plain pass touches no quota"
    );
    assert_eq!((quota.left(), quota.pool()), (&[1, 0][..], 0));
    assert_eq!(quota.renew(), Ok(()));
    assert_eq!(Ok(quota.clone()), Quota::open(2, 5, [2, 1, 0, 0]));
    assert_eq!(one.channel_run(&mut quota, 1), Ok(()));
    assert_eq!((quota.left(), quota.pool()), (&[0, 1][..], 1));
    assert_eq!(two.channel_run(&mut quota, 2), Ok(()), "at rest");
    assert_eq!(quota.left(), [0, 1]);
    assert_eq!(one.collect(), two.collect());
    for (channels, reserves) in [(0, [0; 4]), (5, [0; 4]), (2, [3, 3, 0, 0])] {
        assert_eq!(Quota::open(channels, 5, reserves), Err(RANGE));
    }
    report("everyday use of quotas: 1 case");
}
