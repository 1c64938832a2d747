//! What the book says of record and areas after a list of calls.

use super::State;
use mask_cleaner::{JobRecord, StripRecord, STAGE_STABLE};
use reference::model::{Book, Entry};

/// What the record must say after a list, by the book.
pub fn assert_book(state: &State, book: &Book) {
    let State { record, .. } = state;
    let Some(entry) = &book.entry else {
        assert_eq!(*record, JobRecord::EMPTY);
        return;
    };
    let last = entry.last();
    assert_eq!(record.stage == STAGE_STABLE, entry.stable);
    assert_ne!(record.stage, 0);
    assert_eq!(record.table, entry.table);
    assert_eq!((record.width, record.height), (last.width, last.height));
    assert_eq!(record.passes, entry.steps().count());
    assert_eq!((record.added, record.removed), entry.changed());
    let parts = StripRecord::new(last.width, &entry.heights);
    assert_eq!(record.strip, parts);
    assert_eq!(record.counts, entry.changed_in_parts());
    let first = &entry.images[0];
    assert_eq!(last.black(), first.black() + record.added - record.removed);
    assert_single_changes(entry);
}

/// A pixel changes in at most one step, and the steps are at most as many as the pixels.
fn assert_single_changes(entry: &Entry) {
    let mut times = vec![0; entry.pixels()];
    for (from, to) in entry.steps() {
        for (i, time) in times.iter_mut().enumerate() {
            *time += usize::from(from.pixels[i] != to.pixels[i]);
        }
    }
    assert!(times.iter().all(|n| *n <= 1));
    assert!(entry.steps().count() <= entry.pixels());
}
