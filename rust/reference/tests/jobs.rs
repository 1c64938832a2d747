//! Lists of calls from an empty record: library, reference and 01's book agree after every call, and demand 3's claims hold.

mod common;

use common::book::assert_book;
use common::{reasons, report, State, Stock, Tally};
use mask_cleaner::{Reason, Refusal};
use reference::cases::Random;
use reference::model::{Answer, Book, Call};

/// What lists gave: the answers of all calls, those of loads of three files and of strips among them, the number of loads and changing
/// steps, and that of accepted collects of several parts.
#[derive(Default)]
struct Given {
    calls: Tally,
    threes: Tally,
    strips: Tally,
    steps: usize,
    collected: usize,
}

impl Given {
    fn report(&self, title: &str) {
        report(&format!(
            "{title}, with {} loads and changing steps, and {} collects of several parts",
            self.steps, self.collected
        ));
        self.calls.report("calls in them");
        self.threes.report("loads of three files among these");
        self.strips.report("loads of strips among these");
    }
}

/// One list.
fn list(random: &mut Random, given: &mut Given, longest: usize, most: usize) {
    let pixels = longest * longest;
    let stock = Stock::new(random, longest);
    let short = random.percent(20);
    let least = if short { 0 } else { pixels };
    let (first, second) = (least + random.below(pixels), least + random.below(pixels));
    let mut state = State::empty(random.bytes(first), random.bytes(second));
    let mut book = Book::default();
    for _ in 0..1 + random.below(most) {
        let call = stock.call(random);
        let out_length = match call {
            Call::Collect { out_length } => out_length,
            _ => 0,
        };
        let mut out = random.output(out_length);
        let before = out.clone();
        let steps_before = book_steps(&book);
        let several = state.record.strip.parts > 1;
        let expected = book.enter(&call, state.areas());
        let answer = given.calls.note(state.apply_both(&call, &mut out));
        assert_eq!(answer, expected, "{call:?}");
        if matches!(answer, Ok(Answer::File(_))) {
            given.collected += usize::from(several);
        }
        match call {
            Call::LoadThree { .. } => drop(given.threes.note(expected)),
            Call::LoadStrip { .. } => drop(given.strips.note(expected)),
            _ => {}
        }
        assert_output(&answer, &before, &out);
        assert_book(&state, &book);
        given.steps += book_steps(&book).saturating_sub(steps_before);
    }
}

fn book_steps(book: &Book) -> usize {
    book.entry.as_ref().map_or(0, |entry| entry.images.len())
}

/// The output holds the file, if one was written, and is as before past it.
fn assert_output(answer: &Result<Answer, Refusal>, before: &[u8], out: &[u8]) {
    let written = match answer {
        Ok(Answer::File(file)) => file.len(),
        _ => 0,
    };
    assert_eq!(out[written..], before[written..]);
}

#[test]
fn short_lists() {
    let mut random = Random::new(50);
    let mut given = Given::default();
    let lists = 30_000;
    for _ in 0..lists {
        list(&mut random, &mut given, 8, 40);
    }
    given.report(&format!("lists of calls: {lists}"));
    let Given {
        calls,
        threes,
        strips,
        ..
    } = given;
    assert_eq!(
        calls.times(Reason::Unsound),
        0,
        "no call of a list answers 14"
    );
    assert_eq!(
        calls.times(Reason::PixelValue),
        strips.times(Reason::PixelValue),
        "12 never comes from a file"
    );
    let of_images = [reasons(9..=11), reasons(13..=13)].concat();
    for reason in [reasons(3..=7), of_images.clone(), reasons(15..=18)].concat() {
        assert!(calls.times(reason) >= 100, "{reason:?}");
    }
    assert!(threes.accepted >= 5000);
    for reason in of_images {
        assert!(threes.times(reason) >= 100, "{reason:?} of three files");
    }
    for place in [2, 3] {
        assert!(threes.times_at(Reason::SizesDiffer, place) >= 1000);
    }
    assert_strips(&strips);
    assert!(given.collected >= 1000);
}

/// Strips are loaded, and refused by each of their numbers, those of a part at several parts.
fn assert_strips(strips: &Tally) {
    assert!(strips.accepted >= 5000);
    for reason in [reasons(10..=13), reasons(23..=23)].concat() {
        assert!(strips.times(reason) >= 100, "{reason:?} of a strip");
    }
    assert!(strips.times_at(Reason::Parts, 0) >= 100);
    for place in 2..=5 {
        assert!(strips.times_at(Reason::Parts, place) >= 20, "{place}");
    }
    for place in 1..=5 {
        assert!(strips.times_at(Reason::SizeRange, place) >= 20, "{place}");
    }
    assert!(strips.places(Reason::PixelValue) >= 5);
}

#[test]
fn long_lists() {
    let mut random = Random::new(51);
    let mut given = Given::default();
    let lists = 400;
    for _ in 0..lists {
        list(&mut random, &mut given, 16, 400);
    }
    given.report(&format!("long lists: {lists}"));
    assert_eq!(given.calls.times(Reason::Unsound), 0);
    assert!(given.threes.accepted >= 100 && given.strips.accepted >= 100);
}
