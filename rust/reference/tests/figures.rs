//! Figures by library and reference: cover is to the nearest thousandth, and an exact half goes to the even one (02, T-05).

mod common;

use common::{report, State};
use mask_cleaner::Figures;
use reference::cases::ring;
use reference::model::{Answer, Call};

/// Cover of a loaded image whose first `black` pixels are black.
fn cover(width: usize, height: usize, black: usize) -> usize {
    let pixels = width * height;
    let mut state = State::empty(vec![0; pixels], vec![0; pixels]);
    state.first[..black].fill(1);
    state.record = reference::job::loaded(&ring(), width, &[height]);
    match state.apply_both(&Call::Figures, &mut []) {
        Ok(Answer::Figures(Figures { balance: 0, cover })) => cover,
        other => panic!("{other:?}"),
    }
}

#[test]
fn covers_of_the_request() {
    let sixteenths = [1, 3, 5, 15].map(|black| cover(4, 4, black));
    assert_eq!(sixteenths, [62, 188, 312, 938]);
    assert_eq!((cover(8, 10, 3), cover(20, 20, 1)), (38, 2));
    let halves = [1, 3, 1999].map(|black| cover(40, 50, black));
    assert_eq!(halves, [0, 2, 1000]);
    assert_eq!(
        (cover(3, 5, 4), cover(3, 1, 2), cover(1, 3, 1)),
        (267, 667, 333)
    );
    assert_eq!((cover(7, 1, 0), cover(1, 7, 7)), (0, 1000));
    let largest = [32, 33, 99, 4096, 12288, 65535, 65536].map(|black| cover(256, 256, black));
    assert_eq!(largest, [0, 1, 2, 62, 188, 1000, 1000]);
}

/// Every count of black pixels in every size up to 16 × 16: the reference looks for the nearest thousandth among all of them.
#[test]
fn covers_of_small_images() {
    let mut cases = 0;
    for (width, height) in (1..=16).flat_map(|width| (1..=16).map(move |height| (width, height))) {
        for black in 0..=width * height {
            assert!(cover(width, height, black) <= 1000);
            cases += 1;
        }
    }
    report(&format!("covers: {cases}"));
}
