//! The preview beside the plain rule of the 56 five-point subsets.

mod common;

use common::{assert_reached, reasons, report, Tally};
use mask_cleaner::library;
use mask_cleaner::{Reason, Refusal};
use reference::cases::{random_image, Random};
use reference::image::Image;
use reference::pass;

fn preview(width: usize, height: usize, pixels: &[u8], area: &mut [u8]) -> Result<(), Refusal> {
    let mut other = area.to_vec();
    let answer = library::preview(width, height, pixels, area);
    let expected = pass::preview(width, height, pixels, &mut other);
    assert_eq!(answer, expected);
    assert_eq!(area, other);
    answer
}

#[test]
fn images() {
    let mut random = Random::new(30);
    let mut tally = Tally::default();
    for case in 0..3000 {
        let longest = if case % 100 == 0 { 256 } else { 24 };
        let (width, height) = (1 + random.below(longest), 1 + random.below(longest));
        let image = random_image(width, height, &mut random);
        let mut area = random.bytes(width * height + case % 9);
        let answer = tally.note(preview(width, height, &image.pixels, &mut area));
        assert_eq!(answer, Ok(()));
    }
    tally.report("preview");
}

#[test]
fn every_pattern_of_nine_pixels() {
    for pattern in 0..512 {
        let image = Image::from_fn(3, 3, |x, y| (pattern >> (3 * y + x) & 1) as u8);
        let mut area = [9; 9];
        assert_eq!(preview(3, 3, &image.pixels, &mut area), Ok(()));
        assert_eq!(area[4] == 1, image.black() >= 5);
    }
    report("preview of every pattern of nine pixels: 512 cases");
}

#[test]
fn refusals() {
    let mut random = Random::new(31);
    let mut tally = Tally::default();
    for _ in 0..20_000 {
        let (mut width, mut height) = (1 + random.below(20), 1 + random.below(20));
        let mut pixels = random_image(width, height, &mut random).pixels;
        let place = random.below(pixels.len());
        match random.below(6) {
            0 => pixels[place] = 2 + random.byte() % 254,
            1 => pixels.truncate(place),
            2 => pixels.push(0),
            3 => width = *random.choose(&[0, 257, usize::MAX]),
            4 => height = *random.choose(&[0, 257, usize::MAX]),
            _ => {}
        }
        let length = random.below(420);
        let mut area = random.bytes(length);
        let _ = tally.note(preview(width, height, &pixels, &mut area));
    }
    tally.report("preview, refusals");
    let one_place = [Reason::SizeRange, Reason::RasterLength, Reason::AreaShort];
    assert_reached(&tally, &reasons(10..=13), &one_place);
}
