//! T-08: strips, which are images of one width laid end to end.

use crate::image::{self, Image};
use mask_cleaner::{Reason, Refusal, StripRecord, MAX_PARTS};

/// An image, and the heights of its parts from the top. A single image has one part.
#[derive(Clone, Debug, PartialEq, Eq)]
pub struct Strip {
    pub image: Image,
    pub heights: Vec<usize>,
}

impl Strip {
    pub fn single(image: Image) -> Strip {
        let heights = vec![image.height];
        Strip { image, heights }
    }
}

/// The width of the parts and their heights. 23 for their number, then 10 at the first part of a bad size, then 23 at the
/// first of another width than part 1. What stands past the number is not looked at.
pub fn check_parts(strip: &StripRecord) -> Result<(usize, Vec<usize>), Refusal> {
    if !(1..=MAX_PARTS).contains(&strip.parts) {
        return Err(Refusal::of(Reason::Parts));
    }
    let widths = &strip.widths[..strip.parts];
    let heights = &strip.heights[..strip.parts];
    for (i, (width, height)) in widths.iter().zip(heights).enumerate() {
        image::check_size(*width, *height).map_err(|r| Refusal::at(r.reason, i + 1))?;
    }
    match widths.iter().position(|width| *width != widths[0]) {
        Some(i) => Err(Refusal::at(Reason::Parts, i + 1)),
        None => Ok((widths[0], heights.to_vec())),
    }
}

/// The strip of given pixel bytes: its parts, then 11 and 12 as of one image that has all rows.
pub fn check(strip: &StripRecord, pixels: &[u8]) -> Result<Strip, Refusal> {
    let (width, heights) = check_parts(strip)?;
    let image = image::check_pixels(width, heights.iter().sum(), pixels)?;
    Ok(Strip { image, heights })
}

/// The parts of these heights, as images of their own.
pub fn parts_of(image: &Image, heights: &[usize]) -> Vec<Image> {
    let mut rows = image.pixels.chunks(image.width);
    let mut part = |height: &usize| {
        let pixels: Vec<&[u8]> = rows.by_ref().take(*height).collect();
        Image::new(image.width, *height, &pixels.concat())
    };
    heights.iter().map(&mut part).collect()
}

/// The files of the parts, one after another.
pub fn files_of(image: &Image, heights: &[usize]) -> Vec<u8> {
    let files: Vec<Vec<u8>> = parts_of(image, heights)
        .iter()
        .map(image::file_of)
        .collect();
    files.concat()
}
