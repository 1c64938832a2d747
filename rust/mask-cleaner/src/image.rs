//! An image that the library accepted.

use crate::library;
use crate::record::{MAX_IMAGE_FILE, MAX_PIXELS};
use crate::refusal::Refusal;
use std::fmt;

/// An image that the library accepted: 1 to 256 pixels wide and high, one byte a pixel, in row order.
#[derive(Clone, PartialEq, Eq)]
pub struct Image {
    width: usize,
    height: usize,
    pixels: Vec<u8>,
}

impl Image {
    /// The image of these pixels, 0 white and 1 black. Refused by 10, 11, 12.
    pub fn from_pixels(width: usize, height: usize, pixels: Vec<u8>) -> Result<Image, Refusal> {
        let image = Image {
            width,
            height,
            pixels,
        };
        image.to_file()?;
        Ok(image)
    }

    /// The image of a raw PBM file in its strict form. Refused by 9, 10, 11.
    pub fn from_file(file: &[u8]) -> Result<Image, Refusal> {
        let mut pixels = vec![0; MAX_PIXELS];
        let (width, height) = library::read_image(file, &mut pixels)?;
        pixels.truncate(width.saturating_mul(height));
        Ok(Image {
            width,
            height,
            pixels,
        })
    }

    /// The image's file. An accepted image is not refused.
    pub fn to_file(&self) -> Result<Vec<u8>, Refusal> {
        let mut file = vec![0; MAX_IMAGE_FILE];
        let length = library::write_image(self.width, self.height, &self.pixels, &mut file)?;
        file.truncate(length);
        Ok(file)
    }

    /// The 3 × 3 median of the image. An accepted image is not refused.
    pub fn preview(&self) -> Result<Image, Refusal> {
        let mut image = self.clone();
        library::preview(self.width, self.height, &self.pixels, &mut image.pixels)?;
        Ok(image)
    }

    /// Pixels in a row.
    pub fn width(&self) -> usize {
        self.width
    }

    /// Rows.
    pub fn height(&self) -> usize {
        self.height
    }

    /// One byte a pixel, in row order: 0 white, 1 black.
    pub fn pixels(&self) -> &[u8] {
        &self.pixels
    }

    /// The rows from the top, each with its pixels from the left.
    pub fn rows(&self) -> impl Iterator<Item = &[u8]> {
        self.pixels.chunks(self.width.max(1))
    }
}

impl fmt::Debug for Image {
    fn fmt(&self, f: &mut fmt::Formatter<'_>) -> fmt::Result {
        f.debug_struct("Image")
            .field("width", &self.width)
            .field("height", &self.height)
            .finish_non_exhaustive()
    }
}
