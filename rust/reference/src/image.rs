//! 01, "The sheet": images, and raw PBM in its strict form.

use mask_cleaner::{Reason, Refusal, MAX_SIDE};

/// An image, one byte a pixel, in row order.
#[derive(Clone, Debug, PartialEq, Eq)]
pub struct Image {
    pub width: usize,
    pub height: usize,
    pub pixels: Vec<u8>,
}

impl Image {
    pub fn new(width: usize, height: usize, pixels: &[u8]) -> Image {
        assert_eq!(pixels.len(), width * height);
        Image {
            width,
            height,
            pixels: pixels.to_vec(),
        }
    }

    /// An image whose pixel at column x, row y is `value(x, y)`.
    pub fn from_fn(
        width: usize,
        height: usize,
        mut value: impl FnMut(usize, usize) -> u8,
    ) -> Image {
        let mut pixels = Vec::with_capacity(width * height);
        for y in 0..height {
            for x in 0..width {
                pixels.push(value(x, y));
            }
        }
        Image {
            width,
            height,
            pixels,
        }
    }

    pub fn black(&self) -> usize {
        self.pixels.iter().filter(|p| **p == 1).count()
    }

    /// The image with its colours exchanged.
    pub fn exchanged(&self) -> Image {
        Image {
            pixels: self.pixels.iter().map(|p| 1 - p).collect(),
            ..*self
        }
    }
}

/// The image of a file, by the rules 9 to 11. Bits past the width are not looked at.
pub fn parse(file: &[u8]) -> Result<Image, Refusal> {
    let (width, height, raster) = header(file).ok_or(Refusal::of(Reason::HeaderForm))?;
    check_size(width, height)?;
    let row_bytes = width.div_ceil(8);
    if raster.len() != row_bytes * height {
        return Err(Refusal::of(Reason::RasterLength));
    }
    Ok(Image::from_fn(width, height, |x, y| {
        bit(&raster[y * row_bytes..], x)
    }))
}

/// The majority of three files' images (T-12): each file by the rules 9 to 11, one after the other, then 26 at the first
/// image that does not have the size of the first.
pub fn parse_three([one, two, three]: [&[u8]; 3]) -> Result<Image, Refusal> {
    let images = [parse(one)?, parse(two)?, parse(three)?];
    let size = |image: &Image| (image.width, image.height);
    let differs = |image: &Image| size(image) != size(&images[0]);
    match images.iter().position(differs) {
        Some(i) => Err(Refusal::at(Reason::SizesDiffer, i + 1)),
        None => Ok(majority(&images)),
    }
}

/// Of three images of one size: black where at least two have it black.
pub fn majority(images: &[Image; 3]) -> Image {
    let Image { width, height, .. } = images[0];
    Image::from_fn(width, height, |x, y| {
        let black = |image: &&Image| image.pixels[y * width + x] == 1;
        u8::from(images.iter().filter(black).count() >= 2)
    })
}

/// Bit x of a row, the leftmost pixel being the highest bit of the first byte.
fn bit(row: &[u8], x: usize) -> u8 {
    row[x / 8] >> (7 - x % 8) & 1
}

/// Width, height and the bytes after the header, if it has the strict form.
fn header(file: &[u8]) -> Option<(usize, usize, &[u8])> {
    let rest = file.strip_prefix(b"P4\n")?;
    let (width, rest) = number(rest)?;
    let rest = rest.strip_prefix(b" ")?;
    let (height, rest) = number(rest)?;
    let raster = rest.strip_prefix(b"\n")?;
    Some((width, height, raster))
}

/// One to three digits, without a leading zero unless the number is 0, and the bytes after them.
fn number(bytes: &[u8]) -> Option<(usize, &[u8])> {
    let length = bytes.iter().take_while(|b| b.is_ascii_digit()).count();
    let (digits, rest) = bytes.split_at(length);
    let leading_zero = length > 1 && digits[0] == b'0';
    if !(1..=3).contains(&length) || leading_zero {
        return None;
    }
    let value = digits
        .iter()
        .fold(0, |n, digit| 10 * n + usize::from(digit - b'0'));
    Some((value, rest))
}

pub fn check_size(width: usize, height: usize) -> Result<(), Refusal> {
    let fits = |side| (1..=MAX_SIDE).contains(&side);
    if fits(width) && fits(height) {
        Ok(())
    } else {
        Err(Refusal::of(Reason::SizeRange))
    }
}

/// Rules 9 to 11, then 13; fills the area and gives width and height.
pub fn read(file: &[u8], area: &mut [u8]) -> Result<(usize, usize), Refusal> {
    let image = parse(file)?;
    fill(area, &image.pixels)?;
    Ok((image.width, image.height))
}

/// Puts the bytes at the head of the area, or refuses by 13.
pub fn fill(area: &mut [u8], bytes: &[u8]) -> Result<(), Refusal> {
    if area.len() < bytes.len() {
        return Err(Refusal::of(Reason::AreaShort));
    }
    area[..bytes.len()].copy_from_slice(bytes);
    Ok(())
}

/// The rules for given pixel bytes: 10, 11, 12.
pub fn check(width: usize, height: usize, pixels: &[u8]) -> Result<Image, Refusal> {
    check_size(width, height)?;
    check_pixels(width, height, pixels)
}

/// 11 and 12, for a size that was accepted.
pub fn check_pixels(width: usize, height: usize, pixels: &[u8]) -> Result<Image, Refusal> {
    if pixels.len() != width * height {
        return Err(Refusal::of(Reason::RasterLength));
    }
    if let Some(i) = pixels.iter().position(|p| *p > 1) {
        return Err(Refusal::at(Reason::PixelValue, i / width));
    }
    Ok(Image::new(width, height, pixels))
}

/// The rules for given pixel bytes, then 13; gives the file's length.
pub fn write(width: usize, height: usize, pixels: &[u8], out: &mut [u8]) -> Result<usize, Refusal> {
    let file = file_of(&check(width, height, pixels)?);
    fill(out, &file)?;
    Ok(file.len())
}

/// The file of an image.
pub fn file_of(image: &Image) -> Vec<u8> {
    let mut file = format!("P4\n{} {}\n", image.width, image.height).into_bytes();
    for row in image.pixels.chunks(image.width) {
        for byte in row.chunks(8) {
            let bits = byte.iter().enumerate();
            file.push(bits.fold(0, |sum, (i, pixel)| sum | pixel << (7 - i)));
        }
    }
    file
}
