//! Files that Netpbm 11.1.0 wrote, by these commands:
//!
//!     pbmmake -black 1 1                           > black-1x1.pbm
//!     pbmmake -white 9 5                           > white-9x5.pbm
//!     pbmmake -gray 17 6                           > gray-17x6.pbm
//!     pbmmake -black 256 3                         > black-256x3.pbm
//!     pbmtext "rest"                               > text.pbm
//!     pbmmake -black 13 4 | pnmtopnm -plain        > plain-13x4.pbm
//!     pbmmake -white 257 2                         > wide-257x2.pbm

mod common;

use common::{fill_unused, report};
use mask_cleaner::library;
use mask_cleaner::{Reason, Refusal, MAX_SIDE};
use reference::cases::Random;
use reference::image::{parse, Image};

/// The image of a file, which must be written back byte for byte, also with other bits where no pixel is.
fn returned(file: &[u8]) -> Image {
    let image = read_back(file, file);
    let mut other = file.to_vec();
    fill_unused(&mut other, image.width, image.height, &mut Random::new(60));
    assert_eq!(read_back(&other, file), image);
    image
}

/// The image of a file, which must be written back as `expected`.
fn read_back(file: &[u8], expected: &[u8]) -> Image {
    let mut area = vec![0; MAX_SIDE * MAX_SIDE];
    let (width, height) = library::read_image(file, &mut area).expect("an accepted file");
    let image = Image::new(width, height, &area[..width * height]);
    assert_eq!(parse(file).as_ref(), Ok(&image));
    let mut out = vec![0xA5; file.len()];
    let written = library::write_image(width, height, &image.pixels, &mut out);
    assert_eq!(written, Ok(file.len()));
    assert_eq!(out, expected);
    image
}

#[test]
fn accepted_files_return() {
    let black = returned(include_bytes!("netpbm/black-1x1.pbm"));
    assert_eq!(black, Image::new(1, 1, &[1]));
    let white = returned(include_bytes!("netpbm/white-9x5.pbm"));
    assert_eq!(white, Image::new(9, 5, &[0; 45]));
    let gray = returned(include_bytes!("netpbm/gray-17x6.pbm"));
    assert_eq!(gray, Image::from_fn(17, 6, |x, y| ((x + y) % 2) as u8));
    let wide = returned(include_bytes!("netpbm/black-256x3.pbm"));
    assert_eq!(wide, Image::new(256, 3, &[1; 768]));
    let text = returned(include_bytes!("netpbm/text.pbm"));
    assert!(text.black() > 0 && text.black() < text.pixels.len());
    report("files of netpbm, read and written back: 5");
}

#[test]
fn refused_files() {
    let mut area = vec![0; MAX_SIDE * MAX_SIDE];
    let mut refused = |file: &[u8]| library::read_image(file, &mut area);
    let plain = refused(include_bytes!("netpbm/plain-13x4.pbm"));
    assert_eq!(plain, Err(Refusal::of(Reason::HeaderForm)));
    let wide = refused(include_bytes!("netpbm/wide-257x2.pbm"));
    assert_eq!(wide, Err(Refusal::of(Reason::SizeRange)));
    report("files of netpbm in other forms, refused: 2");
}
