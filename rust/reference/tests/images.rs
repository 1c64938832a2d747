//! Images: the library's reader and writer beside the reference's, on accepted and damaged files and pixels; loads of three files (T-12).

mod common;

use common::{assert_reached, cleared, fill_unused, reasons, report, State, Tally};
use mask_cleaner::library;
use mask_cleaner::{JobRecord, Reason, Refusal, TableRecord};
use reference::cases::{random_image, ring, Random};
use reference::image::{self, Image};
use reference::model::Call;

/// Sides around every limit of a byte and of the rules.
fn sides() -> Vec<usize> {
    let around = [24, 32, 64, 128, 192];
    let mut sides: Vec<usize> = (1..=17).collect();
    sides.extend(around.iter().flat_map(|n| n - 1..=n + 1));
    sides.extend(250..=256);
    sides
}

/// Both readers on areas of the same bytes; these must agree afterwards, and past the image be as before.
fn read(file: &[u8], area: &mut [u8]) -> Result<(usize, usize), Refusal> {
    let before = area.to_vec();
    let mut other = area.to_vec();
    let answer = library::read_image(file, area);
    assert_eq!(answer, image::read(file, &mut other));
    assert_eq!(area, other);
    let filled = answer.map_or(0, |(width, height)| width * height);
    assert_eq!(area[filled..], before[filled..]);
    answer
}

/// Both writers, likewise.
fn write(width: usize, height: usize, pixels: &[u8], out: &mut [u8]) -> Result<usize, Refusal> {
    let before = out.to_vec();
    let mut other = out.to_vec();
    let answer = library::write_image(width, height, pixels, out);
    assert_eq!(answer, image::write(width, height, pixels, &mut other));
    assert_eq!(out, other);
    let written = answer.unwrap_or(0);
    assert_eq!(out[written..], before[written..]);
    answer
}

/// Reads and writes an image with areas and outputs of several lengths.
fn round_trip(image: &Image, random: &mut Random, tally: &mut Tally) {
    let Image {
        width,
        height,
        pixels,
    } = image;
    let file = image::file_of(image);
    for length in [0, pixels.len() - 1, pixels.len(), pixels.len() + 7] {
        let mut area = random.bytes(length);
        let answer = tally.note(read(&file, &mut area));
        assert_eq!(answer.is_ok(), length >= pixels.len());
        assert!(answer.is_err() || area[..pixels.len()] == pixels[..]);
    }
    for length in [0, file.len() - 1, file.len(), file.len() + 7] {
        let mut out = random.output(length);
        let answer = tally.note(write(*width, *height, pixels, &mut out));
        assert_eq!(answer.is_ok(), length >= file.len());
        assert!(answer.is_err() || out[..file.len()] == file[..]);
    }
}

#[test]
fn images_return() {
    let mut random = Random::new(20);
    let mut tally = Tally::default();
    for width in sides() {
        for height in sides() {
            let image = random_image(width, height, &mut random);
            round_trip(&image, &mut random, &mut tally);
        }
    }
    tally.report("images of all sizes, read and written");
}

/// The bytes of a file of any size, without regard to the limits.
fn file_of_size(width: usize, height: usize) -> Vec<u8> {
    let mut file = format!("P4\n{width} {height}\n").into_bytes();
    file.resize(file.len() + width.div_ceil(8) * height, 0);
    file
}

#[test]
fn sizes_at_the_limits() {
    let mut tally = Tally::default();
    let limits = [0, 1, 255, 256, 257, 258, 999, 1000, usize::MAX];
    for width in limits {
        for height in limits {
            let pixels = width.saturating_mul(height).min(1_000_000);
            let mut area = vec![7; 1_000_000];
            if width <= 1000 && height <= 1000 {
                let _ = tally.note(read(&file_of_size(width, height), &mut area));
            }
            let mut out = vec![7; 9000];
            let given = vec![0; pixels];
            let _ = tally.note(write(width, height, &given, &mut out));
            let _ = tally.note(write(width, height, &[], &mut out));
        }
    }
    let refused = Err(Refusal::of(Reason::SizeRange));
    assert_eq!(read(&file_of_size(257, 1), &mut [0; 300]), refused);
    assert_eq!(read(&file_of_size(1, 257), &mut [0; 300]), refused);
    assert_eq!(read(&file_of_size(256, 1), &mut [0; 300]), Ok((256, 1)));
    tally.report("sizes at the limits");
}

/// Strings that stand for the header.
fn strange_header(random: &mut Random, width: usize, height: usize) -> String {
    match random.below(14) {
        0 => format!("P1\n{width} {height}\n"),
        1 => format!("P4\n# made by hand\n{width} {height}\n"),
        2 => format!("P4 {width} {height}\n"),
        3 => format!("P4\n{width}  {height}\n"),
        4 => format!("P4\n{width}\n{height}\n"),
        5 => format!("P4\n0{width} {height}\n"),
        6 => format!("P4\n{width} 00{height}\n"),
        7 => format!("P4\r\n{width} {height}\r\n"),
        8 => format!("P4\n{width}{width}{width}{width} {height}\n"),
        9 => format!("P4\n{width} \n"),
        10 => format!("P4\n {height}\n"),
        11 => format!("P4\n{width} {height} "),
        12 => format!("P4\n+{width} {height}\n"),
        _ => format!("p4\n{width} {height}\n"),
    }
}

/// A file with its raster, its header or both damaged.
fn damaged_file(random: &mut Random) -> Vec<u8> {
    let (width, height) = (1 + random.below(40), 1 + random.below(40));
    let image = random_image(width, height, random);
    let mut file = image::file_of(&image);
    let raster = file.split_off(file.len() - width.div_ceil(8) * height);
    let header = match random.below(8) {
        0 | 1 => damaged_header(file, random),
        2 => strange_header(random, width, height).into_bytes(),
        3 => format!("P4\n{} {height}\n", random.choose(&[0, 257, 999])).into_bytes(),
        4 => format!("P4\n{width} {}\n", random.choose(&[0, 257, 300])).into_bytes(),
        _ => file,
    };
    [header, damaged_raster(raster, width, height, random)].concat()
}

fn damaged_header(mut header: Vec<u8>, random: &mut Random) -> Vec<u8> {
    let place = random.below(header.len());
    match random.below(4) {
        0 => header[place] = random.byte(),
        1 => header.insert(place, *random.choose(b"0 \n#4")),
        2 => drop(header.remove(place)),
        _ => header.truncate(place),
    }
    header
}

fn damaged_raster(
    mut raster: Vec<u8>,
    width: usize,
    height: usize,
    random: &mut Random,
) -> Vec<u8> {
    if random.percent(40) {
        fill_unused(&mut raster, width, height, random);
    }
    match random.below(6) {
        0 => raster.truncate(random.below(raster.len())),
        1 => raster.push(random.byte()),
        _ => {}
    }
    raster
}

#[test]
fn damaged_files() {
    let mut random = Random::new(21);
    let mut tally = Tally::default();
    let mut altered = 0;
    for _ in 0..40_000 {
        let file = damaged_file(&mut random);
        let length = *random.choose(&[0, 20, 400, 1600, 1600, 1600]);
        let mut area = random.bytes(length);
        if let Ok((width, height)) = tally.note(read(&file, &mut area)) {
            let mut out = random.output(file.len());
            let pixels = &area[..width * height];
            assert_eq!(write(width, height, pixels, &mut out), Ok(file.len()));
            let expected = cleared(&file, width, height);
            assert_eq!(
                out, expected,
                "an accepted file returns, but for unused bits"
            );
            altered += usize::from(expected != file);
        }
    }
    tally.report("damaged image files");
    report(&format!("  returned with zeros for ones: {altered}"));
    assert!(altered >= 1000);
    let reasons = [
        Reason::HeaderForm,
        Reason::SizeRange,
        Reason::RasterLength,
        Reason::AreaShort,
    ];
    assert_reached(&tally, &reasons, &reasons);
    assert_eq!(
        tally.times(Reason::PixelValue),
        0,
        "12 never comes from a file"
    );
}

/// 02's cases (T-02): a file, and what it returns as.
#[test]
fn unused_bits() {
    let dot: &[u8] = b"P4\n5 5\n\x00\x00\x20\x00\x00";
    let cases: [(&[u8], &[u8]); 6] = [
        (dot, dot),
        (b"P4\n5 5\n\x00\x00\x21\x00\x00", dot),
        (b"P4\n5 5\n\x07\x07\x27\x07\x07", dot),
        (b"P4\n8 1\n\xFF", b"P4\n8 1\n\xFF"),
        (b"P4\n9 1\n\xFF\xFF", b"P4\n9 1\n\xFF\x80"),
        (b"P4\n1 2\n\xFF\x7F", b"P4\n1 2\n\x80\x00"),
    ];
    for (file, expected) in cases {
        let (mut area, mut out) = ([7; 25], [7; 20]);
        let (width, height) = read(file, &mut area).expect("an accepted file");
        let pixels = &area[..width * height];
        assert_eq!(write(width, height, pixels, &mut out), Ok(expected.len()));
        assert_eq!(out[..expected.len()], *expected);
    }
    let short = read(b"P4\n5 5\n\x07\x07\x27\x07", &mut [7; 25]);
    assert_eq!(short, Err(Refusal::of(Reason::RasterLength)));
    let wide = [b"P4\n257 1\n".as_slice(), &[0xFF; 33]].concat();
    assert_eq!(
        read(&wide, &mut [7; 300]),
        Err(Refusal::of(Reason::SizeRange))
    );
    let mut pixels = [0; 25];
    pixels[12] = 2;
    let given = write(5, 5, &pixels, &mut [7; 20]);
    assert_eq!(given, Err(Refusal::at(Reason::PixelValue, 2)));
    report("unused bits: 9 cases");
}

/// The same file with and without ones in the unused bits, also for an area that is too short.
#[test]
fn unused_bits_do_not_matter() {
    let mut random = Random::new(24);
    let mut tally = Tally::default();
    for _ in 0..20_000 {
        let (width, height) = (1 + random.below(40), 1 + random.below(40));
        let image = random_image(width, height, &mut random);
        let file = image::file_of(&image);
        let mut other = file.clone();
        fill_unused(&mut other, width, height, &mut random);
        let length = *random.choose(&[0, 400, 1600, 1600]);
        let mut area = random.bytes(length);
        let mut other_area = area.clone();
        let answer = tally.note(read(&file, &mut area));
        assert_eq!(answer, read(&other, &mut other_area));
        assert_eq!(area, other_area);
    }
    tally.report("files with and without ones in the unused bits");
}

/// Damages pixels or size, once or twice.
fn damage(image: &mut Image, random: &mut Random) {
    let sides = [0, 257, 65_536, 1 << 32, usize::MAX];
    for _ in 0..1 + random.below(2) {
        let place = random.below(image.pixels.len() + 1);
        match random.below(8) {
            0 | 1 => image
                .pixels
                .iter_mut()
                .skip(place)
                .take(1)
                .for_each(|p| *p = 2),
            2 => image.pixels[place..].fill(255),
            3 => image.pixels.truncate(place),
            4 => image.pixels.push(random.byte()),
            5 => image.width = *random.choose(&sides),
            6 => image.height = *random.choose(&sides),
            _ => std::mem::swap(&mut image.width, &mut image.height),
        }
    }
}

#[test]
fn damaged_pixels() {
    let mut random = Random::new(22);
    let mut tally = Tally::default();
    for case in 0..40_000 {
        let (width, height) = (1 + random.below(40), 1 + random.below(40));
        let mut image = random_image(width, height, &mut random);
        if case % 4 != 0 {
            damage(&mut image, &mut random);
        }
        let Image {
            width,
            height,
            pixels,
        } = image;
        let length = random.below(400);
        let mut out = random.output(length);
        let _ = tally.note(write(width, height, &pixels, &mut out));
    }
    tally.report("damaged pixels");
    let one_place = [Reason::SizeRange, Reason::RasterLength, Reason::AreaShort];
    assert_reached(&tally, &reasons(10..=13), &one_place);
}

#[test]
fn random_bytes() {
    let mut random = Random::new(23);
    let mut tally = Tally::default();
    let alphabet = b"P4\n 0123456789\x00\x80\xFF#1";
    for _ in 0..40_000 {
        let kept = random.below(6);
        let more = random.below(12);
        let mut file = b"P4\n1 1\n"[..kept].to_vec();
        file.extend((0..more).map(|_| *random.choose(alphabet)));
        let mut area = random.bytes(70);
        let _ = tally.note(read(&file, &mut area));
    }
    tally.report("random bytes as image files");
}

/// A load of three files by library and reference; exactly a refusal alters nothing.
fn load_three(state: &mut State, table: TableRecord, files: &[Vec<u8>; 3]) -> Result<(), Refusal> {
    let before = state.clone();
    let files = files.clone();
    let call = Call::LoadThree { table, files };
    let answer = state.apply_both(&call, &mut []);
    assert_eq!(answer.is_err(), *state == before, "{call:?}");
    answer.map(drop)
}

/// Header and bytes of the raster: of 5 × 5 pixels; refused by 9, 10 and 11; of another width; of another height.
const FILES: [(&str, usize); 6] = [
    ("P4\n5 5\n", 5),
    ("x", 0),
    ("P4\n300 1\n", 38),
    ("P4\n5 5\n", 4),
    ("P4\n4 5\n", 5),
    ("P4\n5 4\n", 4),
];

/// Every choice of three of these, with random rasters.
fn every_three(random: &mut Random) -> Vec<[Vec<u8>; 3]> {
    let mut file = |i: usize| {
        let (header, raster) = FILES[i % 6];
        [header.as_bytes(), &random.bytes(raster)].concat()
    };
    let choices = 0..6 * 6 * 6;
    choices.map(|n| [n / 36, n / 6, n].map(&mut file)).collect()
}

/// Whatever the files are: 14, 15 and the table's refusal come before theirs.
fn assert_refused_before(state: &State, files: &[Vec<u8>; 3]) {
    let loaded = reference::job::loaded(&ring(), 1, &[1]);
    let unsound = JobRecord { stage: 3, ..loaded };
    let apart = TableRecord::new(&[2048, 8192], &[12_288]);
    for (record, numbers) in [
        (unsound, [14, 0, 0, 0]),
        (loaded, [15, 0, 0, 0]),
        (JobRecord::EMPTY, [5, 2, 1, 0]),
    ] {
        let mut state = state.clone();
        state.record = record;
        let refusal = load_three(&mut state, apart, files).expect_err("refused");
        assert_eq!(refusal.numbers(), numbers);
    }
}

/// Each of three files good, bad or of another size, with areas that are long enough, one too short and both.
#[test]
fn three_files() {
    let mut random = Random::new(25);
    let mut tally = Tally::default();
    for (first, second) in [(25, 31), (24, 25), (29, 24), (1, 1)] {
        for files in every_three(&mut random) {
            let mut state = State::empty(vec![1; first], random.bytes(second));
            assert_refused_before(&state, &files);
            let _ = tally.note(load_three(&mut state, ring(), &files));
        }
    }
    tally.report("three files, each good, bad or of another size");
    // of the 216 choices 27 have no bad file; of these three are of one size, and six differ in the third
    for reason in reasons(9..=11) {
        assert_eq!(tally.times(reason), 4 * (216 - 27) / 3);
    }
    let differ = [2, 3].map(|place| tally.times_at(Reason::SizesDiffer, place));
    assert_eq!(differ, [4 * 18, 4 * 6]);
    assert_eq!((tally.accepted, tally.times(Reason::AreaShort)), (7, 5));
}
