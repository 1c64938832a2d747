//! 01's trial images and tables, and those of 02 (T-01, T-12), over the library; the tables and the three files of 02 over the reference too.

mod common;

use common::tables::{check, read};
use common::{report, State};
use mask_cleaner::library;
use mask_cleaner::{Job, Table};
use mask_cleaner::{JobRecord, Progress, Reason, Refusal, TableRecord};
use reference::cases::{cobbles, cross, median, ring};
use reference::image::{file_of, Image};
use reference::model::Call;
use reference::pass::plain;

fn only(width: usize, height: usize, black: impl Fn(usize, usize) -> bool) -> Image {
    Image::from_fn(width, height, |x, y| u8::from(black(x, y)))
}

/// Loads, runs to rest and collects; passes, added, removed and the file. No byte of areas and output is zero before.
fn clean(table: TableRecord, image: &Image) -> (usize, usize, usize, Vec<u8>) {
    let (pixels, file) = (image.pixels.len(), file_of(image));
    let (mut first, mut second) = (vec![0xA5; pixels], vec![0x5A; pixels]);
    let mut out = vec![0xC3; file.len()];
    let mut job = JobRecord::EMPTY;
    library::load(&mut job, &table, &file, &mut first, &second).expect("an accepted load");
    for _ in 0..2 {
        let answer = library::run(&mut job, &mut first, &mut second);
        assert_eq!(answer, Ok(Progress::Stable));
    }
    let counts = job;
    let length = library::collect(&mut job, &first, &second, &mut out);
    assert_eq!((length, job), (Ok(file.len()), JobRecord::EMPTY));
    (counts.passes, counts.added, counts.removed, out)
}

#[test]
fn tables() {
    let file = [0x01, 0xC0, 0xD3, 0x1C, 0x80, 0xE0, 0x18];
    assert_eq!(library::read_table(&file), Ok(ring()));
    assert_eq!(
        Table::from_record(ring()).and_then(|t| t.to_file()),
        Ok(file.to_vec())
    );
    let refused = |file: &[u8]| library::read_table(file).expect_err("refused");
    assert_eq!(refused(&[]), Refusal::of(Reason::NumberEnds));
    assert_eq!(refused(&[0x00]), Refusal::of(Reason::NumberEnds));
    assert_eq!(refused(&[0x00, 0x00]), Refusal::of(Reason::ElementCount));
    assert_eq!(refused(&[0x81, 0x00]), Refusal::of(Reason::NumberForm));
    let apart = TableRecord::new(&[2048, 8192], &[12_288]);
    let disjoint = Refusal::witnessed(Reason::ElementsDisjoint, 2, 1, 0);
    assert_eq!(library::check_table(&apart), Err(disjoint));
    let single = TableRecord::new(&[469_440], &[4096]);
    let misses = Refusal::witnessed(Reason::NotPersistent, 1, 1, 12);
    assert_eq!(library::check_table(&single), Err(misses));
    report("trial tables: 8 cases");
}

/// Number and place of an answer; both 0 where it is accepted.
fn number_and_place<T>(answer: Result<T, Refusal>) -> (u32, usize) {
    answer.map_or_else(|r| (r.reason.number(), r.place), |_| (0, 0))
}

/// 02's cases (T-01) on files, and some beside them: the bytes, number and place.
const FILES: [(&str, u32, usize); 26] = [
    ("00", 1, 0),
    ("00 00", 3, 0),
    ("00 41", 3, 0),
    ("00 81 00", 2, 0),
    ("00 01", 1, 1),
    ("00 01 C0 D3 1C", 1, 2),
    ("00 01 C0 D3 1C 82 00", 2, 2),
    ("00 01 C0 D3 1C 01 80 E0 18", 18, 2),
    ("00 01 C0 D3 1C 02", 1, 3),
    ("00 01 C0 D3 1C 02 00 80 E0 18", 6, 3),
    ("00 01 80 D1 08 02 80 A0 08 80 60", 6, 4),
    ("00 01 80 D1 08 02 80 60 80 A0 08 00", 8, 5),
    ("00 02 80 10 80 40 02 80 60 80 A0 08", 5, 2),
    ("00 01 C0 D3 1C 02 80 20 80 E0 18", 7, 1),
    ("00 01 80 D1 08 02 80 60 80 A0 08", 0, 0),
    ("01 C0 D3 1C 80 E0 18", 0, 0),
    // beside them
    ("00 80", 1, 0),
    ("00 00 01 80 D1 08 02 80 60 80 A0 08", 3, 0),
    ("00 01 80 20 02 80 60 80 A0 08", 4, 1),
    ("00 01 C0 D3 1C 00", 18, 2),
    ("00 01 C0 D3 1C 05 80", 18, 2),
    ("00 01 C0 D3 1C 80", 1, 2),
    ("00 01 80 D1 08 02 80 60 80 A0", 1, 4),
    ("00 01 80 D1 08 02 80 60 80 A0 00", 2, 4),
    ("00 01 80 D1 08 02 80 60 80 60 00", 6, 4),
    ("01 C0 D3 1C 80 E0 18 80 A0 08", 8, 3),
];

#[test]
fn files_of_the_request() {
    for (bytes, number, place) in FILES {
        let file = common::tables::bytes(bytes);
        let answer = read(&file);
        assert_eq!(number_and_place(answer), (number, place), "{file:02X?}");
        if let Ok(table) = answer {
            let returned = Table::from_record(table).and_then(|t| t.to_file());
            assert_eq!(returned, Ok(file));
        }
    }
    let sample = include_bytes!("../../../samples/cobbles.mtb");
    assert_eq!(read(sample), Ok(cobbles()));
    report(&format!("table files of the request: {}", FILES.len()));
}

const RING: u32 = 469_440;
const CROSS: u32 = 141_440;
const WIDE: u32 = 12_288;
const TALL: u32 = 135_168;
const SQUARE: u32 = 405_504;
/// Two elements that share position 24: for the level one WIDE is persistent and TALL is not, for the upright one the other way.
const LEVEL: u32 = 16_787_456;
const UPRIGHT: u32 = 16_908_416;

/// The front places of a record: count and elements, ranks and persistent elements.
type Front = (usize, &'static [u32], usize, &'static [u32]);

/// 02's cases (T-01) on records, and some beside them: the record, number and place.
const RECORDS: [(Front, u32, usize); 20] = [
    ((1, &[RING], 1, &[SQUARE]), 0, 0),
    ((1, &[RING], 0, &[SQUARE]), 18, 2),
    ((1, &[RING], 5, &[1, 2, 3, 4]), 18, 2),
    ((1, &[4096], 0, &[]), 4, 1),
    ((1, &[RING, 0, 9], 0, &[]), 4, 3),
    ((1, &[RING], 1, &[0, 7]), 6, 2),
    ((1, &[RING], 1, &[SQUARE, 7]), 6, 4),
    ((1, &[RING], 1, &[SQUARE, 0, 0, 7]), 6, 6),
    ((1, &[CROSS], 2, &[0, WIDE]), 6, 3),
    ((1, &[CROSS], 2, &[WIDE, WIDE]), 6, 4),
    ((1, &[CROSS], 2, &[WIDE, TALL, 135_169]), 6, 5),
    ((1, &[CROSS], 4, &[6144, WIDE, TALL, SQUARE]), 0, 0),
    ((2, &[2048, 8192], 2, &[WIDE, WIDE]), 6, 5),
    ((1, &[CROSS], 2, &[WIDE, 266_240]), 7, 1),
    // beside them
    ((0, &[RING], 0, &[SQUARE]), 3, 0),
    ((1, &[RING], usize::MAX, &[SQUARE]), 18, 2),
    ((1, &[CROSS], 3, &[WIDE, TALL]), 6, 5),
    ((1, &[CROSS], 4, &[TALL, WIDE, 0, 7]), 6, 4),
    ((2, &[LEVEL, UPRIGHT], 1, &[WIDE]), 7, 2),
    ((2, &[LEVEL, UPRIGHT], 2, &[WIDE, TALL]), 7, 1),
];

#[test]
fn records_of_the_request() {
    for ((count, elements, ranks, persistents), number, place) in RECORDS {
        let table = TableRecord {
            count,
            ranks,
            ..TableRecord::new(elements, persistents)
        };
        let answer = number_and_place(check(&table));
        assert_eq!(answer, (number, place), "{table:?}");
    }
    report(&format!("table records of the request: {}", RECORDS.len()));
}

/// 02's case (T-01): a black pixel that only both persistent elements remove.
#[test]
fn wide_and_tall() {
    let speck = only(3, 3, |x, y| (x, y) == (1, 1));
    for persistent in [WIDE, TALL] {
        let alone = TableRecord::new(&[CROSS], &[persistent]);
        assert_eq!(clean(alone, &speck), (0, 0, 0, file_of(&speck)));
    }
    let white = file_of(&only(3, 3, |_, _| false));
    assert_eq!(clean(cobbles(), &speck), (1, 0, 1, white));
    report("wide and tall persistent element: 3 cases");
}

#[test]
fn images() {
    let speck = only(5, 5, |x, y| (x, y) == (2, 2));
    assert_eq!(file_of(&speck), b"P4\n5 5\n\x00\x00\x20\x00\x00");
    let white = file_of(&only(5, 5, |_, _| false));
    assert_eq!(clean(ring(), &speck), (1, 0, 1, white));
    let near_corner = only(4, 4, |x, y| (x, y) == (1, 1));
    let unchanged = file_of(&near_corner);
    assert_eq!(clean(ring(), &near_corner), (0, 0, 0, unchanged));
    for black in [false, true] {
        let single = only(1, 1, |_, _| black);
        assert_eq!(clean(ring(), &single), (0, 0, 0, file_of(&single)));
    }
    let board = only(6, 6, |x, y| (x + y) % 2 == 1);
    assert_eq!(clean(cross(), &board), (0, 0, 0, file_of(&board)));
    let plainly = plain(&board, &[141_440]);
    let changed = plainly
        .pixels
        .iter()
        .zip(&board.pixels)
        .filter(|(a, b)| a != b);
    assert_eq!(changed.count(), 16);
    report("trial images: 5 cases");
}

#[test]
fn median_dash() {
    let dash = only(24, 24, |x, y| {
        (11..=12).contains(&x) && (9..=14).contains(&y)
    });
    let white = file_of(&only(24, 24, |_, _| false));
    assert_eq!(clean(median(), &dash), (3, 0, 12, white));
    report("median, 24 × 24: 1 case");
}

#[test]
fn widths() {
    let mut area = vec![0; 65_536];
    let widest = file_of(&only(256, 3, |x, _| x == 255));
    assert_eq!(library::read_image(&widest, &mut area), Ok((256, 3)));
    let mut wider = b"P4\n257 3\n".to_vec();
    wider.resize(wider.len() + 3 * 33, 0);
    let refused = Err(Refusal::of(Reason::SizeRange));
    assert_eq!(library::read_image(&wider, &mut area), refused);
    report("widths 256 and 257: 2 cases");
}

const DOT: &[u8] = b"P4\n5 5\n\x00\x00\x20\x00\x00";
const BLANK: &[u8] = b"P4\n5 5\n\x00\x00\x00\x00\x00";
const LOW: &[u8] = b"P4\n5 4\n\x00\x00\x20\x00";
const TOO_WIDE: &[u8] = b"P4\n300 1\n";

/// Three files, and the lengths of both areas.
type Three = ([&'static [u8]; 3], usize, usize);

/// 02's cases (T-12) on three files, and some beside them: number and place.
const THREES: [(Three, u32, usize); 14] = [
    (([DOT, TOO_WIDE, b"x"], 25, 25), 10, 0),
    (([DOT, LOW, b"x"], 25, 25), 9, 0),
    (([DOT, LOW, DOT], 25, 25), 26, 2),
    (([DOT, DOT, LOW], 25, 25), 26, 3),
    (([DOT, LOW, LOW], 25, 25), 26, 2),
    (([DOT, LOW, DOT], 1, 1), 26, 2),
    (([DOT, DOT, DOT], 24, 25), 13, 0),
    (([DOT, DOT, DOT], 25, 24), 13, 0),
    (([DOT, DOT, DOT], 25, 25), 0, 0),
    // beside them
    (([b"x", TOO_WIDE, DOT], 25, 25), 9, 0),
    (([TOO_WIDE, DOT, b"x"], 25, 25), 10, 0),
    (([LOW, DOT, DOT], 25, 25), 26, 2),
    (([LOW, LOW, DOT], 20, 20), 26, 3),
    (([LOW, LOW, LOW], 20, 20), 0, 0),
];

#[test]
fn three_files_of_the_request() {
    for ((files, first, second), number, place) in THREES {
        let mut state = State::empty(vec![7; first], vec![8; second]);
        let call = Call::LoadThree {
            table: ring(),
            files: files.map(<[u8]>::to_vec),
        };
        let answer = state.apply_both(&call, &mut []);
        assert_eq!(number_and_place(answer), (number, place), "{call:?}");
    }
    report(&format!("three files of the request: {}", THREES.len()));
}

/// 02's case (T-12): the dot is there where at least two files have it, and then the ring removes it.
#[test]
fn two_of_three() {
    let table = Table::from_record(ring()).expect("an accepted table");
    let mut job = Job::for_pixels(25);
    let choices = 0..8usize;
    for with_dot in choices.clone() {
        let files = [0, 1, 2].map(|i| [BLANK, DOT][with_dot >> i & 1]);
        let there = usize::from(with_dot.count_ones() >= 2);
        assert_eq!(job.load_three(&table, files), Ok(()));
        let expected = only(5, 5, |x, y| there == 1 && (x, y) == (2, 2));
        assert_eq!(job.view(), Ok(&expected.pixels[..]));
        assert_eq!(job.run(), Ok(()));
        let counts = (job.record().passes, job.record().removed);
        assert_eq!(counts, (there, there));
        assert_eq!(job.collect(), Ok(BLANK.to_vec()));
    }
    report(&format!(
        "a dot in some of three files: {} cases",
        choices.len()
    ));
}
