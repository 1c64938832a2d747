//! Tables by library and reference: the answers must agree.

use super::State;
use mask_cleaner::library;
use mask_cleaner::{Refusal, StripRecord, TableRecord};
use reference::model::{Book, Call};
use reference::table;

/// Both checks of a record.
pub fn check(table: &TableRecord) -> Result<(), Refusal> {
    let answer = library::check_table(table);
    assert_eq!(answer, table::check(table), "{table:?}");
    answer
}

/// Both readers.
pub fn read(file: &[u8]) -> Result<TableRecord, Refusal> {
    let answer = library::read_table(file);
    assert_eq!(answer, table::read(file), "{file:02X?}");
    answer
}

/// Both writers on outputs of the same bytes; these must agree afterwards too.
pub fn write(table: &TableRecord, out: &mut [u8]) -> Result<usize, Refusal> {
    let before = out.to_vec();
    let mut other = out.to_vec();
    let answer = library::write_table(table, out);
    assert_eq!(answer, table::write(table, &mut other), "{table:?}");
    assert_eq!(out, other, "{table:?}");
    let written = answer.unwrap_or(0);
    assert_eq!(out[written..], before[written..], "{table:?}");
    answer
}

/// A load of one pixel for which there is room, of one file, of three and of a strip; the answers must agree.
pub fn load(table: &TableRecord) -> Result<(), Refusal> {
    let (table, file) = (*table, b"P4\n1 1\n\x80".to_vec());
    let files = [(); 3].map(|()| file.clone());
    let strip = Call::LoadStrip {
        table,
        strip: StripRecord::new(1, &[1]),
        pixels: vec![1],
    };
    let answer = load_by(&Call::Load { table, file });
    assert_eq!(load_by(&Call::LoadThree { table, files }), answer);
    assert_eq!(load_by(&strip), answer);
    answer
}

/// Both loads and the book's.
fn load_by(call: &Call) -> Result<(), Refusal> {
    let before = State::empty(vec![7], vec![8]);
    let mut state = before.clone();
    let answer = state.apply_both(call, &mut []);
    let expected = Book::default().enter(call, state.areas());
    assert_eq!(answer, expected, "{call:?}");
    assert_eq!(answer.is_err(), state == before, "{call:?}");
    answer.map(drop)
}

/// Bytes that are written as `01 C0`.
pub fn bytes(text: &str) -> Vec<u8> {
    let bytes = text.split_whitespace().map(|b| u8::from_str_radix(b, 16));
    bytes.collect::<Result<_, _>>().expect("bytes")
}
