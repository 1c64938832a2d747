//! A refusal in words, for people. Table and sheet speak 01's language: elements and keepers.

use crate::picture::{CENTRE, SIDE};
use mask_cleaner::{Reason, Refusal};

// what may be wrong with one of them
const ELEMENT: &str =
    "is 0, above 33554431, has the centre (bit 12), or is not above the one before";
const KEEPER: &str = "is 0, above 33554431, or not above the one before";
const NUMBER: &str = "has more than four groups, or 0 as the last of several";

/// A position of the 5 × 5 window, row and column from 1.
pub fn position(position: usize) -> String {
    let (row, column) = (position / SIDE, position % SIDE);
    let (row, column) = (row.saturating_add(1), column.saturating_add(1));
    let centre = if position == CENTRE {
        " (the centre)"
    } else {
        ""
    };
    format!("row {row}, column {column}{centre}")
}

/// What a refusal says, its place and what 5 and 7 give beside it included.
pub fn of(refusal: &Refusal) -> String {
    let Refusal {
        reason,
        place,
        witness,
        position: at,
    } = *refusal;
    match (reason, place) {
        (Reason::NumberEnds, _) => format!("the bytes end before or within {}", number(place)),
        (Reason::NumberForm, _) => format!("{} {NUMBER}", number(place)),
        (Reason::ElementRange, _) => format!("element {place} {ELEMENT}"),
        (Reason::ElementsDisjoint, _) => {
            format!("element {place} shares no position with element {witness}")
        }
        (Reason::PersistentRange, _) => format!("the keeper at place {place} {KEEPER}"),
        (Reason::NotPersistent, _) => format!(
            "keeper {witness} is not persistent: its position in {} has no partner in element {place}",
            position(at)
        ),
        (Reason::SizeRange, 1..) => format!("part {place} is not 1 to 256 wide and high"),
        (Reason::PixelValue, _) => format!("a pixel byte in row {place}, from 0, is above 1"),
        (Reason::Parts, 0) => "there are not 1 to 16 parts".to_string(),
        (Reason::Parts, _) => format!("part {place} is not as wide as the first"),
        (Reason::AllowanceSpent, _) => {
            format!("neither the reserve of channel {place} nor the pool has a pass left")
        }
        (Reason::SizesDiffer, _) => format!("sheet {place} does not have the size of the first"),
        _ => brief(reason),
    }
}

/// The number of a table file at a place.
fn number(place: usize) -> String {
    match place {
        0 => "the count".to_string(),
        _ => format!("number {place} after the count"),
    }
}

/// What a refusal's number means, whatever its place.
pub fn brief(reason: Reason) -> String {
    match reason {
        Reason::NumberEnds => "the bytes end before or within a number".to_string(),
        Reason::NumberForm => format!("a number {NUMBER}"),
        Reason::ElementCount => "there are not 1 to 64 elements".to_string(),
        Reason::ElementRange => format!("an element {ELEMENT}"),
        Reason::PersistentRange => format!("a keeper {KEEPER}"),
        Reason::NotPersistent => "a keeper is not persistent".to_string(),
        Reason::BytesLeft => "bytes follow the last keeper".to_string(),
        Reason::HeaderForm => {
            "the header is not P4, line feed, width, space, height, line feed".to_string()
        }
        Reason::RasterLength => "there are more or fewer bytes than the rows need".to_string(),
        Reason::RankCount => {
            "there are not 1 to 4 keepers, or not 2 to 4 behind a leading 0".to_string()
        }
        Reason::SizesDiffer => "a sheet does not have the size of the first".to_string(),
        _ => reason.to_string(),
    }
}

/// The rule behind a refusal, and what mends it.
pub fn rule(reason: Reason) -> &'static str {
    match reason {
        Reason::NumberEnds | Reason::NumberForm | Reason::BytesLeft => {
            "A table file is a row of numbers in groups of seven bits; `mask table make` writes it from a drawing."
        }
        Reason::ElementCount => "A table has 1 to 64 elements.",
        Reason::ElementRange => {
            "An element is a set of positions around a pixel, at least one of them, and never the pixel itself. No two are the same, and in a file they rise; `mask table make` puts them in order."
        }
        Reason::ElementsDisjoint => {
            "Every two elements share a position: else one could call for black where the other calls for white. Draw a position into one of them that the other has."
        }
        Reason::PersistentRange => {
            "A keeper is a set of positions, at least one of them; it may have the centre. No two are the same, and in a file they rise; `mask table make` puts them in order."
        }
        Reason::NotPersistent => {
            "Stand on any position of a keeper and look at an element from there: it must reach a position of the same keeper. Draw more positions into the keeper, beside the one that is named, or leave that one out."
        }
        Reason::RankCount => "A table has 1 to 4 keepers.",
        Reason::HeaderForm => {
            "A sheet is a raw PBM file (P4) without comments; width and height have no leading zeros. Netpbm's `pgmtopbm` and `pnmtopnm` write such files."
        }
        Reason::SizeRange => "A sheet is 1 to 256 pixels wide and high.",
        Reason::RasterLength => "A row has (width + 7) / 8 bytes, and nothing follows the last row.",
        Reason::PixelValue => "In memory a pixel is one byte, 0 white or 1 black. No file is refused by this number.",
        Reason::AreaShort => "The caller of the library lends too little memory. No file is refused by this number.",
        Reason::Unsound | Reason::NotCollected | Reason::NothingLoaded | Reason::NotStable => {
            "Load, then pass or run until nothing changes, then collect. No file is refused by this number."
        }
        Reason::Parts => "A strip has 1 to 16 sheets, all as wide as the first.",
        Reason::AllowanceSpent | Reason::QuotaRange => {
            "A quota of passes is shared by 1 to 4 jobs that a program runs. No file is refused by this number."
        }
        Reason::SizesDiffer => "The three sheets are of one width and one height.",
        _ => "",
    }
}
