//! Tables as text that people write: under the word `element` or `keeper` a picture of five rows of five characters.
//!
//! ```text
//! element         ; the eight neighbours
//! .....
//! .###.
//! .#+#.           ; the centre, out
//! .###.
//! .....
//! ```
//!
//! `#` is in, `.` is out; the centre is `@` where it is in and `+` where it is out. From `;` on a line is a comment. Blank lines and
//! spaces around a row do not matter, and neither does the order of the pictures.

use crate::picture::{self, CENTRE, CENTRE_IN, CENTRE_OUT, IN, OUT, POSITIONS, SIDE};
use crate::words;
use mask_cleaner::{Reason, Refusal, Table, TableRecord};
use std::iter::Peekable;

const ELEMENT: &str = "element";
const KEEPER: &str = "keeper";
const COMMENT: char = ';';

/// A table as it was drawn: both lists rise, as a table's do.
#[derive(Default)]
pub struct Drawing {
    elements: Vec<Picture>,
    keepers: Vec<Picture>,
}

/// A mask, and the line of the word above its picture.
#[derive(Clone, Copy, PartialEq, Eq, PartialOrd, Ord)]
struct Picture {
    mask: u32,
    line: usize,
}

/// What is wrong with a text, and where: line and column count from 1.
pub struct Mistake {
    pub line: usize,
    pub column: usize,
    pub words: String,
}

/// A line that is not blank, without comment and spaces around it, and where it starts.
struct Line<'a> {
    number: usize,
    column: usize,
    text: &'a str,
}

impl Line<'_> {
    fn is_word(&self) -> bool {
        self.text == ELEMENT || self.text == KEEPER
    }

    /// A mistake so many characters behind the start.
    fn mistake(&self, behind: usize, words: impl Into<String>) -> Mistake {
        Mistake {
            line: self.number,
            column: self.column.saturating_add(behind),
            words: words.into(),
        }
    }
}

fn lines(text: &str) -> impl Iterator<Item = Line<'_>> {
    let text = text.strip_prefix('\u{feff}').unwrap_or(text);
    let uncommented = |line: &'_ str| -> usize { line.find(COMMENT).unwrap_or(line.len()) };
    (1..).zip(text.lines()).filter_map(move |(number, line)| {
        let line = line.get(..uncommented(line)).unwrap_or(line);
        let text = line.trim();
        let spaces = line.chars().take_while(|c| c.is_whitespace()).count();
        let column = spaces.saturating_add(1);
        (!text.is_empty()).then_some(Line {
            number,
            column,
            text,
        })
    })
}

/// Reads a text.
pub fn parse(text: &str) -> Result<Drawing, Mistake> {
    let mut drawing = Drawing::default();
    let mut lines = lines(text).peekable();
    while let Some(word) = lines.next() {
        let list = match word.text {
            ELEMENT => &mut drawing.elements,
            KEEPER => &mut drawing.keepers,
            other => {
                let words = format!("`{ELEMENT}` or `{KEEPER}` is wanted here, not `{other}`");
                return Err(word.mistake(0, words));
            }
        };
        let (mask, line) = (picture(&word, &mut lines)?, word.number);
        list.push(Picture { mask, line });
    }
    drawing.elements.sort();
    drawing.keepers.sort();
    Ok(drawing)
}

/// The five rows below a word.
fn picture<'a>(
    word: &Line<'_>,
    lines: &mut Peekable<impl Iterator<Item = Line<'a>>>,
) -> Result<u32, Mistake> {
    let mut characters = Vec::with_capacity(POSITIONS);
    for row in 1..=SIDE {
        let Some(line) = lines.next_if(|line| !line.is_word()) else {
            return Err(word.mistake(0, format!("row {row} of this picture is missing")));
        };
        characters.extend(row_of(&line, row)?);
    }
    let bits = std::iter::successors(Some(1u32), |bit| Some(bit << 1));
    let is_in = |character: &char| *character == IN || *character == CENTRE_IN;
    let bits = bits.zip(&characters).filter(|(_, c)| is_in(c));
    Ok(bits.fold(0, |mask, (bit, _)| mask | bit))
}

/// The characters of a row, from 1 to 5, of a picture.
fn row_of(line: &Line<'_>, row: usize) -> Result<Vec<char>, Mistake> {
    let characters: Vec<char> = line.text.chars().collect();
    for (at, character) in characters.iter().enumerate().take(SIDE) {
        let is_centre = row == CENTRE / SIDE + 1 && at == CENTRE % SIDE;
        let is_mark = [CENTRE_IN, CENTRE_OUT].contains(character);
        let words = match (is_centre, is_mark) {
            (true, true) => continue,
            (false, false) if [IN, OUT].contains(character) => continue,
            (true, false) => format!(
                "the centre is `{CENTRE_OUT}` (out) or `{CENTRE_IN}` (in), not `{character}`"
            ),
            (false, true) => format!(
                "`{character}` marks the centre, which is the third character of the third row"
            ),
            (false, false) => format!("`{character}` is neither `{IN}` (in) nor `{OUT}` (out)"),
        };
        return Err(line.mistake(at, words));
    }
    match characters.len() {
        SIDE => Ok(characters),
        count => {
            let words = format!("a row has five characters, this one {count}");
            Err(line.mistake(count.min(SIDE), words))
        }
    }
}

impl Drawing {
    /// The table, as the library judges it.
    pub fn table(&self) -> Result<Table, Refusal> {
        let masks = |list: &[Picture]| -> Vec<u32> { list.iter().map(|p| p.mask).collect() };
        let record = TableRecord::new(&masks(&self.elements), &masks(&self.keepers));
        Table::from_record(record)
    }

    /// A refusal of the table in words that name the pictures, and below these the pictures.
    pub fn words(&self, refusal: &Refusal) -> String {
        let element = |number: usize| picture_at(&self.elements, number);
        let keeper = |number: usize| picture_at(&self.keepers, number);
        let Refusal {
            reason,
            place,
            witness,
            position,
        } = *refusal;
        let rank = self.rank(place);
        let told = match reason {
            Reason::ElementRange => {
                range_words(ELEMENT, element(place), element(place.saturating_sub(1)))
            }
            Reason::PersistentRange => {
                range_words(KEEPER, keeper(rank), keeper(rank.saturating_sub(1)))
            }
            Reason::ElementsDisjoint => pair_words(element(place), element(witness)),
            Reason::NotPersistent => partner_words(keeper(witness), element(place), position),
            _ => None,
        };
        told.unwrap_or_else(|| words::of(refusal))
    }

    /// The rank of the keeper at a place: the only one is at count + 1, and of several rank r at count + 1 + r.
    fn rank(&self, place: usize) -> usize {
        let before = self.elements.len();
        let place = place.saturating_sub(before);
        match self.keepers.len() {
            1 => place,
            _ => place.saturating_sub(1),
        }
    }
}

/// The picture of a number from 1.
fn picture_at(list: &[Picture], number: usize) -> Option<Picture> {
    list.get(number.checked_sub(1)?).copied()
}

/// Why a picture is none of an element, or none of a keeper: it is empty, has the centre, or is drawn before.
fn range_words(word: &str, picture: Option<Picture>, before: Option<Picture>) -> Option<String> {
    let picture = picture?;
    let Picture { mask, line } = picture;
    let words = match before {
        _ if mask == 0 => format!("the {word} of line {line} is empty"),
        Some(before) if before.mask == mask => {
            format!(
                "the {word} of line {line} is the one of line {}",
                before.line
            )
        }
        _ => format!("the {word} of line {line} has the centre, which is the pixel itself"),
    };
    Some(format!("{words}\n{}", pictures(&[picture])))
}

/// Two elements share no position.
fn pair_words(element: Option<Picture>, earlier: Option<Picture>) -> Option<String> {
    let (element, earlier) = (element?, earlier?);
    let words = format!(
        "the element of line {} shares no position with the one of line {}",
        element.line, earlier.line
    );
    Some(format!("{words}\n{}", pictures(&[element, earlier])))
}

/// A position of a keeper has no partner in an element.
fn partner_words(
    keeper: Option<Picture>,
    element: Option<Picture>,
    position: usize,
) -> Option<String> {
    let (keeper, element) = (keeper?, element?);
    let words = format!(
        "the keeper of line {} is not persistent: its position in {} has no partner in the element of line {}",
        keeper.line,
        words::position(position),
        element.line
    );
    Some(format!("{words}\n{}", pictures(&[keeper, element])))
}

fn pictures(list: &[Picture]) -> String {
    let titled = |p: &Picture| (format!("line {}", p.line), p.mask);
    let titled: Vec<(String, u32)> = list.iter().map(titled).collect();
    picture::of_masks(&titled).trim_end().to_string()
}

/// The text of a table, which [`parse`] reads back.
pub fn text_of(table: &Table) -> String {
    let elements = table.elements().iter().map(|mask| (ELEMENT, *mask));
    let keepers = table.persistents().iter().map(|mask| (KEEPER, *mask));
    let picture =
        |(word, mask): (&str, u32)| format!("{word}\n{}\n", picture::of_mask(mask).join("\n"));
    let pictures: Vec<String> = elements.chain(keepers).map(picture).collect();
    pictures.join("\n")
}
