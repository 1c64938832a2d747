//! 01, "The table": masks, the check of a record, the file's reader and writer.

use mask_cleaner::{Reason, Refusal, TableRecord, MAX_ELEMENTS, MAX_RANKS};

/// The number of the offset (0, 0).
const CENTRE: u32 = 12;

/// The mask of all 25 positions.
pub const MAX_MASK: u32 = 33_554_431;

/// A number has at most four groups of seven bits.
const MAX_GROUPS: usize = 4;

/// An offset from a pixel, each part from −2 to 2.
#[derive(Clone, Copy, Debug, PartialEq, Eq)]
pub struct Offset {
    pub dx: isize,
    pub dy: isize,
}

impl Offset {
    /// All 25 offsets, by position number.
    pub fn all() -> impl Iterator<Item = Offset> {
        (-2..=2).flat_map(|dy| (-2..=2).map(move |dx| Offset { dx, dy }))
    }

    /// 01's position number.
    pub fn position(self) -> u32 {
        (5 * (self.dy + 2) + (self.dx + 2)) as u32
    }

    /// The sum, if it is an offset again.
    pub fn plus(self, other: Offset) -> Option<Offset> {
        let sum = Offset {
            dx: self.dx + other.dx,
            dy: self.dy + other.dy,
        };
        let in_range = sum.dx.abs() <= 2 && sum.dy.abs() <= 2;
        in_range.then_some(sum)
    }

    pub fn is_in(self, mask: u32) -> bool {
        mask >> self.position() & 1 == 1
    }
}

/// The offsets of a mask, by position number.
pub fn offsets(mask: u32) -> Vec<Offset> {
    Offset::all().filter(|o| o.is_in(mask)).collect()
}

/// The lowest offset b of the persistent element without a partner: there is no offset a of the element with b + a in the
/// persistent element. It is persistent where there is none.
pub fn without_partner(persistent: u32, element: u32) -> Option<Offset> {
    let stays = |b: &Offset, a: &Offset| b.plus(*a).is_some_and(|sum| sum.is_in(persistent));
    let element = offsets(element);
    offsets(persistent)
        .into_iter()
        .find(|b| !element.iter().any(|a| stays(b, a)))
}

/// The two lists of masks in a table, both rising.
#[derive(Clone, Copy)]
enum List {
    Elements,
    Persistents,
}

impl List {
    /// The range rule of the list: 4 or 6.
    fn rule(self) -> Reason {
        match self {
            List::Elements => Reason::ElementRange,
            List::Persistents => Reason::PersistentRange,
        }
    }

    /// Whether a mask may follow `previous`, which is 0 for the first. Only a persistent element may have the centre.
    fn may_follow(self, mask: u32, previous: u32) -> bool {
        let in_range = (1..=MAX_MASK).contains(&mask);
        let has_centre = mask >> CENTRE & 1 == 1;
        let centre_fits = matches!(self, List::Persistents) || !has_centre;
        in_range && centre_fits && mask > previous
    }

    /// The number, from 1, of the lowest place of a record with a bad mask: below the count one that may not follow the one
    /// before, past it one that is not 0.
    fn first_bad(self, places: &[u32], count: usize) -> Option<usize> {
        let mut previous = 0;
        for (i, mask) in places.iter().enumerate() {
            let fits = if i < count {
                self.may_follow(*mask, previous)
            } else {
                *mask == 0
            };
            if !fits {
                return Some(i + 1);
            }
            previous = *mask;
        }
        None
    }
}

/// The record's rules: 3, 4, 18, 6, 5, 7.
pub fn check(table: &TableRecord) -> Result<(), Refusal> {
    check_count(table.count)?;
    if let Some(number) = List::Elements.first_bad(&table.elements, table.count) {
        return Err(Refusal::at(Reason::ElementRange, number));
    }
    check_ranks(table.ranks, 1, table.count + 1)?;
    if let Some(rank) = List::Persistents.first_bad(&table.persistents, table.ranks) {
        return Err(Refusal::at(
            Reason::PersistentRange,
            rank_place(table, rank),
        ));
    }
    check_shared(table)?;
    check_persistence(table)
}

/// The only persistent element of a table has its old place; all else comes after the place of the ranks.
fn rank_place(table: &TableRecord, rank: usize) -> usize {
    match (table.ranks, rank) {
        (1, 1) => table.count + 1,
        _ => table.count + 1 + rank,
    }
}

fn check_count(count: usize) -> Result<(), Refusal> {
    match count {
        1..=MAX_ELEMENTS => Ok(()),
        _ => Err(Refusal::of(Reason::ElementCount)),
    }
}

/// Rule 18: `least` is 1 in a record, 2 in a file.
fn check_ranks(ranks: usize, least: usize, place: usize) -> Result<(), Refusal> {
    if (least..=MAX_RANKS).contains(&ranks) {
        Ok(())
    } else {
        Err(Refusal::at(Reason::RankCount, place))
    }
}

/// Rule 5: the lowest element, then the lowest one before it.
fn check_shared(table: &TableRecord) -> Result<(), Refusal> {
    let elements = &table.elements[..table.count];
    for (i, element) in elements.iter().enumerate() {
        for (j, earlier) in elements[..i].iter().enumerate() {
            if earlier & element == 0 {
                return Err(Refusal::witnessed(
                    Reason::ElementsDisjoint,
                    i + 1,
                    j + 1,
                    0,
                ));
            }
        }
    }
    Ok(())
}

/// Rule 7: each persistent element must be persistent alone. The lowest element, then the lowest rank, then its lowest position.
fn check_persistence(table: &TableRecord) -> Result<(), Refusal> {
    for (i, element) in table.elements[..table.count].iter().enumerate() {
        for (rank, persistent) in (1..).zip(&table.persistents[..table.ranks]) {
            if let Some(b) = without_partner(*persistent, *element) {
                let (reason, position) = (Reason::NotPersistent, b.position() as usize);
                return Err(Refusal::witnessed(reason, i + 1, rank, position));
            }
        }
    }
    Ok(())
}

/// The file's rules: 1, 2 and the range rule number by number, then 8, 5, 7. A leading 0 says that the persistent elements have
/// a count of their own, of 2 to 4; without it there is one.
pub fn read(file: &[u8]) -> Result<TableRecord, Refusal> {
    let mut numbers = Numbers::new(file);
    let mut count = numbers.next()?;
    let several = count == 0;
    if several {
        numbers.place = 0;
        count = numbers.next()?;
    }
    check_count(count as usize)?;
    let elements = numbers.masks(List::Elements, count)?;
    let ranks = if several { numbers.ranks()? } else { 1 };
    let persistents = numbers.masks(List::Persistents, ranks)?;
    if !numbers.rest.is_empty() {
        return Err(Refusal::at(Reason::BytesLeft, numbers.place));
    }
    let table = TableRecord::new(&elements, &persistents);
    check_shared(&table)?;
    check_persistence(&table)?;
    Ok(table)
}

/// The numbers of a file, one after the other.
struct Numbers<'a> {
    rest: &'a [u8],
    /// The place of the next number: how many there were since the element count, itself included.
    place: usize,
}

impl<'a> Numbers<'a> {
    fn new(file: &'a [u8]) -> Numbers<'a> {
        Numbers {
            rest: file,
            place: 0,
        }
    }

    /// The next number; 1 and 2.
    fn next(&mut self) -> Result<u32, Refusal> {
        let (number, rest) = read_number(self.rest, self.place)?;
        self.rest = rest;
        self.place += 1;
        Ok(number)
    }

    /// The next number as the count of the persistent elements.
    fn ranks(&mut self) -> Result<u32, Refusal> {
        let place = self.place;
        let ranks = self.next()?;
        check_ranks(ranks as usize, 2, place)?;
        Ok(ranks)
    }

    /// The next so many numbers as the masks of a list.
    fn masks(&mut self, list: List, count: u32) -> Result<Vec<u32>, Refusal> {
        let mut masks = Vec::new();
        for _ in 0..count {
            let place = self.place;
            let mask = self.next()?;
            if !list.may_follow(mask, masks.last().copied().unwrap_or(0)) {
                return Err(Refusal::at(list.rule(), place));
            }
            masks.push(mask);
        }
        Ok(masks)
    }
}

/// The number at the head of the bytes, and the bytes after it.
fn read_number(bytes: &[u8], place: usize) -> Result<(u32, &[u8]), Refusal> {
    let mut number = 0;
    for group in 0..MAX_GROUPS {
        let Some(&byte) = bytes.get(group) else {
            return Err(Refusal::at(Reason::NumberEnds, place));
        };
        number |= u32::from(byte & 0x7F) << (7 * group);
        let more_follow = byte & 0x80 != 0;
        if !more_follow {
            let not_fewest = group > 0 && byte == 0;
            if not_fewest {
                return Err(Refusal::at(Reason::NumberForm, place));
            }
            return Ok((number, &bytes[group + 1..]));
        }
    }
    Err(Refusal::at(Reason::NumberForm, place))
}

/// Checks the record, then 13; gives the file's length.
pub fn write(table: &TableRecord, out: &mut [u8]) -> Result<usize, Refusal> {
    check(table)?;
    let file = file_of(table);
    if out.len() < file.len() {
        return Err(Refusal::of(Reason::AreaShort));
    }
    out[..file.len()].copy_from_slice(&file);
    Ok(file.len())
}

/// The numbers of a record in the file's form, the record accepted or not (its count at most 64, its ranks at most 4). One
/// persistent element has neither the leading 0 nor a count.
pub fn file_of(table: &TableRecord) -> Vec<u8> {
    let elements = table.elements[..table.count].to_vec();
    let persistents = table.persistents[..table.ranks].to_vec();
    let (count, ranks) = (table.count as u32, table.ranks as u32);
    let numbers = match ranks {
        1 => [vec![count], elements, persistents].concat(),
        _ => [vec![0, count], elements, vec![ranks], persistents].concat(),
    };
    numbers.into_iter().flat_map(groups).collect()
}

/// A number in groups of seven bits, lowest first, as few as will do.
pub fn groups(mut number: u32) -> Vec<u8> {
    let mut bytes = Vec::new();
    loop {
        let group = (number & 0x7F) as u8;
        number >>= 7;
        if number == 0 {
            bytes.push(group);
            return bytes;
        }
        bytes.push(group | 0x80);
    }
}
