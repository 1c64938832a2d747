//! Tables: the library's check, reader and writer beside the reference's, on accepted and damaged records and files; the witnesses
//! of 5 and 7, by both loads too.

mod common;

use common::tables::{bytes, check, load, read, write};
use common::{assert_reached, reasons, report, Tally};
use mask_cleaner::Table;
use mask_cleaner::{Reason, Refusal, TableRecord, MAX_ELEMENTS, MAX_RANKS};
use reference::cases::{median, named_tables, random_table, Random};
use reference::table::{self, MAX_MASK};
use std::collections::BTreeSet;

const CENTRE: u32 = 1 << 12;
const ABOVE: u32 = MAX_MASK + 1;

/// An accepted table, one of 01's at times.
fn accepted(random: &mut Random) -> TableRecord {
    if random.percent(5) {
        random.choose(&named_tables()).1
    } else {
        let most = *random.choose(&[1, 3, 8, 64]);
        random_table(random, most)
    }
}

#[test]
fn accepted_tables_return() {
    let mut random = Random::new(10);
    let mut tally = Tally::default();
    for _ in 0..6000 {
        let table = accepted(&mut random);
        tally.note(check(&table)).expect("accepted");
        let file = table::file_of(&table);
        assert_eq!(read(&file), Ok(table));
        for length in [0, file.len() - 1, file.len(), file.len() + 9] {
            let mut out = random.output(length);
            let answer = tally.note(write(&table, &mut out));
            assert_eq!(answer.is_ok(), length >= file.len());
            assert!(answer.is_err() || out[..file.len()] == file);
        }
        let wrapped = Table::from_file(&file).expect("accepted");
        assert_eq!(Table::from_record(table), Ok(wrapped));
        assert_eq!(wrapped.to_file(), Ok(file));
    }
    tally.report("accepted tables");
    assert!(tally.times(Reason::AreaShort) >= 20);
}

/// A mask with few points, without the centre.
fn few_points(random: &mut Random) -> u32 {
    let mut mask = 0;
    for _ in 0..1 + random.below(3) {
        mask |= 1 << random.below(25);
    }
    mask & !CENTRE | 1 << random.below(12)
}

/// One to so many masks, rising.
fn rising(most: usize, random: &mut Random, mask: impl Fn(&mut Random) -> u32) -> Vec<u32> {
    let wanted = 1 + random.below(most);
    let mut masks: Vec<u32> = (0..wanted).map(|_| mask(random)).collect();
    masks.sort_unstable();
    masks.dedup();
    masks
}

/// Masks in range and rising: elements that need not share positions, with some persistent elements.
fn in_range(random: &mut Random) -> TableRecord {
    let elements = rising(12, random, few_points);
    let any = |random: &mut Random| 1 + random.below(MAX_MASK as usize) as u32;
    let persistents = rising(MAX_RANKS, random, any);
    TableRecord::new(&elements, &persistents)
}

/// An accepted table with a point taken from an element or a persistent element, so that 7 is likely.
fn misses(random: &mut Random) -> TableRecord {
    let table = accepted(random);
    let mut elements = table.elements[..table.count].to_vec();
    let mut persistents = table.persistents[..table.ranks].to_vec();
    let masks = if random.percent(50) {
        &mut elements
    } else {
        &mut persistents
    };
    let i = random.below(masks.len());
    masks[i] &= !(1 << random.below(25));
    masks.sort_unstable();
    TableRecord::new(&elements, &persistents)
}

/// A table with one to three fields damaged, so that several rules are broken at once.
fn damaged(random: &mut Random) -> TableRecord {
    let mut table = match random.below(4) {
        0 => in_range(random),
        1 => misses(random),
        _ => accepted(random),
    };
    for _ in 0..1 + random.below(3) {
        damage(&mut table, random);
    }
    table
}

fn damage(table: &mut TableRecord, random: &mut Random) {
    match random.below(12) {
        0 => table.count = *random.choose(&[0, 65, 66, 255, 256, usize::MAX]),
        1 => table.count = random.below(70),
        2 => table.ranks = *random.choose(&[0, 5, 6, 255, 256, usize::MAX]),
        3 => table.ranks = random.below(7),
        4..=7 => damage_masks(&mut table.elements, table.count, random),
        _ => damage_masks(&mut table.persistents, table.ranks, random),
    }
}

/// Damages one of the places, of which `count` are used.
fn damage_masks(places: &mut [u32], count: usize, random: &mut Random) {
    let any = random.below(places.len());
    let used = random.below(count.clamp(1, places.len()));
    match random.below(6) {
        0 => places[any] = *random.choose(&[0, 1, ABOVE, ABOVE | 1, u32::MAX, CENTRE]),
        1 => places[used] |= *random.choose(&[CENTRE, ABOVE, 1 << 31]),
        2 => places[used] = places[used.saturating_sub(1)],
        3 => places[any] ^= 1 << random.below(32),
        4 => places[used] &= !(1 << random.below(25)),
        _ => places.swap(used, any),
    }
}

/// Any bytes in the record, small and large.
fn any_record(random: &mut Random) -> TableRecord {
    let mut table = TableRecord::EMPTY;
    table.count = random.below(70);
    let kept = random.below(MAX_ELEMENTS + 1);
    for i in 0..kept {
        table.elements[i] = (random.number() >> random.below(64)) as u32;
    }
    table.ranks = random.below(6);
    for persistent in &mut table.persistents {
        *persistent = random.number() as u32 >> random.below(32);
    }
    table
}

fn record(random: &mut Random) -> TableRecord {
    match random.below(8) {
        0 => accepted(random),
        1 => in_range(random),
        2 => misses(random),
        3 => any_record(random),
        _ => damaged(random),
    }
}

#[test]
fn records() {
    let mut random = Random::new(11);
    let mut tally = Tally::default();
    for _ in 0..120_000 {
        let table = record(&mut random);
        let answer = tally.note(check(&table));
        let written = write(&table, &mut random.output(300));
        assert_eq!(written.map(|_| ()), answer);
        let length = random.below(if table.count < 8 { 30 } else { 300 });
        let _ = tally.note(write(&table, &mut random.output(length)));
        assert_eq!(Table::from_record(table).is_ok(), answer.is_ok());
    }
    tally.report("table records");
    let reasons = [
        Reason::ElementCount,
        Reason::ElementRange,
        Reason::ElementsDisjoint,
        Reason::PersistentRange,
        Reason::NotPersistent,
        Reason::AreaShort,
        Reason::RankCount,
    ];
    assert_reached(&tally, &reasons, &[Reason::ElementCount, Reason::AreaShort]);
}

/// The file of a record whose numbers need not be accepted, at times in the form of several persistent elements.
fn file_of(random: &mut Random) -> Vec<u8> {
    let mut table = record(random);
    table.count = table.count.min(MAX_ELEMENTS);
    table.ranks = table.ranks.min(MAX_RANKS);
    for mask in table.elements.iter_mut().chain(&mut table.persistents) {
        *mask &= (1 << 28) - 1;
    }
    if random.percent(70) {
        table::file_of(&table)
    } else {
        let ranks = *random.choose(&[table.ranks as u32, 0, 1, 2, 5, 128]);
        form_of_several(&table, ranks)
    }
}

/// The table's numbers after a leading 0, also where there is one persistent element, with any number of these.
fn form_of_several(table: &TableRecord, ranks: u32) -> Vec<u8> {
    let mut numbers = vec![0, table.count as u32];
    numbers.extend(&table.elements[..table.count]);
    numbers.push(ranks);
    numbers.extend(&table.persistents[..table.ranks]);
    numbers.into_iter().flat_map(table::groups).collect()
}

/// Puts a group of no use behind the last group that starts at or before the place.
fn lengthen(file: &mut Vec<u8>, place: usize) {
    let end = (0..=place).rev().find(|i| file[*i] < 0x80).unwrap_or(0);
    file[end] |= 0x80;
    file.insert(end + 1, 0);
}

/// A file cut, extended or with some bytes altered, once or twice.
fn damaged_file(random: &mut Random) -> Vec<u8> {
    let table = match random.below(4) {
        0 => in_range(random),
        1 => misses(random),
        _ => accepted(random),
    };
    let mut file = table::file_of(&table);
    for _ in 0..1 + random.below(2) {
        damage_file(&mut file, random);
    }
    if random.percent(10) {
        file.extend(vec![0x80; random.below(6)]);
    }
    file
}

fn damage_file(file: &mut Vec<u8>, random: &mut Random) {
    if file.is_empty() {
        return;
    }
    let place = random.below(file.len());
    match random.below(11) {
        0 => file.truncate(place),
        1 => file.push(random.byte()),
        2 => file.extend([0, 1, 2]),
        3 => file[place] ^= 1 << random.below(8),
        4 => file[place] = random.byte(),
        5 => lengthen(file, place),
        6 => file.truncate(place + 1),
        7 => file[place..].iter_mut().take(4).for_each(|b| *b |= 0x80),
        8 => file.insert(0, 0),
        9 => drop(file.remove(0)),
        _ => file[place] |= 0x80,
    }
}

fn any_file(random: &mut Random) -> Vec<u8> {
    match random.below(10) {
        0 => {
            let length = random.below(12);
            random.bytes(length)
        }
        1 => {
            let groups = (0..1 + random.below(8)).map(|_| table::groups(few_points(random)));
            let groups: Vec<Vec<u8>> = groups.collect();
            let count = table::groups(groups.len() as u32 - random.below(2) as u32);
            [count, groups.concat()].concat()
        }
        2 => (0..random.below(8)).map(|_| random.byte() & 0x83).collect(),
        3..=5 => file_of(random),
        _ => damaged_file(random),
    }
}

#[test]
fn files() {
    let mut random = Random::new(12);
    let mut tally = Tally::default();
    for _ in 0..120_000 {
        let file = any_file(&mut random);
        if let Ok(table) = tally.note(read(&file)) {
            let mut out = random.output(file.len());
            assert_eq!(write(&table, &mut out), Ok(file.len()));
            assert_eq!(out, file, "an accepted file returns byte for byte");
        }
    }
    tally.report("table files");
    let of_files = [reasons(1..=8), reasons(18..=18)].concat();
    assert_reached(&tally, &of_files, &[Reason::ElementCount]);
}

/// The place after a table's last number in its file.
fn end_place(table: &TableRecord) -> usize {
    match table.ranks {
        1 => table.count + 2,
        ranks => table.count + 2 + ranks,
    }
}

#[test]
fn every_truncation_and_flip_of_some_files() {
    let mut random = Random::new(13);
    let mut tally = Tally::default();
    let mut tables: Vec<TableRecord> = named_tables().iter().map(|(_, t)| *t).collect();
    tables.extend((0..40).map(|_| accepted(&mut random)));
    for table in tables {
        let file = table::file_of(&table);
        for length in 0..file.len() {
            let answer = tally.note(read(&file[..length]));
            assert_eq!(answer.map_err(|r| r.reason), Err(Reason::NumberEnds));
        }
        for i in 0..8 * file.len() {
            let mut flipped = file.clone();
            flipped[i / 8] ^= 1 << (i % 8);
            let _ = tally.note(read(&flipped));
        }
        for byte in 0..=255 {
            let answer = tally.note(read(&[&file[..], &[byte]].concat()));
            let expected = Refusal::at(Reason::BytesLeft, end_place(&table));
            assert_eq!(answer, Err(expected));
        }
    }
    tally.report("table files, all truncations, flips of a bit and bytes added");
}

#[test]
fn all_files_of_up_to_two_bytes() {
    let mut tally = Tally::default();
    let _ = tally.note(read(&[]));
    for a in 0..=255 {
        let _ = tally.note(read(&[a]));
        for b in 0..=255 {
            let _ = tally.note(read(&[a, b]));
        }
    }
    tally.report("table files of up to two bytes");
}

/// Every place of the persistent elements, in tables of one to four of them; what is below the ranks also in files.
#[test]
fn each_place_of_the_persistent_elements() {
    let mut tally = Tally::default();
    let masks = [6144, 12_288, 135_168, 405_504];
    for ranks in 1..=MAX_RANKS {
        let table = TableRecord::new(&[141_440], &masks[..ranks]);
        tally.note(check(&table)).expect("accepted");
        for i in 0..MAX_RANKS {
            let before = if i == 0 { 0 } else { masks[i - 1] };
            let used = i < ranks;
            let bad = if used {
                [0, before, ABOVE]
            } else {
                [1, masks[i], u32::MAX]
            };
            let place = if ranks == 1 && i == 0 { 2 } else { 3 + i };
            let expected = Err(Refusal::at(Reason::PersistentRange, place));
            for mask in bad {
                let mut damaged = table;
                damaged.persistents[i] = mask;
                assert_eq!(tally.note(check(&damaged)), expected);
                if used {
                    let file = table::file_of(&damaged);
                    assert_eq!(tally.note(read(&file)).map(drop), expected);
                }
            }
        }
    }
    tally.report("places of the persistent elements");
}

/// 64 elements and four persistent elements of four bytes each.
#[test]
fn longest_file() {
    let corners = [24, 20, 4, 0].map(|position| 1 << position);
    let all: u32 = corners.iter().sum();
    let elements: Vec<u32> = (0..64).map(|k| all | k << 5).collect();
    let table = TableRecord::new(&elements, &corners.map(|corner| MAX_MASK - corner));
    let file = include_bytes!("../../../tests/longest.mtb");
    assert_eq!(file.len(), 275);
    assert_eq!(read(file), Ok(table));
    let short = write(&table, &mut [0; 274]);
    assert_eq!(short, Err(Refusal::of(Reason::AreaShort)));
    let returned = Table::from_file(file).and_then(|t| t.to_file());
    assert_eq!(returned, Ok(file.to_vec()));
    let longer = read(&[&file[..], &[0]].concat());
    assert_eq!(longer, Err(Refusal::at(Reason::BytesLeft, 70)));
}

/// 02's cases (T-07) on tables: elements; persistent elements | the file | number, place, witness, position.
const WITNESSED: &str = "\
    2048 8192; 12288 | 02 80 10 80 40 80 60 | 5 2 1 0
    64 128 256; 12288 | 03 40 80 01 80 02 80 60 | 5 2 1 0
    192 320 768; 12288 | 03 C0 01 C0 02 80 06 80 60 | 5 3 1 0
    65 129 192 16777217; 12288 | 04 41 81 01 C0 01 81 80 80 08 80 60 | 5 4 3 0
    192 320 384 2560; 12288 | 04 C0 01 C0 02 80 03 80 14 80 60 | 5 4 1 0
    2048 8192; 4096 | 02 80 10 80 40 80 20 | 5 2 1 0
    469440; 4096 | 01 C0 D3 1C 80 20 | 7 1 1 12
    469440; 1 | 01 C0 D3 1C 01 | 7 1 1 0
    141440; 12289 | 01 80 D1 08 81 60 | 7 1 1 0
    131200 141440; 12288 | 02 80 81 08 80 D1 08 80 60 | 7 1 1 12
    141440; 12288 266240 | 00 01 80 D1 08 02 80 60 80 A0 10 | 7 1 2 12
    10244 131204; 12288 135168 | 00 02 84 50 84 81 08 02 80 60 80 A0 08 | 7 1 2 12
    469440; 1 2 | 00 01 C0 D3 1C 02 01 02 | 7 1 1 0
    141440; 6144 12288 266240 405504 | 00 01 80 D1 08 04 80 30 80 60 80 A0 10 80 E0 18 | 7 1 3 12
    141440; 6144 12288 1052672 16781312 | 00 01 80 D1 08 04 80 30 80 60 80 A0 40 80 A0 80 08 | 7 1 3 12";

/// Number, place, witness and position of a refusal.
type Numbers = [usize; 4];

/// A case of the list above.
fn witnessed(line: &str) -> (TableRecord, Vec<u8>, Numbers) {
    let parts: Vec<&str> = line.split(['|', ';']).collect();
    let [elements, persistents, file, refusal] = parts[..] else {
        panic!("{line}");
    };
    let numbers = |text: &str| -> Vec<u32> {
        let numbers = text.split_whitespace().map(str::parse);
        numbers.collect::<Result<_, _>>().expect("numbers")
    };
    let table = TableRecord::new(&numbers(elements), &numbers(persistents));
    let refusal: Vec<usize> = numbers(refusal).iter().map(|n| *n as usize).collect();
    let refusal = refusal.try_into().expect("four numbers");
    (table, bytes(file), refusal)
}

/// A table in range, by its elements and its persistent elements.
type Masks = (&'static [u32], &'static [u32]);

/// Cases beside them.
const BESIDE: [(Masks, Numbers); 9] = [
    // {0, 1}, {0, 2}, {1, 2}, and {1, 3}, which shares nothing with the second
    ((&[3, 5, 6, 10], &[12_288]), [5, 4, 2, 0]),
    // {0, 1}, {0, 2}, {0, 3}, and {1, 4}, which shares nothing with the second and the third
    ((&[3, 5, 9, 18], &[12_288]), [5, 4, 2, 0]),
    // {0, 1}, {0, 2}, and {1, 3}; then {2, 4}, which shares nothing with the first
    ((&[3, 5, 10, 20], &[12_288]), [5, 3, 2, 0]),
    // {11, 13, 24} and {7, 17, 24}: two side by side have partners in the first, two one above the other in the second
    ((&[16_787_456, 16_908_416], &[12_288]), [7, 2, 1, 12]),
    (
        (&[16_787_456, 16_908_416], &[12_288, 135_168]),
        [7, 1, 2, 12],
    ),
    // the four neighbours: 12 and 13 are each other's, 24 is alone
    ((&[141_440], &[16_789_504]), [7, 1, 1, 24]),
    // 14 and 15 are at the ends of two rows
    ((&[141_440], &[49_152]), [7, 1, 1, 14]),
    // the lower rank, not the lower position
    ((&[141_440], &[1 << 20, 1 << 24 | 1]), [7, 1, 1, 20]),
    (
        (&[141_440], &[6144, 12_288, 135_168, 405_505]),
        [7, 1, 4, 0],
    ),
];

/// 02's files (T-07) that other numbers refuse.
const OTHERS: [(&str, Numbers); 3] = [
    ("00 02 80 10 80 40 02 80 60 80 A0 08 00", [8, 6, 0, 0]),
    ("00 01 C0 D3 1C 01 80 E0 18", [18, 2, 0, 0]),
    ("", [1, 0, 0, 0]),
];

/// The refusal of a table, the same by every call.
fn refused_by_all(table: &TableRecord) -> Refusal {
    let refusal = check(table).expect_err("refused");
    let (refused, file) = (Err(refusal), table::file_of(table));
    assert_eq!(read(&file).map(drop), refused);
    assert_eq!(write(table, &mut [9; 300]).map(drop), refused);
    assert_eq!(write(table, &mut []).map(drop), refused);
    assert_eq!(load(table), refused);
    assert_eq!(Table::from_record(*table).map(drop), refused);
    assert_eq!(Table::from_file(&file).map(drop), refused);
    refusal
}

#[test]
fn witnesses_of_the_request() {
    for line in WITNESSED.lines() {
        let (table, file, numbers) = witnessed(line);
        assert_eq!(table::file_of(&table), file, "{line}");
        let refusal = refused_by_all(&table);
        assert_eq!(refusal.numbers(), numbers, "{line}");
        let [number, place, witness, position] = numbers;
        let shown = format!("refused {number} {place} {witness} {position}: ");
        assert!(refusal.to_string().starts_with(&shown), "{refusal}");
    }
    for ((elements, persistents), numbers) in BESIDE {
        let table = TableRecord::new(elements, persistents);
        assert_eq!(refused_by_all(&table).numbers(), numbers, "{table:?}");
    }
    for (text, numbers) in OTHERS {
        let refusal = read(&bytes(text)).expect_err("refused");
        assert_eq!(refusal.numbers(), numbers, "{text}");
    }
    let cases = WITNESSED.lines().count() + BESIDE.len() + OTHERS.len();
    report(&format!("witnesses of the request: {cases} cases"));
}

/// The median's 56 elements, and one that shares a position with all but one of them; each position, alone; each rank.
#[test]
fn every_witness() {
    let median = median();
    let elements = &median.elements[..median.count];
    let ring = elements.iter().fold(0, |all, element| all | element);
    for (i, element) in elements.iter().enumerate() {
        let last = 1 << 24 | ring & !element;
        let table = TableRecord::new(&[elements, &[last]].concat(), &median.persistents[..1]);
        let expected = [5, median.count + 1, i + 1, 0];
        assert_eq!(refused_by_all(&table).numbers(), expected);
    }
    for position in 0..25 {
        let table = TableRecord::new(&[ring], &[1 << position]);
        assert_eq!(refused_by_all(&table).numbers(), [7, 1, 1, position]);
    }
    for i in 0..MAX_RANKS {
        let mut persistents = [6144, 12_288, 135_168, 405_504];
        persistents[i] |= 1;
        let table = TableRecord::new(&[141_440], &persistents);
        assert_eq!(refused_by_all(&table).numbers(), [7, 1, i + 1, 0]);
    }
}

/// The positions of a mask as rows and columns, in the order of their numbers.
fn points(mask: u32) -> BTreeSet<(i32, i32)> {
    let numbers = (0..25).filter(|n| mask >> n & 1 == 1);
    numbers.map(|n| (n / 5, n % 5)).collect()
}

/// The position numbers of a persistent element from which no way to a point of it is an offset of the element.
fn alone(persistent: u32, element: u32) -> Vec<usize> {
    let (persistent, element) = (points(persistent), points(element));
    let leads = |b: &(i32, i32), c: &(i32, i32)| element.contains(&(c.0 - b.0 + 2, c.1 - b.1 + 2));
    let lonely = persistent
        .iter()
        .filter(|b| !persistent.iter().any(|c| leads(b, c)));
    lonely.map(|b| (5 * b.0 + b.1) as usize).collect()
}

/// All that 5 and 7 have against a table in range.
fn faults(table: &TableRecord) -> BTreeSet<Numbers> {
    let mut faults = BTreeSet::new();
    for i in 0..table.count {
        let element = table.elements[i];
        for j in 0..i {
            if points(element).is_disjoint(&points(table.elements[j])) {
                faults.insert([5, i + 1, j + 1, 0]);
            }
        }
        for rank in 1..=table.ranks {
            let positions = alone(table.persistents[rank - 1], element);
            faults.extend(positions.iter().map(|n| [7, i + 1, rank, *n]));
        }
    }
    faults
}

/// An accepted table whose elements lose some points and get one in common, so that several ranks miss several elements.
fn thinned(random: &mut Random) -> TableRecord {
    let table = random_table(random, 12);
    let common = 1 << random.below(12);
    let mut elements = table.elements[..table.count].to_vec();
    for element in &mut elements {
        let lost: u32 = (0..25).filter(|_| random.percent(10)).map(|n| 1 << n).sum();
        *element = *element & !lost | common;
    }
    elements.sort_unstable();
    elements.dedup();
    TableRecord::new(&elements, &table.persistents[..table.ranks])
}

/// Whether a lower rank than the one that is named misses a later element.
fn is_crossed(refusal: &Refusal, faults: &BTreeSet<Numbers>) -> bool {
    let lower = |&[number, _, rank, _]: &Numbers| number == 7 && rank < refusal.witness;
    refusal.reason == Reason::NotPersistent && faults.iter().any(lower)
}

/// The refusal is the least of all faults: 5 before 7, then by place, witness and position.
#[test]
fn least_fault() {
    let mut random = Random::new(14);
    let mut refusals = Vec::new();
    let (mut several, mut crossed) = (0, 0);
    for case in 0..30_000 {
        let table = match case % 3 {
            0 => in_range(&mut random),
            1 => misses(&mut random),
            _ => thinned(&mut random),
        };
        match check(&table).map_err(|refusal| refusal.reason) {
            Ok(()) => assert!(faults(&table).is_empty(), "{table:?}"),
            Err(Reason::ElementsDisjoint | Reason::NotPersistent) => {
                let (faults, refusal) = (faults(&table), refused_by_all(&table));
                assert_eq!(faults.first(), Some(&refusal.numbers()), "{table:?}");
                several += usize::from(faults.len() > 1);
                crossed += usize::from(is_crossed(&refusal, &faults));
                refusals.push(refusal);
            }
            Err(_) => {} // out of range
        }
    }
    let refused = refusals.len();
    report(&format!(
        "tables refused by 5 and 7: {refused}, with several faults: {several}, with a lower rank that misses later: {crossed}"
    ));
    assert!(several >= refused / 2 && crossed >= 500);
    assert_all_seen(&refusals);
}

/// Many places and witnesses, every rank and every position.
fn assert_all_seen(refusals: &[Refusal]) {
    let seen = |reason, field: fn(&Refusal) -> usize| -> BTreeSet<usize> {
        let given = refusals.iter().filter(|refusal| refusal.reason == reason);
        given.map(field).collect()
    };
    assert!(seen(Reason::ElementsDisjoint, |r| r.place).len() >= 10);
    assert!(seen(Reason::ElementsDisjoint, |r| r.witness).len() >= 5);
    assert!(seen(Reason::NotPersistent, |r| r.place).len() >= 20);
    let ranks = seen(Reason::NotPersistent, |r| r.witness);
    assert!(ranks.into_iter().eq(1..=MAX_RANKS));
    let positions = seen(Reason::NotPersistent, |r| r.position);
    assert!(positions.into_iter().eq(0..25));
}
