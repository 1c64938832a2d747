//! The wrapper's names and limits are those of `include/mask_cleaner.h`.

use mask_cleaner::{Reason, MAX_CHANNELS, MAX_ELEMENTS, MAX_IMAGE_FILE, MAX_PARTS, MAX_PIXELS};
use mask_cleaner::{MAX_RANKS, MAX_SIDE, MAX_STRIP_PIXELS, MAX_TABLE_FILE};
use std::collections::BTreeMap;

const HEADER: &str = include_str!("../../../include/mask_cleaner.h");

/// The numbers that the header defines between two of its sections, by name without `MASK_`.
fn defined(from: &str, to: &str) -> BTreeMap<String, usize> {
    let (_, behind) = HEADER.split_once(from).expect("a section");
    let (section, _) = behind.split_once(to).expect("another section");
    let define = |line: &str| {
        let mut words = line.strip_prefix("#define MASK_")?.split_whitespace();
        Some((words.next()?.to_string(), words.next()?.parse().ok()?))
    };
    section.lines().filter_map(define).collect()
}

/// `NumberEnds` as `NUMBER_ENDS`.
fn in_c(name: &str) -> String {
    let mut text = String::new();
    for (i, character) in name.char_indices() {
        if character.is_uppercase() && i > 0 {
            text.push('_');
        }
        text.push(character.to_ascii_uppercase());
    }
    text
}

#[test]
fn reasons() {
    let mut expected = defined("---- refusals", "---- records");
    assert_eq!(expected.remove("ACCEPTED"), Some(0));
    let named = |reason: &Reason| (in_c(&format!("{reason:?}")), reason.number() as usize);
    let found: BTreeMap<String, usize> = Reason::ALL.iter().map(named).collect();
    assert_eq!(found, expected);
    for number in (0..1000).chain([u32::MAX]) {
        let reason = Reason::from_number(number);
        assert_eq!(reason.number(), number);
        assert_eq!(
            Reason::ALL.contains(&reason),
            !matches!(reason, Reason::Unlisted(_))
        );
        assert!(!reason.to_string().is_empty());
    }
}

#[test]
fn limits() {
    let limits = defined("---- limits", "---- refusals");
    let found = [
        ("MAX_ELEMENTS", MAX_ELEMENTS),
        ("MAX_RANKS", MAX_RANKS),
        ("MAX_SIDE", MAX_SIDE),
        ("MAX_PIXELS", MAX_PIXELS),
        ("MAX_TABLE_FILE", MAX_TABLE_FILE),
        ("MAX_IMAGE_FILE", MAX_IMAGE_FILE),
        ("MAX_PARTS", MAX_PARTS),
        ("MAX_ROWS", MAX_PARTS * MAX_SIDE),
        ("MAX_STRIP_PIXELS", MAX_STRIP_PIXELS),
        ("MAX_STRIP_FILES", MAX_PARTS * MAX_IMAGE_FILE),
        ("MAX_CHANNELS", MAX_CHANNELS),
    ];
    assert_eq!(
        limits,
        found.map(|(name, limit)| (name.to_string(), limit)).into()
    );
}
