//! Sheets and masks as text.

use mask_cleaner::Image;

/// The side of the window, and the number of its positions.
pub const SIDE: usize = 5;
pub const POSITIONS: usize = 25;

/// The position of the pixel itself.
pub const CENTRE: usize = 12;

/// The characters of a drawing: a position that is in or out, and the centre in or out.
pub const IN: char = '#';
pub const OUT: char = '.';
pub const CENTRE_IN: char = '@';
pub const CENTRE_OUT: char = '+';

/// A sheet, two rows of pixels to a line.
pub fn of_sheet(image: &Image) -> String {
    let mut text = String::new();
    let mut rows = image.rows();
    while let Some(upper) = rows.next() {
        let lower = rows
            .next()
            .unwrap_or_default()
            .iter()
            .chain(std::iter::repeat(&0));
        let line: String = upper.iter().zip(lower).map(half_blocks).collect();
        text.push_str(line.trim_end());
        text.push('\n');
    }
    text
}

/// Two pixels, one above the other.
fn half_blocks((upper, lower): (&u8, &u8)) -> char {
    match (upper, lower) {
        (0, 0) => ' ',
        (0, _) => '▄',
        (_, 0) => '▀',
        _ => '█',
    }
}

/// The five rows of a mask.
pub fn of_mask(mask: u32) -> Vec<String> {
    let shifted = std::iter::successors(Some(mask), |rest| Some(rest >> 1));
    let is_in = shifted.map(|rest| rest & 1 == 1);
    let characters: Vec<char> = (0..POSITIONS).zip(is_in).map(character).collect();
    let rows = characters.chunks(SIDE);
    rows.map(|row| row.iter().collect()).collect()
}

fn character((position, is_in): (usize, bool)) -> char {
    match (position == CENTRE, is_in) {
        (false, true) => IN,
        (false, false) => OUT,
        (true, true) => CENTRE_IN,
        (true, false) => CENTRE_OUT,
    }
}

/// Pictures of masks side by side, each below its title.
pub fn of_masks(titled: &[(String, u32)]) -> String {
    let wide = titled.iter().map(|(title, _)| title.len()).max();
    let wide = wide.unwrap_or(0).max(SIDE);
    let mut lines = vec![String::new(); SIDE + 1];
    for (title, mask) in titled {
        let column = std::iter::once(title.clone()).chain(of_mask(*mask));
        for (line, cell) in lines.iter_mut().zip(column) {
            line.push_str(&format!("{cell:wide$}   "));
        }
    }
    lines
        .iter()
        .map(|line| format!("{}\n", line.trim_end()))
        .collect()
}
