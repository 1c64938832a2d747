//! Tables and images for tests and benchmark: the tables of 01 and 02, random accepted ones, kinds of images, and cuts into parts.

use crate::image::Image;
use crate::pass::median_elements;
use crate::table::{offsets, Offset};
use mask_cleaner::{TableRecord, MAX_PARTS, MAX_RANKS, MAX_SIDE};

/// A small generator of random numbers (splitmix64): the same seed gives the same cases.
pub struct Random(u64);

impl Random {
    pub fn new(seed: u64) -> Random {
        Random(seed)
    }

    pub fn number(&mut self) -> u64 {
        self.0 = self.0.wrapping_add(0x9E37_79B9_7F4A_7C15);
        let mut z = self.0;
        z = (z ^ (z >> 30)).wrapping_mul(0xBF58_476D_1CE4_E5B9);
        z = (z ^ (z >> 27)).wrapping_mul(0x94D0_49BB_1331_11EB);
        z ^ (z >> 31)
    }

    /// A number below the bound, which is not 0.
    pub fn below(&mut self, bound: usize) -> usize {
        (self.number() % bound as u64) as usize
    }

    pub fn byte(&mut self) -> u8 {
        self.number() as u8
    }

    pub fn bytes(&mut self, length: usize) -> Vec<u8> {
        (0..length).map(|_| self.byte()).collect()
    }

    /// An output before a call: no byte is zero, so that one that is left alone or added to shows.
    pub fn output(&mut self, length: usize) -> Vec<u8> {
        (0..length).map(|_| 1 + self.below(255) as u8).collect()
    }

    /// True in so many of a hundred cases.
    pub fn percent(&mut self, percent: usize) -> bool {
        self.below(100) < percent
    }

    pub fn choose<'a, T>(&mut self, items: &'a [T]) -> &'a T {
        &items[self.below(items.len())]
    }
}

/// 01's ring: the eight neighbours, kept by 2 × 2.
pub fn ring() -> TableRecord {
    TableRecord::new(&[469_440], &[405_504])
}

/// 01's cross: the four neighbours, kept by two side by side.
pub fn cross() -> TableRecord {
    TableRecord::new(&[141_440], &[12_288])
}

/// 02's table for cobbles (T-01): the cross, kept by two side by side and by two one above the other.
pub fn cobbles() -> TableRecord {
    TableRecord::new(&[141_440], &[12_288, 135_168])
}

/// 02's table that sees six rows far (T-09): the pixels two above and two below, kept by five in a column.
pub fn long_column() -> TableRecord {
    TableRecord::new(&[4_194_308], &[4_329_604])
}

/// The same turned: six columns.
pub fn long_row() -> TableRecord {
    TableRecord::new(&[17_408], &[31_744])
}

/// 01's median: the 56 five-point subsets, kept by 4 × 4 without corners.
pub fn median() -> TableRecord {
    TableRecord::new(&median_elements(), &[13_597_056])
}

pub fn named_tables() -> [(&'static str, TableRecord); 4] {
    [
        ("ring", ring()),
        ("cross", cross()),
        ("median", median()),
        ("cobbles", cobbles()),
    ]
}

/// Tables whose runs take many passes: two of one element, then of two, three and six.
pub fn lasting_tables() -> [TableRecord; 5] {
    [
        TableRecord::new(&[173_187], &[270_336, 14_680_064, 16_220_160]),
        TableRecord::new(&[4_325_504], &[8_448, 1_082_400, 17_302_016]),
        TableRecord::new(&[10_305, 10_369], &[192, 98_304, 548_864, 25_952_256]),
        TableRecord::new(&[131_204, 4_194_436, 4_325_380], &[2_099_266]),
        TableRecord::new(
            &[
                1_066_048, 1_180_256, 1_197_312, 1_458_560, 1_574_656, 1_656_832,
            ],
            &[468_992],
        ),
    ]
}

/// A random table that the rules accept, of at most so many elements, with one to four persistent elements.
pub fn random_table(random: &mut Random, most: usize) -> TableRecord {
    let persistents = random_persistents(random);
    let elements = random_elements(random, &persistents, most);
    TableRecord::new(&elements, &persistents)
}

/// One to four masks, rising, each of which is persistent for some element.
fn random_persistents(random: &mut Random) -> Vec<u32> {
    let ranks = 1 + random.below(MAX_RANKS);
    let mut masks = Vec::new();
    while masks.len() < ranks {
        let mask = random_persistent(random);
        let partners = partners(mask);
        let possible = !partners.is_empty() && !partners.contains(&0);
        if possible && !masks.contains(&mask) {
            masks.push(mask);
        }
    }
    masks.sort_unstable();
    masks
}

/// A mask of some points of a random box.
fn random_persistent(random: &mut Random) -> u32 {
    let (left, top) = (random.below(5), random.below(5));
    let (right, bottom) = (left + random.below(5), top + random.below(5));
    let share = *random.choose(&[50, 80, 100]);
    let mut mask = 0;
    for position in 0..25 {
        let (column, row) = (position % 5, position / 5);
        let in_box = (left..=right).contains(&column) && (top..=bottom).contains(&row);
        if in_box && random.percent(share) {
            mask |= 1 << position;
        }
    }
    mask
}

/// At least one element, rising, each two sharing a position, for which all the masks are persistent.
fn random_elements(random: &mut Random, persistents: &[u32], most: usize) -> Vec<u32> {
    let partners: Vec<u32> = persistents.iter().flat_map(|k| partners(*k)).collect();
    let wanted = 1 + random.below(most);
    let more = *random.choose(&[0, 0, 10, 30]);
    let common = if random.percent(50) {
        random_position(random)
    } else {
        0
    };
    let mut elements: Vec<u32> = Vec::new();
    for _ in 0..6 * wanted {
        let element = common | random_points(random, more);
        let element = partners
            .iter()
            .fold(element, |e, p| with_one_of(random, e, *p));
        let shares = elements.iter().all(|e| e & element != 0);
        if shares && !elements.contains(&element) && elements.len() < wanted {
            elements.push(element);
        }
    }
    elements.sort_unstable();
    elements
}

/// For each offset b of the mask, the positions a (the centre left out) with b + a in it, as a mask.
/// The mask is persistent for an element that shares a position with each of these.
fn partners(persistent: u32) -> Vec<u32> {
    let stays = |b: Offset, a: Offset| b.plus(a).is_some_and(|sum| sum.is_in(persistent));
    let of = |b: Offset| {
        let partners = Offset::all().filter(|a| (a.dx, a.dy) != (0, 0) && stays(b, *a));
        partners.map(|a| 1 << a.position()).sum()
    };
    offsets(persistent).into_iter().map(of).collect()
}

/// The element, with one more position where it has none of the partners.
fn with_one_of(random: &mut Random, element: u32, partners: u32) -> u32 {
    if element & partners != 0 {
        return element;
    }
    let positions: Vec<u32> = (0..25).filter(|i| partners >> i & 1 == 1).collect();
    element | 1 << random.choose(&positions)
}

/// One position that is not the centre, as a mask.
fn random_position(random: &mut Random) -> u32 {
    let position = random.below(24);
    1 << if position < 12 {
        position
    } else {
        position + 1
    }
}

/// Each position but the centre in so many of a hundred cases.
fn random_points(random: &mut Random, percent: usize) -> u32 {
    let centre = 12;
    let points = (0..25).filter(|i| random.percent(percent) && *i != centre);
    points.map(|i| 1 << i).sum()
}

/// The opposite of each position of a mask: as far from the centre, on the other side of it.
pub fn opposite(mask: u32) -> u32 {
    mask.reverse_bits() >> 7
}

/// The kinds of images.
#[derive(Clone, Copy, Debug, PartialEq, Eq)]
pub enum Kind {
    White,
    Black,
    Chessboard,
    Stripes,
    /// Stripes of which 5 in 100 pixels are exchanged.
    Worn,
    /// 5 in 100 pixels black.
    Sparse,
    /// 5 in 100 pixels white.
    Dense,
    /// 1 in 2 pixels black.
    Noise,
    /// Squares of 4 × 4 pixels, of which 5 in 100 pixels are exchanged.
    Blocks,
}

impl Kind {
    pub const ALL: [Kind; 9] = [
        Kind::White,
        Kind::Black,
        Kind::Chessboard,
        Kind::Stripes,
        Kind::Worn,
        Kind::Sparse,
        Kind::Dense,
        Kind::Noise,
        Kind::Blocks,
    ];

    pub fn image(self, width: usize, height: usize, random: &mut Random) -> Image {
        let seed = random.number();
        Image::from_fn(width, height, |x, y| match self {
            Kind::White => 0,
            Kind::Black => 1,
            Kind::Chessboard => ((x + y) % 2) as u8,
            Kind::Stripes => stripe(x),
            Kind::Worn => stripe(x) ^ u8::from(random.percent(5)),
            Kind::Sparse => u8::from(random.percent(5)),
            Kind::Dense => u8::from(random.percent(95)),
            Kind::Noise => u8::from(random.percent(50)),
            Kind::Blocks => block(x, y, seed) ^ u8::from(random.percent(5)),
        })
    }
}

/// Upright stripes of eight pixels.
fn stripe(x: usize) -> u8 {
    (x / 8 % 2) as u8
}

/// A square's colour, from its place and a seed.
fn block(x: usize, y: usize, seed: u64) -> u8 {
    let place = (64 * (y / 4) + x / 4) as u64;
    (Random::new(seed ^ place).number() & 1) as u8
}

/// Stripes, diagonals, rectangles, blocks or rings of a random size, in either colour, with single pixels or noise on them.
pub fn random_figure(width: usize, height: usize, random: &mut Random) -> Image {
    let (across, down) = (1 + random.below(12), 1 + random.below(12));
    let (shape, colour, seed) = (random.below(7), random.below(2), random.number());
    let (left, top) = (random.below(4), random.below(4));
    let percent = *random.choose(&[0, 0, 5, 8, 15]);
    Image::from_fn(width, height, |x, y| {
        let figure = match shape {
            0 | 1 => 0,
            2 => x / across,
            3 => (x + y) / across,
            4 => x / across + y / down,
            5 => Random::new(seed ^ (512 * (y / down) + x / across) as u64).below(2),
            _ => ring_and_point(x % 8, y % 8),
        };
        let spot = if percent == 0 {
            x % 4 == left && y % 4 == top
        } else {
            random.percent(percent)
        };
        ((figure + colour + usize::from(spot)) % 2) as u8
    })
}

/// A square ring with a point in it.
fn ring_and_point(x: usize, y: usize) -> usize {
    let inside = |from, to| (from..=to).contains(&x) && (from..=to).contains(&y);
    usize::from(inside(1, 5) && !inside(2, 4) || inside(3, 3))
}

/// An image of a random kind, or a figure.
pub fn random_image(width: usize, height: usize, random: &mut Random) -> Image {
    if random.percent(30) {
        return random_figure(width, height, random);
    }
    let kind = *random.choose(&Kind::ALL);
    kind.image(width, height, random)
}

/// A random cut of 1 to 4096 rows into parts: their heights, each 1 to 256. Often one is high and others have a row or two.
pub fn random_cut(rows: usize, random: &mut Random) -> Vec<usize> {
    let least = rows.div_ceil(MAX_SIDE);
    let parts = least + random.below(MAX_PARTS.min(rows) + 1 - least);
    let (mut heights, mut left) = (Vec::new(), rows);
    for behind in (0..parts).rev() {
        let low = left.saturating_sub(behind * MAX_SIDE).max(1);
        let high = MAX_SIDE.min(left - behind);
        let height = low + random.below(high + 1 - low);
        heights.push(height);
        left -= height;
    }
    if random.percent(50) {
        heights.reverse();
    }
    heights
}
