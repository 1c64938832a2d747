//! 01, "One pass": covered, the pass, the plain rule, the preview. By definition, with nothing remembered.

use crate::image::{self, Image};
use crate::table::{offsets, Offset};
use mask_cleaner::{Refusal, TableRecord};

/// A place that may lie outside the image.
#[derive(Clone, Copy)]
struct Place {
    x: isize,
    y: isize,
}

impl Place {
    fn plus(self, offset: Offset) -> Place {
        Place {
            x: self.x + offset.dx,
            y: self.y + offset.dy,
        }
    }

    fn minus(self, offset: Offset) -> Place {
        Place {
            x: self.x - offset.dx,
            y: self.y - offset.dy,
        }
    }
}

fn inside(image: &Image, place: Place) -> bool {
    let columns = 0..image.width as isize;
    let rows = 0..image.height as isize;
    columns.contains(&place.x) && rows.contains(&place.y)
}

/// The value at a place inside.
fn value(image: &Image, place: Place) -> u8 {
    image.pixels[place.y as usize * image.width + place.x as usize]
}

/// The edge rule: row and column each cut to the range.
fn nearest(image: &Image, place: Place) -> Place {
    Place {
        x: place.x.clamp(0, image.width as isize - 1),
        y: place.y.clamp(0, image.height as isize - 1),
    }
}

/// Covered by any of the persistent elements.
fn covered(image: &Image, persistents: &[Vec<Offset>], place: Place, v: u8) -> bool {
    persistents.iter().any(|k| covered_by(image, k, place, v))
}

/// Some translate of the persistent element contains the place, lies wholly inside and has value v throughout.
fn covered_by(image: &Image, persistent: &[Offset], place: Place, v: u8) -> bool {
    persistent.iter().any(|b| {
        let origin = place.minus(*b);
        persistent.iter().all(|k| {
            let other = origin.plus(*k);
            inside(image, other) && value(image, other) == v
        })
    })
}

/// The masks of a table as lists of offsets.
struct Offsets {
    elements: Vec<Vec<Offset>>,
    persistents: Vec<Vec<Offset>>,
}

impl Offsets {
    fn of(table: &TableRecord) -> Offsets {
        Offsets {
            elements: lists(&table.elements[..table.count]),
            persistents: lists(&table.persistents[..table.ranks]),
        }
    }
}

fn lists(masks: &[u32]) -> Vec<Vec<Offset>> {
    masks.iter().map(|mask| offsets(*mask)).collect()
}

/// Some element has all its offsets, taken at the place by the edge rule, where the condition holds.
fn some_element(
    image: &Image,
    elements: &[Vec<Offset>],
    place: Place,
    condition: impl Fn(Place) -> bool,
) -> bool {
    elements.iter().any(|element| {
        element
            .iter()
            .all(|offset| condition(nearest(image, place.plus(*offset))))
    })
}

/// One pass by an accepted table; every pixel is judged on the given image.
pub fn one_pass(image: &Image, table: &TableRecord) -> Image {
    let masks = Offsets::of(table);
    map(image, |place| {
        let v = value(image, place);
        let other = |q| covered(image, &masks.persistents, q, 1 - v);
        if some_element(image, &masks.elements, place, other) {
            1 - v
        } else {
            v
        }
    })
}

/// The plain rule: "of value 1 − v" in place of "covered".
pub fn plain(image: &Image, elements: &[u32]) -> Image {
    let elements = lists(elements);
    map(image, |place| {
        let v = value(image, place);
        let other = |q| value(image, q) == 1 - v;
        if some_element(image, &elements, place, other) {
            1 - v
        } else {
            v
        }
    })
}

fn map(image: &Image, judge: impl Fn(Place) -> u8) -> Image {
    Image::from_fn(image.width, image.height, |x, y| {
        judge(Place {
            x: x as isize,
            y: y as isize,
        })
    })
}

/// The 56 five-point subsets of the eight neighbours, rising.
pub fn median_elements() -> Vec<u32> {
    let near = |o: &Offset| o.dx.abs() <= 1 && o.dy.abs() <= 1 && (o.dx, o.dy) != (0, 0);
    let neighbours: Vec<u32> = Offset::all()
        .filter(near)
        .map(|o| 1 << o.position())
        .collect();
    let mut subsets: Vec<u32> = (0u32..256)
        .filter(|choice| choice.count_ones() == 5)
        .map(|choice| {
            (0..8)
                .filter(|i| choice >> i & 1 == 1)
                .map(|i| neighbours[i])
                .sum()
        })
        .collect();
    subsets.sort_unstable();
    subsets
}

/// The preview: the plain rule of the 56 subsets; refuses as the image writer does.
pub fn preview(width: usize, height: usize, pixels: &[u8], area: &mut [u8]) -> Result<(), Refusal> {
    let image = image::check(width, height, pixels)?;
    image::fill(area, &plain(&image, &median_elements()).pixels)
}

/// The passes until nothing changes, and the stable image.
pub fn rest(image: &Image, table: &TableRecord) -> (usize, Image) {
    let (mut passes, mut image) = (0, image.clone());
    loop {
        let next = one_pass(&image, table);
        if next == image {
            return (passes, image);
        }
        (passes, image) = (passes + 1, next);
    }
}

/// How many pixels go from 0 to 1 and from 1 to 0 between two images of a size.
pub fn changes(before: &Image, after: &Image) -> (usize, usize) {
    let count = |from, to| {
        let pairs = before.pixels.iter().zip(&after.pixels);
        pairs.filter(|(b, a)| (**b, **a) == (from, to)).count()
    };
    (count(0, 1), count(1, 0))
}
