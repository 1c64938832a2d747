//! One pass as a programmer would write it at once: the opening map first, each translate judged once and spread,
//! then the pixels that are not opened, each element with an early exit.
//!
//! A pixel that is opened never changes: its translate has, by persistence, a pixel of each element at it.

use crate::table::offsets;
use mask_cleaner::TableRecord;

/// An offset (dx, dy).
type Offset = (i32, i32);

/// A table made ready for passes over images of one size.
pub struct Filter {
    width: usize,
    height: usize,
    elements: Vec<Vec<Offset>>,
    /// The elements as differences of indices, for pixels at least two away from the edge.
    steps: Vec<Vec<isize>>,
    persistents: Vec<Vec<Offset>>,
    opened: Vec<u8>,
}

/// Codes of the opening map: 0, or the value opened for, plus 1.
const NOT_OPENED: u8 = 0;

impl Filter {
    /// For an accepted table and a size from 1 × 1 to 256 × 4096, a strip's.
    pub fn new(table: &TableRecord, width: usize, height: usize) -> Filter {
        let elements = lists(&table.elements[..table.count]);
        let step = |&(dx, dy): &Offset| dy as isize * width as isize + dx as isize;
        Filter {
            width,
            height,
            steps: elements
                .iter()
                .map(|e| e.iter().map(step).collect())
                .collect(),
            elements,
            persistents: lists(&table.persistents[..table.ranks]),
            opened: vec![NOT_OPENED; width * height],
        }
    }

    /// One pass from `image` to `next`; the numbers of added and removed pixels.
    pub fn pass(&mut self, image: &[u8], next: &mut [u8]) -> (usize, usize) {
        self.open(image);
        next.copy_from_slice(image);
        let mut changed = [0; 2];
        for y in 0..self.height {
            for x in 0..self.width {
                let p = y * self.width + x;
                if self.opened[p] == NOT_OPENED && self.changes(x, y, 2 - image[p]) {
                    next[p] = 1 - image[p];
                    changed[usize::from(image[p])] += 1;
                }
            }
        }
        (changed[0], changed[1])
    }

    /// Passes from `image` until nothing changes, `other` being the second area; passes, added and removed.
    pub fn run(&mut self, image: &mut [u8], other: &mut [u8]) -> (usize, usize, usize) {
        let (mut from, mut to) = (image, other);
        let mut totals = (0, 0, 0);
        loop {
            let (added, removed) = self.pass(from, to);
            if added + removed == 0 {
                return totals;
            }
            totals = (totals.0 + 1, totals.1 + added, totals.2 + removed);
            std::mem::swap(&mut from, &mut to);
        }
    }

    /// Fills the opening map, by each persistent element in turn.
    fn open(&mut self, image: &[u8]) {
        self.opened.fill(NOT_OPENED);
        let size = (self.width as i32, self.height as i32);
        for persistent in &self.persistents {
            open_for(persistent, image, size, &mut self.opened);
        }
    }

    /// Whether some element at (x, y) has the code throughout.
    fn changes(&self, x: usize, y: usize, code: u8) -> bool {
        let inner = |at, side| at >= 2 && at + 2 < side;
        if inner(x, self.width) && inner(y, self.height) {
            let p = y * self.width + x;
            let opened = |step: &isize| self.opened[p.wrapping_add_signed(*step)] == code;
            self.steps.iter().any(|e| e.iter().all(opened))
        } else {
            let opened = |o: &Offset| self.opened[self.nearest(x, y, *o)] == code;
            self.elements.iter().any(|e| e.iter().all(opened))
        }
    }

    /// The index of the offset's pixel, row and column each cut to the range.
    fn nearest(&self, x: usize, y: usize, (dx, dy): Offset) -> usize {
        let x = (x as i32 + dx).clamp(0, self.width as i32 - 1);
        let y = (y as i32 + dy).clamp(0, self.height as i32 - 1);
        y as usize * self.width + x as usize
    }
}

/// Each translate that lies wholly inside is judged once and spread.
fn open_for(persistent: &[Offset], image: &[u8], (width, height): (i32, i32), opened: &mut [u8]) {
    let (left, right) = range(persistent.iter().map(|o| o.0));
    let (top, bottom) = range(persistent.iter().map(|o| o.1));
    for y in -top..height - bottom {
        for x in -left..width - right {
            let at = |&(dx, dy): &Offset| ((y + dy) * width + x + dx) as usize;
            let value = image[at(&persistent[0])];
            if persistent.iter().all(|o| image[at(o)] == value) {
                for o in persistent {
                    opened[at(o)] = value + 1;
                }
            }
        }
    }
}

/// The masks as lists of offsets.
fn lists(masks: &[u32]) -> Vec<Vec<Offset>> {
    let pairs = |mask: &u32| {
        let offsets = offsets(*mask).into_iter();
        offsets.map(|o| (o.dx as i32, o.dy as i32)).collect()
    };
    masks.iter().map(pairs).collect()
}

/// The least and the greatest of some numbers.
fn range(numbers: impl Iterator<Item = i32> + Clone) -> (i32, i32) {
    let least = numbers.clone().min().unwrap_or(0);
    (least, numbers.max().unwrap_or(0))
}
