//! Passes and whole jobs: the library beside the reference by definition, pass by pass, over sizes, kinds of images and tables.

mod common;

use common::compare::{compare, compare_with_filter, some_table, Counts};
use common::{report, State};
use mask_cleaner::library;
use mask_cleaner::{JobRecord, StripRecord, TableRecord, MAX_RANKS};
use reference::cases::{
    cobbles, cross, named_tables, random_cut, random_figure, random_image, random_table, Kind,
    Random,
};
use reference::image::{file_of, Image};
use reference::model::{Answer, Call};
use reference::pass::one_pass;
use reference::strip::files_of;

#[test]
fn all_small_sizes() {
    let mut random = Random::new(40);
    let mut counts = Counts::default();
    for width in 1..=17 {
        for height in 1..=17 {
            for (_, table) in named_tables() {
                let image = random_image(width, height, &mut random);
                compare(&image, &table, 400, &mut random, &mut counts);
            }
            for _ in 0..16 {
                let table = some_table(&mut random);
                let image = random_image(width, height, &mut random);
                compare(&image, &table, 400, &mut random, &mut counts);
            }
        }
    }
    counts.report("all sizes from 1 to 17");
}

#[test]
fn figures() {
    let mut random = Random::new(47);
    let mut counts = Counts::default();
    for case in 0..12_000 {
        let (width, height) = match case % 8 {
            0 => (1 + random.below(256), 1 + random.below(6)),
            1 => (1 + random.below(6), 1 + random.below(256)),
            2 => (1 + random.below(33), 1 + random.below(33)),
            _ => (1 + random.below(17), 1 + random.below(17)),
        };
        let table = some_table(&mut random);
        let image = random_figure(width, height, &mut random);
        compare(&image, &table, 400, &mut random, &mut counts);
    }
    counts.report("figures");
    assert!(counts.changing >= counts.jobs / 3, "too few passes change");
}

#[test]
fn all_kinds() {
    let mut random = Random::new(41);
    let mut counts = Counts::default();
    for kind in Kind::ALL {
        for (_, table) in named_tables() {
            for (width, height) in [(23, 19), (40, 9), (31, 33)] {
                let image = kind.image(width, height, &mut random);
                compare(&image, &table, 400, &mut random, &mut counts);
            }
        }
        for _ in 0..150 {
            let table = random_table(&mut random, 64);
            let (width, height) = (1 + random.below(32), 1 + random.below(32));
            let image = kind.image(width, height, &mut random);
            compare(&image, &table, 400, &mut random, &mut counts);
        }
    }
    counts.report("all kinds of images");
}

#[test]
fn large_sizes() {
    let mut random = Random::new(42);
    let mut counts = Counts::default();
    let sides = [1, 2, 3, 5, 63, 64, 65, 127, 128, 129, 255, 256];
    for width in sides {
        for height in sides {
            let table = some_table(&mut random);
            let image = random_image(width, height, &mut random);
            compare(&image, &table, 4, &mut random, &mut counts);
        }
    }
    for (_, table) in named_tables() {
        for kind in Kind::ALL {
            let image = kind.image(256, 256, &mut random);
            compare(&image, &table, 2, &mut random, &mut counts);
        }
    }
    counts.report("sizes around 64, 128 and 256");
}

/// Every image of a size.
fn every_image(width: usize, height: usize) -> impl Iterator<Item = Image> {
    let pixel = move |bits: usize, x, y| (bits >> (y * width + x) & 1) as u8;
    (0..1usize << (width * height))
        .map(move |bits| Image::from_fn(width, height, |x, y| pixel(bits, x, y)))
}

#[test]
fn every_image_of_a_few_pixels() {
    let mut random = Random::new(43);
    let mut counts = Counts::default();
    let mut tables: Vec<TableRecord> = named_tables().iter().map(|(_, t)| *t).collect();
    tables.extend((0..5).map(|_| random_table(&mut random, 8)));
    for (width, height) in [
        (1, 1),
        (2, 1),
        (1, 3),
        (2, 2),
        (3, 2),
        (3, 3),
        (2, 4),
        (8, 1),
    ] {
        for image in every_image(width, height) {
            for table in &tables {
                compare(&image, table, 20, &mut random, &mut counts);
            }
        }
    }
    for image in every_image(5, 3) {
        for table in [cross(), cobbles()] {
            compare(&image, &table, 20, &mut random, &mut counts);
        }
    }
    counts.report("every image of a few pixels");
}

/// The table without one of its persistent elements.
fn without(table: &TableRecord, i: usize) -> TableRecord {
    let mut persistents = table.persistents[..table.ranks].to_vec();
    persistents.remove(i);
    TableRecord::new(&table.elements[..table.count], &persistents)
}

/// Tables of one to four persistent elements, each of which is often needed: a pass without it gives another image.
#[test]
fn every_persistent_element() {
    let mut random = Random::new(48);
    let mut counts = Counts::default();
    let mut needed = [[0; MAX_RANKS]; MAX_RANKS];
    for _ in 0..4000 {
        let table = random_table(&mut random, 16);
        let (width, height) = (1 + random.below(20), 1 + random.below(20));
        let image = random_image(width, height, &mut random);
        compare(&image, &table, 400, &mut random, &mut counts);
        let next = one_pass(&image, &table);
        let needed = &mut needed[table.ranks - 1][..table.ranks];
        for (i, times) in needed.iter_mut().enumerate() {
            *times += usize::from(one_pass(&image, &without(&table, i)) != next);
        }
    }
    counts.report("tables of one to four persistent elements");
    report(&format!(
        "  each was needed, of one, two, three, four: {needed:?}"
    ));
    for (i, times) in needed.iter().enumerate() {
        assert!(times[..=i].iter().all(|n| *n >= 20), "{times:?}");
    }
}

#[test]
fn runs_on_large_images() {
    let mut random = Random::new(44);
    let (mut jobs, mut passes) = (0, 0);
    for case in 0..240 {
        let (width, height) = match case % 3 {
            0 => (256, 256),
            1 => (200 + random.below(57), 1 + random.below(256)),
            _ => (1 + random.below(256), 200 + random.below(57)),
        };
        let table = some_table(&mut random);
        let image = random_image(width, height, &mut random);
        passes += compare_with_filter(&image, &table, &mut random);
        jobs += 1;
    }
    report(&format!(
        "runs on large images: {jobs} jobs, {passes} passes"
    ));
}

#[test]
fn nothing_outside_the_areas() {
    const GUARD: usize = 64;
    let mut random = Random::new(45);
    let cases = 300;
    for case in 0..cases {
        let (width, height) = (1 + random.below(40), 1 + random.below(40));
        let pixels = width * height;
        let image = random_image(width, height, &mut random);
        let (file, cut) = (file_of(&image), random_cut(height, &mut random));
        let heights = if case % 3 == 2 { &cut[..] } else { &[height] };
        let length = files_of(&image, heights).len();
        let table = some_table(&mut random);
        let mut first = vec![0xA5; pixels + 2 * GUARD];
        let mut second = vec![0x5A; pixels + 2 * GUARD];
        let mut out = vec![0xC3; length + 2 * GUARD];
        let inner = GUARD..GUARD + pixels;
        let mut record = JobRecord::EMPTY;
        let (one, two) = (&mut first[inner.clone()], &mut second[inner]);
        let loaded = match case % 3 {
            0 => library::load(&mut record, &table, &file, one, two),
            1 => library::load_three(&mut record, &table, [&file; 3], one, two),
            _ => {
                let strip = StripRecord::new(width, heights);
                library::load_strip(&mut record, &table, &strip, &image.pixels, one, two)
            }
        };
        loaded.expect("accepted");
        library::run(&mut record, one, two).expect("accepted");
        let output = &mut out[GUARD..GUARD + length];
        library::collect(&mut record, one, two, output).expect("accepted");
        for (bytes, guard) in [(&first, 0xA5), (&second, 0x5A), (&out, 0xC3)] {
            let end = bytes.len() - GUARD;
            assert!(bytes[..GUARD]
                .iter()
                .chain(&bytes[end..])
                .all(|b| *b == guard));
        }
    }
    report(&format!("bytes around areas and output: {cases} cases"));
}

/// A load of three images by library and reference.
fn load_three(width: usize, height: usize, random: &mut Random) {
    let load = Call::LoadThree {
        table: some_table(random),
        files: [(); 3].map(|()| file_of(&random_image(width, height, random))),
    };
    let pixels = width * height;
    let mut state = State::empty(random.bytes(pixels + 3), random.bytes(pixels));
    assert_eq!(state.apply_both(&load, &mut []), Ok(Answer::Loaded));
}

#[test]
fn loads_three_files() {
    let mut random = Random::new(49);
    let sides = [1, 7, 8, 9, 63, 64, 65, 255, 256];
    for width in sides {
        for height in sides {
            load_three(width, height, &mut random);
        }
    }
    let loads = sides.len() * sides.len();
    report(&format!("loads of three files: {loads}"));
}
