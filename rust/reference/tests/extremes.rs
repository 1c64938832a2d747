//! No public function of the wrapper panics: every one of them with damaged and extreme inputs.

mod common;

use common::{report, Stock};
use mask_cleaner::{library, Image, Job, Quota, Reason, Refusal, StripRecord, Table, TableRecord};
use mask_cleaner::{JobRecord, QuotaRecord, MAX_CHANNELS, MAX_PARTS, MAX_RANKS, MAX_STRIP_PIXELS};
use reference::cases::{random_table, ring, Random};
use reference::model::Call;

/// Numbers at the ends of their ranges, and any others.
fn extreme(random: &mut Random) -> usize {
    let any = random.number() as usize;
    let small = random.below(300);
    *random.choose(&[
        0,
        1,
        2,
        16,
        17,
        64,
        65,
        256,
        257,
        usize::MAX,
        usize::MAX - 1,
        1 << 63,
        any,
        small,
    ])
}

fn extremes<const N: usize>(random: &mut Random) -> [usize; N] {
    [(); N].map(|()| extreme(random))
}

fn masks(most: usize, random: &mut Random) -> Vec<u32> {
    let count = random.below(most + 1);
    (0..count)
        .map(|_| random.number() as u32 >> random.below(32))
        .collect()
}

#[test]
fn lists_of_any_length() {
    let random = &mut Random::new(80);
    for _ in 0..2000 {
        let (elements, persistents) = (masks(130, random), masks(9, random));
        let record = TableRecord::new(&elements, &persistents);
        assert_eq!(
            (record.count, record.ranks),
            (elements.len(), persistents.len())
        );
        if elements.len() > 64 {
            assert_eq!(
                Table::from_record(record),
                Err(Refusal::of(Reason::ElementCount))
            );
        }
        let heights: Vec<usize> = (0..random.below(40)).map(|_| extreme(random)).collect();
        let widths: Vec<usize> = (0..random.below(40)).map(|_| extreme(random)).collect();
        for strip in [
            StripRecord::of_widths(&widths, &heights),
            StripRecord::new(extreme(random), &heights),
        ] {
            assert_eq!(strip.parts, heights.len());
            let loaded = Job::for_pixels(9).load_strip(&table(&ring()), &strip, &[0; 9]);
            if !(1..=MAX_PARTS).contains(&strip.parts) {
                assert_eq!(loaded, Err(Refusal::of(Reason::Parts)));
            }
        }
    }
    for persistents in 5..9 {
        let record = TableRecord::new(&[469_440], &vec![405_504; persistents]);
        assert_eq!(
            Table::from_record(record),
            Err(Refusal::at(Reason::RankCount, 2))
        );
    }
}

fn table(record: &TableRecord) -> Table {
    Table::from_record(*record).expect("an accepted table")
}

#[test]
fn files_of_any_bytes() {
    let (random, mut accepted) = (&mut Random::new(81), 0);
    for case in 0..20_000 {
        let length = random.below(if case % 50 == 0 { 9000 } else { 40 });
        let mut bytes = random.bytes(length);
        if case % 2 == 0 {
            let header = format!("P4\n{} {}\n", random.below(300), random.below(300));
            bytes.splice(..0, header.into_bytes());
        }
        if let Ok(table) = Table::from_file(&bytes) {
            assert_eq!(table.to_file(), Ok(bytes.clone()));
            assert!(!format!("{table:?}").is_empty());
            accepted += 1;
        }
        if let Ok(image) = Image::from_file(&bytes) {
            assert_eq!(image.to_file().map(|file| file.len()), Ok(bytes.len()));
            assert_eq!(
                image.preview().map(|p| p.pixels().len()),
                Ok(image.pixels().len())
            );
            assert_eq!(image.rows().count(), image.height());
            accepted += 1;
        }
    }
    report(&format!(
        "files of random bytes: 20000, accepted: {accepted}"
    ));
}

#[test]
fn images_of_any_size() {
    let random = &mut Random::new(82);
    for _ in 0..5000 {
        let [width, height] = extremes(random);
        let fits = width.checked_mul(height).filter(|pixels| *pixels <= 70_000);
        let length = fits.unwrap_or(0) + random.below(2);
        let image = Image::from_pixels(width, height, vec![random.below(3) as u8; length]);
        if let Ok(image) = image {
            assert_eq!(
                Image::from_file(&image.to_file().expect("accepted")),
                Ok(image)
            );
        }
    }
}

#[test]
fn jobs_of_any_room() {
    let random = &mut Random::new(83);
    let rooms = [
        0,
        1,
        8,
        64,
        65_536,
        MAX_STRIP_PIXELS,
        MAX_STRIP_PIXELS + 1,
        usize::MAX,
    ];
    let mut calls = 0;
    for round in 0..400 {
        let stock = Stock::new(random, 9);
        let mut job = Job::for_pixels(
            rooms[if round < 16 {
                round % 8
            } else {
                random.below(4)
            }],
        );
        let mut quota = Quota::open(2, 9, [3, 2, 0, 0]).expect("accepted");
        for _ in 0..20 {
            calls += 1;
            let _ = match stock.call(random) {
                Call::Load {
                    table: record,
                    file,
                } => Table::from_record(record).and_then(|t| job.load(&t, &file)),
                Call::LoadThree {
                    table: record,
                    files,
                } => Table::from_record(record)
                    .and_then(|t| job.load_three(&t, common::slices(&files))),
                Call::LoadStrip {
                    table: record,
                    strip,
                    pixels,
                } => Table::from_record(record).and_then(|t| job.load_strip(&t, &strip, &pixels)),
                Call::Pass => job.pass().map(|_| ()),
                Call::Run => job.channel_run(&mut quota, random.below(4)),
                Call::View => job.view().map(|_| ()),
                Call::Figures => job
                    .channel_pass(&mut quota, extreme(random))
                    .and_then(|_| job.figures())
                    .map(|_| ()),
                Call::Collect { .. } => job.run().and_then(|()| job.collect_parts()).map(|_| ()),
            };
            assert!(format!("{job:?}").len() < 150, "{job:?}");
            assert_eq!(job.heights().len(), job.part_counts().count());
        }
        assert_eq!(quota.renew(), Ok(()));
        let _ = (
            job.clone().collect(),
            quota.reserves(),
            quota.left(),
            quota.pool(),
            quota.allowance(),
        );
    }
    report(&format!("calls on jobs of any room: {calls}"));
}

#[test]
fn quotas_of_any_numbers() {
    let random = &mut Random::new(84);
    for _ in 0..5000 {
        let (channels, allowance) = (extreme(random), extreme(random));
        if let Ok(mut quota) = Quota::open(channels, allowance, extremes(random)) {
            assert_eq!(
                (quota.reserves().len(), quota.left().len()),
                (channels, channels)
            );
            let mut job = Job::for_pixels(1);
            let _ = (job.channel_run(&mut quota, extreme(random)), quota.renew());
        }
    }
}

/// Every call over records and slices, with records of any numbers.
#[test]
fn records_of_any_numbers() {
    let random = &mut Random::new(85);
    let mut answers = 0;
    for _ in 0..3000 {
        let table = if random.percent(50) {
            random_table(random, 4)
        } else {
            TableRecord::new(&masks(64, random), &masks(MAX_RANKS, random))
        };
        let strip = StripRecord {
            parts: extreme(random),
            widths: extremes(random),
            heights: extremes(random),
        };
        let [width, height, passes, added, removed] = extremes(random);
        let mut record = JobRecord {
            stage: random.byte() % 4,
            width,
            height,
            passes,
            added,
            removed,
            table,
            strip,
            ..JobRecord::EMPTY
        };
        let [mut first, mut second] = [(); 2].map(|()| {
            let length = random.below(70);
            random.bytes(length)
        });
        let mut quota = QuotaRecord {
            left: extremes(random),
            pool: extreme(random),
            ..QuotaRecord::new(
                extreme(random),
                extreme(random),
                extremes::<MAX_CHANNELS>(random),
            )
        };
        let file = first.clone();
        let (r, q, channel) = (&mut record, &mut quota, extreme(random));
        let results = [
            library::check_table(&table),
            library::load(r, &table, &file, &mut first, &second),
            library::load_three(r, &table, [&file, &file, &file], &mut first, &second),
            library::load_strip(r, &table, &strip, &file, &mut first, &second),
            library::pass(r, &mut first, &mut second).map(|_| ()),
            library::run(r, &mut first, &mut second).map(|_| ()),
            library::open_quota(q),
            library::channel_pass(r, q, channel, &mut first, &mut second).map(|_| ()),
            library::channel_run(r, q, channel, &mut first, &mut second).map(|_| ()),
            library::view(r, &first, &second).map(|_| ()),
            library::figures(r, &first, &second).map(|_| ()),
            library::collect(r, &first, &second, &mut file.clone()).map(|_| ()),
            library::write_table(&table, &mut file.clone()).map(|_| ()),
            library::write_image(width, height, &file, &mut first).map(|_| ()),
            library::preview(width, height, &file, &mut first),
            library::read_image(&file, &mut first).map(|_| ()),
        ];
        for refusal in results.into_iter().filter_map(Result::err) {
            assert!(!refusal.to_string().is_empty() && Reason::ALL.contains(&refusal.reason));
            answers += 1;
        }
    }
    assert!(answers > 20_000, "{answers} refusals");
    report(&format!("refusals of records of any numbers: {answers}"));
}
