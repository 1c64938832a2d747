//! Times of the library beside the Rust versions of this crate, as Markdown. `--small`: a small case, each once.

use mask_cleaner::library;
use mask_cleaner::{JobRecord, StripRecord, TableRecord, MAX_ELEMENTS, MAX_PARTS, MAX_RANKS};
use reference::cases::{self, named_tables, random_table, Kind, Random};
use reference::fast::Filter;
use reference::image::{file_of, Image};
use reference::pass::one_pass;
use reference::table::MAX_MASK;
use std::hint::black_box;
use std::time::Instant;

/// How much is measured.
struct Plan {
    side: usize,
    repetitions: usize,
    full_tables: usize,
}

const FULL: Plan = Plan {
    side: 256,
    repetitions: 41,
    full_tables: 100,
};
const SMALL: Plan = Plan {
    side: 24,
    repetitions: 1,
    full_tables: 1,
};

const KINDS: [(&str, Kind); 4] = [
    ("noise", Kind::Noise),
    ("worn stripes", Kind::Worn),
    ("stripes", Kind::Stripes),
    ("all white", Kind::White),
];

fn main() {
    let plan = match std::env::args().nth(1).as_deref() {
        None => FULL,
        Some("--small") => SMALL,
        Some(other) => {
            eprintln!("benchmark: not an option: {other}");
            std::process::exit(2);
        }
    };
    explain(&plan);
    for (name, table) in named_tables() {
        for (kind_name, kind) in KINDS {
            let image = kind.image(plan.side, plan.side, &mut Random::new(1));
            let case = Case {
                table,
                image,
                parts: 1,
            };
            case.print_pass(&format!("{name}, {kind_name}"), &plan);
            case.print_run(&format!("{name}, {kind_name}"), &plan);
        }
    }
    print_strips(&plan);
    println!();
    print_check(&plan);
}

/// The largest strip.
fn print_strips(plan: &Plan) {
    let (width, rows) = (plan.side, MAX_PARTS * plan.side);
    for (name, table, kind) in [
        ("ring, noise", cases::ring(), Kind::Noise),
        ("median, worn stripes", cases::median(), Kind::Worn),
    ] {
        let case = Case {
            table,
            image: kind.image(width, rows, &mut Random::new(1)),
            parts: MAX_PARTS,
        };
        let name = format!("{name}, strip of {width} × {rows}");
        case.print_pass(&name, plan);
        case.print_run(&name, plan);
    }
}

fn explain(plan: &Plan) {
    let side = plan.side;
    print!("Images of {side} × {side} pixels. Microseconds, ");
    match plan.repetitions {
        1 => println!("each once: this shows that all versions agree, the times say little."),
        n => println!("medians of {n} repetitions; the versions take turns."),
    }
    println!("{NOTES}");
}

const NOTES: &str = "
- library: one call of `mask_pass` or `mask_run`. It checks the record first: table, sizes and every pixel.
- Rust: `fast::Filter`, the making of its lists of offsets included, without any check.
- by definition: `reference::pass::one_pass`, once.
- strip: 16 parts, each as large as an image, and passes over all of them.

| table, image | call | passes | library | Rust | library / Rust | by definition |
|---|---|---:|---:|---:|---:|---:|";

struct Case {
    table: TableRecord,
    image: Image,
    /// 1, or those of a strip.
    parts: usize,
}

impl Case {
    fn print_pass(&self, name: &str, plan: &Plan) {
        let Image { width, height, .. } = self.image;
        let (mut job, mut area) = (self.load(), self.image.pixels.clone());
        let loaded = job.record;
        let mut times = Times::default();
        for _ in 0..plan.repetitions {
            job.record = loaded;
            times.library(|| library::pass(&mut job.record, &mut job.first, &mut job.second));
            times.rust(|| {
                Filter::new(&self.table, width, height).pass(&self.image.pixels, &mut area)
            });
        }
        let (definition, next) = timed(|| one_pass(&self.image, &self.table));
        assert_eq!(job.second, next.pixels, "library and definition differ");
        assert_eq!(area, next.pixels, "Rust version and definition differ");
        times.print(name, "pass", job.record.passes, Some(definition));
    }

    fn print_run(&self, name: &str, plan: &Plan) {
        let Image { width, height, .. } = self.image;
        let mut job = self.load();
        let loaded = job.record;
        let mut other = self.image.pixels.clone();
        let mut times = Times::default();
        for _ in 0..plan.repetitions {
            job.record = loaded;
            job.first.copy_from_slice(&self.image.pixels);
            times.library(|| library::run(&mut job.record, &mut job.first, &mut job.second));
            let mut area = self.image.pixels.clone();
            times.rust(|| Filter::new(&self.table, width, height).run(&mut area, &mut other));
            assert_eq!(job.first, area, "library and Rust version differ");
        }
        times.print(name, "run", job.record.passes, None);
    }

    fn load(&self) -> Loaded {
        let pixels = self.image.pixels.len();
        let mut job = Loaded {
            record: JobRecord::EMPTY,
            first: vec![0; pixels],
            second: vec![0; pixels],
        };
        let Loaded {
            record,
            first,
            second,
        } = &mut job;
        let loaded = if self.parts == 1 {
            let file = file_of(&self.image);
            library::load(record, &self.table, &file, first, second)
        } else {
            let heights = vec![self.image.height / self.parts; self.parts];
            let strip = StripRecord::new(self.image.width, &heights);
            let pixels = &self.image.pixels;
            library::load_strip(record, &self.table, &strip, pixels, first, second)
        };
        loaded.expect("an accepted load");
        job
    }
}

/// A job after its load.
struct Loaded {
    record: JobRecord,
    first: Vec<u8>,
    second: Vec<u8>,
}

#[derive(Default)]
struct Times {
    library: Vec<f64>,
    rust: Vec<f64>,
}

impl Times {
    fn library<T>(&mut self, call: impl FnOnce() -> T) {
        self.library.push(timed(call).0);
    }

    fn rust<T>(&mut self, call: impl FnOnce() -> T) {
        self.rust.push(timed(call).0);
    }

    fn print(self, name: &str, call: &str, passes: usize, definition: Option<f64>) {
        let (library, rust) = (median(self.library), median(self.rust));
        let ratio = library / rust;
        let definition = definition.map_or("".to_string(), |time| format!("{time:.0}"));
        println!(
            "| {name} | {call} | {passes} | {library:.0} | {rust:.0} | {ratio:.2} | {definition} |"
        );
    }
}

/// Microseconds of a call, and its answer.
fn timed<T>(call: impl FnOnce() -> T) -> (f64, T) {
    let start = Instant::now();
    let answer = black_box(call());
    (start.elapsed().as_secs_f64() * 1e6, answer)
}

fn median(mut times: Vec<f64>) -> f64 {
    times.sort_by(f64::total_cmp);
    times[times.len() / 2]
}

/// Times of `mask_table_check` on accepted tables of 64 elements.
fn print_check(plan: &Plan) {
    let mut random = Random::new(2);
    let mut times = Vec::new();
    while times.len() < plan.full_tables {
        let table = random_table(&mut random, MAX_ELEMENTS);
        if table.count == MAX_ELEMENTS {
            times.push(check_time(&table));
        }
    }
    let number = times.len();
    let random = median(times);
    let [one, four] = [1, MAX_RANKS].map(|ranks| check_time(&dense_table(ranks)));
    println!("`mask_table_check`, accepted tables of 64 elements: {random:.1} microseconds (median of {number} random tables");
    println!("of one to four persistent elements),");
    println!("{one:.1} (22 positions in each element, all 25 in the persistent one),");
    println!("{four:.1} (the same elements, four persistent ones of 24 or 25 positions).");
}

fn check_time(table: &TableRecord) -> f64 {
    let check = || timed(|| library::check_table(black_box(table)).expect("accepted")).0;
    median((0..101).map(|_| check()).collect())
}

/// 64 elements, each of all positions but the centre and two others. Of one to four persistent elements the last has all
/// positions, the others all but one.
fn dense_table(ranks: usize) -> TableRecord {
    let without_centre = MAX_MASK & !(1 << 12);
    let elements: Vec<u32> = (1..=without_centre)
        .rev()
        .filter(|mask| mask & !without_centre == 0 && mask.count_ones() == 22)
        .take(MAX_ELEMENTS)
        .collect();
    let rising: Vec<u32> = elements.into_iter().rev().collect();
    let persistents = [4, 2, 1, 0].map(|missing| MAX_MASK - missing);
    TableRecord::new(&rising, &persistents[MAX_RANKS - ranks..])
}
