//! How deep the calls go: each on the largest image and on the largest strip, in a thread whose stack the test lends and looks at afterwards.

mod common;

use common::report;
use mask_cleaner::library;
use mask_cleaner::{JobRecord, QuotaRecord, StripRecord, MAX_PARTS, MAX_SIDE};
use reference::cases::{median, Kind, Random};
use reference::image::file_of;
use std::ffi::{c_int, c_void};

/// The depth that no call on a single image reaches.
const ENOUGH: usize = 128 * 1024;

/// The depth that no call on a strip reaches.
const ENOUGH_FOR_STRIPS: usize = 256 * 1024;

/// The stack that is lent: more than that, so that a call which goes deeper is seen and does no harm.
const LENT: usize = 2 * 1024 * 1024;

/// Passes of a quota, more than a run needs.
const PASSES: usize = MAX_PARTS * MAX_SIDE * MAX_SIDE + 1;

/// What fills it before.
const PAINT: u8 = 0xA5;

/// `pthread_attr_t` of x86-64.
#[repr(C, align(8))]
struct Attributes([u8; 56]);

extern "C" {
    fn pthread_attr_init(attributes: *mut Attributes) -> c_int;
    fn pthread_attr_setstack(attributes: *mut Attributes, low: *mut c_void, size: usize) -> c_int;
    fn pthread_attr_destroy(attributes: *mut Attributes) -> c_int;
    fn pthread_create(
        thread: *mut usize,
        attributes: *const Attributes,
        start: extern "C" fn(*mut c_void) -> *mut c_void,
        argument: *mut c_void,
    ) -> c_int;
    fn pthread_join(thread: usize, result: *mut *mut c_void) -> c_int;
}

extern "C" fn start<W: FnMut()>(work: *mut c_void) -> *mut c_void {
    // SAFETY: `depth` lends the work until the thread has ended.
    unsafe { (*work.cast::<W>())() };
    std::ptr::null_mut()
}

/// How many bytes of its stack a thread uses that does the work, for its own start and end too.
fn depth<W: FnMut() + Send>(mut work: W) -> usize {
    let mut stack = vec![PAINT; LENT];
    let mut attributes = Attributes([0; 56]);
    let (mut thread, low) = (0, stack.as_mut_ptr().cast());
    // SAFETY: stack and work stay until the thread is joined, and nobody else uses them meanwhile.
    let answers = unsafe {
        [
            pthread_attr_init(&mut attributes),
            pthread_attr_setstack(&mut attributes, low, LENT),
            pthread_create(&mut thread, &attributes, start::<W>, (&raw mut work).cast()),
            pthread_join(thread, std::ptr::null_mut()),
            pthread_attr_destroy(&mut attributes),
        ]
    };
    assert_eq!(answers, [0; 5]);
    LENT - stack.iter().take_while(|byte| **byte == PAINT).count()
}

/// A call; whether it was accepted.
type Accepted<'a> = &'a mut (dyn FnMut() -> bool + Send);

/// The largest width, and one that takes another way through the rows.
const WIDTHS: [usize; 2] = [MAX_SIDE, MAX_SIDE - 1];

/// Makes every call once, on an image of that width and the largest height.
fn every_call(width: usize, make: impl Fn(&str, Accepted)) {
    let mut random = Random::new(130);
    let image = Kind::Worn.image(width, MAX_SIDE, &mut random);
    let (table, file, pixels) = (median(), file_of(&image), image.pixels);
    let files = [&file[..]; 3];
    let mut job = JobRecord::EMPTY;
    let (mut one, mut two) = (vec![0; pixels.len()], vec![0; pixels.len()]);
    let mut out = vec![0; file.len()];
    make("load", &mut || {
        library::load(&mut job, &table, &file, &mut one, &two).is_ok()
    });
    make("pass", &mut || {
        library::pass(&mut job, &mut one, &mut two).is_ok()
    });
    make("run", &mut || {
        library::run(&mut job, &mut one, &mut two).is_ok()
    });
    make("view", &mut || library::view(&job, &one, &two).is_ok());
    make("figures", &mut || {
        library::figures(&job, &one, &two).is_ok()
    });
    make("collect", &mut || {
        library::collect(&mut job, &one, &two, &mut out).is_ok()
    });
    make("load of three", &mut || {
        library::load_three(&mut job, &table, files, &mut one, &two).is_ok()
    });
    let mut quota = QuotaRecord::new(4, PASSES, [1; 4]);
    make("quota opened", &mut || {
        library::open_quota(&mut quota).is_ok()
    });
    make("channel's pass", &mut || {
        library::channel_pass(&mut job, &mut quota, 4, &mut one, &mut two).is_ok()
    });
    make("channel's run", &mut || {
        library::channel_run(&mut job, &mut quota, 4, &mut one, &mut two).is_ok()
    });
    make("preview", &mut || {
        library::preview(width, MAX_SIDE, &pixels, &mut two).is_ok()
    });
    make("image written", &mut || {
        library::write_image(width, MAX_SIDE, &pixels, &mut out).is_ok()
    });
    make("image read", &mut || {
        library::read_image(&file, &mut two).is_ok()
    });
    make("table checked", &mut || {
        library::check_table(&table).is_ok()
    });
    let mut length = 0;
    make("table written", &mut || {
        length = library::write_table(&table, &mut out).unwrap_or(0);
        length > 0
    });
    make("table read", &mut || {
        library::read_table(&out[..length]).is_ok()
    });
}

/// Makes every call on a job once, on a strip of that width and as many rows as there can be.
fn every_call_on_a_strip(width: usize, make: impl Fn(&str, Accepted)) {
    let mut random = Random::new(131);
    let strip = StripRecord::new(width, &[MAX_SIDE; MAX_PARTS]);
    let image = Kind::Worn.image(width, MAX_PARTS * MAX_SIDE, &mut random);
    let (table, pixels) = (median(), image.pixels);
    let mut job = JobRecord::EMPTY;
    let (mut one, mut two) = (vec![0; pixels.len()], vec![0; pixels.len()]);
    let mut out = vec![0; MAX_PARTS * (11 + 32 * MAX_SIDE)];
    let load = |job: &mut JobRecord, one: &mut [u8], two: &[u8]| {
        library::load_strip(job, &table, &strip, &pixels, one, two).is_ok()
    };
    make("load of a strip", &mut || load(&mut job, &mut one, &two));
    // the second one counts before it writes
    for name in ["pass over a strip", "second pass over a strip"] {
        make(name, &mut || {
            library::pass(&mut job, &mut one, &mut two).is_ok()
        });
    }
    make("run over a strip", &mut || {
        library::run(&mut job, &mut one, &mut two).is_ok()
    });
    make("view of a strip", &mut || {
        library::view(&job, &one, &two).is_ok()
    });
    make("figures of a strip", &mut || {
        library::figures(&job, &one, &two).is_ok()
    });
    make("collect of a strip", &mut || {
        library::collect(&mut job, &one, &two, &mut out).is_ok()
    });
    let mut quota = QuotaRecord::new(1, PASSES, [PASSES, 0, 0, 0]);
    assert!(library::open_quota(&mut quota).is_ok() && load(&mut job, &mut one, &two));
    for name in [
        "channel's pass over a strip",
        "channel's second pass over a strip",
    ] {
        make(name, &mut || {
            library::channel_pass(&mut job, &mut quota, 1, &mut one, &mut two).is_ok()
        });
    }
    make("channel's run over a strip", &mut || {
        library::channel_run(&mut job, &mut quota, 1, &mut one, &mut two).is_ok()
    });
}

/// A thread's start and end count too.
#[test]
fn depth_of_every_call() {
    let start = depth(|| {});
    report(&format!("stack of a thread's start: {start} bytes"));
    for width in WIDTHS {
        every_call(width, |name, call| {
            let mut accepted = false;
            let depth = depth(|| accepted = call());
            let bytes = depth - start;
            report(&format!("stack of {name}, {width} columns: {bytes} bytes"));
            assert!(accepted, "{name}");
            assert!(depth < ENOUGH, "{name}");
        });
    }
}

#[test]
fn depth_of_every_call_on_a_strip() {
    let start = depth(|| {});
    for width in WIDTHS {
        every_call_on_a_strip(width, |name, call| {
            let mut accepted = false;
            let depth = depth(|| accepted = call());
            let bytes = depth - start;
            report(&format!("stack of {name}, {width} columns: {bytes} bytes"));
            assert!(accepted, "{name}");
            assert!(depth < ENOUGH_FOR_STRIPS, "{name}: {depth} bytes");
        });
    }
}

/// An overflow ends the whole test.
#[test]
fn every_call_in_a_small_stack() {
    let thread = std::thread::Builder::new().stack_size(ENOUGH);
    let work = || WIDTHS.map(|width| every_call(width, |name, call| assert!(call(), "{name}")));
    let thread = thread.spawn(work).expect("a thread");
    let widths = thread.join().expect("an end").len();
    report(&format!(
        "every call in {ENOUGH} bytes of stack: {widths} widths"
    ));
}

#[test]
fn every_call_on_a_strip_in_a_small_stack() {
    let thread = std::thread::Builder::new().stack_size(ENOUGH_FOR_STRIPS);
    let make = |name: &str, call: Accepted| assert!(call(), "{name}");
    let work = move || WIDTHS.map(|width| every_call_on_a_strip(width, make));
    let thread = thread.spawn(work).expect("a thread");
    let widths = thread.join().expect("an end").len();
    report(&format!(
        "every call on a strip in {ENOUGH_FOR_STRIPS} bytes of stack: {widths} widths"
    ));
}
