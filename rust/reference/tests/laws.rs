//! Demand 3's laws over the library's jobs: exchange of colours, order, and a stable image loaded again; the first two for three files too,
//! and loads of three files beside loads of one (T-12).

mod common;

use common::{fill_unused, loaded, loaded_three, report, view, Side, State};
use mask_cleaner::{Job, Table};
use mask_cleaner::{Progress, Refusal};
use reference::cases::{named_tables, random_image, random_table, Random};
use reference::image::{file_of, Image};
use reference::model::{Answer, Call};

fn table(random: &mut Random) -> Table {
    let record = if random.percent(20) {
        random.choose(&named_tables()).1
    } else {
        random_table(random, 32)
    };
    Table::from_record(record).expect("an accepted table")
}

fn image(random: &mut Random) -> Image {
    let (width, height) = (1 + random.below(24), 1 + random.below(24));
    random_image(width, height, random)
}

/// The image with some pixels blackened.
fn blackened(image: &Image, random: &mut Random) -> Image {
    let percent = *random.choose(&[1, 5, 30]);
    let mut image = image.clone();
    for pixel in &mut image.pixels {
        *pixel |= u8::from(random.percent(percent));
    }
    image
}

fn assert_exchanged(one: &[u8], other: &[u8]) {
    assert!(one.iter().zip(other).all(|(a, b)| *a == 1 - *b));
}

fn assert_order(less: &[u8], more: &[u8]) {
    assert!(less.iter().zip(more).all(|(a, b)| a <= b));
}

/// Each of three jobs: the image, its exchange and one with more black.
fn three_jobs(random: &mut Random) -> [Job; 3] {
    let (table, image) = (table(random), image(random));
    let more = blackened(&image, random);
    [&image, &image.exchanged(), &more].map(|i| loaded(&table, i))
}

fn assert_laws([job, exchanged, more]: &[Job; 3]) {
    assert_exchanged(view(job), view(exchanged));
    assert_order(view(job), view(more));
}

/// Makes passes in all three jobs, then runs them; the laws hold before, after each pass and at rest. The number of passes.
fn follow(mut jobs: [Job; 3], random: &mut Random) -> usize {
    assert_laws(&jobs);
    let passes = random.below(12);
    for _ in 0..passes {
        for job in &mut jobs {
            job.pass().expect("an accepted pass");
        }
        assert_laws(&jobs);
    }
    for job in &mut jobs {
        job.run().expect("an accepted run");
    }
    assert_laws(&jobs);
    let [a, b, _] = jobs.each_ref().map(Job::record);
    assert_eq!(
        (a.passes, a.added, a.removed),
        (b.passes, b.removed, b.added)
    );
    passes
}

#[test]
fn exchange_and_order() {
    let mut random = Random::new(70);
    let (mut cases, mut several, mut compared) = (0, 0, 0);
    for _ in 0..3000 {
        let jobs = three_jobs(&mut random);
        several += usize::from(jobs[0].record().table.ranks > 1);
        compared += follow(jobs, &mut random);
        cases += 1;
    }
    report(&format!(
        "exchange and order: {cases} triples of jobs, {several} with several persistent elements, compared after {compared} passes and at rest"
    ));
    assert!(several > cases / 3);
}

#[test]
fn stable_image_loaded_again() {
    let mut random = Random::new(71);
    let (cases, mut changed) = (3000, 0);
    for _ in 0..cases {
        let (table, image) = (table(&mut random), image(&mut random));
        let mut job = loaded(&table, &image);
        job.run().expect("an accepted run");
        changed += usize::from(job.record().passes > 0);
        let pixels = view(&job).to_vec();
        let file = job.collect().expect("an accepted collect");
        job.load(&table, &file).expect("an accepted load");
        for _ in 0..3 {
            assert_eq!(view(&job), pixels);
            assert_eq!(job.pass(), Ok(Progress::Stable));
            let record = job.record();
            assert_eq!((record.passes, record.added, record.removed), (0, 0, 0));
        }
        job.run().expect("an accepted run");
        assert_eq!(job.collect(), Ok(file));
    }
    report(&format!(
        "stable images loaded again: {cases} cases, {changed} of them changed before"
    ));
}

/// Three images of one size: each by itself, or one with some pixels of each exchanged.
fn three_images(random: &mut Random) -> [Image; 3] {
    let image = image(random);
    let Image { width, height, .. } = image;
    if random.percent(50) {
        return [(); 3].map(|()| random_image(width, height, random));
    }
    [(); 3].map(|()| {
        let pixels = image.pixels.iter();
        let worn: Vec<u8> = pixels.map(|p| p ^ u8::from(random.percent(10))).collect();
        Image::new(width, height, &worn)
    })
}

/// The images, some of them with pixels blackened, as the bits of `which` say.
fn some_blackened(images: &[Image; 3], which: usize, random: &mut Random) -> [Image; 3] {
    let mut more = images.clone();
    for (i, image) in more.iter_mut().enumerate() {
        if which >> i & 1 == 1 {
            *image = blackened(image, random);
        }
    }
    more
}

/// Exchange in all three images, and black added to one, two or all of them.
#[test]
fn majority() {
    let mut random = Random::new(72);
    let (cases, mut compared) = (3500, 0);
    let mut differing = [0; 7];
    for case in 0..cases {
        let (table, images) = (table(&mut random), three_images(&mut random));
        let which = case % 7;
        let more = some_blackened(&images, which + 1, &mut random);
        let exchanged = images.each_ref().map(Image::exchanged);
        let jobs = [&images, &exchanged, &more].map(|i| loaded_three(&table, i));
        differing[which] += usize::from(view(&jobs[0]) != view(&jobs[2]));
        compared += follow(jobs, &mut random);
    }
    let more: usize = differing.iter().sum();
    report(&format!(
        "majority: {cases} triples of jobs of three files each, {more} with more black in the majority, compared after {compared} passes and at rest"
    ));
    assert!(differing.iter().all(|n| *n > cases / 28), "{differing:?}");
}

/// A job that is loaded by the call, run and collected: each answer, with record and areas after it.
fn course(load: &Call, before: &State) -> [(Result<Answer, Refusal>, State); 3] {
    let mut state = before.clone();
    let (out_length, mut out) = (90, [0; 90]);
    [load, &Call::Run, &Call::Collect { out_length }].map(|call| {
        let answer = state.apply(Side::Library, call, &mut out);
        (answer, state.clone())
    })
}

/// A load of three files is to the byte that of one.
fn assert_same(table: &Table, files: [Vec<u8>; 3], file: Vec<u8>, random: &mut Random) {
    let table = *table.record();
    let before = State::empty(random.bytes(580), random.bytes(576));
    let one = course(&Call::Load { table, file }, &before);
    assert!(one.iter().all(|(answer, _)| answer.is_ok()));
    assert_eq!(course(&Call::LoadThree { table, files }, &before), one);
}

/// Where one image is all black, the majority is what either of the others has black; where it is all white, what both have.
#[test]
fn glare() {
    let mut random = Random::new(73);
    let (cases, mut differing) = (3000, 0);
    for case in 0..cases {
        let (table, mut images) = (table(&mut random), three_images(&mut random));
        let (blind, colour) = (case % 3, (case / 3 % 2) as u8);
        images[blind].pixels.fill(colour);
        let [one, two] = [1, 2].map(|i| &images[(blind + i) % 3]);
        let pixels = one.pixels.iter().zip(&two.pixels);
        let pixels = pixels.map(|(a, b)| if colour == 1 { a | b } else { a & b });
        let seen = Image::new(one.width, one.height, &pixels.collect::<Vec<u8>>());
        differing += usize::from(one != two);
        let files = images.each_ref().map(file_of);
        assert_same(&table, files, file_of(&seen), &mut random);
    }
    report(&format!(
        "glare: {cases} loads of three files with one image of one colour, {differing} with others that differ"
    ));
    assert!(differing > cases / 2);
}

#[test]
fn three_equal_files() {
    let mut random = Random::new(74);
    let cases = 2000;
    for _ in 0..cases {
        let (table, image) = (table(&mut random), image(&mut random));
        let mut file = file_of(&image);
        fill_unused(&mut file, image.width, image.height, &mut random);
        let files = [(); 3].map(|()| file.clone());
        assert_same(&table, files, file, &mut random);
    }
    report(&format!("three equal files: {cases} cases"));
}
