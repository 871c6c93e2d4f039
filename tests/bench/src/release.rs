//! Times the rewrite of a whole release (document 02, W9) beside the rewrites of its images alone.

use crate::{by_turns, images, output, verdict, APART};
use differential::answers::{Operations, Reply, Rewritten};
use differential::library::Library;
use std::hint::black_box;
use std::ops::Range;
use std::time::Duration;

/// How many times as long as the rewrites of its images a release of forty full ones may take: a
/// twentieth on top.
const MOST: f64 = 1.05;

/// How often a row is timed at the most, while its ratio is above that.
const TRIES: usize = 5;

/// The images of a full release.
const FORTY: usize = 40;

/// The bytes of an image's answers.
const ANSWER: usize = 12;

/// The rows, and whether each release of forty full images takes at most `MOST` times as long as the
/// rewrites of its images.
pub fn rows(time: Duration) -> bool {
    println!("ns for one release, the fastest of many rounds; the two are called by turns");
    println!(
        "{:32} {:>6} {:>8} {:>13} {:>13} {:>9}",
        "release", "images", "bytes", "one by one", "release", "ratio"
    );
    let mut largest = ("", 0.0);
    for (name, images) in full() {
        let ratio = row(time, name, &images);
        if ratio > largest.1 {
            largest = (name, ratio);
        }
    }
    for (name, images) in others() {
        row(time, name, &images);
    }
    println!("ratio: the release's time divided by that of the rewrites of its images");
    verdict("forty full images", largest, MOST)
}

type Images = Vec<Vec<u8>>;

/// Forty images each: of one kind; of all kinds; random ones, also with every third refused for its
/// last cell.
fn full() -> Vec<(&'static str, Images)> {
    let kinds = images::rows();
    let all = kinds.iter().cycle().take(FORTY).map(|(_, image)| image.clone()).collect();
    let random: Images = (1..=FORTY as u64).map(images::mixed_by).collect();
    let mut refused = random.clone();
    for image in refused.iter_mut().step_by(3) {
        // The last byte of every cell is a spare one.
        *image.last_mut().unwrap() = 1;
    }
    let mut rows: Vec<_> =
        kinds.into_iter().map(|(name, image)| (name, vec![image; FORTY])).collect();
    rows.push(("all kinds", all));
    rows.push(("mixed, forty of them", random));
    rows.push(("mixed, every third refused", refused));
    rows
}

/// What has no limit: one image, and many small ones.
fn others() -> [(&'static str, Images); 6] {
    [
        ("one image, mixed", vec![images::mixed()]),
        ("one image, loads", vec![images::loads()]),
        ("one printed example", vec![images::printed_example()]),
        ("forty printed examples", vec![images::printed_example(); FORTY]),
        ("4,096 printed examples", vec![images::printed_example(); 4096]),
        ("4,096 empty images", vec![Vec::new(); 4096]),
    ]
}

fn number(bytes: &mut Vec<u8>, number: usize) {
    bytes.extend(u32::try_from(number).unwrap().to_le_bytes());
}

/// The image behind its length, and where it is.
fn frame(release: &mut Vec<u8>, image: &[u8]) -> Range<usize> {
    number(release, image.len());
    release.extend(image);
    release.len() - image.len()..release.len()
}

/// What the image's rewrite alone wrote and answered, as a release has it.
fn expect(out: &mut Vec<u8>, answers: &mut Vec<u8>, written: &[u8], answer: Rewritten) {
    let (image, numbers) = match answer {
        Ok(success) => (&written[..success.length], [0, success.num_rewrites, 0]),
        Err(refusal) => (&[][..], [refusal.number.into(), refusal.position, refusal.detail]),
    };
    frame(out, image);
    for each in numbers {
        number(answers, each as usize);
    }
}

/// The ratio.
fn row(time: Duration, name: &str, images: &[Vec<u8>]) -> f64 {
    let mut release = Vec::new();
    let places: Vec<_> = images.iter().map(|image| frame(&mut release, image)).collect();
    // Each has an output of its own, in which every image has as much room as in the release.
    let mut apart = output(release.len());
    let apart = &mut apart[APART..];
    let mut together = output(release.len());
    let together = &mut together[APART..];
    let mut answers = vec![0; ANSWER * images.len()];

    let (mut out, mut expected) = (Vec::new(), Vec::new());
    for (image, place) in images.iter().zip(&places) {
        let answer = Library.rewrite(image, &mut apart[place.clone()]);
        expect(&mut out, &mut expected, &apart[place.clone()], answer);
    }
    let reply = Library.release(&release, together, &mut answers);
    assert_eq!(reply, Reply { number: 0, first: out.len(), second: 0 }, "{name}");
    assert!(together[..out.len()] == out, "{name}: the output");
    assert!(answers == expected, "{name}: the answers");

    let mut one_by_one = || {
        for place in &places {
            let image = black_box(&release[place.clone()]);
            let _ = black_box(Library.rewrite(image, &mut apart[place.clone()]));
        }
        black_box(&mut *apart);
    };
    let mut at_once = || {
        let reply = Library.release(black_box(&release), together, &mut answers);
        assert_eq!(reply.number, 0);
        black_box((&mut *together, &mut answers));
    };
    let (mut alone, mut whole, mut tries) = (f64::INFINITY, f64::INFINITY, 0);
    while tries == 0 || (tries < TRIES && whole > MOST * alone) {
        let [one, other] = by_turns(time, &release, [&mut one_by_one, &mut at_once]);
        (alone, whole) = (alone.min(one), whole.min(other));
        tries += 1;
    }
    let ratio = whole / alone;
    println!(
        "{name:32} {:>6} {:>8} {alone:>13.1} {whole:>13.1} {ratio:>9.3}",
        images.len(),
        release.len()
    );
    ratio
}
