//! Times the original's `run_default_opt_passes` and, with the feature `library`,
//! the proved rewrites and pages on the same images, in one process; the proved packed form beside
//! the image check; the proved sealing check beside the site check; the proved rewrite of a release
//! beside the rewrites of its images; and the proved factors.

mod factors;
mod images;
#[cfg(feature = "library")]
mod packed;
#[cfg(feature = "library")]
mod release;
#[cfg(feature = "library")]
mod sealing;
#[cfg(feature = "library")]
mod search;

use differential::answers::Operation;
use differential::cells::{CELL, MAX_IMAGE};
use differential::legacy_lowering::IrFunction;
use differential::{codec, original};
use std::hint::black_box;
use std::process::ExitCode;
use std::time::{Duration, Instant};

/// How long one figure is measured, unless `--milliseconds` says otherwise.
const TIME: Duration = Duration::from_millis(400);

const USAGE: &str = "\
usage: [--milliseconds N], or with the library: --packed [--milliseconds N],
       --sealing [--milliseconds N], --release [--milliseconds N], --search [sealing] SEED SECONDS";

fn wrong_use() -> ! {
    eprintln!("{USAGE}");
    std::process::exit(2)
}

fn main() -> ExitCode {
    let arguments: Vec<String> = std::env::args().skip(1).collect();
    let words: Vec<&str> = arguments.iter().map(String::as_str).collect();
    let hold = match words.as_slice() {
        ["--help"] => {
            println!("{USAGE}");
            true
        }
        #[cfg(feature = "library")]
        ["--search", seed, seconds] => search(search::rewrite_took, seed, seconds),
        #[cfg(feature = "library")]
        ["--search", "sealing", seed, seconds] => search(search::sealing_took, seed, seconds),
        #[cfg(feature = "library")]
        ["--packed", rest @ ..] => packed::rows(time(rest)),
        #[cfg(feature = "library")]
        ["--sealing", rest @ ..] => {
            sealing::rows(time(rest));
            true
        }
        #[cfg(feature = "library")]
        ["--release", rest @ ..] => release::rows(time(rest)),
        words => all(time(words)),
    };
    ExitCode::from(!hold as u8)
}

#[cfg(feature = "library")]
fn search(took: search::Took, seed: &str, seconds: &str) -> bool {
    match (seed.parse(), seconds.parse()) {
        (Ok(seed), Ok(seconds)) => search::run(seed, Duration::from_secs(seconds), took),
        _ => wrong_use(),
    }
    true
}

fn time(words: &[&str]) -> Duration {
    match words {
        [] => TIME,
        ["--milliseconds", value] => match value.parse() {
            Ok(value) => Duration::from_millis(value),
            Err(_) => wrong_use(),
        },
        _ => wrong_use(),
    }
}

/// All tables, and whether the bounds on some of them hold.
fn all(time: Duration) -> bool {
    println!("ns for one image, the fastest of many rounds; outputs are lent once and not cleared");
    let image = vec![0x5A; MAX_IMAGE];
    let mut out = output(MAX_IMAGE);
    let out = &mut out[APART..];
    let copy = measure(
        time,
        || (),
        |()| {
            out.copy_from_slice(black_box(&image));
            black_box(&mut *out);
        },
    );
    println!("copy of {MAX_IMAGE} bytes: {copy}");

    let ours = if cfg!(feature = "library") { "ours" } else { "(no library)" };
    println!(
        "{:24} {:>6} {:>9} {:>12} {:>12} {:>12} {:>9} {:>10} {:>12} {:>12} {:>12}",
        "image",
        "cells",
        "rewrites",
        "passes",
        "with codec",
        ours,
        "ratio",
        "with codec",
        "fuller",
        "rest",
        "pages"
    );
    for (name, image) in images::rows() {
        row(time, name, &image);
    }
    println!("ratio: our time divided by the original's, without and with decoding and encoding; `fuller` is the time of the fuller rewrite, `rest` that of the rewrite until it rests, `pages` that of the pages");
    #[cfg(feature = "library")]
    let hold = packed::rows(time);
    #[cfg(feature = "library")]
    sealing::rows(time);
    #[cfg(feature = "library")]
    let hold = release::rows(time) && hold;
    #[cfg(not(feature = "library"))]
    let hold = true;
    factors::rows(time);
    hold
}

/// Image and output shouldn't start at the same place of a page: writes then look to the
/// processor as if they met the reads.
const APART: usize = 2048;

/// A buffer whose part from `APART` on is lent.
fn output(length: usize) -> Vec<u8> {
    vec![0; APART + length]
}

fn row(time: Duration, name: &str, image: &[u8]) {
    let functions = codec::decode(image);
    let run = |mut functions: Vec<IrFunction>| {
        let report = original::run(Operation::Rewrite, &mut functions).unwrap();
        (report, functions)
    };
    let (report, _) = run(functions.clone());

    // The passes take the list apart, so each round gets its own copy, made outside the time.
    let passes = measure(time, || functions.clone(), |functions| black_box(run(functions)));
    let with_codec = measure(
        time,
        || (),
        |()| {
            let (_, functions) = run(codec::decode(black_box(image)));
            codec::encode(&functions)
        },
    );
    let ours = measure_ours(time, Operation::Rewrite, image);
    let fuller = measure_ours(time, Operation::Fuller, image);
    let rest = measure_ours(time, Operation::Rest, image);
    let pages = measure_pages(time, image);

    let cells = image.len() / CELL;
    let text = |number: Option<f64>| number.map_or("-".into(), |number| format!("{number:.2}"));
    let time = |time: Option<u128>| time.map_or("-".into(), |time| time.to_string());
    println!(
        "{name:24} {cells:>6} {:>9} {passes:>12} {with_codec:>12} {:>12} {:>9} {:>10} {:>12} {:>12} {:>12}",
        report.num_rewrites,
        time(ours),
        text(ours.map(|ours| ours as f64 / passes as f64)),
        text(ours.map(|ours| ours as f64 / with_codec as f64)),
        time(fuller),
        time(rest),
        time(pages),
    );
}

#[cfg(feature = "library")]
fn measure_ours(time: Duration, operation: Operation, image: &[u8]) -> Option<u128> {
    use differential::answers::Operations;
    use differential::library::Library;
    let mut out = output(image.len());
    let out = &mut out[APART..];
    Some(measure(
        time,
        || (),
        |()| {
            let answer = Library.run(operation, black_box(image), out);
            black_box(&mut *out);
            answer.unwrap()
        },
    ))
}

#[cfg(not(feature = "library"))]
fn measure_ours(_: Duration, _: Operation, _: &[u8]) -> Option<u128> {
    None
}

/// The pages, in a buffer in which those of every image fit.
#[cfg(feature = "library")]
fn measure_pages(time: Duration, image: &[u8]) -> Option<u128> {
    use differential::answers::Operations;
    use differential::library::Library;
    use differential::pages::LONGEST;
    let mut out = output(LONGEST);
    let out = &mut out[APART..];
    Some(measure(
        time,
        || (),
        |()| {
            let reply = Library.pages(black_box(image), out);
            black_box(&mut *out);
            assert_eq!(reply.number, 0);
        },
    ))
}

#[cfg(not(feature = "library"))]
fn measure_pages(_: Duration, _: &[u8]) -> Option<u128> {
    None
}

/// The time of the fastest round, in ns: the one that other programs disturbed least.
/// Neither what `prepare` does nor the end of what `run` gives is part of it.
fn measure<P, R>(
    time: Duration,
    mut prepare: impl FnMut() -> P,
    mut run: impl FnMut(P) -> R,
) -> u128 {
    black_box(run(prepare()));
    let mut fastest = u128::MAX;
    let mut rounds = 0;
    let deadline = Instant::now() + time;
    while rounds < 10 || Instant::now() < deadline {
        let prepared = prepare();
        let start = Instant::now();
        let result = black_box(run(prepared));
        fastest = fastest.min(start.elapsed().as_nanos());
        rounds += 1;
        drop(result);
    }
    fastest
}

/// Says whether the largest ratio, that of the row named with it, is within its limit.
#[cfg(feature = "library")]
fn verdict(what: &str, (name, ratio): (&str, f64), most: f64) -> bool {
    let holds = ratio <= most;
    let judged = if holds { "as it must be" } else { "which it must not be" };
    let side = if holds { "at most" } else { "above" };
    println!("{what}: the largest ratio is {ratio:.3} ({name}), {side} {most}, {judged}");
    holds
}

/// How many cells a round has at least: a smaller image is taken so many times.
#[cfg(feature = "library")]
const CELLS: usize = 4096;

/// The times of one call of each on an image in the fastest round, in ns. A round is several calls of
/// one, if the image is small.
#[cfg(feature = "library")]
fn by_turns<const N: usize>(
    time: Duration,
    image: &[u8],
    mut calls: [&mut dyn FnMut(); N],
) -> [f64; N] {
    let times = CELLS.div_ceil((image.len() / CELL).max(1));
    let mut fastest = [u128::MAX; N];
    let mut rounds = 0;
    let deadline = Instant::now() + time * N as u32;
    while rounds < 10 || Instant::now() < deadline {
        for (call, fastest) in calls.iter_mut().zip(&mut fastest) {
            let start = Instant::now();
            for _ in 0..times {
                call();
            }
            *fastest = start.elapsed().as_nanos().min(*fastest);
        }
        rounds += 1;
    }
    fastest.map(|fastest| fastest as f64 / times as f64)
}
