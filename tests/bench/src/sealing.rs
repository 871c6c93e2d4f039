//! Times the sealing check (document 02, W13) beside the site check of the same image.

use crate::{by_turns, images};
use differential::answers::{checked_text, Operations};
use differential::cells::{self, Cell, CELL, MAX_INSTRS};
use differential::generate::load_i32;
use differential::library::Library;
use differential::numbered::{self, Many, Numbered, ACTIVATION, BOTH, RECORD, WRITE};
use differential::sealing::{self, Numbers};
use differential::{generate, model};
use std::hint::black_box;
use std::time::Duration;

/// The rows, and the longest time and the largest ratio. Neither has a limit.
pub fn rows(time: Duration) {
    println!("ns for one image, the fastest of many rounds; the two checks are called by turns");
    println!(
        "{:40} {:>6} {:>9} {:>9} {:>12} {:>13} {:>9}   answer",
        "image", "cells", "functions", "pairs", "site check", "sealing check", "ratio"
    );
    let rows: Vec<Row> = images().iter().map(|(name, image)| row(time, name, image)).collect();
    println!("pairs: numbers of one kind in two functions; ratio: the sealing check's time divided by the site check's");
    let longest = rows.iter().max_by(|one, two| one.sealing.total_cmp(&two.sealing)).unwrap();
    let largest = rows.iter().max_by(|one, two| one.ratio.total_cmp(&two.ratio)).unwrap();
    println!("the longest time is {:.0} ns ({})", longest.sealing, longest.name);
    println!("the largest ratio is {:.2} ({})", largest.ratio, largest.name);
}

/// An image's name, its sealing check's time, and that divided by the site check's.
struct Row {
    name: String,
    sealing: f64,
    ratio: f64,
}

fn images() -> Vec<(String, Vec<u8>)> {
    let mut images = Vec::new();
    let kinds: [(&str, Numbered); 4] = [
        ("StoreVars, activation", ACTIVATION),
        ("StoreVars, write", WRITE),
        ("MakeRecords", RECORD),
        ("StoreVars, both", BOTH),
    ];
    // Two long functions, many short ones, and what has the most pairs.
    for (name, numbered) in kinds {
        for size in [1023, 300, 45, 10, 1] {
            let many = Many::most(size, numbered);
            images.push((format!("{name}, functions of {}", many.size()), many.image(None)));
        }
    }
    for (name, numbered) in [("34", ACTIVATION), ("35", RECORD)] {
        for size in [45, 1] {
            let many = Many::most(size, numbered);
            let last = many.count() - 1;
            let name = format!("{name} in the last, functions of {size}");
            images.push((name, many.image(Some((last, 0)))));
        }
    }
    let mixed = images::mixed();
    let others = [
        ("behind 2,048 loads", behind_loads()),
        ("mixed, numbers apart", numbered::apart(&mixed)),
        ("mixed", mixed),
        ("loads", images::loads()),
        ("4,096 empty functions", cells::head(7, 0, 0).repeat(cells::MAX_IMAGE / CELL)),
        ("printed example", images::printed_example()),
        ("nothing", Vec::new()),
    ];
    images.extend(others.map(|(name, image)| (name.into(), image)));
    images
}

/// A function of loads alone, then functions of 45 activation numbers.
fn behind_loads() -> Vec<u8> {
    let mut number = 0;
    images::fill(|left| {
        if left > MAX_INSTRS {
            return ((0..MAX_INSTRS).map(|at| load_i32(1, at as i32)).collect(), Vec::new());
        }
        let numbers = number..number + (left / 2).min(45) as u32;
        number = numbers.end;
        let instrs: Vec<Cell> = numbers.map(ACTIVATION).collect();
        let events = generate::events_for(&instrs, |_| 1);
        (instrs, events)
    })
}

fn row(time: Duration, name: &str, image: &[u8]) -> Row {
    let answer = sealing::check(image);
    assert_eq!(model::site_check(image), Ok(()), "{name}");
    assert_eq!(Library.site_check(image), Ok(()), "{name}");
    assert_eq!(Library.sealing_check(image), answer, "{name}");
    let mut sites = || assert_eq!(Library.site_check(black_box(image)), Ok(()));
    let mut sealing = || assert_eq!(Library.sealing_check(black_box(image)), answer);
    let [sites, sealing] = by_turns(time, image, [&mut sites, &mut sealing]);
    let ratio = sealing / sites;
    println!(
        "{name:40} {:>6} {:>9} {:>9} {sites:>12.1} {sealing:>13.1} {ratio:>9.2}   {}",
        image.len() / CELL,
        cells::functions(image).count(),
        Numbers::of(image).pairs(),
        checked_text(&answer),
    );
    Row { name: name.into(), sealing, ratio }
}
