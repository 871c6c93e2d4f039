//! Times the packed form (document 02, W8): `pack` and `unpack` beside the image check of the
//! same image.

use crate::{by_turns, images, output, verdict, APART};
use differential::answers::{Operations, Reply};
use differential::cells::{self, MAX_EVENTS, MAX_INSTRS};
use differential::generate::{self, event, filled, label, load_i32, store_var};
use differential::legacy_lowering::byte;
use differential::library::Library;
use differential::random::Random;
use differential::{model, packed};
use std::hint::black_box;
use std::time::Duration;

/// How many times as long as the image check each of the two may take.
const MOST: f64 = 1.5;

const LAST_COMMAND: u8 = byte::TupleGet;

/// The rows, and whether each of the two takes at most `MOST` times as long as the image check in
/// every one.
pub fn rows(time: Duration) -> bool {
    println!("ns for one image, the fastest of many rounds; the three are called by turns");
    println!(
        "{:24} {:>6} {:>12} {:>12} {:>12} {:>9} {:>9}",
        "image", "cells", "image check", "pack", "unpack", "pack", "unpack"
    );
    let mut images = images::rows();
    images.push(("StoreVars", store_vars()));
    images.push(("events", events()));
    images.push(("every command", every_command()));
    images.push(("StoreVar and event each", stores_with_events()));
    images.push(("each command once", each_command_once()));
    images.push(("printed example", images::printed_example()));
    let one = generate::one_function;
    let sited = store_var(1, Some(1), Some(1));
    let borrow = event(0, Some(1), Some(1));
    images.push(("two labels", one(&[label(1), label(2)], &[])));
    images.push(("a label", one(&[label(1)], &[])));
    images.push(("a load", one(&[load_i32(1, 5)], &[])));
    images.push(("a StoreVar", one(&[sited], &[])));
    images.push(("an event", one(&[], &[borrow])));
    images.push(("two heads", [one(&[], &[]), one(&[], &[])].concat()));
    images.push(("a head", one(&[], &[])));
    images.push(("nothing", Vec::new()));
    let mut largest = [("", 0.0), ("", 0.0)];
    for (name, image) in &images {
        let ratios = row(time, name, image);
        for (largest, ratio) in largest.iter_mut().zip(ratios) {
            if ratio > largest.1 {
                *largest = (*name, ratio);
            }
        }
    }
    println!("the last two columns: the time divided by the image check's");
    let [pack, unpack] = largest;
    // Both are said, whether the first holds or not.
    verdict("pack", pack, MOST) & verdict("unpack", unpack, MOST)
}

fn each_command_once() -> Vec<u8> {
    let cells: Vec<_> = (1..=LAST_COMMAND).map(|command| filled(command, true, 513)).collect();
    generate::one_function(&cells, &[])
}

/// The longest cells, with one spare byte each. The sites of these and the next ones are wrong, which
/// neither `pack` nor `unpack` looks at.
fn store_vars() -> Vec<u8> {
    images::fill(|left| {
        let sites = 0..left.min(MAX_INSTRS) as u32;
        (sites.map(|site| store_var(1, Some(site), Some(site))).collect(), Vec::new())
    })
}

fn events() -> Vec<u8> {
    images::fill(|left| {
        let sites = 0..left.min(MAX_EVENTS) as u32;
        let events = sites.map(|site| event((site % 2) as u8, Some(site), Some(site)));
        (Vec::new(), events.collect())
    })
}

/// Functions of one of each.
fn stores_with_events() -> Vec<u8> {
    let mut site = 0;
    images::fill(|left| {
        site += 1;
        let events = if left > 1 { vec![event(1, Some(site), Some(site))] } else { Vec::new() };
        (vec![store_var(1, Some(site), Some(site))], events)
    })
}

/// Commands at random, each as often as the others, and events of both kinds, with and without what
/// may be absent.
fn every_command() -> Vec<u8> {
    let mut random = Random::new(8);
    images::fill(|left| {
        let events = (left / 3).min(MAX_EVENTS);
        let instrs = (0..(left - events).min(MAX_INSTRS)).map(|_| {
            let command = random.range(1, LAST_COMMAND.into()) as u8;
            filled(command, random.chance(50), random.below(cells::REGISTERS) as u16)
        });
        let instrs = instrs.collect();
        let events = (0..events as u32).map(|site| {
            let kind = random.below(2) as u8;
            event(kind, random.chance(50).then_some(site), random.chance(50).then_some(site))
        });
        (instrs, events.collect())
    })
}

/// The length written.
fn written(reply: Reply) -> usize {
    assert_eq!((reply.number, reply.second), (0, 0));
    reply.first
}

/// The ratios of `pack` and of `unpack`.
fn row(time: Duration, name: &str, image: &[u8]) -> [f64; 2] {
    assert_eq!(model::image_check(image), Ok(()), "{name}");
    let packed = packed::pack(image);
    // Each has an output of its own, as long as the result.
    let mut to_pack = output(packed.len());
    let to_pack = &mut to_pack[APART..];
    let mut to_unpack = output(image.len());
    let to_unpack = &mut to_unpack[APART..];
    assert_eq!(written(Library.pack(image, to_pack)), packed.len(), "{name}");
    assert_eq!(to_pack, packed, "{name}");
    assert_eq!(written(Library.unpack(&packed, to_unpack)), image.len(), "{name}");
    assert_eq!(to_unpack, image, "{name}");

    let mut check = || assert_eq!(Library.image_check(black_box(image)), Ok(()));
    let mut pack = || {
        written(Library.pack(black_box(image), to_pack));
        black_box(&mut *to_pack);
    };
    let mut unpack = || {
        written(Library.unpack(black_box(&packed), to_unpack));
        black_box(&mut *to_unpack);
    };
    let [check, pack, unpack] = by_turns(time, image, [&mut check, &mut pack, &mut unpack]);
    let ratios = [pack / check, unpack / check];
    let cells = image.len() / cells::CELL;
    println!(
        "{name:24} {cells:>6} {check:>12.1} {pack:>12.1} {unpack:>12.1} {:>9.2} {:>9.2}",
        ratios[0], ratios[1]
    );
    ratios
}
