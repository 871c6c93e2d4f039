//! A search for images on which the proved rewrite, or the proved sealing check, takes long: plans of
//! a few functions are made at random and changed step by step, and a change that takes longer stays.

use differential::answers::Operations;
use differential::cells::{self, Cell, CELL, MAX_EVENTS, MAX_IMAGE, MAX_INSTRS};
use differential::generate::{
    borrow, computed, jmp, label, load_i32, make_record, ret, store_var, write,
};
use differential::legacy_lowering::byte;
use differential::library::Library;
use differential::numbered;
use differential::random::Random;
use std::hint::black_box;
use std::time::{Duration, Instant};

/// How often each kind of cell comes: a load, a fold, a label, a jump to it, a StoreVar with an
/// activation site, one with a write site, one with both, a MakeRecord with a write site.
const KINDS: usize = 8;

/// A function: its length, the weights of the kinds, after how many cells it returns, and whether
/// sites come in rising order and each has its event.
#[derive(Clone, Debug)]
struct Plan {
    instrs: usize,
    weights: [usize; KINDS],
    returns: usize,
    rising: bool,
    paired: bool,
}

/// How long an image takes.
pub type Took = fn(&[u8]) -> Duration;

/// Runs for the time given and prints the slowest image's plan and time.
pub fn run(seed: u64, time: Duration, took: Took) {
    let mut random = Random::new(seed);
    let deadline = Instant::now() + time;
    let (mut slowest, mut tried, mut best) = (Duration::ZERO, 0, Vec::new());
    while Instant::now() < deadline {
        let mut plans: Vec<_> = (0..random.range(1, 6)).map(|_| plan(&mut random)).collect();
        let mut held = took(&image(&plans));
        for _ in 0..60 {
            let mut next = plans.clone();
            let at = random.below(next.len());
            change(&mut random, &mut next[at]);
            let time = took(&image(&next));
            tried += 1;
            if time > held {
                (plans, held) = (next, time);
            }
        }
        // once more, so that a disturbance doesn't count
        let held = took(&image(&plans)).min(held);
        if held > slowest {
            (slowest, best) = (held, plans);
        }
    }
    println!("seed {seed}, {tried} images tried; the slowest took {} ns", slowest.as_nanos());
    for plan in best {
        println!("{plan:?}");
    }
}

fn plan(random: &mut Random) -> Plan {
    let mut plan = Plan { instrs: 1, weights: [0; KINDS], returns: 0, rising: true, paired: true };
    for _ in 0..12 {
        change(random, &mut plan);
    }
    plan
}

fn change(random: &mut Random, plan: &mut Plan) {
    match random.below(6) {
        0 => plan.instrs = random.range(1, MAX_INSTRS),
        1 | 2 => plan.weights[random.below(KINDS)] = random.below(5),
        3 => plan.returns = random.below(MAX_INSTRS),
        4 => plan.rising = !plan.rising,
        _ => plan.paired = !plan.paired,
    }
}

fn image(plans: &[Plan]) -> Vec<u8> {
    let mut image = Vec::new();
    for (name, plan) in plans.iter().cycle().take(MAX_IMAGE / CELL).enumerate() {
        let left = (MAX_IMAGE - image.len()) / CELL;
        if left < 2 {
            break;
        }
        let (instrs, events) = function(plan, left - 1);
        cells::push_function(&mut image, name as u16, &instrs, &events);
    }
    image
}

/// As many cells as there is room for, instructions before events.
fn function(plan: &Plan, left: usize) -> (Vec<Cell>, Vec<Cell>) {
    let kinds: Vec<_> =
        (0..KINDS).flat_map(|kind| std::iter::repeat(kind).take(plan.weights[kind])).collect();
    let (mut instrs, mut events) = (Vec::new(), Vec::new());
    for at in 0..plan.instrs {
        let site = if plan.rising { at as u32 } else { u32::MAX - at as u32 };
        let kind = if kinds.is_empty() { 0 } else { kinds[at % kinds.len()] };
        let (cell, claims) = match kind {
            _ if at == plan.returns => (ret(None), vec![]),
            0 => (load_i32(1, at as i32), vec![]),
            1 => (computed(byte::AddI32, 2, 1, 1), vec![]),
            2 => (label(at as u16), vec![]),
            3 => (jmp(at as u16 + 1), vec![]),
            4 => (store_var(1, Some(site), None), vec![borrow(Some(site))]),
            5 => (store_var(1, None, Some(site)), vec![write(site)]),
            6 => (store_var(1, Some(site), Some(site)), vec![borrow(Some(site)), write(site)]),
            _ => (make_record(1, Some(site)), vec![write(site)]),
        };
        let claims = if plan.paired { claims } else { vec![] };
        let room = instrs.len() + events.len() + 1 + claims.len() <= left;
        if instrs.len() == MAX_INSTRS || events.len() + claims.len() > MAX_EVENTS || !room {
            break;
        }
        instrs.push(cell);
        events.extend(claims);
    }
    (instrs, events)
}

/// Of the default rewrite, refused or not.
pub fn rewrite_took(image: &[u8]) -> Duration {
    let mut out = vec![0; MAX_IMAGE];
    fastest(|| {
        let _ = black_box(Library.rewrite(black_box(image), &mut out));
    })
}

/// Of the sealing check, the numbers of each function being its own.
pub fn sealing_took(image: &[u8]) -> Duration {
    let image = &numbered::apart(image);
    fastest(|| {
        let _ = black_box(Library.sealing_check(black_box(image)));
    })
}

/// Of a few calls.
fn fastest(mut call: impl FnMut()) -> Duration {
    let one = |_| {
        let start = Instant::now();
        call();
        start.elapsed()
    };
    (0..5).map(one).min().unwrap()
}
