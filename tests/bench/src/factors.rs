//! Times the proved factors (document 02, W14), and beside them a search over all i32.

use differential::factors::{self, Leaf, LEAVES};
use differential::random::Random;
use std::hint::black_box;
use std::time::{Duration, Instant};

/// How many pairs are timed together.
const PAIRS: usize = 65_536;

type Pair = (i32, i32);

pub fn rows(time: Duration) {
    println!("ns for one factor, the fastest of many rounds over {PAIRS} random pairs");
    println!("{:24} {:>12} {:>16}", "pairs", "ns", "calls a second");
    for leaf in LEAVES {
        row(time, leaf, "any", |_| true);
        row(time, leaf, "with a factor", |found| found.is_some());
        row(time, leaf, "without", |found| found.is_none());
    }
    println!("ms for one search, from zero outward, up to the first factor that fits; once each");
    for (leaf, wanted, factor) in SEARCHED {
        search(leaf, wanted, factor);
    }
}

/// Found halfway, found last, and not found.
const SEARCHED: [(Leaf, i32, i32); 6] = [
    (Leaf::MulFx, 1_073_741_824, 1000),
    (Leaf::MulFx, i32::MIN, 1000),
    (Leaf::MulFx, 1, 2000),
    (Leaf::MulI32, 1_073_741_825, 1),
    (Leaf::MulI32, i32::MIN, 1),
    (Leaf::MulI32, 1, 2),
];

/// The pairs that the differential harness makes, of those that fit.
fn pairs(leaf: Leaf, fits: fn(Option<i32>) -> bool) -> Vec<Pair> {
    let mut random = Random::new(14);
    let mut pairs = Vec::new();
    while pairs.len() < PAIRS {
        let (wanted, factor) = factors::any_pair(&mut random, leaf);
        if fits(factors::model(leaf, wanted, factor)) {
            pairs.push((wanted, factor));
        }
    }
    pairs
}

fn row(time: Duration, leaf: Leaf, name: &str, fits: fn(Option<i32>) -> bool) {
    let name = format!("{leaf:?}, {name}");
    match measure_ours(time, leaf, &pairs(leaf, fits)) {
        Some(all) => {
            let one = all as f64 / PAIRS as f64;
            println!("{name:24} {one:>12.1} {:>16.0}", 1e9 / one);
        }
        None => println!("{name:24} {:>12} {:>16}", "-", "-"),
    }
}

#[cfg(feature = "library")]
fn measure_ours(time: Duration, leaf: Leaf, pairs: &[Pair]) -> Option<u128> {
    let function = differential::library::factor_function(leaf);
    let mut other = 0;
    Some(crate::measure(
        time,
        || (),
        |()| {
            let call = |&(wanted, factor): &Pair| unsafe { function(wanted, factor, &mut other) };
            black_box(pairs).iter().map(call).sum::<usize>()
        },
    ))
}

#[cfg(not(feature = "library"))]
fn measure_ours(_: Duration, _: Leaf, _: &[Pair]) -> Option<u128> {
    None
}

fn search(leaf: Leaf, wanted: i32, factor: i32) {
    let start = Instant::now();
    let found = factors::search(leaf, black_box(wanted), black_box(factor));
    let time = start.elapsed().as_millis();
    let found = found.map_or("none".into(), |found| found.to_string());
    println!("{:24} {time:>12}   {wanted} by {factor}: {found}", format!("{leaf:?}, search"));
}
