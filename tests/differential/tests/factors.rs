//! Shows that the harness finds wrong factors (document 02, W14), and holds the model's against rows
//! written out by hand and against searches over all i32.

#[macro_use]
mod common;

use differential::answers::{Operations, Reply};
use differential::driver::{self, Groups, Lent};
use differential::factors::{self, edges, Leaf, Numbers, I32, LEAVES, NO_FACTOR, TURNS};
use differential::leaves::{compute, Computed, Const};
use differential::legacy_lowering::byte;
use differential::model::Model;
use differential::random::Random;
use Leaf::{MulFx, MulI32};

const LEAST: i32 = i32::MIN;
const MOST: i32 = i32::MAX;

/// A program that answers as the model does but for one fault in its factors.
#[derive(Debug, Clone, Copy)]
struct Wrong(Fault);

#[derive(Debug, Clone, Copy, PartialEq)]
enum Fault {
    NoFault,
    // Which of several.
    NegativeOnATie,
    Farthest,
    LeastFirst,
    NeverNegative,
    NearestOfOneSign,
    SecondNearest,
    // What gives the wanted value.
    Rounds,
    Floors,
    Ceils,
    ScaleOf(i64),
    Overshoots,
    Undershoots,
    ProductInI32,
    SizesOnly,
    SignOfTheWanted,
    NothingWraps,
    HalvesOnly,
    OddPartOnly,
    Exchanged,
    TheOtherLeaf,
    // Edges.
    ZeroRefused,
    ZeroByZeroRefused,
    ZeroByZeroIsOne,
    ByZeroIsZero,
    LeastRefused,
    LeastIsMost,
    TwinOfTheLeast,
    LeastWantedRefused,
    ThirtyOneBits,
    SeveralRefused,
    // Answers.
    ThirtyFor36,
    NoneIsZero,
    WantedOn36,
    KeptOn36,
    KeptIfZero,
}
use Fault::*;

const FAULTS: [Fault; 37] = [
    NegativeOnATie,
    Farthest,
    LeastFirst,
    NeverNegative,
    NearestOfOneSign,
    SecondNearest,
    Rounds,
    Floors,
    Ceils,
    ScaleOf(100),
    ScaleOf(999),
    ScaleOf(1024),
    Overshoots,
    Undershoots,
    ProductInI32,
    SizesOnly,
    SignOfTheWanted,
    NothingWraps,
    HalvesOnly,
    OddPartOnly,
    Exchanged,
    TheOtherLeaf,
    ZeroRefused,
    ZeroByZeroRefused,
    ZeroByZeroIsOne,
    ByZeroIsZero,
    LeastRefused,
    LeastIsMost,
    TwinOfTheLeast,
    LeastWantedRefused,
    ThirtyOneBits,
    SeveralRefused,
    ThirtyFor36,
    NoneIsZero,
    WantedOn36,
    KeptOn36,
    KeptIfZero,
];

/// What `x` gives, if it is an i32.
fn gives(leaf: Leaf, x: i64, factor: i32) -> Option<i64> {
    I32.product(leaf, x, factor as i64).filter(|_| I32.has(x))
}

/// The nearest of these that gives the wanted value.
fn nearest(leaf: Leaf, wanted: i32, factor: i32, tried: &[i64]) -> Option<i64> {
    let mut tried = tried.to_vec();
    tried.sort_by_key(|x| (x.abs(), *x < 0));
    tried.into_iter().find(|x| gives(leaf, *x, factor) == Some(wanted as i64))
}

/// How far apart those factors of MulI32 lie that give the same value.
fn step(factor: i32) -> i64 {
    if factor == 0 {
        1
    } else {
        1 << (32 - factor.trailing_zeros())
    }
}

/// The quotient of sizes, in the direction of the exact one, and whether it is exact.
fn quotient(wanted: i32, factor: i32) -> (i64, bool) {
    let (wanted, factor) = (wanted as i64 * 1000, factor as i64);
    (wanted / factor, wanted % factor == 0)
}

/// The factor of MulFx, if its products were divided in another way.
fn divided(wanted: i32, factor: i32, divide: fn(i64) -> i64) -> Option<i64> {
    if factor == 0 {
        return Some(0).filter(|_| wanted == 0);
    }
    let near = quotient(wanted, factor).0;
    let half = 1000 / (factor as i64).abs() + 2;
    let tried = [0].into_iter().chain(near - half..=near + half);
    let found = tried.filter(|x| I32.has(*x) && divide(x * factor as i64) == wanted as i64);
    found.min_by_key(|x| (x.abs(), *x < 0))
}

fn factor_with(fault: Fault, leaf: Leaf, wanted: i32, factor: i32) -> Option<i64> {
    let right = I32.factor(leaf, wanted as i64, factor as i64);
    let step = step(factor);
    match (fault, leaf, right) {
        (NegativeOnATie, MulI32, Some(x)) => nearest(leaf, wanted, factor, &[x, x - step])
            .filter(|_| gives(leaf, -x, factor) != Some(wanted as i64))
            .or(Some(-x.abs())),
        (Farthest, MulI32, Some(x)) => {
            let most = x + (MOST as i64 - x) / step * step;
            let least = x - (x - LEAST as i64) / step * step;
            Some(if least.abs() > most { least } else { most })
        }
        (Farthest, MulFx, Some(x)) if wanted != 0 => {
            let sign = x.signum();
            let more = (1..=1000).map(|more| x + sign * more);
            more.take_while(|x| gives(leaf, *x, factor) == Some(wanted as i64)).last().or(right)
        }
        (LeastFirst, MulI32, Some(x)) => Some(x - (x - LEAST as i64) / step * step),
        (NeverNegative, MulI32, Some(x)) => Some(x.rem_euclid(step)).filter(|x| I32.has(*x)),
        (NearestOfOneSign, MulI32, Some(x)) => {
            Some(x.rem_euclid(step)).filter(|x| I32.has(*x)).or(right)
        }
        (SecondNearest, MulI32, Some(x)) => nearest(leaf, wanted, factor, &[x - step, x + step]),

        (Rounds, MulFx, _) => {
            divided(wanted, factor, |product| (product.abs() + 500) / 1000 * product.signum())
        }
        (Floors, MulFx, _) => divided(wanted, factor, |product| product.div_euclid(1000)),
        (Ceils, MulFx, _) => divided(wanted, factor, |product| -(-product).div_euclid(1000)),
        (ScaleOf(scale), MulFx, _) => {
            Numbers { scale, ..I32 }.factor(leaf, wanted as i64, factor as i64)
        }
        (Overshoots, MulFx, None) if factor != 0 => {
            let (x, exact) = quotient(wanted, factor);
            let sign = if (wanted < 0) == (factor < 0) { 1 } else { -1 };
            Some(if exact { x } else { x + sign }).filter(|x| I32.has(*x))
        }
        (Undershoots, MulFx, Some(_)) if factor != 0 => Some(quotient(wanted, factor).0),
        (ProductInI32, MulFx, Some(x)) => right.filter(|_| I32.has(x * factor as i64)),
        (SizesOnly, MulFx, Some(x)) => Some(x.abs()).filter(|x| I32.has(*x)),
        (SignOfTheWanted, MulFx, Some(x)) => {
            Some(if wanted < 0 { -x.abs() } else { x.abs() }).filter(|x| I32.has(*x))
        }
        (NothingWraps, MulI32, Some(x)) => right.filter(|_| x * factor as i64 == wanted as i64),
        // Halves both while it can, but doesn't look where the other solutions are.
        (HalvesOnly, MulI32, Some(x)) if factor != 0 => Some(x.rem_euclid(step) % (1 << 31)),
        (OddPartOnly, MulI32, None) if factor != 0 => {
            let odd = factor >> factor.trailing_zeros();
            I32.factor(leaf, (wanted >> factor.trailing_zeros()) as i64, odd as i64)
        }
        (Exchanged, ..) => I32.factor(leaf, factor as i64, wanted as i64),
        (TheOtherLeaf, MulFx, _) => I32.factor(MulI32, wanted as i64, factor as i64),
        (TheOtherLeaf, MulI32, _) => I32.factor(MulFx, wanted as i64, factor as i64),

        (ZeroRefused, ..) => right.filter(|_| wanted != 0),
        (ZeroByZeroRefused, ..) => right.filter(|_| (wanted, factor) != (0, 0)),
        (ZeroByZeroIsOne, ..) if (wanted, factor) == (0, 0) => Some(1),
        (ByZeroIsZero, ..) if factor == 0 => Some(0),
        (LeastRefused, ..) => right.filter(|x| *x != LEAST as i64),
        (LeastIsMost, ..) => right.map(|x| if x == LEAST as i64 { MOST as i64 } else { x }),
        // The size 2^31 for a positive factor, which becomes the least number.
        (TwinOfTheLeast, MulFx, None) if factor != 0 => {
            let exact = 2i64.pow(31) * factor as i64 / 1000 == wanted as i64;
            exact.then_some(LEAST as i64)
        }
        (LeastWantedRefused, ..) => right.filter(|_| wanted != LEAST),
        (ThirtyOneBits, ..) => right.filter(|x| x.abs() < 1 << 30),
        (SeveralRefused, MulI32, Some(_)) => right.filter(|_| factor % 2 != 0),
        _ => right,
    }
}

impl Operations for Wrong {
    checks_and_rewrites_of_the_model!();
    packing_of_the_model!();
    fn pages(&self, image: &[u8], out: &mut [u8]) -> Reply {
        Model.pages(image, out)
    }
    releases_of_the_model!();
    fn factor(&self, leaf: Leaf, wanted: i32, factor: i32, other: &mut i32) -> usize {
        let lent = *other;
        let found = factor_with(self.0, leaf, wanted, factor).map(|x| i32::try_from(x).unwrap());
        let number = factors::answer(found, other);
        match (self.0, found) {
            (ThirtyFor36, None) => return 30,
            (NoneIsZero, None) => return 0,
            (WantedOn36, None) => *other = wanted,
            (KeptOn36, None) | (KeptIfZero, Some(0)) => *other = lent,
            _ => {}
        }
        number
    }
}

#[test]
fn every_wrong_factor_is_found() {
    for fault in FAULTS {
        let outcome = driver::compare(Groups::Factors, &[&Wrong(fault)], 1, 0, 1);
        let found = outcome.found.unwrap_or_else(|| panic!("{fault:?} isn't found"));
        let difference = &found.difference;
        println!(
            "{fault:?}: {}: {}: {}; expected {}",
            found.group, difference.what, difference.got, difference.expected
        );
        assert!(difference.what.starts_with("Mul") && found.lent == Lent::Number, "{fault:?}");
    }
}

/// Random pairs alone find each of them too.
#[test]
fn by_random_pairs_alone() {
    let mut random = Random::new(1);
    for fault in FAULTS {
        let mut differs = |leaf| {
            let (wanted, factor) = factors::any_pair(&mut random, leaf);
            let found = factors::model(leaf, wanted, factor);
            factors::check(&Wrong(fault), leaf, wanted, factor, found).is_err()
        };
        let found = (0..200_000).any(|at| differs(LEAVES[at % 2]));
        assert!(found, "{fault:?}");
    }
}

/// A full run has these groups.
#[test]
fn among_all_groups() {
    let outcome = driver::compare(Groups::All, &[&Wrong(NegativeOnATie)], 1, 0, 1);
    assert_eq!(outcome.found.unwrap().lent, Lent::Number);
}

/// Wrong factors are wrong by their fault alone; and every case comes up often.
#[test]
fn no_fault_is_right() {
    let outcome = driver::compare(Groups::Factors, &[&Wrong(NoFault)], 1, 1, 1);
    assert!(outcome.found.is_none());
    assert_eq!(outcome.factors.edges, 2 * (edges().len() as u64).pow(2));
    assert!(outcome.factors.random >= 2000);
    for ((name, _), count) in TURNS.iter().zip(outcome.factors.turns) {
        println!("{name}: {count}");
        assert!(count >= 200, "{name}: {count}");
    }
}

/// Document 02's words, row by row.
#[test]
fn by_hand() {
    let rows = [
        // 0 is given by 0, the nearest; by 0 nothing else is.
        (MulFx, 0, 0, Some(0)),
        (MulFx, 0, 1000, Some(0)),
        (MulFx, 0, LEAST, Some(0)),
        (MulFx, 1, 0, None),
        (MulFx, LEAST, 0, None),
        (MulI32, 0, 0, Some(0)),
        (MulI32, 0, LEAST, Some(0)),
        (MulI32, -1, 0, None),
        // Truncated: 999 times 2 is 1998, 1999 times 1 is 1999; 2000 times 1 is too much already.
        (MulFx, 1, 999, Some(2)),
        (MulFx, 1, 1000, Some(1)),
        (MulFx, 1, 1999, Some(1)),
        (MulFx, 1, 2000, None),
        (MulFx, 1, -1999, Some(-1)),
        (MulFx, -1, 1999, Some(-1)),
        (MulFx, -1, -1999, Some(1)),
        (MulFx, 2, 1999, None),
        (MulFx, 1, 1, Some(1000)),
        (MulFx, -1, 1, Some(-1000)),
        (MulFx, 2250, 1500, Some(1500)),
        // The ends.
        (MulFx, LEAST, 1000, Some(LEAST)),
        (MulFx, LEAST, -1000, None),
        (MulFx, MOST, 1000, Some(MOST)),
        (MulFx, MOST, -1000, Some(-MOST)),
        (MulFx, LEAST, LEAST, Some(1000)),
        (MulFx, LEAST, MOST, None),
        (MulFx, MOST, MOST, Some(1000)),
        (MulFx, LEAST, 999, None),
        (MulFx, 2_147_483, 1, Some(2_147_483_000)),
        (MulFx, 2_147_484, 1, None),
        (MulFx, 268_435_456, 125, None),
        (MulFx, -268_435_456, 125, Some(LEAST)),
        (MulFx, 268_435_456, -125, Some(LEAST)),
        // Odd factors: one answer.
        (MulI32, 1, 3, Some(-1_431_655_765)),
        (MulI32, -1, 3, Some(1_431_655_765)),
        (MulI32, 7, -1, Some(-7)),
        (MulI32, 1, MOST, Some(MOST)),
        (MulI32, LEAST, 1, Some(LEAST)),
        (MulI32, LEAST, -1, Some(LEAST)),
        (MulI32, LEAST, 3, Some(LEAST)),
        // Even factors: several, or none.
        (MulI32, 1, 2, None),
        (MulI32, 2, 2, Some(1)),
        (MulI32, -2, 2, Some(-1)),
        (MulI32, 6, 4, None),
        (MulI32, -65536, 65536, Some(-1)),
        (MulI32, LEAST, 1_073_741_824, Some(2)),
        (MulI32, LEAST, -1_073_741_824, Some(2)),
        (MulI32, LEAST, 2, Some(1_073_741_824)),
        (MulI32, LEAST, LEAST, Some(1)),
        (MulI32, -1_073_741_824, 1_073_741_824, Some(-1)),
        (MulI32, MOST, LEAST, None),
    ];
    for (leaf, wanted, factor, found) in rows {
        assert_eq!(factors::model(leaf, wanted, factor), found, "{leaf:?} {wanted} by {factor}");
        let mut other = 77;
        let number = Model.factor(leaf, wanted, factor, &mut other);
        assert_eq!(number, if found.is_some() { 0 } else { NO_FACTOR });
        assert_eq!(other, found.unwrap_or(0));
    }
}

/// The model against the pairs that another program searched over all i32.
#[test]
fn by_search() {
    let (mut found, mut none) = (0, 0);
    for (leaf, wanted, factor, expected) in factors::searched() {
        let model = factors::model(leaf, wanted, factor);
        assert_eq!(model, expected, "{leaf:?} {wanted} by {factor}");
        *if expected.is_some() { &mut found } else { &mut none } += 1;
    }
    assert!(found >= 50 && none >= 50, "{found} {none}");
}

/// The library, for longer than a full run takes on factors.
#[cfg(feature = "library")]
#[test]
fn the_library() {
    let library = differential::library::Library;
    for (leaf, wanted, factor, found) in factors::searched() {
        factors::check(&library, leaf, wanted, factor, found).unwrap();
    }
    let outcome = driver::compare(Groups::Factors, &[&library], 2, 20, 1);
    assert!(outcome.found.is_none());
    println!("{} random pairs", outcome.factors.random);
}

/// The model against the vectors of `cases_leaves`.
#[test]
fn by_vectors() {
    let path = concat!(env!("CARGO_MANIFEST_DIR"), "/../../crates/cases_leaves/data/vectors.txt");
    let bits = |digits| u64::from_str_radix(digits, 16).unwrap() as u32 as i32;
    let (mut leaf, mut rows) = (None, 0);
    for line in std::fs::read_to_string(path).unwrap().lines() {
        if let Some(group) = line.strip_prefix("# ") {
            leaf = match &group[..2] {
                "81" => Some(MulFx),
                "82" => Some(MulI32),
                _ => None,
            };
            continue;
        }
        let Some(leaf) = leaf else { continue };
        let expected = match line[34..].trim_end() {
            "none" => None,
            digits => Some(bits(digits)),
        };
        assert_eq!(
            factors::model(leaf, bits(&line[..16]), bits(&line[17..33])),
            expected,
            "{line}"
        );
        rows += 1;
    }
    assert!(rows >= 200, "{rows}");
}

#[test]
fn on_few_bits() {
    assert!(factors::check_on_few_bits().unwrap() > 1_000_000);
}

/// The search finds the first, and the least number last.
#[test]
fn searches() {
    for (leaf, wanted, factor) in
        [(MulFx, 2250, 1500), (MulFx, 1, -1), (MulI32, 7, -1), (MulI32, LEAST, 1_073_741_824)]
    {
        let found = factors::search(leaf, wanted, factor);
        assert_eq!(found, factors::model(leaf, wanted, factor), "{leaf:?} {wanted} by {factor}");
    }
    assert_eq!(factors::search(MulI32, LEAST, 3), Some(LEAST));
}

/// The leaves on 32 bits are those of the folds.
#[test]
fn the_same_leaves() {
    let mut random = Random::new(1);
    let edges = edges();
    let both = edges.iter().flat_map(|a| edges.iter().map(move |b| (*a, *b)));
    let any =
        (0..100_000).map(|_| (random.bits() as i32, random.bits() as i32 >> random.below(32)));
    for (a, b) in both.collect::<Vec<_>>().into_iter().chain(any) {
        for (leaf, command, kind) in [
            (MulFx, byte::MulFx, Const::Fx as fn(i32) -> Const),
            (MulI32, byte::MulI32, Const::I32),
        ] {
            let product = I32.product(leaf, a as i64, b as i64);
            let expected = match product {
                Some(value) => Computed::Value(kind(value as i32)),
                None => Computed::OutOfRange,
            };
            assert_eq!(compute(command, kind(a), kind(b)), expected, "{leaf:?} {a} {b}");
        }
    }
}
