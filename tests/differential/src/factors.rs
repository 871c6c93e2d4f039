//! Which factor gives a wanted product (document 02, W14), read a second time. The model is
//! written over the width, so that on few bits all of it can be held against a search.

use crate::answers::Operations;
use crate::compare::Difference;
use crate::random::Random;

/// The multiplications whose factor is asked for.
#[derive(Debug, Clone, Copy, PartialEq, Eq)]
pub enum Leaf {
    MulFx,
    MulI32,
}

pub const LEAVES: [Leaf; 2] = [Leaf::MulFx, Leaf::MulI32];

/// "It refuses 36 when no factor gives the wanted value, and only then."
pub const NO_FACTOR: usize = 36;

/// Two's complement numbers of so many bits. MulFx divides by the scale.
#[derive(Debug, Clone, Copy)]
pub struct Numbers {
    pub bits: u32,
    pub scale: i64,
}

/// The documents' numbers.
pub const I32: Numbers = Numbers { bits: 32, scale: 1000 };

impl Numbers {
    /// How many there are.
    pub fn count(&self) -> i64 {
        1 << self.bits
    }

    /// The size of the least one; no other has it.
    fn largest_size(&self) -> i64 {
        self.count() / 2
    }

    pub fn has(&self, x: i64) -> bool {
        -self.largest_size() <= x && x < self.largest_size()
    }

    /// What the leaf gives, computed exactly: MulFx truncated toward zero and missing out of range,
    /// MulI32 wrapped.
    pub fn product(&self, leaf: Leaf, a: i64, b: i64) -> Option<i64> {
        match leaf {
            Leaf::MulFx => Some(a * b / self.scale).filter(|value| self.has(*value)),
            Leaf::MulI32 => {
                let low = (a * b).rem_euclid(self.count());
                Some(if self.has(low) { low } else { low - self.count() })
            }
        }
    }

    /// All of them, in document 02's order: "the one nearest zero is given, the positive one on a
    /// tie".
    pub fn nearest_first(self) -> impl Iterator<Item = i64> {
        let sizes = (0..=self.largest_size()).flat_map(|size| [size, -size]);
        sizes.filter(move |x| self.has(*x))
    }

    /// The factor that document 02 asks for.
    pub fn factor(&self, leaf: Leaf, wanted: i64, factor: i64) -> Option<i64> {
        let candidates = match leaf {
            Leaf::MulFx => {
                let size = self.least_size(wanted.abs(), factor.abs());
                [size, -size]
            }
            Leaf::MulI32 => self.either_side(wanted, factor)?,
        };
        let gives = |x: &i64| self.has(*x) && self.product(leaf, *x, factor) == Some(wanted);
        candidates.into_iter().filter(gives).min_by_key(|x| (x.abs(), *x < 0))
    }

    /// The least size that, by a factor of some size, comes to the wanted size or passes it; the
    /// largest if none does. The greater the one, the greater the other.
    fn least_size(&self, wanted: i64, factor: i64) -> i64 {
        let (mut low, mut high) = (0, self.largest_size());
        while low < high {
            let middle = (low + high) / 2;
            if middle * factor / self.scale >= wanted {
                high = middle;
            } else {
                low = middle + 1;
            }
        }
        low
    }

    /// What gives the wanted value modulo the count is one number and all that differ from it by a
    /// multiple of a step, or nothing: the nearest two on either side of zero, or zero itself.
    fn either_side(&self, wanted: i64, factor: i64) -> Option<[i64; 2]> {
        let (divisor, times) =
            greatest_common_divisor(factor.rem_euclid(self.count()), self.count());
        if wanted % divisor != 0 {
            return None;
        }
        let step = self.count() / divisor;
        let one = (wanted / divisor) as i128 * times as i128;
        let above = one.rem_euclid(step as i128) as i64;
        Some([above, above - step])
    }
}

/// Euclid's: the divisor, and how many times `a` it is, modulo `b`.
fn greatest_common_divisor(a: i64, b: i64) -> (i64, i64) {
    let (mut number, mut times) = ([a, b], [1, 0]);
    while number[1] != 0 {
        let quotient = number[0] / number[1];
        number = [number[1], number[0] - quotient * number[1]];
        times = [times[1], times[0] - quotient * times[1]];
    }
    (number[0], times[0])
}

pub fn model(leaf: Leaf, wanted: i32, factor: i32) -> Option<i32> {
    let found = I32.factor(leaf, wanted as i64, factor as i64)?;
    Some(i32::try_from(found).unwrap())
}

/// The number of an answer and what stands in `other` behind it.
pub fn answer(found: Option<i32>, other: &mut i32) -> usize {
    *other = found.unwrap_or(0);
    if found.is_some() {
        0
    } else {
        NO_FACTOR
    }
}

/// Compares the answer to a pair. What is lent isn't what must stand there afterwards.
pub fn check(
    subject: &dyn Operations,
    leaf: Leaf,
    wanted: i32,
    factor: i32,
    found: Option<i32>,
) -> Result<(), Difference> {
    let mut expected = 0;
    let number = answer(found, &mut expected);
    let mut other = !expected;
    let got = subject.factor(leaf, wanted, factor, &mut other);
    if (got, other) == (number, expected) {
        return Ok(());
    }
    Err(Difference {
        what: format!("{leaf:?}, the factor that gives {wanted} by {factor}"),
        expected: format!("number {number}, other {expected}"),
        got: format!("number {got}, other {other}"),
    })
}

// ---- Searches ----

/// Tries every i32, in document 02's order.
pub fn search(leaf: Leaf, wanted: i32, factor: i32) -> Option<i32> {
    match leaf {
        Leaf::MulFx => first(|x| x as i64 * factor as i64 / 1000 == wanted as i64),
        Leaf::MulI32 => first(|x| x.wrapping_mul(factor) == wanted),
    }
}

/// The first i32 that gives it.
fn first(gives: impl Fn(i32) -> bool) -> Option<i32> {
    for size in 0..=i32::MAX {
        if gives(size) {
            return Some(size);
        }
        if gives(-size) {
            return Some(-size);
        }
    }
    Some(i32::MIN).filter(|least| gives(*least))
}

/// What another program found by trying every i32 (`tests/factors`): leaf, wanted value, factor, and
/// the one found.
pub fn searched() -> Vec<(Leaf, i32, i32, Option<i32>)> {
    let number = |word: &str| word.parse::<i32>().unwrap();
    let pair = |line: &str| {
        let words: Vec<&str> = line.split(' ').collect();
        let [leaf, wanted, factor, found] = words[..] else { panic!("{line}") };
        let leaf = if leaf == "fx" { Leaf::MulFx } else { Leaf::MulI32 };
        let found = Some(found).filter(|found| *found != "none").map(number);
        (leaf, number(wanted), number(factor), found)
    };
    include_str!("../../factors/found.txt").lines().map(pair).collect()
}

/// The model on few bits against a search, for all pairs. Gives their number.
pub fn check_on_few_bits() -> Result<u64, String> {
    let mut pairs = 0;
    for (bits, scale) in
        [(2, 1), (3, 2), (4, 3), (6, 5), (8, 7), (9, 10), (10, 1), (10, 10), (10, 100)]
    {
        for leaf in LEAVES {
            pairs += check_all(Numbers { bits, scale }, leaf)?;
        }
    }
    Ok(pairs)
}

fn check_all(numbers: Numbers, leaf: Leaf) -> Result<u64, String> {
    let mut pairs = 0;
    for factor in numbers.nearest_first() {
        // By value: the first number that gives it.
        let mut found = vec![None; numbers.count() as usize];
        let place = |value: i64| value.rem_euclid(numbers.count()) as usize;
        for x in numbers.nearest_first() {
            if let Some(value) = numbers.product(leaf, x, factor) {
                found[place(value)].get_or_insert(x);
            }
        }
        for wanted in numbers.nearest_first() {
            let (model, found) = (numbers.factor(leaf, wanted, factor), found[place(wanted)]);
            if model != found {
                return Err(format!(
                    "{leaf:?} on {numbers:?}, the factor that gives {wanted} by {factor}: \
                     {found:?} by a search, {model:?} by the model"
                ));
            }
            pairs += 1;
        }
    }
    Ok(pairs)
}

/// Pairs for a search: of each leaf one that has a factor, and one of any numbers.
pub fn pairs_to_search(random: &mut Random) -> [(Leaf, i32, i32); 4] {
    let mut product = |leaf| loop {
        let (x, factor) = (random.bits() as i32, any_length(random));
        if let Some(wanted) = value(leaf, x, factor) {
            return (leaf, wanted, factor);
        }
    };
    let (fx, i32) = (product(Leaf::MulFx), product(Leaf::MulI32));
    let mut any = |leaf| (leaf, random.bits() as i32, random.bits() as i32);
    [fx, any(Leaf::MulFx), i32, any(Leaf::MulI32)]
}

// ---- Pairs ----

/// Numbers at which something changes, and their negatives: all powers of two and their
/// neighbours, what MulFx divides by and its double and their neighbours, what 1 and 999 just give.
/// The smallest first.
pub fn edges() -> Vec<i32> {
    let powers = (0..32).map(|power| 1i64 << power);
    let near = powers.chain([10, 125, 500, 1000, 1500, 2000, 3000, 2_147_483, 2_145_336_163]);
    let near = near.flat_map(|number| [number - 1, number, number + 1]);
    let both = near.chain([1_431_655_765]).flat_map(|number| [number, -number]);
    let mut edges: Vec<i32> = both.filter_map(|number| number.try_into().ok()).collect();
    edges.sort_by_key(|x| (x.unsigned_abs(), *x < 0));
    edges.dedup();
    edges
}

/// What the leaf gives.
fn value(leaf: Leaf, a: i32, b: i32) -> Option<i32> {
    let value = I32.product(leaf, a as i64, b as i64)?;
    Some(i32::try_from(value).unwrap())
}

/// Numbers of each length come as often.
fn any_length(random: &mut Random) -> i32 {
    random.bits() as i32 >> random.below(32)
}

/// A wanted value and a factor: any, or from a product, exactly or nearly.
pub fn any_pair(random: &mut Random, leaf: Leaf) -> (i32, i32) {
    let factor = match random.below(4) {
        0 => any_length(random) << random.below(31),
        1 => random.range(0, 2200) as i32 - 1100,
        _ => any_length(random),
    };
    let x = match random.below(4) {
        0 => random.pick(&[i32::MIN, i32::MAX]).wrapping_add(random.range(0, 6) as i32 - 3),
        1 => random.bits() as i32,
        _ => any_length(random),
    };
    let wanted = match (random.below(10), value(leaf, x, factor)) {
        (0, _) => random.pick(&[i32::MIN, i32::MIN, i32::MAX, 0]),
        (1, _) | (_, None) => any_length(random),
        (2, Some(product)) => product.wrapping_add(random.pick(&[-1, 1])),
        (_, Some(product)) => product,
    };
    (wanted, factor)
}

/// What an answer may turn on: leaf, wanted value, factor, and the one found.
type Turn = fn(Leaf, i32, i32, Option<i32>) -> bool;

pub const TURNS: [(&str, Turn); 9] = [
    ("wanted 0", |_, wanted, _, _| wanted == 0),
    ("by 0", |_, _, factor, _| factor == 0),
    ("MulFx found", |leaf, _, _, found| leaf == Leaf::MulFx && found.is_some()),
    ("overshot", |leaf, wanted, factor, found| {
        leaf == Leaf::MulFx && found.is_none() && reached(wanted, factor)
    }),
    ("out of reach", |leaf, wanted, factor, found| {
        leaf == Leaf::MulFx && found.is_none() && !reached(wanted, factor)
    }),
    ("MulI32 found", |leaf, _, _, found| leaf == Leaf::MulI32 && found.is_some()),
    ("MulI32 none", |leaf, _, _, found| leaf == Leaf::MulI32 && found.is_none()),
    ("tie", |leaf, wanted, factor, found| {
        let twin = found.and_then(i32::checked_neg).filter(|twin| Some(*twin) != found);
        twin.is_some_and(|twin| value(leaf, twin, factor) == Some(wanted))
    }),
    ("the least number", |_, _, _, found| found == Some(i32::MIN)),
];

/// The largest i32 of the right sign comes to the wanted size, or passes it.
fn reached(wanted: i32, factor: i32) -> bool {
    let largest = if (wanted < 0) == (factor < 0) { i32::MAX } else { i32::MIN };
    (largest as i64 * factor as i64 / 1000).abs() >= (wanted as i64).abs()
}
