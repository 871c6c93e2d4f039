//! Document 02's sealing check (W13), written from the document: an activation number stands in one
//! function only, and so does a write number. And laws of one who answers.

use crate::answers::{checked_text, Checked, Operations, Refusal, OPERATIONS};
use crate::cells::{self, Cell};
use crate::compare::{difference, Difference};
use crate::model;
use crate::rest::written;
use std::collections::{HashMap, HashSet};

/// Refuses as the site check, then 34, then 35.
pub fn check(image: &[u8]) -> Checked {
    model::site_check(image)?;
    Numbers::of(image).check()
}

/// The numbers of one kind on the commands of an image, reachable or not, in order.
#[derive(Debug, Clone)]
struct Numbering {
    /// Each with its function's place among the functions.
    placed: Vec<(u32, u32)>,
    /// The first of them that an earlier function has.
    repeated: Option<usize>,
}

impl Numbering {
    fn of(image: &[u8], number: fn(&Cell) -> Option<u32>) -> Numbering {
        let placed = (0..).zip(cells::functions(image)).flat_map(|(place, function)| {
            function.instrs.iter().filter_map(number).map(move |number| (place, number))
        });
        let placed: Vec<(u32, u32)> = placed.collect();
        // The first function that has a number.
        let mut firsts = HashMap::new();
        let repeated = placed
            .iter()
            .position(|&(place, number)| *firsts.entry(number).or_insert(place) < place);
        Numbering { placed, repeated }
    }

    /// Of an image of so many functions with another behind it, from those of both.
    fn joined(&self, functions: u32, other: &Numbering) -> Numbering {
        let here: HashSet<u32> = self.placed.iter().map(|(_, number)| *number).collect();
        let met = other.placed.iter().position(|(_, number)| here.contains(number));
        let first = [met, other.repeated].into_iter().flatten().min();
        let moved = other.placed.iter().map(|&(place, number)| (place + functions, number));
        Numbering {
            placed: self.placed.iter().copied().chain(moved).collect(),
            repeated: self.repeated.or(first.map(|at| at + self.placed.len())),
        }
    }

    /// The function that repeats a number and the first that it does.
    fn found(&self) -> Option<(u32, u32)> {
        self.repeated.map(|at| self.placed[at])
    }

    /// Pairs of numbers in two functions.
    fn pairs(&self) -> usize {
        let functions = self.placed.chunk_by(|one, two| one.0 == two.0).map(<[_]>::len);
        let within: usize = functions.map(|count| count * count).sum();
        (self.placed.len().pow(2) - within) / 2
    }

    /// All numbers of that function that earlier ones have.
    fn shared(&self) -> Vec<u32> {
        let Some((place, _)) = self.found() else {
            return Vec::new();
        };
        let before = self.placed.partition_point(|(at, _)| *at < place);
        let earlier: HashSet<u32> = self.placed[..before].iter().map(|it| it.1).collect();
        let here = self.placed[before..].iter().take_while(|(at, _)| *at == place);
        here.map(|(_, number)| *number).filter(|number| earlier.contains(number)).collect()
    }
}

/// The numbers of both kinds of an image that passes the site check.
#[derive(Debug, Clone)]
pub struct Numbers {
    activation: Numbering,
    write: Numbering,
}

impl Numbers {
    pub fn of(image: &[u8]) -> Numbers {
        Numbers {
            activation: Numbering::of(image, model::activation_site),
            write: Numbering::of(image, model::write_site),
        }
    }

    /// Of an image of so many functions with another behind it, from those of both.
    pub fn joined(&self, functions: u32, other: &Numbers) -> Numbers {
        Numbers {
            activation: self.activation.joined(functions, &other.activation),
            write: self.write.joined(functions, &other.write),
        }
    }

    /// 34 and 35.
    pub fn check(&self) -> Checked {
        for (number, numbering) in [(34, &self.activation), (35, &self.write)] {
            if let Some((position, detail)) = numbering.found() {
                return Err(Refusal { number, position, detail });
            }
        }
        Ok(())
    }

    /// Pairs of numbers of one kind in two functions, which may all have to be compared.
    pub fn pairs(&self) -> usize {
        self.activation.pairs() + self.write.pairs()
    }

    /// Functions that have a number.
    fn functions(&self) -> usize {
        let placed = self.activation.placed.iter().chain(&self.write.placed);
        placed.map(|(place, _)| *place).collect::<HashSet<u32>>().len()
    }

    /// The functions that repeat numbers, if some repeat either kind.
    fn both_found(&self) -> Option<(u32, u32)> {
        Some((self.activation.found()?.0, self.write.found()?.0))
    }

    /// A number is one function's activation number and another's write number.
    fn crossed(&self) -> bool {
        let writes: HashMap<u32, u32> =
            self.write.placed.iter().map(|&(place, number)| (number, place)).collect();
        let mut activations = self.activation.placed.iter();
        activations.any(|(place, number)| writes.get(number).is_some_and(|other| other != place))
    }
}

/// What a sealing check turns on, by name.
pub const CASES: [(&str, fn(&Numbers) -> bool); 7] = [
    ("good with several numbered functions", |it| it.check().is_ok() && it.functions() > 1),
    ("good with a number of both kinds", |it| it.check().is_ok() && it.crossed()),
    ("34", |it| it.activation.repeated.is_some()),
    ("34 with write numbers repeated too", |it| it.both_found().is_some()),
    ("34 with write numbers repeated earlier", |it| {
        it.both_found().is_some_and(|(activation, write)| write < activation)
    }),
    ("35", |it| it.activation.repeated.is_none() && it.write.repeated.is_some()),
    ("detail not the least", |it| {
        [&it.activation, &it.write].iter().any(|it| it.shared().iter().min() != it.shared().first())
    }),
];

// ---- Laws ----

/// Of one who answers about an image, or two joined, whatever the model says. It refuses as its site
/// check does, and one function by no other number. What it passes it passes after each rewrite too,
/// and what it refuses by 34 or 35 each rewrite accepts.
pub fn laws(subject: &dyn Operations, images: &[&[u8]]) -> Result<(), Difference> {
    let image = &images.concat();
    let (sites, sealed) = (subject.site_check(image), subject.sealing_check(image));
    let functions: Vec<&[u8]> = match sites {
        Ok(()) => cells::alone(image).collect(),
        Err(_) => Vec::new(),
    };
    let may_differ = functions.len() > 1 && sealed.is_err_and(|it| [34, 35].contains(&it.number));
    if sealed != sites && !may_differ {
        let what = "Sealing, refused as by the site check";
        return difference(what, checked_text(&sites), checked_text(&sealed));
    }
    if functions.len() < 2 {
        return Ok(());
    }
    for operation in OPERATIONS {
        let (bytes, _) =
            written(image, |out| subject.run(operation, image, out)).map_err(|refusal| {
                let what = format!("Sealing, {operation:?} of what the site check passes");
                Difference { what, expected: "an answer".into(), got: refusal.to_string() }
            })?;
        if sealed.is_ok() && bytes != *image {
            let again = subject.sealing_check(&bytes);
            if again.is_err() {
                let what = format!("Sealing, after {operation:?}");
                return difference(what, "good".into(), checked_text(&again));
            }
        }
    }
    if functions.len() <= FEW {
        by_pairs(subject, &functions, sealed)?;
    }
    if let Err(refusal) = sealed {
        by_parts(subject, &functions, refusal)?;
    }
    match images {
        [first, second] => both_ways(subject, first, second, sealed),
        _ => Ok(()),
    }
}

/// Every two of so many functions are asked about.
const FEW: usize = 5;

/// By what two functions alone are refused, the image is: by 34 if any two are, else by 35; at the
/// first function with which an earlier one is, by a number for which it is.
fn by_pairs(
    subject: &dyn Operations,
    functions: &[&[u8]],
    sealed: Checked,
) -> Result<(), Difference> {
    let mut refusals = Vec::new();
    for (position, later) in (0..).zip(functions) {
        for earlier in &functions[..position as usize] {
            let refusal = subject.sealing_check(&[*earlier, later].concat()).err();
            refusals.extend(refusal.map(|refusal| Refusal { position, ..refusal }));
        }
    }
    let first = refusals.iter().map(|refusal| (refusal.number, refusal.position)).min();
    let fits = match sealed {
        Ok(()) => first.is_none(),
        Err(refusal) => {
            first == Some((refusal.number, refusal.position)) && refusals.contains(&refusal)
        }
    };
    if fits {
        return Ok(());
    }
    let refusals: Vec<String> = refusals.iter().map(Refusal::to_string).collect();
    let expected = format!("by every two functions {refusals:?}");
    difference("Sealing, by every two functions", expected, checked_text(&sealed))
}

/// The functions up to the one that is named are refused alike; those before it aren't, by neither
/// number that comes as early.
fn by_parts(
    subject: &dyn Operations,
    functions: &[&[u8]],
    refusal: Refusal,
) -> Result<(), Difference> {
    let before = refusal.position as usize;
    let upto = |count| subject.sealing_check(&functions[..functions.len().min(count)].concat());
    let with = upto(before.saturating_add(1));
    if with != Err(refusal) {
        let what = "Sealing, of the functions up to the one refused";
        return difference(what, refusal.to_string(), checked_text(&with));
    }
    match upto(before) {
        Err(other) if other.number <= refusal.number => {
            let what = "Sealing, of the functions before the one refused";
            difference(what, format!("no {}", refusal.number), other.to_string())
        }
        _ => Ok(()),
    }
}

/// Two images that it passes it refuses joined by the same number both ways round, or by none; and
/// at a function of the second.
fn both_ways(
    subject: &dyn Operations,
    first: &[u8],
    second: &[u8],
    sealed: Checked,
) -> Result<(), Difference> {
    if subject.sealing_check(first).and(subject.sealing_check(second)).is_err() {
        return Ok(());
    }
    let other = subject.sealing_check(&[second, first].concat());
    let number = |checked: Checked| checked.err().map(|refusal| refusal.number);
    if number(other) != number(sealed) {
        let what = "Sealing, joined the other way round";
        return difference(what, checked_text(&sealed), checked_text(&other));
    }
    let functions = cells::functions(first).count();
    match sealed {
        Err(refusal) if (refusal.position as usize) < functions => {
            let expected = format!("a position from {functions}");
            difference("Sealing, of two that it passes", expected, refusal.to_string())
        }
        _ => Ok(()),
    }
}
