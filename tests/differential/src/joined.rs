//! Two images joined (document 02, W12): what the answers to each alone say of the first with the
//! second behind it; and the converse, an accepted image cut where a function ends.

use crate::answers::{Refusal, Success, ORIGINALS};
use crate::cells::{self, CELL, MAX_IMAGE};
use crate::compare::{self, difference, hexadecimal, Difference, Expected};
use crate::original::Answers;

/// An image and the answers that it must get.
pub struct Part {
    pub image: Vec<u8>,
    pub expected: Expected,
}

impl Part {
    /// Asks the original and the model.
    pub fn new(image: &[u8]) -> Result<Part, Difference> {
        Ok(Part { image: image.to_vec(), expected: compare::expected(image)? })
    }
}

/// The first image with the second behind it, and the answers that it must get, from the answers to
/// the two alone. None where nothing is claimed: the image check refuses the first, and the length
/// is within the limit.
pub fn joined(first: &Part, second: &Part) -> Option<Part> {
    let image = [&first.image[..], &second.image].concat();
    if image.len() > MAX_IMAGE {
        let refused = Err(Refusal { number: 1, position: 0, detail: 0 });
        let expected = Expected {
            image_check: refused,
            site_check: refused,
            original: None,
            fuller: None,
            pages: None,
            packed: None,
            numbers: None,
        };
        return Some(Part { image, expected });
    }
    let (one, two) = (&first.expected, &second.expected);
    one.image_check.ok()?;
    let behind = Behind {
        functions: cells::functions(&first.image).count() as u32,
        cells: (first.image.len() / CELL) as u32,
    };
    let image_check = two.image_check.map_err(|refusal| behind.moved(refusal));
    let expected = Expected {
        image_check,
        // A refusal of the second by its cells comes before one of the first by its sites.
        site_check: image_check.and_then(|()| behind.sites(one.site_check, two.site_check)),
        original: both(&one.original, &two.original).map(|(one, two)| behind.answers(one, two)),
        fuller: both(&one.fuller, &two.fuller).map(|(one, two)| written(one, two)),
        // Each function begins a page numbered 001.
        pages: both(&one.pages, &two.pages).map(|(one, two)| [&one[..], two].concat()),
        packed: both(&one.packed, &two.packed).map(|(one, two)| [&one[..], two].concat()),
        numbers: both(&one.numbers, &two.numbers)
            .map(|(one, two)| one.joined(behind.functions, two)),
    };
    Some(Part { image, expected })
}

/// What stands before the second image.
struct Behind {
    functions: u32,
    cells: u32,
}

impl Behind {
    /// A refusal of the second image, as the joined one gets it.
    fn moved(&self, refusal: Refusal) -> Refusal {
        let position = refusal.position + self.functions;
        match refusal.number {
            // The length.
            1 => refusal,
            // The detail is a cell's position in the image.
            2..=4 => Refusal { position, detail: refusal.detail + self.cells, ..refusal },
            // It is a site, or 0.
            _ => Refusal { position, ..refusal },
        }
    }

    /// The first's refusal by its sites as it is, else the second's.
    fn sites<T>(
        &self,
        first: Result<T, Refusal>,
        second: Result<T, Refusal>,
    ) -> Result<T, Refusal> {
        first.and(second.map_err(|refusal| self.moved(refusal)))
    }

    /// The original's answers, from those to the two images.
    fn answers(&self, first: &Answers, second: &Answers) -> Answers {
        let operation = |at: usize| match (&first.written[at], &second.written[at]) {
            (Ok(first), Ok(second)) => Ok(written(first, second)),
            (Err(refusal), _) => Err(*refusal),
            (_, Err(refusal)) => Err(self.moved(*refusal)),
        };
        Answers {
            sites: self.sites(first.sites, second.sites),
            written: [operation(0), operation(1), operation(2)],
            rested: match (&first.rested, &second.rested) {
                (Ok(first), Ok(second)) => Ok(first.joined(second)),
                (Err(refusal), _) => Err(*refusal),
                (_, Err(refusal)) => Err(self.moved(*refusal)),
            },
            possible: match first.sites {
                Err(_) => first.possible.clone(),
                Ok(()) => second.possible.iter().map(|refusal| self.moved(*refusal)).collect(),
            },
        }
    }
}

/// Both outputs in that order, and the sums of their lengths and counts.
fn written(first: &(Vec<u8>, Success), second: &(Vec<u8>, Success)) -> (Vec<u8>, Success) {
    let ((first, one), (second, two)) = (first, second);
    let success = Success {
        length: one.length + two.length,
        num_rewrites: one.num_rewrites + two.num_rewrites,
        changed: one.changed || two.changed,
    };
    ([&first[..], second].concat(), success)
}

fn both<'a, T>(one: &'a Option<T>, two: &'a Option<T>) -> Option<(&'a T, &'a T)> {
    one.as_ref().zip(two.as_ref())
}

/// Holds the original's answers on a joined image against what its answers on the two say. For 24,
/// 25 and 26 its refusal is one of those that it could give.
pub fn check_original(joined: &Part) -> Result<(), Difference> {
    let Some(parts) = &joined.expected.original else {
        return Ok(());
    };
    let whole = compare::ask_original(&joined.image)?;
    let sites = |what: &str, parts, whole| joined.expected.sites(what, &parts, &whole);
    sites("the original joined, sites", parts.sites, whole.sites)?;
    for (at, operation) in ORIGINALS.iter().enumerate() {
        let what = format!("the original joined, {operation:?}");
        match (&parts.written[at], &whole.written[at]) {
            (Ok(parts), Ok(whole)) if parts != whole => {
                let text = |(bytes, success): &(Vec<u8>, Success)| {
                    format!("{success}\n{}", hexadecimal(bytes))
                };
                return difference(what, text(parts), text(whole));
            }
            (parts, whole) => {
                let [parts, whole] =
                    [parts, whole].map(|it| it.as_ref().map(|_| ()).map_err(|it| *it));
                sites(&what, parts, whole)?
            }
        }
    }
    // Where the default rewrite is refused, so is this.
    if let (Ok(parts), Ok(whole)) = (&parts.rested, &whole.rested) {
        parts.check("the original joined, Rest", whole)?;
    }
    joined.expected.check_sealing_by_the_original(&joined.image)
}

/// The converse: the parts of an accepted image, cut where a function ends, for each function but
/// the last. A refused image has none.
pub fn cuts(image: &[u8]) -> Result<Vec<[Part; 2]>, Difference> {
    if !compare::expected(image)?.accepted() {
        return Ok(Vec::new());
    }
    let mut end = 0;
    let ends = cells::alone(image).map(|function| {
        end += function.len();
        end
    });
    ends.filter(|end| *end < image.len()).map(|end| cut(image, end)).collect()
}

/// Both parts of an image cut at a byte; they must be accepted.
pub fn cut(image: &[u8], end: usize) -> Result<[Part; 2], Difference> {
    let parts = [Part::new(&image[..end])?, Part::new(&image[end..])?];
    let refusal = parts.iter().find_map(|part| part.expected.site_check.err());
    match refusal {
        None => Ok(parts),
        Some(refusal) => Err(Difference {
            what: format!("an accepted image cut at byte {end}"),
            expected: "two accepted images".into(),
            got: refusal.to_string(),
        }),
    }
}
