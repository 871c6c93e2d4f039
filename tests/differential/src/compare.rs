//! One image: the answers of the original and of the model against those of
//! whoever is under test.

use crate::answers::{
    checked_text, rewritten_text, Checked, Operation, Operations, Refusal, Reply, Rewritten,
    Success, OPERATIONS, ORIGINALS,
};
use crate::cells;
use crate::leaves::{self, Const};
use crate::legacy_lowering::byte;
use crate::model;
use crate::original::{self, Answers};
use crate::packed;
use crate::pages;
use crate::release;
use crate::rest::Rested;
use crate::sealing::Numbers;
use crate::table;
use std::collections::HashMap;

/// What differs, and both answers.
#[derive(Debug, Clone)]
pub struct Difference {
    pub what: String,
    pub expected: String,
    pub got: String,
}

/// The answers that an image must get.
pub struct Expected {
    pub(crate) image_check: Checked,
    pub(crate) site_check: Checked,
    /// The original's, where the image passes the image check.
    pub(crate) original: Option<Answers>,
    /// What the fuller rewrite writes by the model, where the image passes the site check: the
    /// original has no fuller rewrite.
    pub(crate) fuller: Option<(Vec<u8>, Success)>,
    /// Its pages by the model, where it passes the site check: the original has none.
    pub(crate) pages: Option<Vec<u8>>,
    /// Its packed form by the model, where it passes the image check: the original has none.
    pub(crate) packed: Option<Vec<u8>>,
    /// Its numbers by the model, where it passes the site check.
    pub(crate) numbers: Option<Numbers>,
}

pub(crate) fn difference(
    what: impl Into<String>,
    expected: String,
    got: String,
) -> Result<(), Difference> {
    Err(Difference { what: what.into(), expected, got })
}

/// Asks the original about an image that has passed the image check.
pub(crate) fn ask_original(image: &[u8]) -> Result<Answers, Difference> {
    ask(image, original::answers)
}

fn ask<T>(image: &[u8], about: fn(&[u8]) -> Result<T, String>) -> Result<T, Difference> {
    let answers =
        std::panic::catch_unwind(|| about(image)).unwrap_or_else(|_| Err("a panic".into()));
    answers.map_err(|got| Difference {
        what: "the original".into(),
        expected: "an answer with a number".into(),
        got,
    })
}

/// An image can be read from its pages, so that no other has the same.
fn read_back(image: &[u8], pages: &[u8]) -> Result<(), Difference> {
    match pages::read(pages) {
        Some(read) if read == image => Ok(()),
        Some(read) => difference("Pages read back", hexadecimal(image), hexadecimal(&read)),
        None => difference("Pages read back", hexadecimal(image), "no pages".into()),
    }
}

/// Asks the original and the model, and compares these two.
pub fn expected(image: &[u8]) -> Result<Expected, Difference> {
    let image_check = model::image_check(image);
    let site_check = model::site_check(image);
    if image_check.is_err() {
        return Ok(Expected {
            image_check,
            site_check,
            original: None,
            fuller: None,
            pages: None,
            packed: None,
            numbers: None,
        });
    }
    let original = ask_original(image)?;
    let fuller = site_check.is_ok().then(|| {
        let (bytes, num_rewrites) = model::rewritten(Operation::Fuller, image);
        let length = bytes.len();
        (bytes, Success { length, num_rewrites, changed: num_rewrites > 0 })
    });
    let pages = site_check.is_ok().then(|| pages::pages(image));
    let numbers = site_check.is_ok().then(|| Numbers::of(image));
    let (original, packed) = (Some(original), Some(packed::pack(image)));
    let expected = Expected { image_check, site_check, original, fuller, pages, packed, numbers };
    let original = expected.original.as_ref().unwrap();

    // The original refuses exactly if the site check does, and as it may.
    expected.sites("site check of the model", &site_check, &original.sites)?;
    for (operation, answer) in ORIGINALS.iter().zip(&original.written) {
        let answer = answer.as_ref().map(|_| ()).map_err(|refusal| *refusal);
        expected.sites(&format!("{operation:?} of the original"), &site_check, &answer)?;
    }
    if let Some((bytes, success)) = &expected.fuller {
        expected.check_by_the_original(image, image, &Ok(*success), bytes)?;
    }
    if let Some(rested) = expected.rested() {
        rested.check("Rest of the model, by round", &model::rested(image))?;
    }
    if let Some(pages) = &expected.pages {
        read_back(image, pages)?;
    }
    expected.check_sealing_by_the_original(image)?;
    Ok(expected)
}

impl Expected {
    pub fn accepted(&self) -> bool {
        self.site_check.is_ok()
    }

    pub fn image_check(&self) -> Checked {
        self.image_check
    }

    pub fn site_check(&self) -> Checked {
        self.site_check
    }

    pub fn sealing_check(&self) -> Checked {
        self.site_check?;
        // Where the site check accepts, there are numbers.
        self.numbers().unwrap().check()
    }

    /// The numbers of its commands, where the image passes the site check.
    pub fn numbers(&self) -> Option<&Numbers> {
        self.numbers.as_ref()
    }

    /// What the original answers, where the image passes the image check.
    pub fn original(&self) -> Option<&Answers> {
        self.original.as_ref()
    }

    /// What the original writes, until it rests in as many rounds as it takes, and the model for the
    /// fuller rewrite, where they accept.
    pub fn written(&self, operation: Operation) -> Option<&[u8]> {
        let (bytes, _) = self.success(operation)?;
        Some(bytes)
    }

    fn success(&self, operation: Operation) -> Option<(&[u8], Success)> {
        let (bytes, success) = match operation {
            Operation::Fuller => self.fuller.as_ref()?,
            Operation::Rest => {
                let Rested { bytes, success, .. } = self.rested()?;
                return Some((bytes, *success));
            }
            _ => {
                let index = ORIGINALS.iter().position(|other| *other == operation)?;
                self.original.as_ref()?.written[index].as_ref().ok()?
            }
        };
        Some((bytes, *success))
    }

    /// The original's rounds until it reports 0, where it accepts.
    pub fn rested(&self) -> Option<&Rested> {
        self.original.as_ref()?.rested.as_ref().ok()
    }

    /// The fuller rewrite writes other cells than the default one.
    pub fn fuller_differs(&self) -> bool {
        self.written(Operation::Fuller) != self.written(Operation::Rewrite)
    }

    /// Both of two answers accept, or both refuse and the original could give either.
    pub(crate) fn sites(
        &self,
        what: &str,
        one: &Checked,
        other: &Checked,
    ) -> Result<(), Difference> {
        let possible = &self.original.as_ref().unwrap().possible;
        let fits = match (one, other) {
            (Ok(()), Ok(())) => true,
            (Err(one), Err(other)) => possible.contains(one) && possible.contains(other),
            _ => false,
        };
        if fits {
            return Ok(());
        }
        let possible: Vec<String> = possible.iter().map(Refusal::to_string).collect();
        let expected = format!("{} (of {possible:?})", checked_text(one));
        difference(what, expected, checked_text(other))
    }

    /// Compares all operations but the pages and the packed form; `out` is as it was before each.
    pub fn check(
        &self,
        subject: &dyn Operations,
        image: &[u8],
        out: &[u8],
    ) -> Result<(), Difference> {
        check_same("image check", self.image_check, subject.image_check(image))?;
        check_same("site check", self.site_check, subject.site_check(image))?;
        check_same("sealing check", self.sealing_check(), subject.sealing_check(image))?;
        OPERATIONS
            .iter()
            .try_for_each(|&operation| self.check_operation(subject, operation, image, out))
    }

    fn check_operation(
        &self,
        subject: &dyn Operations,
        operation: Operation,
        image: &[u8],
        out: &[u8],
    ) -> Result<(), Difference> {
        let (expected, bytes) = self.operation(operation, image, out);
        let mut buffer = out.to_vec();
        let answer = subject.run(operation, image, &mut buffer);
        if operation == Operation::Fuller {
            self.check_by_the_original(image, out, &answer, &buffer)?;
        }
        if answer != expected {
            let what = format!("{operation:?}, answer");
            return difference(what, rewritten_text(&expected), rewritten_text(&answer));
        }
        if buffer[..bytes.len()] != *bytes {
            let what = format!("{operation:?}, bytes written");
            return difference(what, hexadecimal(bytes), hexadecimal(&buffer[..bytes.len()]));
        }
        if buffer[bytes.len()..] != out[bytes.len()..] {
            let at = (bytes.len()..out.len()).find(|&at| buffer[at] != out[at]).unwrap();
            let what = format!("{operation:?}, bytes past the length");
            let expected = format!("byte {at} is {:02X}", out[at]);
            return difference(what, expected, format!("byte {at} is {:02X}", buffer[at]));
        }
        // What was written is good again.
        let again = subject.site_check(bytes);
        if expected.is_ok() && again.is_err() {
            let what = format!("{operation:?}, site check of the output");
            return difference(what, "good".into(), checked_text(&again));
        }
        Ok(())
    }

    /// The answer of an operation and what it writes.
    pub fn operation(&self, operation: Operation, image: &[u8], out: &[u8]) -> (Rewritten, &[u8]) {
        let refused = |number| Refusal { number, position: 0, detail: 0 };
        if !cells::length_good(image) {
            return (Err(refused(1)), &[]);
        }
        if out.len() < image.len() {
            return (Err(refused(5)), &[]);
        }
        if let Err(refusal) = self.site_check {
            return (Err(refusal), &[]);
        }
        // Where the site check accepts, so does the original.
        let (bytes, success) = self.success(operation).unwrap();
        (Ok(success), bytes)
    }

    /// The length of the pages, or for a refused image about what it would have been.
    pub fn pages_length(&self, image: &[u8]) -> usize {
        match &self.pages {
            Some(pages) => pages.len(),
            None => image.len() / cells::CELL * pages::LINE,
        }
    }

    /// The answer for a lent buffer of some length, and what is written.
    pub fn pages(&self, lent: usize) -> (Reply, &[u8]) {
        match (&self.pages, self.site_check) {
            (_, Err(refusal)) => (refusal.into(), &[]),
            // Where the site check accepts, there are pages.
            (pages, Ok(())) => match pages.as_ref().unwrap() {
                pages if lent < pages.len() => (pages::TOO_SHORT, &[]),
                pages => (pages::written(pages.len()), pages),
            },
        }
    }

    /// Compares the pages. What is lent is what `around` has between its guards; it is as it was
    /// before the call.
    pub fn check_pages(
        &self,
        subject: &dyn Operations,
        image: &[u8],
        around: &[u8],
    ) -> Result<(), Difference> {
        check_written(&PAGES, around, |lent| self.pages(lent), |out| subject.pages(image, out))
    }

    /// The packed form, where the image passes the image check.
    pub fn packed(&self) -> Option<&[u8]> {
        self.packed.as_deref()
    }

    /// The length of the packed form, or of a refused image its own.
    pub fn packed_length(&self, image: &[u8]) -> usize {
        self.packed().map_or(image.len(), <[u8]>::len)
    }

    /// The answer of packing for a lent output of some length, and what is written.
    pub fn pack(&self, lent: usize) -> (Reply, &[u8]) {
        match (self.packed(), self.image_check) {
            (_, Err(refusal)) => (refusal.into(), &[]),
            // Where the image check accepts, there is a packed form.
            (packed, Ok(())) => match packed.unwrap() {
                packed if lent < packed.len() => (packed::TOO_SHORT, &[]),
                packed => (Reply { number: 0, first: packed.len(), second: 0 }, packed),
            },
        }
    }

    /// Compares the packed form. What is lent is what `around` has between its guards.
    pub fn check_pack(
        &self,
        subject: &dyn Operations,
        image: &[u8],
        around: &[u8],
    ) -> Result<(), Difference> {
        check_written(&PACKED, around, |lent| self.pack(lent), |out| subject.pack(image, out))
    }

    /// Holds the sealing check against the original's own validators, where the image passes them.
    pub(crate) fn check_sealing_by_the_original(&self, image: &[u8]) -> Result<(), Difference> {
        if !self.accepted() {
            return Ok(());
        }
        let original = ask(image, original::sealing_check)?;
        check_same("sealing check by the original", original, self.sealing_check())
    }

    /// Holds an answer to the fuller rewrite against the original alone, whatever the commands that
    /// only the fuller one folds give. It refuses as the default does. Its loads in place of such
    /// commands are put into what the original's cleanup writes; what the original's CrystalFold
    /// makes of that are its bytes, and each of these loads counts 1 more.
    fn check_by_the_original(
        &self,
        image: &[u8],
        out: &[u8],
        answer: &Rewritten,
        written: &[u8],
    ) -> Result<(), Difference> {
        let (default, bytes) = self.operation(Operation::Rewrite, image, out);
        let what = "Fuller by the original, answer";
        let lengths = |answer: &Rewritten| answer.map(|success| success.length);
        if lengths(answer) != lengths(&default) {
            return difference(what, rewritten_text(&default), rewritten_text(answer));
        }
        let (Ok(default), Ok(success)) = (default, answer) else {
            return Ok(());
        };
        let written = &written[..success.length];
        let (cleaned, cleanup) = self.success(Operation::Cleanup).unwrap();
        let (with_loads, loads) = with_fuller_loads(cleaned, written);
        // Without any, the original has answered already.
        let (bytes, num_rewrites) = if loads == 0 {
            (bytes.to_vec(), default.num_rewrites)
        } else {
            let folded = original::crystalfold(&with_loads);
            let (bytes, crystalfold) = folded.map_err(|got| Difference {
                what: "the original, with the loads of the fuller rewrite".into(),
                expected: "an answer".into(),
                got,
            })?;
            (bytes, cleanup.num_rewrites + crystalfold.num_rewrites + loads)
        };
        if written != bytes {
            let what = "Fuller by the original, bytes written";
            return difference(what, hexadecimal(&bytes), hexadecimal(written));
        }
        let expected = Success { num_rewrites, changed: num_rewrites > 0, ..default };
        if *success != expected {
            return difference(what, expected.to_string(), success.to_string());
        }
        Ok(())
    }
}

fn check_same(what: &str, expected: Checked, answer: Checked) -> Result<(), Difference> {
    if answer == expected {
        return Ok(());
    }
    difference(what, checked_text(&expected), checked_text(&answer))
}

/// Bytes before and behind a lent buffer that nobody may write.
pub const GUARD: usize = 16;

/// What is written to a lent buffer: its name, and a part in which a difference is shown.
pub struct Written {
    name: &'static str,
    part: usize,
    text: fn(&[u8]) -> String,
}

pub const PAGES: Written = Written {
    name: "Pages",
    part: pages::LINE,
    text: |line| format!("{:?}", String::from_utf8_lossy(line)),
};
pub const PACKED: Written = Written { name: "Pack", part: cells::CELL, text: hexadecimal };
pub const UNPACKED: Written = Written { name: "Unpack", part: cells::CELL, text: hexadecimal };
pub const RELEASED: Written = Written { name: "Release", part: cells::CELL, text: hexadecimal };
pub const ANSWERS: Written =
    Written { name: "Release, numbers", part: release::NUMBERS, text: hexadecimal };

/// Compares an answer and every byte of what is lent, which is what `around` has between its
/// guards; it is as it was before the call.
pub fn check_written<'a>(
    written: &Written,
    around: &[u8],
    expected: impl FnOnce(usize) -> (Reply, &'a [u8]),
    call: impl FnOnce(&mut [u8]) -> Reply,
) -> Result<(), Difference> {
    let lent = GUARD..around.len() - GUARD;
    let (expected, bytes) = expected(lent.len());
    let mut buffer = around.to_vec();
    let reply = call(&mut buffer[lent]);
    check_reply(&format!("{}, answer", written.name), expected, reply)?;
    check_lent(written, bytes, around, &buffer)
}

pub(crate) fn check_reply(what: &str, expected: Reply, reply: Reply) -> Result<(), Difference> {
    if reply == expected {
        return Ok(());
    }
    difference(what, expected.to_string(), reply.to_string())
}

/// A lent buffer has these bytes at its start, and every other byte is as it was, the guards too.
pub fn check_lent(
    written: &Written,
    bytes: &[u8],
    before: &[u8],
    after: &[u8],
) -> Result<(), Difference> {
    let Written { name, part, text } = written;
    let end = GUARD + bytes.len();
    if after[GUARD..end] != *bytes {
        let parts = bytes.chunks(*part).zip(after[GUARD..end].chunks(*part));
        let (at, (part, got)) = parts.enumerate().find(|(_, (part, got))| part != got).unwrap();
        let text = |part| format!("part {at} is {}", text(part));
        return difference(format!("{name}, bytes written"), text(part), text(got));
    }
    if after[..GUARD] != before[..GUARD] || after[end..] != before[end..] {
        let others = (0..GUARD).chain(end..before.len());
        let at = others.into_iter().find(|&at| after[at] != before[at]).unwrap();
        let place = at as isize - end as isize;
        let text = |byte| format!("byte {place} past what is written is {byte:02X}");
        return difference(format!("{name}, other bytes"), text(before[at]), text(after[at]));
    }
    Ok(())
}

/// An image that has been cleaned, with the loads that a fuller rewrite has in place of commands
/// that only it folds; and their number.
fn with_fuller_loads(cleaned: &[u8], fuller: &[u8]) -> (Vec<u8>, u32) {
    let mut bytes = cleaned.to_vec();
    let mut loads = 0;
    let cells = bytes.as_chunks_mut().0.iter_mut().zip(cells::cells(fuller));
    for ((cell, fuller), values) in cells.zip(fuller_only_folds(cleaned, fuller)) {
        if values.is_some() {
            *cell = *fuller;
            loads += 1;
        }
    }
    (bytes, loads)
}

/// For each cell of an image that has been cleaned, if a fuller rewrite has a load in place of a
/// command that only it folds: the values of the operands, as loaded before it by what that
/// rewrite wrote.
pub fn fuller_only_folds(cleaned: &[u8], fuller: &[u8]) -> Vec<Option<(Const, Const)>> {
    let mut known: HashMap<usize, Const> = HashMap::new();
    let cells = cells::cells(cleaned).iter().zip(cells::cells(fuller));
    let folds = cells.map(|(cell, fuller)| {
        // A head or a barrier, or an event.
        if cell[0] == cells::HEAD || cell[0] <= byte::StateUpdate {
            known.clear();
            return None;
        }
        let dst = table::layout(cell[0])?.dst(cell)?;
        let operands = leaves::operand_values(cell, |register| known.get(&register).copied());
        known.remove(&dst);
        let load = leaves::loaded(fuller).filter(|load| load.0 == dst);
        known.extend(load);
        let (Some(left), Some(right)) = operands? else {
            return None;
        };
        let folds = load.is_some() && leaves::fuller_only(cell[0], left, right);
        folds.then_some((left, right))
    });
    folds.collect()
}

/// Bytes as 32 digits a cell.
pub fn hexadecimal(bytes: &[u8]) -> String {
    let cell = |cell: &[u8]| cell.iter().map(|byte| format!("{byte:02X}")).collect::<String>();
    let lines: Vec<String> = bytes.chunks(cells::CELL).map(cell).collect();
    lines.join("\n")
}
