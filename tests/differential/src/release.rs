//! Document 02's whole release in one call (W9), written from the document: images, each after its
//! length, each rewritten as if it were alone. And laws of one who answers.

use crate::answers::{Operation, Operations, Reply};
use crate::cells::MAX_IMAGE;
use crate::compare::{
    self, check_lent, check_reply, difference, hexadecimal, Difference, ANSWERS, GUARD, RELEASED,
};
use crate::model::Model;
use crate::rest::{written, Answered};

/// "A length of 4 bytes", and "three 4-byte numbers an image".
pub const NUMBER: usize = 4;
pub const NUMBERS: usize = 3 * NUMBER;

/// The longest release that the program takes.
pub const MAX_RELEASE: usize = 4_194_304;

pub const REFUSED: Reply = Reply { number: 33, first: 0, second: 0 };

// ---- Framing ----

/// What stands at the end of a release and is no image after its length.
#[derive(Debug, Clone, Copy, PartialEq, Eq)]
pub enum Fault {
    /// Fewer bytes than a length has.
    Length,
    /// A length past the end.
    Image,
}

/// The images of a release, as far as they can be read.
pub struct Framing<'a> {
    pub images: Vec<&'a [u8]>,
    pub fault: Option<Fault>,
}

pub fn framing(release: &[u8]) -> Framing<'_> {
    let mut images = Vec::new();
    let mut rest = release;
    let fault = loop {
        if rest.is_empty() {
            break None;
        }
        let Some((length, behind)) = rest.split_first_chunk() else {
            break Some(Fault::Length);
        };
        let length = u32::from_le_bytes(*length) as usize;
        let Some((image, behind)) = behind.split_at_checked(length) else {
            break Some(Fault::Image);
        };
        images.push(image);
        rest = behind;
    };
    Framing { images, fault }
}

/// Images, each after its length.
pub fn framed<T: AsRef<[u8]>>(images: &[T]) -> Vec<u8> {
    let after_length = |image: &T| {
        let image = image.as_ref();
        [&(image.len() as u32).to_le_bytes(), image].concat()
    };
    images.iter().flat_map(after_length).collect()
}

// ---- Answers ----

/// What is written to the output and to the answers.
#[derive(Debug, Clone, PartialEq, Eq)]
pub struct Both {
    pub out: Vec<u8>,
    pub answers: Vec<u8>,
}

impl Both {
    /// "Refusal number or 0, then position and detail, or on success rewrite count and 0"; and "a
    /// refused image leaves length 0".
    pub fn of(outcomes: &[Answered]) -> Both {
        let (mut images, mut answers) = (Vec::new(), Vec::new());
        for outcome in outcomes {
            let (image, numbers) = match outcome {
                Ok((bytes, success)) => (&bytes[..], [0, success.num_rewrites, 0]),
                Err(refusal) => {
                    (&[][..], [refusal.number as u32, refusal.position, refusal.detail])
                }
            };
            images.push(image);
            answers.extend(numbers.map(u32::to_le_bytes).as_flattened());
        }
        Both { out: framed(&images), answers }
    }

    /// "Success answers the length written to the output."
    fn reply(&self) -> Reply {
        Reply { number: 0, first: self.out.len(), second: 0 }
    }

    /// What is written of each image, where the output reads back to as many as there are answers.
    fn parts(&self) -> Option<Vec<(&[u8], &[u8])>> {
        let Framing { images, fault } = framing(&self.out);
        let answers: Vec<&[u8]> = self.answers.chunks(NUMBERS).collect();
        let fits = fault.is_none() && images.len() == answers.len();
        fits.then(|| images.into_iter().zip(answers).collect())
    }
}

/// The default rewrite of each image alone, with an output as long as the image.
pub fn answer(release: &[u8], out: &mut [u8], answers: &mut [u8]) -> Reply {
    let Framing { images, fault } = framing(release);
    let room = out.len() >= release.len() && answers.len() >= NUMBERS * images.len();
    if fault.is_some() || !room {
        return REFUSED;
    }
    let alone = images.iter().map(|image| written(image, |out| Model.rewrite(image, out)));
    let both = Both::of(&alone.collect::<Vec<Answered>>());
    out[..both.out.len()].copy_from_slice(&both.out);
    answers[..both.answers.len()].copy_from_slice(&both.answers);
    both.reply()
}

// ---- The comparison ----

/// A release, and what must be answered.
pub struct Releasing {
    pub release: Vec<u8>,
    /// How many images there are; of a refused release, how many there could be.
    pub images: usize,
    /// What becomes of each image, unless the release is refused.
    pub outcomes: Result<Vec<Answered>, Fault>,
    both: Both,
}

/// Lengths of the lent output, less the release's, and of the lent answers, less 12 bytes an image.
pub type Lengths = (isize, isize);

impl Releasing {
    /// Asks the original and the model about each image alone.
    pub fn new(release: &[u8]) -> Result<Releasing, Difference> {
        let Framing { images, fault } = framing(release);
        let outcomes = match fault {
            Some(fault) => Err(fault),
            None => Ok(images.iter().map(|image| alone(image)).collect::<Result<_, _>>()?),
        };
        let both = Both::of(outcomes.as_deref().unwrap_or(&[]));
        let images = match fault {
            Some(_) => release.len().div_ceil(NUMBER),
            None => images.len(),
        };
        Ok(Releasing { release: release.to_vec(), images, outcomes, both })
    }

    /// The outcomes of its images, of one that isn't refused.
    pub fn outcomes(&self) -> &[Answered] {
        self.outcomes.as_deref().unwrap_or(&[])
    }

    /// Its images that are refused.
    pub fn refused(&self) -> usize {
        self.outcomes().iter().filter(|outcome| outcome.is_err()).count()
    }

    /// What is written where there is room.
    pub fn both(&self) -> &Both {
        &self.both
    }

    /// Lengths of the lent buffers.
    pub fn lent(&self, (out, answers): Lengths) -> [usize; 2] {
        let answers = (NUMBERS * self.images).saturating_add_signed(answers);
        [self.release.len().saturating_add_signed(out), answers]
    }

    /// There is room in lent buffers of some lengths.
    fn room(&self, lengths: Lengths) -> [bool; 2] {
        let [out, answers] = self.lent(lengths);
        [out >= self.release.len(), answers >= NUMBERS * self.images]
    }

    /// The answer for lent buffers of some lengths, and what is written to either.
    pub fn reply(&self, lengths: Lengths) -> (Reply, [&[u8]; 2]) {
        match self.outcomes.is_ok() && self.room(lengths) == [true; 2] {
            true => (self.both.reply(), [&self.both.out, &self.both.answers]),
            false => (REFUSED, [&[]; 2]),
        }
    }

    /// Compares the answer and every byte of both lent buffers, which are what `around` has between
    /// its guards.
    pub fn check(
        &self,
        subject: &dyn Operations,
        lengths: Lengths,
        around: &[u8],
    ) -> Result<(), Difference> {
        let before = self.lent(lengths).map(|length| &around[..length + 2 * GUARD]);
        let mut after = before.map(<[u8]>::to_vec);
        let [out, answers] = after.each_mut().map(|bytes| {
            let end = bytes.len() - GUARD;
            &mut bytes[GUARD..end]
        });
        let reply = subject.release(&self.release, out, answers);
        let (expected, written) = self.reply(lengths);
        check_reply("Release, answer", expected, reply)?;
        for (at, kind) in [RELEASED, ANSWERS].iter().enumerate() {
            check_lent(kind, written[at], before[at], &after[at])?;
        }
        Ok(())
    }

    /// Bytes that `check` needs.
    pub fn around(&self, lengths: Lengths) -> usize {
        let [out, answers] = self.lent(lengths);
        out.max(answers) + 2 * GUARD
    }
}

/// The original's answer to the default rewrite of one image, which the model gives too.
fn alone(image: &[u8]) -> Result<Answered, Difference> {
    let expected = compare::expected(image)?;
    let (answer, bytes) = expected.operation(Operation::Rewrite, image, image);
    Ok(answer.map(|success| (bytes.to_vec(), success)))
}

/// What a release turns on, by name, with the lengths of the lent buffers.
pub const CASES: [(&str, fn(&Releasing, Lengths) -> bool); 13] = [
    ("good", |it, lent| it.reply(lent).0.number == 0),
    ("good, some images refused and some not", |it, lent| {
        it.reply(lent).0.number == 0 && (1..it.images).contains(&it.refused())
    }),
    ("all images refused", |it, _| it.images > 0 && it.refused() == it.images),
    ("no image", |it, _| it.release.is_empty()),
    ("an empty image", |it, _| it.outcomes().iter().any(empty)),
    ("neighbours refused otherwise", |it, _| {
        let refusals = it.outcomes().windows(2).map(|two| (two[0].as_ref(), two[1].as_ref()));
        let refusals = refusals.filter_map(|(one, other)| one.err().zip(other.err()));
        refusals.into_iter().any(|(one, other)| one != other)
    }),
    ("more than 65,536 bytes", |it, _| it.outcomes.is_ok() && it.release.len() > MAX_IMAGE),
    ("length past the end", |it, _| it.outcomes == Err(Fault::Length)),
    ("image past the end", |it, _| it.outcomes == Err(Fault::Image)),
    ("output too short", |it, lent| it.outcomes.is_ok() && !it.room(lent)[0]),
    ("output too short, and the result fits", |it, lent| {
        it.outcomes.is_ok() && !it.room(lent)[0] && it.lent(lent)[0] >= it.both.out.len()
    }),
    ("answers too short", |it, lent| it.outcomes.is_ok() && !it.room(lent)[1]),
    ("answers too short, and the accepted ones fit", |it, lent| {
        let accepted = it.images - it.refused();
        it.outcomes.is_ok() && !it.room(lent)[1] && it.lent(lent)[1] >= NUMBERS * accepted
    }),
];

fn empty(outcome: &Answered) -> bool {
    outcome.as_ref().is_ok_and(|(bytes, _)| bytes.is_empty())
}

// ---- Laws ----

/// Of one who answers, whatever the model says. It refuses exactly if a length or an image goes past
/// the end, an output is shorter than the release, or there are fewer than 12 bytes an image for the
/// answers. What it writes reads back to as many images, and of each image is what its own default
/// rewrite says of that alone. Of a release cut at an image the answers are those to both parts. With
/// another image in the place of one, nothing else changes.
pub fn laws(subject: &dyn Operations, release: &[u8], at: usize) -> Result<(), Difference> {
    let Framing { images, fault } = framing(release);
    if fault.is_some() {
        let lent = [release.len(), NUMBERS * release.len()];
        return refused("Release, past the end", subject, release, lent);
    }
    let lent = [release.len(), NUMBERS * images.len()];
    for (what, place) in [("Release, output too short", 0), ("Release, numbers too short", 1)] {
        let mut lent = lent;
        if lent[place] > 0 {
            lent[place] -= 1 + at % lent[place];
            refused(what, subject, release, lent)?;
        }
    }
    let whole = accepted(subject, &images, lent)?;
    let alone = images.iter().map(|image| written(image, |out| subject.rewrite(image, out)));
    alike("Release, each image alone", &Both::of(&alone.collect::<Vec<Answered>>()), &whole)?;
    let longer = accepted(subject, &images, [lent[0] + at % 40, lent[1] + at % 30])?;
    alike("Release, in longer buffers", &whole, &longer)?;
    let Some(cut) = at.checked_rem(images.len()) else {
        return Ok(());
    };
    let (first, second) = images.split_at(cut);
    let [first, second] = [accepted_just(subject, first)?, accepted_just(subject, second)?];
    let joined = Both {
        out: [first.out, second.out].concat(),
        answers: [first.answers, second.answers].concat(),
    };
    alike("Release, both parts", &joined, &whole)?;
    let others = [&[][..], &[0xF0], images[(cut + 1) % images.len()]];
    let mut exchanged = images.clone();
    exchanged[cut] = others[at / images.len() % others.len()];
    let other = accepted_just(subject, &exchanged)?;
    let neighbours = |both: &Both| -> Vec<(Vec<u8>, Vec<u8>)> {
        let mut parts = both.parts().unwrap();
        parts.remove(cut);
        parts.into_iter().map(|(image, numbers)| (image.to_vec(), numbers.to_vec())).collect()
    };
    if neighbours(&other) != neighbours(&whole) {
        let what = "Release, with another image in the place of one";
        return difference(what, text(&whole), text(&other));
    }
    Ok(())
}

/// What lent buffers hold before.
const MARKS: [u8; 2] = [0xA5, 0x5A];

/// The answer, and both lent buffers as they are then.
fn ask(subject: &dyn Operations, release: &[u8], lent: [usize; 2]) -> (Reply, [Vec<u8>; 2]) {
    let [mut out, mut answers] = [0, 1].map(|at| vec![MARKS[at]; lent[at]]);
    let reply = subject.release(release, &mut out, &mut answers);
    (reply, [out, answers])
}

/// It refuses 33, and leaves both buffers.
fn refused(
    what: &str,
    subject: &dyn Operations,
    release: &[u8],
    lent: [usize; 2],
) -> Result<(), Difference> {
    let (reply, after) = ask(subject, release, lent);
    check_reply(what, REFUSED, reply)?;
    unchanged(what, [0, 0], &after)
}

/// What it writes, where it must accept; behind that nothing changes.
fn accepted(
    subject: &dyn Operations,
    images: &[&[u8]],
    lent: [usize; 2],
) -> Result<Both, Difference> {
    let (reply, after) = ask(subject, &framed(images), lent);
    let length = reply.first.min(lent[0]);
    check_reply("Release, accepted", Reply { number: 0, first: length, second: 0 }, reply)?;
    let numbers = NUMBERS * images.len();
    unchanged("Release, behind what is written", [length, numbers], &after)?;
    let [out, answers] = after;
    let both = Both { out: out[..length].to_vec(), answers: answers[..numbers].to_vec() };
    match both.parts() {
        Some(_) => Ok(both),
        None => Err(Difference {
            what: "Release, read back".into(),
            expected: format!("{} images", images.len()),
            got: text(&both),
        }),
    }
}

/// The same with buffers that are just long enough.
fn accepted_just(subject: &dyn Operations, images: &[&[u8]]) -> Result<Both, Difference> {
    let length: usize = images.iter().map(|image| NUMBER + image.len()).sum();
    accepted(subject, images, [length, NUMBERS * images.len()])
}

/// From some byte on the lent buffers have their marks.
fn unchanged(what: &str, from: [usize; 2], after: &[Vec<u8>; 2]) -> Result<(), Difference> {
    for at in [0, 1] {
        let other = after[at][from[at]..].iter().position(|byte| *byte != MARKS[at]);
        if let Some(other) = other {
            let place = from[at] + other;
            let byte = |byte| format!("byte {place} of buffer {at} is {byte:02X}");
            return difference(what, byte(MARKS[at]), byte(after[at][place]));
        }
    }
    Ok(())
}

fn alike(what: &str, expected: &Both, both: &Both) -> Result<(), Difference> {
    if both == expected {
        return Ok(());
    }
    difference(what, text(expected), text(both))
}

fn text(both: &Both) -> String {
    format!("{}\nnumbers\n{}", hexadecimal(&both.out), hexadecimal(&both.answers))
}
