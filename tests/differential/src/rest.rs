//! The rewrite until it rests (document 02, W11): the rounds of one who repeats the default rewrite,
//! and laws of one who answers.

use crate::answers::{rewritten_text, Operations, Refusal, Rewritten, Success};
use crate::compare::{difference, hexadecimal, Difference};

/// An image rests within so many rounds, the one that reports 0 counted.
pub const ROUNDS: usize = 3;

/// After so many nobody is asked for another.
const MOST: usize = 10;

/// What the last round wrote, the answer to all of them, and the count of each.
#[derive(Debug, Clone, PartialEq, Eq)]
pub struct Rested {
    pub bytes: Vec<u8>,
    pub success: Success,
    /// The last one is 0, unless there were too many.
    pub counts: Vec<u32>,
}

impl Rested {
    /// The first round, then further ones, each on what the one before wrote, until one reports 0.
    pub fn after<E>(
        first: (Vec<u8>, Success),
        mut round: impl FnMut(&[u8]) -> Result<(Vec<u8>, Success), E>,
    ) -> Result<Rested, E> {
        let (bytes, success) = first;
        let mut rested = Rested { bytes, success, counts: vec![success.num_rewrites] };
        while rested.counts.last() != Some(&0) && rested.counts.len() < MOST {
            let (bytes, success) = round(&rested.bytes)?;
            rested.counts.push(success.num_rewrites);
            rested.success = Success {
                length: success.length,
                num_rewrites: rested.success.num_rewrites + success.num_rewrites,
                changed: rested.success.changed || success.changed,
            };
            rested.bytes = bytes;
        }
        Ok(rested)
    }

    pub fn rounds(&self) -> usize {
        self.counts.len()
    }

    /// Of an image with another behind it, from those of both: each round has the sum of their
    /// counts, and there are as many as the one takes that takes more.
    pub fn joined(&self, other: &Rested) -> Rested {
        let (one, two) = (&self.success, &other.success);
        let count = |rested: &Rested, round| rested.counts.get(round).copied().unwrap_or(0);
        let rounds = 0..self.rounds().max(other.rounds());
        Rested {
            bytes: [&self.bytes[..], &other.bytes].concat(),
            success: Success {
                length: one.length + two.length,
                num_rewrites: one.num_rewrites + two.num_rewrites,
                changed: one.changed || two.changed,
            },
            counts: rounds.map(|round| count(self, round) + count(other, round)).collect(),
        }
    }

    /// Holds this against another's, round by round.
    pub fn check(&self, what: &str, other: &Rested) -> Result<(), Difference> {
        let text = |rested: &Rested| {
            let Rested { bytes, success, counts } = rested;
            format!("{success}, by round {counts:?}\n{}", hexadecimal(bytes))
        };
        if other.rounds() > ROUNDS {
            return difference(what, format!("{ROUNDS} rounds at most"), text(other));
        }
        if self != other {
            return difference(what, text(self), text(other));
        }
        Ok(())
    }
}

// ---- Laws ----

/// Of one who answers, whatever the model says. It refuses as its default rewrite does. A further
/// default rewrite of what it wrote, and a further rewrite until that rests, report 0 and hand the
/// same bytes back. Either the default rewrite wrote the same with the same count; or a second one,
/// of what that wrote, does so with the sum of both counts.
pub fn laws(subject: &dyn Operations, image: &[u8]) -> Result<(), Difference> {
    let default = |image: &[u8]| written(image, |out| subject.rewrite(image, out));
    let rest = |image: &[u8]| written(image, |out| subject.rest(image, out));
    let (first, rested) = (default(image), rest(image));
    let what = "Rest, refused as by the default rewrite";
    let ((first_bytes, first), (bytes, success)) = match (first, rested) {
        (Ok(first), Ok(rested)) => (first, rested),
        (Err(first), Err(rested)) if first == rested => return Ok(()),
        (first, rested) => {
            let text = |answer: Answered| rewritten_text(&answer.map(|(_, success)| success));
            return difference(what, text(first), text(rested));
        }
    };
    // Of the image itself both have been asked.
    let resting = Success { length: bytes.len(), num_rewrites: 0, changed: false };
    if bytes == image {
        same("Rest, the default rewrite of what rests", (image, resting), (&first_bytes, first))?;
        return same("Rest, of what rests", (image, resting), (&bytes, success));
    }
    for (what, again) in [
        ("Rest, a further default rewrite", default(&bytes)),
        ("Rest, a further one", rest(&bytes)),
    ] {
        let (again, report) = accepted(what, again)?;
        same(what, (&bytes, resting), (&again, report))?;
    }
    if bytes == first_bytes {
        let what = "Rest, where one round writes the same";
        return same(what, (&first_bytes, first), (&bytes, success));
    }
    let what = "Rest, two rounds";
    let (second_bytes, second) = accepted(what, default(&first_bytes))?;
    let sum = Success {
        length: second.length,
        num_rewrites: first.num_rewrites + second.num_rewrites,
        changed: first.changed || second.changed,
    };
    same(what, (&second_bytes, sum), (&bytes, success))
}

/// What is written and the answer, or the refusal.
pub type Answered = Result<(Vec<u8>, Success), Refusal>;

/// What an operation writes to an output as long as the image.
pub fn written(image: &[u8], call: impl FnOnce(&mut [u8]) -> Rewritten) -> Answered {
    let mut out = vec![0xA5; image.len()];
    let success = call(&mut out)?;
    out.truncate(success.length);
    Ok((out, success))
}

fn accepted(what: &str, answered: Answered) -> Result<(Vec<u8>, Success), Difference> {
    answered.map_err(|refusal| Difference {
        what: what.into(),
        expected: "an answer".into(),
        got: refusal.to_string(),
    })
}

fn same(what: &str, one: (&[u8], Success), other: (&[u8], Success)) -> Result<(), Difference> {
    if one == other {
        return Ok(());
    }
    let text = |(bytes, success): (&[u8], Success)| format!("{success}\n{}", hexadecimal(bytes));
    difference(what, text(one), text(other))
}
