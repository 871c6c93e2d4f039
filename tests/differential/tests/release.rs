//! Shows that the harness finds wrong answers to a whole release (document 02, W9); and holds the
//! model's answers against rows written out by hand.

#[macro_use]
mod common;

use common::{bytes, image};
use differential::answers::{Operation, Operations, Refusal, Reply, Success};
use differential::cells::{self, CELL, MAX_IMAGE};
use differential::compare::hexadecimal;
use differential::driver::{self, Groups};
use differential::factors::Leaf;
use differential::generate::one_function;
use differential::model::{self, Model};
use differential::program::{self, Said, Text};
use differential::random::Random;
use differential::release::{
    self, framed, framing, Both, Framing, Lengths, Releasing, CASES, MAX_RELEASE, NUMBER, NUMBERS,
    REFUSED,
};
use differential::releases;
use differential::rest::{written, Answered};
use differential::sealing;

/// A program that answers as the model does but for one fault in its answer to a whole release.
#[derive(Debug, Clone, Copy, PartialEq)]
struct Wrong(Fault);

faults! {
    // Where images begin and end.
    BigEndianLengths,
    LengthInAByte,
    LengthInTwoBytes,
    LengthInThreeBytes,
    LengthWithoutItsSign,
    NegativeLengthIsNone,
    LengthWithItsOwnBytes,
    LengthInCells,
    LeftoverIgnored,
    LeftoverZerosIgnored,
    LeftoverByteIgnored,
    LeftoverIsAnImage,
    LengthClipped,
    LengthClippedByAByte,
    PastTheEndEndsTheRelease,
    /// The image is refused, and no other changes.
    PastTheEndIsTheImagesRefusal,
    SumWraps,
    NoImageAtTheEnd,
    EmptyReleaseRefused,
    EmptyImageRefused,
    EmptyImageEndsTheRelease,
    EmptyImagesSkipped,
    OddLengthRefused,
    TooLongImageRefused,
    LongestImageRefused,
    OneImageRefusesAll,
    LimitOfAnImageOnTheWhole,
    LimitOfTheProgram,
    Only40Images,
    Only255Images,
    // The lent buffers.
    OutputByTheResult,
    OutputByTheImages,
    OutputAByteShort,
    OutputMustBeLonger,
    OutputMustBeAsLong,
    OutputNotMeasured,
    OutputLeftForEachImage,
    FiveForTheOutput,
    ThirtyForTheAnswers,
    AnswersByTheAccepted,
    AnswersByTheRefused,
    AnswersOf8Bytes,
    AnswersOf16Bytes,
    AnswersOfOneImage,
    AnswersAByteShort,
    AnswersMustBeLonger,
    AnswersMustBeAsLong,
    AnswersNotMeasured,
    // What is written on a refusal.
    OutputWrittenBeforeTheFraming,
    AnswersWrittenBeforeTheFraming,
    OutputWrittenWithoutAnswers,
    AnswersWrittenWithoutOutput,
    OutputClearedOnRefusal,
    AnswersClearedOnRefusal,
    RefusalInTheAnswers,
    // The three numbers.
    FirstIsTheReleases,
    FirstIsTheImages,
    FirstIsTheAnswers,
    FirstIsBoth,
    FirstWithoutLengths,
    FirstIsZero,
    SecondIsTheImages,
    SecondIsTheRefused,
    SecondIsTheSum,
    SecondIsTheAnswers,
    NumberOfAnImage,
    RefusedWithThePlace,
    RefusedWithTheImage,
    RefusedAsAnImage,
    NumberIs32,
    // The output.
    LengthKeptOfARefused,
    RefusedHandedBack,
    RefusedLeftOut,
    RefusedLengthAllOnes,
    RefusedLengthIsItsNumber,
    LengthOfTheSent,
    LengthsTurnedRound,
    LengthsWithTheirOwn,
    LengthsLeftOut,
    LengthsInTwoBytes,
    AtThePlaceOfTheSent,
    OtherOrder,
    RefusedLast,
    HandedBack,
    LastLeftOut,
    // The answers.
    NumbersTurnedRound,
    CountAndZeroExchanged,
    PositionAndDetailExchanged,
    NumberAndPositionExchanged,
    NumberLast,
    LengthForTheCount,
    ChangedForTheCount,
    OneForSuccess,
    CountInAByte,
    CountAtZero,
    DetailInTwoBytes,
    NumberAlone,
    ZeroNotWritten,
    ZeroOfTheImageBefore,
    PositionOfTheImageBefore,
    DetailOfTheImageBehind,
    PlaceForThePosition,
    AnswersOfTheRefusedAlone,
    AnswersInOtherOrder,
    AnswersOfThirtyTwoImages,
    AnswersByKind,
    // Neighbours.
    EndsAtTheFirstRefused,
    StopsAtTheFirstRefused,
    AllRefusedIfOneIs,
    RefusedAsTheOneBefore,
    HandedBackBehindARefused,
    SameLengthSameImage,
    KnownFromTheImageBefore,
    CountsAddUp,
    PositionsAddUp,
    CellsAddUp,
    SealedTogether,
    OnlyTheFirstRewritten,
    // Another rewrite.
    Fuller,
    UntilItRests,
    CleanupAlone,
    FoldAlone,
    Sealed,
    SitesUnchecked,
    OddLengthRounded,
    TooLongCut,
    // Behind what is written.
    OutputClearedBehind,
    AnswersClearedBehind,
    ByteBehindTheOutput,
    ByteBehindTheAnswers,
    ReleaseLeftBehind,
    LastImageLeftBehind;
    // Not among them.
    NoFault,
}
use Fault::*;

// ---- Where images begin and end ----

/// Refused by 1, as an image of so many bytes that aren't there would be.
const TOO_LONG: &[u8] = &[0; MAX_IMAGE + 1];

/// The images as a fault reads them, and where it stops if it refuses.
fn read(fault: Fault, release: &[u8]) -> (Vec<&[u8]>, Option<usize>) {
    let mut images = Vec::new();
    let mut at = 0;
    while at < release.len() {
        let Some((length, behind)) = release[at..].split_first_chunk::<NUMBER>() else {
            let left = &release[at..];
            let ignored = match fault {
                LeftoverIgnored => true,
                LeftoverZerosIgnored => left.iter().all(|byte| *byte == 0),
                LeftoverByteIgnored => left.len() == 1,
                LeftoverIsAnImage => {
                    images.push(left);
                    true
                }
                _ => false,
            };
            return (images, (!ignored).then_some(at));
        };
        let Some(length) = read_length(fault, *length) else {
            return (images, Some(at));
        };
        let start = at + NUMBER;
        let end = match fault {
            SumWraps => (start as u32).wrapping_add(length as u32) as usize,
            _ => start + length,
        };
        let (image, end) = match release.get(start..end) {
            Some(_) if fault == NoImageAtTheEnd && end == release.len() => {
                return (images, Some(at));
            }
            Some(image) => (image, end),
            // It wraps to a byte before.
            None if end < start => (TOO_LONG, if end > at { end } else { release.len() }),
            None => match fault {
                LengthClipped => (behind, release.len()),
                LengthClippedByAByte if length == behind.len() + 1 => (behind, release.len()),
                PastTheEndEndsTheRelease => return (images, None),
                PastTheEndIsTheImagesRefusal => (TOO_LONG, release.len()),
                _ => return (images, Some(at)),
            },
        };
        let refused = match fault {
            EmptyImageRefused => image.is_empty(),
            OddLengthRefused => image.len() % CELL != 0,
            TooLongImageRefused => image.len() > MAX_IMAGE,
            LongestImageRefused => image.len() == MAX_IMAGE,
            OneImageRefusesAll => model::site_check(image).is_err(),
            _ => false,
        };
        match fault {
            EmptyImageEndsTheRelease if image.is_empty() => return (images, None),
            EmptyImagesSkipped if image.is_empty() => {}
            _ if refused => return (images, Some(at)),
            _ => images.push(image),
        }
        at = end;
    }
    let refused = match fault {
        EmptyReleaseRefused => release.is_empty(),
        LimitOfAnImageOnTheWhole => release.len() > MAX_IMAGE,
        LimitOfTheProgram => release.len() > MAX_RELEASE,
        Only40Images => images.len() > 40,
        Only255Images => images.len() > 255,
        _ => false,
    };
    (images, refused.then_some(0))
}

fn read_length(fault: Fault, bytes: [u8; NUMBER]) -> Option<usize> {
    let length = u32::from_le_bytes(bytes);
    let length = match fault {
        BigEndianLengths => length.swap_bytes(),
        LengthInAByte => length & 0xFF,
        LengthInTwoBytes => length & 0xFFFF,
        LengthInThreeBytes => length & 0xFF_FFFF,
        LengthWithoutItsSign => length & 0x7FFF_FFFF,
        NegativeLengthIsNone if (length as i32) < 0 => 0,
        LengthWithItsOwnBytes => length.checked_sub(NUMBER as u32)?,
        _ => length,
    };
    Some(if fault == LengthInCells { length as usize * CELL } else { length as usize })
}

// ---- What becomes of an image ----

fn refused<T>(number: u8, position: u32, detail: u32) -> Result<T, Refusal> {
    Err(Refusal { number, position, detail })
}

fn handed_back(image: &[u8]) -> Answered {
    Ok((image.to_vec(), Success { length: image.len(), num_rewrites: 0, changed: false }))
}

/// The image at a place, behind those that have their outcomes.
fn outcome(fault: Fault, images: &[&[u8]], before: &[Answered]) -> Answered {
    let image = images[before.len()];
    let operation = match fault {
        Fuller => Operation::Fuller,
        UntilItRests => Operation::Rest,
        CleanupAlone => Operation::Cleanup,
        FoldAlone => Operation::CrystalFold,
        _ => Operation::Rewrite,
    };
    let good = before.iter().zip(images).filter(|(outcome, _)| outcome.is_ok());
    let good = || good.clone().map(|(_, image)| *image).collect::<Vec<&[u8]>>().concat();
    let same = || before.iter().zip(images).rfind(|(_, other)| other.len() == image.len());
    let last = before.last();
    match fault {
        HandedBackBehindARefused if last.is_some_and(Result::is_err) => return handed_back(image),
        StopsAtTheFirstRefused if before.iter().any(Result::is_err) => return handed_back(&[]),
        OnlyTheFirstRewritten if !before.is_empty() => return handed_back(image),
        SitesUnchecked if model::image_check(image).is_ok() => {
            let (bytes, num_rewrites) = model::passes(image, true, Some(&model::default_rules));
            let (length, changed) = (bytes.len(), num_rewrites > 0);
            return Ok((bytes, Success { length, num_rewrites, changed }));
        }
        SameLengthSameImage => {
            if let Some((outcome, _)) = same() {
                return outcome.clone();
            }
        }
        RefusedAsTheOneBefore => {
            if let Some(Err(refusal)) = last {
                return Err(*refusal);
            }
        }
        _ => {}
    }
    let image = match fault {
        OddLengthRounded => &image[..image.len() / CELL * CELL],
        TooLongCut => &image[..image.len().min(MAX_IMAGE)],
        _ => image,
    };
    let (bytes, success) =
        written(image, |out| Model.run(operation, image, out)).map_err(|refusal| {
            let Refusal { number, position, detail } = refusal;
            match fault {
                PositionsAddUp if number > 1 => {
                    let functions = cells::functions(&good()).count() as u32;
                    Refusal { position: position + functions, ..refusal }
                }
                CellsAddUp if (2..5).contains(&number) => {
                    Refusal { detail: detail + (good().len() / CELL) as u32, ..refusal }
                }
                _ => refusal,
            }
        })?;
    match fault {
        HandedBack => handed_back(image),
        Sealed => sealing::check(image).map(|()| (bytes, success)),
        SealedTogether => {
            let across = |refusal: &Refusal| refusal.number > 30 && sealing::check(image).is_ok();
            let behind = images[..before.len()].last().map_or(vec![], |it| [it, image].concat());
            match sealing::check(&behind) {
                Err(refusal) if across(&refusal) => Err(refusal),
                _ => Ok((bytes, success)),
            }
        }
        KnownFromTheImageBefore if last.is_some_and(Result::is_ok) => {
            Ok(known_from(images[before.len() - 1], image).unwrap_or((bytes, success)))
        }
        CountsAddUp => {
            let sum = last.map_or(0, |last| last.as_ref().map_or(0, |it| it.1.num_rewrites));
            Ok((bytes, Success { num_rewrites: success.num_rewrites + sum, ..success }))
        }
        _ => Ok((bytes, success)),
    }
}

/// The rewrite of an image of one function whose fold goes on with what the one before left known.
fn known_from(before: &[u8], image: &[u8]) -> Option<(Vec<u8>, Success)> {
    let [(before, _), (cleaned, removed)] =
        [before, image].map(|image| model::rewritten(Operation::Cleanup, image));
    let (last, this) = (cells::functions(&before).last()?, cells::functions(&cleaned).next()?);
    let instrs = [last.instrs, this.instrs].concat();
    let (_, counted) = model::rewritten(Operation::CrystalFold, &one_function(last.instrs, &[]));
    let (folded, count) = model::rewritten(Operation::CrystalFold, &one_function(&instrs, &[]));
    let folded = &cells::cells(&folded)[1 + last.instrs.len()..];
    let mut bytes = Vec::new();
    cells::push_function(&mut bytes, this.name, folded, this.events);
    let (length, num_rewrites) = (bytes.len(), removed + count - counted);
    let success = Success { length, num_rewrites, changed: num_rewrites > 0 };
    (length == cleaned.len()).then_some((bytes, success))
}

fn outcomes(fault: Fault, images: &[&[u8]]) -> Vec<Answered> {
    let mut outcomes = Vec::new();
    while outcomes.len() < images.len() {
        let outcome = outcome(fault, images, &outcomes);
        outcomes.push(outcome);
    }
    let first = outcomes.iter().find_map(|outcome| outcome.as_ref().err().copied());
    match (fault, first) {
        (AllRefusedIfOneIs, Some(refusal)) => vec![Err(refusal); images.len()],
        (EndsAtTheFirstRefused, Some(_)) => {
            let good = outcomes.iter().take_while(|outcome| outcome.is_ok()).count();
            outcomes.truncate(good + 1);
            outcomes
        }
        (OtherOrder, _) => outcomes.into_iter().rev().collect(),
        (RefusedLast, _) => {
            let (mut good, bad): (Vec<Answered>, _) = outcomes.into_iter().partition(Result::is_ok);
            good.extend(bad);
            good
        }
        (LastLeftOut, _) => {
            outcomes.pop();
            outcomes
        }
        _ => outcomes,
    }
}

// ---- What is written ----

fn out(fault: Fault, images: &[&[u8]], outcomes: &[Answered]) -> Vec<u8> {
    let mut out = Vec::new();
    for (image, outcome) in images.iter().zip(outcomes) {
        let (length, bytes) = match outcome {
            Ok((bytes, _)) if fault == LengthOfTheSent => (image.len(), &bytes[..]),
            Ok((bytes, _)) => (bytes.len(), &bytes[..]),
            Err(refusal) => match fault {
                LengthKeptOfARefused => (image.len(), &[][..]),
                RefusedHandedBack => (image.len(), *image),
                RefusedLeftOut => continue,
                RefusedLengthAllOnes => (u32::MAX as usize, &[][..]),
                RefusedLengthIsItsNumber => (refusal.number as usize, &[][..]),
                _ => (0, &[][..]),
            },
        };
        let length = length as u32;
        match fault {
            LengthsTurnedRound => out.extend(length.to_be_bytes()),
            LengthsWithTheirOwn => out.extend((length + NUMBER as u32).to_le_bytes()),
            LengthsLeftOut => {}
            LengthsInTwoBytes => out.extend((length as u16).to_le_bytes()),
            _ => out.extend(length.to_le_bytes()),
        }
        out.extend(bytes);
    }
    out
}

/// Those of each image; a number that isn't there isn't written.
fn numbers(fault: Fault, outcomes: &[Answered], at: usize) -> [Option<u32>; 3] {
    let refusal = |at: usize| outcomes.get(at)?.as_ref().err().copied();
    let before = at.checked_sub(1).and_then(refusal);
    let success = match &outcomes[at] {
        Ok((_, success)) => success,
        Err(Refusal { number, position, detail }) => {
            let number = *number as u32;
            let numbers = match fault {
                PositionAndDetailExchanged => [number, *detail, *position],
                NumberAndPositionExchanged => [*position, number, *detail],
                NumberLast => [*position, *detail, number],
                DetailInTwoBytes => [number, *position, detail & 0xFFFF],
                NumberAlone => return [Some(number), None, None],
                PositionOfTheImageBefore => {
                    let position = before.map_or(*position, |refusal| refusal.position);
                    [number, position, *detail]
                }
                DetailOfTheImageBehind => {
                    let detail = refusal(at + 1).map_or(*detail, |refusal| refusal.detail);
                    [number, *position, detail]
                }
                PlaceForThePosition => [number, at as u32, *detail],
                _ => [number, *position, *detail],
            };
            return numbers.map(Some);
        }
    };
    let count = success.num_rewrites;
    let numbers = match fault {
        CountAndZeroExchanged => [0, 0, count],
        LengthForTheCount => [0, success.length as u32, 0],
        ChangedForTheCount => [0, success.changed as u32, 0],
        OneForSuccess => [1, count, 0],
        CountInAByte => [0, count & 0xFF, 0],
        CountAtZero => [count, 0, 0],
        ZeroOfTheImageBefore => [0, count, before.map_or(0, |refusal| refusal.detail)],
        ZeroNotWritten => return [Some(0), Some(count), None],
        AnswersOfTheRefusedAlone => return [None; 3],
        _ => [0, count, 0],
    };
    numbers.map(Some)
}

/// Writes as far as there is room.
fn put(lent: &mut [u8], at: usize, bytes: &[u8]) {
    for (to, byte) in lent.iter_mut().skip(at).zip(bytes) {
        *to = *byte;
    }
}

fn put_answers(fault: Fault, lent: &mut [u8], outcomes: &[Answered]) {
    let of_kind = |at: usize| {
        let refused = outcomes[at].is_err();
        let before = outcomes[..at].iter().filter(|it| it.is_err() == refused).count();
        let good = outcomes.iter().filter(|outcome| outcome.is_ok()).count();
        before + if refused { good } else { 0 }
    };
    for at in 0..outcomes.len() {
        let place = match fault {
            AnswersInOtherOrder => outcomes.len() - 1 - at,
            AnswersOfThirtyTwoImages => at % 32,
            AnswersByKind => of_kind(at),
            _ => at,
        };
        for (index, number) in numbers(fault, outcomes, at).into_iter().enumerate() {
            if let Some(number) = number {
                let bytes = match fault {
                    NumbersTurnedRound => number.to_be_bytes(),
                    _ => number.to_le_bytes(),
                };
                put(lent, NUMBERS * place + NUMBER * index, &bytes);
            }
        }
    }
}

// ---- The answer ----

fn reply(number: usize, first: usize, second: usize) -> Reply {
    Reply { number, first, second }
}

/// How many bytes of the output and of the answers a fault asks for.
fn needed(fault: Fault, release: &[u8], written: &[u8], outcomes: &[Answered]) -> [usize; 2] {
    let refused = outcomes.iter().filter(|outcome| outcome.is_err()).count();
    let (length, images) = (release.len(), outcomes.len());
    let out = match fault {
        OutputByTheResult => written.len(),
        OutputByTheImages => length - (NUMBER * images).min(length),
        OutputAByteShort => length.saturating_sub(1),
        OutputMustBeLonger => length + 1,
        OutputNotMeasured | OutputLeftForEachImage => 0,
        _ => length,
    };
    let answers = match fault {
        AnswersByTheAccepted => NUMBERS * (images - refused),
        AnswersByTheRefused => NUMBERS * refused,
        AnswersOf8Bytes => 8 * images,
        AnswersOf16Bytes => 16 * images,
        AnswersOfOneImage => NUMBERS.min(NUMBERS * images),
        AnswersAByteShort => (NUMBERS * images).saturating_sub(1),
        AnswersMustBeLonger => NUMBERS * images + 1,
        AnswersNotMeasured => 0,
        _ => NUMBERS * images,
    };
    [out, answers]
}

/// 33, with what a fault does to the lent buffers.
fn refuse(fault: Fault, at: usize, image: usize, out: &mut [u8], answers: &mut [u8]) -> Reply {
    match fault {
        OutputClearedOnRefusal => out.fill(0),
        AnswersClearedOnRefusal => answers.fill(0),
        RefusalInTheAnswers => put(answers, 0, &33_u32.to_le_bytes()),
        _ => {}
    }
    match fault {
        RefusedWithThePlace => reply(33, at, 0),
        RefusedWithTheImage => reply(33, 0, image),
        RefusedAsAnImage => reply(1, 0, 0),
        NumberIs32 => reply(32, 0, 0),
        _ => REFUSED,
    }
}

fn answer(fault: Fault, release: &[u8], lent: &mut [u8], answers: &mut [u8]) -> Reply {
    let (images, bad) = read(fault, release);
    if let Some(at) = bad {
        let early = |images: &[&[u8]]| outcomes(NoFault, images);
        match fault {
            OutputWrittenBeforeTheFraming => {
                put(lent, 0, &out(NoFault, &images, &early(&images)));
            }
            AnswersWrittenBeforeTheFraming => put_answers(NoFault, answers, &early(&images)),
            _ => {}
        }
        return refuse(fault, at, images.len(), lent, answers);
    }
    let mut outcomes = outcomes(fault, &images);
    if fault == OutputLeftForEachImage {
        let mut left = lent.len();
        for (outcome, image) in outcomes.iter_mut().zip(&images) {
            left = left.saturating_sub(NUMBER);
            if image.len() > left && outcome.is_ok() {
                *outcome = refused(5, 0, 0);
            }
            left -= outcome.as_ref().map_or(0, |(bytes, _)| bytes.len());
        }
    }
    let written = out(fault, &images, &outcomes);
    let numbers = NUMBERS * outcomes.len();
    let [out_needed, answers_needed] = needed(fault, release, &written, &outcomes);
    if lent.len() < out_needed || fault == OutputMustBeAsLong && lent.len() > out_needed {
        if fault == AnswersWrittenWithoutOutput {
            put_answers(fault, answers, &outcomes);
        }
        return match fault {
            FiveForTheOutput => reply(5, 0, 0),
            _ => refuse(fault, lent.len(), outcomes.len(), lent, answers),
        };
    }
    let answers_fit = answers.len() >= answers_needed;
    if !answers_fit || fault == AnswersMustBeAsLong && answers.len() > answers_needed {
        if fault == OutputWrittenWithoutAnswers {
            put(lent, 0, &written);
        }
        return match fault {
            ThirtyForTheAnswers => reply(30, 0, 0),
            _ => refuse(fault, answers.len(), outcomes.len(), lent, answers),
        };
    }
    match fault {
        ReleaseLeftBehind => put(lent, 0, release),
        OutputClearedBehind => lent.fill(0),
        AnswersClearedBehind => answers.fill(0),
        _ => {}
    }
    put(lent, 0, &written);
    put_answers(fault, answers, &outcomes);
    match fault {
        ByteBehindTheOutput => put(lent, written.len(), &[0]),
        ByteBehindTheAnswers => put(answers, numbers, &[0]),
        LastImageLeftBehind => {
            if let (Some(image), Some(Ok((bytes, _)))) = (images.last(), outcomes.last()) {
                put(lent, written.len(), &image[bytes.len()..]);
            }
        }
        _ => {}
    }
    let refused: Vec<&Refusal> =
        outcomes.iter().filter_map(|outcome| outcome.as_ref().err()).collect();
    let sum = outcomes.iter().flatten().map(|(_, success)| success.num_rewrites as usize).sum();
    let first = match fault {
        FirstIsTheReleases => release.len(),
        FirstIsTheImages => outcomes.len(),
        FirstIsTheAnswers => numbers,
        FirstIsBoth => written.len() + numbers,
        FirstWithoutLengths => written.len() - NUMBER * outcomes.len(),
        FirstIsZero => 0,
        _ => written.len(),
    };
    let second = match fault {
        SecondIsTheImages => outcomes.len(),
        SecondIsTheRefused => refused.len(),
        SecondIsTheSum => sum,
        SecondIsTheAnswers => numbers,
        _ => 0,
    };
    let number = match (fault, refused.first()) {
        (NumberOfAnImage, Some(refusal)) => refusal.number as usize,
        _ => 0,
    };
    match fault {
        AtThePlaceOfTheSent => at_the_place_of_the_sent(&images, &outcomes, lent),
        _ => reply(number, first, second),
    }
}

/// Each image where it was sent; what it leaves is as it was lent.
fn at_the_place_of_the_sent(images: &[&[u8]], outcomes: &[Answered], lent: &mut [u8]) -> Reply {
    let mut at = 0;
    for (image, outcome) in images.iter().zip(outcomes) {
        put(lent, at, &out(NoFault, &[image], &[outcome.clone()]));
        at += NUMBER + image.len();
    }
    reply(0, at, 0)
}

impl Operations for Wrong {
    checks_and_rewrites_of_the_model!();
    packing_of_the_model!();
    fn pages(&self, image: &[u8], out: &mut [u8]) -> Reply {
        Model.pages(image, out)
    }
    fn release(&self, release: &[u8], out: &mut [u8], answers: &mut [u8]) -> Reply {
        answer(self.0, release, out, answers)
    }
    fn factor(&self, leaf: Leaf, wanted: i32, factor: i32, other: &mut i32) -> usize {
        Model.factor(leaf, wanted, factor, other)
    }
}

// ---- What is found ----

/// The exhaustive groups find each, and show it by few bytes.
#[test]
fn every_wrong_release_is_found() {
    let groups: Vec<&str> = releases::exhaustive().iter().map(|group| group.name).collect();
    let mut missed = Vec::new();
    for &fault in FAULTS {
        let outcome = driver::compare(Groups::Releases, &[&Wrong(fault)], 1, 0, 1);
        let Some(found) = outcome.found else {
            missed.push(fault);
            continue;
        };
        let what = &found.difference.what;
        let length = found.images[0].len();
        println!("{fault:?}: {}: {what}, {length} bytes, {:?}", found.group, found.lent);
        assert!(what.starts_with("Release, "), "{fault:?}: {what}");
        assert!(groups.contains(&found.group), "{fault:?}: {}", found.group);
        let most = match fault {
            // These show only of long images or releases, or of many images.
            LimitOfTheProgram => MAX_RELEASE + 1,
            TooLongImageRefused | LongestImageRefused | TooLongCut | LimitOfAnImageOnTheWhole => {
                MAX_IMAGE + CELL + NUMBER
            }
            CountInAByte => 258 * CELL + NUMBER,
            Only255Images => 256 * NUMBER,
            Only40Images | AnswersOfThirtyTwoImages => 41 * NUMBER,
            _ => 180,
        };
        assert!(length <= most, "{fault:?} isn't shrunk: {length} bytes");
    }
    assert_eq!(missed, []);
}

/// Random releases, with what must be answered, and lengths of lent buffers.
fn random_releases(count: usize) -> Vec<(Releasing, Vec<Lengths>)> {
    let random = &mut Random::new(1);
    let mut releases = Vec::new();
    for _ in 0..count {
        let it = Releasing::new(&releases::any_release(random)).unwrap();
        let lent = [(); 4].map(|()| releases::any_lengths(random, &it));
        releases.push((it, [(0, 0)].into_iter().chain(lent).collect()));
    }
    releases
}

/// One is answered otherwise than it must be.
fn shows(releases: &[(Releasing, Vec<Lengths>)], wrong: Wrong) -> bool {
    releases.iter().any(|(it, lent)| {
        lent.iter().any(|lent| it.check(&wrong, *lent, &vec![0xA7; it.around(*lent)]).is_err())
    })
}

/// One breaks a law, whatever the model says.
fn breaks_laws(releases: &[(Releasing, Vec<Lengths>)], wrong: Wrong) -> bool {
    let mut releases = releases.iter().enumerate();
    releases.any(|(at, (it, _))| release::laws(&wrong, &it.release, 7 * at).is_err())
}

/// Random releases alone find each of them too, but one that needs a release of 4 MiB; and the laws
/// alone those that they can.
#[test]
fn by_random_releases_alone() {
    let releases = random_releases(3000);
    assert!(!shows(&releases, Wrong(NoFault)) && !breaks_laws(&releases, Wrong(NoFault)));
    let (mut missed, mut laws) = (Vec::new(), Vec::new());
    for &fault in FAULTS {
        let wrong = Wrong(fault);
        missed.extend((!shows(&releases, wrong)).then_some(fault));
        laws.extend(breaks_laws(&releases, wrong).then_some(fault));
    }
    assert_eq!(missed, [LimitOfTheProgram]);
    println!("{} of {} by laws", laws.len(), FAULTS.len());
    let others: Vec<&Fault> = FAULTS.iter().filter(|fault| !laws.contains(fault)).collect();
    println!("not by laws: {others:?}");
    assert!(laws.len() >= 120, "{}", laws.len());
}

/// Wrong programs are wrong by their fault alone; and each case comes up often, in the groups and in
/// random releases.
#[test]
fn no_fault_is_right() {
    let outcome = driver::compare(Groups::Releases, &[&Wrong(NoFault), &Model], 1, 5, 1);
    assert!(outcome.found.is_none());
    println!("{:?}", outcome.released);
    assert!(outcome.released.cases.iter().all(|count| *count >= 30));
    let releases = random_releases(3000);
    for (name, case) in CASES {
        let count = releases.iter().filter(|(it, lent)| lent.iter().any(|lent| case(it, *lent)));
        let count = count.count();
        println!("{name}: {count}");
        assert!(count >= 30, "{name}: {count}");
    }
}

#[cfg(feature = "library")]
#[test]
fn the_library() {
    let outcome = driver::compare(Groups::Releases, &[&differential::library::Library], 2, 20, 1);
    assert!(outcome.found.is_none());
    println!("{:?}", outcome.released);
}

/// These aren't wrong: the images one by one, each behind what the others left, in an output as long
/// as the image; from the last to the first; each image as a release of its own; and, of good images
/// up to the limit, all of them as one image, which is cut again.
#[test]
fn other_ways_to_the_same() {
    let random = random_releases(1500).into_iter().map(|(it, _)| it);
    let two = releases::exhaustive().into_iter().find(|group| group.name == "two images").unwrap();
    let two = (0..two.count).step_by(3).map(|index| Releasing::new(&(two.release)(index)).unwrap());
    let mut as_one = 0;
    for it in random.chain(two).filter(|it| it.outcomes.is_ok()) {
        let Framing { images, .. } = framing(&it.release);
        let right = it.both();
        assert_eq!(one_by_one(&images), *right);
        assert_eq!(from_the_last(&images), *right);
        let own = images.iter().map(|image| released(&framed(&[image])));
        let own: Vec<Both> = own.collect();
        let joined = |part: fn(&Both) -> &[u8]| own.iter().flat_map(part).copied().collect();
        assert_eq!(Both { out: joined(|it| &it.out), answers: joined(|it| &it.answers) }, *right);
        if it.refused() == 0 && images.concat().len() <= MAX_IMAGE {
            assert_eq!(as_one_image(&images), framing(&right.out).images.concat());
            as_one += (images.len() > 1) as usize;
        }
    }
    assert!(as_one >= 30, "{as_one}");
}

fn released(release: &[u8]) -> Both {
    let images = framing(release).images.len();
    let (mut out, mut answers) = (vec![0; release.len()], vec![0; NUMBERS * images]);
    let Reply { number, first, .. } = Model.release(release, &mut out, &mut answers);
    assert_eq!(number, 0);
    out.truncate(first);
    Both { out, answers }
}

/// In the buffers themselves, with the number, the position and the detail put in their places.
fn one_by_one(images: &[&[u8]]) -> Both {
    let length = images.iter().map(|image| NUMBER + image.len()).sum();
    let (mut out, mut answers) = (vec![0xA7; length], vec![0xA7; NUMBERS * images.len()]);
    let mut end = 0;
    for (image, answers) in images.iter().zip(answers.chunks_mut(NUMBERS)) {
        let start = end + NUMBER;
        let answer = Model.rewrite(image, &mut out[start..start + image.len()]);
        let (length, numbers) = match answer {
            Ok(success) => (success.length, [0, success.num_rewrites, 0]),
            Err(Refusal { number, position, detail }) => (0, [number as u32, position, detail]),
        };
        out[end..start].copy_from_slice(&(length as u32).to_le_bytes());
        for (place, number) in numbers.into_iter().enumerate() {
            answers[4 * place..4 * place + 4].copy_from_slice(&number.to_le_bytes());
        }
        end = start + length;
    }
    out.truncate(end);
    Both { out, answers }
}

fn from_the_last(images: &[&[u8]]) -> Both {
    let mut both = Both { out: vec![], answers: vec![] };
    for image in images.iter().rev() {
        let one = one_by_one(&[image]);
        both = Both {
            out: [one.out, both.out].concat(),
            answers: [one.answers, both.answers].concat(),
        };
    }
    both
}

fn as_one_image(images: &[&[u8]]) -> Vec<u8> {
    model::rewritten(Operation::Rewrite, &images.concat()).0
}

// ---- By hand ----

/// A function of LoadI32 r1 5, AddI32 r2 r1 r1 and Ret r2, as it is sent and as it is rewritten.
const SENT: [&str; 4] = ["F0 0700 0300", "2B 0100 05000000", "13 0200 0100 0100", "0C 01 0200"];
const FOLDED: [&str; 4] = ["F0 0700 0300", "2B 0100 05000000", "2B 0200 0A000000", "0C 01 0200"];
/// A function of LoadI32 r1 5, LoadI32 r1 6, Ret, Ret, of which two remain.
const LOADS: [&str; 5] = ["F0 0800 0400", "2B 0100 05000000", "2B 0100 06000000", "0C", "0C"];
const LOAD: [&str; 3] = ["F0 0800 0200", "2B 0100 06000000", "0C"];
/// A head alone.
const HEAD: [&str; 1] = ["F0 0900"];
/// A MakeRecord whose write site 258 no event has, behind a function without cells: 24, 1, 258.
const SITE: [&str; 3] = ["F0 0900", "F0 0700 0100", "32 0100 0900 0800 01 02010000"];
/// Register 1,024: 4, 0, 1.
const REGISTER: [&str; 2] = ["F0 0700 0100", "01 0004"];

/// Lengths by their digits, and images.
enum Piece {
    Digits(&'static str),
    Cells(&'static [&'static str]),
}
use Piece::{Cells, Digits};

fn all(pieces: &[Piece]) -> Vec<u8> {
    let piece = |piece: &Piece| match piece {
        Digits(digits) => bytes(digits),
        Cells(cells) => image(cells),
    };
    pieces.iter().flat_map(piece).collect()
}

/// A release, what is written to the output and, by digits, to the answers.
type Row = (Vec<Piece>, Vec<Piece>, &'static str);

fn good_rows() -> Vec<Row> {
    vec![
        // No image; one without bytes; two of these.
        (vec![], vec![], ""),
        (vec![Digits("00000000")], vec![Digits("00000000")], "00000000 00000000 00000000"),
        (
            vec![Digits("00000000 00000000")],
            vec![Digits("00000000 00000000")],
            "00000000 00000000 00000000 00000000 00000000 00000000",
        ),
        // One image: nothing to do, folded, shorter.
        (
            vec![Digits("10000000"), Cells(&HEAD)],
            vec![Digits("10000000"), Cells(&HEAD)],
            "00000000 00000000 00000000",
        ),
        (
            vec![Digits("40000000"), Cells(&SENT)],
            vec![Digits("40000000"), Cells(&FOLDED)],
            "00000000 01000000 00000000",
        ),
        (
            vec![Digits("50000000"), Cells(&LOADS)],
            vec![Digits("30000000"), Cells(&LOAD)],
            "00000000 02000000 00000000",
        ),
        // One that is refused: by its length, a head, a command, a register, a site.
        (vec![Digits("01000000 F0")], vec![Digits("00000000")], "01000000 00000000 00000000"),
        (
            vec![Digits("11000000"), Cells(&HEAD), Digits("00")],
            vec![Digits("00000000")],
            "01000000 00000000 00000000",
        ),
        (
            vec![Digits("10000000"), Cells(&["00"])],
            vec![Digits("00000000")],
            "02000000 00000000 00000000",
        ),
        (
            vec![Digits("30000000"), Cells(&["F0", "F0 0700 0100", "52"])],
            vec![Digits("00000000")],
            "03000000 01000000 02000000",
        ),
        (
            vec![Digits("20000000"), Cells(&REGISTER)],
            vec![Digits("00000000")],
            "04000000 00000000 01000000",
        ),
        (
            vec![Digits("30000000"), Cells(&SITE)],
            vec![Digits("00000000")],
            "18000000 01000000 02010000",
        ),
        // "One bad image changes nothing in its neighbours."
        (
            vec![Digits("40000000"), Cells(&SENT), Digits("30000000"), Cells(&SITE)],
            vec![Digits("40000000"), Cells(&FOLDED), Digits("00000000")],
            "00000000 01000000 00000000 18000000 01000000 02010000",
        ),
        (
            vec![Digits("30000000"), Cells(&SITE), Digits("40000000"), Cells(&SENT)],
            vec![Digits("00000000 40000000"), Cells(&FOLDED)],
            "18000000 01000000 02010000 00000000 01000000 00000000",
        ),
        (
            vec![
                Digits("50000000"),
                Cells(&LOADS),
                Digits("20000000"),
                Cells(&REGISTER),
                Digits("40000000"),
                Cells(&SENT),
            ],
            vec![Digits("30000000"), Cells(&LOAD), Digits("00000000 40000000"), Cells(&FOLDED)],
            "00000000 02000000 00000000 04000000 00000000 01000000 00000000 01000000 00000000",
        ),
        (
            vec![
                Digits("30000000"),
                Cells(&SITE),
                Digits("00000000 20000000"),
                Cells(&REGISTER),
                Digits("03000000 F0F0F0"),
            ],
            vec![Digits("00000000 00000000 00000000 00000000")],
            "18000000 01000000 02010000 00000000 00000000 00000000 \
             04000000 00000000 01000000 01000000 00000000 00000000",
        ),
        // In order; the same image twice; a function's labels and registers are its image's.
        (
            vec![Digits("10000000"), Cells(&HEAD), Digits("50000000"), Cells(&LOADS)],
            vec![Digits("10000000"), Cells(&HEAD), Digits("30000000"), Cells(&LOAD)],
            "00000000 00000000 00000000 00000000 02000000 00000000",
        ),
        (
            vec![Digits("40000000"), Cells(&SENT), Digits("40000000"), Cells(&SENT)],
            vec![Digits("40000000"), Cells(&FOLDED), Digits("40000000"), Cells(&FOLDED)],
            "00000000 01000000 00000000 00000000 01000000 00000000",
        ),
        (
            vec![
                Digits("20000000"),
                Cells(&["F0 0700 0100", "2B 0100 05000000"]),
                Digits("20000000"),
                Cells(&["F0 0700 0100", "13 0200 0100 0100"]),
            ],
            vec![
                Digits("20000000"),
                Cells(&["F0 0700 0100", "2B 0100 05000000"]),
                Digits("20000000"),
                Cells(&["F0 0700 0100", "13 0200 0100 0100"]),
            ],
            "00000000 00000000 00000000 00000000 00000000 00000000",
        ),
        // One activation number in two images, which only a sealing check would mind.
        (
            vec![
                Digits("30000000"),
                Cells(&["F0 0700 0100 0100", "4D 0900 0100 01 05000000", "00 01 05000000"]),
                Digits("30000000"),
                Cells(&["F0 0700 0100 0100", "4D 0900 0100 01 05000000", "00 01 05000000"]),
            ],
            vec![
                Digits("30000000"),
                Cells(&["F0 0700 0100 0100", "4D 0900 0100 01 05000000", "00 01 05000000"]),
                Digits("30000000"),
                Cells(&["F0 0700 0100 0100", "4D 0900 0100 01 05000000", "00 01 05000000"]),
            ],
            "00000000 00000000 00000000 00000000 00000000 00000000",
        ),
        // The default rewrite, once: it leaves a load to the next round, and QTruthNot.
        (
            vec![
                Digits("30000000"),
                Cells(&["F0 0700 0200", "2B 0100 05000000", "13 0100 0100 0100"]),
                Digits("30000000"),
                Cells(&["F0 0700 0200", "2C 0100 01", "43 0200 0100"]),
            ],
            vec![
                Digits("30000000"),
                Cells(&["F0 0700 0200", "2B 0100 05000000", "2B 0100 0A000000"]),
                Digits("30000000"),
                Cells(&["F0 0700 0200", "2C 0100 01", "43 0200 0100"]),
            ],
            "00000000 01000000 00000000 00000000 00000000 00000000",
        ),
    ]
}

/// Releases that are refused, whatever is lent.
fn bad_rows() -> Vec<Vec<Piece>> {
    vec![
        // A length past the end.
        vec![Digits("00")],
        vec![Digits("000000")],
        vec![Digits("00000000 00")],
        vec![Digits("10000000"), Cells(&HEAD), Digits("000000")],
        // An image past the end, by a byte, by all, by more than an image may have.
        vec![Digits("01000000")],
        vec![Digits("11000000"), Cells(&HEAD)],
        vec![Digits("10000000"), Cells(&HEAD), Digits("10000000")],
        vec![Digits("10000000"), Cells(&HEAD), Digits("02000000 F0")],
        vec![Digits("01000100"), Cells(&HEAD)],
        vec![Digits("FFFFFFFF")],
        vec![Digits("FFFFFFFF"), Cells(&HEAD)],
        // With its place it would wrap to the start, to itself and to the end.
        vec![Digits("10000000"), Cells(&HEAD), Digits("E8FFFFFF"), Cells(&HEAD)],
        vec![Digits("10000000"), Cells(&HEAD), Digits("FCFFFFFF"), Cells(&HEAD)],
        vec![Digits("10000000"), Cells(&HEAD), Digits("10000080"), Cells(&HEAD)],
        // A length turned round.
        vec![Digits("00000010"), Cells(&HEAD)],
        // One that counts itself: the next begins four bytes late.
        vec![Digits("14000000"), Cells(&HEAD)],
        // A good image before and behind, which isn't read.
        vec![Digits("40000000"), Cells(&SENT), Digits("41000000"), Cells(&SENT)],
    ]
}

/// Holds the answer of the model, and of the original image by image, against rows by hand.
fn answers_to(release: &[u8], lent: [usize; 2], expected: Reply, both: [&[u8]; 2]) {
    let mut buffers = lent.map(|length| vec![0xA7; length]);
    let [out, answers] = &mut buffers;
    let reply = Model.release(release, out, answers);
    assert_eq!(reply, expected, "{}", hexadecimal(release));
    for (buffer, written) in buffers.iter().zip(both) {
        assert_eq!(buffer[..written.len()], *written, "{}", hexadecimal(release));
        assert!(buffer[written.len()..].iter().all(|byte| *byte == 0xA7));
    }
    let it = Releasing::new(release).unwrap();
    let less = |length: usize, than: usize| length as isize - than as isize;
    let lengths = (less(lent[0], release.len()), less(lent[1], NUMBERS * it.images));
    assert_eq!(it.reply(lengths), (expected, both));
}

#[test]
fn answers_by_hand() {
    for (release, out, answers) in good_rows() {
        let (release, out, answers) = (all(&release), all(&out), bytes(answers));
        let written = [&out[..], &answers];
        let lent = [release.len(), answers.len()];
        for more in [[0, 0], [1, 0], [0, 1], [100, 12]] {
            let lent = [lent[0] + more[0], lent[1] + more[1]];
            answers_to(&release, lent, reply(0, out.len(), 0), written);
        }
        // Shorter ones, in which the result may fit.
        for short in 0..release.len() {
            answers_to(&release, [short, lent[1] + 5], REFUSED, [&[]; 2]);
        }
        for short in 0..answers.len() {
            answers_to(&release, [lent[0] + 5, short], REFUSED, [&[]; 2]);
        }
        // The program's.
        let lines: String = answers
            .chunks(NUMBERS)
            .enumerate()
            .map(|(place, numbers)| {
                let number =
                    |at: usize| u32::from_le_bytes(numbers[4 * at..4 * at + 4].try_into().unwrap());
                match number(0) {
                    0 => format!("{place} rewrites {}\n", number(1)),
                    refused => format!("{place} refused {refused} {} {}\n", number(1), number(2)),
                }
            })
            .collect();
        let said = Said { output: out, error: lines.into() };
        assert_eq!(program::said(Text::Released, &release), Ok(said));
    }
    for release in bad_rows() {
        let release = all(&release);
        for lent in [[0, 0], [release.len(), 0], [0, 24], [release.len(), 24], [100, 100]] {
            answers_to(&release, lent, REFUSED, [&[]; 2]);
        }
        let said = Said { output: vec![], error: b"refused 33\n".to_vec() };
        assert_eq!(program::said(Text::Released, &release), Ok(said));
    }
    println!("{} good rows, {} refused", good_rows().len(), bad_rows().len());
}

/// Images at the limit and past it: 1 is the image's, and its neighbours are rewritten; there is no
/// limit on the whole.
#[test]
fn long_images_by_hand() {
    let heads = image(&["F0"]).repeat(4096);
    let sent = image(&SENT);
    let folded = image(&FOLDED);
    let release = framed(&[&heads, &sent]);
    let out = framed(&[&heads, &folded]);
    let answers = bytes("00000000 00000000 00000000 00000000 01000000 00000000");
    answers_to(&release, [65_608, 24], reply(0, 65_608, 0), [&out, &answers]);
    answers_to(&release, [65_607, 24], REFUSED, [&[]; 2]);
    for more in [1, 15, 16] {
        let too_long = [&heads[..], &vec![0; more]].concat();
        let release = framed(&[&sent, &too_long, &sent]);
        let out = [&bytes("40000000")[..], &folded, &bytes("00000000 40000000"), &folded].concat();
        let answers = bytes(
            "00000000 01000000 00000000 01000000 00000000 00000000 00000000 01000000 00000000",
        );
        answers_to(&release, [release.len(), 36], reply(0, 140, 0), [&out, &answers]);
        answers_to(&release, [140, 36], REFUSED, [&[]; 2]);
    }
    // Forty images, and more bytes than an image may have.
    let release = framed(&vec![heads[..2000 * CELL].to_vec(); 40]);
    answers_to(&release, [release.len(), 480], reply(0, 1_280_160, 0), [&release, &[0; 480]]);
    answers_to(&release, [release.len(), 479], REFUSED, [&[]; 2]);
}

// ---- The program's word ----

/// What the program must say at its limit.
#[test]
fn the_programs_limit() {
    let head = image(&HEAD);
    let just = releases::of_length(&head, MAX_RELEASE);
    assert_eq!((just.len(), framing(&just).images.len()), (4_194_304, 209_716));
    let lines: String = (0..209_716).map(|place| format!("{place} rewrites 0\n")).collect();
    let said = Said { output: just.clone(), error: lines.into() };
    assert!(program::said(Text::Released, &just) == Ok(said));
    let refused = Ok(Said { output: vec![], error: b"refused 33\n".to_vec() });
    // Whole images, but a byte or a length too many; a byte less.
    let more = releases::of_length(&head, MAX_RELEASE + 1);
    assert!(framing(&more).fault.is_none());
    assert_eq!(program::said(Text::Released, &more), refused);
    assert_eq!(program::said(Text::Released, &[&just[..], &[0; 4]].concat()), refused);
    assert_eq!(program::said(Text::Released, &just[..MAX_RELEASE - 1]), refused);
    let less = releases::of_length(&head, MAX_RELEASE - 1);
    assert!(program::said(Text::Released, &less).unwrap().output.len() > MAX_RELEASE - 40);
}

type Says = fn(Said, &[u8]) -> Said;

fn lines(said: &Said) -> Vec<String> {
    let text = String::from_utf8(said.error.clone()).unwrap();
    text.lines().map(String::from).collect()
}

fn with_lines(said: &Said, line: impl Fn(usize, &str) -> String) -> Said {
    let lines = lines(said);
    let lines = lines.iter().enumerate().map(|(place, text)| match text.as_str() {
        "refused 33" => "refused 33\n".into(),
        text => line(place, text),
    });
    Said { error: lines.collect::<String>().into(), output: said.output.clone() }
}

fn is_refused(said: &Said) -> bool {
    said.error == b"refused 33\n"
}

/// Programs that say something else.
const WRONG_WORDS: [(&str, Says); 18] = [
    ("places from 1", |it, _| {
        with_lines(&it, |place, line| format!("{} {}\n", place + 1, without_place(line)))
    }),
    ("no places", |it, _| with_lines(&it, |_, line| format!("{}\n", without_place(line)))),
    ("refused images left out", |it, _| {
        with_lines(&it, |_, line| match line.contains("refused") {
            true => String::new(),
            false => format!("{line}\n"),
        })
    }),
    ("refused images alone", |it, _| {
        with_lines(&it, |_, line| match line.contains("refused") {
            true => format!("{line}\n"),
            false => String::new(),
        })
    }),
    ("places of what is said", |it, _| {
        let refused: Vec<bool> = lines(&it).iter().map(|line| line.contains("refused")).collect();
        with_lines(&it, |place, line| {
            let same = refused[..place].iter().filter(|other| **other == refused[place]).count();
            format!("{same} {}\n", without_place(line))
        })
    }),
    ("the number alone", |it, _| {
        with_lines(&it, |_, line| {
            let words: Vec<&str> = line.split(' ').take(3).collect();
            format!("{}\n", words.join(" "))
        })
    }),
    ("detail before position", |it, _| {
        with_lines(&it, |_, line| match line.split(' ').collect::<Vec<&str>>()[..] {
            [place, refused, number, position, detail] => {
                format!("{place} {refused} {number} {detail} {position}\n")
            }
            _ => format!("{line}\n"),
        })
    }),
    ("no last line feed", |mut it, _| {
        it.error.pop();
        it
    }),
    ("33 with position and detail", |it, _| match is_refused(&it) {
        true => Said { error: b"refused 33 0 0\n".to_vec(), ..it },
        false => it,
    }),
    ("33 on standard output", |it, _| match is_refused(&it) {
        true => Said { output: it.error, error: it.output },
        false => it,
    }),
    ("nothing for 33", |it, _| match is_refused(&it) {
        true => Said { error: vec![], ..it },
        false => it,
    }),
    ("the images before 33", |it, input| match is_refused(&it) {
        true => Said { output: framed(&framing(input).images), ..it },
        false => it,
    }),
    ("lines on standard output", |it, _| Said {
        output: [it.output, it.error].concat(),
        error: vec![],
    }),
    ("a line feed behind the bytes", |mut it, _| {
        if !is_refused(&it) {
            it.output.push(b'\n');
        }
        it
    }),
    ("bytes as digits", |it, _| Said { output: hexadecimal(&it.output).into(), ..it }),
    ("the images without lengths", |it, _| {
        let images = framing(&it.output).images.concat();
        Said { output: images, ..it }
    }),
    ("the first image alone", |it, _| {
        let first = framing(&it.output).images.first().map_or(vec![], |image| framed(&[image]));
        Said { output: first, ..it }
    }),
    ("a limit of 65,536 bytes", |it, input| match input.len() > MAX_IMAGE {
        true => Said { output: vec![], error: b"refused 33\n".to_vec() },
        false => it,
    }),
];

fn without_place(line: &str) -> &str {
    line.split_once(' ').map_or(line, |(_, rest)| rest)
}

/// The same past the limit, and at it.
const WRONG_LIMITS: [(&str, Says); 3] = [
    ("no limit", |it, input| match input.len() > MAX_RELEASE {
        true => unlimited(input),
        false => it,
    }),
    ("a limit a byte less", |it, input| match input.len() == MAX_RELEASE {
        true => Said { output: vec![], error: b"refused 33\n".to_vec() },
        false => it,
    }),
    ("a limit a byte more", |it, input| match input.len() == MAX_RELEASE + 1 {
        true => unlimited(input),
        false => it,
    }),
];

/// What would be said of heads alone.
fn unlimited(input: &[u8]) -> Said {
    let lines = (0..framing(input).images.len()).map(|place| format!("{place} rewrites 0\n"));
    Said { output: input.to_vec(), error: lines.collect::<String>().into() }
}

#[test]
fn every_wrong_word_is_found() {
    let check = |says: Says, input: &[u8]| {
        let run = |input: &[u8]| Ok(says(program::said(Text::Released, input)?, input));
        program::check_by(Text::Released, "wrong", run, input)
    };
    let releases = random_releases(400);
    for (name, says) in WRONG_WORDS {
        let found = releases.iter().find_map(|(it, _)| check(says, &it.release).err());
        let found = found.unwrap_or_else(|| panic!("{name}"));
        println!("{name}: {}", &found[..found.len().min(300)]);
    }
    assert!(releases.iter().all(|(it, _)| check(|it, _| it, &it.release).is_ok()));
    let inputs = releases::program_inputs();
    for (name, says) in WRONG_LIMITS {
        let found = inputs.iter().find_map(|input| check(says, input).err());
        let found = found.unwrap_or_else(|| panic!("{name}"));
        println!("{name}: {}", &found[..found.len().min(100)]);
    }
}
