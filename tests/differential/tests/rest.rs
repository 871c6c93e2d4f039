//! Shows that the harness finds programs that rewrite wrongly until an image rests (document 02, W11),
//! and holds the model's rounds against rows written out by hand.

#[macro_use]
mod common;

use common::image;
use differential::answers::{Operation, Operations, Refusal, Reply, Rewritten, Success};
use differential::cells::{self, Cell, CELL};
use differential::compare;
use differential::driver::{self, records, Groups, Lent};
use differential::factors::Leaf;
use differential::generate::{self, computed, load_i32, one_function, ret, store_var};
use differential::joined::{self, Part};
use differential::leaves;
use differential::legacy_lowering::byte;
use differential::model::{self, Model};
use differential::program::{self, Said, Text};
use differential::random::Random;
use differential::rest::{self, Rested, ROUNDS};
use differential::runs::{any_registers, claims, Outside};

/// A program that answers as the model does but for one fault in its rewrite until it rests.
#[derive(Debug, Clone, Copy, PartialEq)]
struct Wrong(Fault);

faults! {
    // When it stops.
    OneRound,
    StopsAtOne,
    /// That is, when nothing was removed.
    StopsAtTheSameLength,
    StopsWhenNothingIsFolded,
    StopsWithTheFirstFunction,
    StopsWithTheLastFunction,
    StopsWhenOneFunctionRests,
    RefusesAThirdRound,
    // What further rounds do.
    OnlyTheFirstFunctionGoesOn,
    OnlyTheLastFunctionGoesOn,
    LabelsLeft,
    LoadsLeft,
    LoadsOfAnotherKindLeft,
    LoadsOfAnotherValueLeft,
    OneCellGoes,
    LoadU32Goes,
    LoadsByTheLowByte,
    TheFirstLoadStays,
    RepeatedLabelsGo,
    HeadsOfRoundOne,
    EventsLost,
    // What every round does.
    OnlyCleans,
    OnlyFolds,
    FoldsFirst,
    FullerRules,
    FullerAtFirst,
    FullerLater,
    // The count, and `changed`.
    /// As if cleaned once more, and that not counted.
    CountOfTheFirstRound,
    CountOfTheSecondRound,
    CountOfTheLastRound,
    CountOfTheGreatestRound,
    CountOfTheRounds,
    CountWithTheRounds,
    CountOfTheCellsGone,
    ThirdRoundCountsOne,
    OneTooMany,
    OneTooManyIfAny,
    FoldsCountTwice,
    ChangedByTheLastRound,
    ChangedByTheSecondRound,
    ChangedAlways,
    // The length, and what is written.
    LengthOfRoundOne,
    LengthOfTheImage,
    HandsRoundOneBack,
    HandsTheImageBack,
    WritesNothing,
    RoundOneBehindTheEnd,
    AByteOfRoundOneBehindTheEnd,
    RoundOneBesideTheLast,
    ImageBehindTheEnd,
    ImageBehindTheEndOfThreeRounds,
    ImageBehindRoundOne,
    ClearsTheRest,
    ClearsUpToRoundOne,
    ClearsUpToTheImage,
    TouchesAByteBehind,
    // Refusals.
    FiveByTheResult,
    FiveByRoundOne,
    FiveAfterTheSites,
    FiveAfterTheCells,
    FiveBeforeOne,
    FiveIfItFitsJust,
    FiveIfItFitsJustAndChanges,
    FiveWithTheLength,
    SkipsTheSites,
    SitesOfTheResult,
    TouchesOnARefusal,
    WritesWhatFits,
    ImageBeforeTheSites,
    PositionFromOne,
    PositionForgotten,
    DetailInBytes,
    DetailForgotten;
    // Not among them.
    NoFault,
    /// Of one image alone, which no group has but as what rests.
    CountsEighty,
}
use Fault::*;

// ---- Rounds ----

/// What a round writes, and its count.
type Round = (Vec<u8>, u32);

/// The functions of a good image as images of their own.
fn alone(image: &[u8]) -> Vec<Vec<u8>> {
    cells::alone(image).map(<[u8]>::to_vec).collect()
}

fn rewritten(image: &[u8]) -> Round {
    model::rewritten(Operation::Rewrite, image)
}

/// One pass, then another.
fn two_passes(image: &[u8], [one, two]: [Operation; 2]) -> Round {
    let (bytes, one) = model::rewritten(one, image);
    let (bytes, two) = model::rewritten(two, &bytes);
    (bytes, one + two)
}

fn fuller(image: &[u8]) -> Round {
    model::rewritten(Operation::Fuller, image)
}

/// A round, by its number from 0.
fn round(fault: Fault, number: usize, image: &[u8]) -> Round {
    match (fault, number) {
        (OnlyCleans, _) => model::rewritten(Operation::Cleanup, image),
        (OnlyFolds, _) => model::rewritten(Operation::CrystalFold, image),
        (FoldsFirst, _) => two_passes(image, [Operation::CrystalFold, Operation::Cleanup]),
        (FullerRules, _) | (FullerAtFirst, 0) | (FullerLater, 1..) => fuller(image),
        (_, 0) | (FullerAtFirst, _) => rewritten(image),
        (OnlyTheFirstFunctionGoesOn, _) => only(image, |at, _| at == 0),
        (OnlyTheLastFunctionGoesOn, _) => only(image, |at, of| at + 1 == of),
        _ => further(fault, image),
    }
}

/// The default rewrite of some functions, by their position and how many there are.
fn only(image: &[u8], goes_on: fn(usize, usize) -> bool) -> Round {
    let functions = alone(image);
    let of = functions.len();
    let functions = functions.into_iter().enumerate();
    functions.fold((Vec::new(), 0), |(bytes, count), (at, function)| {
        let (more, rewrites) = if goes_on(at, of) { rewritten(&function) } else { (function, 0) };
        ([bytes, more].concat(), count + rewrites)
    })
}

/// A round on what another wrote: only labels and loads go, and nothing is folded.
fn further(fault: Fault, image: &[u8]) -> Round {
    let mut bytes = Vec::new();
    let mut count = 0;
    for function in cells::functions(image) {
        let mut may_go = |goes: bool| {
            let goes = goes && !(fault == OneCellGoes && count == 1);
            count += goes as u32;
            goes
        };
        let mut labelled: Vec<Cell> = Vec::new();
        for cell in function.instrs {
            if !may_go(label_goes(fault, &labelled, cell)) {
                labelled.push(*cell);
            }
        }
        let mut instrs: Vec<Cell> = Vec::new();
        for cell in labelled {
            let last = instrs.last();
            if !may_go(last.is_some_and(|last| load_goes(fault, last, &cell))) {
                instrs.push(cell);
            } else if fault != TheFirstLoadStays {
                *instrs.last_mut().unwrap() = cell;
            }
        }
        let lost = fault == EventsLost && instrs.len() < function.instrs.len();
        let events = if lost { &[] } else { function.events };
        cells::push_function(&mut bytes, function.name, &instrs, events);
    }
    (bytes, count)
}

/// A cell is a label that goes behind those that stay.
fn label_goes(fault: Fault, kept: &[Cell], cell: &Cell) -> bool {
    let doubled = match fault {
        LabelsLeft => false,
        RepeatedLabelsGo => kept.contains(cell),
        _ => kept.last() == Some(cell),
    };
    cell[0] == byte::Label && doubled
}

/// A load goes with this one behind it.
fn load_goes(fault: Fault, cell: &Cell, next: &Cell) -> bool {
    let load =
        |cell| leaves::loaded(cell).filter(|_| cell[0] != byte::LoadU32 || fault == LoadU32Goes);
    let (Some((one, _)), Some((two, _))) = (load(cell), load(next)) else {
        return false;
    };
    match fault {
        LoadsLeft => false,
        LoadsOfAnotherKindLeft => one == two && cell[0] == next[0],
        LoadsOfAnotherValueLeft => one == two && cell[3..] == next[3..],
        LoadsByTheLowByte => one % 256 == two % 256,
        _ => one == two,
    }
}

/// Whether another round follows on one, by its number from 0.
fn stops(fault: Fault, number: usize, before: &[u8], (after, count): &Round) -> bool {
    let counts = || alone(before).iter().map(|function| rewritten(function).1).collect::<Vec<_>>();
    match fault {
        OneRound => true,
        OneCellGoes if number == 1 => true,
        StopsAtOne => *count <= 1,
        StopsAtTheSameLength => before.len() == after.len(),
        StopsWhenNothingIsFolded => *count == model::rewritten(Operation::Cleanup, before).1,
        StopsWithTheFirstFunction => counts().first().is_none_or(|count| *count == 0),
        StopsWithTheLastFunction => counts().last().is_none_or(|count| *count == 0),
        StopsWhenOneFunctionRests => *count == 0 || counts().contains(&0),
        _ => *count == 0,
    }
}

fn rounds(fault: Fault, image: &[u8]) -> Vec<Round> {
    let mut rounds: Vec<Round> = Vec::new();
    loop {
        let before = rounds.last().map_or(image, |(bytes, _)| bytes);
        let next = round(fault, rounds.len(), before);
        let stops = stops(fault, rounds.len(), before, &next);
        rounds.push(next);
        if stops {
            return rounds;
        }
        assert!(rounds.len() < 10, "{fault:?}");
    }
}

// ---- Answers ----

fn refused(number: u8) -> Refusal {
    Refusal { number, position: 0, detail: 0 }
}

/// What is refused before a round.
fn refusal(fault: Fault, image: &[u8], lent: usize) -> Result<(), Refusal> {
    if fault == FiveBeforeOne && lent < image.len() {
        return Err(refused(5));
    }
    if !cells::length_good(image) {
        return Err(refused(1));
    }
    match fault {
        FiveAfterTheSites => model::site_check(image)?,
        FiveAfterTheCells => model::image_check(image)?,
        _ => {}
    }
    let accepted = model::site_check(image).is_ok();
    let room = match fault {
        FiveByTheResult if accepted => model::rested(image).bytes.len(),
        FiveByRoundOne if accepted => rewritten(image).0.len(),
        FiveIfItFitsJust => image.len() + 1,
        FiveIfItFitsJustAndChanges if accepted && rewritten(image).1 > 0 => image.len() + 1,
        _ => image.len(),
    };
    if lent < room {
        return Err(refused(5));
    }
    match fault {
        SkipsTheSites => model::image_check(image),
        SitesOfTheResult => {
            model::image_check(image)?;
            // Refused as the image, which then is too.
            model::site_check(&model::rested(image).bytes).or_else(|_| model::site_check(image))
        }
        _ => model::site_check(image),
    }
}

/// What a fault makes of a refusal, and of the lent output with it.
fn refuse(fault: Fault, image: &[u8], out: &mut [u8], refusal: Refusal) -> Refusal {
    let Refusal { number, position, detail } = refusal;
    let by_position = number != 1 && number != 5;
    match fault {
        TouchesOnARefusal => out.iter_mut().take(1).for_each(|byte| *byte ^= 1),
        WritesWhatFits if number == 5 && model::site_check(image).is_ok() => {
            let Rested { bytes, .. } = model::rested(image);
            let fits = bytes.len().min(out.len());
            out[..fits].copy_from_slice(&bytes[..fits]);
        }
        ImageBeforeTheSites if number > 10 => out[..image.len()].copy_from_slice(image),
        PositionFromOne if by_position => return Refusal { position: position + 1, ..refusal },
        PositionForgotten => return Refusal { position: 0, ..refusal },
        DetailInBytes if number < 5 => {
            return Refusal { detail: detail * CELL as u32, ..refusal };
        }
        DetailForgotten => return Refusal { detail: 0, ..refusal },
        FiveWithTheLength if number == 5 => {
            return Refusal { detail: image.len() as u32, ..refusal };
        }
        _ => {}
    }
    refusal
}

fn answer(fault: Fault, image: &[u8], out: &mut [u8]) -> Rewritten {
    refusal(fault, image, out.len()).map_err(|refusal| refuse(fault, image, out, refusal))?;
    let rounds = rounds(fault, image);
    if fault == RefusesAThirdRound && rounds.len() == 3 {
        return Err(refused(5));
    }
    let (first, (last, _)) = (&rounds[0].0, rounds.last().unwrap());
    let last = &match fault {
        HeadsOfRoundOne => with_heads_of(first, last),
        HandsRoundOneBack => first.clone(),
        HandsTheImageBack => image.to_vec(),
        _ => last.clone(),
    };
    write(fault, image, first, last, rounds.len(), out);
    let counts: Vec<u32> = rounds.iter().map(|(_, count)| *count).collect();
    let length = match fault {
        LengthOfRoundOne => first.len(),
        LengthOfTheImage => image.len(),
        _ => last.len(),
    };
    let gone = ((image.len() - last.len()) / CELL) as u32;
    let eighty = fault == CountsEighty && image == one_function(&[load_i32(1, 80)], &[]);
    let num_rewrites = count(fault, &counts, rewrites_of_folds(image), gone) + eighty as u32;
    let changed = match fault {
        ChangedByTheLastRound => counts.last().is_some_and(|count| *count > 0),
        ChangedByTheSecondRound => counts.get(1).is_some_and(|count| *count > 0),
        ChangedAlways => true,
        _ => num_rewrites > 0,
    };
    Ok(Success { length, num_rewrites, changed })
}

/// How much of the first round's count are folds.
fn rewrites_of_folds(image: &[u8]) -> u32 {
    rewritten(image).1 - model::rewritten(Operation::Cleanup, image).1
}

fn count(fault: Fault, counts: &[u32], folds: u32, gone: u32) -> u32 {
    let sum: u32 = counts.iter().sum();
    let rounds = counts.len() as u32;
    match fault {
        CountOfTheFirstRound => counts[0],
        CountOfTheSecondRound => counts.get(1).copied().unwrap_or(0),
        CountOfTheLastRound => counts[counts.len() - 1],
        CountOfTheGreatestRound => counts.iter().copied().max().unwrap(),
        CountOfTheRounds => rounds,
        CountWithTheRounds => sum + rounds - 1,
        CountOfTheCellsGone => gone,
        ThirdRoundCountsOne => sum + (rounds == 3) as u32,
        OneTooMany => sum + 1,
        OneTooManyIfAny => sum + (sum > 0) as u32,
        FoldsCountTwice => sum + folds,
        _ => sum,
    }
}

/// An image with the heads of another, as far as it has functions.
fn with_heads_of(other: &[u8], image: &[u8]) -> Vec<u8> {
    let mut heads = alone(other).into_iter();
    let function = |mut function: Vec<u8>| {
        function[..CELL].copy_from_slice(&heads.next().unwrap()[..CELL]);
        function
    };
    alone(image).into_iter().flat_map(function).collect()
}

/// Writes what a fault leaves in the lent output.
fn write(fault: Fault, image: &[u8], first: &[u8], last: &[u8], rounds: usize, out: &mut [u8]) {
    let lent = out.to_vec();
    let mut put = |at: usize, bytes: &[u8]| out[at..at + bytes.len()].copy_from_slice(bytes);
    let end = last.len();
    match fault {
        WritesNothing => return,
        RoundOneBehindTheEnd => put(0, first),
        AByteOfRoundOneBehindTheEnd if first.len() > end => put(end, &first[end..end + 1]),
        RoundOneBesideTheLast if lent.len() >= end + first.len() => put(end, first),
        ImageBehindTheEnd => put(0, image),
        ImageBehindTheEndOfThreeRounds if rounds == 3 => put(0, image),
        ImageBehindRoundOne => {
            put(0, image);
            put(0, &lent[..first.len()]);
        }
        ClearsTheRest => put(0, &vec![0; lent.len()]),
        ClearsUpToRoundOne => put(0, &vec![0; first.len()]),
        ClearsUpToTheImage => put(0, &vec![0; image.len()]),
        TouchesAByteBehind if end < lent.len() => put(end, &[lent[end] ^ 1]),
        _ => {}
    }
    put(0, last);
}

impl Operations for Wrong {
    checks_and_rewrites_but_rest_of_the_model!();
    packing_of_the_model!();
    fn rest(&self, image: &[u8], out: &mut [u8]) -> Rewritten {
        answer(self.0, image, out)
    }
    fn pages(&self, image: &[u8], out: &mut [u8]) -> Reply {
        Model.pages(image, out)
    }
    releases_of_the_model!();
    fn factor(&self, leaf: Leaf, wanted: i32, factor: i32, other: &mut i32) -> usize {
        Model.factor(leaf, wanted, factor, other)
    }
}

// ---- What is found ----

#[test]
fn every_wrong_rest_is_found() {
    for &fault in FAULTS {
        let outcome = driver::compare(Groups::Rest, &[&Wrong(fault)], 1, 20, 1);
        let found = outcome.found.unwrap_or_else(|| panic!("{fault:?} isn't found"));
        let what = &found.difference.what;
        let cells = found.images.concat().len().div_ceil(CELL);
        println!("{fault:?}: {}: {what}, {cells} cells, {:?}", found.group, found.lent);
        assert!(what.starts_with("Rest, ") && matches!(found.lent, Lent::Output(_)), "{fault:?}");
        assert!(cells <= 6, "{fault:?} isn't shrunk: {cells} cells");
    }
}

/// A full run has these groups, and other images that take three rounds.
#[test]
fn among_all_groups() {
    for fault in [OneRound, FullerLater] {
        let outcome = driver::compare(Groups::All, &[&Wrong(fault)], 1, 0, 1);
        let what = outcome.found.unwrap().difference.what;
        assert!(what.starts_with("Rest, "), "{what}");
    }
}

/// What rests is rewritten again: 5 doubled four times.
#[test]
fn by_a_law_alone() {
    let outcome = driver::compare(Groups::Rest, &[&Wrong(CountsEighty)], 1, 0, 1);
    let found = outcome.found.unwrap();
    assert_eq!((found.lent, found.group), (Lent::RestLaw, "short rests"));
    assert_eq!(found.difference.what, "Rest, a further one");
    let loads = found.images.concat().len() / CELL;
    assert!(loads <= 6, "{loads} cells");
}

/// Random images, with the answers that they must get.
fn random_images(count: usize) -> Vec<Part> {
    let random = &mut Random::new(1);
    let mut images = Vec::new();
    for at in 0..count {
        images.push(generate::any_image(random));
        images.push(generate::restless(random));
        images.push(match at % 16 {
            0 => generate::limit(random),
            _ => generate::damaged(random),
        });
    }
    images.iter().map(|image| Part::new(image).unwrap()).collect()
}

/// Lengths of a lent output, less the image's.
const MORE: [isize; 6] = [0, -1, 3, 0, -16, 1000];

/// One is answered otherwise than it must be.
fn shows(images: &[Part], wrong: Wrong) -> bool {
    let differs = |(at, part): (usize, &Part)| {
        let Part { image, expected } = part;
        let out = vec![0xA7; image.len().saturating_add_signed(MORE[at / 3 % MORE.len()])];
        expected.check(&wrong, image, &out).is_err()
    };
    images.iter().enumerate().any(differs)
}

/// One breaks a law, whatever the model says.
fn breaks_laws(images: &[Part], wrong: Wrong) -> bool {
    images.iter().any(|part| rest::laws(&wrong, &part.image).is_err())
}

/// Random images alone find each of them too; and the laws alone find those that they can.
#[test]
fn by_random_images_alone() {
    let images = random_images(1500);
    assert!(!shows(&images, Wrong(NoFault)) && !breaks_laws(&images, Wrong(NoFault)));
    let mut by_laws = Vec::new();
    for &fault in FAULTS {
        assert!(shows(&images, Wrong(fault)), "{fault:?}");
        if breaks_laws(&images, Wrong(fault)) {
            by_laws.push(fault);
        }
    }
    println!("{} by laws: {by_laws:?}", by_laws.len());
    assert!(by_laws.len() >= 50, "{}", by_laws.len());
}

/// Wrong programs are wrong by their fault alone; and images take each number of rounds often.
#[test]
fn no_fault_is_right() {
    let outcome = driver::compare(Groups::Rest, &[&Wrong(NoFault), &Model], 1, 20, 1);
    assert!(outcome.found.is_none());
    let often = |rounds: [u64; ROUNDS + 1]| {
        println!("{rounds:?}");
        rounds[1..].iter().all(|count| *count >= 100)
    };
    assert!(often(outcome.rests.rounds));
    // Only a third round finds less than the first wrote.
    assert_eq!(outcome.rests.longer, outcome.rests.rounds[ROUNDS]);
    assert!(outcome.runs > 10_000, "{}", outcome.runs);
    let mut rounds = [0; ROUNDS + 1];
    for rested in random_images(500).iter().filter_map(|part| part.expected.rested()) {
        rounds[rested.rounds()] += 1;
    }
    assert!(often(rounds));
}

#[cfg(feature = "library")]
#[test]
fn the_library() {
    let outcome = driver::compare(Groups::Rest, &[&differential::library::Library], 2, 20, 1);
    assert!(outcome.found.is_none());
    println!("rounds {:?}", outcome.rests.rounds);
}

/// These aren't wrong: two rounds always; the default rewrite once and then cleanup alone; function by
/// function, each until it rests; until no byte changes.
#[test]
fn other_ways_to_the_same() {
    let groups = generate::rests();
    let exhaustive = groups.iter().flat_map(|group| (0..group.count).step_by(5).map(&group.image));
    let random = random_images(300).into_iter().map(|part| part.image);
    for image in exhaustive.chain(random).filter(|image| model::site_check(image).is_ok()) {
        let right = model::rewritten(Operation::Rest, &image);
        let again = |(bytes, one): Round, round: fn(&[u8]) -> Round| {
            let (bytes, two) = round(&bytes);
            (bytes, one + two)
        };
        assert!(again(rewritten(&image), rewritten) == right);
        let cleanup = |image: &[u8]| model::rewritten(Operation::Cleanup, image);
        assert!(again(again(rewritten(&image), cleanup), cleanup) == right);
        let apart = alone(&image).into_iter().fold((Vec::new(), 0), |(bytes, sum), function| {
            let (more, count) = model::rewritten(Operation::Rest, &function);
            ([bytes, more].concat(), sum + count)
        });
        assert!(apart == right);
        let (mut bytes, mut sum) = (image, 0);
        loop {
            let (next, count) = rewritten(&bytes);
            sum += count;
            if next == bytes {
                break;
            }
            bytes = next;
        }
        assert!((bytes, sum) == right);
    }
}

/// More than three rounds are a difference, and rounds without end come to one.
#[test]
fn too_many_rounds() {
    let good = model::rested(&one_function(&[load_i32(1, 5), load_i32(1, 6)], &[]));
    assert!(good.check("", &good).is_ok());
    let counts = |counts: &[u32]| Rested { counts: counts.into(), ..good.clone() };
    assert!(good.check("", &counts(&[0, 1, 0])).is_err());
    let four = counts(&[1, 1, 1, 0]);
    assert!(four.check("", &four).is_err());
    let success = Success { length: 0, num_rewrites: 1, changed: true };
    let endless = Rested::after((vec![], success), |_| Ok::<_, ()>((vec![], success))).unwrap();
    assert_eq!(endless.counts, [1; 10]);
    assert!(endless.check("", &endless).is_err());
}

// ---- By hand ----

/// An image, the counts by round, and what rests.
type Row = (&'static [&'static str], &'static [u32], &'static [&'static str]);

const ROWS: [Row; 24] = [
    // Nothing to do: no function, a function without cells, one with events alone, a load.
    (&[], &[0], &[]),
    (&["F0 0700"], &[0], &["F0 0700"]),
    (&["F0 0700 0000 0100", "00"], &[0], &["F0 0700 0000 0100", "00"]),
    (&["F0 0700 0100", "2B 0100 05"], &[0], &["F0 0700 0100", "2B 0100 05"]),
    // Document 01's printed example.
    (
        &["F0 0700 0300", "2B 0100 05", "13 0200 0100 0100", "0C 01 0200"],
        &[1, 0],
        &["F0 0700 0300", "2B 0100 05", "2B 0200 0A", "0C 01 0200"],
    ),
    // Two loads; an unreachable cell; a jump to the next cell.
    (&["F0 0700 0200", "2B 0100 05", "28 0100 01"], &[1, 0], &["F0 0700 0100", "28 0100 01"]),
    (&["F0 0700 0200", "0C 00", "2B 0100 05"], &[1, 0], &["F0 0700 0100", "0C 00"]),
    (&["F0 0700 0200", "08 0100", "0A 0100"], &[1, 0], &["F0 0700 0100", "0A 0100"]),
    // Document 02's: LoadI32 r1 5, AddI32 r1 r1 r1.
    (
        &["F0 0700 0200", "2B 0100 05", "13 0100 0100 0100"],
        &[1, 1, 0],
        &["F0 0700 0100", "2B 0100 0A"],
    ),
    // Label 1, Jmp 1, Label 1; with labels doubled at first; twice.
    (&["F0 0700 0300", "0A 0100", "08 0100", "0A 0100"], &[1, 1, 0], &["F0 0700 0100", "0A 0100"]),
    (
        &["F0 0700 0500", "0A 0100", "0A 0100", "08 0100", "0A 0100", "0A 0100"],
        &[3, 1, 0],
        &["F0 0700 0100", "0A 0100"],
    ),
    (
        &["F0 0700 0500", "0A 0100", "08 0100", "0A 0100", "08 0100", "0A 0100"],
        &[2, 2, 0],
        &["F0 0700 0100", "0A 0100"],
    ),
    // Both in one function.
    (
        &["F0 0700 0500", "2B 0100 05", "13 0100 0100 0100", "0A 0100", "08 0100", "0A 0100"],
        &[2, 2, 0],
        &["F0 0700 0200", "2B 0100 0A", "0A 0100"],
    ),
    // A chain of three; a load behind the fold, which isn't beside the first yet.
    (
        &[
            "F0 0700 0400",
            "2B 0100 05",
            "13 0100 0100 0100",
            "13 0100 0100 0100",
            "13 0100 0100 0100",
        ],
        &[3, 3, 0],
        &["F0 0700 0100", "2B 0100 28"],
    ),
    (
        &["F0 0700 0300", "2B 0100 05", "13 0100 0100 0100", "2B 0100 07"],
        &[1, 2, 0],
        &["F0 0700 0100", "2B 0100 07"],
    ),
    // A result of another kind, by CmpEq; NaN, of infinity less itself; a product has no payload.
    (
        &["F0 0700 0200", "2B 0100 05", "19 0100 0100 0100"],
        &[1, 1, 0],
        &["F0 0700 0100", "28 0100 01"],
    ),
    (
        &["F0 0700 0200", "29 0100 000000000000F07F", "4E 0100 0100 0100"],
        &[1, 1, 0],
        &["F0 0700 0100", "29 0100 000000000000F87F"],
    ),
    (
        &["F0 0700 0200", "29 0100 230100000000F8FF", "3A 0100 0100 0100"],
        &[1, 1, 0],
        &["F0 0700 0100", "29 0100 000000000000F87F"],
    ),
    // A load of a NaN keeps its bits in every round.
    (
        &["F0 0700 0300", "29 0200 230100000000F8FF", "2B 0100 05", "13 0100 0100 0100"],
        &[1, 1, 0],
        &["F0 0700 0200", "29 0200 230100000000F8FF", "2B 0100 0A"],
    ),
    // LoadU32 stays; registers 256 apart are two; a label lies between.
    (
        &["F0 0700 0200", "2E 0100 03", "1E 0100 0100 0100"],
        &[1, 0],
        &["F0 0700 0200", "2E 0100 03", "2E 0100 06"],
    ),
    (
        &["F0 0700 0200", "2B 0100 05", "13 0101 0100 0100"],
        &[1, 0],
        &["F0 0700 0200", "2B 0100 05", "2B 0101 0A"],
    ),
    (
        &["F0 0700 0300", "2B 0100 05", "0A 0100", "2B 0100 06"],
        &[0],
        &["F0 0700 0300", "2B 0100 05", "0A 0100", "2B 0100 06"],
    ),
    // Three functions: two rounds, three, one; the events stay.
    (
        &[
            "F0 0700 0200 0100",
            "2B 0100 05",
            "2B 0100 06",
            "00",
            "F0 0800 0200 0100",
            "2B 0100 05",
            "13 0100 0100 0100",
            "00",
            "F0 0900 0100",
            "0C 00",
        ],
        &[2, 1, 0],
        &[
            "F0 0700 0100 0100",
            "2B 0100 06",
            "00",
            "F0 0800 0100 0100",
            "2B 0100 0A",
            "00",
            "F0 0900 0100",
            "0C 00",
        ],
    ),
    // QTruthNot of a known quad is left in every round.
    (
        &["F0 0700 0300", "2C 0100 02", "43 0100 0100", "19 0200 0100 0100"],
        &[0],
        &["F0 0700 0300", "2C 0100 02", "43 0100 0100", "19 0200 0100 0100"],
    ),
];

#[test]
fn rounds_by_hand() {
    for (sent, counts, resting) in ROWS {
        let (sent, resting) = (image(sent), image(resting));
        let sum = counts.iter().sum();
        let success = Success { length: resting.len(), num_rewrites: sum, changed: sum > 0 };
        let rested = model::rested(&sent);
        assert_eq!(rested.counts, counts, "{}", compare::hexadecimal(&sent));
        assert!(rested.bytes == resting && rested.success == success);
        // The original's are the same.
        let expected = compare::expected(&sent).unwrap();
        assert_eq!(expected.rested(), Some(&rested));
        // In an output as long as the image, longer, and shorter though the result would fit.
        for more in [0, 1, 40] {
            let mut out = vec![0xA7; sent.len() + more];
            assert_eq!(Model.rest(&sent, &mut out), Ok(success));
            assert_eq!(out[..resting.len()], resting);
            assert!(out[resting.len()..].iter().all(|byte| *byte == 0xA7));
        }
        for lent in (0..sent.len()).rev().step_by(7) {
            let mut out = vec![0xA7; lent];
            assert_eq!(Model.rest(&sent, &mut out), Err(refused(5)));
            assert!(out.iter().all(|byte| *byte == 0xA7));
        }
        // What rests takes one round.
        assert_eq!(model::rested(&resting).counts, [0]);
        let text = program::text(Operation::Rest, &sent).unwrap();
        assert!(text.ends_with(&format!("rewrites {sum}\n")), "{text}");
    }
}

/// What each round writes.
#[test]
fn each_round_by_hand() {
    let sent = image(&["F0 0700 0200", "2B 0100 05", "13 0100 0100 0100"]);
    let first = image(&["F0 0700 0200", "2B 0100 05", "2B 0100 0A"]);
    let second = image(&["F0 0700 0100", "2B 0100 0A"]);
    assert_eq!(rewritten(&sent), (first.clone(), 1));
    assert_eq!(rewritten(&first), (second.clone(), 1));
    assert_eq!(rewritten(&second), (second, 0));
}

/// It refuses as the default rewrite does: by the length, then 5, then the cells, then the sites.
#[test]
fn refusals_by_hand() {
    let refused = |number, position, detail| Err(Refusal { number, position, detail });
    let load = ["F0 0700 0200", "2B 0100 05", "13 0100 0100 0100"];
    let sites = image(&["F0 0000 01", "32 0100 0900 0800 01 05000000"]);
    let behind = [image(&load), sites.clone()].concat();
    let rows = [
        (vec![0xF0; 17], refused(1, 0, 0), refused(1, 0, 0)),
        (image(&["F1"]), refused(2, 0, 0), refused(5, 0, 0)),
        (image(&["F0", "F0 0000 01", "52"]), refused(3, 1, 2), refused(5, 0, 0)),
        (image(&["F0", "F0 0000 01", "01 0004"]), refused(4, 1, 2), refused(5, 0, 0)),
        (sites, refused(24, 0, 5), refused(5, 0, 0)),
        (behind, refused(24, 1, 5), refused(5, 0, 0)),
        // What would go with a round is looked at all the same.
        (
            image(&["F0 0000 02", "0C 00", "32 0100 0900 0800 01 05000000"]),
            refused(24, 0, 5),
            refused(5, 0, 0),
        ),
    ];
    for (image, refusal, shorter) in rows {
        for (lent, refusal) in [(image.len(), refusal), (100, refusal), (image.len() - 1, shorter)]
        {
            let mut out = vec![0xA7; lent];
            assert_eq!(Model.rest(&image, &mut out), refusal);
            assert!(out.iter().all(|byte| *byte == 0xA7));
        }
    }
}

/// Of two images joined each round has the sum of both counts.
#[test]
fn joined_by_hand() {
    let part = |at: usize| Part::new(&image(ROWS[at].0)).unwrap();
    // Nothing to do; the printed example; document 02's.
    let [resting, two, three] = [3, 4, 8].map(part);
    let rows: [(&Part, &Part, &[u32]); 5] = [
        (&resting, &resting, &[0]),
        (&resting, &two, &[1, 0]),
        (&two, &three, &[2, 1, 0]),
        (&three, &resting, &[1, 1, 0]),
        (&three, &three, &[2, 2, 0]),
    ];
    for (first, second, counts) in rows {
        let joined = joined::joined(first, second).unwrap();
        let rested = joined.expected.rested().unwrap();
        assert_eq!(rested.counts, counts);
        let [one, other] = [first, second].map(|part| &part.expected.rested().unwrap().bytes[..]);
        assert_eq!(rested.bytes, [one, other].concat());
        assert!(joined::check_original(&joined).is_ok());
        assert_eq!(model::rested(&joined.image), *rested);
    }
    // The original's answers to another image, with a round more or with other counts, are told apart.
    for (first, second) in [(&two, &three), (&two, &two), (&resting, &two)] {
        let joined = joined::joined(first, second).unwrap();
        let other = [&first.image[..], &three.image].concat();
        let same = joined.image == other;
        assert_eq!(joined::check_original(&Part { image: other, ..joined }).is_ok(), same);
    }
}

// ---- Records ----

/// Register 1 is stored and returned.
fn stored(cells: &[Cell]) -> Vec<Cell> {
    [cells, &[store_var(1, None, None), ret(Some(1))]].concat()
}

/// The sent function's record is that of what rests, and not of wrong ones.
#[test]
fn records_of_what_rests() {
    let registers = any_registers(&mut Random::new(1), 0);
    let outside = Outside { seed: 1, stops: 0, misfits: 0 };
    let add = computed(byte::AddI32, 1, 1, 1);
    let sent = stored(&[load_i32(1, 5), add, add]);
    let sent_image = one_function(&sent, &[]);
    let right = stored(&[load_i32(1, 20)]);
    assert_eq!(model::rested(&sent_image).bytes, one_function(&right, &[]));
    let keeps = |returned: &[Cell]| claims(&sent, returned, &registers, outside, 40).is_ok();
    assert!(keeps(&right));
    // The load that goes, an earlier sum, none.
    for wrong in [&[load_i32(1, 5)][..], &[load_i32(1, 10)], &[]] {
        assert!(!keeps(&stored(wrong)));
    }
    // More steps than were sent.
    assert!(!keeps(&stored(&[load_i32(1, 5), load_i32(1, 5), load_i32(1, 10), load_i32(1, 20)])));
    // What round one returns and what rests are run.
    let part = Part::new(&sent_image).unwrap();
    assert_eq!(records(&part, &mut Random::new(1), 3).unwrap().0, 6);
}

// ---- The program's word ----

type Says = fn(Said, &[u8]) -> Said;

fn text(operation: Operation, input: &[u8]) -> Said {
    program::said(Text::Rewritten(operation), input).unwrap()
}

/// Programs that say something else.
const WRONG_WORDS: [(&str, Says); 4] = [
    ("the default rewrite", |_, input| text(Operation::Rewrite, input)),
    ("the fuller rewrite", |_, input| text(Operation::Fuller, input)),
    ("the last round's count", |said, _| {
        let output = String::from_utf8(said.output).unwrap();
        let output = match output.rsplit_once("rewrites ") {
            Some((cells, _)) => format!("{cells}rewrites 0\n"),
            None => output,
        };
        Said { output: output.into(), error: said.error }
    }),
    ("a refusal on standard error", |said, _| match said.output.starts_with(b"refused") {
        true => Said { output: said.error, error: said.output },
        false => said,
    }),
];

#[test]
fn every_wrong_word_is_found() {
    let images = random_images(100);
    let rest = Text::Rewritten(Operation::Rest);
    let check = |says: Says, input: &[u8]| {
        program::check_by(
            rest,
            "wrong",
            |input| Ok(says(program::said(rest, input)?, input)),
            input,
        )
    };
    for (name, says) in WRONG_WORDS {
        let found = images.iter().find_map(|part| check(says, &part.image).err());
        println!("{name}: {}", found.unwrap_or_else(|| panic!("{name}")));
    }
    assert!(images.iter().all(|part| check(|said, _| said, &part.image).is_ok()));
}

#[test]
fn the_word_by_hand() {
    let sent = image(&["F0 0700 0200", "2B 0100 05", "13 0100 0100 0100"]);
    let lines = ["F0070001000000000000000000000000", "2B01000A000000000000000000000000"];
    let said = program::text(Operation::Rest, &sent).unwrap();
    assert_eq!(said, format!("{}\nrewrites 2\n", lines.join("\n")));
    assert_eq!(program::text(Operation::Rest, &sent[1..]).unwrap(), "refused 1 0 0\n");
    assert_eq!(program::text(Operation::Rest, &[]).unwrap(), "rewrites 0\n");
}
