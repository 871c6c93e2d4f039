//! Shows that the harness finds wrong sealing checks (document 02, W13), and other operations that
//! refuse what only this one does; and holds the model's answers against rows written out by hand.

#[macro_use]
mod common;

use common::image;
use differential::answers::{
    Checked, Operation, Operations, Refusal, Reply, Rewritten, OPERATIONS,
};
use differential::cells::{self, Cell, CELL};
use differential::compare;
use differential::driver::{self, Groups};
use differential::factors::Leaf;
use differential::generate;
use differential::joined::{self, Part};
use differential::legacy_lowering::byte;
use differential::model::{self, Model};
use differential::numbered;
use differential::original;
use differential::packed;
use differential::program::{self, Said, Text};
use differential::random::Random;
use differential::sealing::{self, Numbers, CASES};
use std::collections::HashMap;

/// A program that answers as the model does but for one fault in its sealing check, or in another
/// operation that seals.
#[derive(Debug, Clone, Copy, PartialEq)]
struct Wrong(Fault);

faults! {
    // What comes first.
    WritesBeforeActivations,
    FunctionBeforeKind,
    CommandBeforeKind,
    LastFunctionFirst,
    /// Of the pairs, the one whose earlier function comes first.
    EarlierFunctionDecides,
    EarlierNumberDecides,
    LeastNumber,
    GreatestNumber,
    LeastNumberOfAll,
    LastInInstructionOrder,
    FirstInEventOrder,
    LastInEventOrder,
    FirstOfTheEarlierFunction,
    // The position.
    PositionOfTheFirstHolder,
    PositionOfTheLastHolder,
    PositionWithoutEmptyFunctions,
    PositionWithoutUnnumbered,
    PositionFromOne,
    PositionForgotten,
    PositionIsTheCell,
    PositionIsTheHead,
    PositionIsTheName,
    PositionInAByte,
    PositionFromTheHolder,
    // The detail.
    DetailForgotten,
    DetailIsTheFirstNumber,
    DetailIsTheCell,
    DetailIsTheInstruction,
    DetailIsTheHolder,
    DetailOfTheOtherKind,
    DetailTurnedRound,
    DetailInTwoBytes,
    PositionAndDetailExchanged,
    // The number.
    ThirtyFourForWrites,
    ThirtyFiveForActivations,
    ThirtyFourAndThirtyFiveExchanged,
    AsWithinAFunction,
    // Which functions are looked at.
    OnlyTheFunctionBefore,
    OnlyTheNumberedFunctionBefore,
    OnlyTheFirstFunction,
    OnlyTheFirstNumberedFunction,
    OnlyTwoFunctions,
    OnlyManyFunctionsBack,
    LastFunctionLeftOut,
    FirstFunctionLeftOut,
    ForgetsAtAnEmptyFunction,
    ForgetsAtAnUnnumberedFunction,
    SameNameIsOneFunction,
    OnlyTheSameName,
    Only1024Functions,
    // Which numbers are looked at.
    ActivationsIgnored,
    WritesIgnored,
    MakeRecordsIgnored,
    LaterMakeRecordsIgnored,
    EarlierMakeRecordsIgnored,
    StoreVarWritesIgnored,
    UnreachableIgnored,
    LaterUnreachableIgnored,
    EarlierUnreachableIgnored,
    WriteOnlyWithoutActivation,
    ActivationOnlyWithoutWrite,
    WritesOnlyWithoutActivations,
    OnlyTheFirstIsCompared,
    OnlyTheFirstIsHeld,
    OnlyTheLastIsHeld,
    Only256Compared,
    Only1024Held,
    ZeroPassedOver,
    GreatestPassedOver,
    NegativePassedOver,
    AbsentIsZero,
    EventsCounted,
    // When two are the same.
    OneSpace,
    MakeRecordsAreActivations,
    SitesExchanged,
    SameCommandOnly,
    ByTheLowByte,
    ByTwoBytes,
    ByThreeBytes,
    ByTheHighBytes,
    WithoutTheSign,
    ByTheSum,
    // What is checked before.
    AcceptsEverything,
    AcceptsWhatTheSiteCheckDoes,
    AcceptsABadImage,
    AcceptsABadLength,
    RefusesEverything,
    RefusesSeveralNumbered,
    RefusesMany,
    SitesUnchecked,
    SitesLast,
    WithinAFunctionToo,
    ThirtyFourBeforeLaterSites,
    BothBeforeLaterSites,
    BothBeforeLaterCells,
    ThirtyFourBeforeWriteSites,
    SiteWithoutItsPosition,
    SiteWithoutItsDetail,
    // Other operations that refuse what the sealing check does.
    SiteCheckSeals,
    CleanupSeals,
    CrystalFoldSeals,
    RewriteSeals,
    FullerSeals,
    RestSeals,
    PagesSeal,
    PackSeals,
    UnpackSeals;
    // Not among them.
    NoFault,
}
use Fault::*;

// ---- Numbers ----

#[derive(Debug, Clone, Copy, PartialEq, Eq, PartialOrd, Ord, Hash)]
enum Kind {
    Activation,
    Write,
}
use Kind::{Activation, Write};

/// A number on a command.
#[derive(Debug, Clone, Copy)]
struct Number {
    kind: Kind,
    number: u32,
    /// That of the other kind on the same command.
    other: Option<u32>,
    function: usize,
    /// The command's cell in the image, and its place in the function.
    cell: usize,
    instruction: usize,
    /// The place among its function's numbers of the kind, and how many there are.
    index: usize,
    of: usize,
    /// The place of its first event among its function's.
    event: usize,
    command: u8,
    reached: bool,
}

/// Both numbers of a command, as a fault reads them.
fn read(fault: Fault, cell: &Cell) -> [Option<u32>; 2] {
    let site = |at| match (fault, cells::site(cell, at)) {
        (AbsentIsZero, None) => Some(0),
        (_, site) => site,
    };
    match (fault, cell[0]) {
        (SitesExchanged, byte::StoreVar) => [site(10), site(5)],
        (_, byte::StoreVar) => [site(5), site(10)],
        (MakeRecordsAreActivations, byte::MakeRecord) => [site(7), None],
        (_, byte::MakeRecord) => [None, site(7)],
        _ => [None, None],
    }
}

/// A function of an image, its place and its head's cell.
struct Placed<'a> {
    place: usize,
    head: usize,
    function: cells::Function<'a>,
    numbers: Vec<Number>,
}

fn placed(fault: Fault, image: &[u8]) -> Vec<Placed<'_>> {
    let mut next = 0;
    let functions = cells::functions(image).enumerate().map(|(place, function)| {
        let head = next;
        next += 1 + function.instrs.len() + function.events.len();
        Placed { place, head, function, numbers: numbers(fault, place, head, &function) }
    });
    functions.collect()
}

fn numbers(fault: Fault, place: usize, head: usize, function: &cells::Function) -> Vec<Number> {
    let sites = [cells::EVENT_ACTIVATION_SITE, cells::EVENT_WRITE_SITE];
    // The first event of each kind and number.
    let mut events = HashMap::new();
    for (at, event) in function.events.iter().enumerate() {
        for (kind, site) in sites.iter().enumerate() {
            events.entry((kind, cells::site(event, *site))).or_insert(at);
        }
    }
    let mut numbers: Vec<Number> = Vec::new();
    let mut counts = [0; 2];
    let mut reached = true;
    for (instruction, command) in function.instrs.iter().enumerate() {
        reached |= command[0] == byte::Label;
        let both = read(fault, command);
        for (at, kind) in [Activation, Write].into_iter().enumerate() {
            let Some(number) = both[at] else {
                continue;
            };
            numbers.push(Number {
                kind,
                number,
                other: both[1 - at],
                function: place,
                cell: head + 1 + instruction,
                instruction,
                index: counts[at],
                of: 0,
                event: events.get(&(at, Some(number))).copied().unwrap_or(usize::MAX),
                command: command[0],
                reached,
            });
            counts[at] += 1;
        }
        reached &= ![byte::Ret, byte::Jmp].contains(&command[0]);
    }
    for number in &mut numbers {
        number.of = counts[number.kind as usize];
    }
    numbers
}

/// Numbers with the same key are the same; one without is passed over.
fn key(fault: Fault, it: &Number) -> Option<(Kind, u32, u8)> {
    let Number { kind, number, other, command, reached, .. } = *it;
    let passed = match fault {
        ActivationsIgnored => kind == Activation,
        WritesIgnored => kind == Write,
        MakeRecordsIgnored => command == byte::MakeRecord,
        StoreVarWritesIgnored => kind == Write && command == byte::StoreVar,
        UnreachableIgnored => !reached,
        WriteOnlyWithoutActivation => kind == Write && other.is_some(),
        ActivationOnlyWithoutWrite => kind == Activation && other.is_some(),
        ZeroPassedOver => number == 0,
        GreatestPassedOver => number == u32::MAX,
        NegativePassedOver => number as i32 <= -2,
        _ => false,
    };
    let number = match fault {
        ByTheLowByte => number & 0xFF,
        ByTwoBytes => number & 0xFFFF,
        ByThreeBytes => number & 0xFF_FFFF,
        ByTheHighBytes => number >> 16,
        WithoutTheSign => number & 0x7FFF_FFFF,
        ByTheSum => number.to_le_bytes().iter().map(|byte| *byte as u32).sum(),
        _ => number,
    };
    let kind = if fault == OneSpace { Activation } else { kind };
    let command = if fault == SameCommandOnly { command } else { 0 };
    (!passed).then_some((kind, number, command))
}

/// A fault looks at a later number, and at an earlier one for it.
fn looks(fault: Fault, functions: &[Placed], earlier: &Number, later: &Number) -> bool {
    let between = &functions[earlier.function + 1..later.function.max(earlier.function + 1)];
    let numbered = |it: &Placed| it.numbers.iter().any(|number| number.kind == later.kind);
    let before = &functions[..later.function];
    let name = |number: &Number| functions[number.function].function.name;
    earlier.function < later.function
        && match fault {
            OnlyTheFunctionBefore => between.is_empty(),
            OnlyTheNumberedFunctionBefore => !between.iter().any(numbered),
            OnlyTheFirstFunction => earlier.function == 0,
            OnlyTheFirstNumberedFunction => !before[..earlier.function].iter().any(numbered),
            OnlyTwoFunctions => later.function == 1,
            OnlyManyFunctionsBack => !between.is_empty(),
            LastFunctionLeftOut => later.function + 1 < functions.len(),
            FirstFunctionLeftOut => earlier.function > 0,
            ForgetsAtAnEmptyFunction => between
                .iter()
                .all(|it| !it.function.instrs.is_empty() || !it.function.events.is_empty()),
            ForgetsAtAnUnnumberedFunction => between.iter().all(numbered),
            SameNameIsOneFunction => name(earlier) != name(later),
            OnlyTheSameName => name(earlier) == name(later),
            Only1024Functions => later.function < 1024,
            LaterMakeRecordsIgnored => later.command != byte::MakeRecord,
            EarlierMakeRecordsIgnored => earlier.command != byte::MakeRecord,
            LaterUnreachableIgnored => later.reached,
            EarlierUnreachableIgnored => earlier.reached,
            OnlyTheFirstIsCompared => later.index == 0,
            OnlyTheFirstIsHeld => earlier.index == 0,
            OnlyTheLastIsHeld => earlier.index + 1 == earlier.of,
            Only256Compared => later.index < 256,
            Only1024Held => {
                let before = functions[..earlier.function].iter().flat_map(|it| &it.numbers);
                let before = before.filter(|number| number.kind == earlier.kind).count();
                before + earlier.index < 1024
            }
            _ => true,
        }
}

/// A number, and those of earlier functions that are the same.
struct Repeat {
    later: Number,
    holders: Vec<Number>,
}

/// What comes first by a fault has the least.
fn rank(fault: Fault, repeat: &Repeat) -> [i64; 4] {
    let Repeat { later, holders } = repeat;
    let (kind, function, cell) = (later.kind as i64, later.function as i64, later.cell as i64);
    let (number, event) = (later.number as i64, later.event as i64);
    let holder = &holders[0];
    let (holder_function, holder_cell) = (holder.function as i64, holder.cell as i64);
    match fault {
        WritesBeforeActivations => [-kind, function, cell, 0],
        FunctionBeforeKind => [function, kind, cell, 0],
        CommandBeforeKind => [function, cell, kind, 0],
        LastFunctionFirst => [kind, -function, cell, 0],
        EarlierFunctionDecides => [kind, holder_function, function, cell],
        EarlierNumberDecides => [kind, holder_cell, function, cell],
        LeastNumber => [kind, function, number, 0],
        GreatestNumber => [kind, function, -number, 0],
        LeastNumberOfAll => [kind, number, function, 0],
        LastInInstructionOrder => [kind, function, -cell, 0],
        FirstInEventOrder => [kind, function, event, 0],
        LastInEventOrder => [kind, function, -event, 0],
        FirstOfTheEarlierFunction => [kind, function, holder_cell, 0],
        _ => [kind, function, cell, 0],
    }
}

/// 34 and 35 of an image that passes the image check.
fn across(fault: Fault, image: &[u8]) -> Checked {
    let functions = placed(fault, image);
    let mut held: HashMap<_, Vec<Number>> = HashMap::new();
    let mut repeats = Vec::new();
    for later in functions.iter().flat_map(|it| &it.numbers) {
        let Some(key) = key(fault, later) else {
            continue;
        };
        let holders = held.entry(key).or_default();
        let found = holders.iter().filter(|earlier| looks(fault, &functions, earlier, later));
        let found: Vec<Number> = found.copied().collect();
        if !found.is_empty() {
            repeats.push(Repeat { later: *later, holders: found });
        }
        holders.push(*later);
    }
    let activations = functions.iter().flat_map(|it| &it.numbers).any(|it| it.kind == Activation);
    if fault == WritesOnlyWithoutActivations && activations {
        repeats.retain(|repeat| repeat.later.kind == Activation);
    }
    match repeats.iter().min_by_key(|repeat| rank(fault, repeat)) {
        Some(repeat) => Err(refusal(fault, &functions, repeat)),
        None => Ok(()),
    }
}

fn refusal(fault: Fault, functions: &[Placed], repeat: &Repeat) -> Refusal {
    let Repeat { later, holders } = repeat;
    let here = &functions[later.function];
    let before = functions[..later.function].iter();
    let without = |leaves_out: fn(&Placed) -> bool| {
        before.clone().filter(|placed| !leaves_out(placed)).count()
    };
    let position = match fault {
        PositionOfTheFirstHolder => holders[0].function,
        PositionOfTheLastHolder => holders[holders.len() - 1].function,
        PositionWithoutEmptyFunctions => {
            without(|it| it.function.instrs.is_empty() && it.function.events.is_empty())
        }
        PositionWithoutUnnumbered => without(|it| it.numbers.is_empty()),
        PositionFromOne => here.place + 1,
        PositionForgotten => 0,
        PositionIsTheCell => later.cell,
        PositionIsTheHead => here.head,
        PositionIsTheName => here.function.name as usize,
        PositionInAByte => here.place % 256,
        PositionFromTheHolder => here.place - holders[0].function,
        PositionAndDetailExchanged => later.number as usize,
        _ => here.place,
    };
    let detail = match fault {
        DetailForgotten => 0,
        DetailIsTheFirstNumber => {
            here.numbers.iter().find(|number| number.kind == later.kind).unwrap().number
        }
        DetailIsTheCell => later.cell as u32,
        DetailIsTheInstruction => later.instruction as u32,
        DetailIsTheHolder => holders[0].function as u32,
        DetailOfTheOtherKind => later.other.unwrap_or(later.number),
        DetailTurnedRound => later.number.swap_bytes(),
        DetailInTwoBytes => later.number & 0xFFFF,
        PositionAndDetailExchanged => here.place as u32,
        _ => later.number,
    };
    let number = match (fault, later.kind) {
        (ThirtyFourForWrites, _) => 34,
        (ThirtyFiveForActivations, _) => 35,
        (ThirtyFourAndThirtyFiveExchanged, Activation) => 35,
        (ThirtyFourAndThirtyFiveExchanged, Write) => 34,
        (AsWithinAFunction, Activation) => 11,
        (AsWithinAFunction, Write) => 21,
        (_, Activation) => 34,
        (_, Write) => 35,
    };
    Refusal { number, position: position as u32, detail }
}

// ---- Answers ----

fn refused<T>(number: u8, position: u32, detail: u32) -> Result<T, Refusal> {
    Err(Refusal { number, position, detail })
}

/// The functions before one, of an image that is good as far as they go.
fn before(image: &[u8], position: u32) -> &[u8] {
    let mut end = 0;
    for _ in 0..position {
        let head = &cells::cells(&image[end..])[0];
        end += CELL * (1 + cells::half(head, 3) as usize + cells::half(head, 5) as usize);
    }
    &image[..end]
}

fn answer(fault: Fault, image: &[u8]) -> Checked {
    let cells = model::image_check(image);
    match (fault, model::site_check(image)) {
        (AcceptsEverything, _) => return Ok(()),
        (RefusesEverything, _) => return refused(34, 0, 0),
        (AcceptsWhatTheSiteCheckDoes, sites) => return sites,
        (AcceptsABadImage, Err(_)) if cells.is_err() => return Ok(()),
        (AcceptsABadLength, Err(Refusal { number: 1, .. })) => return Ok(()),
        (SitesUnchecked, Err(_)) if cells.is_ok() => {}
        (SitesLast, Err(refusal)) if cells.is_ok() => {
            return across(fault, image).and(Err(refusal));
        }
        (WithinAFunctionToo, Err(Refusal { number: number @ (11 | 21), position, detail })) => {
            return refused(if number == 11 { 34 } else { 35 }, position, detail);
        }
        (ThirtyFourBeforeWriteSites, Err(refusal)) if refusal.number > 20 => {
            let sites = cells::alone(image).map(|function| model::site_check(function).err());
            let activation = |refusal: Refusal| refusal.number < 20;
            return match across(fault, image) {
                Err(across) if across.number == 34 && !sites.flatten().any(activation) => {
                    Err(across)
                }
                _ => Err(refusal),
            };
        }
        (_, Err(refusal)) => {
            let Refusal { number, position, .. } = refusal;
            let earlier = || sealing::check(before(image, position));
            let thirty = |last| matches!(earlier(), Err(it) if (34..=last).contains(&it.number));
            return match fault {
                ThirtyFourBeforeLaterSites if number > 4 && thirty(34) => earlier(),
                BothBeforeLaterSites if number > 4 && thirty(35) => earlier(),
                BothBeforeLaterCells if (2..=4).contains(&number) && thirty(35) => earlier(),
                SiteWithoutItsPosition if number > 4 => Err(Refusal { position: 0, ..refusal }),
                SiteWithoutItsDetail if number > 4 => Err(Refusal { detail: 0, ..refusal }),
                _ => Err(refusal),
            };
        }
        (_, Ok(())) => {}
    }
    across(fault, image)?;
    let functions = placed(fault, image);
    let numbered = functions.iter().filter(|it| !it.numbers.is_empty());
    match fault {
        RefusesSeveralNumbered => match numbered.clone().nth(1) {
            Some(second) => refused(34, second.place as u32, second.numbers[0].number),
            None => Ok(()),
        },
        RefusesMany if numbered.flat_map(|it| &it.numbers).count() > 1024 => refused(34, 0, 0),
        EventsCounted => match functions.iter().find_map(|it| twice(it).map(|site| (it, site))) {
            Some((it, site)) => refused(35, it.place as u32, site),
            None => Ok(()),
        },
        _ => Ok(()),
    }
}

/// The first write number that two events of a function have.
fn twice(placed: &Placed) -> Option<u32> {
    let site = |event: &Cell| cells::site(event, cells::EVENT_WRITE_SITE);
    let sites: Vec<u32> = placed.function.events.iter().filter_map(site).collect();
    let again = |(at, site): (usize, &u32)| sites[..at].contains(site).then_some(*site);
    sites.iter().enumerate().find_map(again)
}

impl Wrong {
    /// 34 or 35, if an operation has the fault that it refuses so.
    fn seals(&self, fault: Fault, image: &[u8]) -> Checked {
        match self.0 == fault && model::site_check(image).is_ok() {
            true => sealing::check(image),
            false => Ok(()),
        }
    }

    fn written(
        &self,
        fault: Fault,
        operation: Operation,
        image: &[u8],
        out: &mut [u8],
    ) -> Rewritten {
        if out.len() >= image.len() {
            self.seals(fault, image)?;
        }
        Model.run(operation, image, out)
    }
}

impl Operations for Wrong {
    fn name(&self) -> &'static str {
        "wrong"
    }
    fn image_check(&self, image: &[u8]) -> Checked {
        Model.image_check(image)
    }
    fn site_check(&self, image: &[u8]) -> Checked {
        self.seals(SiteCheckSeals, image)?;
        Model.site_check(image)
    }
    fn sealing_check(&self, image: &[u8]) -> Checked {
        answer(self.0, image)
    }
    fn cleanup(&self, image: &[u8], out: &mut [u8]) -> Rewritten {
        self.written(CleanupSeals, Operation::Cleanup, image, out)
    }
    fn crystalfold(&self, image: &[u8], out: &mut [u8]) -> Rewritten {
        self.written(CrystalFoldSeals, Operation::CrystalFold, image, out)
    }
    fn rewrite(&self, image: &[u8], out: &mut [u8]) -> Rewritten {
        self.written(RewriteSeals, Operation::Rewrite, image, out)
    }
    fn fuller(&self, image: &[u8], out: &mut [u8]) -> Rewritten {
        self.written(FullerSeals, Operation::Fuller, image, out)
    }
    fn rest(&self, image: &[u8], out: &mut [u8]) -> Rewritten {
        self.written(RestSeals, Operation::Rest, image, out)
    }
    fn pages(&self, image: &[u8], out: &mut [u8]) -> Reply {
        match self.seals(PagesSeal, image) {
            Ok(()) => Model.pages(image, out),
            Err(refusal) => refusal.into(),
        }
    }
    fn pack(&self, image: &[u8], out: &mut [u8]) -> Reply {
        match self.seals(PackSeals, image) {
            Ok(()) => Model.pack(image, out),
            Err(refusal) => refusal.into(),
        }
    }
    fn unpack(&self, form: &[u8], out: &mut [u8]) -> Reply {
        match packed::unpack(form).map(|image| self.seals(UnpackSeals, &image)) {
            Ok(Err(refusal)) => refusal.into(),
            _ => Model.unpack(form, out),
        }
    }
    releases_of_the_model!();
    fn factor(&self, leaf: Leaf, wanted: i32, factor: i32, other: &mut i32) -> usize {
        Model.factor(leaf, wanted, factor, other)
    }
}

/// How a difference in the operation that has the fault begins.
fn operation(fault: Fault) -> &'static str {
    match fault {
        SiteCheckSeals => "site check",
        CleanupSeals => "Cleanup, answer",
        CrystalFoldSeals => "CrystalFold, answer",
        RewriteSeals => "Rewrite, answer",
        FullerSeals => "Fuller by the original, answer",
        RestSeals => "Rest, answer",
        PagesSeal => "Pages, answer",
        PackSeals => "Pack, answer",
        UnpackSeals => "Unpack, ",
        _ => "sealing check",
    }
}

// ---- What is found ----

/// The exhaustive groups find each, and show it by few cells.
#[test]
fn every_wrong_sealing_check_is_found() {
    let groups: Vec<&str> = generate::numbers().iter().map(|group| group.name).collect();
    for &fault in FAULTS {
        let outcome = driver::compare(Groups::Numbers, &[&Wrong(fault)], 1, 0, 1);
        let found = outcome.found.unwrap_or_else(|| panic!("{fault:?} isn't found"));
        let what = &found.difference.what;
        let cells = found.images.concat().len().div_ceil(CELL);
        println!("{fault:?}: {}: {what}, {cells} cells, {:?}", found.group, found.lent);
        assert!(what.starts_with(operation(fault)), "{fault:?}: {what}");
        assert!(groups.contains(&found.group), "{fault:?}: {}", found.group);
        let most = match fault {
            // These show only in many functions, or in many numbers, which aren't made fewer: none
            // goes without its event.
            PositionInAByte => 774,
            Only1024Functions | Only256Compared | Only1024Held | RefusesMany => {
                cells::MAX_IMAGE / CELL
            }
            _ => 13,
        };
        assert!(cells <= most, "{fault:?} isn't shrunk: {cells} cells");
    }
}

/// A full run has these groups; and two images joined show such faults too.
#[test]
fn among_other_groups() {
    for (groups, fault) in [
        (Groups::All, LeastNumber),
        (Groups::Joined, EarlierUnreachableIgnored),
        (Groups::Joined, PositionFromTheHolder),
        (Groups::Joined, SameCommandOnly),
        (Groups::Joined, SiteCheckSeals),
    ] {
        let outcome = driver::compare(groups, &[&Wrong(fault)], 1, 10, 1);
        let found = outcome.found.unwrap_or_else(|| panic!("{fault:?} isn't found"));
        // By the answer or, if that is right and the other way round isn't, by a law.
        let what = &found.difference.what;
        assert!([operation(fault), "Sealing, "].iter().any(|it| what.starts_with(it)), "{what}");
    }
}

/// Random images, with the answers that they must get.
fn random_images(count: usize) -> Vec<Part> {
    let random = &mut Random::new(1);
    let mut images = Vec::new();
    for at in 0..count {
        images.push(numbered::any_image(random));
        images.push(numbered::any_numbered(random));
        images.push(match at % 20 {
            0 => numbered::any_many(random),
            1 => generate::limit(random),
            2..10 => generate::damaged(random),
            _ => numbered::damaged(random),
        });
    }
    images.iter().map(|image| Part::new(image).unwrap()).collect()
}

/// One is answered otherwise than it must be.
fn shows(images: &[Part], wrong: Wrong) -> bool {
    let differs = |part: &Part| {
        let Part { image, expected } = part;
        let lent = |length| vec![0xA7; length + 2 * compare::GUARD];
        let pages = || expected.check_pages(&wrong, image, &lent(expected.pages_length(image)));
        let pack = || expected.check_pack(&wrong, image, &lent(expected.packed_length(image)));
        let unpack = || {
            let form = expected.packed().map_or(Vec::new(), <[u8]>::to_vec);
            let unpacking = packed::Unpacking::new(form);
            unpacking.check(&wrong, &lent(unpacking.image_length()))
        };
        let checked = expected.check(&wrong, image, image);
        checked.and_then(|()| pages()).and_then(|()| pack()).and_then(|()| unpack()).is_err()
    };
    images.iter().any(differs)
}

/// One breaks a law, whatever the model says; alone, or joined with the next.
fn breaks_laws(images: &[Part], wrong: Wrong) -> bool {
    let alone = |part: &Part| sealing::laws(&wrong, &[&part.image]).is_err();
    let two = |parts: &[Part]| sealing::laws(&wrong, &[&parts[0].image, &parts[1].image]).is_err();
    images.iter().any(alone) || images.windows(2).any(two)
}

/// One is answered otherwise than by the original's validators, of those that they pass.
fn shown_by_the_original(images: &[(&[u8], Checked)], wrong: Wrong) -> bool {
    images.iter().any(|(image, sealed)| wrong.sealing_check(image) != *sealed)
}

/// Random images alone find each of them too; and the laws alone, and the original's validators
/// alone, those that they can.
#[test]
fn by_random_images_alone() {
    let images = random_images(1500);
    let accepted = images.iter().filter(|part| part.expected.accepted());
    let by_original =
        accepted.map(|Part { image, .. }| (&image[..], original::sealing_check(image).unwrap()));
    let by_original: Vec<(&[u8], Checked)> = by_original.collect();
    let right = Wrong(NoFault);
    assert!(!shows(&images, right) && !breaks_laws(&images, right));
    assert!(!shown_by_the_original(&by_original, right));
    let (mut laws, mut original) = (Vec::new(), Vec::new());
    for &fault in FAULTS {
        let wrong = Wrong(fault);
        assert!(shows(&images, wrong), "{fault:?}");
        laws.extend(breaks_laws(&images, wrong).then_some(fault));
        original.extend(shown_by_the_original(&by_original, wrong).then_some(fault));
    }
    println!("{} of {} by laws: {laws:?}", laws.len(), FAULTS.len());
    println!("{} by the original's validators: {original:?}", original.len());
    assert!(laws.len() >= 60, "{}", laws.len());
    assert!(original.len() >= 80, "{}", original.len());
}

/// Wrong programs are wrong by their fault alone; and each case comes up often, in the groups and in
/// random images of any functions.
#[test]
fn no_fault_is_right() {
    let outcome = driver::compare(Groups::Numbers, &[&Wrong(NoFault), &Model], 1, 10, 1);
    assert!(outcome.found.is_none());
    println!("{:?}, gone {}", outcome.sealings.cases, outcome.sealings.gone);
    assert!(outcome.sealings.cases.iter().all(|count| *count >= 100));
    assert!(outcome.sealings.gone >= 100, "{}", outcome.sealings.gone);
    for (what, make, least) in [
        ("random", numbered::any_image as fn(&mut Random) -> Vec<u8>, 10),
        ("numbered", numbered::any_numbered, 30),
    ] {
        let random = &mut Random::new(1);
        let parts = (0..3000).map(|_| Part::new(&make(random)).unwrap());
        let numbers: Vec<Numbers> =
            parts.filter_map(|part| part.expected.numbers().cloned()).collect();
        for (name, case) in CASES {
            let count = numbers.iter().filter(|numbers| case(numbers)).count();
            println!("{what}: {name}: {count}");
            assert!(count >= least, "{what}: {name}: {count}");
        }
    }
}

#[cfg(feature = "library")]
#[test]
fn the_library() {
    let outcome = driver::compare(Groups::Numbers, &[&differential::library::Library], 2, 20, 1);
    assert!(outcome.found.is_none());
    println!("{:?}, gone {}", outcome.sealings.cases, outcome.sealings.gone);
}

/// These aren't wrong: nested loops over the numbers of each function; the numbers sorted; all
/// functions taken as one, whose site check finds the first that is on two commands.
#[test]
fn other_ways_to_the_same() {
    let groups = generate::numbers();
    let exhaustive = groups.iter().flat_map(|group| (0..group.count).step_by(5).map(&group.image));
    let random = random_images(300).into_iter().map(|part| part.image);
    for image in exhaustive.chain(random).filter(|image| model::site_check(image).is_ok()) {
        let right = sealing::check(&image);
        let functions = placed(NoFault, &image);
        assert_eq!(nested(&functions), right);
        assert_eq!(sorted(&functions), right);
        let instrs: Vec<Cell> =
            functions.iter().flat_map(|it| it.function.instrs.to_vec()).collect();
        let events: Vec<Cell> =
            functions.iter().flat_map(|it| it.function.events.to_vec()).collect();
        if instrs.len() <= cells::MAX_INSTRS && events.len() <= cells::MAX_EVENTS {
            let as_one = model::site_check(&generate::one_function(&instrs, &events));
            let number =
                |refusal: Refusal| (if refusal.number == 11 { 34 } else { 35 }, refusal.detail);
            let right = right.map_err(|refusal| (refusal.number, refusal.detail));
            assert_eq!(as_one.map_err(number), right);
        }
    }
}

fn nested(functions: &[Placed]) -> Checked {
    for (number, kind) in [(34, Activation), (35, Write)] {
        let of = |it: &Placed| -> Vec<u32> {
            it.numbers.iter().filter(|it| it.kind == kind).map(|it| it.number).collect()
        };
        for later in functions {
            for here in of(later) {
                for earlier in &functions[..later.place] {
                    if of(earlier).contains(&here) {
                        return refused(number, later.place as u32, here);
                    }
                }
            }
        }
    }
    Ok(())
}

fn sorted(functions: &[Placed]) -> Checked {
    let all = functions.iter().flat_map(|it| &it.numbers);
    let mut all: Vec<&Number> = all.collect();
    all.sort_by_key(|it| (it.kind, it.number, it.cell));
    let same = |pair: &&[&Number]| (pair[0].kind, pair[0].number) == (pair[1].kind, pair[1].number);
    let again = all.windows(2).filter(same).map(|pair| pair[1]);
    match again.min_by_key(|it| (it.kind, it.cell)) {
        Some(it) => refused(34 + it.kind as u8, it.function as u32, it.number),
        None => Ok(()),
    }
}

// ---- By hand ----

/// Heads of functions by their instructions and events.
const NONE: &str = "F0 0700";
const ONE_EVENT: &str = "F0 0700 0000 0100";
const ONE: &str = "F0 0700 0100 0100";
const ONE_AND_TWO: &str = "F0 0700 0100 0200";
const TWO_AND_ONE: &str = "F0 0700 0200 0100";
const TWO: &str = "F0 0700 0200 0200";
const THREE: &str = "F0 0700 0300 0300";

/// StoreVars with an activation number, and their Borrow events.
const A0: &str = "4D 0900 0100 01 00000000";
const A3: &str = "4D 0900 0100 01 03000000";
const A5: &str = "4D 0900 0100 01 05000000";
const A6: &str = "4D 0900 0100 01 06000000";
const A9: &str = "4D 0900 0100 01 09000000";
const A_LAST: &str = "4D 0900 0100 01 FFFFFFFF";
const B0: &str = "00 01 00000000";
const B3: &str = "00 01 03000000";
const B5: &str = "00 01 05000000";
const B6: &str = "00 01 06000000";
const B9: &str = "00 01 09000000";
const B_LAST: &str = "00 01 FFFFFFFF";

/// StoreVars and MakeRecords with a write number, and their Write events; StoreVars with both.
const W5: &str = "4D 0900 0100 00 00000000 01 05000000";
const W6: &str = "4D 0900 0100 00 00000000 01 06000000";
const R5: &str = "32 0100 0900 0800 01 05000000";
const R9: &str = "32 0100 0900 0800 01 09000000";
const E5: &str = "01 00 00000000 01 05000000";
const E6: &str = "01 00 00000000 01 06000000";
const E9: &str = "01 00 00000000 01 09000000";
const A5_W5: &str = "4D 0900 0100 01 05000000 01 05000000";
const A5_W6: &str = "4D 0900 0100 01 05000000 01 06000000";
const A6_W5: &str = "4D 0900 0100 01 06000000 01 05000000";

const RET: &str = "0C 00";
const LABEL: &str = "0A 0100";

/// An image, and the number, position and detail of its refusal.
type Row = (&'static [&'static str], Option<(u8, u32, u32)>);

const GOOD: Option<(u8, u32, u32)> = None;

const fn no(number: u8, position: u32, detail: u32) -> Option<(u8, u32, u32)> {
    Some((number, position, detail))
}

fn checked(answer: Option<(u8, u32, u32)>) -> Checked {
    answer.map_or(Ok(()), |(number, position, detail)| refused(number, position, detail))
}

const ROWS: [Row; 55] = [
    // No function, one without cells, one with numbers.
    (&[], GOOD),
    (&[NONE], GOOD),
    (&[ONE, A5, B5], GOOD),
    (&[ONE_AND_TWO, A5_W5, B5, E5], GOOD),
    // "An activation number may stand in one function only, and likewise a write number."
    (&[ONE, A5, B5, ONE, A6, B6], GOOD),
    (&[ONE, A5, B5, ONE, A5, B5], no(34, 1, 5)),
    (&[ONE, W5, E5, ONE, W6, E6], GOOD),
    (&[ONE, W5, E5, ONE, W5, E5], no(35, 1, 5)),
    (&[ONE, W5, E5, ONE, R5, E5], no(35, 1, 5)),
    (&[ONE, R5, E5, ONE, W5, E5], no(35, 1, 5)),
    (&[ONE, R5, E5, ONE, R5, E5], no(35, 1, 5)),
    (&[ONE, R5, E5, ONE, R9, E9], GOOD),
    (&[ONE_AND_TWO, R9, E9, E9], GOOD),
    // A number may be one function's of the one kind and another's of the other.
    (&[ONE, A5, B5, ONE, W5, E5], GOOD),
    (&[ONE, R5, E5, ONE, A5, B5], GOOD),
    (&[ONE_AND_TWO, A5_W6, B5, E6, ONE_AND_TWO, A6_W5, B6, E5], GOOD),
    (&[ONE_AND_TWO, A5_W5, B5, E5, ONE, A6, B6, ONE, W6, E6], GOOD),
    // "Over all functions together."
    (&[ONE, A5, B5, ONE, A6, B6, ONE, A9, B9], GOOD),
    (&[ONE, A5, B5, ONE, A6, B6, ONE, A5, B5], no(34, 2, 5)),
    (&[ONE, A5, B5, ONE, A6, B6, ONE, A6, B6], no(34, 2, 6)),
    (&[ONE, W5, E5, ONE, R9, E9, ONE, R5, E5], no(35, 2, 5)),
    // "The first function, in order, that repeats an earlier one's."
    (&[ONE, A5, B5, ONE, A5, B5, ONE, A5, B5], no(34, 1, 5)),
    (&[ONE, A5, B5, ONE, A6, B6, ONE, A6, B6, ONE, A5, B5], no(34, 2, 6)),
    (&[ONE, R5, E5, ONE, R9, E9, ONE, R9, E9, ONE, W5, E5], no(35, 2, 9)),
    // 34 for any function, "then 35".
    (&[ONE_AND_TWO, A5_W6, B5, E6, ONE_AND_TWO, A5_W6, B5, E6], no(34, 1, 5)),
    (&[ONE_AND_TWO, A5_W6, B5, E6, ONE, W6, E6, ONE, A5, B5], no(34, 2, 5)),
    (&[ONE_AND_TWO, A5_W6, B5, E6, ONE, A5, B5, ONE, W6, E6], no(34, 1, 5)),
    (&[ONE_AND_TWO, A5_W6, B5, E6, TWO, W6, A5, E6, B5], no(34, 1, 5)),
    (&[ONE_AND_TWO, A5_W6, B5, E6, ONE, A6, B6, ONE, W6, E6], no(35, 2, 6)),
    // "That function's first such number in instruction order", whatever comes first elsewhere.
    (&[THREE, A3, A5, A9, B3, B5, B9, THREE, A9, A3, A5, B3, B5, B9], no(34, 1, 9)),
    (&[THREE, A3, A5, A9, B3, B5, B9, THREE, A5, A9, A3, B9, B3, B5], no(34, 1, 5)),
    (&[THREE, A9, A5, A3, B9, B5, B3, TWO, A3, A9, B9, B3], no(34, 1, 3)),
    (&[TWO, A3, A5, B3, B5, THREE, A6, A5, A3, B3, B5, B6], no(34, 1, 5)),
    (&[ONE, A3, B3, ONE, A9, B9, TWO, A9, A3, B3, B9], no(34, 2, 9)),
    (&[ONE, A3, B3, ONE, A9, B9, TWO, A3, A9, B9, B3], no(34, 2, 3)),
    (&[TWO, W5, R9, E5, E9, TWO, R9, R5, E5, E9], no(35, 1, 9)),
    (&[TWO, R5, W6, E5, E6, THREE, R9, W6, W5, E9, E5, E6], no(35, 1, 6)),
    // "Its place among the functions."
    (&[NONE, ONE, A5, B5, NONE, ONE_EVENT, "00", ONE, A5, B5, NONE], no(34, 4, 5)),
    (&["F0 0700 0100", RET, ONE, W5, E5, "F0 0700 0100", LABEL, ONE, R5, E5], no(35, 3, 5)),
    // Commands that aren't reached count.
    (&[ONE, A5, B5, TWO_AND_ONE, RET, A5, B5], no(34, 1, 5)),
    (&[TWO_AND_ONE, RET, R5, E5, ONE, W5, E5], no(35, 1, 5)),
    (&[TWO_AND_ONE, RET, W5, E5, TWO_AND_ONE, RET, R5, E5], no(35, 1, 5)),
    // The least number and the greatest; all four bytes.
    (&[ONE, A0, B0, ONE, A0, B0], no(34, 1, 0)),
    (&[ONE, A_LAST, B_LAST, ONE, A_LAST, B_LAST], no(34, 1, 4_294_967_295)),
    (&[ONE, A5, B5, ONE, "4D 0900 0100 01 05010000", "00 01 05010000"], GOOD),
    (&[ONE, A5, B5, ONE, "4D 0900 0100 01 05000080", "00 01 05000080"], GOOD),
    // Absent numbers are none.
    (&[ONE, A0, B0, "F0 0700 0100", "4D 0900 0100", "F0 0700 0100", "32 0100 0900 0800"], GOOD),
    // "It refuses as the site check": within a function, and of any function before 34.
    (&[TWO, A5, A5, B5, B5], no(11, 0, 5)),
    (&[ONE, A6, B6, TWO, R5, W5, E5, E5], no(21, 1, 5)),
    (&[ONE, A5, B5, ONE, A5, B5, "F0 0700 0100", R9], no(24, 2, 9)),
    (&[ONE, A5, B5, ONE, A5, B5, "F0 0700 0000 0100", E9], no(26, 2, 9)),
    (&[ONE, W5, E5, ONE, W5, E5, "F0 0700 0100", A5], no(14, 2, 0)),
    // And as the image check.
    (&[ONE, A5, B5, ONE, A5, B5, "F0 0700 0100", "52"], no(3, 2, 7)),
    (&[ONE, A5, B5, ONE, A5, B5, "F0 0700 0100", "01 0004"], no(4, 2, 7)),
    (&[ONE, A5, B5, ONE, A5, B5, "00"], no(2, 2, 6)),
];

#[test]
fn answers_by_hand() {
    for (cells, answer) in ROWS {
        let image = image(cells);
        let answer = checked(answer);
        let shown = compare::hexadecimal(&image);
        assert_eq!(sealing::check(&image), answer, "{shown}");
        assert_eq!(Model.sealing_check(&image), answer);
        // The original's validators answer so too; and the rewrites accept it, and leave it good.
        let expected = compare::expected(&image).unwrap();
        assert_eq!(expected.sealing_check(), answer);
        assert_eq!(expected.accepted(), !answer.is_err_and(|refusal| refusal.number < 34));
        if expected.accepted() {
            assert_eq!(original::sealing_check(&image), Ok(answer), "{shown}");
            for operation in OPERATIONS {
                let written = expected.written(operation).unwrap();
                assert!(answer.is_err() || sealing::check(written).is_ok());
            }
        }
        let line = match answer {
            Ok(()) => "good\n".into(),
            Err(refusal) => format!("{refusal}\n"),
        };
        assert_eq!(program::text(Text::Sealed, &image).unwrap(), line);
    }
    // A length that isn't one of cells, and one cell too many.
    assert_eq!(sealing::check(&[0xF0; 17]), refused(1, 0, 0));
    assert_eq!(sealing::check(&vec![0; cells::MAX_IMAGE + CELL]), refused(1, 0, 0));
}

/// A rewrite may take the number away for which an image is refused; one that is good stays good.
#[test]
fn after_a_rewrite_by_hand() {
    let image = image(&[ONE, A5, B5, TWO_AND_ONE, RET, A5, B5]);
    let rewritten = common::image(&[ONE, A5, B5, "F0 0700 0100", RET]);
    assert_eq!(model::rewritten(Operation::Rewrite, &image), (rewritten.clone(), 1));
    assert_eq!(sealing::check(&image), refused(34, 1, 5));
    assert_eq!(sealing::check(&rewritten), Ok(()));
}

/// What two images joined must be answered, from the numbers of each: first, second, the answer.
#[test]
fn joined_by_hand() {
    let empty: &[&str] = &[];
    let five = &[ONE, A5, B5][..];
    let six = &[NONE, ONE, A6, B6][..];
    let writes = &[ONE, W6, E6, ONE, W5, E5][..];
    let both = &[ONE_AND_TWO, A5_W6, B5, E6][..];
    let fives = &[ONE, A5, B5, ONE, A5, B5][..];
    let three = &[THREE, A9, A6, A5, B5, B6, B9][..];
    let nines = &[ONE, A9, B9, ONE, A9, B9, ONE, A5, B5][..];
    let records = &[ONE, R9, E9, ONE, R9, E9][..];
    let sites = &["F0 0700 0100", R9][..];
    let rows = [
        (empty, empty, GOOD),
        (empty, five, GOOD),
        (five, six, GOOD),
        (six, five, GOOD),
        // They share a number: at a function of the second.
        (five, five, no(34, 1, 5)),
        (six, six, no(34, 3, 6)),
        (writes, both, no(35, 2, 6)),
        (both, writes, no(35, 1, 6)),
        (both, both, no(34, 1, 5)),
        // The first's 34 as it is; the second's moved on.
        (fives, fives, no(34, 1, 5)),
        (fives, six, no(34, 1, 5)),
        (six, fives, no(34, 3, 5)),
        // In the second what is shared with the first comes before its own, in its order.
        (six, three, no(34, 2, 6)),
        (fives, three, no(34, 1, 5)),
        (three, fives, no(34, 1, 5)),
        (five, nines, no(34, 2, 9)),
        (three, nines, no(34, 1, 9)),
        // 34 of both before the first's 35.
        (records, five, no(35, 1, 9)),
        (records, fives, no(34, 3, 5)),
        (records, records, no(35, 1, 9)),
        (five, records, no(35, 2, 9)),
        // The site check's before any.
        (fives, sites, no(24, 2, 9)),
        (sites, fives, no(24, 0, 9)),
    ];
    for (at, (first, second, answer)) in rows.into_iter().enumerate() {
        let answer = checked(answer);
        let parts = [first, second].map(|cells| Part::new(&image(cells)).unwrap());
        let joined = joined::joined(&parts[0], &parts[1]).unwrap();
        assert_eq!(joined.expected.sealing_check(), answer, "row {at}");
        assert_eq!(sealing::check(&joined.image), answer, "row {at}");
        assert!(joined::check_original(&joined).is_ok(), "row {at}");
        assert!(sealing::laws(&Model, &[&parts[0].image, &parts[1].image]).is_ok());
    }
}

/// With a number of its own for each function's, an image passes if the site check passes it.
#[test]
fn numbers_apart() {
    let number = |checked: Checked| checked.err().map(|refusal| (refusal.number, refusal.position));
    let mut refused = 0;
    for Part { image, expected } in random_images(300) {
        if expected.image_check().is_ok() {
            let apart = numbered::apart(&image);
            assert_eq!(number(sealing::check(&apart)), number(expected.site_check()));
            refused += matches!(expected.sealing_check(), Err(it) if it.number > 30) as usize;
        }
    }
    assert!(refused >= 50, "{refused}");
}

// ---- The program's word ----

type Says = fn(Said, &[u8]) -> Said;

fn said(text: String) -> Said {
    Said { output: text.into(), error: Vec::new() }
}

fn words(said: &Said) -> Vec<String> {
    let text = String::from_utf8(said.output.clone()).unwrap();
    text.split_whitespace().map(String::from).collect()
}

/// Programs that say something else.
const WRONG_WORDS: [(&str, Says); 8] = [
    ("the site check's answer", |_, input| match model::site_check(input) {
        Ok(()) => said("good\n".into()),
        Err(refusal) => said(format!("{refusal}\n")),
    }),
    ("a refusal on standard error", |it, _| match it.output.starts_with(b"refused") {
        true => Said { output: it.error, error: it.output },
        false => it,
    }),
    ("no line feed", |it, _| Said { output: it.output.trim_ascii_end().to_vec(), ..it }),
    ("sealed for good", |it, _| match it.output == b"good\n" {
        true => said("sealed\n".into()),
        false => it,
    }),
    ("nothing for good", |it, _| match it.output == b"good\n" {
        true => said(String::new()),
        false => it,
    }),
    ("the number alone", |it, _| match &words(&it)[..] {
        [refused, number, ..] => said(format!("{refused} {number}\n")),
        _ => it,
    }),
    ("detail before position", |it, _| match &words(&it)[..] {
        [refused, number, position, detail] => {
            said(format!("{refused} {number} {detail} {position}\n"))
        }
        _ => it,
    }),
    ("the default rewrite", |_, input| {
        program::said(Text::Rewritten(Operation::Rewrite), input).unwrap()
    }),
];

#[test]
fn every_wrong_word_is_found() {
    let images = random_images(100);
    let check = |says: Says, input: &[u8]| {
        let run = |input: &[u8]| Ok(says(program::said(Text::Sealed, input)?, input));
        program::check_by(Text::Sealed, "wrong", run, input)
    };
    for (name, says) in WRONG_WORDS {
        let found = images.iter().find_map(|part| check(says, &part.image).err());
        println!("{name}: {}", found.unwrap_or_else(|| panic!("{name}")));
    }
    assert!(images.iter().all(|part| check(|it, _| it, &part.image).is_ok()));
}
