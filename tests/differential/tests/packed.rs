//! Shows that the harness finds wrong packing and unpacking (document 02, W8), and holds the model's
//! against rows written out by hand.

#[macro_use]
mod common;

use common::{bytes, image};
use differential::answers::{Operation, Operations, Reply};
use differential::cells::{self, Cell, CELL, HEAD_END, MAX_EVENTS, MAX_IMAGE, MAX_INSTRS};
use differential::codec::Form;
use differential::compare::{self, GUARD};
use differential::driver::{self, Groups, Lent};
use differential::factors::Leaf;
use differential::forms;
use differential::generate::{self, filled, one_function};
use differential::joined::Part;
use differential::legacy_lowering::{byte, COMMANDS};
use differential::model::{self, Model};
use differential::packed::{self, Part as Kind, Unpacking, FAULTS as CASES, TOO_SHORT};
use differential::program::{self, Said, Text};
use differential::random::Random;
use differential::table;

/// A program that answers as the model does but for one fault in packing or unpacking.
#[derive(Debug, Clone, Copy)]
struct Wrong(Fault);

#[derive(Debug, Clone, Copy, PartialEq)]
enum Fault {
    NoFault,
    // What a cell keeps, both ways: so many bytes more or less, or in all.
    WidthOf(u8, isize),
    EventOf(usize),
    HeadOf(usize),
    CellOf(usize),
    EventByTheTable,
    // What is packed.
    AbsentRegisterDropped,
    AbsentSiteDropped,
    ZerosAtTheEndDropped,
    HeadWithoutItsFirstByte,
    NameTurned,
    CountsExchanged,
    EventsFirst,
    FirstFunctionOnly,
    EmptyFunctionsDropped,
    RewrittenFirst,
    PresenceDropped,
    // What packing answers.
    PackChecksSites,
    PackChecksTheLengthAlone,
    PackRefusesInBytes,
    PackTouchesOnARefusal,
    PackFiveAgainstTheImage,
    PackFiveBeforeTheCells,
    PackFiveIfItFitsJust,
    PackThirtyForFive,
    PackFiveWithTheLength,
    PackTouchesOnFive,
    PackWritesWhatFits,
    PackClearsTheRest,
    PackTouchesAByteBehind,
    PackOverflowsUnmeasured,
    PackFiveUnmeasured,
    PackWritesNothing,
    PackLengthOfTheImage,
    PackSecondIsTheCells,
    PackLengthInAByte,
    EmptyImageRefused,
    // The order of faults.
    ThirtyTwoBeforeThree,
    ThreeBeforeOne,
    ThirtyTwoBeforeOne,
    TwoBeforeOne,
    FourBeforeOne,
    OneLast,
    TwoBeforeThirtyTwo,
    FirstByteBeforeThirtyTwo,
    LimitsBeforeThirtyTwo,
    FourBeforeThirtyTwo,
    FiveBeforeEachCell,
    FiveBehindEachCell,
    FiveFirst,
    PromisedPastTheLimitIs32,
    PromiseRefusedAtOnce,
    PromiseRefusedByTwo,
    PromisePastTheLimitAtOnce,
    // Other numbers.
    ThreeForAHead,
    TwoForAnUnknownCommand,
    FourForAnUnknownEvent,
    FourForTheLimits,
    TwoForACutHead,
    OneForThePackedLength,
    EmptyFormRefused,
    // Position and detail.
    PositionZero,
    PositionFromOne,
    PositionOfTheFunctionBefore,
    DetailZero,
    DetailInTheFunction,
    DetailInBytes,
    DetailInPackedBytes,
    DetailWithoutHeads,
    DetailFromOne,
    DetailOfTheHead,
    MissingAtTheHead,
    OneWithItsCell,
    // What is refused.
    LimitOf(usize),
    MostInstrs(usize),
    MostEvents(usize),
    MostCells,
    OperandsNotChecked,
    EventsNotChecked,
    Registers(usize),
    DstAlone,
    AbsentRegisterNotZero,
    AbsentSiteNotZero,
    AnyPresence,
    AnyBool,
    AnyQuad,
    AnyEventKind,
    HeadTakenForAnInstr,
    ZeroIsACommand,
    AnyHeadByte,
    UnpackChecksSites,
    LeftoverIgnored,
    CutHeadIgnored,
    ZerosBehindIgnored,
    FirstFunctionRead,
    MissingAccepted,
    CutCellFilled,
    // What is unpacked.
    SpareBytesKept,
    SpareBytesOfTheCellBefore,
    WritesAsItReads,
    TouchesOnARefusal,
    TouchesOnFive,
    FiveIfItFitsJust,
    FiveAgainstThePacked,
    FiveWithTheLength,
    ThirtyForFive,
    WritesWhatFits,
    ClearsTheRest,
    TouchesAByteBehind,
    WritesNothing,
    LengthOfThePacked,
    LengthInCells,
    LengthInTwoBytes,
    SecondIsTheFunctions,
}
use Fault::*;

const FAULTS: [Fault; 128] = [
    WidthOf(byte::LoadF64, -1),
    WidthOf(byte::LoadBool, 1),
    WidthOf(byte::LoadText, 2),
    WidthOf(byte::MakeAdt, -2),
    WidthOf(byte::Ret, -1),
    WidthOf(byte::StoreVar, 1),
    WidthOf(byte::TupleGet, -2),
    EventOf(16),
    EventOf(14),
    HeadOf(8),
    HeadOf(16),
    CellOf(15),
    CellOf(16),
    EventByTheTable,
    AbsentRegisterDropped,
    AbsentSiteDropped,
    ZerosAtTheEndDropped,
    HeadWithoutItsFirstByte,
    NameTurned,
    CountsExchanged,
    EventsFirst,
    FirstFunctionOnly,
    EmptyFunctionsDropped,
    RewrittenFirst,
    PresenceDropped,
    PackChecksSites,
    PackChecksTheLengthAlone,
    PackRefusesInBytes,
    PackTouchesOnARefusal,
    PackFiveAgainstTheImage,
    PackFiveBeforeTheCells,
    PackFiveIfItFitsJust,
    PackThirtyForFive,
    PackFiveWithTheLength,
    PackTouchesOnFive,
    PackWritesWhatFits,
    PackClearsTheRest,
    PackTouchesAByteBehind,
    PackOverflowsUnmeasured,
    PackFiveUnmeasured,
    PackWritesNothing,
    PackLengthOfTheImage,
    PackSecondIsTheCells,
    PackLengthInAByte,
    EmptyImageRefused,
    ThirtyTwoBeforeThree,
    ThreeBeforeOne,
    ThirtyTwoBeforeOne,
    TwoBeforeOne,
    FourBeforeOne,
    OneLast,
    TwoBeforeThirtyTwo,
    FirstByteBeforeThirtyTwo,
    LimitsBeforeThirtyTwo,
    FourBeforeThirtyTwo,
    FiveBeforeEachCell,
    FiveBehindEachCell,
    FiveFirst,
    PromisedPastTheLimitIs32,
    PromiseRefusedAtOnce,
    PromiseRefusedByTwo,
    PromisePastTheLimitAtOnce,
    ThreeForAHead,
    TwoForAnUnknownCommand,
    FourForAnUnknownEvent,
    FourForTheLimits,
    TwoForACutHead,
    OneForThePackedLength,
    EmptyFormRefused,
    PositionZero,
    PositionFromOne,
    PositionOfTheFunctionBefore,
    DetailZero,
    DetailInTheFunction,
    DetailInBytes,
    DetailInPackedBytes,
    DetailWithoutHeads,
    DetailFromOne,
    DetailOfTheHead,
    MissingAtTheHead,
    OneWithItsCell,
    LimitOf(MAX_IMAGE - CELL),
    LimitOf(MAX_IMAGE + CELL),
    MostInstrs(MAX_INSTRS - 1),
    MostInstrs(MAX_INSTRS + 1),
    MostInstrs(65_535),
    MostEvents(MAX_EVENTS - 1),
    MostEvents(MAX_EVENTS + 1),
    MostEvents(MAX_INSTRS),
    MostCells,
    OperandsNotChecked,
    EventsNotChecked,
    Registers(256),
    Registers(1025),
    DstAlone,
    AbsentRegisterNotZero,
    AbsentSiteNotZero,
    AnyPresence,
    AnyBool,
    AnyQuad,
    AnyEventKind,
    HeadTakenForAnInstr,
    ZeroIsACommand,
    AnyHeadByte,
    UnpackChecksSites,
    LeftoverIgnored,
    CutHeadIgnored,
    ZerosBehindIgnored,
    FirstFunctionRead,
    MissingAccepted,
    CutCellFilled,
    SpareBytesKept,
    SpareBytesOfTheCellBefore,
    WritesAsItReads,
    TouchesOnARefusal,
    TouchesOnFive,
    FiveIfItFitsJust,
    FiveAgainstThePacked,
    FiveWithTheLength,
    ThirtyForFive,
    WritesWhatFits,
    ClearsTheRest,
    TouchesAByteBehind,
    WritesNothing,
    LengthOfThePacked,
    LengthInCells,
    LengthInTwoBytes,
    SecondIsTheFunctions,
];

// ---- Wrong packing ----

/// How many bytes a cell keeps, if its first byte is known.
fn length(fault: Fault, part: Kind, first: u8) -> Option<usize> {
    let right = packed::length(part, first).ok();
    match (fault, part) {
        (CellOf(length), _) => right.map(|_| length),
        (WidthOf(command, more), Kind::Instr) if first == command => {
            right.map(|length| length.saturating_add_signed(more))
        }
        (EventOf(length), Kind::Event) => right.map(|_| length),
        (HeadOf(length), Kind::Head) => Some(length),
        (EventByTheTable, Kind::Event) => {
            right.map(|length| table::layout(first).map_or(length, |layout| layout.end))
        }
        (AnyEventKind, Kind::Event) => Some(15),
        (ZeroIsACommand, Kind::Instr) if first == 0 => Some(1),
        _ => right,
    }
}

/// Form and place of each operand of a cell.
fn operands(part: Kind, first: u8) -> &'static [(Form, usize)] {
    match part {
        Kind::Head => &[],
        Kind::Instr => table::layout(first).map_or(&[], |layout| &layout.places),
        Kind::Event => &[(Form::Site, 1), (Form::Site, 6)],
    }
}

/// What a cell keeps.
fn kept(fault: Fault, part: Kind, cell: &Cell) -> Vec<u8> {
    let mut kept = cell[..length(fault, part, cell[0]).unwrap()].to_vec();
    for &(form, place) in operands(part, cell[0]).iter().rev() {
        let optional = matches!(form, Form::OptionalRegister | Form::Site);
        let value = place + 1..place + form.width();
        match (fault, form, optional.then(|| cell[place])) {
            (AbsentRegisterDropped, Form::OptionalRegister, Some(0))
            | (AbsentSiteDropped, Form::Site, Some(0)) => {
                kept.drain(value);
            }
            (PresenceDropped, _, Some(1)) => {
                kept.remove(place);
            }
            _ => {}
        }
    }
    match (fault, part) {
        (ZerosAtTheEndDropped, _) => {
            let zeros = kept[1..].iter().rev().take_while(|byte| **byte == 0).count();
            kept.truncate(kept.len() - zeros);
        }
        (HeadWithoutItsFirstByte, Kind::Head) => {
            kept.remove(0);
        }
        (NameTurned, Kind::Head) => kept[1..3].reverse(),
        (CountsExchanged, Kind::Head) => kept[3..7].rotate_left(2),
        _ => {}
    }
    kept
}

/// The packed form with a fault, or without.
fn pack_with(fault: Fault, image: &[u8]) -> Vec<u8> {
    let rewritten;
    let image = match fault {
        RewrittenFirst if model::site_check(image).is_ok() => {
            (rewritten, _) = model::rewritten(Operation::Rewrite, image);
            &rewritten
        }
        _ => image,
    };
    let mut form = Vec::new();
    for function in cells::functions(image) {
        let (instrs, events) = (function.instrs, function.events);
        if fault == EmptyFunctionsDropped && instrs.is_empty() && events.is_empty() {
            continue;
        }
        let head = cells::head(function.name, instrs.len(), events.len());
        form.extend(kept(fault, Kind::Head, &head));
        let instrs = instrs.iter().flat_map(|cell| kept(fault, Kind::Instr, cell));
        let events = events.iter().flat_map(|cell| kept(fault, Kind::Event, cell));
        match fault {
            EventsFirst => form.extend(events.chain(instrs)),
            _ => form.extend(instrs.chain(events)),
        }
        if fault == FirstFunctionOnly {
            break;
        }
    }
    form
}

fn pack_answer(fault: Fault, image: &[u8], out: &mut [u8]) -> Reply {
    if fault == PackFiveBeforeTheCells
        && cells::length_good(image)
        && out.is_empty()
        && !image.is_empty()
    {
        return TOO_SHORT;
    }
    let checked = match fault {
        PackChecksSites => model::site_check(image),
        PackChecksTheLengthAlone if cells::length_good(image) => match model::image_check(image) {
            // What it writes then: all bytes.
            Err(_) if out.len() >= image.len() => {
                out[..image.len()].copy_from_slice(image);
                return Reply { number: 0, first: image.len(), second: 0 };
            }
            checked => checked,
        },
        _ => model::image_check(image),
    };
    if let Err(refusal) = checked {
        let reply = Reply::from(refusal);
        return match (fault, out.first_mut()) {
            (PackTouchesOnARefusal, Some(byte)) => {
                *byte ^= 1;
                reply
            }
            (PackRefusesInBytes, _) => Reply { second: reply.second * CELL, ..reply },
            _ => reply,
        };
    }
    if fault == EmptyImageRefused && image.is_empty() {
        return Reply { number: 2, first: 0, second: 0 };
    }
    let form = pack_with(fault, image);
    let room = match fault {
        PackFiveAgainstTheImage => image.len(),
        PackFiveIfItFitsJust => form.len() + 1,
        // The most that so many cells can keep.
        PackFiveUnmeasured if !image.is_empty() => 15 * (image.len() / CELL) - 8,
        _ => form.len(),
    };
    if out.len() < room {
        match (fault, out.first_mut()) {
            (PackThirtyForFive, _) => return Reply { number: 30, ..TOO_SHORT },
            (PackFiveWithTheLength, _) => return Reply { first: form.len(), ..TOO_SHORT },
            (PackTouchesOnFive, Some(byte)) => *byte ^= 1,
            (PackWritesWhatFits, _) => out.copy_from_slice(&form[..out.len()]),
            _ => {}
        }
        return TOO_SHORT;
    }
    let as_long = out.len() >= image.len();
    let (written, rest) = out.split_at_mut(form.len());
    if fault != PackWritesNothing {
        written.copy_from_slice(&form);
    }
    match (fault, rest.first_mut()) {
        (PackTouchesAByteBehind, Some(byte)) => *byte ^= 1,
        // What is written behind, of many cells, where the output is as long as the image.
        (PackOverflowsUnmeasured, Some(byte)) if as_long && image.len() >= 32 * CELL => *byte ^= 1,
        (PackClearsTheRest, _) => rest.fill(0),
        _ => {}
    }
    let first = match fault {
        PackLengthOfTheImage => image.len(),
        PackLengthInAByte => form.len() % 256,
        _ => form.len(),
    };
    let second = if fault == PackSecondIsTheCells { image.len() / CELL } else { 0 };
    Reply { number: 0, first, second }
}

// ---- Wrong unpacking ----

/// In which order the faults of a cell are looked for.
fn order(fault: Fault) -> [usize; 5] {
    match fault {
        ThirtyTwoBeforeThree => [1, 32, 3, 2, 4],
        ThreeBeforeOne => [3, 1, 32, 2, 4],
        ThirtyTwoBeforeOne => [32, 1, 3, 2, 4],
        TwoBeforeOne => [2, 1, 3, 32, 4],
        FourBeforeOne => [4, 1, 3, 32, 2],
        OneLast => [3, 32, 2, 4, 1],
        TwoBeforeThirtyTwo => [1, 3, 2, 32, 4],
        FourBeforeThirtyTwo => [1, 3, 4, 32, 2],
        _ => [1, 3, 32, 2, 4],
    }
}

fn operand_good(fault: Fault, cell: &Cell, form: Form, place: usize, dst: bool) -> bool {
    let most = if let Registers(count) = fault { count } else { 1024 };
    let any = fault == DstAlone && !dst;
    let register = |at| any || (cells::half(cell, at) as usize) < most;
    let value = &cell[place + 1..place + form.width()];
    let zero = value.iter().all(|byte| *byte == 0);
    match (form, cell[place]) {
        (Form::Register, _) => register(place),
        (Form::OptionalRegister, 0) => zero || fault == AbsentRegisterNotZero,
        (Form::OptionalRegister, 1) => register(place + 1),
        (Form::Site, 0) => zero || fault == AbsentSiteNotZero,
        (Form::Site, 1) => true,
        (Form::OptionalRegister | Form::Site, _) => fault == AnyPresence,
        (Form::Bool, byte) => byte <= 1 || fault == AnyBool,
        (Form::Quad, byte) => byte <= 3 || fault == AnyQuad,
        (Form::Number | Form::Word | Form::Double, _) => true,
    }
}

fn operands_good(fault: Fault, part: Kind, cell: &Cell) -> bool {
    match (fault, part) {
        (OperandsNotChecked, Kind::Instr) | (EventsNotChecked, Kind::Event) => return true,
        _ => {}
    }
    // An operand named dst is the first.
    let has_dst = part == Kind::Instr
        && table::layout(cell[0]).is_some_and(|layout| layout.command.operands[0].name == "dst");
    operands(part, cell[0])
        .iter()
        .all(|&(form, place)| operand_good(fault, cell, form, place, has_dst && place == 1))
}

/// What has been read, and what the next cell is.
#[derive(Default)]
struct Reading {
    image: Vec<u8>,
    /// How many bytes of each cell were kept.
    lengths: Vec<usize>,
    at: usize,
    heads: usize,
    /// The last head's cell.
    start: usize,
    instrs: usize,
    events: usize,
}

impl Reading {
    fn part(&self) -> Kind {
        match (self.instrs, self.events) {
            (0, 0) => Kind::Head,
            (0, _) => Kind::Event,
            _ => Kind::Instr,
        }
    }

    /// It ends here.
    fn ends(&self, fault: Fault, part: Kind, rest: &[u8]) -> bool {
        if part != Kind::Head {
            return fault == MissingAccepted && rest.is_empty();
        }
        match (fault, rest.first()) {
            (_, None) => true,
            (LeftoverIgnored, Some(byte)) => *byte != cells::HEAD,
            (CutHeadIgnored, _) => rest.len() < HEAD_END,
            (ZerosBehindIgnored, _) => rest.iter().all(|byte| *byte == 0),
            (FirstFunctionRead, _) => self.heads == 1,
            _ => false,
        }
    }

    fn refused(&self, fault: Fault, part: Kind, number: usize, missing: bool) -> Reply {
        let (cell, head) = (self.image.len() / CELL, part == Kind::Head);
        let function = if head { self.heads } else { self.heads - 1 };
        let start = if head { cell } else { self.start };
        if number == 1 && fault != OneWithItsCell {
            return Reply { number, first: 0, second: 0 };
        }
        let first = match fault {
            PositionZero => 0,
            PositionFromOne => function + 1,
            PositionOfTheFunctionBefore if head => function.saturating_sub(1),
            _ => function,
        };
        let second = match fault {
            DetailZero => 0,
            DetailInTheFunction => cell - start,
            DetailInBytes => cell * CELL,
            DetailInPackedBytes => self.at,
            DetailWithoutHeads => cell - self.heads,
            DetailFromOne => cell + 1,
            DetailOfTheHead => start,
            MissingAtTheHead if missing => start,
            _ => cell,
        };
        Reply { number, first, second }
    }

    /// Reads a cell, or gives its fault's reply.
    fn cell(&mut self, fault: Fault, part: Kind, rest: &[u8]) -> Result<(), Reply> {
        let length = rest.first().and_then(|first| length(fault, part, *first));
        let there = rest.len().min(length.unwrap_or(0));
        let mut cell = [0; CELL];
        if let Some(before) = cells::cells(&self.image).last() {
            if fault == SpareBytesOfTheCellBefore {
                cell = *before;
                cell[there..length.unwrap_or(CELL)].fill(0);
            }
        }
        cell[..there].copy_from_slice(&rest[..there]);
        let (instrs, events) = (cells::half(&cell, 3) as usize, cells::half(&cell, 5) as usize);
        let is_head = part == Kind::Head;

        let limit = if let LimitOf(limit) = fault { limit } else { MAX_IMAGE };
        let past = self.image.len() + CELL > limit;
        let unknown = !rest.is_empty() && length.is_none();
        // Of what is unknown, the least that a command keeps.
        let least = if fault == ThirtyTwoBeforeThree { 3 } else { 1 };
        let cut = rest.len() < length.unwrap_or(least);
        // What is wrong with a head or an operand shows as far as it is there.
        let in_part = matches!(
            fault,
            TwoBeforeThirtyTwo
                | FirstByteBeforeThirtyTwo
                | LimitsBeforeThirtyTwo
                | FourBeforeThirtyTwo
        );
        let seen = !rest.is_empty() && (!cut || in_part);
        let no_head = is_head && cell[0] != cells::HEAD && fault != AnyHeadByte;
        let limits = is_head
            && match fault {
                MostInstrs(most) => instrs > most || events > MAX_EVENTS,
                MostEvents(most) => instrs > MAX_INSTRS || events > most,
                MostCells => instrs + events > MAX_INSTRS + MAX_EVENTS,
                _ => instrs > MAX_INSTRS || events > MAX_EVENTS,
            };
        let applies = |number: &usize| match number {
            1 => past && !(fault == PromisedPastTheLimitIs32 && rest.is_empty()),
            2 => seen && (no_head || limits),
            3 => unknown,
            4 => seen && !unknown && !operands_good(fault, part, &cell),
            _ => match fault {
                FirstByteBeforeThirtyTwo => cut && !no_head,
                LimitsBeforeThirtyTwo => cut && !limits,
                CutCellFilled => cut && (is_head || rest.is_empty()),
                _ => cut,
            },
        };
        if let Some(number) = order(fault).into_iter().find(applies) {
            let number = match (fault, number) {
                (ThreeForAHead, 2) if no_head => 3,
                (FourForTheLimits, 2) if !no_head => 4,
                (TwoForAnUnknownCommand, 3) if part == Kind::Instr => 2,
                (FourForAnUnknownEvent, 3) if part == Kind::Event => 4,
                (TwoForACutHead, 32) if is_head => 2,
                _ => number,
            };
            return Err(self.refused(fault, part, number, rest.is_empty()));
        }
        if is_head {
            let promised = instrs + events;
            let short = 3 * promised > rest.len() - there;
            let number = match fault {
                PromiseRefusedAtOnce if short => Some(32),
                PromiseRefusedByTwo if short => Some(2),
                PromisePastTheLimitAtOnce => {
                    Some(1).filter(|_| self.image.len() + CELL * (1 + promised) > MAX_IMAGE)
                }
                _ => None,
            };
            if let Some(number) = number {
                return Err(self.refused(fault, part, number, false));
            }
            self.start = self.image.len() / CELL;
            self.heads += 1;
            (self.instrs, self.events) = (instrs, events);
        } else if part == Kind::Instr {
            self.instrs -= 1;
        } else {
            self.events -= 1;
        }
        self.image.extend(cell);
        self.lengths.push(there);
        self.at += there;
        Ok(())
    }
}

fn unpack_answer(fault: Fault, form: &[u8], out: &mut [u8]) -> Reply {
    match fault {
        OneForThePackedLength if form.len() > MAX_IMAGE => {
            return Reply { number: 1, first: 0, second: 0 };
        }
        EmptyFormRefused if form.is_empty() => return Reply { number: 32, first: 0, second: 0 },
        FiveFirst if out.len() < form.len() => return TOO_SHORT,
        _ => {}
    }
    let mut reading = Reading::default();
    loop {
        let rest = &form[reading.at..];
        let mut part = reading.part();
        if reading.ends(fault, part, rest) {
            break;
        }
        if fault == HeadTakenForAnInstr && rest.first() == Some(&cells::HEAD) {
            part = Kind::Head;
        }
        if fault == FiveBeforeEachCell && out.len() < reading.image.len() + CELL {
            return TOO_SHORT;
        }
        if let Err(reply) = reading.cell(fault, part, rest) {
            if let (TouchesOnARefusal, Some(byte)) = (fault, out.first_mut()) {
                *byte ^= 1;
            }
            return reply;
        }
        let read = &reading.image;
        match fault {
            FiveBehindEachCell if out.len() < read.len() => return TOO_SHORT,
            WritesAsItReads => {
                let fits = read.len().min(out.len());
                out[..fits].copy_from_slice(&read[..fits]);
            }
            _ => {}
        }
    }
    let image = &reading.image;
    if let (UnpackChecksSites, Err(refusal)) = (fault, model::site_check(image)) {
        return refusal.into();
    }
    let room = match fault {
        FiveIfItFitsJust => image.len() + 1,
        FiveAgainstThePacked => form.len(),
        _ => image.len(),
    };
    if out.len() < room {
        match (fault, out.first_mut()) {
            (ThirtyForFive, _) => return Reply { number: 30, ..TOO_SHORT },
            (FiveWithTheLength, _) => return Reply { first: image.len(), ..TOO_SHORT },
            (TouchesOnFive, Some(byte)) => *byte ^= 1,
            (WritesWhatFits, _) => {
                let fits = out.len() / CELL * CELL;
                out[..fits].copy_from_slice(&image[..fits]);
            }
            _ => {}
        }
        return TOO_SHORT;
    }
    let (written, rest) = out.split_at_mut(image.len().min(out.len()));
    match fault {
        WritesNothing => {}
        SpareBytesKept => {
            let cells = written.chunks_mut(CELL).zip(cells::cells(image));
            for ((out, cell), length) in cells.zip(&reading.lengths) {
                out[..*length].copy_from_slice(&cell[..*length]);
            }
        }
        _ => written.copy_from_slice(&image[..written.len()]),
    }
    match (fault, rest.first_mut()) {
        (TouchesAByteBehind, Some(byte)) => *byte ^= 1,
        (ClearsTheRest, _) => rest.fill(0),
        _ => {}
    }
    let first = match fault {
        LengthOfThePacked => form.len(),
        LengthInCells => image.len() / CELL,
        LengthInTwoBytes => image.len() % 65_536,
        _ => image.len(),
    };
    let second = if fault == SecondIsTheFunctions { reading.heads } else { 0 };
    Reply { number: 0, first, second }
}

impl Operations for Wrong {
    checks_and_rewrites_of_the_model!();
    fn pages(&self, image: &[u8], out: &mut [u8]) -> Reply {
        Model.pages(image, out)
    }
    fn pack(&self, image: &[u8], out: &mut [u8]) -> Reply {
        pack_answer(self.0, image, out)
    }
    fn unpack(&self, form: &[u8], out: &mut [u8]) -> Reply {
        unpack_answer(self.0, form, out)
    }
    releases_of_the_model!();
    fn factor(&self, leaf: Leaf, wanted: i32, factor: i32, other: &mut i32) -> usize {
        Model.factor(leaf, wanted, factor, other)
    }
}

#[test]
fn every_wrong_packing_is_found() {
    for fault in FAULTS {
        let outcome = driver::compare(Groups::Packed, &[&Wrong(fault)], 1, 0, 1);
        let found = outcome.found.unwrap_or_else(|| panic!("{fault:?} isn't found"));
        let what = &found.difference.what;
        let bytes = found.images.concat().len();
        println!("{fault:?}: {}: {what}, {bytes} bytes, {:?}", found.group, found.lent);
        let lent = matches!(found.lent, Lent::Packed(_) | Lent::Unpacked(_) | Lent::Law(_));
        assert!(lent && (what.starts_with("Pack") || what.starts_with("Unpack")), "{fault:?}");
        // These show only past some length.
        let long = matches!(
            fault,
            PackLengthInAByte
                | PackOverflowsUnmeasured
                | ThreeBeforeOne
                | ThirtyTwoBeforeOne
                | TwoBeforeOne
                | FourBeforeOne
                | OneLast
                | PromisedPastTheLimitIs32
                | PromisePastTheLimitAtOnce
                | OneForThePackedLength
                | OneWithItsCell
                | LimitOf(_)
                | LengthInTwoBytes
        );
        assert!(long || bytes <= 3 * CELL, "{fault:?} isn't shrunk: {bytes} bytes");
    }
}

/// A full run has these groups.
#[test]
fn among_all_groups() {
    for fault in [ThirtyTwoBeforeThree, PackChecksSites] {
        let outcome = driver::compare(Groups::All, &[&Wrong(fault)], 1, 0, 1);
        let what = outcome.found.unwrap().difference.what;
        assert!(what.contains("ack, answer"), "{what}");
    }
}

/// Images to be packed, with the answers that they must get, and bytes to be unpacked.
struct Inputs {
    images: Vec<Part>,
    forms: Vec<Unpacking>,
}

/// Random ones alone.
fn random_inputs(count: usize) -> Inputs {
    let random = &mut Random::new(1);
    let mut inputs = Inputs { images: Vec::new(), forms: Vec::new() };
    for at in 0..count {
        let mut images = vec![generate::any_image(random), generate::damaged(random)];
        let mut forms: Vec<Vec<u8>> = (0..8).map(|_| forms::any_form(random)).collect();
        if at % 8 == 0 {
            forms.push(forms::any_end(random));
        }
        if at % 32 == 0 {
            images.push(generate::limit(random));
        }
        inputs.images.extend(images.iter().map(|image| Part::new(image).unwrap()));
        inputs.forms.extend(forms.into_iter().map(Unpacking::new));
    }
    inputs
}

/// A lent output with its guards: as long as what is written, longer, a byte shorter, empty, or of
/// another length.
fn dirty(at: usize, length: usize, other: Option<usize>) -> Vec<u8> {
    let mut lengths = vec![length, length + 3, length.saturating_sub(1), 0];
    lengths.extend(other);
    vec![0xA7; lengths[at % lengths.len()] + 2 * GUARD]
}

impl Inputs {
    /// One is answered otherwise than by the model.
    fn show(&self, wrong: Wrong) -> bool {
        let pack = |(at, part): (usize, &Part)| {
            let Part { image, expected } = part;
            let around = dirty(at / 2, expected.packed_length(image), Some(image.len()));
            expected.check_pack(&wrong, image, &around).is_err()
        };
        let unpack = |(at, unpacking): (usize, &Unpacking)| {
            let around = dirty(at, unpacking.image_length(), None);
            unpacking.check(&wrong, &around).is_err()
        };
        self.images.iter().enumerate().any(pack) || self.forms.iter().enumerate().any(unpack)
    }

    /// One breaks a law, whatever the model says.
    fn break_laws(&self, wrong: Wrong) -> bool {
        let law = |(at, part): (usize, &Part)| packed::laws(&wrong, &part.image, 7 * at).is_err();
        let again = |unpacking: &Unpacking| packed::packs_again(&wrong, &unpacking.packed).is_err();
        self.images.iter().enumerate().any(law) || self.forms.iter().any(again)
    }
}

/// Random images and random forms alone find each of them too; and the laws alone find those that
/// they can.
#[test]
fn by_random_inputs_alone() {
    let inputs = random_inputs(1500);
    assert!(!inputs.show(Wrong(NoFault)) && !inputs.break_laws(Wrong(NoFault)));
    let mut by_laws = Vec::new();
    for fault in FAULTS {
        assert!(inputs.show(Wrong(fault)), "{fault:?}");
        if inputs.break_laws(Wrong(fault)) {
            by_laws.push(fault);
        }
    }
    println!("{} by laws: {by_laws:?}", by_laws.len());
    assert!(by_laws.len() >= 70, "{}", by_laws.len());
}

/// Wrong programs are wrong by their fault alone; and every fault of a form comes up often.
#[test]
fn no_fault_is_right() {
    let outcome = driver::compare(Groups::Packed, &[&Wrong(NoFault), &Model], 1, 1, 1);
    assert!(outcome.found.is_none());
    let inputs = random_inputs(800);
    let accepted = inputs.forms.iter().filter(|unpacking| unpacking.answer.is_ok()).count();
    assert!(accepted >= 500, "{accepted}");
    for (name, case) in CASES {
        let is = |unpacking: &&Unpacking| {
            unpacking.answer.as_ref().is_err_and(|refused| refused.fault == case)
        };
        let count = inputs.forms.iter().filter(is).count();
        println!("{name}: {count} of {}", inputs.forms.len());
        let least = if case.number() == 1 { 2 } else { 40 };
        assert!(count >= least, "{name}: {count}");
    }
}

/// The library, for longer than a full run takes on packed forms alone.
#[cfg(feature = "library")]
#[test]
fn the_library() {
    let outcome = driver::compare(Groups::Packed, &[&differential::library::Library], 2, 20, 1);
    assert!(outcome.found.is_none());
    println!("{} packed forms", outcome.packing.forms);
}

// ---- By hand ----

fn reply(number: usize, first: usize, second: usize) -> Reply {
    Reply { number, first, second }
}

/// Holds the model's answer, in an output of some length, against one by hand.
fn unpacks_to(form: &[u8], lent: usize, expected: Reply, image: &[u8]) {
    let mut out = vec![0xA7; lent];
    assert_eq!(Model.unpack(form, &mut out), expected, "{}", compare::hexadecimal(form));
    assert_eq!(out[..image.len()], *image);
    assert!(out[image.len()..].iter().all(|byte| *byte == 0xA7));
}

fn packs_to(image: &[u8], lent: usize, expected: Reply, form: &[u8]) {
    let mut out = vec![0xA7; lent];
    assert_eq!(Model.pack(image, &mut out), expected, "{}", compare::hexadecimal(image));
    assert_eq!(out[..form.len()], *form);
    assert!(out[form.len()..].iter().all(|byte| *byte == 0xA7));
}

/// How many bytes each command keeps, by document 01's widths: 1 and those of its operands.
#[test]
fn lengths_by_hand() {
    let lengths = [
        // Assert to StateUpdate, the barriers.
        3, 8, 3, 8, 3, 7, 7, 3, 5, 3, 3, 4, 7, 5, 5, 5, // AddF64 to ConcatText.
        7, 7, 7, 9, 7, 7, 5, 7, 7, 7, 7, 7, 7, 7, 7, 7, 7, 7, 7, 7, // DivF64 to LoadVar.
        7, 7, 7, 4, 11, 7, 7, 4, 5, 7, 5, // MakeAdt to MapSet.
        13, 7, 12, 5, 5, 7, 3, 9, 9, // ModI32 to QTruthOr.
        7, 7, 7, 7, 7, 7, 5, 7, 7, 7, 5, 7, // RecordGet to TupleGet.
        9, 7, 7, 5, 5, 5, 7, 7, 15, 7, 7, 7, 7,
    ];
    assert_eq!(lengths.len(), COMMANDS.len());
    for (command, length) in COMMANDS.iter().zip(lengths) {
        let cell = filled(command.byte, true, 3);
        let form = [bytes("F0 0700 0100 0000"), cell[..length].to_vec()].concat();
        let image = one_function(&[cell], &[]);
        packs_to(&image, 40, reply(0, 7 + length, 0), &form);
        unpacks_to(&form, 40, reply(0, 32, 0), &image);
        unpacks_to(&form[..6 + length], 40, reply(32, 0, 1), &[]);
    }
    let event = image(&["F0 0700 0000 0100", "01 01F1F2F3F4 01F5F6F7F8 FCFBFAF9"]);
    let form = bytes("F0 0700 0000 0100 01 01F1F2F3F4 01F5F6F7F8 FCFBFAF9");
    packs_to(&event, 22, reply(0, 22, 0), &form);
    unpacks_to(&form, 32, reply(0, 32, 0), &event);
}

/// Document 01's printed example, as it is sent and as it is rewritten; both ways.
#[test]
fn the_printed_example() {
    let rows = [
        (
            image(&["F0070003", "2B010005", "13020001000100", "0C010200"]),
            bytes("F0070003000000 2B010005000000 13020001000100 0C010200"),
        ),
        (
            image(&["F0070003", "2B010005", "2B02000A", "0C010200"]),
            bytes("F0070003000000 2B010005000000 2B02000A000000 0C010200"),
        ),
    ];
    let [(sent, _), (rewritten, _)] = &rows;
    assert_eq!(model::rewritten(Operation::Rewrite, sent), (rewritten.clone(), 1));
    for (image, form) in rows {
        assert_eq!((image.len(), form.len()), (64, 25));
        packs_to(&image, 25, reply(0, 25, 0), &form);
        packs_to(&image, 24, reply(5, 0, 0), &[]);
        unpacks_to(&form, 64, reply(0, 64, 0), &image);
        unpacks_to(&form, 63, reply(5, 0, 0), &[]);
    }
}

/// What packing refuses, and what it keeps: image, packed form, refusal.
#[test]
fn packed_by_hand() {
    let good = [
        (image(&[]), ""),
        (image(&["F0"]), "F0 0000 0000 0000"),
        (image(&["F0 0201 00 00", "F0 FFFF"]), "F0 0201 0000 0000 F0 FFFF 0000 0000"),
        // Absent values keep their zeros.
        (image(&["F0 0000 01", "0C"]), "F0 0000 0100 0000 0C 00 0000"),
        (
            image(&["F0 0000 01", "4D 0900 0100"]),
            "F0 0000 0100 0000 4D 0900 0100 00 00000000 00 00000000",
        ),
        (image(&["F0 0000 0000 01", "00"]), "F0 0000 0000 0100 00 0000000000 0000000000 00000000"),
        // Sites that no event has, and an event whose site is on no command.
        (
            image(&["F0 0000 01", "32 0100 0900 0800 01 05000000"]),
            "F0 0000 0100 0000 32 0100 0900 0800 01 05000000",
        ),
        (
            image(&["F0 0000 0000 01", "01 00 00000000 01 05"]),
            "F0 0000 0000 0100 01 0000000000 0105000000 00000000",
        ),
    ];
    for (image, form) in good {
        let form = bytes(form);
        packs_to(&image, form.len(), reply(0, form.len(), 0), &form);
        packs_to(&image, form.len() + 9, reply(0, form.len(), 0), &form);
        unpacks_to(&form, image.len() + 9, reply(0, image.len(), 0), &image);
        if let Some(less) = form.len().checked_sub(1) {
            packs_to(&image, less, reply(5, 0, 0), &[]);
            packs_to(&image, 0, reply(5, 0, 0), &[]);
            unpacks_to(&form, image.len() - 1, reply(5, 0, 0), &[]);
        }
    }
    let refused = [
        (vec![0xF0; 17], reply(1, 0, 0)),
        (image(&["F1"]), reply(2, 0, 0)),
        (image(&["F0", "F0 0000 01"]), reply(2, 1, 1)),
        (image(&["F0", "F0 0000 01", "52"]), reply(3, 1, 2)),
        (image(&["F0", "F0 0000 01", "01 0004"]), reply(4, 1, 2)),
        // A byte that would not be kept.
        (image(&["F0", "F0 0000 01", "0C 00 0000 01"]), reply(4, 1, 2)),
        (image(&["F0 0000 0000 0000 01"]), reply(4, 0, 0)),
    ];
    for (image, refusal) in refused {
        for lent in [0, 7, 100] {
            packs_to(&image, lent, refusal, &[]);
        }
    }
}

/// What unpacking refuses: each refusal at its smallest form, each two faults of one cell, and which
/// of two cells decides.
#[test]
fn unpacked_by_hand() {
    // The most cells: a head each.
    let full = "F0 0000 0000 0000".repeat(4096);
    let room_for_a_cell = "F0 0000 0000 0000".repeat(4095);
    let rows = [
        // The smallest.
        ("F0", reply(32, 0, 0)),
        ("00", reply(32, 0, 0)),
        ("F0 0000 0000 00", reply(32, 0, 0)),
        ("F0 0000 0100 0000", reply(32, 0, 1)),
        ("F0 0000 0000 0100", reply(32, 0, 1)),
        ("F0 0000 0100 0000 01", reply(32, 0, 1)),
        ("F0 0000 0100 0000 01 00", reply(32, 0, 1)),
        ("F0 0000 0000 0100 00", reply(32, 0, 1)),
        ("F1 0000 0000 0000", reply(2, 0, 0)),
        ("00 0000 0000 0000", reply(2, 0, 0)),
        // 2,049 instructions, 1,025 events; 2,048 and 1,024 may come.
        ("F0 0000 0108 0000", reply(2, 0, 0)),
        ("F0 0000 0000 0104", reply(2, 0, 0)),
        ("F0 0000 0008 0004", reply(32, 0, 1)),
        ("F0 0000 0100 0000 00", reply(3, 0, 1)),
        ("F0 0000 0100 0000 52", reply(3, 0, 1)),
        ("F0 0000 0100 0000 F0", reply(3, 0, 1)),
        ("F0 0000 0000 0100 02", reply(3, 0, 1)),
        ("F0 0000 0000 0100 0C", reply(3, 0, 1)),
        ("F0 0000 0100 0000 01 0004", reply(4, 0, 1)),
        ("F0 0000 0100 0000 0C 00 0100", reply(4, 0, 1)),
        ("F0 0000 0100 0000 0C 02 0000", reply(4, 0, 1)),
        ("F0 0000 0100 0000 28 0000 02", reply(4, 0, 1)),
        ("F0 0000 0100 0000 2C 0000 04", reply(4, 0, 1)),
        ("F0 0000 0000 0100 00 0001000000 0000000000 00000000", reply(4, 0, 1)),
        ("F0 0000 0000 0100 00 0000000000 0200000000 00000000", reply(4, 0, 1)),
        (&format!("{full} F0"), reply(1, 0, 0)),
        (&format!("{full} 00"), reply(1, 0, 0)),
        (&format!("{room_for_a_cell} F0 0000 0100 0000"), reply(1, 0, 0)),
        (&format!("{room_for_a_cell} F0 0000 0000 0100"), reply(1, 0, 0)),
        // 1 and 3; 1 and 32, in the cell or before it; 1 and 2; 1 and 4.
        (&format!("{room_for_a_cell} F0 0000 0100 0000 52"), reply(1, 0, 0)),
        (&format!("{room_for_a_cell} F0 0000 0100 0000 01"), reply(1, 0, 0)),
        (&format!("{full} F1 0000 0000 0000"), reply(1, 0, 0)),
        (&format!("{full} F0 0000 0108 0000"), reply(1, 0, 0)),
        (&format!("{room_for_a_cell} F0 0000 0100 0000 01 0004"), reply(1, 0, 0)),
        // 3 and 32; 3 and 4, of an event.
        ("F0 0000 0200 0000 52", reply(3, 0, 1)),
        ("F0 0000 0000 0100 02 0200000000 0000000000 00000000", reply(3, 0, 1)),
        // 32 and 2, the first byte or a limit; 32 and 4.
        ("F1 0000 0000 00", reply(32, 0, 0)),
        ("F0 0000 0108 00", reply(32, 0, 0)),
        ("F0 0000 0100 0000 13 0004 0000 00", reply(32, 0, 1)),
        ("F0 0000 0100 0000 0C 02", reply(32, 0, 1)),
        ("F0 0000 0000 0100 00 02", reply(32, 0, 1)),
        // 2 twice.
        ("F1 0000 0108 0104", reply(2, 0, 0)),
        // The first cell at fault decides, whatever is promised.
        ("F0 0000 0200 0000 01 0004 52", reply(4, 0, 1)),
        ("F0 0000 0200 0000 52 01 0004", reply(3, 0, 1)),
        ("F0 0000 0008 0004 01 0000 52", reply(3, 0, 2)),
        ("F0 0000 0008 0004 01 0000 01 0004", reply(4, 0, 2)),
        (&format!("{room_for_a_cell} F1 0000 0100 0000"), reply(2, 4095, 4095)),
        (&format!("{room_for_a_cell} F0 0000 0100"), reply(32, 4095, 4095)),
        // Functions are counted, and cells through all of them.
        ("F0 0700 0100 0000 0C 00 0000 F0", reply(32, 1, 2)),
        ("F0 0700 0100 0000 0C 00 0000 00", reply(32, 1, 2)),
        ("F0 0700 0100 0000 0C 00 0000 00 0000 0000 0000", reply(2, 1, 2)),
        ("F0 0700 0100 0000 0C 00 0000 F0 0700 0200 0000 01 0000 52", reply(3, 1, 4)),
        ("F0 0700 0000 0000 F0 0700 0000 0000 F0 0700 0200 0000 01 0000", reply(32, 2, 4)),
        ("F0 0700 0000 0000 F0 0700 0100 0100 01 0000 02", reply(3, 1, 3)),
    ];
    for (form, refusal) in rows {
        for lent in [0, 15, 16, 200, MAX_IMAGE + CELL] {
            unpacks_to(&bytes(form), lent, refusal, &[]);
        }
    }
    // At the limit, and at the last register, bool, quad and kind.
    let heads = image(&["F0"]).repeat(4096);
    unpacks_to(&bytes(&full), MAX_IMAGE, reply(0, MAX_IMAGE, 0), &heads);
    unpacks_to(&bytes(&full), MAX_IMAGE - 1, reply(5, 0, 0), &[]);
    let good = [
        ("", image(&[])),
        ("F0 0000 0100 0000 01 FF03", image(&["F0 0000 01", "01 FF03"])),
        ("F0 0000 0100 0000 28 0000 01", image(&["F0 0000 01", "28 0000 01"])),
        ("F0 0000 0100 0000 2C 0000 03", image(&["F0 0000 01", "2C 0000 03"])),
    ];
    for (form, image) in good {
        unpacks_to(&bytes(form), 40, reply(0, image.len(), 0), &image);
    }
}

/// No two images that differ in a bit pack alike.
#[test]
fn another_bit_gives_another_form() {
    let mut random = Random::new(1);
    let mut changed = 0;
    for part in random_inputs(200).images {
        let Some(form) = part.expected.packed().filter(|form| !form.is_empty()) else {
            continue;
        };
        for _ in 0..20 {
            let mut other = part.image.clone();
            other[random.below(part.image.len())] ^= 1 << random.below(8);
            if model::image_check(&other).is_ok() {
                assert!(packed::pack(&other) != form);
                changed += 1;
            }
        }
    }
    assert!(changed > 1000, "{changed}");
}

/// Whatever the model unpacks passes the image check, and packs to the same bytes.
#[test]
fn a_form_is_one_images() {
    let forms = random_inputs(300).forms;
    let accepted = forms.iter().filter(|unpacking| unpacking.answer.is_ok());
    for unpacking in accepted {
        let image = unpacking.answer.as_ref().unwrap();
        assert_eq!(model::image_check(image), Ok(()));
        assert!(packed::pack(image) == unpacking.packed);
    }
}

// ---- The program's words ----

type Says = fn(Said) -> Said;

/// Programs that say something else.
const WRONG_WORDS: [(&str, Says); 6] = [
    ("refusal on standard output", |said| match said.error.is_empty() {
        true => said,
        false => Said { output: said.error, error: vec![] },
    }),
    ("refusal without its line feed", |mut said| {
        said.error.pop();
        said
    }),
    ("a line feed behind the bytes", |mut said| {
        if said.error.is_empty() {
            said.output.push(b'\n');
        }
        said
    }),
    ("bytes as digits", |said| Said {
        output: compare::hexadecimal(&said.output).into_bytes(),
        error: said.error,
    }),
    ("something on standard output with a refusal", |mut said| {
        if !said.error.is_empty() {
            said.output.push(0);
        }
        said
    }),
    ("no refusal", |said| Said { error: vec![], ..said }),
];

#[test]
fn every_wrong_word_is_found() {
    let inputs = random_inputs(50);
    let images: Vec<Vec<u8>> = inputs.images.into_iter().map(|part| part.image).collect();
    let forms: Vec<Vec<u8>> = inputs.forms.into_iter().map(|form| form.packed).collect();
    for (text, inputs) in [(Text::Packed, images), (Text::Unpacked, forms)] {
        let check = |says: Says, input: &[u8]| {
            program::check_by(text, "wrong", |input| Ok(says(program::said(text, input)?)), input)
        };
        for (name, says) in WRONG_WORDS {
            let found = inputs.iter().find_map(|input| check(says, input).err());
            println!("{text:?}, {name}: {}", found.unwrap_or_else(|| panic!("{name}")));
        }
        assert!(inputs.iter().all(|input| check(|said| said, input).is_ok()));
    }
}

#[test]
fn words_by_hand() {
    let sent = image(&["F0070003", "2B010005", "13020001000100", "0C010200"]);
    let form = bytes("F0070003000000 2B010005000000 13020001000100 0C010200");
    let said = |output: &[u8], error: &str| Ok(Said { output: output.into(), error: error.into() });
    assert_eq!(program::said(Text::Packed, &sent), said(&form, ""));
    assert_eq!(program::said(Text::Unpacked, &form), said(&sent, ""));
    assert_eq!(program::said(Text::Packed, &sent[1..]), said(&[], "refused 1 0 0\n"));
    assert_eq!(program::said(Text::Unpacked, &form[..24]), said(&[], "refused 32 0 3\n"));
    assert_eq!(program::said(Text::Packed, &[]), said(&[], ""));
    assert_eq!(program::said(Text::Unpacked, &[]), said(&[], ""));
}
