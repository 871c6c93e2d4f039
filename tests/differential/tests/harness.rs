//! Shows that the harness finds what it is there to find.

#[macro_use]
mod common;

use differential::answers::{
    Checked, Operation, Operations, Refusal, Reply, Rewritten, Success, ORIGINALS,
};
use differential::cells::{self, CELL};
use differential::codec::{Form, Operand};
use differential::compare;
use differential::driver::{self, Groups};
use differential::factors::Leaf;
use differential::generate::{
    self, borrow, computed, computed_commands, default_commands, jmp, jmp_if, label, load_i32,
    make_record, one_function, ret, store_var, write,
};
use differential::leaves::{self, Computed, Const, INFINITY, NAN, SIGN, TRUTH_ORDER};
use differential::legacy_lowering::byte;
use differential::model::{self, Model};
use differential::{original, program, sample, table};

/// A program that answers as the model does but for one fault.
struct Wrong {
    fault: Fault,
}

#[derive(Debug, Clone, Copy, PartialEq)]
enum Fault {
    HandsTheImageBack,
    OnlyPretendsToFold,
    CountFromNowhere,
    ChangedAlways,
    TheSameImage,
    UntouchedOutput,
    RefusesEverything,
    TooShortBeforeMeasuring,
    WritesBeforeChecking,
    TouchesAByteBeyond,
    FoldsBeforeItCleans,
    CleansAgain,
    ClearsTheRest,
    RemovesLoadU32,
    DropsJmpAtTheEnd,
    KeepsNaNBits,
    DetailInBytes,
    SitesBeforeCells,
    // The truth-order quads.
    DefaultFoldsTruthOrder,
    CrystalFoldFoldsTruthOrder,
    FullerIsTheDefault,
    FullerLeaves(u8),
    FullerTakesTheApproximationOrder,
    FullerNotExchangesNAndS,
    FullerNotKeepsAll,
    FullerImpliesBackwards,
    FullerCountsAsTheDefault,
    FullerCountsTwice,
    FullerFoldsTheFourAfterwards,
    FullerKeepsKnowingWhatStaysWrites,
    FullerFoldsUnfitOperands,
    FullerOnlyFolds,
    FullerCleansAgain,
    FullerSkipsTheSiteCheck,
    FullerRefusesInBytes,
    FullerClearsTheRest,
    FullerChangedAsTheDefault,
    // Division by a float zero.
    DefaultDividesByZero,
    DefaultKnowsTheQuotient,
    CrystalFoldDividesByZero,
    FullerLeavesDivisionByZero,
    FullerLeavesDivisionByMinusZero,
    FullerIgnoresTheDivisorsSign,
    FullerIgnoresTheDividendsSign,
    FullerZeroByZeroIsInfinite,
    FullerNaNByZeroIsInfinite,
    FullerInfinityByZeroIsNaN,
    FullerSubnormalByZeroIsNaN,
    FullerNaNHasASign,
    FullerNaNHasAPayload,
    FullerDividesByZeroAfterwards,
    FullerDividesByASubnormalAsByZero,
    FullerDividesByZeroOfAnotherKind,
    FullerDividesAnotherKindByZero,
    FullerDividesTheUnknownByZero,
    // Barriers: of what was written since the last one, an entry stays known.
    ForgetsTheFirst(usize),
    ForgetsLoadsAlone,
    ForgetsAllButTheFirst,
    ForgetsAllButTheLast,
    KnownInTheNextFunction,
    KnownInTheNextFunctionWithoutEvents,
    // Registers past 255.
    RegistersBelow(u16),
    RewriteRegistersBelow256,
    LimitsDstAlone,
    LimitsNoOptionalRegister,
    AbsentRegisterWithASecondByte,
    SweepsLoadsByTheLowByte,
    TableByTheLowByte,
    ReadsByTheLowByte,
    WritesByTheLowByte,
    FoldsIntoTheLowByte,
}

const FAULTS: [Fault; 79] = [
    Fault::HandsTheImageBack,
    Fault::OnlyPretendsToFold,
    Fault::CountFromNowhere,
    Fault::ChangedAlways,
    Fault::TheSameImage,
    Fault::UntouchedOutput,
    Fault::RefusesEverything,
    Fault::TooShortBeforeMeasuring,
    Fault::WritesBeforeChecking,
    Fault::TouchesAByteBeyond,
    Fault::FoldsBeforeItCleans,
    Fault::CleansAgain,
    Fault::ClearsTheRest,
    Fault::RemovesLoadU32,
    Fault::DropsJmpAtTheEnd,
    Fault::KeepsNaNBits,
    Fault::DetailInBytes,
    Fault::SitesBeforeCells,
    Fault::DefaultFoldsTruthOrder,
    Fault::CrystalFoldFoldsTruthOrder,
    Fault::FullerIsTheDefault,
    Fault::FullerLeaves(byte::QTruthAnd),
    Fault::FullerLeaves(byte::QTruthImpl),
    Fault::FullerLeaves(byte::QTruthNot),
    Fault::FullerLeaves(byte::QTruthOr),
    Fault::FullerTakesTheApproximationOrder,
    Fault::FullerNotExchangesNAndS,
    Fault::FullerNotKeepsAll,
    Fault::FullerImpliesBackwards,
    Fault::FullerCountsAsTheDefault,
    Fault::FullerCountsTwice,
    Fault::FullerFoldsTheFourAfterwards,
    Fault::FullerKeepsKnowingWhatStaysWrites,
    Fault::FullerFoldsUnfitOperands,
    Fault::FullerOnlyFolds,
    Fault::FullerCleansAgain,
    Fault::FullerSkipsTheSiteCheck,
    Fault::FullerRefusesInBytes,
    Fault::FullerClearsTheRest,
    Fault::FullerChangedAsTheDefault,
    Fault::DefaultDividesByZero,
    Fault::DefaultKnowsTheQuotient,
    Fault::CrystalFoldDividesByZero,
    Fault::FullerLeavesDivisionByZero,
    Fault::FullerLeavesDivisionByMinusZero,
    Fault::FullerIgnoresTheDivisorsSign,
    Fault::FullerIgnoresTheDividendsSign,
    Fault::FullerZeroByZeroIsInfinite,
    Fault::FullerNaNByZeroIsInfinite,
    Fault::FullerInfinityByZeroIsNaN,
    Fault::FullerSubnormalByZeroIsNaN,
    Fault::FullerNaNHasASign,
    Fault::FullerNaNHasAPayload,
    Fault::FullerDividesByZeroAfterwards,
    Fault::FullerDividesByASubnormalAsByZero,
    Fault::FullerDividesByZeroOfAnotherKind,
    Fault::FullerDividesAnotherKindByZero,
    Fault::FullerDividesTheUnknownByZero,
    Fault::ForgetsTheFirst(256),
    Fault::ForgetsTheFirst(255),
    Fault::ForgetsTheFirst(64),
    Fault::ForgetsTheFirst(63),
    Fault::ForgetsLoadsAlone,
    Fault::ForgetsAllButTheFirst,
    Fault::ForgetsAllButTheLast,
    Fault::KnownInTheNextFunction,
    Fault::KnownInTheNextFunctionWithoutEvents,
    Fault::RegistersBelow(256),
    Fault::RegistersBelow(1023),
    Fault::RegistersBelow(1025),
    Fault::RewriteRegistersBelow256,
    Fault::LimitsDstAlone,
    Fault::LimitsNoOptionalRegister,
    Fault::AbsentRegisterWithASecondByte,
    Fault::SweepsLoadsByTheLowByte,
    Fault::TableByTheLowByte,
    Fault::ReadsByTheLowByte,
    Fault::WritesByTheLowByte,
    Fault::FoldsIntoTheLowByte,
];

/// Those that the original tells, without the model.
const BY_THE_ORIGINAL: [Fault; 35] = [
    Fault::DefaultFoldsTruthOrder,
    Fault::CrystalFoldFoldsTruthOrder,
    Fault::DefaultDividesByZero,
    Fault::DefaultKnowsTheQuotient,
    Fault::CrystalFoldDividesByZero,
    Fault::FullerFoldsTheFourAfterwards,
    Fault::FullerKeepsKnowingWhatStaysWrites,
    Fault::FullerFoldsUnfitOperands,
    Fault::FullerDividesByZeroAfterwards,
    Fault::FullerDividesByASubnormalAsByZero,
    Fault::FullerDividesByZeroOfAnotherKind,
    Fault::FullerDividesAnotherKindByZero,
    Fault::FullerDividesTheUnknownByZero,
    Fault::FullerCountsAsTheDefault,
    Fault::FullerCountsTwice,
    Fault::FullerChangedAsTheDefault,
    Fault::FullerOnlyFolds,
    Fault::FullerCleansAgain,
    Fault::FullerSkipsTheSiteCheck,
    Fault::FullerRefusesInBytes,
    Fault::ForgetsTheFirst(256),
    Fault::ForgetsTheFirst(255),
    Fault::ForgetsTheFirst(64),
    Fault::ForgetsTheFirst(63),
    Fault::ForgetsLoadsAlone,
    Fault::ForgetsAllButTheFirst,
    Fault::ForgetsAllButTheLast,
    Fault::KnownInTheNextFunction,
    Fault::KnownInTheNextFunctionWithoutEvents,
    Fault::RewriteRegistersBelow256,
    Fault::SweepsLoadsByTheLowByte,
    Fault::TableByTheLowByte,
    Fault::ReadsByTheLowByte,
    Fault::WritesByTheLowByte,
    Fault::FoldsIntoTheLowByte,
];

/// Writes an image over the start of a lent output.
fn written((bytes, num_rewrites): (Vec<u8>, u32), out: &mut [u8]) -> Rewritten {
    out[..bytes.len()].copy_from_slice(&bytes);
    Ok(Success { length: bytes.len(), num_rewrites, changed: num_rewrites > 0 })
}

/// The default rules, with the fuller ones for some commands.
fn default_but(commands: &[u8]) -> impl Fn(u8, Const, Const) -> Option<Const> + '_ {
    move |command, a, b| match commands.contains(&command) {
        true => model::fuller_rules(command, a, b),
        false => model::default_rules(command, a, b),
    }
}

/// The fuller rules, with a fault in division.
fn dividing(fault: Fault, command: u8, left: Const, right: Const) -> Option<Const> {
    use Const::{F64, I32};
    let value = model::fuller_rules(command, left, right);
    if command != byte::DivF64 {
        return value;
    }
    let divided_by = |divisor| model::fuller_rules(command, left, F64(divisor));
    match (fault, left, right, value) {
        (Fault::FullerDividesByZeroOfAnotherKind, F64(_), I32(0), _) => divided_by(0),
        (Fault::FullerDividesAnotherKindByZero, I32(_), F64(0), _) => Some(F64(INFINITY)),
        (Fault::FullerDividesByASubnormalAsByZero, F64(_), F64(b), _) if b & INFINITY == 0 => {
            divided_by(b & SIGN)
        }
        (_, F64(a), F64(b), Some(F64(quotient))) if leaves::fuller_only(command, left, right) => {
            by_zero(fault, a, b, quotient).map(F64)
        }
        _ => value,
    }
}

/// What a fault makes of dividend, zero and quotient.
fn by_zero(fault: Fault, dividend: u64, zero: u64, quotient: u64) -> Option<u64> {
    let is_nan = |bits| f64::from_bits(bits).is_nan();
    let infinity = INFINITY | (dividend ^ zero) & SIGN;
    match fault {
        Fault::FullerLeavesDivisionByZero => None,
        Fault::FullerLeavesDivisionByMinusZero if zero == SIGN => None,
        Fault::FullerIgnoresTheDivisorsSign if !is_nan(quotient) => Some(quotient ^ zero),
        Fault::FullerIgnoresTheDividendsSign if !is_nan(quotient) => Some(INFINITY | zero),
        Fault::FullerZeroByZeroIsInfinite if dividend & !SIGN == 0 => Some(infinity),
        Fault::FullerNaNByZeroIsInfinite if is_nan(dividend) => Some(infinity),
        Fault::FullerInfinityByZeroIsNaN if dividend & !SIGN == INFINITY => Some(NAN),
        Fault::FullerSubnormalByZeroIsNaN if dividend & INFINITY == 0 => Some(NAN),
        Fault::FullerNaNHasASign if is_nan(quotient) => Some(NAN | SIGN),
        Fault::FullerNaNHasAPayload if is_nan(dividend) => Some(NAN | dividend),
        _ => Some(quotient),
    }
}

/// The fuller rewrite with some folds in a pass of their own, so that they feed no other command.
fn folds_afterwards(image: &[u8], late: fn(u8, Const, Const) -> bool) -> (Vec<u8>, u32) {
    let rules = |now| {
        move |command, a, b| {
            model::fuller_rules(command, a, b).filter(|_| late(command, a, b) == now)
        }
    };
    let (bytes, one) = model::passes(image, true, Some(&rules(false)));
    let (bytes, two) = model::passes(&bytes, false, Some(&rules(true)));
    (bytes, one + two)
}

/// A table of what is known of the registers.
struct Table<'a> {
    /// The entry that a command reads of a register, and the one that it writes.
    read: fn(usize) -> usize,
    write: fn(usize) -> usize,
    /// Whether a barrier forgets a write: by its position since the last one, of how many, and
    /// whether by a load.
    forgets: &'a dyn Fn(usize, usize, bool) -> bool,
    /// Whether nothing is known where a function starts, behind so many events.
    starts: fn(usize) -> bool,
}

/// The right one.
const TABLE: Table = Table {
    read: |register| register,
    write: |register| register,
    forgets: &|_, _, _| true,
    starts: |_| true,
};

/// The default rewrite by a table.
fn rewritten_by(table: Table, image: &[u8]) -> (Vec<u8>, u32) {
    let (cleaned, mut count) = model::rewritten(Operation::Cleanup, image);
    let mut bytes = Vec::new();
    let mut known = [None; cells::REGISTERS];
    let mut written = Vec::new();
    let mut events = 0;
    for function in cells::functions(&cleaned) {
        let mut instrs = function.instrs.to_vec();
        if (table.starts)(events) {
            known.fill(None);
            written.clear();
        }
        events = function.events.len();
        for cell in &mut instrs {
            if cell[0] <= byte::StateUpdate {
                for (at, (entry, by_load)) in written.iter().enumerate() {
                    if (table.forgets)(at, written.len(), *by_load) {
                        known[*entry] = None;
                    }
                }
                written.clear();
                continue;
            }
            let Some(register) = table::layout(cell[0]).unwrap().dst(cell) else {
                continue;
            };
            let load = leaves::loaded(cell);
            let folded = match leaves::operand_values(cell, |read| known[(table.read)(read)]) {
                Some((Some(a), Some(b))) => model::default_rules(cell[0], a, b),
                _ => None,
            };
            let entry = (table.write)(register);
            known[entry] = load.map(|(_, value)| value).or(folded);
            written.push((entry, load.is_some()));
            if let Some(value) = folded {
                *cell = leaves::load(register, value);
                count += 1;
            }
        }
        cells::push_function(&mut bytes, function.name, &instrs, function.events);
    }
    (bytes, count)
}

fn low_byte(register: usize) -> usize {
    register % 256
}

/// The default rewrite, with a load gone where the next one's register has the same low byte.
fn sweeps_by_the_low_byte(image: &[u8]) -> (Vec<u8>, u32) {
    let (cleaned, mut count) = model::rewritten(Operation::Cleanup, image);
    let mut bytes = Vec::new();
    for function in cells::functions(&cleaned) {
        let load = |cell: &cells::Cell| leaves::loaded(cell).filter(|_| cell[0] != byte::LoadU32);
        let mut instrs = function.instrs.to_vec();
        for at in (1..instrs.len()).rev() {
            if let (Some((a, _)), Some((b, _))) = (load(&instrs[at - 1]), load(&instrs[at])) {
                if low_byte(a) == low_byte(b) {
                    instrs.remove(at - 1);
                    count += 1;
                }
            }
        }
        cells::push_function(&mut bytes, function.name, &instrs, function.events);
    }
    let (bytes, folds) = model::passes(&bytes, false, Some(&model::default_rules));
    (bytes, count + folds)
}

/// An image with other numbers for the registers of its instructions, as far as there are any;
/// `number` gives them by the operand, whether it is present, and what it was.
fn with_registers(image: &[u8], number: impl Fn(&Operand, bool, u16) -> u16) -> Vec<u8> {
    let mut bytes = image.to_vec();
    let cells = bytes.as_chunks_mut::<CELL>().0;
    let mut at = 0;
    while at < cells.len() && cells[at][0] == cells::HEAD {
        let instrs = cells::half(&cells[at], 3) as usize;
        let events = cells::half(&cells[at], 5) as usize;
        for cell in cells.iter_mut().skip(at + 1).take(instrs) {
            let Some(layout) = table::layout(cell[0]) else {
                continue;
            };
            for (operand, &(form, place)) in layout.command.operands.iter().zip(&layout.places) {
                let (present, place) = match form {
                    Form::Register => (true, place),
                    Form::OptionalRegister => (cell[place] == 1, place + 1),
                    _ => continue,
                };
                let new = number(operand, present, cells::half(cell, place));
                cell[place..place + 2].copy_from_slice(&new.to_le_bytes());
            }
        }
        at += 1 + instrs + events;
    }
    bytes
}

/// The greatest register, and a number that no register has.
const LAST: u16 = cells::REGISTERS as u16 - 1;
const NONE: u16 = u16::MAX;

impl Wrong {
    /// The image with its registers as a wrong check of them takes them: below 1,024 where it accepts
    /// them, and not where it refuses them.
    fn taken(&self, image: &[u8]) -> Vec<u8> {
        match self.fault {
            Fault::RegistersBelow(limit) => with_registers(image, |_, _, number| match number {
                number if number < limit => number.min(LAST),
                _ => NONE,
            }),
            Fault::LimitsDstAlone => with_registers(image, |operand, present, number| {
                if operand.name == "dst" || !present {
                    return number;
                }
                number.min(LAST)
            }),
            Fault::LimitsNoOptionalRegister => {
                with_registers(image, |operand, present, number| match operand.form {
                    Form::OptionalRegister if present => number.min(LAST),
                    _ => number,
                })
            }
            Fault::AbsentRegisterWithASecondByte => {
                with_registers(image, |_, present, number| match present {
                    true => number,
                    false => number & 0xFF,
                })
            }
            _ => image.to_vec(),
        }
    }
}

impl Operations for Wrong {
    fn name(&self) -> &'static str {
        "wrong"
    }
    fn image_check(&self, image: &[u8]) -> Checked {
        let answer = model::image_check(&self.taken(image));
        match self.fault {
            Fault::DetailInBytes => answer
                .map_err(|refusal| Refusal { detail: refusal.detail * CELL as u32, ..refusal }),
            _ => answer,
        }
    }
    fn site_check(&self, image: &[u8]) -> Checked {
        let answer = self.image_check(image).and_then(|()| model::site_check(&self.taken(image)));
        // Checks the sites of the first function before it looks at the second.
        if self.fault == Fault::SitesBeforeCells && image.len() >= CELL {
            let head = &cells::cells(image)[0];
            let count = 1 + cells::half(head, 3) as usize + cells::half(head, 5) as usize;
            if let Some(first) = image.get(..count * CELL) {
                return model::site_check(first).and(answer);
            }
        }
        answer
    }
    fn sealing_check(&self, image: &[u8]) -> Checked {
        Model.sealing_check(image)
    }
    fn pages(&self, image: &[u8], out: &mut [u8]) -> Reply {
        Model.pages(image, out)
    }
    fn cleanup(&self, image: &[u8], out: &mut [u8]) -> Rewritten {
        Model.cleanup(&self.taken(image), out)
    }
    fn crystalfold(&self, image: &[u8], out: &mut [u8]) -> Rewritten {
        let image = &self.taken(image);
        let answer = Model.crystalfold(image, out);
        let commands: &[u8] = match self.fault {
            Fault::CrystalFoldFoldsTruthOrder => &TRUTH_ORDER,
            Fault::CrystalFoldDividesByZero => &[byte::DivF64],
            _ => return answer,
        };
        answer?;
        written(model::passes(image, false, Some(&default_but(commands))), out)
    }
    fn fuller(&self, image: &[u8], out: &mut [u8]) -> Rewritten {
        use model::fuller_rules;
        let image = &self.taken(image);
        let before = out.to_vec();
        let answer = Model.fuller(image, out);
        if self.fault == Fault::FullerSkipsTheSiteCheck
            && answer.is_err_and(|refusal| refusal.number > 10)
        {
            return written(model::rewritten(Operation::Fuller, image), out);
        }
        if self.fault == Fault::FullerRefusesInBytes {
            answer
                .map_err(|refusal| Refusal { detail: refusal.detail * CELL as u32, ..refusal })?;
        }
        let success = answer?;
        let (_, num_rewrites) = model::rewritten(Operation::Rewrite, image);
        let mut with = |rules: model::Rules| {
            out.copy_from_slice(&before);
            written(model::passes(image, true, Some(rules)), out)
        };
        match self.fault {
            Fault::FullerIsTheDefault => with(&model::default_rules),
            Fault::FullerLeaves(left) => {
                with(&|command, a, b| fuller_rules(command, a, b).filter(|_| command != left))
            }
            Fault::FullerTakesTheApproximationOrder => with(&|command, a, b| {
                let command = match command {
                    byte::QTruthAnd => byte::QAnd,
                    byte::QTruthImpl => byte::QImpl,
                    byte::QTruthOr => byte::QOr,
                    other => other,
                };
                fuller_rules(command, a, b)
            }),
            Fault::FullerNotExchangesNAndS => with(&|command, a, b| match (command, a) {
                (byte::QTruthNot, Const::Quad(a)) => Some(Const::Quad(3 - a)),
                _ => fuller_rules(command, a, b),
            }),
            Fault::FullerNotKeepsAll => with(&|command, a, b| match (command, a) {
                (byte::QTruthNot, Const::Quad(a)) => Some(Const::Quad(a)),
                _ => fuller_rules(command, a, b),
            }),
            Fault::FullerImpliesBackwards => with(&|command, a, b| match command {
                byte::QTruthImpl => fuller_rules(command, b, a),
                _ => fuller_rules(command, a, b),
            }),
            Fault::FullerFoldsUnfitOperands => with(&|command, a, b| match (command, a, b) {
                (byte::QTruthOr, Const::Quad(2), _) => Some(a),
                _ => fuller_rules(command, a, b),
            }),
            Fault::FullerCountsAsTheDefault => Ok(Success { num_rewrites, ..success }),
            Fault::FullerCountsTwice => {
                let num_rewrites = 2 * success.num_rewrites - num_rewrites;
                Ok(Success { num_rewrites, ..success })
            }
            Fault::FullerFoldsTheFourAfterwards => {
                let late = |command, _, _| TRUTH_ORDER.contains(&command);
                written(folds_afterwards(image, late), out)
            }
            Fault::FullerDividesByZeroAfterwards => {
                let late =
                    |command, a, b| command == byte::DivF64 && leaves::fuller_only(command, a, b);
                written(folds_afterwards(image, late), out)
            }
            Fault::FullerDividesTheUnknownByZero => {
                let mut num_rewrites = success.num_rewrites;
                let cells = out[..success.length].as_chunks_mut::<CELL>().0;
                for at in 1..cells.len() {
                    // A division that stays right behind the load of its divisor.
                    let [load, cell] = [cells[at - 1], cells[at]];
                    let divisor = (cells::half(&cell, 5) as usize, Const::F64(0));
                    if cell[0] == byte::DivF64 && leaves::loaded(&load) == Some(divisor) {
                        let infinity = Const::F64(INFINITY);
                        cells[at] = leaves::load(cells::half(&cell, 1) as usize, infinity);
                        num_rewrites += 1;
                    }
                }
                Ok(Success { num_rewrites, changed: num_rewrites > 0, ..success })
            }
            Fault::FullerKeepsKnowingWhatStaysWrites => {
                let fuller = out[..success.length].to_vec();
                let stays = |cell: &cells::Cell| TRUTH_ORDER.contains(&cell[0]);
                let put = |bytes: &mut [u8], other: Option<cells::Cell>| {
                    let cells = bytes.as_chunks_mut::<CELL>().0.iter_mut();
                    for (cell, fuller) in cells.zip(cells::cells(&fuller)) {
                        if stays(fuller) {
                            *cell = other.unwrap_or(*fuller);
                        }
                    }
                };
                // While it folds, a cell that writes no register stands in for each that stays.
                let (mut bytes, one) = model::rewritten(Operation::Cleanup, image);
                put(&mut bytes, Some(store_var(0, None, None)));
                let (mut bytes, two) = model::passes(&bytes, false, Some(&fuller_rules));
                put(&mut bytes, None);
                written((bytes, one + two), out)
            }
            Fault::FullerOnlyFolds => {
                written(model::passes(image, false, Some(&fuller_rules)), out)
            }
            Fault::FullerCleansAgain => {
                let (fuller, one) = model::rewritten(Operation::Fuller, image);
                let (cleaned, two) = model::rewritten(Operation::Cleanup, &fuller);
                out.copy_from_slice(&before);
                written((cleaned, one + two), out)
            }
            Fault::FullerClearsTheRest => {
                out[success.length..].fill(0);
                Ok(success)
            }
            Fault::FullerChangedAsTheDefault => {
                Ok(Success { changed: num_rewrites > 0, ..success })
            }
            // In division, or elsewhere than in this operation.
            fault => with(&|command, a, b| dividing(fault, command, a, b)),
        }
    }
    fn rewrite(&self, image: &[u8], out: &mut [u8]) -> Rewritten {
        let refused = |number| Err(Refusal { number, position: 0, detail: 0 });
        if self.fault == Fault::TooShortBeforeMeasuring && out.len() < image.len() {
            return refused(5);
        }
        if self.fault == Fault::WritesBeforeChecking && !out.is_empty() && !image.is_empty() {
            out[0] = image[0];
        }
        let image = &match self.fault {
            Fault::RewriteRegistersBelow256 => {
                Wrong { fault: Fault::RegistersBelow(256) }.taken(image)
            }
            _ => self.taken(image),
        };
        let before = out.to_vec();
        let success = Model.rewrite(image, out)?;
        let again = |bytes: &[u8], out: &mut [u8], first: Operation, second: Operation| {
            let (half, one) = model::rewritten(first, bytes);
            let (whole, two) = model::rewritten(second, &half);
            out.copy_from_slice(&before);
            out[..whole.len()].copy_from_slice(&whole);
            Ok(Success { length: whole.len(), num_rewrites: one + two, changed: one + two > 0 })
        };
        match self.fault {
            Fault::HandsTheImageBack => {
                out[..image.len()].copy_from_slice(image);
                return Ok(Success { length: image.len(), num_rewrites: 0, changed: false });
            }
            Fault::OnlyPretendsToFold => {
                let (cleaned, _) = model::rewritten(Operation::Cleanup, image);
                out[..cleaned.len()].copy_from_slice(&cleaned);
            }
            Fault::CountFromNowhere => {
                let num_rewrites = image.len() as u32 / 32;
                return Ok(Success { num_rewrites, ..success });
            }
            Fault::ChangedAlways => return Ok(Success { changed: true, ..success }),
            Fault::TheSameImage => out[..success.length].fill(0),
            Fault::UntouchedOutput => out.copy_from_slice(&before),
            Fault::RefusesEverything => {
                out.copy_from_slice(&before);
                return refused(2);
            }
            Fault::TouchesAByteBeyond => {
                if let Some(byte) = out.get_mut(success.length) {
                    *byte = byte.wrapping_add(1);
                }
            }
            Fault::ClearsTheRest => out[success.length..].fill(0),
            Fault::FoldsBeforeItCleans => {
                return again(image, out, Operation::CrystalFold, Operation::Cleanup)
            }
            Fault::CleansAgain => {
                return again(image, out, Operation::Rewrite, Operation::Cleanup);
            }
            Fault::RemovesLoadU32 => {
                let cells = cells::cells(image);
                let two = |pair: &[cells::Cell]| {
                    pair.iter().all(|cell| cell[0] == byte::LoadU32)
                        && pair[0][1..3] == pair[1][1..3]
                };
                if cells.windows(2).any(two) {
                    let num_rewrites = success.num_rewrites + 1;
                    return Ok(Success { num_rewrites, changed: true, ..success });
                }
            }
            Fault::DropsJmpAtTheEnd => {
                let last = cells::cells(&out[..success.length]).last();
                if last.is_some_and(|cell| cell[0] == byte::Jmp) {
                    let length = success.length - CELL;
                    return Ok(Success { length, ..success });
                }
            }
            Fault::KeepsNaNBits => {
                for cell in out[..success.length].as_chunks_mut::<CELL>().0 {
                    if cell[0] == byte::LoadF64 && cells::double(cell, 3) == leaves::NAN {
                        cell[10] = 0xFF;
                    }
                }
            }
            Fault::DefaultFoldsTruthOrder => {
                return written(model::passes(image, true, Some(&default_but(&TRUTH_ORDER))), out);
            }
            Fault::DefaultDividesByZero => {
                let rules = default_but(&[byte::DivF64]);
                return written(model::passes(image, true, Some(&rules)), out);
            }
            Fault::DefaultKnowsTheQuotient => {
                // It folds what comes behind a division, but not the division.
                let rules = default_but(&[byte::DivF64]);
                let (mut bytes, mut num_rewrites) = model::passes(image, true, Some(&rules));
                for (cell, default) in bytes.as_chunks_mut().0.iter_mut().zip(cells::cells(out)) {
                    if default[0] == byte::DivF64 && cell != default {
                        *cell = *default;
                        num_rewrites -= 1;
                    }
                }
                return written((bytes, num_rewrites), out);
            }
            Fault::ForgetsTheFirst(many) => {
                let forgets = |at, _, _| at < many;
                return written(rewritten_by(Table { forgets: &forgets, ..TABLE }, image), out);
            }
            Fault::ForgetsLoadsAlone => {
                let forgets = |_, _, by_load| by_load;
                return written(rewritten_by(Table { forgets: &forgets, ..TABLE }, image), out);
            }
            Fault::ForgetsAllButTheFirst => {
                let forgets = |at, _, _| at > 0;
                return written(rewritten_by(Table { forgets: &forgets, ..TABLE }, image), out);
            }
            Fault::ForgetsAllButTheLast => {
                let forgets = |at, of, _| at + 1 < of;
                return written(rewritten_by(Table { forgets: &forgets, ..TABLE }, image), out);
            }
            Fault::KnownInTheNextFunction => {
                return written(rewritten_by(Table { starts: |_| false, ..TABLE }, image), out);
            }
            Fault::KnownInTheNextFunctionWithoutEvents => {
                let starts = |events| events > 0;
                return written(rewritten_by(Table { starts, ..TABLE }, image), out);
            }
            Fault::TableByTheLowByte => {
                let table = Table { read: low_byte, write: low_byte, ..TABLE };
                return written(rewritten_by(table, image), out);
            }
            Fault::ReadsByTheLowByte => {
                return written(rewritten_by(Table { read: low_byte, ..TABLE }, image), out);
            }
            Fault::WritesByTheLowByte => {
                return written(rewritten_by(Table { write: low_byte, ..TABLE }, image), out);
            }
            Fault::SweepsLoadsByTheLowByte => {
                out.copy_from_slice(&before);
                return written(sweeps_by_the_low_byte(image), out);
            }
            Fault::FoldsIntoTheLowByte => {
                let (cleaned, _) = model::rewritten(Operation::Cleanup, image);
                let cells = out.as_chunks_mut::<CELL>().0.iter_mut();
                for (cell, cleaned) in cells.zip(cells::cells(&cleaned)) {
                    if cell != cleaned {
                        cell[2] = 0;
                    }
                }
            }
            // Elsewhere than in this operation.
            _ => {}
        }
        Ok(success)
    }
    fn rest(&self, image: &[u8], out: &mut [u8]) -> Rewritten {
        Model.rest(&self.taken(image), out)
    }
    packing_of_the_model!();
    releases_of_the_model!();
    fn factor(&self, leaf: Leaf, wanted: i32, factor: i32, other: &mut i32) -> usize {
        Model.factor(leaf, wanted, factor, other)
    }
}

#[test]
fn every_wrong_program_is_found() {
    for fault in FAULTS {
        let wrong = Wrong { fault };
        let outcome = driver::compare(Groups::All, &[&wrong], 1, 0, 1);
        let found = outcome.found.unwrap_or_else(|| panic!("{fault:?} isn't found"));
        let cells = found.images.concat().len().div_ceil(CELL);
        println!("{fault:?}: {}, {cells} cells", found.difference.what);
        // A head, one write more than are forgotten, a barrier, and what it leaves known.
        let most = if let Fault::ForgetsTheFirst(many) = fault { many + 4 } else { 5 };
        assert!(cells <= most, "{fault:?} isn't shrunk: {cells} cells");
        // The default rewrite and the passes are compared with the original's.
        let by_the_original = ["Fuller by the original", "Rewrite", "CrystalFold"]
            .iter()
            .any(|what| found.difference.what.starts_with(what));
        let must = BY_THE_ORIGINAL.contains(&fault);
        assert!(by_the_original || !must, "{fault:?} isn't found by the original");
    }
}

/// These the groups of joined images alone find too: what is known in the next function, the order
/// of refusals, bytes that aren't the operation's to touch.
#[test]
fn found_by_joined_images() {
    for fault in [
        Fault::KnownInTheNextFunction,
        Fault::KnownInTheNextFunctionWithoutEvents,
        Fault::SitesBeforeCells,
        Fault::TooShortBeforeMeasuring,
        Fault::WritesBeforeChecking,
        Fault::TouchesAByteBeyond,
        Fault::ClearsTheRest,
        Fault::FullerClearsTheRest,
    ] {
        let outcome = driver::compare(Groups::Joined, &[&Wrong { fault }], 1, 20, 1);
        let found = outcome.found.unwrap_or_else(|| panic!("{fault:?} isn't found"));
        assert_eq!((found.group, found.images.len()), ("joined, short", 2), "{fault:?}");
    }
}

/// The wrong tables are wrong by what differs from this one alone.
#[test]
fn a_table_that_forgets_all_is_right() {
    let names = ["apart", "short functions", "functions", "blocks", "short lists"];
    for group in generate::exhaustive().iter().filter(|group| names.contains(&group.name)) {
        for index in (0..group.count).step_by(5) {
            let image = (group.image)(index);
            let right = model::rewritten(Operation::Rewrite, &image);
            assert_eq!(rewritten_by(TABLE, &image), right, "{} {index}", group.name);
        }
    }
}

/// Document 01's edge, where document 02 has it: register 1,023 is read, 1,024 refuses 4.
#[test]
fn the_last_register() {
    let refused = Err(Refusal { number: 4, position: 0, detail: 2 });
    let rows = [(255, Ok(())), (256, Ok(())), (1023, Ok(())), (1024, refused), (65535, refused)];
    for (register, answer) in rows {
        for cell in [
            load_i32(register, 5),
            computed(byte::AddI32, 1, register, 2),
            computed(byte::AddI32, 1, 2, register),
            computed(byte::QNot, 1, register, 0),
            jmp_if(register, 1),
            ret(Some(register)),
            store_var(register, None, None),
            make_record(register, None),
        ] {
            let image = one_function(&[label(1), cell], &[]);
            assert_eq!(model::image_check(&image), answer, "{cell:02X?}");
            let text = program::text(Operation::Rewrite, &image).unwrap();
            assert_eq!(text == "refused 4 0 2\n", answer.is_err(), "{cell:02X?}");
        }
    }
}

/// A limit of 1,024 on every register is the right one.
#[test]
fn registers_below_1024() {
    let right = Wrong { fault: Fault::RegistersBelow(1024) };
    let groups = generate::exhaustive();
    let group = groups.iter().find(|group| group.name == "registers").unwrap();
    for index in 0..group.count {
        let image = (group.image)(index);
        let expected = compare::expected(&image).unwrap();
        assert!(expected.check(&right, &image, &image).is_ok(), "{index}");
    }
}

/// Both rule sets, by the number of their commands.
#[test]
fn rule_sets() {
    assert_eq!(default_commands().count(), 31);
    assert_eq!(computed_commands().count(), 35);
    let value = Const::Quad(2);
    let [one, zero, minus_zero] = [1.0, 0.0, -0.0].map(|number: f64| Const::F64(number.to_bits()));
    let divisions = [zero, minus_zero].map(|zero| (byte::DivF64, one, zero));
    let quads = TRUTH_ORDER.map(|command| (command, value, value));
    for (command, a, b) in quads.into_iter().chain(divisions) {
        assert!(leaves::fuller_only(command, a, b));
        assert_eq!(model::default_rules(command, a, b), None);
        assert!(model::fuller_rules(command, a, b).is_some());
    }
    assert_eq!(model::default_rules(byte::DivF64, zero, one), Some(zero));
}

/// Document 02's four commands, worked out by hand: rows left, columns right, N F T S.
#[test]
fn truth_order_by_hand() {
    let tables = [
        (byte::QTruthAnd, "NFNF FFFF NFTS FFSS"),
        (byte::QTruthOr, "NNTT NFTS TTTT TSTS"),
        (byte::QTruthImpl, "NNTT TTTT NFTS TSTS"),
        (byte::QTruthNot, "NNNN TTTT FFFF SSSS"),
    ];
    for (command, table) in tables {
        for (left, row) in table.split(' ').enumerate() {
            for (right, result) in row.chars().enumerate() {
                let quad = "NFTS".find(result).unwrap() as u8;
                let (a, b) = (Const::Quad(left as u8), Const::Quad(right as u8));
                let value = Computed::Value(Const::Quad(quad));
                assert_eq!(leaves::compute(command, a, b), value, "{command:02X} {a:?} {b:?}");
            }
        }
        let other = Const::Bool(true);
        assert_eq!(leaves::compute(command, other, other), Computed::Unfit);
    }
}

/// Renamed F to N, N to F, S to T and T to S, the logical order is the approximation order. So the
/// original, which folds QAnd and QOr, decides what the fuller rewrite must make of the four.
#[test]
fn truth_order_by_the_original() {
    let renamed = [1, 0, 3, 2];
    let (not, or) = (byte::QNot, byte::QOr);
    let fold = |by: Operation, command, left, right| {
        let load = |register, quad| leaves::load(register, Const::Quad(quad));
        let instrs = [load(1, left), load(2, right), computed(command, 3, 1, 2)];
        let expected = compare::expected(&one_function(&instrs, &[])).unwrap();
        let cells = cells::cells(expected.written(by).unwrap());
        assert_eq!(cells[3][..3], [byte::LoadQ, 3, 0]);
        cells[3][3]
    };
    let rust = |command, left, right| fold(Operation::Rewrite, command, left, right);
    let fuller = |command, left, right| fold(Operation::Fuller, command, left, right);
    for left in 0..4u8 {
        assert_eq!(fuller(byte::QTruthNot, left, 0), rust(not, left, 0));
        for right in 0..4u8 {
            let by_rust = |command, left: u8, right: u8| {
                let quad = rust(command, renamed[left as usize], renamed[right as usize]);
                renamed[quad as usize]
            };
            assert_eq!(fuller(byte::QTruthAnd, left, right), by_rust(byte::QAnd, left, right));
            assert_eq!(fuller(byte::QTruthOr, left, right), by_rust(or, left, right));
            let not_left = rust(not, left, 0);
            assert_eq!(fuller(byte::QTruthImpl, left, right), by_rust(or, not_left, right));
        }
    }
}

/// The default rewrite and the passes leave the four, the fuller rewrite folds a chain of them.
#[test]
fn fuller_and_default() {
    let quad = |register, quad| leaves::load(register, Const::Quad(quad));
    let instrs = [
        quad(1, 2),
        quad(2, 1),
        computed(byte::QTruthAnd, 3, 1, 2),
        computed(byte::QAnd, 4, 3, 1),
        computed(byte::QTruthNot, 5, 9, 0),
    ];
    let image = one_function(&instrs, &[]);
    let expected = compare::expected(&image).unwrap();
    for operation in ORIGINALS {
        assert_eq!(expected.written(operation).unwrap(), image);
    }
    // T and F is F; in the approximation order F and T have N below them; register 9 is unknown.
    let folded = [instrs[0], instrs[1], quad(3, 1), quad(4, 0), instrs[4]];
    assert_eq!(expected.written(Operation::Fuller).unwrap(), one_function(&folded, &[]));
    let text = program::text(Operation::Fuller, &image).unwrap();
    assert!(text.ends_with("\n43050009000000000000000000000000\nrewrites 2\n"), "{text}");
    assert!(program::text(Operation::Rewrite, &image).unwrap().ends_with("\nrewrites 0\n"));
}

#[test]
fn the_model_agrees_for_every_output_length() {
    let image = one_function(&[load_i32(1, 5), computed(byte::AddI32, 2, 1, 1), ret(Some(2))], &[]);
    let expected = compare::expected(&image).unwrap();
    for length in 0..2 * image.len() {
        assert!(expected.check(&Model, &image, &vec![3; length]).is_ok());
    }
}

/// Document 01's printed example, byte by byte.
#[test]
fn printed_example() {
    let image = one_function(&[load_i32(1, 5), computed(byte::AddI32, 2, 1, 1), ret(Some(2))], &[]);
    let expected = compare::expected(&image).unwrap();
    let lines = [
        "F0070003000000000000000000000000",
        "2B010005000000000000000000000000",
        "2B02000A000000000000000000000000",
        "0C010200000000000000000000000000",
    ];
    let written = expected.written(Operation::Rewrite).unwrap();
    assert_eq!(compare::hexadecimal(written), lines.join("\n"));
    // Nothing that only the fuller one folds is in it, and it rests: all three rewrites write it.
    for operation in [Operation::Rewrite, Operation::Fuller, Operation::Rest] {
        let text = |image: &[u8]| program::text(operation, image).unwrap();
        assert_eq!(text(&image), format!("{}\nrewrites 1\n", lines.join("\n")));
        assert_eq!(text(&[]), "rewrites 0\n");
        assert_eq!(text(&[0]), "refused 1 0 0\n");
    }
}

#[test]
fn the_table_is_the_texts() {
    assert_eq!(table::check_against_text(), Ok(81));
}

/// The refusals called possible are those that the original gives, each of them.
#[test]
fn possible_refusals_are_given() {
    let instrs = [
        store_var(1, None, Some(10)), // no event
        make_record(1, Some(11)),     // no event
        store_var(1, None, Some(12)), // two events
        make_record(1, Some(13)),     // two events, as it may
    ];
    let unclaimed = [write(20), write(21), write(20)];
    let events = [write(12), write(13), write(12), write(13), write(20)];
    let images = [
        (one_function(&instrs, &events), vec![(24, 10), (24, 11), (25, 12)], (24, 10)),
        (one_function(&[], &unclaimed), vec![(26, 20), (26, 21)], (26, 20)),
    ];
    for (image, mut wanted, ours) in images {
        let mut given = Vec::new();
        for _ in 0..1000 {
            let answers = original::answers(&image).unwrap();
            let Refusal { number, detail, .. } = answers.sites.unwrap_err();
            given.push((number, detail));
        }
        given.sort();
        given.dedup();
        wanted.sort();
        assert_eq!(given, wanted);
        let refusal = model::site_check(&image).unwrap_err();
        assert_eq!((refusal.number, refusal.detail), ours);
    }
}

/// Neither validator alone stays good under cleanup, the whole check does.
#[test]
fn cleanup_keeps_the_whole_check() {
    let instrs =
        [store_var(1, Some(1), None), ret(None), make_record(1, Some(2)), label(3), jmp(3)];
    let image = one_function(&instrs, &[write(2), borrow(Some(1))]);
    let expected = compare::expected(&image).unwrap();
    let written = expected.written(Operation::Cleanup).unwrap();
    assert_eq!(written.len(), image.len() - 2 * CELL);
    assert_eq!(model::site_check(written), Ok(()));
}

#[test]
fn sample_is_replayed() {
    let (bytes, text) = sample::make(1).unwrap();
    println!("{text}");
    assert_eq!(sample::make(1).unwrap().0, bytes);
    assert!(sample::replay(&bytes, &Model).unwrap() >= 300);
    let faults = FAULTS.iter().filter(|fault| format!("{fault:?}").contains("Fuller"));
    let others = [
        Fault::OnlyPretendsToFold,
        Fault::DefaultFoldsTruthOrder,
        Fault::DefaultDividesByZero,
        Fault::DefaultKnowsTheQuotient,
        Fault::CrystalFoldDividesByZero,
        Fault::KnownInTheNextFunction,
        Fault::KnownInTheNextFunctionWithoutEvents,
        Fault::RegistersBelow(256),
        Fault::RegistersBelow(1023),
        Fault::RewriteRegistersBelow256,
        Fault::SweepsLoadsByTheLowByte,
        Fault::TableByTheLowByte,
        Fault::ReadsByTheLowByte,
        Fault::WritesByTheLowByte,
        Fault::FoldsIntoTheLowByte,
    ];
    for fault in faults.chain(&others) {
        assert!(sample::replay(&bytes, &Wrong { fault: *fault }).is_err(), "{fault:?}");
    }
}

/// The sample that is kept is the one that seed 1 makes.
#[test]
fn kept_sample() {
    assert!(sample::make(1).unwrap().0 == include_bytes!("../sample.bin"));
}
