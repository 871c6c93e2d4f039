//! What the computed commands give: document 01's modules 1 and 2, and document 02's
//! truth-order quads, division by a float zero, and reasons for no result.

use crate::cells::{self, Cell, CELL};
use crate::legacy_lowering::byte;

/// The one NaN that a folded result is written as.
pub const NAN: u64 = 0x7FF8_0000_0000_0000;

pub const INFINITY: u64 = 0x7FF0_0000_0000_0000;

/// The sign of an f64; alone it is -0.0.
pub const SIGN: u64 = 1 << 63;

/// A value of one of the six constant kinds, an f64 as its bits.
#[derive(Debug, Clone, Copy, PartialEq, Eq, Hash)]
pub enum Const {
    Quad(u8),
    Bool(bool),
    F64(u64),
    I32(i32),
    U32(u32),
    Fx(i32),
}

use Const::{Bool, Quad, F64, I32, U32};

#[derive(Debug, Clone, Copy, PartialEq, Eq)]
pub enum Computed {
    Value(Const),
    /// No result, and why (document 02, W5); "zero is tested first".
    DivisorZero,
    OutOfRange,
    /// An operand isn't of the command's kind.
    Unfit,
}

/// The commands that document 02 makes computed ones, and only the fuller rewrite folds.
pub const TRUTH_ORDER: [u8; 4] =
    [byte::QTruthAnd, byte::QTruthImpl, byte::QTruthNot, byte::QTruthOr];

/// Only the fuller rewrite folds this command on these values: a truth-order command on quads, or
/// DivF64 by either zero. A command of one operand has it twice.
pub fn fuller_only(command: u8, left: Const, right: Const) -> bool {
    match (left, right) {
        (Quad(_), Quad(_)) => TRUTH_ORDER.contains(&command),
        (F64(_), F64(divisor)) => command == byte::DivF64 && is_zero(divisor),
        _ => false,
    }
}

/// The number of operands of a computed command that is no load.
pub fn operands(command: u8) -> Option<usize> {
    match command {
        byte::BoolNot | byte::QNot | byte::QTruthNot => Some(1),
        byte::AddF64 | byte::SubF64 | byte::MulF64 | byte::DivF64 => Some(2),
        byte::AddFx | byte::SubFx | byte::MulFx | byte::DivFx => Some(2),
        byte::AddI32 | byte::SubI32 | byte::MulI32 | byte::DivI32 | byte::ModI32 => Some(2),
        byte::AddU32 | byte::SubU32 | byte::MulU32 | byte::DivU32 | byte::ModU32 => Some(2),
        byte::BoolAnd | byte::BoolOr | byte::QAnd | byte::QOr | byte::QImpl => Some(2),
        byte::QTruthAnd | byte::QTruthOr | byte::QTruthImpl => Some(2),
        byte::CmpEq | byte::CmpNe => Some(2),
        byte::CmpI32Le | byte::CmpI32Lt | byte::CmpU32Le | byte::CmpU32Lt => Some(2),
        _ => None,
    }
}

/// What the registers hold, by `held`, of a computed command's operands; a single one twice.
pub fn operand_values<T>(cell: &Cell, held: impl Fn(usize) -> T) -> Option<(T, T)> {
    let value = |place| held(cells::half(cell, place) as usize);
    match operands(cell[0])? {
        1 => Some((value(3), value(3))),
        _ => Some((value(3), value(5))),
    }
}

/// What a computed command gives; a command of one operand ignores the right.
pub fn compute(command: u8, left: Const, right: Const) -> Computed {
    let result = match (command, left, right) {
        (byte::AddI32, I32(a), I32(b)) => Ok(I32(wrapped(a as i64 + b as i64))),
        (byte::SubI32, I32(a), I32(b)) => Ok(I32(wrapped(a as i64 - b as i64))),
        (byte::MulI32, I32(a), I32(b)) => Ok(I32(wrapped(a as i64 * b as i64))),
        (byte::DivI32, I32(a), I32(b)) => divide(a as i64, b as i64).and_then(int).map(I32),
        // The remainder is missing where the quotient is.
        (byte::ModI32, I32(a), I32(b)) => divide(a as i64, b as i64)
            .and_then(int)
            .map(|quotient| I32((a as i64 - quotient as i64 * b as i64) as i32)),

        (byte::AddU32, U32(a), U32(b)) => unsigned(a as i128 + b as i128),
        (byte::SubU32, U32(a), U32(b)) => unsigned(a as i128 - b as i128),
        (byte::MulU32, U32(a), U32(b)) => unsigned(a as i128 * b as i128),
        (byte::DivU32, U32(a), U32(b)) => {
            divide(a as i64, b as i64).and_then(|quotient| unsigned(quotient as i128))
        }
        (byte::ModU32, U32(a), U32(b)) => divide(a as i64, b as i64)
            .and_then(|quotient| unsigned(a as i128 - quotient as i128 * b as i128)),

        (byte::AddFx, Const::Fx(a), Const::Fx(b)) => int(a as i64 + b as i64).map(Const::Fx),
        (byte::SubFx, Const::Fx(a), Const::Fx(b)) => int(a as i64 - b as i64).map(Const::Fx),
        (byte::MulFx, Const::Fx(a), Const::Fx(b)) => {
            divide(a as i64 * b as i64, 1000).and_then(int).map(Const::Fx)
        }
        (byte::DivFx, Const::Fx(a), Const::Fx(b)) => {
            divide(a as i64 * 1000, b as i64).and_then(int).map(Const::Fx)
        }

        (byte::AddF64, F64(a), F64(b)) => Ok(float(a, b, |x, y| x + y)),
        (byte::SubF64, F64(a), F64(b)) => Ok(float(a, b, |x, y| x - y)),
        (byte::MulF64, F64(a), F64(b)) => Ok(float(a, b, |x, y| x * y)),
        (byte::DivF64, F64(a), F64(b)) if is_zero(b) => Ok(F64(by_zero(a, b))),
        (byte::DivF64, F64(a), F64(b)) => Ok(float(a, b, |x, y| x / y)),

        (byte::BoolNot, Bool(a), _) => Ok(Bool(!a)),
        (byte::BoolAnd, Bool(a), Bool(b)) => Ok(Bool(a & b)),
        (byte::BoolOr, Bool(a), Bool(b)) => Ok(Bool(a | b)),

        (byte::QNot, Quad(a), _) => Ok(Quad(exchanged(a))),
        (byte::QAnd, Quad(a), Quad(b)) => Ok(Quad(greatest_lower(&APPROXIMATION, a, b))),
        (byte::QOr, Quad(a), Quad(b)) => Ok(Quad(least_upper(&APPROXIMATION, a, b))),
        (byte::QImpl, Quad(a), Quad(b)) => Ok(Quad(least_upper(&APPROXIMATION, exchanged(a), b))),

        (byte::QTruthNot, Quad(a), _) => Ok(Quad(exchanged(a))),
        (byte::QTruthAnd, Quad(a), Quad(b)) => Ok(Quad(greatest_lower(&TRUTH, a, b))),
        (byte::QTruthOr, Quad(a), Quad(b)) => Ok(Quad(least_upper(&TRUTH, a, b))),
        (byte::QTruthImpl, Quad(a), Quad(b)) => Ok(Quad(least_upper(&TRUTH, exchanged(a), b))),

        (byte::CmpEq, a, b) => Ok(Bool(equal(a, b))),
        (byte::CmpNe, a, b) => Ok(Bool(!equal(a, b))),
        (byte::CmpI32Le, I32(a), I32(b)) => Ok(Bool(a <= b)),
        (byte::CmpI32Lt, I32(a), I32(b)) => Ok(Bool(a < b)),
        (byte::CmpU32Le, U32(a), U32(b)) => Ok(Bool(a <= b)),
        (byte::CmpU32Lt, U32(a), U32(b)) => Ok(Bool(a < b)),
        _ => return Computed::Unfit,
    };
    result.map_or_else(|reason| reason, Computed::Value)
}

/// The Rust's DivF64, as the default rewrite has it: "declines a zero divisor by that name"
/// (document 02, W5), and else is IEEE 754's.
pub fn default_divide(left: u64, right: u64) -> Computed {
    if is_zero(right) {
        return Computed::DivisorZero;
    }
    compute(byte::DivF64, F64(left), F64(right))
}

/// Modulo 2^32, as an i32.
fn wrapped(number: i64) -> i32 {
    let low = number.rem_euclid(1 << 32);
    (if low < 1 << 31 { low } else { low - (1 << 32) }) as i32
}

fn int(number: i64) -> Result<i32, Computed> {
    i32::try_from(number).map_err(|_| Computed::OutOfRange)
}

fn unsigned(number: i128) -> Result<Const, Computed> {
    u32::try_from(number).map(U32).map_err(|_| Computed::OutOfRange)
}

/// Toward zero; for divisor 0 the reason.
fn divide(number: i64, divisor: i64) -> Result<i64, Computed> {
    if divisor == 0 {
        return Err(Computed::DivisorZero);
    }
    Ok(number / divisor)
}

fn float(a: u64, b: u64, operation: fn(f64, f64) -> f64) -> Const {
    let result = operation(f64::from_bits(a), f64::from_bits(b));
    F64(if result.is_nan() { NAN } else { result.to_bits() })
}

/// Either zero: all bits but the sign are 0.
fn is_zero(bits: u64) -> bool {
    bits & !SIGN == 0
}

/// Document 02's words, on bits and without the host's division: "a nonzero number by zero is an
/// infinity with the product of the signs, and zero or NaN by zero is NaN."
fn by_zero(dividend: u64, zero: u64) -> u64 {
    let is_nan = dividend & !SIGN > INFINITY;
    if is_zero(dividend) || is_nan {
        return NAN;
    }
    let product_of_signs = (dividend ^ zero) & SIGN;
    INFINITY | product_of_signs
}

const QUAD_N: u8 = 0;
const QUAD_F: u8 = 1;
const QUAD_T: u8 = 2;
const QUAD_S: u8 = 3;

/// An order of the quads: each with those directly above it.
type Order = [(u8, u8); 4];

/// Belnap's approximation order: N is below F and T, and both are below S.
const APPROXIMATION: Order =
    [(QUAD_N, QUAD_F), (QUAD_N, QUAD_T), (QUAD_F, QUAD_S), (QUAD_T, QUAD_S)];

/// Belnap's logical order: F below N and S, both below T.
const TRUTH: Order = [(QUAD_F, QUAD_N), (QUAD_F, QUAD_S), (QUAD_N, QUAD_T), (QUAD_S, QUAD_T)];

/// Two quads are equal, or pairs lead up from the one to the other.
fn below(order: &Order, a: u8, b: u8) -> bool {
    a == b || order.iter().any(|&(low, high)| low == a && below(order, high, b))
}

fn exchanged(a: u8) -> u8 {
    match a {
        QUAD_F => QUAD_T,
        QUAD_T => QUAD_F,
        other => other,
    }
}

fn greatest_lower(order: &Order, a: u8, b: u8) -> u8 {
    let lower = |c: u8| below(order, c, a) && below(order, c, b);
    let greatest = |c: &u8| lower(*c) && (0..4).all(|d| !lower(d) || below(order, d, *c));
    (0..4).find(greatest).unwrap()
}

fn least_upper(order: &Order, a: u8, b: u8) -> u8 {
    let upper = |c: u8| below(order, a, c) && below(order, b, c);
    let least = |c: &u8| upper(*c) && (0..4).all(|d| !upper(d) || below(order, *c, d));
    (0..4).find(least).unwrap()
}

fn equal(a: Const, b: Const) -> bool {
    match (a, b) {
        (F64(a), F64(b)) => f64::from_bits(a) == f64::from_bits(b),
        (a, b) => a == b,
    }
}

/// The register and the value of a load of the six kinds.
pub fn loaded(cell: &Cell) -> Option<(usize, Const)> {
    let value = match cell[0] {
        byte::LoadQ => Quad(cell[3]),
        byte::LoadBool => Bool(cell[3] == 1),
        byte::LoadI32 => I32(cells::word(cell, 3) as i32),
        byte::LoadU32 => U32(cells::word(cell, 3)),
        byte::LoadF64 => F64(cells::double(cell, 3)),
        byte::LoadFx => Const::Fx(cells::word(cell, 3) as i32),
        _ => return None,
    };
    Some((cells::half(cell, 1) as usize, value))
}

/// The load of a value.
pub fn load(dst: usize, value: Const) -> Cell {
    let mut cell = [0; CELL];
    cell[1..3].copy_from_slice(&(dst as u16).to_le_bytes());
    let mut put = |command: u8, bytes: &[u8]| {
        cell[0] = command;
        cell[3..3 + bytes.len()].copy_from_slice(bytes);
    };
    match value {
        Quad(q) => put(byte::LoadQ, &[q]),
        Bool(b) => put(byte::LoadBool, &[b as u8]),
        I32(i) => put(byte::LoadI32, &i.to_le_bytes()),
        U32(u) => put(byte::LoadU32, &u.to_le_bytes()),
        F64(bits) => put(byte::LoadF64, &bits.to_le_bytes()),
        Const::Fx(raw) => put(byte::LoadFx, &raw.to_le_bytes()),
    }
    cell
}
