//! Division by a float zero (document 02, W4), worked out by hand: as a run, as a fold, and by the
//! records of a function as sent and as returned.

use differential::answers::{Operation, ORIGINALS};
use differential::cells::{self, Cell};
use differential::compare;
use differential::driver::records;
use differential::generate::{computed, load_i32, one_function, ret, store_var};
use differential::joined::Part;
use differential::leaves::{self, Const};
use differential::legacy_lowering::byte;
use differential::program;
use differential::random::Random;
use differential::runs::{
    any_registers, claims, edges, Cause, Entry, Outside, Registers, Run, Value, What,
};

const OUTSIDE: Outside = Outside { seed: 1, stops: 0, misfits: 0 };

const ZERO: u64 = 0x0000_0000_0000_0000;
const MINUS_ZERO: u64 = 0x8000_0000_0000_0000;
const ONE: u64 = 0x3FF0_0000_0000_0000;
const MINUS_ONE: u64 = 0xBFF0_0000_0000_0000;
const INFINITY: u64 = 0x7FF0_0000_0000_0000;
const MINUS_INFINITY: u64 = 0xFFF0_0000_0000_0000;
const NAN: u64 = 0x7FF8_0000_0000_0000;
const LEAST: u64 = 0x0000_0000_0000_0001;
const GREATEST_SUBNORMAL: u64 = 0x000F_FFFF_FFFF_FFFF;
const GREATEST: u64 = 0x7FEF_FFFF_FFFF_FFFF;

/// Dividend, divisor and quotient.
const QUOTIENTS: [(u64, u64, u64); 24] = [
    // A nonzero number by zero is an infinity with the product of the signs.
    (ONE, ZERO, INFINITY),
    (MINUS_ONE, ZERO, MINUS_INFINITY),
    (ONE, MINUS_ZERO, MINUS_INFINITY),
    (MINUS_ONE, MINUS_ZERO, INFINITY),
    (INFINITY, ZERO, INFINITY),
    (MINUS_INFINITY, ZERO, MINUS_INFINITY),
    (INFINITY, MINUS_ZERO, MINUS_INFINITY),
    (MINUS_INFINITY, MINUS_ZERO, INFINITY),
    (LEAST, ZERO, INFINITY),
    (LEAST, MINUS_ZERO, MINUS_INFINITY),
    (MINUS_ZERO | LEAST, ZERO, MINUS_INFINITY),
    (MINUS_ZERO | LEAST, MINUS_ZERO, INFINITY),
    (GREATEST_SUBNORMAL, ZERO, INFINITY),
    (GREATEST, MINUS_ZERO, MINUS_INFINITY),
    (MINUS_ZERO | GREATEST, ZERO, MINUS_INFINITY),
    // Zero or NaN by zero is NaN, of the bits that every operation gives.
    (ZERO, ZERO, NAN),
    (MINUS_ZERO, ZERO, NAN),
    (ZERO, MINUS_ZERO, NAN),
    (MINUS_ZERO, MINUS_ZERO, NAN),
    (NAN, ZERO, NAN),
    (0xFFF8_0000_0000_0123, ZERO, NAN),
    (0x7FF8_0000_0000_0123, MINUS_ZERO, NAN),
    (0x7FF0_0000_0000_0001, ZERO, NAN),
    (0xFFF4_0000_0000_0000, MINUS_ZERO, NAN),
];

fn float(register: usize, bits: u64) -> Cell {
    leaves::load(register, Const::F64(bits))
}

fn div(dst: u16, lhs: u16, rhs: u16) -> Cell {
    computed(byte::DivF64, dst, lhs, rhs)
}

/// Register 1 by register 2 into 3, an outside action, and an end that returns 3.
fn sent(dividend: u64, divisor: u64) -> [Cell; 5] {
    let store = store_var(3, None, None);
    [float(1, dividend), float(2, divisor), div(3, 1, 2), store, ret(Some(3))]
}

/// The same, with another cell in the division's place.
fn with(cell: Cell, sent: [Cell; 5]) -> [Cell; 5] {
    let [dividend, divisor, _, store, end] = sent;
    [dividend, divisor, cell, store, end]
}

fn registers() -> Box<Registers> {
    any_registers(&mut Random::new(1), 0)
}

/// The record of a whole run.
fn record(instrs: &[Cell]) -> Vec<Entry> {
    let mut run = Run::new(instrs, &registers(), OUTSIDE);
    for _ in instrs {
        run.step();
    }
    assert!(run.ended());
    run.entries
}

/// What a rewrite returns of a function of its own.
fn returned(operation: Operation, instrs: &[Cell]) -> Vec<Cell> {
    let expected = compare::expected(&one_function(instrs, &[])).unwrap();
    let function = cells::functions(expected.written(operation).unwrap()).next().unwrap();
    function.instrs.to_vec()
}

#[test]
fn a_run_goes_on_with_the_quotient() {
    for (dividend, divisor, quotient) in QUOTIENTS {
        let entries = record(&sent(dividend, divisor));
        let what: Vec<What> = entries.iter().map(|entry| entry.what).collect();
        let store = What::Action(store_var(3, None, None));
        assert_eq!(what, [store, What::End(Cause::Ret(Some(3)))], "{dividend:X} {divisor:X}");
        for entry in &entries {
            let value = Value::Const(Const::F64(quotient));
            assert_eq!(entry.registers[3], value, "{dividend:X} {divisor:X}");
        }
    }
}

#[test]
fn only_the_fuller_rewrite_folds() {
    for (dividend, divisor, quotient) in QUOTIENTS {
        let sent = sent(dividend, divisor);
        for operation in ORIGINALS {
            assert_eq!(returned(operation, &sent), sent, "{dividend:X} {divisor:X}");
        }
        let folded = with(float(3, quotient), sent);
        assert_eq!(returned(Operation::Fuller, &sent), folded, "{dividend:X} {divisor:X}");
        let image = one_function(&sent, &[]);
        let text = |operation| program::text(operation, &image).unwrap();
        assert!(text(Operation::Rewrite).ends_with("\nrewrites 0\n"));
        assert!(text(Operation::Fuller).ends_with("\nrewrites 1\n"));
    }
}

/// As demand 3 compares them, under both rewrites; and entry by entry, since no cell goes.
#[test]
fn both_rewrites_keep_the_records() {
    for (dividend, divisor, _) in QUOTIENTS {
        let sent = sent(dividend, divisor);
        for operation in [Operation::Rewrite, Operation::Fuller] {
            let returned = returned(operation, &sent);
            assert_eq!(record(&returned), record(&sent), "{dividend:X} {divisor:X}");
            assert!(claims(&sent, &returned, &registers(), OUTSIDE, 40).is_ok());
        }
        let image = one_function(&sent, &[]);
        assert_eq!(records(&Part::new(&image).unwrap(), &mut Random::new(1), 3).unwrap().0, 6);
    }
}

/// x / 0 is x times infinity, the zero's sign on it; that product the original folds.
#[test]
fn quotients_by_the_original() {
    for value in edges(3) {
        for sign in [ZERO, MINUS_ZERO] {
            let load = |register| leaves::load(register, value);
            let by_zero = [load(1), float(2, sign), div(3, 1, 2)];
            let product = [load(1), float(2, sign | INFINITY), computed(byte::MulF64, 3, 1, 2)];
            let quotient = returned(Operation::Fuller, &by_zero)[2];
            let product = returned(Operation::Rewrite, &product)[2];
            assert_eq!(product[0], byte::LoadF64);
            assert_eq!(quotient, product, "{value:X?} {sign:X}");
        }
    }
}

/// The quotient is known to the fuller rewrite; the default one forgets its register.
#[test]
fn chains() {
    let (one, zero, minus_zero) = (float(1, ONE), float(2, ZERO), float(2, MINUS_ZERO));
    let add = |dst, lhs, rhs| computed(byte::AddF64, dst, lhs, rhs);
    let sub = |dst, lhs, rhs| computed(byte::SubF64, dst, lhs, rhs);
    let equal = |dst, lhs, rhs| computed(byte::CmpEq, dst, lhs, rhs);
    let bool = |register, bool| leaves::load(register, Const::Bool(bool));
    let rows: [(&[Cell], &[Cell]); 4] = [
        // -infinity; with 1.0 the same; less itself NaN; 1.0 by it is -0.0, and 1.0 by that again
        // -infinity; NaN isn't equal to itself.
        (
            &[
                one,
                minus_zero,
                div(3, 1, 2),
                add(4, 3, 1),
                sub(5, 3, 3),
                div(6, 1, 3),
                div(7, 1, 6),
                equal(8, 7, 3),
                equal(9, 5, 5),
            ],
            &[
                one,
                minus_zero,
                float(3, MINUS_INFINITY),
                float(4, MINUS_INFINITY),
                float(5, NAN),
                float(6, MINUS_ZERO),
                float(7, MINUS_INFINITY),
                bool(8, true),
                bool(9, false),
            ],
        ),
        // The dividend's own register, then the divisor's.
        (
            &[one, zero, div(1, 1, 2), add(3, 1, 1)],
            &[one, zero, float(1, INFINITY), float(3, INFINITY)],
        ),
        (
            &[one, zero, div(2, 1, 2), add(3, 2, 2)],
            &[one, zero, float(2, INFINITY), float(3, INFINITY)],
        ),
        // One that stays makes its register unknown to both.
        (&[one, zero, div(1, 9, 2), add(3, 1, 1)], &[one, zero, div(1, 9, 2), add(3, 1, 1)]),
    ];
    for (sent, fuller) in rows {
        for operation in ORIGINALS {
            assert_eq!(returned(operation, sent), sent);
        }
        assert_eq!(returned(Operation::Fuller, sent), fuller);
        assert!(claims(sent, fuller, &registers(), OUTSIDE, 40).is_ok());
    }
}

/// A zero alone decides nothing.
#[test]
fn what_both_rewrites_leave() {
    let rows = [
        // Register 9 is unknown.
        [float(1, ONE), float(2, ZERO), div(3, 9, 2)],
        [float(1, ONE), float(2, ZERO), div(3, 1, 9)],
        [float(1, ONE), load_i32(2, 0), div(3, 1, 2)],
        [float(1, ONE), leaves::load(2, Const::Fx(0)), div(3, 1, 2)],
        [load_i32(1, 1), float(2, ZERO), div(3, 1, 2)],
        [leaves::load(1, Const::Quad(2)), float(2, MINUS_ZERO), div(3, 1, 2)],
    ];
    for sent in rows {
        for operation in [Operation::Rewrite, Operation::Fuller] {
            assert_eq!(returned(operation, &sent), sent, "{sent:02X?}");
        }
    }
}

/// Functions as sent, and as wrong rewrites would return them.
#[test]
fn the_claims_tell_quotients_apart() {
    let results = [
        INFINITY,
        MINUS_INFINITY,
        NAN,
        MINUS_ZERO | NAN,
        0x7FF8_0000_0000_0123,
        ZERO,
        MINUS_ZERO,
        GREATEST,
    ];
    for (dividend, divisor, quotient) in QUOTIENTS {
        let sent = sent(dividend, divisor);
        for result in results {
            let returned = with(float(3, result), sent);
            let claims = claims(&sent, &returned, &registers(), OUTSIDE, 40);
            assert_eq!(claims.is_ok(), result == quotient, "{dividend:X} {divisor:X}: {result:X}");
        }
    }
    // Unfit operands end the run as sent, and a fold would go on.
    let sent = [load_i32(1, 1), float(2, ZERO), div(3, 1, 2)];
    let returned = [sent[0], sent[1], float(3, INFINITY)];
    assert!(claims(&sent, &returned, &registers(), OUTSIDE, 40).is_err());
}

/// Were division by zero still no result, the sent function would end there and what the fuller
/// rewrite returns would go on. A division that has no result stands in for it: DivI32 by 0.
#[test]
fn the_claims_tell_a_run_that_ends_there_apart() {
    let mut registers = registers();
    registers[4] = Value::Const(Const::I32(0));
    for (dividend, divisor, quotient) in QUOTIENTS {
        let sent = sent(dividend, divisor);
        let ends = with(computed(byte::DivI32, 3, 4, 4), sent);
        let folded = with(float(3, quotient), sent);
        let apart = |sent, returned| claims(sent, returned, &registers, OUTSIDE, 40).is_err();
        assert!(!apart(&ends, &ends) && !apart(&sent, &folded));
        assert!(apart(&ends, &folded), "{dividend:X} {divisor:X}");
        assert!(apart(&sent, &ends), "{dividend:X} {divisor:X}");
    }
}
