//! The running rule's reading, and that the claims fail where they must.

use differential::cells::Cell;
use differential::driver::records;
use differential::generate::{
    computed, jmp, jmp_if, label, load_i32, one_function, ret, store_var,
};
use differential::joined::Part;
use differential::leaves::{self, Const};
use differential::legacy_lowering::byte;
use differential::random::Random;
use differential::runs::{any_registers, claims, Cause, Outside, Registers, Run, Value, What};

const OUTSIDE: Outside = Outside { seed: 1, stops: 0, misfits: 0 };

fn registers() -> Box<Registers> {
    any_registers(&mut Random::new(1), 0)
}

/// How a function ends, and the record's length after each number of steps.
fn end(instrs: &[Cell], registers: &Registers) -> (Option<Cause>, Vec<usize>) {
    let mut run = Run::new(instrs, registers, OUTSIDE);
    for _ in 0..4 {
        run.step();
    }
    let cause = match run.entries.last().map(|entry| entry.what) {
        Some(What::End(cause)) => Some(cause),
        _ => None,
    };
    (cause, run.lengths)
}

#[test]
fn ends() {
    let mut registers = registers();
    registers[8] = Value::Const(Const::Bool(false));
    registers[9] = Value::Const(Const::Bool(true));
    registers[264] = Value::Const(Const::Bool(true));
    registers[1023] = Value::Const(Const::Bool(false));
    let zero = leaves::load(1, Const::I32(0));
    let bool = leaves::load(2, Const::Bool(true));
    let float = |dst, bits| leaves::load(dst, Const::F64(bits));
    let rows: Vec<(Vec<Cell>, Cause, Vec<usize>)> = vec![
        // Before any step.
        (vec![], Cause::LastCell, vec![1, 1, 1, 1, 1]),
        (vec![ret(Some(3))], Cause::Ret(Some(3)), vec![0, 1, 1, 1, 1]),
        (vec![ret(Some(1023))], Cause::Ret(Some(1023)), vec![0, 1, 1, 1, 1]),
        (vec![jmp(9)], Cause::MissingLabel, vec![0, 1, 1, 1, 1]),
        // A jump lands on the Label cell, which is a step.
        (vec![jmp(1), label(1), ret(None)], Cause::Ret(None), vec![0, 0, 0, 1, 1]),
        // A JmpIf that isn't taken goes on even if its label is missing.
        (vec![jmp_if(8, 9), ret(None)], Cause::Ret(None), vec![0, 0, 1, 1, 1]),
        (vec![jmp_if(9, 9), ret(None)], Cause::MissingLabel, vec![0, 1, 1, 1, 1]),
        (vec![jmp_if(264, 9), ret(None)], Cause::MissingLabel, vec![0, 1, 1, 1, 1]),
        (vec![jmp_if(1023, 9), ret(None)], Cause::Ret(None), vec![0, 0, 1, 1, 1]),
        (vec![jmp_if(0, 9)], Cause::UnfitOperand, vec![0, 1, 1, 1, 1]),
        // An action and the end in one step.
        (vec![store_var(1, None, None)], Cause::LastCell, vec![0, 2, 2, 2, 2]),
        // A wrong kind wins over a missing result.
        (vec![zero, computed(byte::DivI32, 3, 1, 1)], Cause::NoResult, vec![0, 0, 1, 1, 1]),
        (
            vec![zero, bool, computed(byte::DivI32, 3, 2, 1)],
            Cause::UnfitOperand,
            vec![0, 0, 0, 1, 1],
        ),
        // By a float zero there is a result, and the run goes on.
        (
            vec![float(1, 0), float(2, 1 << 63), computed(byte::DivF64, 3, 1, 2), ret(Some(3))],
            Cause::Ret(Some(3)),
            vec![0, 0, 0, 0, 1],
        ),
        (
            vec![float(1, 0), bool, computed(byte::DivF64, 3, 2, 1), ret(Some(3))],
            Cause::UnfitOperand,
            vec![0, 0, 0, 1, 1],
        ),
        // A truth-order command is computed: no entry but the end's.
        (vec![computed(byte::QTruthOr, 3, 10, 11)], Cause::LastCell, vec![0, 1, 1, 1, 1]),
        (vec![computed(byte::QTruthOr, 3, 10, 8)], Cause::UnfitOperand, vec![0, 1, 1, 1, 1]),
    ];
    for (instrs, cause, lengths) in rows {
        assert_eq!(end(&instrs, &registers), (Some(cause), lengths), "{instrs:02X?}");
    }
}

#[test]
fn equality_with_other_is_an_action() {
    let mut registers = registers();
    registers[1] = Value::Other(5);
    let compare = [computed(byte::CmpEq, 8, 1, 2)];
    assert_eq!(end(&compare, &registers).1, vec![0, 2, 2, 2, 2]);
    registers[1] = Value::Const(Const::I32(5));
    assert_eq!(end(&compare, &registers).1, vec![0, 1, 1, 1, 1]);
    // Elsewhere it is an unfit operand.
    registers[1] = Value::Other(5);
    let sum = [computed(byte::AddI32, 3, 1, 1)];
    assert_eq!(end(&sum, &registers).0, Some(Cause::UnfitOperand));
}

/// Registers past 255 are read and written, and every other one stays.
#[test]
fn a_record_has_1024_registers() {
    let mut registers = registers();
    registers[1] = Value::Const(Const::I32(5));
    registers[257] = Value::Const(Const::I32(7));
    let instrs = [computed(byte::SubI32, 1023, 257, 1), store_var(1023, None, None)];
    let mut run = Run::new(&instrs, &registers, OUTSIDE);
    run.step();
    run.step();
    registers[1023] = Value::Const(Const::I32(2));
    assert_eq!(run.entries.len(), 2);
    assert!(run.entries.iter().all(|entry| entry.registers == registers));
    assert_eq!(registers.len(), 1024);
}

/// No register starts with one value only.
#[test]
fn every_register_starts_at_random() {
    let starts: Vec<_> = (0..30).map(|seed| any_registers(&mut Random::new(seed), 0)).collect();
    for register in 0..1024 {
        assert!(starts.iter().any(|start| start[register] != starts[0][register]), "{register}");
    }
}

/// A register's value at the end of commands on F in register 1, T in 2, N in 3 and S in 4.
fn value_after(instrs: &[Cell], register: usize) -> Value {
    let mut registers = registers();
    for (register, quad) in [(1, 1), (2, 2), (3, 0), (4, 3)] {
        registers[register] = Value::Const(Const::Quad(quad));
    }
    let mut run = Run::new(instrs, &registers, OUTSIDE);
    for _ in instrs {
        run.step();
    }
    assert_eq!(run.entries.len(), 1);
    run.entries[0].registers[register]
}

#[test]
fn truth_order_commands_are_computed() {
    let quad = |quad| Value::Const(Const::Quad(quad));
    // T and F is F, N or S is T, not F is T, S implies F is S.
    assert_eq!(value_after(&[computed(byte::QTruthAnd, 9, 2, 1)], 9), quad(1));
    assert_eq!(value_after(&[computed(byte::QTruthOr, 9, 3, 4)], 9), quad(2));
    assert_eq!(value_after(&[computed(byte::QTruthNot, 9, 1, 0)], 9), quad(2));
    assert_eq!(value_after(&[computed(byte::QTruthImpl, 9, 4, 1)], 9), quad(3));
    // One feeds the next, and a QAnd: N and S is F, not F is T, the lower bound of T and F is N.
    let chain = [
        computed(byte::QTruthAnd, 9, 3, 4),
        computed(byte::QTruthNot, 9, 9, 0),
        computed(byte::QAnd, 9, 9, 1),
    ];
    assert_eq!(value_after(&chain, 9), quad(0));
}

#[test]
fn truth_order_commands_end_the_run_on_unfit_operands() {
    for command in leaves::TRUTH_ORDER {
        let instrs = [computed(command, 9, 1, 2), store_var(9, None, None)];
        let quad = Value::Const(Const::Quad(2));
        let mut registers = registers();
        (registers[1], registers[2]) = (quad, quad);
        // The store's entry, then the end's.
        assert_eq!(end(&instrs, &registers), (Some(Cause::LastCell), vec![0, 0, 2, 2, 2]));
        let unfit = (Some(Cause::UnfitOperand), vec![0, 1, 1, 1, 1]);
        for wrong in [Value::Const(Const::Bool(true)), Value::Const(Const::I32(2)), Value::Other(2)]
        {
            registers[1] = wrong;
            assert_eq!(end(&instrs, &registers), unfit, "{command:02X} {wrong:?}");
            registers[1] = quad;
            if command != byte::QTruthNot {
                registers[2] = wrong;
                assert_eq!(end(&instrs, &registers), unfit, "{command:02X} {wrong:?}");
                registers[2] = quad;
            }
        }
    }
}

/// Functions as sent, and as wrong rewrites would return them.
#[test]
fn the_claims_tell_truth_order_folds_apart() {
    let load = |register, quad| leaves::load(register, Const::Quad(quad));
    let store = store_var(3, None, None);
    let (n, f, t, s) = (0, 1, 2, 3);
    let rows = [
        (byte::QTruthAnd, t, f, f),
        (byte::QTruthAnd, n, s, f),
        (byte::QTruthOr, t, f, t),
        (byte::QTruthOr, n, s, t),
        (byte::QTruthImpl, s, f, s),
        (byte::QTruthNot, n, n, n),
        (byte::QTruthNot, t, t, f),
    ];
    for (command, left, right, result) in rows {
        let sent = [load(1, left), load(2, right), computed(command, 3, 1, 2), store];
        for quad in 0..4 {
            let returned = [sent[0], sent[1], load(3, quad), store];
            let claims = claims(&sent, &returned, &registers(), OUTSIDE, 40);
            assert_eq!(claims.is_ok(), quad == result, "{command:02X} {left} {right}: {quad}");
        }
    }
    // Unfit operands end the run as sent, and a fold would go on.
    let sent = [load(1, t), leaves::load(2, Const::Bool(true)), computed(byte::QTruthOr, 3, 1, 2)];
    let returned = [sent[0], sent[1], load(3, t)];
    assert!(claims(&sent, &returned, &registers(), OUTSIDE, 40).is_err());
}

/// What both rewrites return is run, once where it is the same.
#[test]
fn both_rewrites_are_run() {
    let quad = leaves::load(1, Const::Quad(2));
    let rows = [
        (vec![quad, computed(byte::QTruthNot, 2, 1, 0)], 6),
        (vec![quad, computed(byte::QNot, 2, 1, 0)], 3),
        (vec![computed(byte::QTruthNot, 2, 1, 0)], 3),
    ];
    for (instrs, pairs) in rows {
        let image = one_function(&instrs, &[]);
        let (runs, _) = records(&Part::new(&image).unwrap(), &mut Random::new(1), 3).unwrap();
        assert_eq!(runs, pairs, "{instrs:02X?}");
    }
}

#[test]
fn the_claims_tell_registers_apart() {
    let apart = |sent: &[Cell], returned: &[Cell]| {
        assert!(claims(sent, sent, &registers(), OUTSIDE, 40).is_ok());
        claims(sent, returned, &registers(), OUTSIDE, 40).is_err()
    };
    // What one of them holds at the end.
    for register in 0..1024 {
        let [sent, returned] = [5, 6].map(|value| [load_i32(register, value), ret(None)]);
        assert!(apart(&sent, &returned), "{register}");
    }
    // Which one is written, or read.
    let add = |dst, lhs, rhs| computed(byte::AddI32, dst, lhs, rhs);
    for (one, other) in [(0, 256), (1, 257), (257, 513), (255, 1023), (1022, 1023)] {
        let loads = [load_i32(one, 5), load_i32(other, 7)];
        for (sent, returned) in [
            (load_i32(one, 9), load_i32(other, 9)),
            (add(one, one, one), add(other, one, one)),
            (add(3, one, one), add(3, one, other)),
            (add(3, one, other), add(3, other, other)),
            (ret(Some(one)), ret(Some(other))),
            (store_var(one, None, None), store_var(other, None, None)),
        ] {
            let [sent, returned] = [sent, returned].map(|cell| [loads[0], loads[1], cell]);
            assert!(apart(&sent, &returned) && apart(&returned, &sent), "{sent:02X?}");
        }
    }
}

#[test]
fn the_claims_tell_functions_apart() {
    let store = store_var(1, None, None);
    let sum = computed(byte::AddI32, 2, 1, 1);
    let same: [(&[Cell], &[Cell]); 4] = [
        (&[load_i32(1, 5), load_i32(1, 6), store], &[load_i32(1, 6), store]),
        (&[label(1), label(1), store, jmp(1)], &[label(1), store, jmp(1)]),
        (&[jmp(1), label(1), store], &[label(1), store]),
        (&[load_i32(1, 5), sum, store], &[load_i32(1, 5), load_i32(2, 10), store]),
    ];
    for (sent, returned) in same {
        assert!(claims(sent, returned, &registers(), OUTSIDE, 40).is_ok(), "{sent:02X?}");
    }
    let other: [(&[Cell], &[Cell]); 8] = [
        (&[load_i32(1, 5), ret(None)], &[load_i32(1, 6), ret(None)]),
        (&[load_i32(1, 5), store], &[store]),
        (&[store, ret(None)], &[ret(None)]),
        (&[ret(None)], &[store, ret(None)]),
        (&[sum], &[load_i32(2, 10)]),
        (&[jmp(9)], &[]),
        // More steps than the sent one.
        (&[ret(None)], &[label(1), ret(None)]),
        // Loops as sent, ends as returned.
        (&[label(1), jmp(1), label(1)], &[label(1), label(1)]),
    ];
    for (sent, returned) in other {
        assert!(claims(sent, returned, &registers(), OUTSIDE, 40).is_err(), "{sent:02X?}");
    }
}
