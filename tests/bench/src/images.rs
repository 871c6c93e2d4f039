//! The images of the benchmark, each as close to 65,536 bytes as it goes.

use differential::cells::{self, Cell, CELL, MAX_EVENTS, MAX_IMAGE, MAX_INSTRS};
#[cfg(feature = "library")]
use differential::generate::one_function;
use differential::generate::{
    any_function, borrow, computed, jmp, label, load_i32, make_record, ret, store_var, write, Shape,
};
use differential::leaves::{self, Const};
use differential::legacy_lowering::byte;
use differential::model;
use differential::random::Random;

pub fn rows() -> Vec<(&'static str, Vec<u8>)> {
    let rows = vec![
        ("loads", loads()),
        ("loads, 1,024 registers", instrs(|at| leaves::load(at % 1024, value(at)))),
        ("overwritten loads", instrs(|at| load_i32(1, at as i32))),
        ("folds", instrs(folds)),
        ("folds into a register", instrs(into_one)),
        ("truth-order quads", instrs(truth_order)),
        ("f64 by zero", instrs(by_zero)),
        ("unknown operands", instrs(|at| computed(COMPUTED[at % 8], (at % 256) as u16, 7, 200))),
        ("borrow sites", borrow_sites()),
        ("write sites", write_sites()),
        ("labels", instrs(labels)),
        ("4,096 empty functions", functions(Vec::new())),
        ("functions of a load", functions(vec![load_i32(1, 5)])),
        ("of a load and a fold", functions(vec![load_i32(1, 5), computed(byte::AddI32, 2, 1, 1)])),
        ("mixed", mixed()),
    ];
    for (name, image) in &rows {
        assert!(image.len() <= MAX_IMAGE, "{name}");
        assert_eq!(model::site_check(image), Ok(()), "{name}");
    }
    rows
}

/// Functions until the next one, given the number of cells left, doesn't fit.
pub fn fill(mut function: impl FnMut(usize) -> (Vec<Cell>, Vec<Cell>)) -> Vec<u8> {
    let mut image = Vec::new();
    let mut name = 0;
    loop {
        let left = (MAX_IMAGE - image.len()) / CELL;
        if left == 0 {
            return image;
        }
        let (instrs, events) = function(left - 1);
        if instrs.len() + events.len() > left - 1 {
            return image;
        }
        cells::push_function(&mut image, name, &instrs, &events);
        name += 1;
    }
}

/// LoadI32 r1 5, AddI32 r2 r1 r1, Ret r2 in function 7: document 01's example.
#[cfg(feature = "library")]
pub fn printed_example() -> Vec<u8> {
    one_function(&[load_i32(1, 5), computed(byte::AddI32, 2, 1, 1), ret(Some(2))], &[])
}

pub fn loads() -> Vec<u8> {
    instrs(|at| leaves::load(at % 256, value(at)))
}

/// Functions of instructions alone, the first as long as a function may be.
fn instrs(cell: fn(usize) -> Cell) -> Vec<u8> {
    fill(|left| ((0..left.min(MAX_INSTRS)).map(cell).collect(), Vec::new()))
}

/// Functions of these instructions each.
fn functions(instrs: Vec<Cell>) -> Vec<u8> {
    fill(|_| (instrs.clone(), Vec::new()))
}

fn value(at: usize) -> Const {
    match at % 6 {
        0 => Const::I32(at as i32),
        1 => Const::U32(at as u32),
        2 => Const::Fx(at as i32),
        3 => Const::F64((at as f64).to_bits()),
        4 => Const::Bool(at % 4 == 0),
        _ => Const::Quad((at % 4) as u8),
    }
}

/// A load, then folds into its register, whose loads a further rewrite takes.
fn into_one(at: usize) -> Cell {
    match at {
        0 => load_i32(1, 5),
        _ => computed(byte::AddI32, 1, 1, 1),
    }
}

/// A load of each quad, then in every cell what only the fuller rewrite folds.
fn truth_order(at: usize) -> Cell {
    if at < 4 {
        return leaves::load(at, Const::Quad(at as u8));
    }
    let (left, right) = (at / 4 % 4, at / 16 % 4);
    computed(leaves::TRUTH_ORDER[at % 4], 16 + (at % 200) as u16, left as u16, right as u16)
}

/// 1.0, -1.0 and both zeros, then divisions by zero, which only the fuller rewrite folds.
fn by_zero(at: usize) -> Cell {
    let bits = [0x3FF0_0000_0000_0000, 0xBFF0_0000_0000_0000, 0, 1 << 63];
    if at < bits.len() {
        return leaves::load(at, Const::F64(bits[at]));
    }
    let (left, right) = (at % 4, 2 + at / 4 % 2);
    computed(byte::DivF64, 16 + (at % 200) as u16, left as u16, right as u16)
}

/// A load of each kind, then a fold in every cell.
fn folds(at: usize) -> Cell {
    let kinds = [
        Const::I32(3),
        Const::U32(3),
        Const::Fx(3000),
        Const::F64(0x3FF8_0000_0000_0000),
        Const::Bool(true),
        Const::Quad(2),
    ];
    if at < kinds.len() {
        return leaves::load(at, kinds[at]);
    }
    let kind = at % 8;
    let operand = [0, 1, 2, 3, 4, 5, 0, 3][kind];
    computed(COMPUTED[kind], 16 + (at % 200) as u16, operand, operand)
}

const COMPUTED: [u8; 8] = [
    byte::AddI32,
    byte::MulU32,
    byte::DivFx,
    byte::MulF64,
    byte::BoolAnd,
    byte::QImpl,
    byte::CmpI32Lt,
    byte::CmpEq,
];

/// Repeated labels, jumps to the next label and what can't be reached.
fn labels(at: usize) -> Cell {
    let name = (at / 8) as u16;
    match at % 8 {
        0 | 1 => label(name),
        2 => jmp(name + 1000),
        3 => load_i32(1, 5),
        4 => label(name + 1000),
        5 => computed(byte::AddI32, 2, 1, 1),
        6 => ret(None),
        _ => ret(Some(1)),
    }
}

/// StoreVars with an activation site each, and their Borrow events in another order.
fn borrow_sites() -> Vec<u8> {
    fill(|left| {
        let sites = (left / 2).min(MAX_EVENTS) as u32;
        let instrs = (0..sites).map(|site| store_var(1, Some(site), None)).collect();
        let events = (0..sites).rev().map(|site| borrow(Some(site))).collect();
        (instrs, events)
    })
}

/// StoreVars and MakeRecords with a write site each, and their Write events in another order.
fn write_sites() -> Vec<u8> {
    fill(|left| {
        let sites = (left / 2).min(MAX_EVENTS) as u32;
        let instrs = (0..sites).map(|site| match site % 2 {
            0 => store_var(1, None, Some(site)),
            _ => make_record(1, Some(site)),
        });
        (instrs.collect(), (0..sites).rev().map(write).collect())
    })
}

pub fn mixed() -> Vec<u8> {
    mixed_by(1)
}

/// Random functions of 60 instructions, good sites and all commands among them, by a seed.
pub fn mixed_by(seed: u64) -> Vec<u8> {
    let mut random = Random::new(seed);
    let shape =
        Shape { instrs: 60, sites: 10, control: 10, actions: 20, misfits: 15, one_place: true };
    fill(|left| {
        let (instrs, events) = any_function(&mut random, shape);
        if instrs.len() + events.len() <= left {
            return (instrs, events);
        }
        // The rest, without sites.
        let (instrs, _) = any_function(&mut random, Shape { instrs: left, sites: 0, ..shape });
        (instrs, Vec::new())
    })
}
