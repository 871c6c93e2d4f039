//! A seeded sample of answers as bytes, and its replay. The answers are the original's, and the
//! model's to the fuller rewrite, which the original doesn't have.
//!
//! Numbers are little-endian. The file is a line of text that says how it was made, up
//! to its line feed, then the number of cases (2 bytes) and the cases:
//!
//! - operation (1): 0 the whole rewrite, 1 cleanup, 2 CrystalFold, 3 the fuller rewrite;
//! - the image's length (2) and the image;
//! - 0 (1), the output's length (2), rewrites (4), changed (1) and the output; or
//!   1 (1), the refusal's number (1), position (2) and detail (4).

use crate::answers::{Operation, Operations, Refusal, Success, OPERATIONS, ORIGINALS};
use crate::cells::{self, Cell, Function};
use crate::codec::Form;
use crate::compare;
use crate::generate::{
    any_function_with, borrow, computed, default_commands, event, events_for, filled, jmp, jmp_if,
    label, load_i32, load_var, make_record, one_function, ret, store_var, write as write_event,
    Often, Shape, SWEPT,
};
use crate::leaves::{self, Const, INFINITY, NAN, SIGN, TRUTH_ORDER};
use crate::legacy_lowering::{byte, COMMANDS};
use crate::model;
use crate::random::Random;
use crate::runs::any_const;
use crate::table;
use std::collections::{BTreeMap, BTreeSet};

/// How many images of the original's operations there are at least.
const IMAGES: usize = 400;

/// How many random images of the fuller rewrite there are, with quads and with divisions.
const QUAD_IMAGES: usize = 24;
const DIVISION_IMAGES: usize = 3;

/// The numbers that the original's errors have.
const NUMBERS: [u8; 10] = [11, 12, 13, 14, 21, 22, 23, 24, 25, 26];

struct Sample {
    bytes: Vec<u8>,
    images: usize,
    cases: u16,
    refusals: BTreeSet<u8>,
    /// What the original folded.
    folds: BTreeSet<u8>,
    registers: Registers,
    fuller: Fuller,
}

/// What the original did with registers past 255 and in later functions.
#[derive(Default)]
struct Registers {
    /// The operands that were the last register, by their names, and whether they are optional.
    roles: BTreeSet<(&'static str, bool)>,
    /// The registers that folded commands read, and those that they wrote.
    read: BTreeSet<usize>,
    written: BTreeSet<usize>,
    /// The commands folded that read two registers 256, 512 or 768 apart.
    apart: BTreeSet<u8>,
    /// The loads kept right before a load into a register that is so far apart, of the kinds that
    /// cleanup takes away.
    loads: BTreeSet<u8>,
    /// The commands left that would be folded by what the function before left known.
    left: BTreeSet<u8>,
}

/// The last register, and those past 255 that folded commands must read and write.
const LAST: u16 = cells::REGISTERS as u16 - 1;
const PAST: [usize; 4] = [256, 257, 511, LAST as usize];

/// What the last register must be.
const ROLES: [(&str, bool); 7] = [
    ("cond", false),
    ("dst", false),
    ("dst", true),
    ("lhs", false),
    ("rhs", false),
    ("src", false),
    ("src", true),
];

/// What the fuller rewrite did.
#[derive(Default)]
struct Fuller {
    cases: usize,
    /// The commands folded that only it folds, and those of their kinds that it left.
    folds: BTreeSet<u8>,
    left: BTreeSet<u8>,
    /// The zero and the quotient of each division by zero.
    quotients: BTreeSet<(u64, u64)>,
    /// The commands that the default rewrite folds, folded by what one of these gave.
    chains: BTreeSet<u8>,
    refusals: BTreeSet<u8>,
}

/// Writes a sample to a file and says what is in it.
pub fn write(file: &str, seed: u64) -> Result<String, String> {
    let (bytes, text) = make(seed)?;
    std::fs::write(file, bytes).map_err(|error| format!("{file}: {error}"))?;
    Ok(text)
}

/// The bytes of a sample, and what is in it.
pub fn make(seed: u64) -> Result<(Vec<u8>, String), String> {
    let mut random = Random::new(seed);
    let mut sample = Sample {
        bytes: Vec::new(),
        images: 0,
        cases: 0,
        refusals: BTreeSet::new(),
        folds: BTreeSet::new(),
        registers: Registers::default(),
        fuller: Fuller::default(),
    };
    for (name, image, wanted) in sweeps() {
        let count = sample.add(&image, &ORIGINALS)?;
        if count != Some(wanted) {
            return Err(format!("{name}: {count:?} rewrites instead of {wanted}"));
        }
    }
    for image in rows().into_iter().chain(folds(&mut random)) {
        sample.add(&image, &[Operation::Rewrite])?;
    }
    for image in refusals(&mut random) {
        sample.add(&image, &[Operation::Rewrite])?;
    }
    while sample.images < IMAGES {
        let image = small_image(&mut random, Often { far: 25, ..Often::default() });
        let operation = random.pick(&ORIGINALS);
        sample.add(&image, &[Operation::Rewrite, operation])?;
    }
    // Both rewrites, one after the other.
    let often = Often { quads: 60, divisions: 0, far: 25 };
    let quads = (0..QUAD_IMAGES).map(|_| small_image(&mut random, often));
    for image in truth_order().into_iter().chain(quads) {
        sample.add(&image, &[Operation::Rewrite, Operation::Fuller])?;
    }
    // CrystalFold alone leaves divisions by zero too.
    for image in divisions() {
        sample.add(&image, &[Operation::Rewrite, Operation::CrystalFold, Operation::Fuller])?;
    }
    for _ in 0..DIVISION_IMAGES {
        let image = small_image(&mut random, Often { quads: 0, divisions: 60, far: 25 });
        sample.add(&image, &[Operation::Rewrite, Operation::Fuller])?;
    }
    for image in registers().into_iter().chain(several_functions()) {
        sample.add(&image, &[Operation::Rewrite, Operation::Fuller])?;
    }

    let missing: Vec<u8> =
        NUMBERS.into_iter().filter(|number| !sample.refusals.contains(number)).collect();
    if !missing.is_empty() {
        return Err(format!("refusals missing in the sample: {missing:?}"));
    }
    none_missing("folds", default_commands(), &sample.folds)?;
    let Registers { roles, read, written, apart, loads, left: unknown } = &sample.registers;
    if *roles != ROLES.into() {
        return Err(format!("what register {LAST} is in the sample: {roles:?}"));
    }
    if !PAST.iter().all(|register| read.contains(register) && written.contains(register)) {
        return Err(format!(
            "registers of folds in the sample: read {read:?}, written {written:?}"
        ));
    }
    none_missing("folds of registers 256 apart", [byte::SubI32, byte::CmpEq], apart)?;
    none_missing("loads before one 256 apart", SWEPT.map(|load| leaves::load(1, load)[0]), loads)?;
    none_missing("commands unknown in a later function", [byte::AddI32, byte::CmpEq], unknown)?;
    let Fuller { cases, folds, left, quotients, chains, refusals } = &sample.fuller;
    none_missing("folds by the fuller rewrite", fuller_commands(), folds)?;
    none_missing("commands that the fuller rewrite leaves", fuller_commands(), left)?;
    none_missing("folds behind those of the fuller rewrite", CHAINED, chains)?;
    let results = [INFINITY, SIGN | INFINITY, NAN];
    let wanted = [0, SIGN].into_iter().flat_map(|zero| results.map(|quotient| (zero, quotient)));
    if *quotients != wanted.collect() {
        return Err(format!("the quotients by zero in the sample: {quotients:X?}"));
    }
    if refusals.is_empty() {
        return Err("no refusal of the fuller rewrite in the sample".into());
    }
    let line = format!(
        "Answers of the original sm-ir passes, and of the model to the fuller rewrite \
         (operation 3): tests/differential --seed {seed} --sample FILE\n"
    );
    let bytes = [line.as_bytes(), &sample.cases.to_le_bytes(), &sample.bytes].concat();
    let text = format!(
        "seed {seed}: {} images, {} cases, {} bytes; refusals {:?}; {} commands folded; {} sweeps\n\
         registers past 255: {} read and {} written by folds; {} commands folded of registers 256 \
         apart; {} that a later function leaves\n\
         the fuller rewrite: {cases} cases; refusals {refusals:?}; {} commands folded that only it \
         folds, {} left; {} quotients by zero; behind them {} others folded",
        sample.images,
        sample.cases,
        bytes.len(),
        sample.refusals,
        sample.folds.len(),
        sweeps().len(),
        read.range(256..).count(),
        written.range(256..).count(),
        apart.len(),
        unknown.len(),
        folds.len(),
        left.len(),
        quotients.len(),
        chains.len(),
    );
    Ok((bytes, text))
}

/// The commands of which only the fuller rewrite folds some or all.
fn fuller_commands() -> impl Iterator<Item = u8> {
    TRUTH_ORDER.into_iter().chain([byte::DivF64])
}

/// What must be folded behind these; on floats, behind a division by zero.
const CHAINED: [u8; 7] =
    [byte::QAnd, byte::QNot, byte::AddF64, byte::SubF64, byte::MulF64, byte::DivF64, byte::CmpEq];

/// Fails with the names of the commands that aren't in the set.
fn none_missing(
    what: &str,
    commands: impl IntoIterator<Item = u8>,
    set: &BTreeSet<u8>,
) -> Result<(), String> {
    let missing = commands.into_iter().filter(|command| !set.contains(command));
    let missing: Vec<&str> =
        missing.map(|command| table::layout(command).unwrap().command.name).collect();
    if !missing.is_empty() {
        return Err(format!("{what} missing in the sample: {missing:?}"));
    }
    Ok(())
}

impl Sample {
    /// Adds an image with the answers to some operations; gives the count of the first. An image
    /// that the image check refuses, or to which the original may give several refusals, stays
    /// out.
    fn add(&mut self, image: &[u8], operations: &[Operation]) -> Result<Option<u32>, String> {
        let expected = compare::expected(image).map_err(|difference| difference.what)?;
        if expected.original().is_none_or(|answers| answers.possible.len() > 1) {
            return Ok(None);
        }
        let lent = vec![0; image.len()];
        let mut first = None;
        for (index, operation) in OPERATIONS.iter().enumerate() {
            if !operations.contains(operation) {
                continue;
            }
            let Sample { bytes, .. } = self;
            bytes.push(index as u8);
            bytes.extend_from_slice(&(image.len() as u16).to_le_bytes());
            bytes.extend_from_slice(image);
            match expected.operation(*operation, image, &lent) {
                (Ok(Success { length, num_rewrites, changed }), written) => {
                    bytes.push(0);
                    bytes.extend_from_slice(&(length as u16).to_le_bytes());
                    bytes.extend_from_slice(&num_rewrites.to_le_bytes());
                    bytes.push(changed as u8);
                    bytes.extend_from_slice(written);
                    first = first.or(Some(num_rewrites));
                }
                (Err(Refusal { number, position, detail }), _) => {
                    bytes.extend_from_slice(&[1, number]);
                    bytes.extend_from_slice(&(position as u16).to_le_bytes());
                    bytes.extend_from_slice(&detail.to_le_bytes());
                    self.refusals.insert(number);
                    if *operation == Operation::Fuller {
                        self.fuller.refusals.insert(number);
                    }
                }
            }
            self.cases += 1;
        }
        // What both rewrites folded after cleanup.
        let written = |operation| expected.written(operation).unwrap_or(&[]);
        let of = |operation| cells::cells(written(operation)).iter();
        for (before, default) in of(Operation::Cleanup).zip(of(Operation::Rewrite)) {
            if before != default {
                self.folds.insert(before[0]);
            }
        }
        self.registers.note(written(Operation::Cleanup), written(Operation::Rewrite));
        if operations.contains(&Operation::Fuller) {
            let fuller = written(Operation::Fuller);
            let only = compare::fuller_only_folds(written(Operation::Cleanup), fuller);
            let rewrites = of(Operation::Rewrite).zip(of(Operation::Fuller));
            for ((default, fuller), values) in rewrites.zip(only) {
                self.fuller.note(default, fuller, values);
            }
        }
        self.fuller.cases += operations.contains(&Operation::Fuller) as usize;
        self.images += 1;
        Ok(first)
    }
}

impl Registers {
    /// An image as cleanup and as the default rewrite returns it.
    fn note(&mut self, cleaned: &[u8], default: &[u8]) {
        // What the function before left known.
        let mut before = BTreeMap::new();
        for (cleaned, default) in cells::functions(cleaned).zip(cells::functions(default)) {
            for (cell, default) in cleaned.instrs.iter().zip(default.instrs) {
                self.note_cell(cell, cell != default);
            }
            let loads = |cell: &Cell| leaves::loaded(cell).filter(|_| cell[0] != byte::LoadU32);
            for pair in cleaned.instrs.windows(2) {
                if let (Some((one, _)), Some((other, _))) = (loads(&pair[0]), loads(&pair[1])) {
                    if are_apart(one, other) {
                        self.loads.insert(pair[0][0]);
                    }
                }
            }
            before = self.note_function(&default, before);
        }
    }

    /// A cell as cleanup returns it, and whether it is folded.
    fn note_cell(&mut self, cell: &Cell, folded: bool) {
        let layout = table::layout(cell[0]).unwrap();
        for (operand, &(form, place)) in layout.command.operands.iter().zip(&layout.places) {
            let register = match form {
                Form::Register => cells::half(cell, place),
                Form::OptionalRegister if cell[place] == 1 => cells::half(cell, place + 1),
                _ => continue,
            };
            if register == LAST {
                self.roles.insert((operand.name, form == Form::OptionalRegister));
            }
        }
        if folded {
            let (left, right) = leaves::operand_values(cell, |register| register).unwrap();
            self.read.extend([left, right]);
            self.written.extend(layout.dst(cell));
            if are_apart(left, right) {
                self.apart.insert(cell[0]);
            }
        }
    }

    /// A function as the default rewrite returns it, and what the one before left known; gives what
    /// this one does.
    fn note_function(
        &mut self,
        function: &Function,
        mut before: BTreeMap<usize, Const>,
    ) -> BTreeMap<usize, Const> {
        let mut known = BTreeMap::new();
        for cell in function.instrs {
            if cell[0] <= byte::StateUpdate {
                before.clear();
                known.clear();
                continue;
            }
            let held = |register| before.get(&register).copied();
            if let Some((Some(left), Some(right))) = leaves::operand_values(cell, held) {
                if model::default_rules(cell[0], left, right).is_some() {
                    self.left.insert(cell[0]);
                }
            }
            if let Some(dst) = table::layout(cell[0]).unwrap().dst(cell) {
                before.remove(&dst);
                known.remove(&dst);
            }
            known.extend(leaves::loaded(cell));
        }
        known
    }
}

/// Two registers with the same low byte.
fn are_apart(one: usize, other: usize) -> bool {
    one != other && one % 256 == other % 256
}

impl Fuller {
    /// A cell as the default rewrite and as the fuller one returns it, and the operands' values
    /// where only the fuller one folds it.
    fn note(&mut self, default: &Cell, fuller: &Cell, values: Option<(Const, Const)>) {
        let set = match values {
            Some(_) => &mut self.folds,
            None if default != fuller => &mut self.chains,
            None if fuller_commands().any(|command| command == default[0]) => &mut self.left,
            None => return,
        };
        set.insert(default[0]);
        if let Some((Const::F64(_), Const::F64(zero))) = values {
            self.quotients.insert((zero, cells::double(fuller, 3)));
        }
    }
}

/// Each sweep of cleanup alone, and the number of cells that go.
fn sweeps() -> Vec<(&'static str, Vec<u8>, u32)> {
    let load = |kind: Const| leaves::load(1, kind);
    let sites = [
        ret(None),
        store_var(1, Some(5), Some(6)),
        make_record(2, Some(7)),
        label(1),
        store_var(1, Some(8), None),
    ];
    let events = [borrow(Some(8)), write_event(7), borrow(Some(5)), write_event(6), write_event(7)];
    let apart: Vec<Cell> = SWEPT
        .iter()
        .flat_map(|value| [1, 257, 513].map(|register| leaves::load(register, *value)))
        .collect();
    let mut sweeps = vec![
        ("repeated labels", one_function(&[label(1), label(1), label(1), label(2)], &[]), 2),
        ("after Ret", one_function(&[ret(None), load_i32(1, 5), jmp(1), label(1)], &[]), 2),
        ("after Jmp", one_function(&[label(1), jmp(2), ret(None), label(3)], &[]), 1),
        ("with its events", one_function(&sites, &events), 2),
        ("Jmp to the next label", one_function(&[jmp(1), label(1)], &[]), 1),
        ("Jmp at the end", one_function(&[label(1), jmp(1)], &[]), 0),
        ("JmpIf to the next label", one_function(&[jmp_if(1, 1), label(1)], &[]), 0),
        ("Label 1, Jmp 1, Label 1", one_function(&[label(1), jmp(1), label(1)], &[]), 1),
        ("five loads", one_function(&SWEPT.map(load), &[]), 4),
        ("LoadU32 twice", one_function(&[load(Const::U32(1)), load(Const::U32(2))], &[]), 0),
        ("LoadU32, LoadI32", one_function(&[load(Const::U32(1)), load_i32(1, 2)], &[]), 0),
        ("LoadI32, LoadU32", one_function(&[load_i32(1, 2), load(Const::U32(1))], &[]), 0),
        ("two registers", one_function(&[load_i32(1, 2), load_i32(2, 2)], &[]), 0),
        ("registers 256 apart", one_function(&apart, &[]), 0),
        ("register 1,023", one_function(&[load_i32(LAST, 2), load_i32(LAST, 3)], &[]), 1),
    ];
    for first in SWEPT {
        for second in SWEPT {
            sweeps.push(("two loads", one_function(&[load(first), load(second)], &[]), 1));
        }
    }
    sweeps
}

/// A command on two known values.
fn known(command: u8, left: Const, right: Const) -> Vec<u8> {
    let instrs = [leaves::load(1, left), leaves::load(2, right), computed(command, 3, 1, 2)];
    one_function(&instrs, &[])
}

/// Document 01's rows that are no row of `sweeps`, and its printed example.
fn rows() -> Vec<Vec<u8>> {
    use Const::{Fx, Quad, F64, I32, U32};
    vec![
        known(byte::AddI32, I32(i32::MAX), I32(1)),
        known(byte::DivI32, I32(-7), I32(2)),
        known(byte::ModI32, I32(-7), I32(2)),
        known(byte::DivI32, I32(i32::MIN), I32(-1)),
        known(byte::ModI32, I32(i32::MIN), I32(-1)),
        known(byte::SubU32, U32(0), U32(1)),
        known(byte::MulFx, Fx(1500), Fx(1500)),
        known(byte::MulFx, Fx(-1), Fx(1)),
        known(byte::MulFx, Fx(i32::MAX), Fx(1000)),
        known(byte::MulFx, Fx(i32::MAX), Fx(1001)),
        known(byte::QAnd, Quad(2), Quad(1)),
        known(byte::QOr, Quad(2), Quad(1)),
        known(byte::QImpl, Quad(1), Quad(0)),
        known(byte::CmpEq, I32(0), U32(0)),
        known(byte::CmpEq, F64(0), F64(1 << 63)),
        one_function(&[load_i32(1, 5), computed(byte::AddI32, 2, 1, 1), ret(Some(2))], &[]),
        Vec::new(),
        one_function(&[], &[]),
    ]
}

/// Each computed command on known values of its kinds, on a wrong kind and on an unknown one.
fn folds(random: &mut Random) -> Vec<Vec<u8>> {
    let mut images = Vec::new();
    for command in default_commands() {
        let kind = (0..6)
            .find(|&kind| {
                let value = any_const(random, kind);
                leaves::compute(command, value, value) != leaves::Computed::Unfit
            })
            .unwrap();
        for _ in 0..3 {
            let (left, right) = (any_const(random, kind), any_const(random, kind));
            images.push(known(command, left, right));
        }
        // Operands for which each command has a result.
        let one = match kind {
            0 => Const::I32(1),
            1 => Const::U32(1),
            2 => Const::Fx(1),
            3 => Const::F64(0x3FF0_0000_0000_0000),
            kind => any_const(random, kind),
        };
        images.push(known(command, one, one));
        let other = any_const(random, (kind + 1) % 6);
        images.push(known(command, one, other));
        images.push(one_function(&[leaves::load(1, one), computed(command, 3, 1, 2)], &[]));
    }
    images
}

/// Each refusal, in a first and in a later function.
fn refusals(random: &mut Random) -> Vec<Vec<u8>> {
    let mut images = Vec::new();
    for _ in 0..2 {
        let a = random.bits() as u32;
        let b = a.wrapping_add(1);
        let store = |site| store_var(1, Some(site), None);
        let stored = |site| store_var(1, None, Some(site));
        let made = |site| make_record(1, Some(site));
        let plain_write = event(cells::EVENT_WRITE, None, None);
        let write_with = event(cells::EVENT_WRITE, Some(a), Some(b));
        let borrow_with = event(cells::EVENT_BORROW, None, Some(a));
        let functions: Vec<(Vec<Cell>, Vec<Cell>)> = vec![
            (vec![store(a), store(b), store(a)], vec![borrow(Some(a))]),
            (vec![store(a), stored(b)], vec![borrow(Some(a)), write_with]),
            (vec![store(a)], vec![borrow(Some(a)), borrow(None), borrow(Some(a))]),
            (vec![store(a)], vec![borrow(Some(b))]),
            (vec![store(a)], vec![]),
            (vec![], vec![borrow(Some(a))]),
            (vec![stored(a), made(a)], vec![write_event(a)]),
            (vec![made(a)], vec![write_event(a), borrow_with, plain_write]),
            (vec![made(a)], vec![write_event(a), plain_write, borrow_with]),
            (vec![made(b), stored(a)], vec![write_event(b)]),
            (vec![made(a), ret(None)], vec![]),
            (vec![made(b), stored(a)], vec![write_event(a), write_event(b), write_event(a)]),
            (vec![made(b)], vec![write_event(b), write_event(a)]),
            (vec![], vec![write_event(a), write_event(a)]),
        ];
        for (instrs, events) in functions {
            images.push(one_function(&instrs, &events));
            let mut later = one_function(&[store(a), made(b)], &[write_event(b), borrow(Some(a))]);
            cells::push_function(&mut later, 7, &[], &[]);
            cells::push_function(&mut later, 7, &instrs, &events);
            images.push(later);
        }
    }
    images
}

/// For both rewrites: each truth-order command on every two quads, on an unknown operand and on
/// one of another kind; chains, cleanup before the fold, several functions, sites and refusals.
fn truth_order() -> Vec<Vec<u8>> {
    let quad = |register, quad| leaves::load(register, Const::Quad(quad));
    let [n, f, t, s] = [0, 1, 2, 3];
    let bool = |register| leaves::load(register, Const::Bool(true));
    let mut images = Vec::new();
    for command in TRUTH_ORDER {
        let mut pairs: Vec<Cell> = (0..4).map(|value| quad(value, value as u8)).collect();
        let rights = if leaves::operands(command) == Some(1) { 1 } else { 4 };
        for left in 0..4 {
            for right in 0..rights {
                pairs.push(computed(command, 4 + 4 * left + right, left, right));
            }
        }
        images.push(one_function(&pairs, &[]));
        // F in register 1, T in 2, a bool in 3, and 4 unknown: a known quad alone decides nothing, but for QTruthNot.
        let mut beside = vec![quad(1, f), quad(2, t), bool(3)];
        for (dst, other) in [(5, 3), (9, 4)] {
            beside.push(computed(command, dst, 1, other));
            beside.push(computed(command, dst + 1, 2, other));
            beside.push(computed(command, dst + 2, other, 1));
            beside.push(computed(command, dst + 3, other, 2));
        }
        images.push(one_function(&beside, &[]));
    }

    let and = |dst, lhs, rhs| computed(byte::QTruthAnd, dst, lhs, rhs);
    let or = |dst, lhs, rhs| computed(byte::QTruthOr, dst, lhs, rhs);
    let implies = |dst, lhs, rhs| computed(byte::QTruthImpl, dst, lhs, rhs);
    let not = |dst, src| computed(byte::QTruthNot, dst, src, 0);
    let q_and = |dst, lhs, rhs| computed(byte::QAnd, dst, lhs, rhs);
    let q_not = |dst, src| computed(byte::QNot, dst, src, 0);
    let equal = |dst, lhs, rhs| computed(byte::CmpEq, dst, lhs, rhs);
    let lists: [&[Cell]; 9] = [
        // A folded command feeds others, of either order.
        &[quad(1, t), quad(2, f), and(3, 1, 2), q_and(4, 3, 1), equal(5, 4, 3)],
        &[
            quad(1, n),
            quad(2, s),
            q_not(3, 1),
            implies(4, 3, 2),
            or(5, 4, 2),
            not(6, 5),
            q_not(7, 6),
        ],
        &[quad(1, n), quad(2, s), or(1, 1, 2), or(1, 1, 2), and(2, 1, 2), q_and(2, 2, 1)],
        // One that stays makes its register unknown.
        &[quad(1, t), bool(2), and(1, 1, 2), q_not(3, 1), not(4, 1)],
        // The default rewrite knows the register after it no more, nor the fuller behind a barrier.
        &[quad(1, t), not(1, 1), q_not(2, 1), label(1), not(3, 1)],
        // Cleanup comes first.
        &[jmp(1), not(1, 1), label(1), quad(1, n), quad(1, t), not(2, 1), ret(Some(2)), not(3, 3)],
        // What it folds to isn't cleaned again.
        &[quad(1, t), not(1, 1), not(1, 1)],
        // None of the four.
        &[load_i32(1, 5), computed(byte::AddI32, 2, 1, 1), ret(Some(2))],
        &[quad(1, t), quad(2, f), q_and(3, 1, 2), q_not(4, 3)],
    ];
    images.extend(lists.map(|list| one_function(list, &[])));

    // No register is known in a later function; sites and their events stay.
    let mut two = one_function(&[quad(1, t), not(2, 1)], &[]);
    let stored =
        [quad(1, f), implies(2, 1, 1), store_var(2, Some(5), Some(6)), not(3, 2), ret(None)];
    cells::push_function(&mut two, 8, &[not(2, 1)], &[]);
    cells::push_function(&mut two, 9, &stored, &[borrow(Some(5)), write_event(6)]);
    images.push(two);

    let known = [quad(1, t), not(2, 1)];
    let refused: [(Cell, &[Cell]); 4] = [
        (store_var(2, Some(5), None), &[]),
        (make_record(2, Some(6)), &[]),
        (not(3, 2), &[write_event(7)]),
        (not(3, 2), &[event(cells::EVENT_WRITE, None, None)]),
    ];
    for (last, events) in refused {
        let mut later = one_function(&known, &[]);
        cells::push_function(&mut later, 8, &[known[0], known[1], last], events);
        images.push(later);
    }
    images
}

/// For both rewrites and CrystalFold: division of all sorts of floats by both zeros, operands that
/// are unknown or of another kind, chains, other divisors, cleanup before the fold, several
/// functions, sites and a refusal.
fn divisions() -> Vec<Vec<u8>> {
    let bits = |register, bits| leaves::load(register, Const::F64(bits));
    let float = |register, number: f64| bits(register, number.to_bits());
    let div = |dst, lhs, rhs| computed(byte::DivF64, dst, lhs, rhs);
    let add = |dst, lhs, rhs| computed(byte::AddF64, dst, lhs, rhs);
    let sub = |dst, lhs, rhs| computed(byte::SubF64, dst, lhs, rhs);
    let mul = |dst, lhs, rhs| computed(byte::MulF64, dst, lhs, rhs);
    let equal = |dst, lhs, rhs| computed(byte::CmpEq, dst, lhs, rhs);

    let dividends = [
        0x3FF0_0000_0000_0000, // 1.0
        0xBFF8_0000_0000_0000, // -1.5
        0x7FEF_FFFF_FFFF_FFFF, // the greatest
        0x0000_0000_0000_0001, // the least positive
        0x800F_FFFF_FFFF_FFFF, // the greatest subnormal, negative
        INFINITY,
        SIGN | INFINITY,
        0,
        SIGN,
        NAN,
        0xFFF8_0000_0000_0123, // NaNs with a payload, quiet
        0x7FF0_0000_0000_0001, // and signalling
    ];
    // The zeros in registers 0 and 1, the dividends from 2 on.
    let mut all = vec![bits(0, 0), bits(1, SIGN)];
    all.extend((2..).zip(dividends).map(|(register, dividend)| bits(register, dividend)));
    for dividend in 2..2 + dividends.len() as u16 {
        all.extend([div(16 + dividend, dividend, 0), div(32 + dividend, dividend, 1)]);
    }

    let lists: [&[Cell]; 9] = [
        &all,
        // Zeros of other kinds, and register 9 unknown: a zero alone decides nothing.
        &[
            float(1, 1.0),
            float(2, 0.0),
            load_i32(3, 0),
            leaves::load(4, Const::Fx(0)),
            div(5, 1, 3),
            div(6, 1, 4),
            div(7, 3, 2),
            div(8, 9, 2),
            div(10, 1, 9),
        ],
        // Quotients feed other commands, and make a zero that divides again.
        &[
            float(1, 1.0),
            float(2, -0.0),
            div(3, 1, 2),
            add(4, 3, 1),
            sub(5, 3, 3),
            mul(6, 3, 1),
            div(7, 1, 3),
            div(8, 1, 7),
            equal(9, 3, 8),
            equal(10, 5, 5),
        ],
        // The default rewrite knows the dividend, or the divisor, no more where it is dst.
        &[float(1, 1.0), float(2, 0.0), div(1, 1, 2), add(3, 1, 1), sub(1, 2, 2), add(4, 1, 2)],
        &[float(1, -1.0), float(2, 0.0), div(2, 1, 2), div(3, 1, 2), div(4, 1, 3)],
        // Nor is anything known behind a barrier.
        &[float(1, 1.0), float(2, 0.0), div(3, 1, 2), label(1), add(4, 3, 3), div(5, 1, 2)],
        // Cleanup comes first.
        &[
            jmp(1),
            div(1, 1, 2),
            label(1),
            float(1, 1.0),
            float(1, -1.0),
            float(2, 0.0),
            div(3, 1, 2),
            ret(Some(3)),
            div(4, 1, 2),
        ],
        // What it folds to isn't cleaned again.
        &[float(1, 1.0), float(2, 0.0), div(1, 1, 2), div(1, 1, 2)],
        // By NaN, infinity and subnormal numbers both rewrites fold.
        &[
            float(1, 1.0),
            bits(2, NAN),
            float(3, f64::INFINITY),
            bits(4, 1),
            bits(5, 0x800F_FFFF_FFFF_FFFF),
            div(6, 1, 2),
            div(7, 1, 3),
            div(8, 1, 4),
            div(9, 1, 5),
        ],
    ];
    let mut images: Vec<Vec<u8>> = lists.into_iter().map(|list| one_function(list, &[])).collect();

    // No register is known in a later function; sites and their events stay.
    let known = [float(1, -1.0), float(2, -0.0), div(3, 1, 2)];
    let [one, zero, quotient] = known;
    let mut two = one_function(&known, &[]);
    let stored = [one, zero, quotient, store_var(3, Some(5), Some(6)), add(4, 3, 1), ret(Some(4))];
    cells::push_function(&mut two, 8, &[quotient], &[]);
    cells::push_function(&mut two, 9, &stored, &[borrow(Some(5)), write_event(6)]);
    images.push(two);

    let mut refused = one_function(&known, &[]);
    cells::push_function(&mut refused, 8, &[one, zero, quotient, make_record(3, Some(6))], &[]);
    images.push(refused);
    images
}

/// For both rewrites: registers past 255 read and written by folds, known or not where one with the
/// same low byte is, forgotten, behind a barrier; and each command on the last one, which is known
/// before it, and behind it if the command leaves it so.
fn registers() -> Vec<Vec<u8>> {
    let float = |register, number: f64| leaves::load(register, Const::F64(number.to_bits()));
    let bool = |register, bool| leaves::load(register, Const::Bool(bool));
    let quad = |register, quad| leaves::load(register, Const::Quad(quad));
    let add = |dst, lhs, rhs| computed(byte::AddI32, dst, lhs, rhs);
    let sub = |dst, lhs, rhs| computed(byte::SubI32, dst, lhs, rhs);
    let equal = |dst, lhs, rhs| computed(byte::CmpEq, dst, lhs, rhs);
    let div = |dst, lhs, rhs| computed(byte::DivF64, dst, lhs, rhs);
    let lists: [&[Cell]; 13] = [
        // A fold's registers feed further ones.
        &[
            load_i32(256, 5),
            load_i32(511, 7),
            add(LAST, 256, 511),
            sub(257, LAST, 256),
            add(511, 257, LAST),
            sub(256, 511, 257),
            ret(Some(256)),
        ],
        // The same low byte, and two values.
        &[
            load_i32(1, 5),
            load_i32(257, 7),
            sub(2, 1, 257),
            sub(258, 257, 1),
            equal(513, 1, 257),
            equal(769, 2, 258),
        ],
        &[load_i32(255, 5), leaves::load(1023, Const::U32(5)), equal(511, 255, LAST)],
        &[load_i32(0, 5), add(256, 0, 0), add(512, 256, 0), sub(0, 512, 256), sub(768, 0, 512)],
        // Known is the other.
        &[load_i32(1, 5), add(2, 257, 257), add(3, 1, 513), add(4, 257, 1), add(5, 1, 1)],
        &[load_i32(257, 5), add(2, 1, 1), add(3, 257, 513), add(4, 1, 257), add(5, 257, 257)],
        // Written, and forgotten, is the other.
        &[load_i32(1, 5), load_var(257), add(2, 1, 1), add(258, 257, 257)],
        &[load_i32(LAST, 5), load_var(255), add(2, LAST, LAST), load_var(LAST), add(3, LAST, LAST)],
        &[load_i32(1, 5), add(257, 1, 2), add(3, 1, 1), add(4, 257, 257)],
        // A barrier.
        &[load_i32(257, 5), load_i32(LAST, 7), label(1), add(1, 257, 257), equal(2, LAST, LAST)],
        // Cleanup comes first.
        &[
            jmp(257),
            add(LAST, LAST, LAST),
            label(257),
            load_i32(257, 5),
            bool(257, true),
            load_i32(1, 7),
            computed(byte::BoolNot, 513, 257, 0),
            jmp_if(513, 257),
            ret(Some(LAST)),
            add(1, 1, 1),
        ],
        // Only the fuller rewrite folds these.
        &[
            quad(1, 1),
            quad(257, 2),
            computed(byte::QTruthAnd, 513, 1, 257),
            computed(byte::QTruthNot, LAST, 257, 0),
            computed(byte::QAnd, 256, 513, LAST),
            computed(byte::QNot, 511, 513, 0),
        ],
        &[
            float(257, -1.0),
            float(513, 0.0),
            div(1, 257, 513),
            div(LAST, 257, 1),
            div(256, LAST, 257),
            equal(511, LAST, 513),
        ],
    ];
    let mut images: Vec<Vec<u8>> = lists.into_iter().map(|list| one_function(list, &[])).collect();
    for commands in COMMANDS.chunks(27) {
        let mut image = Vec::new();
        for command in commands {
            let instrs = [
                load_i32(LAST, 5),
                filled(command.byte, true, LAST),
                computed(byte::CmpEq, 1, LAST, LAST),
            ];
            cells::push_function(&mut image, LAST, &instrs, &events_for(&instrs, |_| 1));
        }
        images.push(image);
    }
    images
}

/// For both rewrites: no function knows what the one before did, whichever cell and whatever events
/// end that one.
fn several_functions() -> Vec<Vec<u8>> {
    let add = |dst, lhs, rhs| computed(byte::AddI32, dst, lhs, rhs);
    let equal = |dst, lhs, rhs| computed(byte::CmpEq, dst, lhs, rhs);
    let known = [load_i32(1, 5), load_i32(LAST, 7), add(257, 1, LAST)];
    let names = [add(2, 1, 1), equal(3, LAST, LAST), equal(1, 1, LAST), add(511, 257, 257)];
    let site = store_var(257, Some(5), Some(6));
    let ends: [(&[Cell], &[Cell]); 7] = [
        (&[], &[]),
        (&[], &[borrow(None)]),
        (&[load_i32(2, 5)], &[]),
        (&[load_var(2)], &[borrow(None)]),
        (&[site], &[write_event(6), borrow(Some(5))]),
        (&[ret(Some(257))], &[]),
        (&[label(1)], &[]),
    ];
    let mut images = Vec::new();
    for (last, events) in ends {
        let mut image = one_function(&[&known, last].concat(), events);
        cells::push_function(&mut image, 8, &names, &[]);
        images.push(image);
    }
    // Functions between that have no instructions; and one that has loads of its own.
    let mut four = one_function(&known, &[]);
    cells::push_function(&mut four, 8, &[], &[]);
    cells::push_function(&mut four, 9, &[], &[borrow(None)]);
    cells::push_function(&mut four, 10, &names, &[]);
    images.push(four);
    let mut own = one_function(&known, &[]);
    cells::push_function(&mut own, 8, &[&[load_i32(LAST, 9)], &names[..]].concat(), &[]);
    cells::push_function(&mut own, 9, &known, &[]);
    cells::push_function(&mut own, 10, &names, &[]);
    images.push(own);
    images
}

/// A small image with good sites, with some commands often.
fn small_image(random: &mut Random, often: Often) -> Vec<u8> {
    let mut image = Vec::new();
    for _ in 0..random.range(1, 2) {
        let shape = Shape {
            instrs: random.range(1, 10),
            sites: random.pick(&[0, 5, 20]),
            control: random.pick(&[0, 15, 30]),
            actions: random.pick(&[0, 10, 40]),
            misfits: 15,
            one_place: random.chance(50),
        };
        let (instrs, events) = any_function_with(random, shape, often);
        cells::push_function(&mut image, random.bits() as u16, &instrs, &events);
    }
    image
}

/// Replays a sample; gives the number of cases, or the first that is answered differently.
pub fn replay(bytes: &[u8], subject: &dyn Operations) -> Result<usize, String> {
    let line = bytes.iter().position(|byte| *byte == b'\n');
    let mut rest = &bytes[line.ok_or("the sample has no first line")? + 1..];
    let mut take = |count: usize| -> Result<&[u8], String> {
        let (part, after) = rest.split_at_checked(count).ok_or("the sample ends too early")?;
        rest = after;
        Ok(part)
    };
    let number = |bytes: &[u8]| bytes.iter().rev().fold(0, |sum, byte| sum << 8 | *byte as usize);
    let cases = number(take(2)?);
    for case in 0..cases {
        let operation = OPERATIONS[number(take(1)?)];
        let length = number(take(2)?);
        let image = take(length)?;
        let (expected, written) = match number(take(1)?) {
            0 => {
                let length = number(take(2)?);
                let num_rewrites = number(take(4)?) as u32;
                let changed = number(take(1)?) == 1;
                (Ok(Success { length, num_rewrites, changed }), take(length)?)
            }
            _ => {
                let refusal = Refusal {
                    number: number(take(1)?) as u8,
                    position: number(take(2)?) as u32,
                    detail: number(take(4)?) as u32,
                };
                (Err(refusal), &[][..])
            }
        };
        let mut out = vec![0xA5; image.len()];
        let answer = subject.run(operation, image, &mut out);
        let kept = out[written.len()..].iter().all(|byte| *byte == 0xA5);
        if answer != expected || out[..written.len()] != *written || !kept {
            return Err(format!("case {case}: {expected:?}, not {answer:?}"));
        }
    }
    match take(1) {
        Err(_) => Ok(cases),
        Ok(_) => Err("the sample goes on after its last case".into()),
    }
}
