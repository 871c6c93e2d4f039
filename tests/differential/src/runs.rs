//! An interpreter written from document 01, 'How a function runs', with document 02's registers and
//! the truth-order quads and division by a float zero computed as it has them; and the three claims
//! on the records of a sent and a returned function.

use crate::cells::{self, Cell, REGISTERS};
use crate::leaves::{self, Computed, Const};
use crate::legacy_lowering::byte;
use crate::random::{mix, Random};
use crate::table;
use std::collections::BTreeSet;

#[derive(Debug, Clone, Copy, PartialEq, Eq, Hash)]
pub enum Value {
    Const(Const),
    Other(u64),
}

pub type Registers = [Value; REGISTERS];

#[derive(Debug, Clone, Copy, PartialEq, Eq)]
pub enum Cause {
    Stop,
    UnfitOperand,
    NoResult,
    MissingLabel,
    Ret(Option<u16>),
    LastCell,
}

#[derive(Debug, Clone, Copy, PartialEq, Eq)]
pub enum What {
    /// An action's cell, without its position.
    Action(Cell),
    End(Cause),
}

#[derive(Debug, Clone, PartialEq, Eq)]
pub struct Entry {
    pub what: What,
    pub registers: Box<Registers>,
}

/// A rule for the outside: its answer depends on the record and nothing else.
#[derive(Debug, Clone, Copy)]
pub struct Outside {
    pub seed: u64,
    /// How often it stops, in a hundred.
    pub stops: usize,
    /// How often its values may be of any kind, in a hundred.
    pub misfits: usize,
}

enum Answer {
    Stop,
    GoOn(Value),
}

impl Outside {
    fn answer(&self, record: u64, dst: Option<usize>) -> Answer {
        let mut random = Random::new(self.seed ^ record);
        if random.chance(self.stops) {
            return Answer::Stop;
        }
        Answer::GoOn(any_value(&mut random, dst.unwrap_or(0), self.misfits))
    }
}

/// A run and all of its record: the entries, and how many there were after n steps.
pub struct Run<'a> {
    instrs: &'a [Cell],
    registers: Box<Registers>,
    /// The sum of the registers' shares, less what it was at the start, which is the same for both
    /// runs that are compared.
    shares: u64,
    outside: Outside,
    /// The next cell; none once the run has ended.
    at: Option<usize>,
    record: u64,
    pub entries: Vec<Entry>,
    /// The record's length after each number of steps so far.
    pub lengths: Vec<usize>,
}

impl<'a> Run<'a> {
    pub fn new(instrs: &'a [Cell], registers: &Registers, outside: Outside) -> Run<'a> {
        let mut run = Run {
            instrs,
            registers: Box::new(*registers),
            shares: 0,
            outside,
            at: Some(0),
            record: 0,
            entries: Vec::new(),
            lengths: Vec::new(),
        };
        run.go_to(0);
        run.lengths.push(run.entries.len());
        run
    }

    pub fn ended(&self) -> bool {
        self.at.is_none()
    }

    /// Runs one cell; a run that has ended keeps its record.
    pub fn step(&mut self) {
        if let Some(at) = self.at {
            let cell = self.instrs[at];
            self.run_cell(at, &cell);
        }
        self.lengths.push(self.entries.len());
    }

    fn run_cell(&mut self, at: usize, cell: &Cell) {
        let next = at + 1;
        if let Some((dst, value)) = leaves::loaded(cell) {
            self.set(dst, Value::Const(value));
            return self.go_to(next);
        }
        match cell[0] {
            byte::Label => self.go_to(next),
            byte::Jmp => self.jump(cells::half(cell, 1)),
            byte::JmpIf => match self.register(cell, 1) {
                Value::Const(Const::Bool(true)) => self.jump(cells::half(cell, 3)),
                Value::Const(Const::Bool(false)) => self.go_to(next),
                _ => self.end(Cause::UnfitOperand),
            },
            byte::Ret => {
                let src = (cell[1] == 1).then(|| cells::half(cell, 2));
                self.end(Cause::Ret(src))
            }
            command => match leaves::operand_values(cell, |register| self.registers[register]) {
                Some((Value::Const(left), Value::Const(right))) => {
                    self.compute(next, cell, left, right)
                }
                Some(_) if command == byte::CmpEq || command == byte::CmpNe => self.act(next, cell),
                Some(_) => self.end(Cause::UnfitOperand),
                None => self.act(next, cell),
            },
        }
    }

    fn register(&self, cell: &Cell, place: usize) -> Value {
        self.registers[cells::half(cell, place) as usize]
    }

    fn set(&mut self, register: usize, value: Value) {
        let before = std::mem::replace(&mut self.registers[register], value);
        let less = share(register, before);
        self.shares = self.shares.wrapping_add(share(register, value)).wrapping_sub(less);
    }

    fn compute(&mut self, next: usize, cell: &Cell, left: Const, right: Const) {
        match leaves::compute(cell[0], left, right) {
            Computed::Value(value) => {
                self.set(cells::half(cell, 1) as usize, Value::Const(value));
                self.go_to(next)
            }
            Computed::DivisorZero | Computed::OutOfRange => self.end(Cause::NoResult),
            Computed::Unfit => self.end(Cause::UnfitOperand),
        }
    }

    fn act(&mut self, next: usize, cell: &Cell) {
        self.add(What::Action(*cell));
        let dst = table::layout(cell[0]).unwrap().dst(cell);
        match self.outside.answer(self.record, dst) {
            Answer::Stop => self.end(Cause::Stop),
            Answer::GoOn(value) => {
                if let Some(dst) = dst {
                    self.set(dst, value);
                }
                self.go_to(next)
            }
        }
    }

    fn jump(&mut self, name: u16) {
        let target = |cell: &Cell| cell[0] == byte::Label && cells::half(cell, 1) == name;
        match self.instrs.iter().position(target) {
            Some(at) => self.at = Some(at),
            None => self.end(Cause::MissingLabel),
        }
    }

    fn go_to(&mut self, at: usize) {
        if at < self.instrs.len() {
            self.at = Some(at);
        } else {
            self.end(Cause::LastCell);
        }
    }

    fn end(&mut self, cause: Cause) {
        self.at = None;
        self.add(What::End(cause));
    }

    fn add(&mut self, what: What) {
        let mut record = self.record.wrapping_add(1);
        if let What::Action(cell) = what {
            record = mix(record ^ u64::from_le_bytes(cell[..8].try_into().unwrap()));
            record = mix(record ^ u64::from_le_bytes(cell[8..].try_into().unwrap()));
        }
        self.record = mix(record ^ self.shares);
        self.entries.push(Entry { what, registers: self.registers.clone() });
    }
}

/// A register's share in the number that stands for a record: by its place, kind and bits alone.
fn share(register: usize, value: Value) -> u64 {
    let (kind, bits) = match value {
        Value::Const(Const::Quad(quad)) => (1, quad as u64),
        Value::Const(Const::Bool(bool)) => (2, bool as u64),
        Value::Const(Const::F64(bits)) => (3, bits),
        Value::Const(Const::I32(int)) => (4, int as u64),
        Value::Const(Const::U32(uint)) => (5, uint as u64),
        Value::Const(Const::Fx(raw)) => (6, raw as u64),
        Value::Other(bits) => (7, bits),
    };
    mix(bits ^ (8 * register as u64 + kind).wrapping_mul(0x9E37_79B9_7F4A_7C15))
}

/// Each label name of a function stands at one place: its Label cells follow one
/// another with no other cell between.
pub fn labels_at_one_place(instrs: &[Cell]) -> bool {
    let label = |cell: &Cell| cell[0] == byte::Label;
    instrs.iter().enumerate().filter(|(_, cell)| label(cell)).all(|(at, cell)| {
        let name = cells::half(cell, 1);
        let same = |other: &Cell| label(other) && cells::half(other, 1) == name;
        let after = &instrs[at + 1..];
        let run = after.iter().take_while(|other| same(other)).count();
        !after[run..].iter().any(same)
    })
}

/// The three claims, for the first `bound` steps of both functions; the sent one
/// runs on as far as it must to come up with each record of the returned one.
pub fn claims(
    sent: &[Cell],
    returned: &[Cell],
    registers: &Registers,
    outside: Outside,
    bound: usize,
) -> Result<usize, String> {
    let mut sent_run = Run::new(sent, registers, outside);
    let mut returned_run = Run::new(returned, registers, outside);
    for _ in 0..bound {
        sent_run.step();
        returned_run.step();
    }
    // Between two cells of the returned function the sent one runs each cell at most once.
    let most = (bound + 1) * (sent.len() + 1);
    while sent_run.lengths.len() <= most
        && !sent_run.ended()
        && sent_run.entries.len() < returned_run.entries.len()
    {
        sent_run.step();
    }

    let common = sent_run.lengths.iter().filter(|length| returned_run.lengths.contains(length));
    let common = common.max().copied().unwrap_or(0);
    let same = |length: usize| sent_run.entries[..length] == returned_run.entries[..length];
    if !same(common) {
        let at = (0..common).find(|&at| sent_run.entries[at] != returned_run.entries[at]).unwrap();
        return Err(format!("claim 3: records of length {common} differ in entry {at}"));
    }
    for (n, length) in sent_run.lengths.iter().enumerate().take(bound + 1) {
        if !returned_run.lengths[..=n].contains(length) {
            return Err(format!("claim 1: no record of length {length} within {n} steps"));
        }
    }
    for (m, length) in returned_run.lengths.iter().enumerate() {
        if !sent_run.lengths.contains(length) {
            return Err(format!("claim 2: no record of length {length} as after {m} steps"));
        }
    }
    Ok(sent_run.entries.len())
}

/// The kind that generated functions keep in a register, as a rule. Registers 256 apart have the
/// same, so that one taken for the other still fits.
pub fn kind_of(register: usize) -> usize {
    register % 256 / 2 % 6
}

/// A value of the register's own kind or, in some of a hundred, of any.
pub fn any_value(random: &mut Random, register: usize, misfits: usize) -> Value {
    let kind = if random.chance(misfits) { random.below(7) } else { kind_of(register) };
    match kind {
        6 => Value::Other(random.bits() % 3),
        kind => Value::Const(any_const(random, kind)),
    }
}

const INTS: [i32; 14] =
    [0, 1, 2, -1, -7, 5, 999, 1000, 1001, 1500, i32::MAX, i32::MAX - 1, i32::MIN, i32::MIN + 1];
const WORDS: [u32; 8] = [0, 1, 2, 7, 65_536, 0x8000_0000, u32::MAX - 1, u32::MAX];
const FLOATS: [u64; 20] = [
    0,                     // 0.0
    1 << 63,               // -0.0
    0x3FF0_0000_0000_0000, // 1.0
    0xBFF0_0000_0000_0000, // -1.0
    0x3FF8_0000_0000_0000, // 1.5
    0x4008_0000_0000_0000, // 3.0
    0x3FB9_9999_9999_999A, // 0.1
    0x3CA0_0000_0000_0000, // 2^-53
    1,                     // the least positive
    0x000F_FFFF_FFFF_FFFF, // the greatest subnormal
    0x0010_0000_0000_0000, // the least normal
    0x7FEF_FFFF_FFFF_FFFF, // the greatest
    0xFFEF_FFFF_FFFF_FFFF,
    0x7FF0_0000_0000_0000, // infinity
    0xFFF0_0000_0000_0000,
    0x7FF8_0000_0000_0000, // NaNs, quiet
    0xFFF8_0000_0000_0000,
    0x7FF8_0000_0000_0123,
    0x7FF0_0000_0000_0001, // and signalling
    0xFFF4_0000_0000_0000,
];

/// Every edge value of a kind.
pub fn edges(kind: usize) -> Vec<Const> {
    match kind {
        0 => INTS.iter().map(|&int| Const::I32(int)).collect(),
        1 => WORDS.iter().map(|&word| Const::U32(word)).collect(),
        2 => INTS.iter().map(|&raw| Const::Fx(raw)).collect(),
        // With both signs.
        3 => {
            let signs = |&bits: &u64| [bits, bits ^ leaves::SIGN];
            let both: BTreeSet<u64> = FLOATS.iter().flat_map(signs).collect();
            both.into_iter().map(Const::F64).collect()
        }
        4 => vec![Const::Bool(false), Const::Bool(true)],
        _ => (0..4).map(Const::Quad).collect(),
    }
}

/// A value of a kind, most often at an edge.
pub fn any_const(random: &mut Random, kind: usize) -> Const {
    let edge = random.chance(70);
    match kind {
        0 if edge => Const::I32(random.pick(&INTS)),
        0 => Const::I32(random.bits() as i32),
        1 if edge => Const::U32(random.pick(&WORDS)),
        1 => Const::U32(random.bits() as u32),
        2 if edge => Const::Fx(random.pick(&INTS)),
        2 => Const::Fx(random.bits() as i32 >> random.below(32)),
        3 if edge => Const::F64(random.pick(&FLOATS)),
        3 => Const::F64(random.bits()),
        4 => Const::Bool(random.chance(50)),
        _ => Const::Quad(random.below(4) as u8),
    }
}

pub fn any_registers(random: &mut Random, misfits: usize) -> Box<Registers> {
    Box::new(std::array::from_fn(|register| any_value(random, register, misfits)))
}
