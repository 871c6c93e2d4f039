//! Images to the original's values and back.
//!
//! Names, labels and lists are numbers in an image; here each becomes a value of
//! the original's type, one for each number. A function's name also holds its
//! position, `position:number`, so that an error text tells which function it
//! means; no pass reads it for anything else.

use crate::cells::{self, Cell, CELL};
use crate::frontend::QuadVal;
use crate::legacy_lowering::{
    ActivationSiteId, IrFunction, IrInstr, OwnershipPathEvent, OwnershipPathEventKind, WriteSiteId,
};

/// How an operand lies in its cell.
#[derive(Debug, Clone, Copy, PartialEq, Eq)]
pub enum Form {
    Register,
    OptionalRegister,
    /// Two bytes that no rule restricts.
    Number,
    Bool,
    Quad,
    Word,
    Double,
    Site,
}

impl Form {
    pub const fn width(self) -> usize {
        match self {
            Form::Register | Form::Number => 2,
            Form::OptionalRegister => 3,
            Form::Bool | Form::Quad => 1,
            Form::Word => 4,
            Form::Double => 8,
            Form::Site => 5,
        }
    }
}

#[derive(Debug)]
pub struct Operand {
    pub name: &'static str,
    pub form: Form,
}

#[derive(Debug)]
pub struct Command {
    pub byte: u8,
    pub name: &'static str,
    pub operands: &'static [Operand],
}

pub struct Reader<'a> {
    cell: &'a Cell,
    at: usize,
}

impl<'a> Reader<'a> {
    pub fn new(cell: &'a Cell) -> Self {
        Reader { cell, at: 0 }
    }

    fn take<const N: usize>(&mut self) -> [u8; N] {
        let at = self.at;
        self.at += N;
        self.cell[at..self.at].try_into().unwrap()
    }

    pub fn byte(&mut self) -> u8 {
        self.take::<1>()[0]
    }

    fn half(&mut self) -> u16 {
        u16::from_le_bytes(self.take())
    }

    fn word(&mut self) -> u32 {
        u32::from_le_bytes(self.take())
    }

    fn site(&mut self) -> Option<u32> {
        let present = self.byte() == 1;
        let site = self.word();
        present.then_some(site)
    }
}

#[derive(Default)]
pub struct Writer {
    pub cell: Cell,
    at: usize,
}

impl Writer {
    fn put(&mut self, bytes: &[u8]) {
        self.cell[self.at..self.at + bytes.len()].copy_from_slice(bytes);
        self.at += bytes.len();
    }

    pub fn byte(&mut self, byte: u8) {
        self.put(&[byte]);
    }

    fn half(&mut self, number: u16) {
        self.put(&number.to_le_bytes());
    }

    fn word(&mut self, number: u32) {
        self.put(&number.to_le_bytes());
    }

    fn site(&mut self, site: Option<u32>) {
        self.byte(site.is_some() as u8);
        self.word(site.unwrap_or(0));
    }
}

/// An operand's form in a cell together with its type in the original.
pub trait OperandKind {
    type Value;
    const FORM: Form;
    fn read(reader: &mut Reader) -> Self::Value;
    fn write(value: &Self::Value, writer: &mut Writer);
}

macro_rules! kinds {
    ($($kind:ident: $value:ty = $form:ident,
        |$reader:ident| $read:expr,
        |$written:ident, $writer:ident| $write:expr;)*) => {
        $(pub struct $kind;

        impl OperandKind for $kind {
            type Value = $value;
            const FORM: Form = Form::$form;
            fn read($reader: &mut Reader) -> $value {
                $read
            }
            fn write($written: &$value, $writer: &mut Writer) {
                $write
            }
        })*
    };
}

kinds! {
    Register: u16 = Register, |r| r.half(), |v, w| w.half(*v);
    OptionalRegister: Option<u16> = OptionalRegister,
        |r| {
            let present = r.byte() == 1;
            let register = r.half();
            present.then_some(register)
        },
        |v, w| {
            w.byte(v.is_some() as u8);
            w.half(v.unwrap_or(0))
        };
    Number: u16 = Number, |r| r.half(), |v, w| w.half(*v);
    Name: String = Number, |r| r.half().to_string(), |v, w| w.half(v.parse().unwrap());
    List: Vec<u16> = Number, |r| vec![r.half()], |v, w| w.half(v[0]);
    Bool: bool = Bool, |r| r.byte() == 1, |v, w| w.byte(*v as u8);
    Quad: QuadVal = Quad, |r| quad(r.byte()), |v, w| w.byte(*v as u8);
    I32: i32 = Word, |r| r.word() as i32, |v, w| w.word(*v as u32);
    U32: u32 = Word, |r| r.word(), |v, w| w.word(*v);
    F64: f64 = Double,
        |r| f64::from_bits(u64::from_le_bytes(r.take())),
        |v, w| w.put(&v.to_bits().to_le_bytes());
    ActivationSite: Option<ActivationSiteId> = Site,
        |r| r.site().map(ActivationSiteId),
        |v, w| w.site(v.map(|site| site.0));
    WriteSite: Option<WriteSiteId> = Site,
        |r| r.site().map(WriteSiteId),
        |v, w| w.site(v.map(|site| site.0));
}

fn quad(byte: u8) -> QuadVal {
    match byte {
        0 => QuadVal::N,
        1 => QuadVal::F,
        2 => QuadVal::T,
        _ => QuadVal::S,
    }
}

fn decode_event(cell: &Cell) -> OwnershipPathEvent {
    let mut reader = Reader::new(cell);
    OwnershipPathEvent {
        kind: match reader.byte() {
            cells::EVENT_BORROW => OwnershipPathEventKind::Borrow,
            _ => OwnershipPathEventKind::Write,
        },
        activation_site: reader.site().map(ActivationSiteId),
        write_site: reader.site().map(WriteSiteId),
        rest: reader.word(),
    }
}

fn encode_event(event: &OwnershipPathEvent) -> Cell {
    let mut writer = Writer::default();
    writer.byte(match event.kind {
        OwnershipPathEventKind::Borrow => cells::EVENT_BORROW,
        OwnershipPathEventKind::Write => cells::EVENT_WRITE,
    });
    writer.site(event.activation_site.map(|site| site.0));
    writer.site(event.write_site.map(|site| site.0));
    writer.word(event.rest);
    writer.cell
}

/// The functions of an image that has passed the image check.
pub fn decode(image: &[u8]) -> Vec<IrFunction> {
    cells::functions(image)
        .enumerate()
        .map(|(position, function)| IrFunction {
            name: format!("{position}:{}", function.name),
            instrs: function.instrs.iter().map(IrInstr::decode).collect(),
            ownership_events: function.events.iter().map(decode_event).collect(),
        })
        .collect()
}

pub fn encode(functions: &[IrFunction]) -> Vec<u8> {
    let cells = functions
        .iter()
        .map(|function| 1 + function.instrs.len() + function.ownership_events.len());
    let mut image = Vec::with_capacity(CELL * cells.sum::<usize>());
    for function in functions {
        let (_, name) = function.name.split_once(':').unwrap();
        let (instrs, events) = (&function.instrs, &function.ownership_events);
        let head = cells::head(name.parse().unwrap(), instrs.len(), events.len());
        image.extend_from_slice(&head);
        for instr in instrs {
            image.extend_from_slice(&instr.encode());
        }
        for event in events {
            image.extend_from_slice(&encode_event(event));
        }
    }
    image
}
