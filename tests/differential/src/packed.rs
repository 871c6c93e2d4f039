//! Document 02's packed form (W8), written from the document: an image without its spare zeros, and
//! the image read from it.

use crate::answers::{Operations, Refusal, Reply};
use crate::cells::{self, Cell, CELL, HEAD_END, MAX_EVENTS, MAX_IMAGE, MAX_INSTRS};
use crate::compare::{check_reply, check_written, difference, hexadecimal, Difference, UNPACKED};
use crate::model;
use crate::table;
use std::collections::VecDeque;

pub const TOO_SHORT: Reply = Reply { number: 5, first: 0, second: 0 };

fn written(out: &mut [u8], bytes: &[u8]) -> Reply {
    if out.len() < bytes.len() {
        return TOO_SHORT;
    }
    out[..bytes.len()].copy_from_slice(bytes);
    Reply { number: 0, first: bytes.len(), second: 0 }
}

// ---- From an image to its packed form ----

/// Refuses as the image check, then 5.
pub fn pack_answer(image: &[u8], out: &mut [u8]) -> Reply {
    match model::image_check(image) {
        Ok(()) => written(out, &pack(image)),
        Err(refusal) => refusal.into(),
    }
}

/// The packed form of an image that has passed the image check.
pub fn pack(image: &[u8]) -> Vec<u8> {
    let mut packed = Vec::with_capacity(image.len());
    for function in cells::functions(image) {
        let (instrs, events) = (function.instrs.len(), function.events.len());
        packed.push(cells::HEAD);
        for number in [function.name, instrs as u16, events as u16] {
            packed.extend(number.to_le_bytes());
        }
        for cell in function.instrs {
            packed.push(cell[0]);
            for &(form, place) in &table::layout(cell[0]).unwrap().places {
                packed.extend(&cell[place..place + form.width()]);
            }
        }
        for event in function.events {
            packed.extend(&event[..EVENT]);
        }
    }
    packed
}

/// An event's kind, its two sites and the host's number.
const EVENT: usize = 1 + 5 + 5 + 4;

// ---- From a packed form to its image ----

/// What a cell is.
#[derive(Debug, Clone, Copy, PartialEq, Eq)]
pub enum Part {
    Head,
    Instr,
    Event,
}

/// What is wrong with a cell that must come.
#[derive(Debug, Clone, Copy, PartialEq, Eq)]
pub enum Fault {
    /// It takes the result past 65,536 bytes, and some of it is there.
    TooMany,
    /// It does, and is only promised.
    TooManyPromised,
    UnknownCommand,
    UnknownEvent,
    HeadCut,
    CellCut,
    /// It is promised, and nothing is left.
    Missing,
    NoHead,
    TooManyInstrs,
    TooManyEvents,
    Operand,
    EventOperand,
}

/// All of them, by name.
pub const FAULTS: [(&str, Fault); 12] = [
    ("a cell past the limit", Fault::TooMany),
    ("one promised past it", Fault::TooManyPromised),
    ("unknown command", Fault::UnknownCommand),
    ("unknown event", Fault::UnknownEvent),
    ("head cut", Fault::HeadCut),
    ("cell cut", Fault::CellCut),
    ("promised and missing", Fault::Missing),
    ("no head", Fault::NoHead),
    ("too many instructions", Fault::TooManyInstrs),
    ("too many events", Fault::TooManyEvents),
    ("operand", Fault::Operand),
    ("operand of an event", Fault::EventOperand),
];

impl Fault {
    pub fn number(self) -> u8 {
        match self {
            Fault::TooMany | Fault::TooManyPromised => 1,
            Fault::NoHead | Fault::TooManyInstrs | Fault::TooManyEvents => 2,
            Fault::UnknownCommand | Fault::UnknownEvent => 3,
            Fault::Operand | Fault::EventOperand => 4,
            Fault::HeadCut | Fault::CellCut | Fault::Missing => 32,
        }
    }
}

/// The first fault, the function's position and the cell's in the image.
#[derive(Debug, Clone, Copy, PartialEq, Eq)]
pub struct Refused {
    pub fault: Fault,
    pub function: usize,
    pub cell: usize,
}

impl From<Refused> for Refusal {
    fn from(refused: Refused) -> Refusal {
        let number = refused.fault.number();
        match number {
            1 => Refusal { number, position: 0, detail: 0 },
            _ => Refusal { number, position: refused.function as u32, detail: refused.cell as u32 },
        }
    }
}

/// The first fault decides, then 5.
pub fn unpack_answer(packed: &[u8], out: &mut [u8]) -> Reply {
    match unpack(packed) {
        Ok(image) => written(out, &image),
        Err(refused) => Refusal::from(refused).into(),
    }
}

/// The image, read cell by cell to the end or to the first fault.
pub fn unpack(packed: &[u8]) -> Result<Vec<u8>, Refused> {
    let mut rest = packed;
    let mut image = Vec::with_capacity(3 * packed.len().min(MAX_IMAGE));
    let mut heads = 0;
    // What the last head promises and what hasn't come yet.
    let mut promised: VecDeque<Part> = VecDeque::new();
    while !rest.is_empty() || !promised.is_empty() {
        let part = promised.pop_front().unwrap_or(Part::Head);
        heads += (part == Part::Head) as usize;
        let refused = |fault| Refused { fault, function: heads - 1, cell: image.len() / CELL };
        if image.len() + CELL > MAX_IMAGE {
            let there = !rest.is_empty();
            return Err(refused(if there { Fault::TooMany } else { Fault::TooManyPromised }));
        }
        let (cell, left) = read_cell(part, rest).map_err(refused)?;
        if part == Part::Head {
            promised.extend(vec![Part::Instr; cells::half(&cell, 3) as usize]);
            promised.extend(vec![Part::Event; cells::half(&cell, 5) as usize]);
        }
        image.extend(cell);
        rest = left;
    }
    Ok(image)
}

/// The next cell, and what is left behind it.
fn read_cell(part: Part, bytes: &[u8]) -> Result<(Cell, &[u8]), Fault> {
    let Some(&first) = bytes.first() else {
        return Err(Fault::Missing);
    };
    let length = length(part, first)?;
    let Some((kept, left)) = bytes.split_at_checked(length) else {
        return Err(if part == Part::Head { Fault::HeadCut } else { Fault::CellCut });
    };
    let mut cell = [0; CELL];
    cell[..length].copy_from_slice(kept);
    match part {
        Part::Head if first != cells::HEAD => Err(Fault::NoHead),
        Part::Head if cells::half(&cell, 3) as usize > MAX_INSTRS => Err(Fault::TooManyInstrs),
        Part::Head if cells::half(&cell, 5) as usize > MAX_EVENTS => Err(Fault::TooManyEvents),
        Part::Instr if model::instr_fault(&cell).is_some() => Err(Fault::Operand),
        Part::Event if model::event_fault(&cell).is_some() => Err(Fault::EventOperand),
        _ => Ok((cell, left)),
    }
}

/// How many bytes a cell keeps, by its first one.
pub fn length(part: Part, first: u8) -> Result<usize, Fault> {
    match part {
        Part::Head => Ok(HEAD_END),
        Part::Instr => {
            let layout = table::layout(first).ok_or(Fault::UnknownCommand)?;
            let widths = layout.command.operands.iter().map(|operand| operand.form.width());
            Ok(1 + widths.sum::<usize>())
        }
        Part::Event if first == cells::EVENT_BORROW || first == cells::EVENT_WRITE => Ok(EVENT),
        Part::Event => Err(Fault::UnknownEvent),
    }
}

// ---- The comparison ----

/// Bytes to be unpacked, and what must be answered.
pub struct Unpacking {
    pub packed: Vec<u8>,
    pub answer: Result<Vec<u8>, Refused>,
}

impl Unpacking {
    /// Asks the model.
    pub fn new(packed: Vec<u8>) -> Unpacking {
        let answer = unpack(&packed);
        Unpacking { packed, answer }
    }

    /// The length of the image; of a refused form, that with the cell at fault.
    pub fn image_length(&self) -> usize {
        match &self.answer {
            Ok(image) => image.len(),
            Err(refused) => CELL * (refused.cell + 1),
        }
    }

    /// The answer for a lent output of some length, and what is written.
    pub fn reply(&self, lent: usize) -> (Reply, &[u8]) {
        match &self.answer {
            Err(refused) => (Refusal::from(*refused).into(), &[]),
            Ok(image) if lent < image.len() => (TOO_SHORT, &[]),
            Ok(image) => (Reply { number: 0, first: image.len(), second: 0 }, image),
        }
    }

    /// Compares what is unpacked. What is lent is what `around` has between its guards.
    pub fn check(&self, subject: &dyn Operations, around: &[u8]) -> Result<(), Difference> {
        check_written(
            &UNPACKED,
            around,
            |lent| self.reply(lent),
            |out| subject.unpack(&self.packed, out),
        )
    }
}

// ---- Laws ----

/// Of one who answers, whatever the model says: an image is packed exactly if the image check passes
/// it, in fewer bytes, and refused as by the image check; unpacked it is the image again, or 5 if
/// there is no room for it. A packed form that ends early is the image's first functions, or 32.
pub fn laws(subject: &dyn Operations, image: &[u8], cut: usize) -> Result<(), Difference> {
    let mut out = vec![0xA5; image.len()];
    let reply = subject.pack(image, &mut out);
    if let Err(refusal) = subject.image_check(image) {
        return check_reply("Pack, refused as by the image check", refusal.into(), reply);
    }
    let success = |length| Reply { number: 0, first: length, second: 0 };
    check_reply("Pack, no refusal where the image check has none", success(reply.first), reply)?;
    if reply.first > image.len() / CELL * (CELL - 1) {
        let bytes = |length| format!("{length} bytes");
        let most = image.len() / CELL * (CELL - 1);
        return difference("Pack, a byte less a cell", bytes(most), bytes(reply.first));
    }
    let packed = &out[..reply.first];
    let mut back = vec![0x5A; image.len()];
    let reply = subject.unpack(packed, &mut back);
    check_reply("Unpack, of what was packed", success(image.len()), reply)?;
    if back != image {
        return difference("Unpack, as it was packed", hexadecimal(image), hexadecimal(&back));
    }
    if let Some(less) = image.len().checked_sub(1) {
        let reply = subject.unpack(packed, &mut back[..less]);
        check_reply("Unpack, a byte too short", TOO_SHORT, reply)?;
        let reply = subject.unpack(&packed[..cut % packed.len()], &mut back);
        match reply.number {
            0 if back.get(..reply.first).is_some_and(|part| image.starts_with(part)) => {}
            32 => {}
            _ => {
                let expected = "the image's first functions, or 32".into();
                return difference("Unpack, a part", expected, reply.to_string());
            }
        }
    }
    Ok(())
}

/// Of one who answers: whatever bytes are unpacked, the image check passes what they give, and that
/// packs to the same bytes.
pub fn packs_again(subject: &dyn Operations, packed: &[u8]) -> Result<(), Difference> {
    let most = MAX_IMAGE.min(CELL * packed.len());
    let mut out = vec![0xA5; most];
    let reply = subject.unpack(packed, &mut out);
    if reply.number != 0 {
        return Ok(());
    }
    let image = &out[..reply.first.min(most)];
    if let Err(refusal) = subject.image_check(image) {
        let what = "Unpack, image check of the output";
        return difference(what, "good".into(), refusal.to_string());
    }
    let mut again = vec![0x5A; packed.len()];
    let reply = subject.pack(image, &mut again);
    let success = Reply { number: 0, first: packed.len(), second: 0 };
    check_reply("Unpack, packed again", success, reply)?;
    if again != packed {
        let what = "Unpack, packed again";
        return difference(what, hexadecimal(packed), hexadecimal(&again));
    }
    Ok(())
}
