//! Cells and images as bytes: the numbers of document 01, and of document 02 for the registers, and
//! access to parts.

pub const CELL: usize = 16;
pub const HEAD: u8 = 0xF0;
pub const MAX_IMAGE: usize = 65_536;
pub const MAX_INSTRS: usize = 2_048;
pub const MAX_EVENTS: usize = 1_024;
pub const REGISTERS: usize = 1_024;

/// Where things stand in an event cell; its kind is byte 0.
pub const EVENT_BORROW: u8 = 0;
pub const EVENT_WRITE: u8 = 1;
pub const EVENT_ACTIVATION_SITE: usize = 1;
pub const EVENT_WRITE_SITE: usize = 6;
pub const EVENT_END: usize = 15;

/// A head's bytes end here.
pub const HEAD_END: usize = 7;

pub type Cell = [u8; CELL];

pub fn half(cell: &Cell, at: usize) -> u16 {
    u16::from_le_bytes([cell[at], cell[at + 1]])
}

pub fn word(cell: &Cell, at: usize) -> u32 {
    u32::from_le_bytes(cell[at..at + 4].try_into().unwrap())
}

pub fn double(cell: &Cell, at: usize) -> u64 {
    u64::from_le_bytes(cell[at..at + 8].try_into().unwrap())
}

/// The site of 5 bytes at a place, if it is present.
pub fn site(cell: &Cell, at: usize) -> Option<u32> {
    (cell[at] == 1).then(|| word(cell, at + 1))
}

/// An image's length is good: whole cells, and not too many.
pub fn length_good(image: &[u8]) -> bool {
    image.len() <= MAX_IMAGE && image.len().is_multiple_of(CELL)
}

/// The whole cells of an image.
pub fn cells(image: &[u8]) -> &[Cell] {
    image.as_chunks().0
}

pub fn head(name: u16, instrs: usize, events: usize) -> Cell {
    let mut cell = [0; CELL];
    cell[0] = HEAD;
    cell[1..3].copy_from_slice(&name.to_le_bytes());
    cell[3..5].copy_from_slice(&(instrs as u16).to_le_bytes());
    cell[5..7].copy_from_slice(&(events as u16).to_le_bytes());
    cell
}

/// One function of an image, its cells still in the image.
#[derive(Debug, Clone, Copy)]
pub struct Function<'a> {
    pub name: u16,
    pub instrs: &'a [Cell],
    pub events: &'a [Cell],
}

/// The functions of an image that has passed the image check.
pub fn functions(image: &[u8]) -> impl Iterator<Item = Function<'_>> {
    let mut rest = cells(image);
    std::iter::from_fn(move || {
        let (head, after) = rest.split_first()?;
        let (instrs, after) = after.split_at(half(head, 3) as usize);
        let (events, after) = after.split_at(half(head, 5) as usize);
        rest = after;
        Some(Function { name: half(head, 1), instrs, events })
    })
}

/// The same, each as an image of its own.
pub fn alone(image: &[u8]) -> impl Iterator<Item = &[u8]> {
    let mut rest = image;
    functions(image).map(move |function| {
        let cells = 1 + function.instrs.len() + function.events.len();
        let (alone, after) = rest.split_at(CELL * cells);
        rest = after;
        alone
    })
}

/// Adds a function at an image's end.
pub fn push_function(image: &mut Vec<u8>, name: u16, instrs: &[Cell], events: &[Cell]) {
    image.extend_from_slice(&head(name, instrs.len(), events.len()));
    image.extend_from_slice(instrs.as_flattened());
    image.extend_from_slice(events.as_flattened());
}
