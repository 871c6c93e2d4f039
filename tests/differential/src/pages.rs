//! Document 02's pages (W1), written from the document: laid out from an image, and the image read
//! from them.

use crate::answers::Reply;
use crate::cells::{self, Cell, Function};
use crate::legacy_lowering::COMMANDS;
use crate::model;
use crate::table;

/// A line with its line feed.
pub const LINE: usize = WIDTH + 1;
const WIDTH: usize = 57;

/// The cells of a full page.
pub const PAGE: usize = 49;

/// The longest pages: a line for each of 4,096 cells, the heads' headings among them, and 83 headings
/// of further pages.
pub const LONGEST: usize = 4_179 * LINE;

/// The names of the event kinds, by their numbers.
pub const EVENTS: [&str; 2] = ["Borrow", "Write"];

// ---- From an image to its pages ----

/// Refuses as the site check, then 30.
pub fn answer(image: &[u8], out: &mut [u8]) -> Reply {
    if let Err(refusal) = model::site_check(image) {
        return refusal.into();
    }
    let pages = pages(image);
    if out.len() < pages.len() {
        return TOO_SHORT;
    }
    out[..pages.len()].copy_from_slice(&pages);
    written(pages.len())
}

pub const TOO_SHORT: Reply = Reply { number: 30, first: 0, second: 0 };

pub fn written(length: usize) -> Reply {
    Reply { number: 0, first: length, second: 0 }
}

/// The pages of an image that has passed the site check.
pub fn pages(image: &[u8]) -> Vec<u8> {
    let mut text = Vec::new();
    for function in cells::functions(image) {
        push_function(&mut text, &function);
    }
    text
}

fn push_function(text: &mut Vec<u8>, function: &Function) {
    let instrs = function.instrs.iter().map(|cell| (command(cell), cell));
    let events = function.events.iter().map(|cell| (EVENTS[cell[0] as usize], cell));
    let cells: Vec<(usize, (&str, &Cell))> = instrs.chain(events).enumerate().collect();
    // A function without cells has one page too.
    if cells.is_empty() {
        push_heading(text, function.name, 1);
    }
    for (page, cells) in (1..).zip(cells.chunks(PAGE)) {
        push_heading(text, function.name, page);
        for (position, (kind, cell)) in cells {
            push_cell(text, *position, kind, cell);
        }
    }
}

fn command(cell: &Cell) -> &'static str {
    table::layout(cell[0]).unwrap().command.name
}

fn push_heading(text: &mut Vec<u8>, name: u16, page: usize) {
    let heading = format!("function {name:05} page {page:03}");
    push_filled(text, &heading, WIDTH);
    text.push(b'\n');
}

fn push_cell(text: &mut Vec<u8>, position: usize, kind: &str, cell: &Cell) {
    let position = position.to_string();
    push_filled(text, "", 5 - position.len());
    push_filled(text, &position, position.len() + 2);
    push_filled(text, kind, 18 + 2);
    for byte in &cell[1..] {
        text.extend([byte / 16, byte % 16].map(|digit| DIGITS[digit as usize]));
    }
    text.push(b'\n');
}

/// Adds some text, and blanks behind it up to so many places.
fn push_filled(text: &mut Vec<u8>, added: &str, places: usize) {
    text.extend_from_slice(added.as_bytes());
    text.resize(text.len() + places - added.len(), b' ');
}

const DIGITS: &[u8; 16] = b"0123456789ABCDEF";

// ---- From pages to their image ----

/// The function that is being read, and how far its last page is.
struct Reading {
    name: u16,
    instrs: Vec<Cell>,
    events: Vec<Cell>,
    page: usize,
    on_page: usize,
}

impl Reading {
    /// A page after the first has a cell.
    fn ends_well(&self) -> bool {
        self.page == 1 || self.on_page > 0
    }
}

/// The image that has these pages, read line by line; none if a line isn't one, or isn't in its
/// place. So no two images have the same.
pub fn read(pages: &[u8]) -> Option<Vec<u8>> {
    let (lines, []) = pages.as_chunks::<LINE>() else {
        return None;
    };
    let mut image = Vec::new();
    let mut reading: Option<Reading> = None;
    for line in lines {
        let line = std::str::from_utf8(line).ok()?.strip_suffix('\n')?;
        match line.strip_prefix("function ") {
            Some(heading) => {
                let (name, page) = read_heading(heading)?;
                match &mut reading {
                    Some(now) if page > 1 => {
                        let next = now.name == name && now.page + 1 == page && now.on_page == PAGE;
                        next.then_some(())?;
                        (now.page, now.on_page) = (page, 0);
                    }
                    _ => {
                        (page == 1).then_some(())?;
                        finish(&mut image, reading.take())?;
                        let [instrs, events] = [const { Vec::new() }; 2];
                        reading = Some(Reading { name, instrs, events, page, on_page: 0 });
                    }
                }
            }
            None => read_cell(line, reading.as_mut()?)?,
        }
    }
    finish(&mut image, reading)?;
    Some(image)
}

fn finish(image: &mut Vec<u8>, reading: Option<Reading>) -> Option<()> {
    if let Some(reading) = reading {
        reading.ends_well().then_some(())?;
        cells::push_function(image, reading.name, &reading.instrs, &reading.events);
    }
    Some(())
}

/// Name and page of what follows `function ` in a heading.
fn read_heading(heading: &str) -> Option<(u16, usize)> {
    let (name, rest) = heading.split_at_checked(5)?;
    let (page, blanks) = rest.strip_prefix(" page ")?.split_at_checked(3)?;
    let digits = |text: &str| text.bytes().all(|byte| byte.is_ascii_digit());
    let good = digits(name) && digits(page) && blanks.bytes().all(|byte| byte == b' ');
    good.then_some((name.parse().ok()?, page.parse().ok()?))
}

/// Adds the cell of a line to the function that is being read.
fn read_cell(line: &str, reading: &mut Reading) -> Option<()> {
    let (position, rest) = line.split_at_checked(5)?;
    let (kind, rest) = rest.strip_prefix("  ")?.split_at_checked(18)?;
    let digits = rest.strip_prefix("  ")?;
    let next = reading.instrs.len() + reading.events.len();
    let in_place = position == format!("{next:5}") && reading.on_page < PAGE;
    in_place.then_some(())?;
    reading.on_page += 1;

    let mut cell = [0; cells::CELL];
    for (byte, digits) in cell[1..].iter_mut().zip(digits.as_bytes().chunks(2)) {
        let value = |digit: u8| match digit {
            b'0'..=b'9' => Some(digit - b'0'),
            b'A'..=b'F' => Some(digit - b'A' + 10),
            _ => None,
        };
        *byte = 16 * value(digits[0])? + value(*digits.get(1)?)?;
    }
    let kind = kind.trim_end_matches(' ');
    if let Some(event) = EVENTS.iter().position(|name| *name == kind) {
        cell[0] = event as u8;
        reading.events.push(cell);
        return Some(());
    }
    // Instructions come before events.
    reading.events.is_empty().then_some(())?;
    cell[0] = COMMANDS.iter().find(|command| command.name == kind)?.byte;
    reading.instrs.push(cell);
    Some(())
}

// ---- What occurs ----

/// Shapes of a function on which the pages turn.
pub const SHAPES: [(&str, fn(&Function) -> bool); 8] = [
    ("no cells", |function| count(function) == 0),
    ("events alone", |function| function.instrs.is_empty() && !function.events.is_empty()),
    ("49 cells", |function| count(function) == 49),
    ("50 cells", |function| count(function) == 50),
    ("98 cells", |function| count(function) == 98),
    ("99 cells", |function| count(function) == 99),
    ("more", |function| count(function) > 99),
    ("name above 9,999", |function| function.name > 9_999),
];

fn count(function: &Function) -> usize {
    function.instrs.len() + function.events.len()
}
