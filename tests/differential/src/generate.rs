//! Images: every short one over small alphabets, every byte of every command,
//! every fold at its edges; random ones, ones around the limits, damaged ones; and two at a time,
//! to be joined.

use crate::cells::{self, Cell, CELL, MAX_EVENTS, MAX_IMAGE, MAX_INSTRS, REGISTERS};
use crate::codec::Form;
use crate::leaves::{self, Const};
use crate::legacy_lowering::{byte, COMMANDS};
use crate::numbered;
use crate::pages::PAGE;
use crate::random::Random;
use crate::runs::{any_const, edges, kind_of};
use crate::table;

// ---- Cells ----

/// A command and its operands, as far as they have two bytes each.
fn cell(command: u8, operands: &[u16]) -> Cell {
    let mut cell = [0; CELL];
    cell[0] = command;
    for (place, operand) in (1..).step_by(2).zip(operands) {
        put_half(&mut cell, place, *operand);
    }
    cell
}

fn put_half(cell: &mut Cell, place: usize, number: u16) {
    cell[place..place + 2].copy_from_slice(&number.to_le_bytes());
}

fn put_optional(cell: &mut Cell, place: usize, register: Option<u16>) {
    cell[place] = register.is_some() as u8;
    put_half(cell, place + 1, register.unwrap_or(0));
}

pub fn label(name: u16) -> Cell {
    cell(byte::Label, &[name])
}

pub fn jmp(name: u16) -> Cell {
    cell(byte::Jmp, &[name])
}

pub fn jmp_if(cond: u16, name: u16) -> Cell {
    cell(byte::JmpIf, &[cond, name])
}

pub fn ret(src: Option<u16>) -> Cell {
    let mut cell = cell(byte::Ret, &[]);
    put_optional(&mut cell, 1, src);
    cell
}

pub fn load_i32(dst: u16, val: i32) -> Cell {
    leaves::load(dst as usize, Const::I32(val))
}

pub fn load_var(dst: u16) -> Cell {
    cell(byte::LoadVar, &[dst, 9])
}

/// A command with dst and two operands, or dst and one.
pub fn computed(command: u8, dst: u16, lhs: u16, rhs: u16) -> Cell {
    match leaves::operands(command) {
        Some(1) => cell(command, &[dst, lhs]),
        _ => cell(command, &[dst, lhs, rhs]),
    }
}

pub(crate) fn put_site(cell: &mut Cell, place: usize, site: Option<u32>) {
    cell[place] = site.is_some() as u8;
    cell[place + 1..place + 5].copy_from_slice(&site.unwrap_or(0).to_le_bytes());
}

pub fn store_var(src: u16, activation_site: Option<u32>, write_site: Option<u32>) -> Cell {
    let mut cell = cell(byte::StoreVar, &[9, src]);
    put_site(&mut cell, 5, activation_site);
    put_site(&mut cell, 10, write_site);
    cell
}

pub fn make_record(dst: u16, write_site: Option<u32>) -> Cell {
    let mut cell = cell(byte::MakeRecord, &[dst, 9, 8]);
    put_site(&mut cell, 7, write_site);
    cell
}

pub fn event(kind: u8, activation_site: Option<u32>, write_site: Option<u32>) -> Cell {
    let mut cell = [0; CELL];
    cell[0] = kind;
    put_site(&mut cell, cells::EVENT_ACTIVATION_SITE, activation_site);
    put_site(&mut cell, cells::EVENT_WRITE_SITE, write_site);
    cell[11] = 6;
    cell
}

pub fn borrow(activation_site: Option<u32>) -> Cell {
    event(cells::EVENT_BORROW, activation_site, None)
}

pub fn write(write_site: u32) -> Cell {
    event(cells::EVENT_WRITE, None, Some(write_site))
}

pub fn one_function(instrs: &[Cell], events: &[Cell]) -> Vec<u8> {
    let mut image = Vec::with_capacity(CELL * (1 + instrs.len() + events.len()));
    cells::push_function(&mut image, 7, instrs, events);
    image
}

// ---- Exhaustive groups ----

/// A numbered list of images.
pub struct Exhaustive {
    pub name: &'static str,
    pub count: usize,
    pub image: Box<dyn Fn(usize) -> Vec<u8> + Sync>,
    /// Lengths of the lent outputs, less the image's.
    pub more: &'static [isize],
    /// This many of the first images are run too.
    pub run: usize,
}

/// Less than the length of any image: an output of no bytes.
pub const NO_OUTPUT: isize = -(1 << 20);

pub fn exhaustive() -> Vec<Exhaustive> {
    let mut groups = vec![
        every_length(),
        every_refusal(),
        every_cell(),
        page_ends(),
        registers(),
        short_divisions(),
        short_quads(),
        apart(),
        short_functions(),
        every_fold(),
        functions(),
        blocks(),
        every_pair(),
        every_byte(),
        short_lists(),
        short_sites(),
        short_with_events(),
        short_rests(),
        chains(),
    ];
    groups.extend(numbered::exhaustive());
    groups
}

/// Those in which images take up to three rounds until they rest, and those of lengths and refusals.
pub fn rests() -> Vec<Exhaustive> {
    vec![every_length(), every_refusal(), short_rests(), chains()]
}

/// Those in which functions have numbers, and those of lengths and refusals.
pub fn numbers() -> Vec<Exhaustive> {
    let mut groups = vec![every_length(), every_refusal()];
    groups.extend(numbered::exhaustive());
    groups
}

/// Those in which packed forms differ.
pub fn packed() -> Vec<Exhaustive> {
    vec![every_length(), every_refusal(), every_cell()]
}

/// Images of every length up to five cells and of those around the greatest, good
/// up to their last whole cell.
pub fn every_length() -> Exhaustive {
    let lengths: Vec<usize> = (0..=5 * CELL).chain(MAX_IMAGE - 17..=MAX_IMAGE + 33).collect();
    Exhaustive {
        name: "every length",
        run: 0,
        more: &[NO_OUTPUT, -17, -16, -15, -1, 0, 1, 15, 16, 17],
        count: lengths.len(),
        image: Box::new(move |index| {
            let mut image = Vec::new();
            while image.len() < lengths[index] {
                cells::push_function(&mut image, 7, &[], &[]);
            }
            image.truncate(lengths[index]);
            image
        }),
    }
}

/// An image for each number with which it is refused, alone and behind a good function.
fn every_refusal() -> Exhaustive {
    let images = one_a_refusal();
    let good = one_function(&[ret(None)], &[]);
    Exhaustive {
        name: "every refusal",
        run: 0,
        more: &[NO_OUTPUT, -1, 0, 1],
        count: 2 * images.len(),
        image: Box::new(move |index| match index.checked_sub(images.len()) {
            None => images[index].clone(),
            Some(index) => [&good[..], &images[index]].concat(),
        }),
    }
}

/// A function with each command and each event kind: optional operands absent, present, or no byte
/// zero that may be set, where sites aren't good; alone, or with a function before it and one behind.
fn every_cell() -> Exhaustive {
    let mut cells: Vec<(Vec<Cell>, Vec<Cell>)> = Vec::new();
    for command in COMMANDS {
        let some = [false, true].map(|present| filled(command.byte, present, 2));
        for cell in some.into_iter().chain([full(command.byte)]) {
            let events = events_for(&[cell], |_| 1);
            cells.push((vec![cell], if cell == full(command.byte) { vec![] } else { events }));
        }
    }
    for kind in [cells::EVENT_BORROW, cells::EVENT_WRITE] {
        let full = Some(0xF4F3_F2F1);
        for (one, two) in [(None, None), (full, None), (None, full), (full, full)] {
            let mut event = event(kind, one, two);
            event[11..15].copy_from_slice(&[1, 2, 3, 4]);
            cells.push((vec![], vec![event]));
        }
    }
    Exhaustive {
        name: "every cell",
        more: &[0],
        run: 0,
        count: 2 * cells.len(),
        image: Box::new(move |index| {
            let (instrs, events) = &cells[index / 2];
            let mut image = Vec::new();
            if index % 2 == 1 {
                cells::push_function(&mut image, 0x0201, &[ret(Some(1))], &[]);
            }
            cells::push_function(&mut image, 0xF2F1, instrs, events);
            if index % 2 == 1 {
                cells::push_function(&mut image, 0x0403, &[], &[borrow(None)]);
            }
            image
        }),
    }
}

/// A good cell of a command, without its events: no byte is zero that may be set.
fn full(command: u8) -> Cell {
    let mut cell = filled(command, true, 0x0302);
    for &(form, place) in &table::layout(command).unwrap().places {
        match form {
            Form::Site => put_site(&mut cell, place, Some(0xF4F3_F2F1)),
            Form::Number | Form::Word | Form::Double => {
                cell[place..place + form.width()].fill(0xF5)
            }
            _ => {}
        }
    }
    cell
}

/// Functions of as many cells as a page ends with, up to eleven pages, and of none: instructions
/// alone, events alone, or some of both; names of one to five digits; alone, twice, or with a
/// function without cells before or behind.
fn page_ends() -> Exhaustive {
    let about = |pages: usize| PAGE * pages - 2..=PAGE * pages + 2;
    let sizes: Vec<usize> = (0..=2).chain([1, 2, 3, 10].into_iter().flat_map(about)).collect();
    let splits: [fn(usize) -> usize; 6] = [
        |cells| cells,
        |_| 0,
        |cells| cells.min(1),
        |cells| cells.saturating_sub(1),
        |cells| cells / 2,
        |cells| cells.min(PAGE),
    ];
    let names = [0, 7, 10, 99, 100, 999, 1000, 9999, 10000, 32768, 65535];
    let arrangements = 4;
    Exhaustive {
        name: "page ends",
        more: &[0],
        run: 0,
        count: sizes.len() * splits.len() * names.len() * arrangements,
        image: Box::new(move |index| {
            let (name, rest) = (names[index % names.len()], index / names.len());
            let (arrangement, rest) = (rest % arrangements, rest / arrangements);
            let (split, cells) = (splits[rest % splits.len()], sizes[rest / splits.len()]);
            let instrs = split(cells);
            let (instrs, events) = listed_function(index, instrs, cells - instrs);
            let mut image = Vec::new();
            let mut push = |name, instrs: &[Cell], events: &[Cell]| {
                cells::push_function(&mut image, name, instrs, events);
            };
            if arrangement == 1 {
                push(name ^ 1, &[], &[]);
            }
            push(name, &instrs, &events);
            match arrangement {
                2 => push(name ^ 1, &[], &[]),
                3 => push(name ^ 1, &instrs, &events),
                _ => {}
            }
            image
        }),
    }
}

/// A function of so many instructions, all commands in turn, and so many events, of both kinds if
/// there is an instruction.
fn listed_function(first: usize, instrs: usize, events: usize) -> (Vec<Cell>, Vec<Cell>) {
    let site = first as u32;
    let mut commands: Vec<Cell> = (first..first + instrs)
        .map(|at| {
            let command = COMMANDS[at % COMMANDS.len()].byte;
            let sites = [byte::StoreVar, byte::MakeRecord].contains(&command);
            filled(command, !sites, (at % REGISTERS) as u16)
        })
        .collect();
    let writes = instrs > 0 && events > 0;
    if writes {
        commands[0] = make_record(1, Some(site));
    }
    let events = (0..events).map(|at| {
        let mut event = if writes && at % 3 == 0 { write(site) } else { borrow(None) };
        event[11..15].copy_from_slice(&(0x9E37_79B9_u32.wrapping_mul(at as u32)).to_le_bytes());
        event
    });
    (commands, events.collect())
}

/// The longest of the short lists, in cells.
pub(crate) const SHORT: usize = 5;

/// The `index`th list over an alphabet, shorter lists first.
pub(crate) fn word<T: Copy>(alphabet: &[T], mut index: usize) -> Vec<T> {
    let mut length = 0;
    let mut count = 1;
    while index >= count {
        index -= count;
        count *= alphabet.len();
        length += 1;
    }
    let letters = (0..length).map(|_| {
        let letter = alphabet[index % alphabet.len()];
        index /= alphabet.len();
        letter
    });
    letters.collect()
}

pub(crate) fn words<T>(alphabet: &[T], longest: usize) -> usize {
    (0..=longest as u32).map(|length| alphabet.len().pow(length)).sum()
}

/// Labels, jumps, loads and folds.
fn short_lists() -> Exhaustive {
    let alphabet = vec![
        label(1),
        label(2),
        jmp(1),
        jmp(2),
        jmp_if(1, 1),
        ret(None),
        ret(Some(1)),
        load_i32(1, 5),
        load_i32(2, 7),
        leaves::load(1, Const::Bool(true)),
        leaves::load(1, Const::U32(3)),
        computed(byte::AddI32, 2, 1, 1),
        computed(byte::AddI32, 1, 1, 2),
        computed(byte::CmpEq, 1, 1, 2),
        load_var(1),
    ];
    Exhaustive {
        name: "short lists",
        more: &[0],
        run: words(&alphabet, SHORT - 1),
        count: words(&alphabet, SHORT),
        image: Box::new(move |index| one_function(&word(&alphabet, index), &[])),
    }
}

/// Quads in both orders: known, unknown and of another kind, truth-order results that feed
/// further commands, a barrier between.
fn short_quads() -> Exhaustive {
    let quad = |register, quad| leaves::load(register, Const::Quad(quad));
    let alphabet = vec![
        quad(1, 0),
        quad(1, 2),
        quad(2, 1),
        quad(2, 3),
        leaves::load(1, Const::Bool(true)),
        load_var(2),
        label(1),
        computed(byte::QTruthAnd, 1, 1, 2),
        computed(byte::QTruthImpl, 2, 1, 2),
        computed(byte::QTruthNot, 1, 2, 0),
        computed(byte::QTruthOr, 2, 2, 1),
        computed(byte::QAnd, 2, 1, 2),
        computed(byte::QNot, 1, 1, 0),
    ];
    Exhaustive {
        name: "short quads",
        more: &[0],
        run: words(&alphabet, SHORT - 1),
        count: words(&alphabet, SHORT),
        image: Box::new(move |index| one_function(&word(&alphabet, index), &[])),
    }
}

/// Divisions by either zero: of numbers of both signs, of infinity, NaN and zero, of what is
/// unknown, by a zero of another kind; quotients that feed further commands, a barrier between.
fn short_divisions() -> Exhaustive {
    let float = |register, number: f64| leaves::load(register, Const::F64(number.to_bits()));
    let alphabet = vec![
        float(1, 1.0),
        float(1, -1.0),
        float(1, f64::INFINITY),
        leaves::load(1, Const::F64(0xFFF8_0000_0000_0123)),
        float(2, 0.0),
        float(2, -0.0),
        load_i32(2, 0),
        load_var(1),
        label(1),
        computed(byte::DivF64, 1, 1, 2),
        computed(byte::DivF64, 3, 1, 2),
        computed(byte::DivF64, 3, 2, 2),
        computed(byte::DivF64, 2, 2, 1),
        computed(byte::AddF64, 3, 1, 3),
        computed(byte::MulF64, 2, 1, 2),
        computed(byte::CmpEq, 4, 1, 3),
    ];
    Exhaustive {
        name: "short divisions",
        more: &[0],
        run: words(&alphabet, SHORT - 1),
        count: words(&alphabet, SHORT - 1),
        image: Box::new(move |index| one_function(&word(&alphabet, index), &[])),
    }
}

/// A value of each kind whose loads cleanup takes away.
pub const SWEPT: [Const; 5] = [
    Const::Quad(2),
    Const::Bool(true),
    Const::F64(0x3FF8_0000_0000_0000),
    Const::I32(5),
    Const::Fx(1500),
];

/// Registers 256 apart: up to two loads of all kinds; and loads, folds that read and write such
/// registers, one that is forgotten, a barrier, a jump and a return.
fn apart() -> Exhaustive {
    let values = || SWEPT.into_iter().chain([Const::U32(3)]);
    let into = |register| values().map(move |value| leaves::load(register, value));
    let loads: Vec<Cell> = [1, 255, 257, 513, 767, 1023].into_iter().flat_map(into).collect();
    let alphabet = vec![
        load_i32(1, 5),
        load_i32(257, 7),
        load_i32(513, 9),
        leaves::load(1, Const::U32(3)),
        leaves::load(257, Const::Bool(true)),
        leaves::load(257, Const::U32(4)),
        leaves::load(1023, Const::Fx(1500)),
        computed(byte::AddI32, 1, 1, 257),
        computed(byte::AddI32, 257, 1, 513),
        computed(byte::AddI32, 513, 257, 257),
        computed(byte::CmpEq, 257, 257, 1),
        computed(byte::CmpEq, 767, 1023, 255),
        load_var(257),
        label(1),
        jmp_if(257, 1),
        ret(Some(257)),
    ];
    let pairs = words(&loads, 2);
    let count = pairs + words(&alphabet, SHORT - 1);
    Exhaustive {
        name: "apart",
        more: &[0],
        run: count,
        count,
        image: Box::new(move |index| {
            let list = match index.checked_sub(pairs) {
                None => word(&loads, index),
                Some(index) => word(&alphabet, index),
            };
            one_function(&list, &[])
        }),
    }
}

/// Short lists with heads and events among the cells: several functions, one of which may leave
/// known what the next one names.
fn short_functions() -> Exhaustive {
    let alphabet = vec![
        load_i32(1, 5),
        load_i32(257, 7),
        computed(byte::AddI32, 257, 1, 1),
        computed(byte::CmpEq, 1, 257, 257),
        load_var(1),
        label(1),
        ret(Some(257)),
        borrow(None),
        cells::head(7, 0, 0),
    ];
    Exhaustive {
        name: "short functions",
        more: &[0],
        run: 0,
        count: words(&alphabet, SHORT),
        image: Box::new(move |index| several_functions(&word(&alphabet, index), |_| Vec::new())),
    }
}

/// The functions of a list in which a head begins the next one; Borrow events go behind the
/// instructions, and what these ask for behind them.
pub(crate) fn several_functions(list: &[Cell], asked: fn(&[Cell]) -> Vec<Cell>) -> Vec<u8> {
    let mut image = Vec::new();
    for function in list.split(|cell| cell[0] == cells::HEAD) {
        let (mut events, instrs): (Vec<Cell>, Vec<Cell>) =
            function.iter().partition(|cell| cell[0] == cells::EVENT_BORROW);
        events.extend(asked(&instrs));
        cells::push_function(&mut image, 7, &instrs, &events);
    }
    image
}

/// Up to four functions. One leaves registers known, by up to 300 writes, and ends with a load, a
/// fold, a register forgotten, a return or a label, without events or with some; a later one,
/// behind it or behind functions of no cells or of events alone, has a command on each of these
/// registers, which is folded if it is still known.
fn functions() -> Exhaustive {
    #[derive(Clone, Copy)]
    enum Kind {
        Leaves,
        Names,
        Empty,
        EventsAlone,
    }
    use Kind::{Empty, EventsAlone, Leaves, Names};
    let arrangements: [&[Kind]; 6] = [
        &[Leaves, Names],
        &[Names, Leaves, Names],
        &[Leaves, Empty, Names],
        &[Leaves, EventsAlone, Names],
        &[Leaves, Names, Leaves, Names],
        &[Leaves, Empty, EventsAlone, Names],
    ];
    let sizes = [1, 2, 64, 255, 256, 257, 300];
    // The first register, and how many there are.
    let spreads = [(0, REGISTERS), (250, REGISTERS), (1000, REGISTERS), (255, 7)];
    let ends = 5;
    let events = [
        (None, vec![]),
        (None, vec![borrow(None)]),
        (Some(store_var(1, Some(1), Some(2))), vec![write(2), borrow(Some(1))]),
    ];
    Exhaustive {
        name: "functions",
        more: &[0],
        run: 0,
        count: arrangements.len() * sizes.len() * spreads.len() * ends * events.len(),
        image: Box::new(move |index| {
            let (arrangement, index) =
                (arrangements[index % arrangements.len()], index / arrangements.len());
            let (size, index) = (sizes[index % sizes.len()], index / sizes.len());
            let ((first, spread), index) = (spreads[index % spreads.len()], index / spreads.len());
            let (store, events) = &events[index / ends];
            let register = |at| ((first + at % spread) % REGISTERS) as u16;
            let mut leaving: Vec<Cell> = store.iter().copied().collect();
            leaving.extend(writes(size, register));
            leaving.push(match index % ends {
                0 => load_i32(register(size), 5),
                1 => computed(byte::CmpEq, register(size), register(0), register(0)),
                2 => load_var(register(size)),
                3 => ret(Some(register(0))),
                _ => label(1),
            });
            let naming: Vec<Cell> = (0..=size).take(spread).map(|at| same(register(at))).collect();
            let mut image = Vec::new();
            for kind in arrangement {
                let (instrs, events): (&[Cell], &[Cell]) = match kind {
                    Leaves => (&leaving, events),
                    Names => (&naming, &[]),
                    Empty => (&[], &[]),
                    EventsAlone => (&[], &[borrow(None)]),
                };
                cells::push_function(&mut image, 7, instrs, events);
            }
            image
        }),
    }
}

/// This many writes, loads and folds, each of which makes a register known.
fn writes(count: usize, register: impl Fn(usize) -> u16) -> Vec<Cell> {
    let mut loaded = 0;
    let write = |at| {
        let register = register(at);
        if at % 3 == 1 {
            return computed(byte::AddI32, register, loaded, loaded);
        }
        loaded = register;
        load_i32(register, at as i32)
    };
    (0..count).map(write).collect()
}

/// A command that is folded if the register is known, and makes no other one unknown.
fn same(register: u16) -> Cell {
    computed(byte::CmpEq, register, register, register)
}

/// Sites on commands and events, coherent or not, up to five cells together.
fn short_sites() -> Exhaustive {
    let instrs = [
        store_var(1, Some(1), None),
        store_var(1, Some(2), None),
        store_var(1, None, Some(1)),
        store_var(1, Some(1), Some(2)),
        make_record(1, Some(1)),
        make_record(1, Some(2)),
        ret(None),
        jmp(1),
        label(1),
    ];
    let events = [
        borrow(None),
        borrow(Some(1)),
        borrow(Some(2)),
        write(1),
        write(2),
        event(cells::EVENT_WRITE, None, None),
        event(cells::EVENT_WRITE, Some(1), Some(1)),
        event(cells::EVENT_BORROW, Some(1), Some(1)),
        event(cells::EVENT_BORROW, None, Some(1)),
    ];
    // A list of each alphabet, the first of every length up to five.
    let letters = instrs.len();
    let splits: Vec<(usize, usize)> = (0..=SHORT)
        .flat_map(|together| (0..=together).map(move |first| (first, together - first)))
        .collect();
    let sizes: Vec<usize> =
        splits.iter().map(|(first, second)| letters.pow((first + second) as u32)).collect();
    Exhaustive {
        name: "short sites",
        more: &[0],
        run: 0,
        count: sizes.iter().sum(),
        image: Box::new(move |mut index| {
            let mut split = 0;
            while index >= sizes[split] {
                index -= sizes[split];
                split += 1;
            }
            let (first, second) = splits[split];
            let mut letter = |alphabet: &[Cell]| {
                let letter = alphabet[index % letters];
                index /= letters;
                letter
            };
            let instrs: Vec<Cell> = (0..first).map(|_| letter(&instrs)).collect();
            let events: Vec<Cell> = (0..second).map(|_| letter(&events)).collect();
            one_function(&instrs, &events)
        }),
    }
}

/// Labels, jumps, loads, folds and sites, with the events that the sites ask for.
fn short_with_events() -> Exhaustive {
    let alphabet = vec![
        label(1),
        label(2),
        jmp(1),
        jmp(2),
        ret(None),
        load_i32(1, 5),
        leaves::load(1, Const::Bool(true)),
        computed(byte::AddI32, 2, 1, 1),
        store_var(1, Some(1), None),
        store_var(1, None, Some(1)),
        make_record(1, Some(2)),
        store_var(1, Some(3), Some(3)),
    ];
    Exhaustive {
        name: "short with events",
        more: &[0],
        run: 0,
        count: words(&alphabet, SHORT),
        image: Box::new(move |index| {
            let instrs = word(&alphabet, index);
            let events = events_for(&instrs, |_| 2);
            one_function(&instrs, &events)
        }),
    }
}

/// The events that make a function's sites good; a MakeRecord's site gets as many as `writes` says.
pub fn events_for(instrs: &[Cell], mut writes: impl FnMut(u32) -> usize) -> Vec<Cell> {
    let mut events = Vec::new();
    for cell in instrs {
        let Some(layout) = table::layout(cell[0]) else {
            continue;
        };
        if let Some(site) = layout.activation_site.and_then(|place| cells::site(cell, place)) {
            events.push(borrow(Some(site)));
        }
        if let Some(site) = layout.write_site.and_then(|place| cells::site(cell, place)) {
            let count = if cell[0] == byte::StoreVar { 1 } else { writes(site) };
            events.extend((0..count).map(|_| write(site)));
        }
    }
    events
}

/// Short lists with heads and events among the cells, in which images take one to three rounds until
/// they rest: loads of one register, folds into it or into the one with the same low byte, labels
/// that a removed jump leaves side by side.
fn short_rests() -> Exhaustive {
    let alphabet = vec![
        load_i32(1, 5),
        leaves::load(1, Const::Bool(true)),
        leaves::load(1, Const::U32(3)),
        computed(byte::AddI32, 1, 1, 1),
        computed(byte::AddU32, 1, 1, 1),
        computed(byte::CmpEq, 1, 1, 1),
        computed(byte::AddI32, 257, 1, 1),
        label(1),
        label(2),
        jmp(1),
        borrow(None),
        cells::head(7, 0, 0),
    ];
    Exhaustive {
        name: "short rests",
        more: &[0],
        run: words(&alphabet, SHORT - 1),
        count: words(&alphabet, SHORT),
        image: Box::new(move |index| several_functions(&word(&alphabet, index), |_| Vec::new())),
    }
}

/// Chains of folds into one register and labels that removed jumps leave side by side, one before the
/// other, with sites or without; alone, twice, or beside a function that takes one round or two.
fn chains() -> Exhaustive {
    let folds = [0, 1, 2, 3, 7, 64, 300];
    let labels = [0, 1, 2, 9];
    let events =
        [(None, vec![]), (Some(store_var(1, Some(1), Some(2))), vec![write(2), borrow(Some(1))])];
    // What else there is: before the chain, and behind it.
    let resting = one_function(&[load_i32(1, 5), label(1), ret(Some(1))], &[]);
    let two_rounds = one_function(&[load_i32(1, 5), load_i32(1, 6)], &[borrow(None)]);
    let beside = [(None, None), (Some(&resting), None), (None, Some(&resting))];
    let beside = beside.into_iter().chain([(Some(&two_rounds), None), (None, Some(&two_rounds))]);
    let beside: Vec<[Vec<u8>; 2]> = beside
        .map(|(before, behind)| [before, behind].map(|it| it.cloned().unwrap_or_default()))
        .collect();
    let arrangements = beside.len() + 1;
    Exhaustive {
        name: "chains",
        more: &[NO_OUTPUT, -17, -16, -1, 0, 1, 16, 40, 1000],
        run: 0,
        count: folds.len() * labels.len() * events.len() * 4 * arrangements,
        image: Box::new(move |index| {
            let (folds, index) = (folds[index % folds.len()], index / folds.len());
            let (labels, index) = (labels[index % labels.len()], index / labels.len());
            let ((store, events), index) = (&events[index % events.len()], index / events.len());
            let (register, index) = ([1, 1023][index % 2], index / 2);
            let (labels_first, arrangement) = (index % 2 == 1, index / 2);
            let mut parts = [chain(register, folds), doubled(labels)];
            if labels_first {
                parts.reverse();
            }
            let instrs = [store.iter().copied().collect(), parts.concat()].concat();
            let function = one_function(&instrs, events);
            match beside.get(arrangement) {
                Some([before, behind]) => [&before[..], &function, behind].concat(),
                None => function.repeat(2),
            }
        }),
    }
}

/// A load and so many folds into its register, the last of several a comparison; nothing for none.
fn chain(register: u16, folds: usize) -> Vec<Cell> {
    let mut cells: Vec<Cell> =
        (0..folds).map(|_| computed(byte::AddI32, register, register, register)).collect();
    match &mut cells[..] {
        [] => return cells,
        [_] => {}
        [.., last] => *last = same(register),
    }
    cells.insert(0, load_i32(register, 5));
    cells
}

/// So many labels, each with a jump between it and itself.
fn doubled(labels: usize) -> Vec<Cell> {
    (0..labels as u16).flat_map(|name| [label(name), jmp(name), label(name)]).collect()
}

/// Two lists of images. Each of the one is joined with each of the other, both ways round.
pub struct Pairs {
    pub name: &'static str,
    pub firsts: Vec<Vec<u8>>,
    pub seconds: Vec<Vec<u8>>,
    /// Lengths of the lent outputs, less the joined image's.
    pub more: &'static [isize],
}

/// Short functions, one of which would change the next if something were carried over: a label, a
/// jump, a return, a load, a known register, a site. Lists of up to 3 cells with those of up to 2,
/// with the events that the sites ask for; no function, a function without instructions, and an
/// image for each refusal among both.
pub fn joined_short() -> Pairs {
    let alphabet = [
        label(1),
        label(2),
        jmp(1),
        ret(None),
        load_i32(1, 5),
        leaves::load(1, Const::Bool(true)),
        computed(byte::AddI32, 1, 1, 1),
        store_var(1, Some(1), Some(2)),
        make_record(3, Some(2)),
    ];
    let images = |longest: usize| {
        let short = (0..words(&alphabet, longest)).map(|index| {
            let instrs = word(&alphabet, index);
            one_function(&instrs, &events_for(&instrs, |_| 2))
        });
        let mut images: Vec<Vec<u8>> = short.collect();
        images.extend([vec![], one_function(&[], &[borrow(None)])]);
        images.extend(one_a_refusal());
        images
    };
    let (firsts, seconds) = (images(3), images(2));
    Pairs { name: "joined, short", firsts, seconds, more: &[0, -1] }
}

/// An image for each number from 1 to 26 with which it is refused; for 2, 3 and 4 one in which
/// another function stands before and one in which none does.
pub fn one_a_refusal() -> Vec<Vec<u8>> {
    let store = store_var(1, Some(1), Some(2));
    let [no_head, unknown, unknown_event] = [0, 0x52, 2].map(|byte| cell(byte, &[]));
    let sites: [(&[Cell], &[Cell]); 10] = [
        (&[store, store], &[]),
        (&[store], &[event(cells::EVENT_WRITE, Some(1), Some(2))]),
        (&[store], &[borrow(Some(1)), write(2), borrow(Some(1))]),
        (&[store], &[write(2)]),
        (&[store, make_record(1, Some(2))], &[borrow(Some(1)), write(2)]),
        (&[], &[event(cells::EVENT_BORROW, None, Some(2))]),
        (&[], &[event(cells::EVENT_WRITE, None, None)]),
        (&[store], &[borrow(Some(1))]),
        (&[store], &[borrow(Some(1)), write(2), write(2)]),
        (&[], &[write(2)]),
    ];
    let cells = [
        no_head.to_vec(),
        // It ends before the cell that its head promises.
        cells::head(7, 1, 0).to_vec(),
        one_function(&[label(1), unknown], &[]),
        one_function(&[], &[unknown_event]),
        one_function(&[label(1), load_i32(REGISTERS as u16, 5)], &[]),
    ];
    let behind =
        cells.iter().map(|image| [one_function(&[ret(None)], &[]), image.clone()].concat());
    let sites = sites.iter().map(|(instrs, events)| one_function(instrs, events));
    let length = vec![cells::HEAD; CELL + 1];
    behind.chain(cells.clone()).chain(sites).chain([length]).collect()
}

/// Every two commands after two loads, into registers 256 apart, and before a fold of what these
/// loaded.
fn every_pair() -> Exhaustive {
    let mut letters = Vec::new();
    for command in COMMANDS {
        for register in [1, 257] {
            letters.push(filled(command.byte, false, register));
            letters.push(filled(command.byte, true, register));
        }
    }
    Exhaustive {
        name: "every pair",
        more: &[0],
        run: letters.len() * letters.len(),
        count: letters.len() * letters.len(),
        image: Box::new(move |index| {
            let instrs = [
                load_i32(1, 5),
                load_i32(257, 7),
                letters[index / letters.len()],
                letters[index % letters.len()],
                computed(byte::AddI32, 3, 1, 257),
            ];
            one_function(&instrs, &events_for(&instrs, |_| 1))
        }),
    }
}

/// Every value of every byte of every command, of both events and of a head,
/// optional operands absent and present.
fn every_byte() -> Exhaustive {
    let mut bases = Vec::new();
    for command in COMMANDS {
        for present in [false, true] {
            bases.push((filled(command.byte, present, 2), false));
        }
    }
    for kind in [cells::EVENT_BORROW, cells::EVENT_WRITE] {
        for site in [None, Some(1)] {
            bases.push((event(kind, site, None), true));
            bases.push((event(kind, None, site), true));
        }
    }
    let per_base = CELL * 256;
    let cells = bases.len() * per_base;
    Exhaustive {
        name: "every byte",
        more: &[0],
        run: 0,
        count: cells + per_base,
        image: Box::new(move |index| {
            let (place, value) = (index % per_base / 256, (index % 256) as u8);
            let Some((base, is_event)) = bases.get(index / per_base) else {
                let mut image = one_function(&[load_i32(1, 5)], &[borrow(None)]);
                image[place] = value;
                return image;
            };
            let mut cell = *base;
            cell[place] = value;
            if *is_event {
                // A cell with the same sites, so that some of them are good.
                let site = cells::site(&cell, cells::EVENT_ACTIVATION_SITE);
                let write_site = cells::site(&cell, cells::EVENT_WRITE_SITE);
                one_function(&[store_var(1, site, write_site)], &[cell])
            } else {
                let events = events_for(&[cell], |_| 1);
                one_function(&[cell], &events)
            }
        }),
    }
}

/// A good cell of a command; its registers, names, sites and numbers are all `number`.
pub fn filled(command: u8, present: bool, number: u16) -> Cell {
    let mut cell = cell(command, &[]);
    for &(form, place) in &table::layout(command).unwrap().places {
        match form {
            Form::OptionalRegister | Form::Site if !present => {}
            Form::OptionalRegister => put_optional(&mut cell, place, Some(number)),
            Form::Site => put_site(&mut cell, place, Some(number.into())),
            Form::Quad | Form::Bool => cell[place] = present as u8,
            _ => put_half(&mut cell, place, number),
        }
    }
    cell
}

/// Numbers around the edges of a byte and of the registers, and some far past them.
pub(crate) const EDGES: [u16; 18] = [
    0, 1, 254, 255, 256, 257, 511, 512, 513, 1022, 1023, 1024, 1025, 1279, 1280, 32768, 65279,
    65535,
];

/// Every register of every command at every edge, or absent with one of its bytes set; and every
/// other operand of two bytes or more at 1,023, 1,024 and 65,535, which are good there. What is
/// named is known before, and so is the register with the same low byte; behind the command both
/// show whether they still are.
fn registers() -> Exhaustive {
    // A cell, its other registers and the number that is tried.
    let mut tried: Vec<(Cell, u16, u16)> = Vec::new();
    for (command, other) in COMMANDS.iter().flat_map(|command| [(command, 2), (command, 1023)]) {
        let mut try_numbers = |present, place, numbers: &[u16]| {
            for &number in numbers {
                let mut cell = filled(command.byte, present, other);
                put_half(&mut cell, place, number);
                tried.push((cell, other, number));
            }
        };
        for &(form, place) in &table::layout(command.byte).unwrap().places {
            match form {
                Form::Register => try_numbers(true, place, &EDGES),
                Form::OptionalRegister => {
                    try_numbers(true, place + 1, &EDGES);
                    try_numbers(false, place + 1, &[1, 255, 256, 65280]);
                }
                Form::Site => try_numbers(true, place + 1, &[1023, 1024, 65535]),
                Form::Number | Form::Word | Form::Double => {
                    try_numbers(true, place, &[1023, 1024, 65535])
                }
                Form::Bool | Form::Quad => {}
            }
        }
    }
    Exhaustive {
        name: "registers",
        more: &[0],
        run: tried.len(),
        count: tried.len(),
        image: Box::new(move |index| {
            let (cell, other, number) = tried[index];
            let (register, low) = (number % REGISTERS as u16, number % 256);
            let instrs = [
                load_i32(other, 3),
                load_i32(low, 5),
                load_i32(register, 7),
                cell,
                same(low),
                same(register),
            ];
            one_function(&instrs, &events_for(&instrs, |_| 1))
        }),
    }
}

/// Every computed command on every two edge values of all kinds.
fn every_fold() -> Exhaustive {
    let commands: Vec<u8> = computed_commands().collect();
    let values: Vec<Const> = (0..6).flat_map(edges).collect();
    let pairs = values.len() * values.len();
    Exhaustive {
        name: "every fold",
        more: &[0],
        run: commands.len() * pairs,
        count: commands.len() * pairs,
        image: Box::new(move |index| {
            let command = commands[index / pairs];
            let left = values[index % pairs / values.len()];
            let right = values[index % values.len()];
            let instrs = [
                leaves::load(255, left),
                leaves::load(1023, right),
                computed(command, 511, 255, 1023),
                computed(byte::CmpEq, 4, 511, 255),
            ];
            one_function(&instrs, &[])
        }),
    }
}

/// Two blocks of writes, loads and folds, a barrier behind each, then a command on each register,
/// as far as there is room, which is folded if a barrier leaves it known. A few writes in each
/// block, or about 64 or 256, in the first also about 128, 300, 512 or 1,024, into registers of
/// their own, into 300 or into seven.
fn blocks() -> Exhaustive {
    let barriers = [label(1), cell(byte::Assert, &[1]), cell(byte::ClockRead, &[2])];
    let about = |size: usize| size - 1..=size + 1;
    let mut firsts: Vec<usize> =
        (0..=3).chain(62..=66).chain(254..=259).chain(1021..=1026).collect();
    firsts.extend([128, 300, 512].into_iter().flat_map(about));
    let seconds: Vec<usize> = [1, 64, 256].into_iter().flat_map(about).collect();
    let spreads = [REGISTERS, 300, 7];
    Exhaustive {
        name: "blocks",
        more: &[0],
        run: 0,
        count: firsts.len() * seconds.len() * spreads.len() * barriers.len(),
        image: Box::new(move |index| {
            let (first, index) = (firsts[index % firsts.len()], index / firsts.len());
            let (second, index) = (seconds[index % seconds.len()], index / seconds.len());
            let (spread, barrier) = (spreads[index % spreads.len()], index / spreads.len());
            let mut instrs = Vec::new();
            for size in [first, second] {
                instrs.extend(writes(size, |at| ((size + at) % spread) as u16));
                instrs.push(barriers[barrier]);
            }
            instrs.extend((0..REGISTERS as u16).map(same));
            instrs.truncate(MAX_INSTRS);
            one_function(&instrs, &[])
        }),
    }
}

/// The computed commands, which the fuller rewrite may fold.
pub fn computed_commands() -> impl Iterator<Item = u8> {
    COMMANDS.iter().map(|command| command.byte).filter(|byte| leaves::operands(*byte).is_some())
}

/// Those that the default rewrite may fold.
pub fn default_commands() -> impl Iterator<Item = u8> {
    computed_commands().filter(|byte| !leaves::TRUTH_ORDER.contains(byte))
}

// ---- Random functions ----

/// What a random function is like.
#[derive(Clone, Copy)]
pub struct Shape {
    pub instrs: usize,
    /// How many of a hundred commands may have sites.
    pub sites: usize,
    /// How many of a hundred commands are labels, jumps and returns.
    pub control: usize,
    /// How many of a hundred of the rest are actions.
    pub actions: usize,
    /// How many of a hundred registers may hold another kind than the command asks for.
    pub misfits: usize,
    /// Each label name at one place.
    pub one_place: bool,
}

/// How many of a hundred times some commands come together, besides sites and control.
#[derive(Clone, Copy, Default)]
pub struct Often {
    pub quads: usize,
    /// Divisions by a float zero.
    pub divisions: usize,
    /// How many of a hundred registers aren't among the first twelve: 256, 512 or 768 further on,
    /// or the last before 256 or 1,024. If 0, none is past 255.
    pub far: usize,
}

struct Maker<'a> {
    random: &'a mut Random,
    shape: Shape,
    often: Often,
    /// Where the registers past the first twelve start.
    far: [usize; 2],
    next_site: u32,
    labels: u16,
}

/// Label names are below this where they may repeat.
const LABELS: usize = 5;

/// The label at the start of a function that begins again at its end.
const AGAIN: u16 = 99;

/// Each twelve registers from one of these on hold each kind twice, as the first twelve do.
const FAR: [usize; 5] = [256 - 12, 256, 512, 768, REGISTERS - 12];

impl Maker<'_> {
    fn register(&mut self, kind: usize) -> u16 {
        if !self.random.chance(self.shape.misfits) {
            let first = 2 * kind + self.random.below(2);
            return self.first_or_far(first);
        }
        match self.random.below(3) {
            0 if self.often.far > 0 => self.random.below(REGISTERS) as u16,
            0 => self.random.bits() as u8 as u16,
            _ => self.random.below(12) as u16,
        }
    }

    /// One of the first twelve registers or, in some of a hundred, one further on of its kind.
    fn first_or_far(&mut self, first: usize) -> u16 {
        if self.often.far == 0 || !self.random.chance(self.often.far) {
            return first as u16;
        }
        let start = self.random.pick(&self.far);
        (start + (first + 12 - start % 256 % 12) % 12) as u16
    }

    fn any_register(&mut self) -> u16 {
        let kind = self.random.below(6);
        self.register(kind)
    }

    fn site(&mut self) -> Option<u32> {
        self.random.chance(60).then(|| {
            self.next_site = self.next_site.wrapping_add(1);
            self.next_site
        })
    }

    /// A label to jump to; most often one that is there or comes next.
    fn label_name(&mut self) -> u16 {
        let labels = if self.shape.one_place { self.labels as usize + 2 } else { LABELS };
        self.random.below(labels) as u16
    }

    fn push(&mut self, instrs: &mut Vec<Cell>) {
        let choice = self.random.below(100);
        if choice < self.shape.sites {
            return instrs.push(self.site_command());
        }
        if choice < self.shape.sites + self.shape.control {
            return instrs.push(self.control());
        }
        if choice < self.shape.sites + self.shape.control + self.often.quads {
            return self.push_quads(instrs);
        }
        let often = self.often.quads + self.often.divisions;
        if choice < self.shape.sites + self.shape.control + often {
            return self.push_divisions(instrs);
        }
        if self.random.chance(self.shape.actions) {
            return instrs.push(self.action());
        }
        instrs.push(match self.random.below(9) {
            0..=3 => self.load(),
            _ => self.computed(),
        })
    }

    fn site_command(&mut self) -> Cell {
        if self.random.chance(50) {
            let src = self.any_register();
            let (activation_site, write_site) = (self.site(), self.site());
            store_var(src, activation_site, write_site)
        } else {
            let dst = self.any_register();
            let write_site = self.site();
            make_record(dst, write_site)
        }
    }

    fn control(&mut self) -> Cell {
        match self.random.below(10) {
            0..=3 if self.shape.one_place => {
                self.labels += 1;
                label(self.labels - 1)
            }
            0..=3 => label(self.label_name()),
            4..=6 => jmp(self.label_name()),
            7..=8 => {
                let cond = self.register(4);
                jmp_if(cond, self.label_name())
            }
            _ => {
                let src = self.any_register();
                ret(self.random.chance(50).then_some(src))
            }
        }
    }

    fn load(&mut self) -> Cell {
        let register = self.any_register();
        let kind = if self.random.chance(self.shape.misfits) {
            self.random.below(6)
        } else {
            kind_of(register as usize)
        };
        leaves::load(register as usize, any_const(self.random, kind))
    }

    fn computed(&mut self) -> Cell {
        let commands: Vec<u8> = default_commands().collect();
        let command = self.random.pick(&commands);
        let (operand, result) = match table::layout(command).unwrap().command.name {
            "CmpEq" | "CmpNe" => (self.random.below(6), 4),
            name if name.starts_with("CmpI32") => (0, 4),
            name if name.starts_with("CmpU32") => (1, 4),
            name if name.ends_with("I32") => (0, 0),
            name if name.ends_with("U32") => (1, 1),
            name if name.ends_with("Fx") => (2, 2),
            name if name.ends_with("F64") => (3, 3),
            name if name.starts_with("Bool") => (4, 4),
            _ => (5, 5),
        };
        let (dst, lhs) = (self.register(result), self.register(operand));
        let rhs = self.register(operand);
        computed(command, dst, lhs, rhs)
    }

    /// Loads of quads, most often, and commands of both orders on them.
    fn push_quads(&mut self, instrs: &mut Vec<Cell>) {
        for first in (0..REGISTERS).filter(|register| kind_of(*register) == 5).take(2) {
            if self.random.chance(75) {
                let register = self.first_or_far(first);
                instrs.push(leaves::load(register as usize, any_const(self.random, 5)));
            }
        }
        for _ in 0..self.random.range(1, 3) {
            let command = self.random.pick(&[
                byte::QTruthAnd,
                byte::QTruthImpl,
                byte::QTruthNot,
                byte::QTruthOr,
                byte::QAnd,
                byte::QNot,
            ]);
            let (dst, lhs, rhs) = (self.register(5), self.register(5), self.register(5));
            instrs.push(computed(command, dst, lhs, rhs));
        }
    }

    /// Loads of a float and of a zero, most often, the division by it, and commands on the quotient.
    fn push_divisions(&mut self, instrs: &mut Vec<Cell>) {
        // The first registers that hold floats.
        let (dividend, divisor) = (self.first_or_far(6), self.first_or_far(7));
        if self.random.chance(75) {
            instrs.push(leaves::load(dividend as usize, any_const(self.random, 3)));
        }
        if self.random.chance(75) {
            let zero = self.random.pick(&[0, leaves::SIGN]);
            instrs.push(leaves::load(divisor as usize, Const::F64(zero)));
        }
        let dst = self.register(3);
        instrs.push(computed(byte::DivF64, dst, dividend, divisor));
        for _ in 0..self.random.below(4) {
            let (command, result) = self.random.pick(&[
                (byte::AddF64, 3),
                (byte::SubF64, 3),
                (byte::MulF64, 3),
                (byte::DivF64, 3),
                (byte::CmpEq, 4),
            ]);
            let (dst, lhs, rhs) = (self.register(result), self.register(3), self.register(3));
            instrs.push(computed(command, dst, lhs, rhs));
        }
    }

    /// An action without sites, or a truth-order command, on registers of any kind.
    fn action(&mut self) -> Cell {
        let command = loop {
            let command = COMMANDS[self.random.below(COMMANDS.len())].byte;
            if is_action(command) || leaves::TRUTH_ORDER.contains(&command) {
                break command;
            }
        };
        let mut cell = cell(command, &[]);
        for &(form, place) in &table::layout(command).unwrap().places {
            match form {
                Form::Register => put_half(&mut cell, place, self.any_register()),
                Form::OptionalRegister if self.random.chance(60) => {
                    put_optional(&mut cell, place, Some(self.any_register()));
                }
                Form::OptionalRegister | Form::Site => {}
                Form::Bool => cell[place] = self.random.below(2) as u8,
                Form::Quad => cell[place] = self.random.below(4) as u8,
                Form::Number | Form::Word | Form::Double => {
                    let bytes = self.random.bits().to_le_bytes();
                    cell[place..place + form.width()].copy_from_slice(&bytes[..form.width()]);
                }
            }
        }
        cell
    }
}

/// Neither computed nor control, and without sites.
fn is_action(command: u8) -> bool {
    let load = leaves::loaded(&cell(command, &[])).is_some();
    let control = [byte::Label, byte::Jmp, byte::JmpIf, byte::Ret].contains(&command);
    let sites = [byte::StoreVar, byte::MakeRecord].contains(&command);
    !load && !control && !sites && leaves::operands(command).is_none()
}

/// A function whose sites are good.
pub fn any_function(random: &mut Random, shape: Shape) -> (Vec<Cell>, Vec<Cell>) {
    any_function_with(random, shape, Often::default())
}

/// The same, with some commands often.
pub fn any_function_with(
    random: &mut Random,
    shape: Shape,
    often: Often,
) -> (Vec<Cell>, Vec<Cell>) {
    let next_site = random.bits() as u32;
    let next_site = random.pick(&[0, 1, u32::MAX - 2, 0x7FFF_FFFE, 0xFFFE, next_site]);
    let far = if often.far > 0 { [(); 2].map(|()| random.pick(&FAR)) } else { [0; 2] };
    let mut maker = Maker { random, shape, often, far, next_site, labels: 0 };
    let mut instrs: Vec<Cell> = Vec::with_capacity(shape.instrs);
    while instrs.len() < shape.instrs {
        let repeat = maker.random.chance(6);
        match instrs.last() {
            Some(last) if repeat && last[0] == byte::Label => instrs.push(*last),
            _ => maker.push(&mut instrs),
        }
    }
    instrs.truncate(shape.instrs);
    let events = any_events(random, &instrs);
    (instrs, events)
}

/// The events that make a function's sites good, and a few more, in any order.
pub(crate) fn any_events(random: &mut Random, instrs: &[Cell]) -> Vec<Cell> {
    let mut events = events_for(instrs, |_| random.range(1, 3));
    for _ in 0..random.below(3) {
        events.push(borrow(None));
    }
    for event in &mut events {
        event[11..15].copy_from_slice(&(random.bits() as u32).to_le_bytes());
    }
    random.shuffle(&mut events);
    events
}

/// Spoils the sites of a function, or not.
pub(crate) fn spoil(random: &mut Random, instrs: &mut [Cell], events: &mut Vec<Cell>) {
    for _ in 0..random.range(1, 2) {
        let some_site = events
            .iter()
            .flat_map(|event| {
                [
                    cells::site(event, cells::EVENT_ACTIVATION_SITE),
                    cells::site(event, cells::EVENT_WRITE_SITE),
                ]
            })
            .flatten()
            .next()
            .unwrap_or(1);
        let site = random.pick(&[Some(some_site), Some(some_site.wrapping_add(1)), None]);
        if random.chance(30) {
            let stores = instrs.iter_mut().filter(|cell| cell[0] == byte::StoreVar);
            let mut stores: Vec<&mut Cell> = stores.collect();
            if !stores.is_empty() {
                let at = random.below(stores.len());
                put_site(stores[at], random.pick(&[5, 10]), site);
            }
            continue;
        }
        if events.is_empty() {
            events.push(event(random.below(2) as u8, site, None));
            continue;
        }
        let at = random.below(events.len());
        match random.below(6) {
            0 => {
                events.remove(at);
            }
            1 => {
                let copy = events[at];
                events.insert(random.below(events.len() + 1), copy);
            }
            2 => events[at][0] ^= 1,
            3 => put_site(&mut events[at], cells::EVENT_ACTIVATION_SITE, site),
            4 => put_site(&mut events[at], cells::EVENT_WRITE_SITE, site),
            _ => events.push(write(site.unwrap_or(0))),
        }
    }
}

pub(crate) fn any_shape(random: &mut Random) -> Shape {
    Shape {
        instrs: random.below(24),
        sites: random.pick(&[0, 5, 30, 60]),
        control: random.pick(&[0, 10, 25, 40]),
        actions: random.pick(&[5, 10, 50]),
        misfits: 15,
        one_place: random.chance(30),
    }
}

pub(crate) fn any_often(random: &mut Random) -> Often {
    Often {
        quads: random.pick(&[0, 20, 60]),
        divisions: random.pick(&[0, 0, 15, 40]),
        far: random.pick(&[0, 20, 50]),
    }
}

/// Up to four functions, most with good sites.
pub fn any_image(random: &mut Random) -> Vec<u8> {
    let mut image = Vec::new();
    for _ in 0..random.pick(&[0, 1, 1, 1, 1, 2, 3, 4]) {
        let (shape, often) = (any_shape(random), any_often(random));
        let (mut instrs, mut events) = any_function_with(random, shape, often);
        if random.chance(25) {
            spoil(random, &mut instrs, &mut events);
        }
        let name = random.bits() as u16;
        cells::push_function(&mut image, name, &instrs, &events);
    }
    image
}

/// One to four functions, most of them with good sites, into which chains of folds into one register
/// are put, and labels that a removed jump leaves side by side. Most such images take three rounds
/// until they rest.
pub fn restless(random: &mut Random) -> Vec<u8> {
    let mut image = Vec::new();
    for _ in 0..random.pick(&[1, 1, 2, 3, 4]) {
        let shape = Shape { instrs: random.below(8), ..any_shape(random) };
        let often = any_often(random);
        let (mut instrs, mut events) = any_function_with(random, shape, often);
        let labels = random.pick(&[0, 0, 50]);
        for _ in 0..random.below(4) {
            let at = random.below(instrs.len() + 1);
            let piece = match random.chance(labels) {
                true => any_doubled(random),
                false => any_chain(random),
            };
            instrs.splice(at..at, piece);
        }
        if random.chance(10) {
            spoil(random, &mut instrs, &mut events);
        }
        let name = random.bits() as u16;
        cells::push_function(&mut image, name, &instrs, &events);
    }
    image
}

/// Up to four folds into a register behind a load of any kind, which may not be there; then another
/// load or none.
fn any_chain(random: &mut Random) -> Vec<Cell> {
    let register = random.pick(&[0, 1, 2, 257, 1022]);
    let kind = random.below(6);
    let commands: [&[u8]; 6] = [
        &[byte::AddI32, byte::SubI32, byte::MulI32, byte::CmpEq],
        &[byte::AddU32, byte::SubU32, byte::CmpEq],
        &[byte::AddFx, byte::SubFx, byte::MulFx, byte::CmpNe],
        &[byte::AddF64, byte::SubF64, byte::MulF64, byte::DivF64, byte::CmpEq],
        &[byte::BoolNot, byte::BoolAnd, byte::CmpEq],
        &[byte::QNot, byte::QAnd, byte::QTruthNot, byte::CmpNe],
    ];
    let load = |random: &mut Random, kind| leaves::load(register, any_const(random, kind));
    let mut cells = Vec::new();
    if random.chance(85) {
        cells.push(load(random, kind));
    }
    for _ in 0..random.pick(&[0, 1, 1, 1, 2, 3, 4]) {
        // Also into the next register.
        let dst = register + random.pick(&[0, 0, 0, 1]);
        let command = random.pick(commands[kind]);
        cells.push(computed(command, dst as u16, register as u16, register as u16));
    }
    if random.chance(25) {
        let kind = random.below(6);
        cells.push(load(random, kind));
    }
    cells
}

/// A label, a jump to it and the same label, or one of them changed; cells that aren't reached
/// between.
fn any_doubled(random: &mut Random) -> Vec<Cell> {
    let name = random.below(LABELS) as u16;
    let [before, jump, behind] = [(); 3].map(|()| match random.chance(10) {
        true => random.below(LABELS) as u16,
        false => name,
    });
    let mut cells = vec![label(before); random.pick(&[1, 1, 2])];
    cells.push(jmp(jump));
    if random.chance(20) {
        cells.extend(any_chain(random));
    }
    cells.extend(vec![label(behind); random.pick(&[1, 1, 2])]);
    cells
}

/// A single function with each label name at one place, to be run.
pub fn runnable(random: &mut Random) -> Vec<u8> {
    let shape = Shape {
        instrs: random.below(13),
        sites: random.pick(&[0, 10]),
        control: random.pick(&[20, 35, 50]),
        actions: random.pick(&[10, 40, 70]),
        misfits: random.pick(&[0, 0, 15]),
        one_place: random.chance(90),
    };
    let often = Often {
        quads: random.pick(&[0, 15, 40]),
        divisions: random.pick(&[0, 0, 15, 40]),
        far: random.pick(&[0, 20, 50]),
    };
    let (mut instrs, events) = any_function_with(random, shape, often);
    // Half of them begin again at their end.
    if random.chance(50) {
        instrs.insert(0, label(AGAIN));
        instrs.push(jmp(AGAIN));
    }
    one_function(&instrs, &events)
}

/// A good image with some of its bytes or cells changed.
pub fn damaged(random: &mut Random) -> Vec<u8> {
    let mut image = any_image(random);
    for _ in 0..random.range(1, 3) {
        damage(random, &mut image);
    }
    image
}

/// One that ends early.
pub fn truncated(random: &mut Random) -> Vec<u8> {
    let mut image = any_image(random);
    image.truncate(random.below(image.len() + 1));
    image
}

/// Up to so many bytes that are no image.
pub fn any_bytes(random: &mut Random, most: usize) -> Vec<u8> {
    (0..random.range(0, most)).map(|_| random.bits() as u8).collect()
}

pub(crate) fn damage(random: &mut Random, image: &mut Vec<u8>) {
    let count = image.len() / CELL;
    if count == 0 {
        image.push(random.bits() as u8);
        return;
    }
    let at = random.below(image.len());
    let cell = random.below(count) * CELL;
    match random.below(12) {
        0 => image[at] ^= 1 << random.below(8),
        1 => image[at] = random.pick(&[0, 1, 2, 3, 4, 0x51, 0x52, 0x7F, 0x80, 0xF0, 0xFF]),
        2 => image[at] = random.bits() as u8,
        3 => {
            image.drain(cell..cell + CELL);
        }
        4 => {
            let copy = image[cell..cell + CELL].to_vec();
            image.splice(cell..cell, copy);
        }
        5 => {
            let other = random.below(count) * CELL;
            for byte in 0..CELL {
                image.swap(cell + byte, other + byte);
            }
        }
        6 => image.truncate(at),
        7 => {
            let more = random.range(1, 17);
            image.extend((0..more).map(|_| random.bits() as u8));
        }
        // A head's counts, where the cell is one.
        8 => {
            let place = cell + random.pick(&[3, 5]);
            image[place] = image[place].wrapping_add(random.pick(&[1, 255]));
        }
        9 => {
            let place = cell + random.pick(&[3, 4, 5, 6]);
            image[place] = random.pick(&[0, 3, 4, 7, 8, 0xFF]);
        }
        _ => rename_register(random, (&mut image[cell..cell + CELL]).try_into().unwrap()),
    }
}

/// Another number in the place of one of a cell's registers, if it has one: an edge, or one whose
/// low byte is small and whose high byte isn't 0.
fn rename_register(random: &mut Random, cell: &mut Cell) {
    let places = table::layout(cell[0]).map_or(&[][..], |layout| &layout.places);
    let registers = places.iter().filter_map(|&(form, place)| match form {
        Form::Register => Some(place),
        Form::OptionalRegister => Some(place + 1),
        _ => None,
    });
    let registers: Vec<usize> = registers.collect();
    if registers.is_empty() {
        return;
    }
    let number = match random.below(3) {
        0 => random.pick(&EDGES),
        1 => random.pick(&[1023, 1024, 1025]),
        _ => random.pick(&[1, 2, 3, 4, 5, 0x7F, 0x80, 0xFF]) << 8 | random.below(12) as u16,
    };
    put_half(cell, random.pick(&registers), number);
}

// ---- Images to be joined or cut ----

/// Two to four functions, all with good sites.
pub fn several(random: &mut Random) -> Vec<u8> {
    let mut image = Vec::new();
    for name in 0..random.range(2, 4) {
        let (shape, often) = (any_shape(random), any_often(random));
        let (instrs, events) = any_function_with(random, shape, often);
        cells::push_function(&mut image, name as u16, &instrs, &events);
    }
    image
}

/// Two images; in one of ten pairs the same twice, so that both have each label and each site.
pub fn any_pair(random: &mut Random) -> [Vec<u8>; 2] {
    let first = any_part(random);
    let second = if random.chance(10) { first.clone() } else { any_part(random) };
    [first, second]
}

fn any_part(random: &mut Random) -> Vec<u8> {
    match random.below(28) {
        0..=8 => any_image(random),
        9..=13 => several(random),
        14..=18 => damaged(random),
        19..=22 => restless(random),
        23..=26 => numbered::any_numbered(random),
        _ => {
            let functions = functions();
            (functions.image)(random.below(functions.count))
        }
    }
}

/// Two images of which one is around a limit; or good ones that are 65,536 bytes together, with
/// more instructions or more events than one function may have, or a cell more or less.
pub fn long_pair(random: &mut Random) -> [Vec<u8>; 2] {
    let most = MAX_IMAGE / CELL;
    match random.below(5) {
        0 => [limit(random), any_image(random)],
        1 => pair_of(random, most, MAX_INSTRS - 1, 0),
        2 => pair_of(random, most, 900, MAX_EVENTS),
        3 => pair_of(random, most + 1, MAX_INSTRS - 1, 0),
        _ => pair_of(random, most - 1, MAX_INSTRS - 2, 0),
    }
}

/// Two images of so many cells together. The first is a function of at most so many instructions
/// and, if any, so many events; so is the first function of the second.
fn pair_of(random: &mut Random, cells: usize, instrs: usize, events: usize) -> [Vec<u8>; 2] {
    let [first, mut second] = [(); 2].map(|()| {
        let instrs = random.range(instrs / 2, instrs);
        filled_function(random, instrs, Some(events))
    });
    loop {
        let left = cells - (first.len() + second.len()) / CELL;
        if left == 0 {
            return [first, second];
        }
        let instrs = random.below(left.min(MAX_INSTRS + 1));
        second.extend(filled_function(random, instrs, Some(0)));
    }
}

// ---- Images to be laid out in pages ----

/// One to three functions with good sites, of as many cells as a page ends with, or a few more or
/// less; or without cells.
pub fn paged(random: &mut Random) -> Vec<u8> {
    let mut image = Vec::new();
    for _ in 0..random.range(1, 3) {
        let pages = random.pick(&[0, 1, 1, 1, 2, 2, 3, 6]);
        let cells = (PAGE * pages + random.pick(&[0, 0, 1, 1, 2, 3])).saturating_sub(1);
        let share = random.below(cells + 1);
        let instrs = random.pick(&[cells, share, share, cells.min(PAGE), 0]);
        let name = random.bits() as u16 >> random.pick(&[0, 0, 4, 8, 12]);
        push_good_function(random, &mut image, name, instrs, cells - instrs);
    }
    image
}

/// An image of 65,536 bytes with the longest pages: as many functions as leave room for 83 pages
/// that aren't the first of their function.
pub fn longest_pages(random: &mut Random) -> Vec<u8> {
    let further = 83;
    let functions = random.pick(&[2, 2, 3, 4, 7, 13, 14]);
    // Each page but a function's last is full; on that stands one cell, and some more on a few.
    let mut left = MAX_IMAGE / CELL - 2 * functions - PAGE * further;
    let mut sizes = vec![1; functions];
    for _ in 0..further {
        let at = random.below(functions);
        // No function has more than 3,072 cells.
        let at = if sizes[at] > PAGE * 60 { (at + 1) % functions } else { at };
        sizes[at] += PAGE;
    }
    while left > 0 {
        let more = random.range(1, left);
        sizes[random.below(functions)] += more;
        left -= more;
    }
    let mut image = Vec::new();
    for cells in sizes {
        let least = cells.saturating_sub(MAX_EVENTS);
        let instrs = random.range(least, cells.min(MAX_INSTRS));
        let name = random.bits() as u16;
        push_good_function(random, &mut image, name, instrs, cells - instrs);
    }
    image
}

/// Adds a function of so many instructions and so many events; no site if there are more sites than
/// these have events for.
fn push_good_function(
    random: &mut Random,
    image: &mut Vec<u8>,
    name: u16,
    instrs: usize,
    events: usize,
) {
    let sites = if events == 0 { 0 } else { random.pick(&[0, 5, 30]) };
    let shape = Shape { instrs, sites, control: 10, actions: 50, misfits: 15, one_place: false };
    let often = any_often(random);
    let (mut cells, mut made) = any_function_with(random, shape, often);
    let places = [cells::EVENT_ACTIVATION_SITE, cells::EVENT_WRITE_SITE];
    made.retain(|event| places.iter().any(|&place| cells::site(event, place).is_some()));
    if made.len() > events {
        cells.iter_mut().for_each(without_sites);
        made.clear();
    }
    while made.len() < events {
        let mut event = borrow(None);
        event[11..15].copy_from_slice(&(random.bits() as u32).to_le_bytes());
        made.push(event);
    }
    random.shuffle(&mut made);
    cells::push_function(image, name, &cells, &made);
}

fn without_sites(cell: &mut Cell) {
    let layout = table::layout(cell[0]).unwrap();
    for place in [layout.activation_site, layout.write_site].into_iter().flatten() {
        put_site(cell, place, None);
    }
}

// ---- Limits ----

/// An image around one of the limits.
pub fn limit(random: &mut Random) -> Vec<u8> {
    let near = |random: &mut Random, limit: usize| limit - 2 + random.below(5);
    match random.below(9) {
        0 => {
            let instrs = near(random, MAX_INSTRS);
            filled_function(random, instrs, None)
        }
        1 => {
            let instrs = random.range(0, 20);
            let events = near(random, MAX_EVENTS);
            filled_function(random, instrs, Some(events))
        }
        2 => {
            let (instrs, events) = (near(random, MAX_INSTRS), near(random, MAX_EVENTS));
            filled_function(random, instrs, Some(events))
        }
        // Around 65,536 bytes.
        3 => {
            let mut image = Vec::new();
            while image.len() < MAX_IMAGE {
                let left = MAX_IMAGE / CELL - image.len() / CELL - 1;
                let instrs = random.range(0, MAX_INSTRS).min(left);
                let part = filled_function(random, instrs, Some(0));
                image.extend_from_slice(&part);
            }
            around_the_end(random, image)
        }
        4 => {
            let functions = near(random, MAX_IMAGE / CELL);
            let mut image = Vec::new();
            for name in 0..functions {
                cells::push_function(&mut image, name as u16, &[], &[]);
            }
            image
        }
        // Write sites, each with one event.
        5 => {
            let sites = near(random, MAX_EVENTS);
            let instrs: Vec<Cell> = (0..sites as u32)
                .map(|site| match site % 2 {
                    0 => store_var(1, None, Some(site)),
                    _ => make_record(1, Some(site)),
                })
                .collect();
            spoiled_function(random, instrs)
        }
        // Activation sites.
        6 => {
            let sites = near(random, MAX_EVENTS) as u32;
            let instrs = (0..sites).map(|site| store_var(1, Some(site), None)).collect();
            spoiled_function(random, instrs)
        }
        // A register around 1,024, or with a high byte.
        7 => {
            let instrs = random.range(1, 20);
            let mut image = filled_function(random, instrs, None);
            let cell = CELL * random.range(1, instrs);
            rename_register(random, (&mut image[cell..cell + CELL]).try_into().unwrap());
            image
        }
        // A head that claims more than there is, or just as much.
        _ => {
            let (instrs, events) = (random.below(30), random.below(30));
            let mut image = filled_function(random, instrs, Some(events));
            let place = random.pick(&[3, 5]);
            image[place] = image[place].wrapping_add(random.pick(&[0, 1, 2, 255]));
            around_the_end(random, image)
        }
    }
}

fn around_the_end(random: &mut Random, mut image: Vec<u8>) -> Vec<u8> {
    match random.below(6) {
        0 => {
            image.pop();
        }
        1 => image.push(0),
        2 => image.extend_from_slice(&cells::head(7, 0, 0)),
        3 => image.truncate(image.len().saturating_sub(CELL)),
        _ => {}
    }
    image
}

/// A function of this many instructions and, if given, this many events.
fn filled_function(random: &mut Random, instrs: usize, events: Option<usize>) -> Vec<u8> {
    let sites = if events == Some(0) { 0 } else { random.pick(&[0, 10]) };
    let control = random.pick(&[0, 2, 10]);
    let shape = Shape { instrs, sites, control, actions: 10, misfits: 15, one_place: false };
    let often = Often {
        quads: random.pick(&[0, 30]),
        divisions: random.pick(&[0, 30]),
        far: random.pick(&[0, 30]),
    };
    let (instrs, mut made) = any_function_with(random, shape, often);
    if let Some(events) = events {
        made.truncate(events);
        made.resize(events, borrow(None));
    }
    one_function(&instrs, &made)
}

fn spoiled_function(random: &mut Random, mut instrs: Vec<Cell>) -> Vec<u8> {
    let mut events = events_for(&instrs, |_| 1);
    random.shuffle(&mut events);
    if random.chance(40) {
        spoil(random, &mut instrs, &mut events);
    }
    if random.chance(30) {
        instrs.insert(random.below(instrs.len()), ret(None));
    }
    one_function(&instrs, &events)
}
