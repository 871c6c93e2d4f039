//! Packed forms: of every command, cut and changed at every byte; every first byte; around the limit
//! of 4,096 cells; random and damaged ones; bytes that are none.

use crate::cells::{self, Cell, CELL, HEAD_END, MAX_EVENTS, MAX_IMAGE, MAX_INSTRS};
use crate::codec;
use crate::generate::{self, any_image, borrow, event, filled, load_i32, ret, store_var, EDGES};
use crate::legacy_lowering::{byte, COMMANDS};
use crate::packed::{self, Part};
use crate::random::Random;
use crate::table;
use std::ops::Range;

// ---- Forms and their cells ----

/// A head's bytes.
pub fn head(name: u16, instrs: usize, events: usize) -> Vec<u8> {
    cells::head(name, instrs, events)[..HEAD_END].to_vec()
}

/// The bytes that a good cell keeps.
pub fn kept(part: Part, cell: &Cell) -> Vec<u8> {
    cell[..packed::length(part, cell[0]).unwrap()].to_vec()
}

/// Where the cells of a form lie, as far as it can be followed.
pub fn places(form: &[u8]) -> Vec<(Part, Range<usize>)> {
    let mut places = Vec::new();
    let mut at = 0;
    let (mut instrs, mut events) = (0, 0);
    while at < form.len() {
        let part = match (instrs, events) {
            (0, 0) => Part::Head,
            (0, _) => Part::Event,
            _ => Part::Instr,
        };
        let Ok(length) = packed::length(part, form[at]) else {
            break;
        };
        let Some(bytes) = form.get(at..at + length) else {
            break;
        };
        let count = |at: usize| u16::from_le_bytes([bytes[at], bytes[at + 1]]);
        match part {
            Part::Head if bytes[0] != cells::HEAD => break,
            Part::Head => (instrs, events) = (count(3), count(5)),
            Part::Instr => instrs -= 1,
            Part::Event => events -= 1,
        }
        places.push((part, at..at + length));
        at += length;
    }
    places
}

/// Every command and event kind, optional operands absent and present.
fn every_cell() -> Vec<(Part, Cell)> {
    let presence = [false, true];
    let command = |command: &codec::Command| {
        presence.map(|present| (Part::Instr, filled(command.byte, present, 2)))
    };
    let mut cells: Vec<(Part, Cell)> = COMMANDS.iter().flat_map(command).collect();
    for kind in [cells::EVENT_BORROW, cells::EVENT_WRITE] {
        for (one, two) in [(None, None), (Some(1), None), (None, Some(1)), (Some(1), Some(1))] {
            cells.push((Part::Event, event(kind, one, two)));
        }
    }
    cells
}

/// A function with this cell and a few more.
fn around(part: Part, cell: &Cell) -> Vec<u8> {
    let (instr, event) = match part {
        Part::Event => (load_i32(1, 5), *cell),
        _ => (*cell, borrow(None)),
    };
    let ret = kept(Part::Instr, &ret(Some(2)));
    [head(7, 2, 1), kept(Part::Instr, &instr), ret, kept(Part::Event, &event)].concat()
}

// ---- Exhaustive groups ----

/// A numbered list of packed forms.
pub struct Forms {
    pub name: &'static str,
    pub count: usize,
    pub form: Box<dyn Fn(usize) -> Vec<u8> + Sync>,
    /// Lengths of the lent outputs, less the image's.
    pub more: &'static [isize],
}

pub fn exhaustive() -> Vec<Forms> {
    vec![packed_cuts(), first_bytes(), packed_registers(), packed_ends(), packed_bytes()]
}

/// A function with every command and event kind, alone and behind another one: ended at every byte,
/// with each byte left out, and with one of three put in before each.
fn packed_cuts() -> Forms {
    let before = [head(9, 1, 0), kept(Part::Instr, &ret(None))].concat();
    let mut forms = Vec::new();
    for (part, cell) in every_cell() {
        for before in [&[][..], &before] {
            let form = [before, &around(part, &cell)].concat();
            for at in before.len()..=form.len() {
                forms.push(form[..at].to_vec());
                for put in [0, 0x0C, cells::HEAD] {
                    forms.push([&form[..at], &[put], &form[at..]].concat());
                }
                if at < form.len() {
                    forms.push([&form[..at], &form[at + 1..]].concat());
                }
            }
        }
    }
    Forms {
        name: "packed cuts",
        more: &[0, -1],
        count: forms.len(),
        form: Box::new(move |index| forms[index].clone()),
    }
}

/// Every first byte of a head, an instruction and an event, alone or the second of its function, with
/// up to 15 bytes behind it: zeros, or all bits set.
fn first_bytes() -> Forms {
    let befores = [
        vec![],
        [head(9, 1, 0), kept(Part::Instr, &ret(None))].concat(),
        head(7, 1, 0),
        [head(7, 2, 0), kept(Part::Instr, &ret(None))].concat(),
        head(7, 0, 1),
        [head(7, 1, 1), kept(Part::Instr, &ret(None))].concat(),
    ];
    Forms {
        name: "first bytes",
        more: &[0, -1],
        count: befores.len() * 256 * CELL * 2,
        form: Box::new(move |index| {
            let (first, index) = (index as u8, index / 256);
            let (byte, index) = ([0, 0xFF][index % 2], index / 2);
            let mut form = befores[index / CELL].clone();
            form.push(first);
            form.resize(form.len() + index % CELL, byte);
            form
        }),
    }
}

/// Every register of every command at every edge, there or absent.
fn packed_registers() -> Forms {
    let mut forms = Vec::new();
    for command in COMMANDS {
        for &(form, place) in &table::layout(command.byte).unwrap().places {
            let (place, presence) = match form {
                codec::Form::Register => (place, &[true][..]),
                codec::Form::OptionalRegister => (place + 1, &[true, false][..]),
                _ => continue,
            };
            for &present in presence {
                for number in EDGES {
                    let mut cell = filled(command.byte, present, 2);
                    cell[place..place + 2].copy_from_slice(&number.to_le_bytes());
                    forms.push([head(7, 1, 0), kept(Part::Instr, &cell)].concat());
                }
            }
        }
    }
    Forms {
        name: "packed registers",
        more: &[0],
        count: forms.len(),
        form: Box::new(move |index| forms[index].clone()),
    }
}

/// Every value of every byte of every command, event and head.
fn packed_bytes() -> Forms {
    let mut bases: Vec<(Vec<u8>, Range<usize>)> = Vec::new();
    for (part, cell) in every_cell() {
        let head = if part == Part::Event { head(7, 0, 1) } else { head(7, 1, 0) };
        let form = [head, kept(part, &cell)].concat();
        let length = form.len();
        bases.push((form, HEAD_END..length));
    }
    bases.push((around(Part::Instr, &ret(None)), 0..HEAD_END));
    let place = |(base, (_, places)): (usize, &(Vec<u8>, Range<usize>))| {
        places.clone().map(move |place| (base, place)).collect::<Vec<_>>()
    };
    let places: Vec<(usize, usize)> = bases.iter().enumerate().flat_map(place).collect();
    Forms {
        name: "packed bytes",
        more: &[0],
        count: places.len() * 256,
        form: Box::new(move |index| {
            let (base, place) = places[index / 256];
            let mut form = bases[base].0.clone();
            form[place] = index as u8;
            form
        }),
    }
}

/// The greatest number of cells.
const MOST: usize = MAX_IMAGE / CELL;

/// Forms whose first functions leave room for up to three cells: then a head, or some of one, that
/// promises a few cells or as many as a function may have, or one more; some of these; and bytes left
/// over, good or not. Also forms with more bytes than any image packs to.
fn packed_ends() -> Forms {
    let mut ends = vec![vec![], vec![0], vec![cells::HEAD; 3], vec![0xFF; HEAD_END - 1]];
    let promises = [
        (0, 0),
        (1, 0),
        (0, 1),
        (2, 0),
        (1, 1),
        (4, 0),
        (MAX_INSTRS, MAX_EVENTS),
        (MAX_INSTRS + 1, 0),
        (0, MAX_EVENTS + 1),
    ];
    // Whole cells with an operand out of range.
    let instr = vec![byte::Assert, 0, 4];
    let mut event = kept(Part::Event, &borrow(None));
    event[cells::EVENT_ACTIVATION_SITE] = 2;
    let extras =
        [vec![], vec![0x0C], vec![0x52, 0, 0], head(8, 0, 0), vec![0xFF; 20], instr, event];
    for (instrs, events) in promises {
        for count in 0..=(instrs + events).min(4) {
            for extra in &extras {
                ends.push([&begun(instrs, events, count)[..], extra].concat());
            }
        }
    }
    let fillers = 2 * 4;
    let count = ends.len() * fillers;
    Forms {
        name: "packed ends",
        more: &[0, -1],
        count: count + LONG.len(),
        form: Box::new(move |index| match index.checked_sub(count) {
            None => {
                let (filler, left) = (index % fillers % 2, index % fillers / 2);
                [filling(filler, MOST - left), ends[index / fillers].clone()].concat()
            }
            Some(index) => {
                let start: Vec<u8> = match LONG[index].0 {
                    0 => filling(1, MOST),
                    cells => filling(1, cells),
                };
                let end = vec![LONG[index].1; MAX_IMAGE + index];
                [start, end].concat()
            }
        }),
    }
}

/// Forms of more than 65,536 bytes: the good cells, all that there may be for 0, and the byte behind.
const LONG: [(usize, u8); 8] = [
    (0, 0),
    (0, cells::HEAD),
    (1, 0),
    (1, cells::HEAD),
    (3, 0xFF),
    (20, 0x52),
    (3000, 0xF1),
    (MOST - 1, 0x0C),
];

/// A head that promises so many cells, and the first of them.
fn begun(instrs: usize, events: usize, count: usize) -> Vec<u8> {
    let mut form = head(7, instrs, events);
    for at in 0..count {
        form.extend(match at < instrs {
            true => kept(Part::Instr, &ret(Some(1))),
            false => kept(Part::Event, &borrow(None)),
        });
    }
    form
}

/// So many cells in good functions: heads alone, or instructions of 15 bytes as far as may be.
fn filling(filler: usize, mut cells: usize) -> Vec<u8> {
    let mut form = Vec::new();
    while cells > 0 {
        let instrs = if filler == 0 { 0 } else { (cells - 1).min(MAX_INSTRS) };
        form.extend(head(cells as u16, instrs, 0));
        for at in 0..instrs {
            form.extend(kept(Part::Instr, &store_var(1, Some(at as u32), Some(u32::MAX))));
        }
        cells -= 1 + instrs;
    }
    form
}

// ---- Random forms ----

/// Forms of random images, most of them damaged; several joined; bytes that are none.
pub fn any_form(random: &mut Random) -> Vec<u8> {
    match random.below(20) {
        0..=10 => {
            let mut form = packed::pack(&any_image(random));
            for _ in 0..random.range(0, 3) {
                damage(random, &mut form);
            }
            form
        }
        11..=13 => {
            let mut form = Vec::new();
            for _ in 0..random.range(2, 4) {
                let mut part = packed::pack(&any_image(random));
                if random.chance(30) {
                    damage(random, &mut part);
                }
                form.extend(part);
            }
            form
        }
        14 => generate::any_bytes(random, 199),
        _ => any_cells(random),
    }
}

/// Heads, most often with the cells that they promise, of any operands, many of them small.
fn any_cells(random: &mut Random) -> Vec<u8> {
    let mut form = Vec::new();
    for _ in 0..random.range(1, 4) {
        let [instrs, events] = [(); 2].map(|()| random.pick(&[0, 0, 1, 1, 2, 3, 5]));
        let more = random.pick(&[0, 0, 0, 0, 1, 2, 256, 2000]);
        form.extend(head(random.bits() as u16, instrs + more * random.below(2), events));
        for _ in 0..instrs {
            let command = random.range(1, COMMANDS.len()) as u8;
            let length = packed::length(Part::Instr, command).unwrap();
            any_bytes(random, &mut form, command, length);
        }
        for _ in 0..events {
            let kind = random.below(2) as u8;
            let length = packed::length(Part::Event, kind).unwrap();
            any_bytes(random, &mut form, kind, length);
        }
    }
    form
}

fn any_bytes(random: &mut Random, form: &mut Vec<u8>, first: u8, length: usize) {
    let small = random.pick(&[1, 1, 2, 4, 256]);
    form.push(first);
    form.extend((1..length).map(|_| random.below(small) as u8));
}

/// A form around the limit, its end good or damaged, or one of the long ones.
pub fn any_end(random: &mut Random) -> Vec<u8> {
    let ends = packed_ends();
    if random.chance(15) {
        // The long ones are the last.
        return (ends.form)(ends.count - 1 - random.below(LONG.len()));
    }
    if random.chance(40) {
        return (ends.form)(random.below(ends.count));
    }
    let left = random.below(5);
    let (instrs, events) = (random.below(5), random.pick(&[0, 0, 1, 4]));
    // Most often as many as there is room for behind the head.
    let room = left.saturating_sub(1);
    let count = random.pick(&[room, room, left, instrs + events]);
    let mut end = begun(instrs, events, count.min(instrs + events));
    if random.chance(50) {
        damage(random, &mut end);
    }
    let filler = random.below(2);
    [filling(filler, MOST - left), end].concat()
}

/// Changes some bytes, a cell, a count or an operand, ends it early or adds bytes.
pub fn damage(random: &mut Random, form: &mut Vec<u8>) {
    let places = places(form);
    if places.is_empty() {
        return form.push(random.bits() as u8);
    }
    let (part, place) = places[random.below(places.len())].clone();
    let at = random.below(form.len());
    match random.below(20) {
        0 => form.truncate(at),
        1 => form.truncate(place.start),
        2 => form.truncate(random.range(place.start, place.end)),
        3 => form[at] ^= 1 << random.below(8),
        4 => form[at] = random.bits() as u8,
        5 => form.insert(at, random.bits() as u8),
        6 => {
            form.remove(at);
        }
        7 => {
            form.drain(place);
        }
        8 => {
            let copy = form[place.clone()].to_vec();
            form.splice(place.start..place.start, copy);
        }
        9 => {
            let first = random.pick(&[0, 1, 2, 0x0C, 0x2B, 0x51, 0x52, 0xEF, 0xF0, 0xF1, 0xFF]);
            form[place.start] = first;
        }
        10..=11 => {
            let byte = random.pick(&[0, cells::HEAD, 0xFF]);
            let more = random.range(1, 17);
            let byte = |random: &mut Random| [byte, random.bits() as u8][random.below(2)];
            form.extend((0..more).map(|_| byte(random)));
        }
        12..=14 => {
            let heads = places.iter().filter(|(part, _)| *part == Part::Head);
            let heads: Vec<usize> = heads.map(|(_, place)| place.start).collect();
            let start = random.pick(&heads);
            change_count(random, &mut form[start..start + HEAD_END]);
        }
        _ => change_operand(random, part, &mut form[place]),
    }
}

fn change_count(random: &mut Random, head: &mut [u8]) {
    let (at, limit) = random.pick(&[(3, MAX_INSTRS as u16), (5, MAX_EVENTS as u16)]);
    let count = u16::from_le_bytes([head[at], head[at + 1]]);
    let count = match random.below(6) {
        0 | 1 => count.wrapping_add(1),
        2 => count.wrapping_sub(1),
        3 => limit,
        4 => limit + 1,
        _ => count.swap_bytes(),
    };
    head[at..at + 2].copy_from_slice(&count.to_le_bytes());
}

/// Another presence byte, bool, quad or high byte of a register, or another byte of an absent value.
fn change_operand(random: &mut Random, part: Part, cell: &mut [u8]) {
    use codec::Form;
    let sites = [(Form::Site, cells::EVENT_ACTIVATION_SITE), (Form::Site, cells::EVENT_WRITE_SITE)];
    let operands = match part {
        Part::Head => return,
        Part::Instr => &table::layout(cell[0]).unwrap().places[..],
        Part::Event => &sites,
    };
    let (form, place) = random.pick(operands);
    match form {
        Form::Register => cell[place + 1] = random.pick(&[0, 1, 3, 4, 5, 0x40, 0x80, 0xFF]),
        Form::OptionalRegister | Form::Site => match random.below(3) {
            0 => cell[place] = random.pick(&[0, 1, 2, 3, 0x80, 0xFF]),
            1 => cell[place] ^= 1,
            _ => cell[place + random.range(1, form.width() - 1)] = random.pick(&[0, 1, 4, 0xFF]),
        },
        Form::Bool | Form::Quad => cell[place] = random.pick(&[0, 1, 2, 3, 4, 5, 0x80, 0xFF]),
        Form::Number | Form::Word | Form::Double => cell[place] = random.bits() as u8,
    }
}

// ---- Smaller forms ----

/// Forms that are shorter than the given one, the much shorter ones first.
pub fn shorter(form: &[u8]) -> Box<dyn Iterator<Item = Vec<u8>> + '_> {
    let without = move |range: Range<usize>| [&form[..range.start], &form[range.end..]].concat();
    let places = places(form);
    let heads = places.iter().filter(|(part, _)| *part == Part::Head);
    let mut starts: Vec<usize> = heads.map(|(_, place)| place.start).collect();
    starts.push(form.len());
    let functions = runs(starts.len() - 1).map(move |(from, to)| starts[from]..starts[to]);

    // A cell less, with its head's count.
    let mut last = 0;
    let mut promised = Vec::new();
    for (part, place) in places {
        match part {
            Part::Head => last = place.start,
            Part::Instr => promised.push((last + 3, place)),
            Part::Event => promised.push((last + 5, place)),
        }
    }
    let cells = promised.into_iter().map(move |(count_at, place)| {
        let mut shorter = without(place);
        let count = u16::from_le_bytes([form[count_at], form[count_at + 1]]);
        shorter[count_at..count_at + 2].copy_from_slice(&(count - 1).to_le_bytes());
        shorter
    });
    let bytes = runs(form.len()).map(|(from, to)| from..to);
    Box::new(functions.map(without).chain(cells).chain(bytes.map(without)))
}

/// Runs of so many things, long ones first.
pub(crate) fn runs(count: usize) -> impl Iterator<Item = (usize, usize)> {
    let sizes = std::iter::successors(Some(count), |size| Some(size / 2));
    sizes
        .take_while(|size| *size > 0)
        .flat_map(move |size| (0..=count - size).step_by(size).map(move |from| (from, from + size)))
}
