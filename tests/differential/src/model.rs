//! Document 01's answers, document 02's fuller rewrite and its rewrite until it rests, written from
//! the documents on cells and bytes. Document 02's pages are in `pages.rs`, its packed form in
//! `packed.rs`, its sealing check in `sealing.rs`, its whole release in `release.rs`, its factors in
//! `factors.rs`.

use crate::answers::{Checked, Operation, Operations, Refusal, Reply, Rewritten, Success};
use crate::cells::{self, Cell, Function};
use crate::codec::Form;
use crate::factors::{self, Leaf};
use crate::leaves::{self, Computed, Const};
use crate::legacy_lowering::byte;
use crate::packed;
use crate::pages;
use crate::release;
use crate::rest::Rested;
use crate::sealing;
use crate::table;
use std::collections::{HashMap, HashSet};
use std::convert::Infallible;

pub struct Model;

impl Operations for Model {
    fn name(&self) -> &'static str {
        "model"
    }
    fn image_check(&self, image: &[u8]) -> Checked {
        image_check(image)
    }
    fn site_check(&self, image: &[u8]) -> Checked {
        site_check(image)
    }
    fn sealing_check(&self, image: &[u8]) -> Checked {
        sealing::check(image)
    }
    fn cleanup(&self, image: &[u8], out: &mut [u8]) -> Rewritten {
        run(Operation::Cleanup, image, out)
    }
    fn crystalfold(&self, image: &[u8], out: &mut [u8]) -> Rewritten {
        run(Operation::CrystalFold, image, out)
    }
    fn rewrite(&self, image: &[u8], out: &mut [u8]) -> Rewritten {
        run(Operation::Rewrite, image, out)
    }
    fn fuller(&self, image: &[u8], out: &mut [u8]) -> Rewritten {
        run(Operation::Fuller, image, out)
    }
    fn rest(&self, image: &[u8], out: &mut [u8]) -> Rewritten {
        run(Operation::Rest, image, out)
    }
    fn pages(&self, image: &[u8], out: &mut [u8]) -> Reply {
        pages::answer(image, out)
    }
    fn pack(&self, image: &[u8], out: &mut [u8]) -> Reply {
        packed::pack_answer(image, out)
    }
    fn unpack(&self, packed: &[u8], out: &mut [u8]) -> Reply {
        packed::unpack_answer(packed, out)
    }
    fn release(&self, release: &[u8], out: &mut [u8], answers: &mut [u8]) -> Reply {
        release::answer(release, out, answers)
    }
    fn factor(&self, leaf: Leaf, wanted: i32, factor: i32, other: &mut i32) -> usize {
        factors::answer(factors::model(leaf, wanted, factor), other)
    }
}

fn refuse<T>(number: u8, position: usize, detail: usize) -> Result<T, Refusal> {
    Err(Refusal { number, position: position as u32, detail: detail as u32 })
}

// ---- Image check ----

pub fn image_check(image: &[u8]) -> Checked {
    if !cells::length_good(image) {
        return refuse(1, 0, 0);
    }
    let cells = cells::cells(image);
    let mut at = 0;
    let mut position = 0;
    while at < cells.len() {
        let head = &cells[at];
        let instrs = cells::half(head, 3) as usize;
        let events = cells::half(head, 5) as usize;
        let end = at + 1 + instrs + events;
        let within = instrs <= cells::MAX_INSTRS && events <= cells::MAX_EVENTS;
        if head[0] != cells::HEAD || !within || end > cells.len() {
            return refuse(2, position, at);
        }
        if !zero(&head[cells::HEAD_END..]) {
            return refuse(4, position, at);
        }
        for (index, cell) in cells.iter().enumerate().take(end).skip(at + 1) {
            let fault = if index <= at + instrs { instr_fault(cell) } else { event_fault(cell) };
            if let Some(number) = fault {
                return refuse(number, position, index);
            }
        }
        at = end;
        position += 1;
    }
    Ok(())
}

fn zero(bytes: &[u8]) -> bool {
    bytes.iter().all(|&byte| byte == 0)
}

pub(crate) fn instr_fault(cell: &Cell) -> Option<u8> {
    let Some(layout) = table::layout(cell[0]) else {
        return Some(3);
    };
    let good = layout.places.iter().all(|&(form, place)| operand_good(cell, form, place));
    (!good || !zero(&cell[layout.end..])).then_some(4)
}

pub(crate) fn event_fault(cell: &Cell) -> Option<u8> {
    if cell[0] != cells::EVENT_BORROW && cell[0] != cells::EVENT_WRITE {
        return Some(3);
    }
    let good = operand_good(cell, Form::Site, cells::EVENT_ACTIVATION_SITE)
        && operand_good(cell, Form::Site, cells::EVENT_WRITE_SITE)
        && zero(&cell[cells::EVENT_END..]);
    (!good).then_some(4)
}

fn operand_good(cell: &Cell, form: Form, place: usize) -> bool {
    let register = |place| (cells::half(cell, place) as usize) < cells::REGISTERS;
    let value = &cell[place + 1..place + form.width()];
    match form {
        Form::Register => register(place),
        Form::OptionalRegister => match cell[place] {
            0 => zero(value),
            1 => register(place + 1),
            _ => false,
        },
        Form::Site => match cell[place] {
            0 => zero(value),
            1 => true,
            _ => false,
        },
        Form::Bool => cell[place] <= 1,
        Form::Quad => cell[place] <= 3,
        Form::Number | Form::Word | Form::Double => true,
    }
}

// ---- Site check ----

pub fn site_check(image: &[u8]) -> Checked {
    image_check(image)?;
    for (position, function) in cells::functions(image).enumerate() {
        if let Err((number, site)) =
            activation_sites(&function).and_then(|()| write_sites(&function))
        {
            return refuse(number, position, site as usize);
        }
    }
    Ok(())
}

/// The activation site of an instruction cell.
pub(crate) fn activation_site(cell: &Cell) -> Option<u32> {
    cells::site(cell, table::layout(cell[0])?.activation_site?)
}

/// The write site of an instruction cell.
pub(crate) fn write_site(cell: &Cell) -> Option<u32> {
    cells::site(cell, table::layout(cell[0])?.write_site?)
}

fn event_activation_site(event: &Cell) -> Option<u32> {
    cells::site(event, cells::EVENT_ACTIVATION_SITE)
}

fn event_write_site(event: &Cell) -> Option<u32> {
    cells::site(event, cells::EVENT_WRITE_SITE)
}

/// 11 to 14.
fn activation_sites(function: &Function) -> Result<(), (u8, u32)> {
    let mut stores = HashSet::new();
    for site in function.instrs.iter().filter_map(activation_site) {
        if !stores.insert(site) {
            return Err((11, site));
        }
    }
    let mut borrows = HashSet::new();
    for event in function.events {
        let Some(site) = event_activation_site(event) else {
            continue;
        };
        if event[0] == cells::EVENT_WRITE {
            return Err((12, site));
        }
        if !borrows.insert(site) {
            return Err((13, site));
        }
    }
    if stores != borrows {
        return Err((14, 0));
    }
    Ok(())
}

/// 21 to 26.
fn write_sites(function: &Function) -> Result<(), (u8, u32)> {
    let mut commands = HashSet::new();
    for site in function.instrs.iter().filter_map(write_site) {
        if !commands.insert(site) {
            return Err((21, site));
        }
    }
    let mut claims: HashMap<u32, usize> = HashMap::new();
    for event in function.events {
        match (event[0], event_write_site(event)) {
            (cells::EVENT_BORROW, Some(site)) => return Err((22, site)),
            (cells::EVENT_WRITE, None) => return Err((23, 0)),
            (_, Some(site)) => *claims.entry(site).or_default() += 1,
            (_, None) => {}
        }
    }
    for cell in function.instrs {
        let Some(site) = write_site(cell) else {
            continue;
        };
        match claims.get(&site) {
            None => return Err((24, site)),
            Some(2..) if cell[0] == byte::StoreVar => return Err((25, site)),
            _ => {}
        }
    }
    for site in function.events.iter().filter_map(event_write_site) {
        if !commands.contains(&site) {
            return Err((26, site));
        }
    }
    Ok(())
}

// ---- Cleanup, CrystalFold, the whole rewrite, the fuller rewrite, the rewrite until it rests ----

fn run(operation: Operation, image: &[u8], out: &mut [u8]) -> Rewritten {
    if !cells::length_good(image) {
        return refuse(1, 0, 0);
    }
    if out.len() < image.len() {
        return refuse(5, 0, 0);
    }
    site_check(image)?;
    let (written, num_rewrites) = rewritten(operation, image);
    out[..written.len()].copy_from_slice(&written);
    Ok(success(&written, num_rewrites))
}

fn success(written: &[u8], num_rewrites: u32) -> Success {
    Success { length: written.len(), num_rewrites, changed: num_rewrites > 0 }
}

/// A rule set: the value that a command folds to on two known values. A command of one operand has
/// it twice.
pub type Rules<'a> = &'a dyn Fn(u8, Const, Const) -> Option<Const>;

/// The Rust's rules: the 31 commands of document 01's module 5. "Division by either zero isn't
/// folded", and "QTruth commands aren't folded."
pub fn default_rules(command: u8, left: Const, right: Const) -> Option<Const> {
    if leaves::fuller_only(command, left, right) {
        return None;
    }
    fuller_rules(command, left, right)
}

/// The Rust's rules plus the four truth-order commands and division by either zero: whatever has a
/// result when a function runs.
pub fn fuller_rules(command: u8, left: Const, right: Const) -> Option<Const> {
    match leaves::compute(command, left, right) {
        Computed::Value(value) => Some(value),
        Computed::DivisorZero | Computed::OutOfRange | Computed::Unfit => None,
    }
}

/// The new image of one that has passed the site check, and the count.
pub fn rewritten(operation: Operation, image: &[u8]) -> (Vec<u8>, u32) {
    match operation {
        Operation::Rewrite => passes(image, true, Some(&default_rules)),
        Operation::Cleanup => passes(image, true, None),
        Operation::CrystalFold => passes(image, false, Some(&default_rules)),
        Operation::Fuller => passes(image, true, Some(&fuller_rules)),
        Operation::Rest => {
            let Rested { bytes, success, .. } = rested(image);
            (bytes, success.num_rewrites)
        }
    }
}

/// "Repeats the default rewrite until one reports 0, and returns the sum of the counts."
pub fn rested(image: &[u8]) -> Rested {
    let round = |image: &[u8]| {
        let (written, count) = rewritten(Operation::Rewrite, image);
        let success = success(&written, count);
        Ok::<_, Infallible>((written, success))
    };
    let Ok(rested) = round(image).and_then(|first| Rested::after(first, round));
    rested
}

/// Cleanup or not, then the fold by some rules or none.
pub fn passes(image: &[u8], cleans: bool, rules: Option<Rules>) -> (Vec<u8>, u32) {
    let mut written = Vec::with_capacity(image.len());
    let mut count = 0;
    for function in cells::functions(image) {
        let mut instrs = function.instrs.to_vec();
        let mut events = function.events.to_vec();
        if cleans {
            count += cleanup(&mut instrs, &mut events);
        }
        if let Some(rules) = rules {
            count += crystalfold(&mut instrs, rules);
        }
        cells::push_function(&mut written, function.name, &instrs, &events);
    }
    (written, count)
}

fn cleanup(instrs: &mut Vec<Cell>, events: &mut Vec<Cell>) -> u32 {
    let before = instrs.len();

    // A label equal to the one just kept goes.
    instrs.dedup_by(|cell, kept| cell[0] == byte::Label && cell == kept);

    // After Ret or Jmp everything up to the next label goes, with the events of its sites.
    let mut activation_sites = HashSet::new();
    let mut write_sites = HashSet::new();
    let mut reachable = true;
    instrs.retain(|cell| {
        reachable |= cell[0] == byte::Label;
        let keep = reachable;
        if keep {
            reachable = cell[0] != byte::Ret && cell[0] != byte::Jmp;
        } else {
            activation_sites.extend(activation_site(cell));
            write_sites.extend(write_site(cell));
        }
        keep
    });
    events.retain(|event| {
        !event_activation_site(event).is_some_and(|site| activation_sites.contains(&site))
            && !event_write_site(event).is_some_and(|site| write_sites.contains(&site))
    });

    // A Jmp whose next cell is its own label goes.
    retain_by_next(instrs, |cell, next| {
        cell[0] == byte::Jmp
            && next[0] == byte::Label
            && cells::half(cell, 1) == cells::half(next, 1)
    });

    // A load whose next cell is a load into the same register goes, with any payload.
    retain_by_next(instrs, |cell, next| {
        removable(cell) && removable(next) && cells::half(cell, 1) == cells::half(next, 1)
    });

    (before - instrs.len()) as u32
}

/// Drops the cells that, with the cell after them, are `superfluous`.
fn retain_by_next(instrs: &mut Vec<Cell>, superfluous: fn(&Cell, &Cell) -> bool) {
    let mut next = instrs.get(1..).unwrap_or(&[]).to_vec().into_iter();
    instrs.retain(|cell| !next.next().is_some_and(|next| superfluous(cell, &next)));
}

/// LoadU32 isn't among the loads that cleanup takes away.
fn removable(cell: &Cell) -> bool {
    matches!(cell[0], byte::LoadQ | byte::LoadBool | byte::LoadI32 | byte::LoadF64 | byte::LoadFx)
}

fn crystalfold(instrs: &mut [Cell], rules: Rules) -> u32 {
    let mut known = HashMap::new();
    let mut count = 0;
    for cell in instrs {
        if cell[0] <= byte::StateUpdate {
            known.clear();
            continue;
        }
        if let Some((register, value)) = leaves::loaded(cell) {
            known.insert(register, value);
            continue;
        }
        let Some(register) = table::layout(cell[0]).unwrap().dst(cell) else {
            continue;
        };
        match folded(cell, &known, rules) {
            Some(value) => {
                known.insert(register, value);
                *cell = leaves::load(register, value);
                count += 1;
            }
            None => {
                known.remove(&register);
            }
        }
    }
    count
}

/// The value that a command folds to.
fn folded(cell: &Cell, known: &HashMap<usize, Const>, rules: Rules) -> Option<Const> {
    let (left, right) = leaves::operand_values(cell, |register| known.get(&register).copied())?;
    rules(cell[0], left?, right?)
}
