//! The original's answers on images, and its error texts as refusals.

use crate::answers::{Operation, Refusal, Success};
use crate::cells::{self, Cell};
use crate::codec;
use crate::leaves;
use crate::legacy_lowering::{byte, IrFunction, IrInstr, OwnershipPathEventKind};
use crate::passes::cleanup::StructuralCleanupPass;
use crate::passes::crystalfold::CrystalFoldPass;
use crate::passes::{
    run_default_opt_passes, validate_activation_sites, validate_write_sites, IrModule, OptError,
    OptPass, OptReport,
};
use crate::rest::Rested;
use std::collections::HashMap;

/// The original's error texts, or how they begin, and their numbers; `{}` stands
/// for the site.
const TEXTS: [(u8, &str); 10] = [
    (11, "ActivationSiteId({}) annotated on more than one StoreVar"),
    (12, "Write event must never carry an activation site, found ActivationSiteId({})"),
    (13, "ActivationSiteId({}) claimed by more than one Borrow event"),
    (14, "activation-site bijection broken ("),
    (21, "WriteSiteId({}) annotated on more than one write-capable instruction"),
    (22, "Borrow event must never carry a write site, found WriteSiteId({})"),
    (23, "Write event has no WriteSiteId"),
    (24, "WriteSiteId({}) is annotated on an instruction but claimed by no Write event"),
    (25, "WriteSiteId({}) is a StoreVar site but is claimed by "),
    (26, "WriteSiteId({}) is claimed by a Write event but is not annotated on any instruction"),
];

/// The refusal that an error text stands for; the text itself if it has no number.
fn refusal(error: OptError) -> Result<Refusal, String> {
    find_refusal(&error.0).ok_or(error.0)
}

fn find_refusal(text: &str) -> Option<Refusal> {
    let (name, text) = text.strip_prefix("function `")?.split_once("`: ")?;
    let position = name.split_once(':')?.0.parse().ok()?;
    TEXTS.iter().find_map(|(number, pattern)| {
        let detail = match pattern.split_once("{}") {
            None => text.starts_with(pattern).then_some(0)?,
            Some((before, after)) => {
                let rest = text.strip_prefix(before)?;
                let digits = rest.find(|c: char| !c.is_ascii_digit()).unwrap_or(rest.len());
                let (site, rest) = rest.split_at(digits);
                rest.starts_with(after).then_some(site.parse().ok()?)?
            }
        };
        Some(Refusal { number: *number, position, detail })
    })
}

/// Runs one of the original's passes, or both.
pub fn run(operation: Operation, functions: &mut Vec<IrFunction>) -> Result<OptReport, OptError> {
    let one = |pass: &dyn OptPass, functions: &mut Vec<IrFunction>| {
        let mut module = IrModule { functions: std::mem::take(functions) };
        let report = pass.run(&mut module)?;
        *functions = module.functions;
        Ok(report)
    };
    match operation {
        Operation::Rewrite => run_default_opt_passes(functions),
        Operation::Cleanup => one(&StructuralCleanupPass, functions),
        Operation::CrystalFold => one(&CrystalFoldPass, functions),
        Operation::Fuller => Err(OptError("the original has no fuller rewrite".into())),
        Operation::Rest => Err(OptError("the original rewrites once".into())),
    }
}

/// What the original answers on an image that has passed the image check.
pub struct Answers {
    pub sites: Result<(), Refusal>,
    /// What each operation writes, in the order of `ORIGINALS`.
    pub written: [Written; 3],
    /// The default rewrite again and again, until it reports 0.
    pub rested: Result<Rested, Refusal>,
    /// The refusals that the original could give, for any order of its hash maps.
    pub possible: Vec<Refusal>,
}

/// The original's answers, or what it did that no refusal stands for.
pub fn answers(image: &[u8]) -> Result<Answers, String> {
    let functions = codec::decode(image);
    if codec::encode(&functions) != image {
        return Err("the image doesn't come back from the original's values".into());
    }
    let validate = |function| {
        validate_activation_sites(function)?;
        validate_write_sites(function)
    };
    let sites = match functions.iter().try_for_each(validate) {
        Ok(()) => Ok(()),
        Err(error) => Err(refusal(error)?),
    };
    let possible = match sites {
        Ok(()) => Vec::new(),
        Err(Refusal { position, .. }) => possible(position, &functions[position as usize]),
    };

    let cleaned = written(Operation::Cleanup, image, &mut functions.clone())?;
    let mut folded = written(Operation::CrystalFold, image, &mut functions.clone())?;
    let mut module = functions;
    let mut both = written(Operation::Rewrite, image, &mut module)?;
    if let Ok((bytes, _)) = &mut folded {
        write_one_nan(image, bytes);
    }
    if let (Ok((cleaned, _)), Ok((bytes, _))) = (&cleaned, &mut both) {
        if write_one_nan(cleaned, bytes) {
            module = codec::decode(bytes);
        }
    }
    let rested = match &both {
        Ok(first) => Ok(rested(first.clone(), module)?),
        Err(refusal) => Err(*refusal),
    };
    Ok(Answers { sites, written: [both, cleaned, folded], rested, possible })
}

/// Runs the passes on a module again that they have returned, until they report 0.
fn rested(first: (Vec<u8>, Success), mut module: Vec<IrFunction>) -> Result<Rested, String> {
    Rested::after(first, |before| {
        let again = written(Operation::Rewrite, before, &mut module)?;
        let (mut bytes, success) =
            again.map_err(|refusal| format!("a further round: {refusal}"))?;
        if has_another_nan(&bytes) {
            let cleaned = written(Operation::Cleanup, before, &mut codec::decode(before))?;
            let (cleaned, _) = cleaned.map_err(|refusal| format!("a further round: {refusal}"))?;
            if write_one_nan(&cleaned, &mut bytes) {
                module = codec::decode(&bytes);
            }
        }
        Ok((bytes, success))
    })
}

/// The sealing check by the original's own validators, of an image that passes them: they refuse all
/// functions up to one, taken as one function, exactly if one of these repeats an earlier one's site.
pub fn sealing_check(image: &[u8]) -> Result<Result<(), Refusal>, String> {
    // One function repeats no other's.
    if cells::functions(image).nth(1).is_none() {
        return Ok(Ok(()));
    }
    let functions = codec::decode(image);
    let kinds: [(u8, u8, fn(&IrFunction) -> Result<(), OptError>); 2] =
        [(11, 34, validate_activation_sites), (21, 35, validate_write_sites)];
    for (within, across, validate) in kinds {
        let refused = |count: &usize| validate(&as_one(&functions[..*count])).err();
        if refused(&functions.len()).is_none() {
            continue;
        }
        let counts: Vec<usize> = (1..=functions.len()).collect();
        let first = counts[counts.partition_point(|count| refused(count).is_none())];
        let refusal = refusal(refused(&first).unwrap())?;
        if refusal.number != within {
            return Err(format!("all functions as one: {refusal}"));
        }
        return Ok(Err(Refusal { number: across, ..refusal }));
    }
    Ok(Ok(()))
}

/// The commands of functions that may have sites, and their events, under the last one's name.
fn as_one(functions: &[IrFunction]) -> IrFunction {
    let instrs = functions.iter().flat_map(|function| &function.instrs);
    let sited = |it: &&IrInstr| matches!(it, IrInstr::StoreVar { .. } | IrInstr::MakeRecord { .. });
    IrFunction {
        name: functions.last().map(|function| function.name.clone()).unwrap_or_default(),
        instrs: instrs.filter(sited).cloned().collect(),
        ownership_events: functions.iter().flat_map(|it| it.ownership_events.clone()).collect(),
    }
}

/// What CrystalFold alone writes for an image that passes the site check.
pub fn crystalfold(image: &[u8]) -> Result<(Vec<u8>, Success), String> {
    let folded = written(Operation::CrystalFold, image, &mut codec::decode(image))?;
    let (mut bytes, success) = folded.map_err(|refusal| refusal.to_string())?;
    write_one_nan(image, &mut bytes);
    Ok((bytes, success))
}

pub type Written = Result<(Vec<u8>, Success), Refusal>;

fn written(
    operation: Operation,
    image: &[u8],
    functions: &mut Vec<IrFunction>,
) -> Result<Written, String> {
    match run(operation, functions) {
        Ok(OptReport { changed, num_rewrites }) => {
            let bytes = codec::encode(functions);
            let length = bytes.len();
            if length > image.len() {
                return Err(format!("{operation:?} makes the image longer"));
            }
            Ok(Ok((bytes, Success { length, num_rewrites, changed })))
        }
        Err(error) => {
            if !functions.is_empty() {
                return Err(format!("{operation:?} leaves functions in the list on an error"));
            }
            Ok(Err(refusal(error)?))
        }
    }
}

/// Writes the NaN of a folded f64 result as document 01 does. CrystalFold keeps
/// every cell's place, so a LoadF64 was folded if another command stood there.
/// Says whether there was one with other bits.
fn write_one_nan(before: &[u8], after: &mut [u8]) -> bool {
    assert_eq!(before.len(), after.len());
    let mut changed = false;
    for (before, after) in cells::cells(before).iter().zip(after.as_chunks_mut().0) {
        if before[0] != byte::LoadF64 && is_another_nan(after) {
            after[3..11].copy_from_slice(&leaves::NAN.to_le_bytes());
            changed = true;
        }
    }
    changed
}

/// A load of a NaN with other bits than those that document 01 writes.
fn is_another_nan(cell: &Cell) -> bool {
    let bits = || cells::double(cell, 3);
    cell[0] == byte::LoadF64 && bits() != leaves::NAN && f64::from_bits(bits()).is_nan()
}

fn has_another_nan(image: &[u8]) -> bool {
    cells::cells(image).iter().any(is_another_nan)
}

/// Every refusal that the validators could give for a function they refuse.
/// They walk hash maps for 24, 25 and 26 only; before those there is one answer.
fn possible(position: u32, function: &IrFunction) -> Vec<Refusal> {
    let one = |error| match refusal(error) {
        Ok(refusal) => vec![refusal],
        Err(_) => Vec::new(),
    };
    if let Err(error) = validate_activation_sites(function) {
        return one(error);
    }
    let mut commands = HashMap::new();
    for instr in &function.instrs {
        let (site, store_var) = match instr {
            IrInstr::StoreVar { write_site: Some(site), .. } => (*site, true),
            IrInstr::MakeRecord { write_site: Some(site), .. } => (*site, false),
            _ => continue,
        };
        if commands.insert(site, store_var).is_some() {
            return validate_write_sites(function).map_or_else(one, |()| Vec::new());
        }
    }
    let mut claims: HashMap<_, usize> = HashMap::new();
    for event in &function.ownership_events {
        match (event.kind, event.write_site) {
            (OwnershipPathEventKind::Write, Some(site)) => *claims.entry(site).or_default() += 1,
            (OwnershipPathEventKind::Borrow, None) => {}
            _ => return validate_write_sites(function).map_or_else(one, |()| Vec::new()),
        }
    }
    let refusal = |number, detail| Refusal { number, position, detail };
    let by_command: Vec<Refusal> = commands
        .iter()
        .filter_map(|(site, store_var)| match claims.get(site).copied().unwrap_or(0) {
            0 => Some(refusal(24, site.0)),
            1 => None,
            _ => store_var.then(|| refusal(25, site.0)),
        })
        .collect();
    if !by_command.is_empty() {
        return by_command;
    }
    let unclaimed = claims.keys().filter(|site| !commands.contains_key(site));
    unclaimed.map(|site| refusal(26, site.0)).collect()
}
