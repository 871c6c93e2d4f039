//! Where the operands stand in a cell, and the check of the list of commands
//! against the original's text.

use crate::cells::{self, Cell};
use crate::codec::{Command, Form};
use crate::legacy_lowering::COMMANDS;
use std::sync::LazyLock;

/// A command and the places of the operands that the passes or a run look at.
#[derive(Debug)]
pub struct Layout {
    pub command: &'static Command,
    /// Form and place of every operand.
    pub places: Vec<(Form, usize)>,
    /// Where the operands end; the bytes from here on are spare.
    pub end: usize,
    dst: Option<(Form, usize)>,
    pub activation_site: Option<usize>,
    pub write_site: Option<usize>,
}

impl Layout {
    fn new(command: &'static Command) -> Layout {
        let mut end = 1;
        let mut places = Vec::new();
        for operand in command.operands {
            places.push((operand.form, end));
            end += operand.form.width();
        }
        let find = |name: &str| {
            let index = command.operands.iter().position(|operand| operand.name == name);
            index.map(|index| places[index])
        };
        let site = |name: &str| find(name).map(|(_, place)| place);
        Layout {
            command,
            end,
            dst: find("dst"),
            activation_site: site("activation_site"),
            write_site: site("write_site"),
            places,
        }
    }

    /// The register that a cell of this command writes, if it writes one.
    pub fn dst(&self, cell: &Cell) -> Option<usize> {
        match self.dst? {
            (Form::OptionalRegister, place) => {
                (cell[place] == 1).then(|| cells::half(cell, place + 1) as usize)
            }
            (_, place) => Some(cells::half(cell, place) as usize),
        }
    }
}

/// The layout of a command byte, if it is one.
pub fn layout(byte: u8) -> Option<&'static Layout> {
    static LAYOUTS: LazyLock<Vec<Layout>> =
        LazyLock::new(|| COMMANDS.iter().map(Layout::new).collect());
    LAYOUTS.get((byte as usize).checked_sub(1)?)
}

/// Compares the list of commands with the order of `is_crystalfold_barrier` and
/// with the operands that the arms of `fold_constants_and_identities` name.
/// Gives the number of commands, or the first disagreement.
pub fn check_against_text() -> Result<usize, String> {
    let file = concat!(env!("SM_IR_PASSES_FOLDER"), "/crystalfold.rs");
    let text = std::fs::read_to_string(file).map_err(|error| format!("{file}: {error}"))?;
    let (before, arms) = text
        .split_once("fn fold_constants_and_identities")
        .ok_or("no fold_constants_and_identities in the text")?;
    let (_, order) = before
        .split_once("fn is_crystalfold_barrier")
        .ok_or("no is_crystalfold_barrier in the text")?;

    let named: Vec<&str> = patterns(order).map(|(name, _, _)| name).collect();
    let listed: Vec<&str> = COMMANDS.iter().map(|command| command.name).collect();
    if named != listed {
        return Err(format!("order of commands: text {named:?}, list {listed:?}"));
    }
    for (index, command) in COMMANDS.iter().enumerate() {
        if command.byte as usize != index + 1 {
            return Err(format!("{} has the byte {:02X}", command.name, command.byte));
        }
        let (_, operands, _) = patterns(arms)
            .find(|(name, _, rest)| *name == command.name && rest.trim_start().starts_with("=>"))
            .ok_or_else(|| format!("no arm for {}", command.name))?;
        let operands = operands.split(',').map(str::trim).filter(|name| !name.is_empty());
        let named: Vec<&str> = operands.collect();
        let listed: Vec<&str> = command.operands.iter().map(|operand| operand.name).collect();
        if named != listed {
            return Err(format!("{}: text {named:?}, list {listed:?}", command.name));
        }
        for operand in command.operands {
            let register = ["dst", "src", "lhs", "rhs", "cond"].contains(&operand.name);
            let form = matches!(operand.form, Form::Register | Form::OptionalRegister);
            if register != form {
                return Err(format!("{}.{} is {:?}", command.name, operand.name, operand.form));
            }
        }
    }
    Ok(COMMANDS.len())
}

/// Each `IrInstr::Name { operands }` of a text, with what follows it.
fn patterns(text: &str) -> impl Iterator<Item = (&str, &str, &str)> {
    text.split("IrInstr::").skip(1).filter_map(|part| {
        let (name, rest) = part.split_once(" {")?;
        let (operands, rest) = rest.split_once('}')?;
        Some((name, operands, rest))
    })
}
