#!/usr/bin/env python3
"""Holds the table of commands, crates/cells/specs/Table.antt, and the names beside it, Names.antt, against the text of the Rust.

    python3 tests/table.py [CRYSTALFOLD_RS [TABLE_ANTT [NAMES_ANTT]]]          from anywhere
    python3 tests/table.py --help

CRYSTALFOLD_RS is the original's crystalfold.rs; without it the file is looked for in the folder that SM_IR_PASSES names (absolute, or from the
root of the repository), and else in ../shared/docs/src/crates/sm-ir/src/passes.

Commands are numbered in the order of `is_crystalfold_barrier`, its barriers first; the operands of each are those of its arm in
`fold_constants_and_identities`, and the kind of each follows from its name by the widths of document 01. A command's name is that of its
variant; the kinds of events are those that the mod.rs beside that file names, in the order of document 01. Says 'ok', or the first difference. The exit status is 0 if there is none, 1 if there is one, and 2 if a file is missing.
"""
import os
import pathlib
import re
import sys

ROOT = pathlib.Path(__file__).resolve().parent.parent
RUST = ROOT / os.environ.get("SM_IR_PASSES", "../shared/docs/src/crates/sm-ir/src/passes") / "crystalfold.rs"
TABLE = ROOT / "crates/cells/specs/Table.antt"
NAMES = ROOT / "crates/cells/specs/Names.antt"
# document 01, 'The cell image': kind 0, kind 1
KINDS = ["Borrow", "Write"]

REGISTERS = {"dst", "src", "lhs", "rhs", "cond"}
SITES = {"activation_site", "write_site"}
VALUES = {"LoadBool": "Flag", "LoadQ": "Quad", "LoadI32": "Four", "LoadU32": "Four", "LoadFx": "Four", "LoadF64": "Eight"}
OPTIONAL = {("Call", "dst"), ("ClosureCall", "dst"), ("Ret", "src")}
COMPUTED = re.compile(r"(Add|Sub|Mul|Div|Mod)(I32|U32|Fx|F64)|Bool(And|Or|Not)|Cmp\w+|Q(Truth)?(And|Or|Not|Impl)")


def body(text, name):
    """The text of a function, from its opening brace to the closing one."""
    start = text.index("{", text.index("fn " + name))
    depth = 0
    for at in range(start, len(text)):
        depth += {"{": 1, "}": -1}.get(text[at], 0)
        if depth == 0:
            return text[start:at]
    raise ValueError(name)


def commands(text):
    """Barriers and other commands, each in its order."""
    barriers, others = body(text, "is_crystalfold_barrier").split("=> true", 1)
    return [re.findall(r"IrInstr::(\w+)", part) for part in (barriers, others)]


def operands(text):
    """The operand names of each command, by its arm."""
    found = {}
    for name, fields in re.findall(r"IrInstr::(\w+)\s*\{([^{}]*)\}\s*=>", body(text, "fold_constants_and_identities")):
        found[name] = [f.split(":")[0].strip() for f in fields.split(",") if f.strip()]
    return found


def kind(command, operand):
    if (command, operand) in OPTIONAL:
        return "OptReg"
    if operand in REGISTERS:
        return "Reg"
    if operand in SITES:
        return "Site"
    if operand == "val" and command in VALUES:
        return VALUES[command]
    if (command, operand) == ("MakeAdt", "tag"):
        return "Four"
    return "Two"


def class_of(command, names):
    if command in VALUES or command in ("Label", "Jmp", "JmpIf", "Ret"):
        return command
    if COMPUTED.fullmatch(command):
        return "Unary" if command.endswith("Not") else "Binary"
    if (command, "dst") in OPTIONAL:
        return "ActOptDst"
    return "ActDst" if "dst" in names else "Act"


def rows(text):
    """The table's rows: number, command, class, kinds."""
    found = []
    for line in text.splitlines():
        m = re.match(r"\s*row (\w+) (\[\]|\((.*) ∷ \[\]\)) ∷\s*-- ([0-9A-F]{2}) (.*)", line)
        if m:
            found.append((int(m[4], 16), m[5], m[1], m[3].split(" ∷ ") if m[3] else []))
    return found


def difference(rust, table):
    barriers, others = commands(rust)
    arms = operands(rust)
    want = barriers + others
    have = rows(table)
    if len(barriers) != 16 or len(others) != 65:
        return f"{len(barriers)} barriers and {len(others)} others in the Rust text"
    if [number for number, *_ in have] != list(range(84)):
        return "the rows are not numbered 00 to 53"
    for number, command in enumerate(want, 1):
        if command not in arms:
            return f"{command} has no arm"
        row = (number, command, class_of(command, arms[command]), [kind(command, o) for o in arms[command]])
        if have[number] != row:
            return f"the Rust text has {row}, the table {have[number]}"
    for number, name, kinds in ((0, "no command", []), (0x52, "an event", ["Site", "Site", "Four"]), (0x53, "a head", ["Two", "Two", "Two"])):
        if not have[number][1].startswith(name) or have[number][2:] != ("NoCommand", kinds):
            return f"row {number:02X} is {have[number]}"
    return None


def names(text, name):
    """The rows of a list of names: number and name, in order."""
    body = text[text.index(name + " ="):]
    return [(int(m[1], 16), m[0]) for m in re.findall(r'"(\w*)" ∷\s*-- ([0-9A-F]{2})', body[:body.index("    []\n")])]


def difference_of_names(rust, kinds, table):
    """A difference of the names, if there is one."""
    want = list(enumerate([""] + sum(commands(rust), [])))
    for row, have in zip(want, names(table, "command_names")):
        if row != have:
            return f"the Rust text has the command {row}, the names {have}"
    if len(names(table, "command_names")) != len(want):
        return f"{len(names(table, 'command_names'))} names of commands"
    if sorted(set(re.findall(r"OwnershipPathEventKind::(\w+)", kinds))) != sorted(KINDS):
        return "the Rust text has other kinds of events"
    if names(table, "event_names") != list(enumerate(KINDS)):
        return f"the kinds of events are {names(table, 'event_names')}"
    return None


def main():
    words = sys.argv[1:]
    if "--help" in words or len(words) > 3:
        print(__doc__.strip())
        return 0 if "--help" in words else 2
    paths = [pathlib.Path(word) for word in words]
    rust, table, beside = paths + [RUST, TABLE, NAMES][len(paths):]
    kinds = rust.parent / "mod.rs"
    for path, remedy in (rust, "; name the original's crystalfold.rs, or its folder in SM_IR_PASSES"), (kinds, ""), (table, ""), (beside, ""):
        if not path.is_file():
            print(f"table.py: no {path}{remedy}", file=sys.stderr)
            return 2
    try:
        wrong = difference(rust.read_text(), table.read_text()) or difference_of_names(rust.read_text(), kinds.read_text(), beside.read_text())
    except ValueError:
        wrong = f"{rust} has no is_crystalfold_barrier or no fold_constants_and_identities"
    print(wrong or "ok")
    return 1 if wrong else 0


if __name__ == "__main__":
    sys.exit(main())
