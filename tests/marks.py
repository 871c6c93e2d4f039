#!/usr/bin/env python3
"""Checks what each file of specs/ says of itself in its first line against who uses it.

    python3 tests/marks.py          from anywhere; prints the files by mark, and each that is marked wrongly
    python3 tests/marks.py --help

A file is marked `-- Promise:` if the contracts of the exported operations or a claim (demand 3's, the program's texts, images joined, the rewrite until it rests, sealed images, releases, the lines of pages, pages told apart, packing and unpacking undone, what a factor is) name it,
directly or through other files; `-- Inner:` if only the contracts of functions inside name it; `-- Worked:` if it is a table of cases, or serves
such tables, and no contract names it. A file that only proofs use belongs in proofs/. The exit status is 0 if every mark is right, else 1.
"""
import pathlib
import re
import sys

ROOT = pathlib.Path(__file__).resolve().parent.parent / "crates"
# where the exported operations stand, and the claims
OPERATIONS = ["capi/src/lib.rt", "passes/src/lib.rt", "rest/src/lib.rt", "sealing/src/lib.rt", "release/src/lib.rt", "image/src/lib.rt", "listing/src/lib.rt", "pages/src/lib.rt", "packed/src/lib.rt", "factor/src/lib.rt"]
CLAIM = [("rewrite", "Claim"), ("matchdesk", "Program"), ("matchdesk_release", "Program"), ("passes", "Joined"), ("rest", "Promises"), ("sealing", "Claim"), ("release", "Claim"), ("pages", "Apart"), ("pages", "LinePlaces"), ("packed", "Claim"), ("factor", "Claim")]
# what no program and no exported operation reaches yet
UNFINISHED = ("fates",)
MARKS = ("Promise", "Inner", "Worked")
USE = re.compile(r"use\s+Rattle\.(\w+)\.specs\.(\w+)\.\{([^}]*)\}")


def uses(text):
    """The imports of spec files: (crate, file) and the names they bring."""
    for crate, name, items in USE.findall(text):
        if name != "declared" and (ROOT / crate).is_dir():
            names = [re.split(r"\s+as\s+", item.strip())[-1].strip("«»") for item in items.split(",")]
            yield (crate, name), names


def contracts(text):
    """The contracts of the operations of a source file: of its public functions that require nothing. One that does is a part of other crates'."""
    for found in re.finditer(r"^pub (?:extern \"C\" )?fn .*?^\{", text, re.M | re.S):
        if "requires {" not in found.group(0):
            yield found.group(0)


def closure(start, imports):
    seen, left = set(), list(start)
    while left:
        file = left.pop()
        if file not in seen and file in imports:
            seen.add(file)
            left.extend(imports[file])
    return seen


def main():
    if "--help" in sys.argv[1:] or sys.argv[1:]:
        print(__doc__.strip())
        return 0 if "--help" in sys.argv[1:] else 2
    texts = {
        (path.parent.parent.name, path.stem): path.read_text()
        for path in sorted(ROOT.glob("*/specs/*.antt"))
        if path.stem != "Lib" and path.parent.parent.name not in UNFINISHED
    }
    imports = {file: [used for used, _ in uses(text)] for file, text in texts.items()}
    promised = list(CLAIM)
    for name in OPERATIONS:
        text = (ROOT / name).read_text()
        for contract in contracts(text):
            words = set(re.findall(r"[\w'·-]+", contract))
            promised += [used for used, names in uses(text) if words & set(names)]
    promise = closure([file for file in promised if file in texts], imports)
    named = {used for path in ROOT.glob("*/src/**/*.rt") for used, _ in uses(path.read_text())}
    inner = closure(named, imports) - promise
    wrong = []
    for file, text in texts.items():
        mark = re.match(r"-- (\w+): ", text)
        mark = mark.group(1) if mark else "no mark"
        found = "Promise" if file in promise else "Inner" if file in inner else "Worked"
        if mark != found:
            hint = "; if it is no table of cases, it belongs in proofs/" if found == "Worked" else ""
            wrong.append(f"{file[0]}/specs/{file[1]}.antt: {mark}, should be {found}{hint}")
    for mark in MARKS:
        files = [file for file in texts if re.match(rf"-- {mark}: ", texts[file])]
        print(f"{mark}: {len(files)} files, {sum(texts[file].count(chr(10)) for file in files)} lines")
    for line in wrong:
        print(line)
    print("every mark is right" if not wrong else f"{len(wrong)} marks are wrong")
    return 1 if wrong else 0


sys.exit(main())
