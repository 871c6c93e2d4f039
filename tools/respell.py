#!/usr/bin/env python3
"""Brings the names that this repository's specs and proofs define to today's spelling.

usage: python3 tools/respell.py          at the top of the repository, once, after the kit's port.py

Words are in snake case, and types and modules in camel case. A dash joins two names, as in `length-take`; a plain word is added with `_`.
A name that two would share gets `_lem`. `specs/Contracts.antt` becomes `specs/Promises.antt`, since Rattle makes a module `specs.contracts`.
Names of src/, strings, inputs and outputs stay. It prints each old name with its new one.
"""
import collections
import glob
import os
import re
import subprocess

WORD = r"[A-Za-zα-ωµμ][\w'₀-₉]*"
NAME = re.compile(r"(?<![\w'₀-₉-])%s(?:-[\w'₀-₉]+|-(?=[≡≢≤]))*(?![\w'₀-₉])" % WORD)
SIGNATURE = re.compile(r"^(\s*)((?:(?:abbrev|unfoldable|pub|data|record)\s+)*)([^\s(){}.,;:\[\]λ→∷]+)\s+:(?:\s|$)")
# words of the library that lemmas are named after
STD = set(
    "length take drop map append get_or set replicate reverse sum all any ap cond and or not eqb ltb leb subst min max toℕ filter".split()
)


def snake(name):
    """aB → a_b, F64 stays one part."""
    name = re.sub(r"^getD$", "get_or", name)
    return re.sub(r"(?<=[a-z0-9₀'])([A-Z])", lambda m: "_" + m[1], name).lower()


def respelled(segment):
    return snake(segment) if segment[:1].islower() and re.search(r"[a-z0-9][A-Z]", segment) else segment


def antt_files():
    return sorted(f for kind in ("specs", "proofs") for f in glob.glob(f"crates/*/{kind}/**/*.antt", recursive=True))


def main():
    defined = collections.defaultdict(set)
    fields = set()
    tokens = set()
    for f in antt_files():
        with open(f, encoding="utf-8") as it:
            text = it.read()
        in_block = False
        for line in text.split("\n"):
            m = SIGNATURE.match(line)
            if re.match(r"^\s*(pub )?(record|data)\b.*where|^\s*(abbrev )?pub (record|data)\b|^(record|data)\b", line):
                in_block = True
            elif line and not line[0].isspace():
                in_block = False
            if m and re.search(r":\s+(tie\.|goal\.|\{M : Type 1\} → (tie\.)?statement)", line):
                # names of goals, which Rattle gives
                continue
            if m:
                if in_block and m[1] and "abbrev" not in m[2]:
                    fields.add(m[3])
                else:
                    defined[m[3]].add((f, m[2].strip()))
        bare = re.sub(r"--[^\n]*", "", text)
        tokens |= {m[0] for m in NAME.finditer(bare) if bare[max(0, m.start() - 1) : m.start()] != "."}
    sources = sorted(glob.glob("crates/*/src/**/*.rt", recursive=True))
    for f in sources:
        with open(f, encoding="utf-8") as it:
            for n in re.findall(r" as «?([a-z]\w*)»?", " ".join(re.findall(r"ghost use [^;]*;", it.read()))):
                if respelled(n) != n:
                    defined[n].add((f, "alias abbrev"))
    words = {respelled(n) for n, at in defined.items() if any(f.split("/")[2] == "specs" and ("abbrev" in k or "data" in k or "record" in k or "unfoldable" in k) for f, k in at) and "-" not in n} | STD
    new = {}
    for n in sorted(set(defined) | fields):
        parts = [respelled(p) for p in n.split("-")]
        if n in fields and n not in defined:
            it = "_".join(parts)
        else:
            it = parts[0]
            for a, b in zip(parts, parts[1:]):
                joined = (a in words and b in words) or b[:1] in "≡≢≤"
                it += ("-" if joined else "_") + b
        if it != n:
            new[n] = it
    # no two names may fall together, nor one with a name that stood before: a definition keeps the plain name, and a lemma gets `_lem`
    for n in [n for n in new if any("abbrev" in k or "unfoldable" in k for _, k in defined.get(n, ()))]:
        it = new[n]
        if it in defined and it not in new and not any("abbrev" in k or "unfoldable" in k for _, k in defined[it]):
            new[it] = it + "_lem"
            print(f"fell together: {it} with {n}: {new[it]}")
    owner = {}
    for n in sorted(new, key=lambda n: (new[n].endswith("_lem"), "-" in n, not any("abbrev" in k or "unfoldable" in k for _, k in defined.get(n, ())), n)):
        it = new[n]
        if n in fields and n not in defined:
            continue
        other = owner.get(it) or (it if it in tokens and it not in new else "")
        if other:
            new[n] = it + "_lem"
            print(f"fell together: {n} with {other}: {new[n]}")
        owner[new[n]] = n
    both = [k for k, v in collections.Counter(v for n, v in new.items() if n in defined).items() if v > 1]
    assert not both, both

    crates = {f.split("/")[1] for f in antt_files()}

    def foreign(text):
        """What a file imports from elsewhere, which keeps its name."""
        found = set()
        for m in re.finditer(r"(?m)^(?:pub )?use ([\w.'·-]+)\.\{([^}]*)\}", text):
            parts = re.split(r"[.·]", m[1])
            if parts[0] != "Rattle" or parts[1] not in crates:
                found |= {it.strip().split(" as ")[0] for it in m[2].split(",")}
        return found

    def turned(text, antt):
        kept = foreign(text)

        def one(m):
            n = m[0]
            if n not in new or n in kept:
                return n
            line = text[text.rfind("\n", 0, m.start()) + 1 : m.start()]
            if "-" in n and re.search(r"--[^`]*(`[^`]*`[^`]*)*$", line) and "--" in line:
                # prose
                return n
            if text[max(0, m.start() - 1) : m.start()] == "." and n not in fields:
                # behind a dot stands a field, or a name that Rattle makes
                return n
            return new[n]

        return NAME.sub(one, text)

    def clauses(text):
        """The clauses, ghost items and ghost use lines of a .rt file."""
        out, at = [], 0
        for m in re.finditer(r"(?m)^\s*ghost use [^;]*;|\b(?:requires|ensures|ghost)\b[^\n{;=]*\{", text):
            if m.start() < at:
                continue
            end = m.end()
            if text[end - 1] == "{":
                depth = 1
                while depth:
                    depth += {"{": 1, "}": -1}.get(text[end], 0)
                    end += 1
            out += [text[at : m.start()], turned(text[m.start() : end], False)]
            at = end
        return "".join(out) + text[at:]

    renamed = [f for f in antt_files() if f.endswith("/specs/Contracts.antt")]
    owners = {f.split("/")[1] for f in renamed}
    for f in antt_files() + sources + sorted(glob.glob("crates/*/must-fail/*.edit")):
        with open(f, encoding="utf-8") as it:
            text = it.read()
        t = clauses(text) if f.endswith(".rt") else turned(text, True)
        for c in owners:
            t = re.sub(rf"(Rattle[.·]{c}(?:·specs)?\.specs)\.Contracts\b", r"\1.Promises", t)
        if f.endswith("specs/Lib.antt") and f.split("/")[1] in owners:
            t = re.sub(r"\bmod Contracts\b", "mod Promises", t)
        if f.endswith(".edit"):
            t = t.replace("specs/Contracts.antt", "specs/Promises.antt")
        if t != text:
            with open(f, "w", encoding="utf-8") as it:
                it.write(t)
    for f in renamed:
        subprocess.run(["git", "mv", f, os.path.join(os.path.dirname(f), "Promises.antt")], check=True)
    for n in sorted(new):
        print(f"{n} {new[n]}")


main()
