#!/usr/bin/env python3
"""Respells the names of definitions, laws, fields and constructors of specs/ as Rattle spells names today.

usage: python3 tools/respell.py          at the top of the repository, once, after port.py
       python3 tools/respell.py --map    prints each old name beside its new one, and changes nothing

Words and laws become snake case, `keepLeast` `keep_least` and `lower-end` `lower_end`; a fact keeps its capital. Where a law would get
the name of a definition, it gets `_lem` after it. Functions of src/, exported names, strings, inputs and outputs keep theirs.
"""
import os
import re
import sys

NAME = r"[A-Za-zα-ωℓ_][A-Za-z0-9_'₀-₉α-ω-]*"
TOKEN = re.compile(r"(?<![A-Za-z0-9_'₀-₉α-ωℓ-])" + NAME)
DECLARED = re.compile(r"^\s*(?:(?:abbrev|unfoldable|pub|record|data)\s+)*(" + NAME + r")(?:\s*:[^=]|\s.*:\s)")
NOT_DECLARED = ("use ", "--", "mod ", "pub mod ", "infix", "unfolding", "let ", "elim")
# a fact that was spelled as a word and words of the library that have another name now; a law whose dash port.py turned already;
# names that only a body binds
OTHERS = {"calm": "Calm", "getD-inside": "get_or_inside", "getD-table": "get_or_table"}
LAWS = ["stands_at"]
BOUND = ["zero-on", "isOpen", "in-form", "in-q", "few-here", "records-fit", "afterPrefix", "afterRoute", "is-left", "not-below", "not-above",
         "applySaid", "endStep", "outlookSaid", "prefixStep", "readSaid", "routeStep", "rowColumns", "snapshotReading", "writeSaid"]


def files(*endings):
    for top in ("crates", "tests/edits"):
        for folder, inner, names in os.walk(top):
            inner[:] = sorted(d for d in inner if d != "out")
            for name in sorted(names):
                if name.endswith(endings):
                    yield os.path.join(folder, name)


def text_of(path):
    with open(path, encoding="utf-8") as f:
        return f.read()


def declared():
    """Every name that specs/ or a file of lemmas declares."""
    names = set()
    for path in files(".antt"):
        if path.endswith("/Proof.antt"):
            continue
        for line in text_of(path).splitlines():
            if line.lstrip().startswith(NOT_DECLARED):
                continue
            found = DECLARED.match(line)
            if found:
                names.add(found.group(1))
    return names


def snake(name):
    if name[0].islower():
        name = re.sub(r"(?<=[a-z0-9])([A-Z])", lambda m: "_" + m.group(1).lower(), name)
    return name.replace("-", "_")


def turned():
    """The new name of each old one that changes."""
    names = declared()
    new = {}
    for name in sorted(names) + BOUND:
        to = OTHERS.get(name, snake(name))
        if to != name:
            new[name] = to
    # a law that falls together with a definition: one with a dash does, and port.py has turned the dash of some
    at = {}
    for name in sorted(names):
        at.setdefault(new.get(name, name), []).append(name)
    for to, twins in at.items():
        words = [n for n in twins if "-" not in n and n not in LAWS]
        for name in twins if len(twins) > 1 and words else []:
            if name not in words:
                new[name] = to + "_lem"
    kept = {}
    for name in names:
        to = new.get(name, name)
        if kept.setdefault(to, name) != name:
            sys.exit(f"respell: {name} and {kept[to]} would both be {to}")
    return new


def of_library(lines):
    """The names that a file imports from the library: some of ours are spelled alike."""
    own = set(os.listdir("crates"))
    names = set()
    for line in lines:
        found = re.match(r"(?:ghost )?use ([^{;]*)\.\{(.*)\}", line)
        if found:
            parts = found.group(1).split(".")
            if parts[0] != "Rattle" or len(parts) < 2 or parts[1] not in own:
                names.update(name.strip() for name in found.group(2).split(","))
    return names


def in_ghost(line, new):
    return TOKEN.sub(lambda m: new.get(m.group(0), m.group(0)), line)


def in_code(line, new):
    """A line of src/: names with a dash stand only in imports, and strings stay."""
    if line.startswith("ghost use "):
        return in_ghost(line, new)
    parts = re.split(r'("(?:[^"\\]|\\.)*")', line)
    return "".join(p if p.startswith('"') else TOKEN.sub(lambda m: m.group(0) if "-" in m.group(0) else new.get(m.group(0), m.group(0)), p) for p in parts)


def in_edit(line, new, of_code):
    if not line.startswith(("old: ", "new: ")):
        return line
    return in_code(line, new) if of_code else in_ghost(line, new)


def main(argv):
    if not os.path.isdir("crates"):
        sys.exit("respell: run it at the top of the repository")
    every = turned()
    if argv == ["--map"]:
        for old, to in sorted(every.items()):
            print(old, to)
        return
    for path in files(".antt", ".rt", ".edit"):
        before = text_of(path)
        lines = before.split("\n")
        theirs = of_library(lines)
        new = {name: to for name, to in every.items() if name not in theirs}
        if path.endswith(".antt"):
            lines = [in_ghost(line, new) for line in lines]
        elif path.endswith(".rt"):
            lines = [in_code(line, new) for line in lines]
        else:
            of_code = re.search(r"^file: .*\.rt$", before, re.M) is not None
            lines = [in_edit(line, new, of_code) for line in lines]
        after = "\n".join(lines)
        if after != before:
            with open(path, "w", encoding="utf-8") as f:
                f.write(after)


main(sys.argv[1:])
