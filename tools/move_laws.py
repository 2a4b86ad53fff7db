#!/usr/bin/env python3
"""Moves the laws of the crates whose definitions have must-fail edits from specs/ to proofs/.

usage: python3 tools/move_laws.py      at the top of the repository, once

An edit of a definition is tried only where specs/ can still be read, so what is proved of the definitions stands in proofs/: the files
of laws, the theorems and the worked examples. No statement changes; paths do, here and wherever a file cites one.
"""
import os
import re
import subprocess

CRATES = ["refusal", "model", "snapshot", "policy"]
MOVED = re.compile(r"(Laws|Theorems|Examples)$")


def main():
    moved = []
    for crate in CRATES:
        lib = f"crates/{crate}/specs/Lib.antt"
        with open(lib, encoding="utf-8") as f:
            lines = f.read().splitlines()
        stay, go = [], []
        for line in lines:
            found = re.match(r"pub mod (\w+)$", line)
            (go if found and MOVED.search(found.group(1)) else stay).append(line)
        os.makedirs(f"crates/{crate}/proofs", exist_ok=True)
        with open(lib, "w", encoding="utf-8") as f:
            f.write("\n".join(stay) + "\n")
        with open(f"crates/{crate}/proofs/Lib.antt", "w", encoding="utf-8") as f:
            f.write("\n".join(go) + "\n")
        for line in go:
            name = line.split()[-1]
            subprocess.run(["git", "mv", f"crates/{crate}/specs/{name}.antt", f"crates/{crate}/proofs/{name}.antt"], check=True)
            moved.append((crate, name))
    paths = {f"Rattle.{c}.specs.{n}": f"Rattle.{c}.proofs.{n}" for c, n in moved}
    files = {f"crates/{c}/specs/{n}.antt": f"crates/{c}/proofs/{n}.antt" for c, n in moved}
    path = re.compile(r"Rattle\.(?:" + "|".join(CRATES) + r")\.specs\.\w+")
    file = re.compile(r"crates/(?:" + "|".join(CRATES) + r")/specs/\w+\.antt")
    listed = subprocess.run(["git", "ls-files"], check=True, capture_output=True, text=True).stdout.split("\n")
    for name in listed:
        if not name.endswith((".antt", ".rt", ".edit", ".md", ".sh", ".rs")) or name == "docs/PORT.md" or not os.path.exists(name):
            continue
        with open(name, encoding="utf-8") as f:
            before = f.read()
        after = path.sub(lambda m: paths.get(m.group(0), m.group(0)), before)
        after = file.sub(lambda m: files.get(m.group(0), m.group(0)), after)
        if after != before:
            with open(name, "w", encoding="utf-8") as f:
                f.write(after)


main()
