#!/usr/bin/env python3
"""Says what a contract knows of a lent value in the words of the language.

usage: python3 tools/lent.py       at the top of the repository, once

`was x` is `x.now` of a `&` and `x.old` of a `&mut`, `is x` is `x.new`, and `col x` is `column x.now` or `column x.old`: the three
definitions of `Lent` said this of a reference of either kind, and the language has a type for each kind now.
"""
import os
import re

SIGNATURE = re.compile(r"^\s*(?:pub )?(?:extern \"C\" )?fn (\w+)", re.M)


def references(text):
    """The parameters of a function that are references: whether each is a &mut."""
    kinds = {m.group(1): bool(m.group(2)) for m in re.finditer(r"(\w+): &(mut )?", text)}
    own = re.search(r"\(\s*&(mut )?self", text)
    if own:
        kinds["self"] = bool(own.group(1))
    return kinds


def turned(clause, kinds, where):
    def at_entry(name):
        if name not in kinds:
            raise SystemExit(f"lent: {where}: {name} is no reference")
        return name + (".old" if kinds[name] else ".now")

    clause = re.sub(r"\(was (\w+)\)", lambda m: at_entry(m.group(1)), clause)
    clause = re.sub(r"\bwas (\w+)\b", lambda m: at_entry(m.group(1)), clause)
    clause = re.sub(r"\(is (\w+)\)", lambda m: m.group(1) + ".new", clause)
    clause = re.sub(r"\bis (\w+)\b", lambda m: m.group(1) + ".new", clause)
    return re.sub(r"\bcol (\w+)\b", lambda m: "column " + at_entry(m.group(1)), clause)


def main():
    for crate in sorted(os.listdir("crates")):
        for name in sorted(os.listdir(f"crates/{crate}/src")):
            path = f"crates/{crate}/src/{name}"
            with open(path, encoding="utf-8") as f:
                lines = f.read().split("\n")
            out, kinds, signature, clause = [], {}, None, False
            column = False
            for line in lines:
                if SIGNATURE.match(line):
                    signature = line
                elif signature is not None and not re.match(r"\s*(requires|ensures)", line):
                    signature += " " + line
                if signature is not None and ("->" in signature or ")" in signature) and re.match(r"\s*(requires|ensures)", line):
                    kinds = references(signature)
                if re.match(r"\s*(requires|ensures)\b", line):
                    clause = True
                if clause:
                    new = turned(line, kinds, f"{path}: {line.strip()[:60]}")
                    column |= "column " in new and "column " not in line
                    line = new
                if line.strip() == "{" or line.rstrip().endswith("{") and not clause:
                    clause, signature = False, None
                out.append(line)
            text = "\n".join(out)
            # the imports
            def rest(m):
                names = [n.strip() for n in m.group(1).split(",") if n.strip() not in ("was", "is", "col")]
                return "ghost use Rattle.model.specs.Lent.{" + ", ".join(names) + "};\n" if names else ""
            text = re.sub(r"ghost use Rattle\.model\.specs\.Lent\.\{([^}]*)\};\n", rest, text)
            if column and not re.search(r"ghost use Rattle\.model\.specs\.Rows\.\{[^}]*\bcolumn\b", text):
                if "ghost use Rattle.model.specs.Rows.{" in text:
                    text = text.replace("ghost use Rattle.model.specs.Rows.{", "ghost use Rattle.model.specs.Rows.{column, ")
                else:
                    text = text.replace("ghost use Rattle.", "ghost use Rattle.model.specs.Rows.{column};\nghost use Rattle.", 1)
            if text != "\n".join(lines):
                with open(path, "w", encoding="utf-8") as f:
                    f.write(text)


main()
