#!/usr/bin/env python3
"""Brings the names of definitions and lemmas of this repository to snake case, once, after the toolchain's port script.

usage: python3 tools/snake_names.py [--dry]      at the top of the repository

A name's parts are joined by dashes; a part that begins with a small letter and has a capital in it, as sumBy in list-sumBy, becomes sum_by.
Parts that begin with a capital are types, facts or variants and stay, so do names that this repository does not define.
Only .antt files, the clauses and ghost lines of .rt files and the texts of must-fail edits are turned: names of functions in src/, strings
and comments of code are in snake case or in words already. It prints each new name that a file which uses the old one had before.
"""

import os
import re
import sys

ROOT = "crates"
WORD = r"[^\s(){}\[\],;:.⌜⌝«»\"`]+"
DEFINED = re.compile(r"^(\s*)((?:pub |abbrev |unfoldable )*)(data |record |ruleset )?([^\s:(){}]+)\s*((?:[({].*)?):(?!:)(.*)$")
PART = re.compile(r"^[a-z][a-z0-9_']*[A-Z][A-Za-z0-9_']*$")


def files(endings):
    for folder, dirs, names in os.walk(ROOT):
        dirs[:] = sorted(d for d in dirs if d != "out")
        for name in sorted(names):
            if name.endswith(endings):
                yield os.path.join(folder, name)


def snake(part):
    if not PART.match(part):
        return part
    return re.sub(r"(?<=[a-z0-9'])([A-Z])", lambda m: "_" + m.group(1), part).lower()


def new_name(name):
    return "-".join(snake(p) for p in name.split("-"))


# Lemmas whose snake-case name is the new name of the definition that they are about: they get _lem.
LEMMAS = {
    "crates/decision/proofs/RowAnswer.antt": "sign_at",
    "crates/table_machine/proofs/Settled.antt": "next_marks",
    "crates/wide/proofs/Merging.antt": "by_tests",
}


def own_names():
    names = set()
    for path in files((".antt",)):
        with open(path, encoding="utf-8") as f:
            for line in f:
                m = DEFINED.match(line.rstrip("\n"))
                if m and not line.lstrip().startswith(("--", "use ")):
                    names.add(m.group(4))
    # variables of the same shape
    names |= {"leadingNumber", "mayArrow"}
    return {n: new_name(n) for n in names if new_name(n) != n and not n.startswith(("returns-", "if-", "in-"))}


def turn(text, names):
    return re.sub(WORD, lambda m: names.get(m.group(0), m.group(0)), text)


def main():
    dry = "--dry" in sys.argv[1:]
    names = own_names()
    back = {}
    for old, new in names.items():
        back.setdefault(new, []).append(old)
    for new, olds in sorted(back.items()):
        if len(olds) > 1:
            print("fall together:", new, olds)
    changed = 0
    for path in files((".antt", ".rt", ".edit")):
        with open(path, encoding="utf-8") as f:
            text = f.read()
        before = text
        if path in LEMMAS:
            lemma = LEMMAS[path]
            text = turn(text, {lemma: lemma + "_lem"})
        had = set(re.findall(WORD, text))
        for old in sorted(had & set(names)):
            if names[old] in had:
                print(f"look: {path}: {old} becomes {names[old]}, which stands there already")
        turned = turn(text, names)
        if turned != before:
            changed += 1
            if not dry:
                with open(path, "w", encoding="utf-8") as f:
                    f.write(turned)
    print(f"{len(names)} names, {changed} files")


if __name__ == "__main__":
    main()
