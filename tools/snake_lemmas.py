#!/usr/bin/env python3
"""Brings the names of lemmas and of theorems' fields to today's spelling, once, after tools/snake_names.py.

usage: python3 tools/snake_lemmas.py [--dry]     at the top of the repository

A dash joins two names, as sign-mul_of, or a type to what is said of it, as Depth-constant; a plain word is added with an underscore, as
refused_for_good. So each dash of a name that this repository defines becomes an underscore, unless what stands before it begins with a capital,
or both sides are names of definitions. In a field of a theorem that no type begins, underscores alone. Where the new name stands already, for a function or in a
file that uses the old one, the lemma gets _lem. Where two would fall together the old names stay, and a line says so. Names that the checker makes for goals and steps are not touched.
"""

import collections
import re
import sys

from snake_names import DEFINED, WORD, files

MADE = re.compile(r"^(returns|loop|invariant|decreases|if|then|else|in|overflow|bounds|slice_bounds|nonzero)-|goal\.")
CHAIN = re.compile(r"(?<![^\s(){}\[\],;:⌜⌝«»\"`.])%s(?:\.%s)*" % (WORD, WORD))
OF_STD = re.compile(r"^use (?:Rattle\.std|Rattle\.core|mathlib|borrow|denote|lib|native|Prim)\b[^{\n]*\{([^}]*)\}", re.M)


# Names of definitions that in a lemma's name are plain words.
PLAIN = {"at", "end", "first", "leading", "left", "no", "not", "of", "real", "right", "row", "table", "to", "zero"}


def read(path):
    with open(path, encoding="utf-8") as f:
        return f.read()


def defined(path):
    """The names that a file defines: (name, whether it is a record's field)."""
    record = None
    for line in read(path).splitlines():
        depth = len(line) - len(line.lstrip())
        if line.strip() and (record is None or depth <= record):
            record = depth if re.match(r"\s*(pub )?record ", line) else None
        m = DEFINED.match(line)
        made = path.endswith(("/Answers.antt", "/Invariants.antt")) and MADE.search(m.group(4)) if m else None
        if m and not line.lstrip().startswith(("--", "use ", "import ")) and not made and not m.group(6).strip().startswith("goal."):
            yield m.group(4), record is not None and depth > record


def words():
    """Names of definitions: those of specs/, of the library, and of functions in src/."""
    names = set()
    for path in files((".antt",)):
        if "/specs/" in path:
            names |= {n for n, _ in defined(path) if "-" not in n}
        for used in re.findall(r"^use Rattle\.std\.specs[^{\n]*\{([^}]*)\}", read(path), re.M):
            names |= {n.strip() for n in used.split(",")}
    for path in files((".rt",)):
        names |= set(re.findall(r"\bfn (\w+)", read(path)))
    return names - PLAIN


def new_name(name, names, field):
    parts = name.split("-")
    out = parts[0]
    before = parts[0]
    for part in parts[1:]:
        joined = "-" if before[:1].isupper() or (not field and before in names and part in names) else "_"
        out += joined + part
        before = part
    return out


def turn(text, names, fields):
    std = {n.strip() for used in OF_STD.findall(text) for n in used.split(",")}

    def one(m):
        first, *rest = m.group(0).split(".")
        if first in names and first not in std:
            first = names[first]
        module = first[:1].isupper() and first not in ("Rattle", "Prim")
        return ".".join([first] + [names[r] if r in names and (module or r in fields) else r for r in rest])

    return CHAIN.sub(one, text)


def main():
    dry = "--dry" in sys.argv[1:]
    taken = words()
    olds, fields = set(), set()
    for path in files((".antt",)):
        for name, inner in defined(path):
            if "-" in name.strip("-") and re.match(r"^[A-Za-z]", name):
                olds.add(name)
                if inner:
                    fields.add(name)
    names = {n: new_name(n, taken, n in fields) for n in olds}
    texts = {path: read(path) for path in files((".antt", ".rt", ".edit"))}
    tokens = {path: set(re.findall(WORD, text)) for path, text in texts.items()}
    stands = lambda old, new: new in taken or any(old in t and new in t for t in tokens.values())
    names = {n: (m + "_lem" if stands(n, m) else m) for n, m in names.items() if m != n}
    back = collections.defaultdict(list)
    for old, new in names.items():
        back[new].append(old)
    for new, them in sorted(back.items()):
        clash = len(them) > 1 or any(them[0] in t and new in t for t in tokens.values())
        if clash:
            print("kept:", them, "would be", new)
            for old in them:
                del names[old]
    changed = 0
    for path, text in texts.items():
        turned = turn(text, names, fields)
        if turned != text:
            changed += 1
            if not dry:
                with open(path, "w", encoding="utf-8") as f:
                    f.write(turned)
    if dry:
        for old, new in sorted(names.items()):
            print(old, "->", new)
    print(f"{len(names)} names, {changed} files")


if __name__ == "__main__":
    main()
