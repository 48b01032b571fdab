#!/usr/bin/env python3
"""Lists the places in crates/*/src where a newer form of the language may be plainer, and counts them.

    tools/count_places.py          the counts
    tools/count_places.py --list   each place too

A count is of candidates: docs/DESIGN-PASS.md says of each what became of it. Tests and comments are left out.
"""
import re
import sys
from collections import Counter, defaultdict
from pathlib import Path

ROOT = Path(__file__).resolve().parent.parent
FILES = sorted(ROOT.glob("crates/*/src/**/*.rt"))


def lines(path):
    """The lines of a file up to its tests, with comments blanked."""
    out = []
    for line in path.read_text().split("\n"):
        if line.strip() == "#[cfg(test)]":
            break
        out.append("" if line.lstrip().startswith("//") else line)
    return out


TEXT = {path.relative_to(ROOT).as_posix(): lines(path) for path in FILES}


def grep(pattern):
    found = re.compile(pattern)
    return [
        (name, i + 1, line.strip())
        for name, text in TEXT.items()
        for i, line in enumerate(text)
        if found.search(line)
    ]


def blocks(head):
    """Each item that begins with this head, as (file, line, its text up to the closing brace in the first column)."""
    start = re.compile(head)
    for name, text in TEXT.items():
        for i, line in enumerate(text):
            if start.match(line):
                end = next((j for j in range(i, len(text)) if text[j] == "}"), i)
                yield name, i + 1, "\n".join(text[i : end + 1])


def enums_like_option():
    """Enums of two variants, one of them bare and one with one value."""
    found = []
    for name, at, text in blocks(r"(pub )?enum "):
        body = text[text.index("{") + 1 : text.rindex("}")]
        variants = [v.strip() for v in re.split(r",\s*\n", body) if v.strip()]
        bare = [v for v in variants if re.fullmatch(r"\w+,?", v)]
        full = [v for v in variants if re.fullmatch(r"\w+\([^,]*\),?", v)]
        if len(variants) == 2 and len(bare) == 1 and len(full) == 1:
            found.append((name, at, text.split("\n")[0]))
    return found


def functions():
    """Each function as (file, line, head up to its body)."""
    for name, text in TEXT.items():
        for i, line in enumerate(text):
            if re.match(r"\s*(pub(\(crate\))? )?(const )?fn ", line):
                head = []
                for rest in text[i:]:
                    head.append(rest.strip())
                    if rest.strip().endswith(";") and not rest.strip().startswith("ensures") or rest.strip() in ("{", "{}") or rest.rstrip().endswith(" {"):
                        break
                yield name, i + 1, head


def signature(head):
    text = " ".join(head)
    return re.split(r"\b(requires|ensures)\b", text)[0]


def parameters(head):
    text = signature(head)
    inside = text[text.index("(") + 1 :]
    depth, end = 1, 0
    for end, c in enumerate(inside):
        depth += {"(": 1, ")": -1}.get(c, 0)
        if depth == 0:
            break
    return [p.strip() for p in re.split(r",(?![^<(\[]*[>)\]])", inside[:end]) if p.strip()]


def flags_beside_values():
    """Structs and variants that hold a bool and something else."""
    found = []
    for name, at, text in blocks(r"(pub )?(struct|enum) "):
        for group in re.findall(r"\{([^{}]*)\}", text):
            fields = re.findall(r"(?:pub )?(\w+): ([^,\n]+)", group)
            if len(fields) > 1 and any(re.search(r"\bbool\b", t) for _, t in fields):
                found.append((name, at, text.split("\n")[0]))
    return found


def bool_parameters():
    return [
        (name, at, signature(head)[:110])
        for name, at, head in functions()
        if any(re.search(r": bool$", p) for p in parameters(head))
    ]


def results(kind):
    return [
        (name, at, signature(head)[:110])
        for name, at, head in functions()
        if re.search(r"-> " + kind + r"\s*(\{|$)", signature(head).strip())
    ]


def repeated_clauses():
    """Clauses that stand in three functions or more, their names and `old`, `new`, `now` aside."""
    where = defaultdict(list)
    for name, at, head in functions():
        for clause in head:
            m = re.match(r"(requires|ensures)( \w+)? \{ (.*) \}", clause)
            if m:
                fact = re.sub(r"\.(old|new|now|entry)\b", "", m.group(3))
                where[m.group(1) + " " + fact].append((name, at))
    return [
        (places[0][0], places[0][1], f"{len(places)} x {fact}"[:150])
        for fact, places in sorted(where.items(), key=lambda x: -len(x[1]))
        if len(places) >= 3
    ]


def travelling_parameters():
    """Pairs of parameters, by name and type, that three functions or more take together."""
    count, first = Counter(), {}
    for name, at, head in functions():
        ps = [p for p in parameters(head) if "self" not in p]
        for i in range(len(ps)):
            for j in range(i + 1, len(ps)):
                pair = (ps[i].removeprefix("mut "), ps[j].removeprefix("mut "))
                count[pair] += 1
                first.setdefault(pair, (name, at))
    return [(*first[p], f"{n} x {p[0]}, {p[1]}") for p, n in count.most_common() if n >= 3]


def alike(width=6):
    """Runs of six lines and more whose shape, names and numbers aside, stands elsewhere too."""
    shape = defaultdict(list)
    for name, text in TEXT.items():
        code = [(i + 1, re.sub(r"\b[A-Za-z_]\w*\b|\d+", "x", l.strip())) for i, l in enumerate(text) if l.strip() and not re.match(r"\s*(ghost use|use|requires|ensures)\b", l)]
        for k in range(len(code) - width):
            run = tuple(l for _, l in code[k : k + width])
            if sum(len(l) for l in run) > 90:
                shape[run].append((name, code[k][0]))
    found, seen = [], set()
    for run, places in shape.items():
        if len(places) > 1:
            key = tuple((n, a // 12) for n, a in places)
            if key not in seen:
                seen.add(key)
                found.append((places[0][0], places[0][1], "also " + ", ".join(f"{n}:{a}" for n, a in places[1:4])))
    return found


POINTS = [
    ("1 enums shaped like Option", enums_like_option),
    ("1 a flag beside a value", flags_beside_values),
    ("1 functions that give a bool", lambda: results("bool")),
    ("1 functions that give a number of 8 bits", lambda: results("u8")),
    ("1, 7 functions with a parameter that is a flag", bool_parameters),
    ("2 runs of lines of one shape", alike),
    ("3 while loops", lambda: grep(r"\bwhile\b")),
    ("3 for loops over a range", lambda: grep(r"\bfor \w+ in [^{]*\.\.")),
    ("3 a length compared with 0", lambda: grep(r"\.len\(\) == 0|\.len\(\) > 0")),
    ("4 conversions and comparisons by name", lambda: grep(r"fn (encoded|decoded\w*|small|least|line|copied|cell|put_\w+|\w+_(at|of|in)|\w+_cells?|\w+_word|equal|same\w*|is_zero|is_word|signed|with_sign)\b")),
    ("5 clauses that stand three times and more", repeated_clauses),
    ("5 parameters that travel together", travelling_parameters),
    ("6 arrays and lent buffers in structs", lambda: grep(r"^\s+(pub )?\w+: (&'a mut )?\[[^\]]*\],$")),
    ("6 a length or count in a struct", lambda: grep(r"^\s+(pub )?(len|count|length|top): (usize|u16|u32),$")),
    ("7 function pointers, dyn, closures", lambda: grep(r"\bdyn\b|: fn\(|impl Fn|\|[a-z_, ]+\| ")),
]

if __name__ == "__main__":
    for title, places in POINTS:
        found = places()
        print(f"{len(found):4}  {title}")
        if "--list" in sys.argv[1:]:
            for name, at, what in found:
                print(f"        {name}:{at}: {what}")
