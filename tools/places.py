#!/usr/bin/env python3
"""Lists the places of docs/DESIGN-PASS.md in crates/*/src: tools/places.py [-v]."""
import collections
import pathlib
import re
import sys

ROOT = pathlib.Path(__file__).resolve().parent.parent
LINES = []
for path in sorted(ROOT.glob("crates/*/src/*.rt")):
    text = path.read_text()
    for number, line in enumerate(text.splitlines(), 1):
        if not line.lstrip().startswith("//"):
            LINES.append((path.relative_to(ROOT / "crates"), number, line))


def functions():
    """Yields the path, name, parameters and body of each function, without comments and clauses."""
    for path in sorted(ROOT.glob("crates/*/src/*.rt")):
        lines = [it for it in path.read_text().splitlines() if not it.lstrip().startswith("//")]
        at = 0
        while at < len(lines):
            begun = re.match(r"( *)(?:pub )?(?:extern \"C\" )?fn (\w+)", lines[at])
            at += 1
            if not begun:
                continue
            indent, first = begun[1], at - 1
            while not (lines[at - 1].endswith("{") and (at - 1 > first or lines[at - 1].count("{") % 2)) and lines[at - 1] != indent + "{":
                at += 1
            head = re.split(r"\n\s*(?:requires|ensures) ", "\n".join(lines[first:at]))[0]
            last = at
            while lines[last] != indent + "}":
                last += 1
            yield path.relative_to(ROOT / "crates"), begun[2], head, "\n".join(lines[at:last])
            at = last


def matching(pattern):
    return [f"{p}:{n}: {t.strip()}" for p, n, t in LINES if re.search(pattern, t)]


def twins():
    """Groups functions that are one another but for names, types and numbers, of two statements or more."""
    groups = collections.defaultdict(list)
    for path, name, head, body in functions():
        shape = re.sub(r"\b\d[\w.]*\b", "0", body)
        shape = re.sub(r"\b(?!if|else|match|while|for|return|let|mut|in)[A-Za-z_]\w*(::\w+)*\b", "x", shape)
        shape = re.sub(r"\s+", "", shape).replace(",}", "}").replace(",)", ")")
        params = len(re.findall(r":", head))
        if len(shape) > 12:
            groups[shape, params].append(f"{path} {name}")
    return [" = ".join(it) for it in groups.values() if len(it) > 1]


def twin_types():
    """Groups structs and enums with the same fields or variants but for their types."""
    groups = collections.defaultdict(list)
    for path in sorted(ROOT.glob("crates/*/src/*.rt")):
        text = re.sub(r"^ *//.*\n", "", path.read_text(), flags=re.M)
        for it in re.finditer(r"^(?:pub )?(?:struct|enum) (\w+)[^{;]*\{\n(.*?)^\}", text, re.M | re.S):
            shape = re.sub(r": [^,\n]+|\([^)]*\)", "", it[2].replace("pub ", ""))
            groups[re.sub(r"\s+", "", shape)].append(f"{path.relative_to(ROOT / 'crates')} {it[1]}")
    return [" = ".join(it) for it in groups.values() if len(it) > 1]


def travelling():
    """Functions with three or more of the lent arrays, or with a cursor, an output and a place in it."""
    found = []
    for path, name, head, _ in functions():
        lent = len(re.findall(r": &(?:mut )?\[u\d+; \w+\]", head))
        places = bool(re.search(r"out: &mut \[u8[^,]*,\s*at: usize", head))
        if lent > 2 or places:
            found.append(f"{path} {name}")
    return found


POINTS = {
    "1a enums": lambda: matching(r"^(pub )?enum "),
    "1b flags beside a value": lambda: matching(
        r"^ +(pub )?(ok|have|held|armed|begun|right|fits|more|over|pass): bool"
    ),
    "1c numbers for kinds, refusals, none": lambda: matching(
        r"^ +(pub )?(kind|refusal|variation|gate|group|last): u(8|32)\b|\bkind: u(8|32)\b"
        r"|\blast: u8\b|fn \w*(kind|number|variation|group|block|class)\w*\(.*-> u(8|32)"
    ),
    "2a twin functions": twins,
    "2b twin types": twin_types,
    "3 loops": lambda: matching(r"^ *(while|loop)\b"),
    "4 by hand": lambda: matching(
        r"octets::(least|equal)\(|fn \w*(least|equal|is_\w+|same_\w+|truth\w*|flag|bit|wide|either|every|met|refusal_number|\w+_number|widened|plus)\("
    ),
    "5 travelling parameters": travelling,
    "6 buffers with a length": lambda: matching(r"^ +(pub )?(len|count|\w+_len|filled): usize|^ +(pub )?count: u16"),
    "7 switches": lambda: matching(r"fn\(|&dyn|step: u|match (step|stage)"),
}

for point, places in POINTS.items():
    found = places()
    print(f"{point}: {len(found)}")
    if "-v" in sys.argv[1:]:
        for it in found:
            print(f"    {it}")
