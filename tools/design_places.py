#!/usr/bin/env python3
"""Lists places of src/ that are candidates for a plainer form, point by point, for docs/DESIGN-PASS.md.

usage: tools/design_places.py [FOLDER] [POINT]

FOLDER is a checkout of this repository (here by default), POINT a number from 1 to 8 (all by default).
Each place is a line FILE:LINE: TEXT; the last line of a point counts them. What a place is worth is for the reader to say.
"""
import pathlib
import re
import sys

ARGS = sys.argv[1:]
ROOT = pathlib.Path(ARGS[0] if ARGS and not ARGS[0].isdigit() else ".")
POINTS = [int(a) for a in ARGS if a.isdigit()] or list(range(1, 9))
SOURCES = sorted(ROOT.glob("crates/*/src/**/*.rt"))

# Each point's patterns, on single lines of code.
PATTERNS = {
    1: [
        r"^\s*(pub(\(crate\))? )?enum \w+",
        r"^\s*(pub(\(crate\))? )?\w+: bool,",
        r"\bconst (\w*KIND): u8|fn kind_number|fn number\(|fn verdict\(|-> Result<u8, Fail>",
        r"^\s*(Some\(\w+\)|Ok\(\w+\)) => (Some|Ok)\(|^\s*Some\((\w+)\) => \3,|^\s*None => (None|0|Err\(.*\)|Ok\(None\)|Ok\(\(\)\)),|^\s*Err\(_\) => Err\(",
        r"divisor: 0,|Bezout \{ g: 0",
    ],
    3: [
        r"^\s*while ",
        r"^\s*for \w+ in [^{]*\.\.",
        r"^\s*\w+ \+= (1|next\.\w+);",
    ],
    4: [
        r"Ordering::(Less|Equal|Greater) => (Ordering|\w+\.|b\.|order\.)",
        r"fn (number|widened|parts|unpacked|packed|digit_value|byte|is_byte|read|reason)\b.*[({]",
        r"compare\(.*\) == Ordering::|\.len\(\) == 1 &&",
        r"^\s*\w+\[k\] = \w+\[k\];",
    ],
    5: [
        r"ring: &R, order: &O|^\s*order: &O,|^\s*factor: Monomial,|^\s*line: &M,",
        r"\.fits\(\)",
        r"sizes: Sizes, a: u16, b: u16|n: u64, a: u16, b: u16|model: Model,",
        r"list\[k\]|self\.exponent\(\w\)|other, \w\)",
    ],
    6: [
        r"^\s*(len|count): usize,|^\s*items: \[|^\s*bytes: Vec<u8>,",
        r"\[\w+( \{ bits: 0 \})?; \w+\]",
    ],
    7: [
        r"\bfn\(|\bdyn \w|impl Fn|macro_rules!",
        r"if self\.fits\(\)",
    ],
}


def lines(path):
    for number, line in enumerate(path.read_text().split("\n"), 1):
        if not line.strip().startswith("//") and not line.strip().startswith("ghost use"):
            yield number, line


def by_pattern(point):
    for path in SOURCES:
        for number, line in lines(path):
            if any(re.search(p, line) for p in PATTERNS[point]):
                yield f"{path.relative_to(ROOT)}:{number}: {line.strip()}"


def functions(path):
    """Each function with its tokens: name, line, body."""
    text = "\n".join(
        "" if l.strip().startswith(("//", "ghost", "ensures", "requires", "#[")) else l
        for l in path.read_text().split("\n")
    )
    for m in re.finditer(r"\bfn (\w+)[^;{]*\{", text):
        depth, i = 1, m.end()
        while depth and i < len(text):
            depth += {"{": 1, "}": -1}.get(text[i], 0)
            i += 1
        yield m.group(1), text[: m.start()].count("\n") + 1, text[m.end() : i - 1]


def shape(body):
    """The body with each name and number replaced by the order in which it first comes."""
    seen, out = {}, []
    for token in re.findall(r"\w+|[^\w\s]", body):
        if re.match(r"\w", token) and token not in ("if", "else", "for", "while", "match", "let", "return", "mut", "in"):
            token = f"x{seen.setdefault(token, len(seen))}"
        out.append(token)
    return tuple(out)


def twins():
    groups = {}
    for path in SOURCES:
        for name, line, body in functions(path):
            s = shape(body)
            if len(s) >= 8:
                groups.setdefault(s, []).append(f"{path.relative_to(ROOT)}:{line}: fn {name}")
    for group in groups.values():
        if len(group) > 1:
            yield from group
    types = {}
    for path in SOURCES:
        for m in re.finditer(r"\b(struct|enum) (\w+)[^;{]*\{(.*?)\n\}", path.read_text(), re.S):
            fields = re.sub(r"(///|ghost).*", "", m.group(3))
            s = shape(fields)
            if len(s) >= 6:
                line = path.read_text()[: m.start()].count("\n") + 1
                types.setdefault(s, []).append(f"{path.relative_to(ROOT)}:{line}: {m.group(1)} {m.group(2)}")
    for group in types.values():
        if len(group) > 1:
            yield from group


def proofs():
    for path in sorted(ROOT.glob("crates/*/proofs/**/*.antt")):
        text = path.read_text()
        count = len(re.findall(r"^pub [\w-]+ : goal\.|^(pub )?[\w'-]+ :", text, re.M))
        if count:
            yield f"{path.relative_to(ROOT)}: {count} statements, {len(text.splitlines())} lines"


for point in POINTS:
    found = list(twins() if point == 2 else proofs() if point == 8 else by_pattern(point))
    print(*found, f"point {point}: {len(found)}", sep="\n")
