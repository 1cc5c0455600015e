#!/usr/bin/env python3
"""Brings the names of the repository's own definitions and lemmas to snake case, in every crate.

usage: python3 tools/respell.py            at the top of the repository, once, after the toolchain's own script has run
       python3 tools/respell.py --dry      tells what it would do, and writes nothing

A name is the repository's own if a file of specs/ or proofs/ declares or binds it, or a `use` line gives it by `as`. It is
respelled in the .antt files and in the clauses of the .rt files. Names of the library, texts and comments stay. Names of
clauses, fields and functions, which the source spells with underscores, get that spelling in proofs too, in the names of goals
and steps as well. Names that fall together are told.
"""

import os
import re
import sys

NAME = r"[A-Za-z_][\w'²]*(?:-[\w'²]+)+"
DECLARED = re.compile(r"^\s*(?:(?:abbrev|unfoldable|pub|ruleset|record|data|\|) )*(" + NAME + r")(?=\s*:)")
SEVERAL = re.compile(r"^\s*(?:pub )?((?:[\w'²-]+ )+[\w'²-]+) :")
GOAL = re.compile(r"^\s*(?:(?:abbrev|pub) )*(\S+) : goal\.\1")
CLAUSE = re.compile(r"\b(?:requires|ensures)\*? (\w+_\w+) \{")
FUNCTION = re.compile(r"\bfn (\w+_\w+)")
FIELD = re.compile(r"^\s*(?:pub )?(?:ghost )?(\w+_\w+):", re.M)
IMPORTED = re.compile(r"^\s*(?:ghost )?use (\S+?)\.\{([^}]*)\}", re.M)
TOKEN = re.compile(r"(?<![\w'²≢≡≤<+-])" + NAME + r"(?![\w'²≢≡≤<+-])")
STEP = re.compile(r"(\b(?:c|w|goal)\.|^(?:(?:abbrev|pub) )*)(" + NAME + r")")
STRING = re.compile(r'("(?:[^"\\]|\\.)*")')


def files(top, ends):
    for folder, names, found in os.walk(os.path.join(top, "crates")):
        names[:] = sorted(n for n in names if n != "out")
        for f in sorted(found):
            if f.endswith(ends):
                yield os.path.join(folder, f)


def read(path):
    with open(path, encoding="utf-8") as f:
        return f.read()


def code_of(line):
    """The line without its comment."""
    m = re.search(r"(?:^|\s)--(?:\s|$)", line)
    return line[: m.start()] if m else line


def is_of_a_function(path):
    """Whether the file has the answers or the invariants of a function."""
    return os.path.basename(path) in ("Answers.antt", "Invariants.antt", "Proof.antt")


def own_names(top):
    """The names of the repository, those of the library, and those that the source spells with underscores."""
    crates = "|".join(sorted(os.listdir(os.path.join(top, "crates"))))
    own, library, snake = {}, {}, set()
    for path in files(top, (".antt", ".rt")):
        text = read(path)
        for m in IMPORTED.finditer(text):
            ours = re.match(r"Rattle\.(?:" + crates + r")\.", m.group(1))
            for item in m.group(2).split(","):
                name, _, other = item.strip().partition(" as ")
                if not ours:
                    library.setdefault(name, set()).add(path)
                if "-" in other:
                    own.setdefault(other.strip(), set()).add(path)
        if path.endswith(".rt"):
            snake |= set(CLAUSE.findall(text)) | set(FUNCTION.findall(text)) | set(FIELD.findall(text))
            continue
        for line in text.splitlines():
            code = STRING.sub('""', code_of(line))
            if GOAL.match(code) or re.match(r"\s*use ", code):
                continue
            found = []
            if not is_of_a_function(path):
                found = [m.group(0) for m in TOKEN.finditer(code) if code[m.start() - 1 : m.start()] != "."]
            if DECLARED.match(code):
                found.append(DECLARED.match(code).group(1))
            if SEVERAL.match(code):
                found += [n for n in SEVERAL.match(code).group(1).split() if "-" in n]
            for n in found:
                own.setdefault(n, set()).add(path)
    return own, library, snake


def respelled(text, names):
    return "".join(
        part if i % 2 else TOKEN.sub(lambda m: names.get(m.group(0), m.group(0)), part)
        for i, part in enumerate(STRING.split(text))
    )


def steps(code, functions):
    """Goals and steps are named after a function of the source: its name keeps its spelling there."""

    def step(m):
        for n in functions:
            dashed = n.replace("_", "-")
            if m.group(2) == dashed or m.group(2).startswith(dashed + "-"):
                return m.group(1) + n + m.group(2)[len(dashed) :]
        return m.group(0)

    return STEP.sub(step, code)


def antt(path, text, names, functions):
    lines = []
    for line in text.split("\n"):
        code = code_of(line)
        new = respelled(code, names)
        if is_of_a_function(path):
            new = steps(new, functions)
        lines.append(new + line[len(code) :])
    return "\n".join(lines)


def rust(text, names):
    parts = re.split(r"(//[^\n]*)", text)
    return "".join(p if i % 2 else respelled(p, names) for i, p in enumerate(parts))


def falling_together(top, names):
    """Names that another declaration has already, each with where."""
    taken = {}
    for path in files(top, (".antt",)):
        for line in read(path).splitlines():
            m = re.match(r"^\s*(?:(?:abbrev|unfoldable|pub|ruleset|record|data) )*([A-Za-z_]\w*_\w*)\s+:", code_of(line))
            if m and not GOAL.match(line):
                taken.setdefault(m.group(1), set()).add(os.path.relpath(path, top))
    return [(n, taken[names[n]]) for n in sorted(names) if names[n] in taken]


def main():
    top = os.getcwd()
    own, library, snake = own_names(top)
    names = {n: n.replace("-", "_") for n in own if n not in library}
    names.update({n.replace("_", "-"): n for n in snake if n.replace("_", "-") not in library})
    for n in sorted(own):
        if n in library:
            print(f"look: {n} is the library's and stays; in {sorted(os.path.relpath(p, top) for p in own[n])[:2]}")
    for n, where in falling_together(top, {n: names[n] for n in own if n in names}):
        print(f"look: {n} becomes {names[n]}, which stands in {sorted(where)[:3]}; {n} in {sorted(os.path.relpath(p, top) for p in own[n])[:3]}")
    functions = sorted(snake, key=len, reverse=True)
    changed = 0
    for path in files(top, (".antt", ".rt")):
        text = read(path)
        new = rust(text, names) if path.endswith(".rt") else antt(path, text, names, functions)
        if new != text:
            changed += 1
            if "--dry" not in sys.argv:
                with open(path, "w", encoding="utf-8") as f:
                    f.write(new)
    print(f"{len(names)} names, {changed} files")


if __name__ == "__main__":
    main()
