#!/usr/bin/env python3
"""Respells this repository's own definitions and lemmas: words in snake case, types in camel case.

usage: python3 tools/spell.py        at the top of the repository, once

A name that a file of specs/ or proofs/ declares with a dash in it gets `_` in place of each dash; where it begins with a
capital letter, the parts are joined in camel case. Names of goals, invariants and measures are Rattle's and stay.
It prints each name that it leaves since the new spelling would fall together with another name.
"""

import os
import re
import sys

TOKEN = re.compile(r"[^\s(){}\[\];,.\u00b7\u2237\"\u00ab\u00bb\u231c\u231d|@]+")
DECLARED = re.compile(r"^\s*(?:(?:abbrev|unfoldable|pub|data|record|ruleset)\s+)*([^\s:(){},=]+)((?:\s+(?:\([^)]*\)|\{[^}]*\}))*)\s*:\s*(.*)$")
MADE = ("goal.",)
STEP = re.compile(r"(?<![\w'.-])[cw]\.$")
STEPS = ("in-", "if-", "loop-", "match-")
GOALS = re.compile(r"^(returns|loop|invariant|decreases|overflow|bounds|slice-bounds|offset-bounds|ghost)-|-requires(-|$)")


def texts(root):
    for folder, dirs, files in os.walk(os.path.join(root, "crates")):
        dirs[:] = sorted(d for d in dirs if d not in ("out", ".git"))
        for f in sorted(files):
            if f.endswith((".rt", ".antt")):
                yield os.path.join(folder, f)


def read(path):
    with open(path, encoding="utf-8") as f:
        return f.read()


def is_answers(path):
    return os.path.basename(path) in ("Answers.antt", "Invariants.antt", "Choices.antt", "Proof.antt")


def declared(path, text):
    """The names that a file of specs/ or proofs/ declares."""
    for line in text.splitlines():
        if line.lstrip().startswith("--"):
            continue
        m = DECLARED.match(line)
        if not m:
            continue
        name, sort = m[1], m[3]
        if is_answers(path) and (sort.startswith(MADE) or GOALS.search(name) or not sort):
            continue
        yield name


def respelled(name):
    if name[0].isupper():
        parts = name.split("-")
        return parts[0] + "".join(p[:1].upper() + p[1:] for p in parts[1:])
    return name.replace("-", "_")


def own_modules(root):
    return set(os.listdir(os.path.join(root, "crates")))


def foreign(text, crates):
    """The names that a file imports from outside the repository."""
    for m in re.finditer(r"\buse\s+([\w.]+)\.\{([^}]*)\}", text):
        path = m[1].split(".")
        if path[0] == "Rattle" and len(path) > 1 and path[1] in crates:
            continue
        for item in m[2].split(","):
            words = item.split()
            if words:
                yield words[0]


def code_spans(text, is_rt):
    """The text in pieces: (piece, may it be respelled). Comments stay, and strings of source files."""
    pattern = r'//[^\n]*|"(?:\\.|[^"\\])*"' if is_rt else r"--(?=\s)[^\n]*"
    at = 0
    for m in re.finditer(pattern, text):
        yield text[at : m.start()], True
        yield m[0], False
        at = m.end()
    yield text[at:], True


def spelled(m, piece, renamed):
    """A name as it is spelled now; the name of a step of a function's code, as c.in-4, is Rattle's and stays."""
    if m[0].startswith(STEPS) and STEP.search(piece[max(0, m.start() - 3) : m.start()]):
        return m[0]
    return renamed.get(m[0], m[0])


def main():
    root = "."
    files = {p: read(p) for p in texts(root)}
    crates = own_modules(root)
    names, used, outside = set(), set(), set()
    for path, text in files.items():
        if path.endswith(".antt"):
            names.update(n for n in declared(path, text) if "-" in n and re.fullmatch(r"[A-Za-z][\w'-]*", n))
        outside.update(foreign(text, crates))
        if path.endswith(".antt"):
            for piece, may in code_spans(text, False):
                if may:
                    used.update(m[0] for m in TOKEN.finditer(piece) if piece[m.start() - 1 : m.start()] != ".")
    renamed = {}
    for name in sorted(names):
        to = respelled(name)
        if name in outside:
            print(f"left: {name}: a file imports that name from outside")
        elif to in used or to in outside or to in renamed.values():
            print(f"left: {name}: {to} is another name")
        else:
            renamed[name] = to
    changed = 0
    for path, text in files.items():
        out = []
        for piece, may in code_spans(text, path.endswith(".rt")):
            out.append(TOKEN.sub(lambda m: spelled(m, piece, renamed), piece) if may else piece)
        new = "".join(out)
        if new != text:
            with open(path, "w", encoding="utf-8") as f:
                f.write(new)
            changed += 1
    print(f"{len(renamed)} names respelled in {changed} files")


if __name__ == "__main__":
    sys.exit(main())
