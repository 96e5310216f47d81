#!/usr/bin/env python3
"""Brings the repository's own names in specs/ and proofs/ to one spelling: words in snake case, facts in upper camel case.

usage: python3 tools/snake_names.py [--dry]     at the top of the repository

A name counts as the repository's own if a file of specs/ or proofs/ gives it a signature, or a `use` an alias; names that the
check makes (the goals of an answer file) keep theirs. Functions of src/, strings and comments are not touched. Names that would
fall together with another one in the same crate are printed, and nothing is written then.
"""

import os
import re
import sys

TOKEN = re.compile(r"[^\s(){}\[\];,.«»\"·]+")
SIGNATURE = re.compile(r"^\s*(?:(?:pub|abbrev|unfoldable|record|data|package)\s+)*([^\s(){}\[\];,.:]+)\s*(?:\{[^}]*\}\s*|\([^)]*\)\s*)*:\s*(\S+)?")
ALIAS = re.compile(r"\bas\s+([^\s(){}\[\];,.]+)")
# Names that meet a function or a label of their crate. A definition may have its function's name, a lemma gets an ending.
APART = {
    "absolute-sum": "absolute_sum",
    "figures-hold": "figures_hold_lem",
    "in-range": "is_in_range",
    "laws-have-cases": "laws_have_cases_lem",
    "layer-number": "layer_number",
    "reading-or-zero": "reading_or_zero",
    "verdict-law": "verdict_law_lem",
}
MADE = re.compile(r"^(goal|goals|need|needs|given|row)\.")


def files(*endings):
    for folder, dirs, names in os.walk("crates"):
        dirs[:] = sorted(d for d in dirs if d != "out")
        for n in sorted(names):
            if n.endswith(endings):
                yield os.path.join(folder, n)


def read(path):
    with open(path, encoding="utf-8") as f:
        return f.read()


def turned(name):
    if name in APART:
        return APART[name]
    if name[0].isupper():
        return "".join(part[:1].upper() + part[1:] for part in name.split("-"))
    return name.replace("-", "_")


def own():
    names = set()
    for path in files(".antt"):
        for line in read(path).splitlines():
            code = line.split("--")[0] if line.lstrip().startswith("--") else line
            m = SIGNATURE.match(code)
            if m and "-" in m[1] and not MADE.match(m[2] or "") and not m[1].startswith("-"):
                names.add(m[1])
            if re.match(r"\s*(pub )?use ", code):
                names.update(a for a in ALIAS.findall(code) if "-" in a)
    for path in files(".rt"):
        for line in read(path).splitlines():
            if line.startswith("ghost use"):
                names.update(a for a in ALIAS.findall(line) if "-" in a)
    return {n: turned(n) for n in names}


def comment(path, line):
    if path.endswith(".antt"):
        return line.lstrip().startswith("--")
    return line.lstrip().startswith("//")


def rewritten(path, text, names):
    """Each token of the text outside comments and strings that is one of the names, in its new spelling."""
    out = []
    for line in text.split("\n"):
        if comment(path, line):
            out.append(line)
            continue
        parts = line.split('"')
        for i in range(0, len(parts), 2):
            parts[i] = TOKEN.sub(lambda m: names.get(m[0], m[0]), parts[i])
        out.append('"'.join(parts))
    return "\n".join(out)


def fallen(names):
    """Names whose new spelling is already a word of a crate that uses them."""
    found = []
    by_crate = {}
    for path in files(".antt", ".rt"):
        crate = path.split(os.sep)[1]
        words = by_crate.setdefault(crate, {})
        for line in read(path).split("\n"):
            if not comment(path, line):
                for t in TOKEN.findall(line):
                    words.setdefault(t, path)
    new = {}
    for old, to in sorted(names.items()):
        if to in new:
            found.append((old, new[to], "both turn to " + to))
        new[to] = old
        if old in APART:
            continue
        for crate, words in by_crate.items():
            if old in words and to in words:
                found.append((old, to, f"{words[old]} and {words[to]}"))
    return found


def main():
    names = own()
    together = fallen(names)
    for old, to, where in together:
        print(f"{old} falls together with {to}: {where}")
    if "--dry" in sys.argv:
        print(f"{len(names)} names: " + " ".join(sorted(names)))
        return 0
    if together and "--anyway" not in sys.argv:
        return 1
    for path in files(".antt", ".rt", ".edit"):
        text = read(path)
        new = rewritten(path, text, names)
        if new != text:
            with open(path, "w", encoding="utf-8") as f:
                f.write(new)
    print(f"{len(names)} names turned")
    return 0


sys.exit(main())
