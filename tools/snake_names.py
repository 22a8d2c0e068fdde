#!/usr/bin/env python3
"""Brings this repository's own definitions and lemmas to snake case: usage: tools/snake_names.py, at the top, once, right after the kit's port.py.

In specs/ and proofs/ every lower camel name, also as a part between dashes, becomes snake case (`elementAt`, `elementAt-length`); so do the same names in the clauses and
comments of src/, in must-fail edits, and between backticks in README.md and docs/. Types, modules, constructors and functions of src/ keep their names. Three lemmas
whose names would fall together with a definition's get `_lem`.
"""

import os
import re

NAME = re.compile(r"(?<![A-Za-z0-9_'])([a-z][a-z0-9]*(?:[A-Z][A-Za-z0-9]*)+)(?![A-Za-z0-9_])")
STRING = re.compile(r'b?"(?:[^"\\\n]|\\.)*"')
# the lemmas that meet a definition's new name
LEMMAS = {"crates/rules/": "same_outcome", "crates/case_text/": "byte_next", "crates/case_script/": "left_over"}


def snake(name):
    return re.sub(r"(?<=[a-z0-9])([A-Z])", lambda m: "_" + m[1].lower(), name)


def files(top, ending):
    for folder, dirs, names in os.walk(top):
        dirs[:] = sorted(d for d in dirs if d != "out")
        for name in sorted(names):
            if name.endswith(ending):
                yield os.path.join(folder, name)


def read(path):
    with open(path, encoding="utf-8") as f:
        return f.read()


def write(path, old, new):
    if new != old:
        with open(path, "w", encoding="utf-8") as f:
            f.write(new)


def outside_strings(text, change):
    out, at = [], 0
    for m in STRING.finditer(text):
        out += [change(text[at : m.start()]), m[0]]
        at = m.end()
    return "".join(out + [change(text[at:])])


def main():
    names = set()
    for path in files("crates", ".antt"):
        names |= set(NAME.findall(STRING.sub("", re.sub(r"--.*", "", read(path)))))
    change = lambda text: NAME.sub(lambda m: snake(m[1]) if m[1] in names else m[1], text)
    for path in files("crates", ".antt"):
        old = new = read(path)
        for crate, lemma in LEMMAS.items():
            if path.startswith(crate):
                new = re.sub(r"(?<![A-Za-z0-9_'.-])" + lemma + r"(?![A-Za-z0-9_'-])", lemma + "_lem", new)
        write(path, old, outside_strings(new, change))
    for path in files("crates", ".rt"):
        old = read(path)
        write(path, old, outside_strings(old, change))
    for path in files("crates", ".edit"):
        old = read(path)
        write(path, old, change(old))
    for path in ["README.md", *files("docs", ".md")]:
        old = read(path)
        write(path, old, re.sub(r"`[^`\n]+`", lambda m: change(m[0]), old))
    print(f"{len(names)} names")


main()
