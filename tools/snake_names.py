#!/usr/bin/env python3
"""Spells the definitions and lemmas of this repository in snake case, as Rattle's own library does.

usage: python3 tools/snake_names.py            at the top of the repository, after port.py, once

A name is turned where it begins in lower case and has a capital further on, as refusalOf: it becomes refusal_of.
A dash joins two names, and each is turned by itself. A capital behind an underscore or a dash stays: it names a fact.
It turns .antt files, the clauses, comments and imports of .rt files, and the .edit files below crates/.
It says which new names a file had before, since they could fall together.
"""

import os
import re

WORD = re.compile(r"[A-Za-z_](?:[\w']|-(?=[A-Za-z_]))*")
STRING = re.compile(r'b?"(?:[^"\\]|\\.)*"')
SPECIAL = {"getD": "get_or"}
# constructors and fields of specs/, which take no dash
WHOLE = {"one-of-four", "open-both", "done-both", "same-moves", "moves-ok", "same-avail"}


def turned_part(part):
    if part in SPECIAL:
        return SPECIAL[part]
    if not re.match(r"[a-z]", part):
        return part
    part = re.sub(r"(?<=[a-z0-9])([A-Z])(?=[a-z])", lambda m: "_" + m.group(1).lower(), part)
    return re.sub(r"(?<=[a-z0-9])([A-Z]+)(?![a-z])", lambda m: "_" + m.group(1).lower(), part)


def turned(word):
    if word in WHOLE:
        return word.replace("-", "_")
    return "-".join(turned_part(p) for p in word.split("-"))


def turn_text(text):
    """The text with its names turned, strings of the code left alone."""
    out, at = [], 0
    for m in STRING.finditer(text):
        out += [WORD.sub(lambda w: turned(w.group(0)), text[at : m.start()]), m.group(0)]
        at = m.end()
    return "".join(out + [WORD.sub(lambda w: turned(w.group(0)), text[at:])])


def turn_lines(text):
    """Line by line, so that a quotation mark in a comment does not reach further."""
    return "".join(turn_text(line) for line in text.splitlines(keepends=True))


def main():
    for folder, dirs, files in os.walk("crates"):
        dirs[:] = sorted(d for d in dirs if d != "out")
        for name in sorted(files):
            if not name.endswith((".antt", ".rt", ".edit")):
                continue
            path = os.path.join(folder, name)
            with open(path, encoding="utf-8") as f:
                old = f.read()
            new = turn_lines(old)
            if new == old:
                continue
            before = set(WORD.findall(old))
            for word in sorted(w for w in before if turned(w) != w and turned(w) in before):
                print(f"look: {path}: {word} becomes {turned(word)}, which stands there already")
            with open(path, "w", encoding="utf-8") as f:
                f.write(new)


if __name__ == "__main__":
    main()
