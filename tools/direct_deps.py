#!/usr/bin/env python3
"""Leaves in crates.txt only the crates that each crate names itself, in src/, specs/ or proofs/.

usage: python3 tools/direct_deps.py            at the top of the repository

A crate that is reached only through another one need not be listed, and rt goes over every listed line at every level.
"""

import os
import re


def texts(crate):
    for part in ("src", "specs", "proofs"):
        for folder, _, files in os.walk(os.path.join("crates", crate, part)):
            for name in files:
                if name.endswith((".rt", ".antt")):
                    with open(os.path.join(folder, name), encoding="utf-8") as f:
                        yield f.read()


def named(crate, dep):
    path = re.compile(rf"(?<![\w.:]){dep}::|\buse {dep}[;:]|\bRattle\.{dep}\.")
    return any(path.search(t) for t in texts(crate))


def main():
    with open("crates.txt", encoding="utf-8") as f:
        lines = f.read().split("\n")
    out = []
    for line in lines:
        head, colon, rest = line.partition(":")
        if line.startswith("#") or not colon:
            out.append(line)
            continue
        crate = head.split()[0]
        deps = [d for d in rest.split() if named(crate, d)]
        out.append(f"{head}:{''.join(' ' + d for d in deps)}")
    with open("crates.txt", "w", encoding="utf-8") as f:
        f.write("\n".join(out))


if __name__ == "__main__":
    main()
