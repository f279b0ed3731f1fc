#!/usr/bin/env python3
"""Writes the kind of a bounded length by its parameter in clauses: `kind` to `L.kind`.

usage: python3 tools/name_kind.py      at the top of the repository, after snake_names.py

In the crate of the kinds themselves the trait's own text keeps the plain name.
"""
import os
import re

CLAUSE = re.compile(r"^\s*(ensures|requires|ghost (?!use))")
KIND = re.compile(r"(?<![\w.'-])kind(?![\w'-])")


def main():
    for folder, dirs, names in os.walk("crates"):
        dirs[:] = [d for d in dirs if d not in ("out", "lengths")]
        for name in names:
            if not name.endswith(".rt"):
                continue
            path = os.path.join(folder, name)
            with open(path, encoding="utf-8") as f:
                text = f.read()
            lines = [KIND.sub("L.kind", line) if CLAUSE.match(line) else line for line in text.split("\n")]
            if "\n".join(lines) != text:
                with open(path, "w", encoding="utf-8") as f:
                    f.write("\n".join(lines))


main()
