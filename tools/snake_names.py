#!/usr/bin/env python3
"""Spells the repository's own definitions and lemmas in snake case, as `grid-kind` to `grid_kind`.

usage: python3 tools/snake_names.py      at the top of the repository, once, after the kit's port.py

Names of the library and of what the check generates keep their dashes, and so do strings, comments, inputs and outputs.
It says which new names stood in the same file already.
"""
import os
import re

TOKEN = re.compile(r"[^\W\d][\w'′]*(?:-[\w'′]+)+")
DEFINES = re.compile(
    r"\s*(?:abbrev |unfoldable |pub |record |data |mod )*([^\s:(){}.]+)((?: [^\s:(){}.]+)*)(?: \(.*)? :\s"
)
ALIAS = re.compile(r"\bas ([a-z]\w*(?:-\w+)+)")
ANSWERS = re.compile(r"/proofs/.+/(Answers|Invariants|Proof)\.antt$")
USE = re.compile(r"^use Rattle\.(std|borrow|core)|^use (borrow|denote|mathlib|lib|native|Prim)", re.M)


def files(ending):
    for folder, dirs, names in os.walk("crates"):
        dirs[:] = sorted(d for d in dirs if d != "out")
        for name in sorted(names):
            if name.endswith(ending):
                yield os.path.join(folder, name)


def read(path):
    with open(path, encoding="utf-8") as f:
        return f.read()


def without_comments(text):
    return re.sub(r"--.*", "", text)


def imported(text):
    """The names that a file takes from the library."""
    names = set()
    for line in text.split("\n"):
        if USE.match(line):
            names.update(TOKEN.findall(line))
    return names


def own_names():
    own = set()
    for path in files(".antt"):
        text = without_comments(read(path))
        for line in text.split("\n"):
            own.update(ALIAS.findall(line))
            if ANSWERS.search(path):
                continue
            found = DEFINES.match(line)
            if found:
                own.update(n for n in (found.group(1) + found.group(2)).split() if TOKEN.fullmatch(n))
    for path in files(".rt"):
        for line in read(path).split("\n"):
            if line.startswith("ghost use"):
                own.update(ALIAS.findall(line))
    return own


def snake(name):
    return name.replace("-", "_").replace("′", "'")


def turn(line, names):
    """One line, its comment left as it is."""
    code, mark, comment = line.partition("--")
    return TOKEN.sub(lambda m: snake(m.group()) if m.group() in names else m.group(), code) + mark + comment


def turn_source(text, names):
    """A source file: comments and lines with strings are left as they are."""
    lines = []
    for line in text.split("\n"):
        if line.strip().startswith("//") or '"' in line:
            lines.append(line)
        else:
            lines.append(TOKEN.sub(lambda m: snake(m.group()) if m.group() in names else m.group(), line))
    return "\n".join(lines)


def main():
    own = own_names()
    for path in list(files(".antt")) + list(files(".rt")):
        text = read(path)
        if path.endswith(".rt"):
            new = turn_source(text, own)
        else:
            theirs = imported(text)
            names = own - theirs
            if not ANSWERS.search(path):
                names = (own | set(TOKEN.findall(without_comments(text)))) - theirs
            new = "\n".join(turn(line, names) for line in text.split("\n"))
            words = set(re.findall(r"[^\W\d][\w'-]*", without_comments(text)))
            for name in sorted(names):
                if name in words and snake(name) in words:
                    print(f"{path}: {name} and {snake(name)} fall together")
        if new != text:
            with open(path, "w", encoding="utf-8") as f:
                f.write(new)


main()
