#!/usr/bin/env python3
"""Gives the fact that is defined by recursion over a list a name that is not the library's own: `AllByRecursion as Every`.

usage: python3 tools/name_all.py      at the top of the repository, after snake_names.py
"""
import os
import re

ALL = re.compile(r"(?<![\w'.-])All(?![\w'-])")


def main():
    for folder, dirs, names in os.walk("crates"):
        dirs[:] = [d for d in dirs if d != "out"]
        for name in names:
            path = os.path.join(folder, name)
            if not name.endswith((".antt", ".rt")):
                continue
            with open(path, encoding="utf-8") as f:
                text = f.read()
            if "AllByRecursion as All" not in text:
                continue
            mark = "--" if name.endswith(".antt") else "//"
            lines = []
            for line in text.split("\n"):
                code, comment, rest = line.partition(mark)
                lines.append(ALL.sub("Every", code) + comment + rest)
            with open(path, "w", encoding="utf-8") as f:
                f.write("\n".join(lines))


main()
