#!/usr/bin/env python3
"""Prints the definitions that contracts rest on: each file of specs/ that they cite, and those that it cites in turn.

    bench/definitions.py [FILE..]     as crates/esa_cli/src/top.rt, which it takes where none is named

It prints a line for each crate, with the lines of its files and their names, and at the end how many there are of both.
What the kit's library states isn't among them, nor are the types that src/ declares.
"""

import os
import re
import sys

TOP = os.path.dirname(os.path.dirname(os.path.abspath(__file__)))
CITED = re.compile(r"^\s*(?:pub |ghost )*use Rattle\.(esa\w*)\.specs\.([\w.]+)", re.M)


def file_of(crate, path):
    """The file of specs/ that a path leads into, if it is one: the last names of it may be those of a definition."""
    names = path.rstrip(".").split(".")
    for count in range(len(names), 0, -1):
        file = os.path.join("crates", crate, "specs", *names[:count]) + ".antt"
        if os.path.exists(os.path.join(TOP, file)):
            return file
    return None


def text_of(file):
    with open(os.path.join(TOP, file), encoding="utf-8") as opened:
        return opened.read()


def main():
    left, found = sys.argv[1:] or ["crates/esa_cli/src/top.rt"], {}
    while left:
        text = text_of(left.pop())
        for file in {file_of(*cited) for cited in CITED.findall(text)} - {None, *found}:
            found[file] = text_of(file).count("\n")
            left.append(file)
    crates = {}
    for file in sorted(found):
        crates.setdefault(file.split("/")[1], []).append(file)
    for crate, files in crates.items():
        names = " ".join(file.split("/specs/")[1].removesuffix(".antt") for file in files)
        print(f"{crate}: {sum(found[file] for file in files)} lines: {names}")
    print(f"{len(found)} files, {sum(found.values())} lines")


if __name__ == "__main__":
    main()
