#!/usr/bin/env python3
"""Copies a crate and those below it to a folder, with their lines of crates.txt, and leaves out their edits.

    demo/copy.py CRATE FOLDER
"""
import os, shutil, sys

if len(sys.argv) != 3:
    sys.exit(__doc__)
top = os.path.join(os.path.dirname(os.path.abspath(__file__)), "..")
with open(os.path.join(top, "crates.txt"), encoding="utf-8") as file:
    lines = {line.split(":")[0].split()[0]: line for line in file if ":" in line.partition("#")[0]}
names, left = [], [sys.argv[1]]
while left:
    name = left.pop()
    if name in lines and name not in names:
        names.append(name)
        left += lines[name].partition("#")[0].split(":")[1].split()
for name in names:
    shutil.copytree(os.path.join(top, "crates", name), os.path.join(sys.argv[2], "crates", name),
                    ignore=shutil.ignore_patterns("out", "must-fail", "more-edits"))
shutil.copy(os.path.join(top, "HANDLES"), sys.argv[2])
with open(os.path.join(sys.argv[2], "crates.txt"), "w", encoding="utf-8") as file:
    file.writelines(lines[name] for name in names)
