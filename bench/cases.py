#!/usr/bin/env python3
"""Says which files of worked cases no run reads, since crates/esa_cases/args doesn't name them, and which aren't there.

    bench/cases.py

The status is 1 if there is one, or if a file is named twice.
"""

import os

CASES = os.path.join(os.path.dirname(os.path.dirname(os.path.abspath(__file__))), "crates", "esa_cases")


def main():
    with open(os.path.join(CASES, "args"), encoding="utf-8") as args:
        named = args.read().split("\n")[:-1]
    there = sorted(os.listdir(os.path.join(CASES, "data")))
    wrong = [f"{name} isn't read: args doesn't name it" for name in there if name not in named]
    wrong += [f"{name} is named and isn't there" for name in named if name not in there]
    wrong += [f"{name} is named more than once" for name in sorted(set(named)) if named.count(name) > 1]
    print("\n".join(wrong) or f"all {len(there)} files of cases are read")
    return 1 if wrong else 0


if __name__ == "__main__":
    raise SystemExit(main())
