#!/usr/bin/env python3
"""Gives each command files as long as they may be, and a byte longer.

    hostile/limits.py [--esa PROGRAM]

A file at its limit has to be read, and refused for what it holds: it is zero bytes behind a beginning, sparse on the disk.
One byte more has to be refused as `large ROLE`. No file may be changed or made. Prints a line for each.
"""

import json
import os
import tempfile

from stage import KEYS, SHUFFLE, arguments, call, program_of, put, settle

SMALL, MIDDLE, LARGE, LARGEST = 65_536, 16_777_216, 134_217_728, 268_435_456
NAMES = {"keys": "keys.json", "input": "input", "output": "output"}
TURNED = {**SHUFFLE, "records": 4, "turns": "turns"}
DROPPED = {**NAMES, **SHUFFLE, "drops": "drops", "m": 1, "t": 1}
COINED = {"records": 4, "coins": "coins", **{name: value for name, value in SHUFFLE.items() if name != "seed"}}

# The command, its job, the role of the file, its name, its limit, how it begins, and what it is refused as at its limit.
ROWS = [
    ("analyse", None, "job", "job.json", SMALL, b"{}", "job job"),
    ("analyse", NAMES, "keys", "keys.json", SMALL, b"{}", "keys keys"),
    ("run", DROPPED, "drops", "drops", SMALL, b"0\n", "drops 2"),
    ("plan", TURNED, "turns", "turns", MIDDLE, b"0\n", "turns 2"),
    ("plan", COINED, "coins", "coins", MIDDLE, b"{}", "coins shape"),
    ("encode", {**NAMES, "nonce_base": 0}, "input", "input", LARGE, b"", "line 1 missing-field"),
    ("batch", {"input": "input", "output": "output", "m": 1}, "input", "input", LARGEST, b"", "line 1 missing-field"),
    ("intake", {"inputs": ["input"], "output": "output", "m": 1, "mode": "turns"}, "input", "input", LARGEST, b"", "file 1 line 1 missing-field"),
    ("run", {**NAMES, **SHUFFLE, "m": 1, "t": 1}, "input", "input", LARGE, bytes.fromhex("45534142010000000000b0"), "batch trailing"),
    ("analyse", NAMES, "input", "input", LARGE, bytes.fromhex("4553414601000000000068"), "forward trailing"),
    ("histogram", {"input": "input"}, "input", "input", LARGE, bytes.fromhex("45534144010000000000000000"), "database trailing"),
    ("upgrade", NAMES, "input", "input", LARGE, bytes.fromhex("45534144010000000000000000"), "database trailing"),
    ("recover", NAMES, "input", "input", LARGE, bytes.fromhex("45534144010000000000000000"), "database trailing"),
]


def make(folder, name, begin, length):
    """Makes a file of zero bytes behind a beginning."""
    with open(os.path.join(folder, name), "wb") as file:
        file.write(begin)
        file.truncate(length)


def main():
    esa = program_of(arguments(__doc__).parse_args())
    wrong = []
    for command, job, role, name, limit, begin, refusal in ROWS:
        with tempfile.TemporaryDirectory() as folder:
            put(folder, "keys.json", json.dumps(KEYS))
            put(folder, "drops", "0\n" * 256)
            put(folder, "job.json", json.dumps(job))
            for length, text in [(limit, refusal), (limit + 1, f"large {role}")]:
                make(folder, name, begin, length)
                names = sorted(os.listdir(folder))
                answer = call(esa, folder, command, "job")
                as_it_was = sorted(os.listdir(folder)) == names and os.path.getsize(os.path.join(folder, name)) == length
                if answer != (3, f"refused: {text}\n".encode()) or not as_it_was:
                    wrong.append(f"{command}, {role} of {length} bytes: {answer}")
                print(f"{command:<10} {role:<6} {length:>11} {answer[1].decode().strip()}", flush=True)
    settle(wrong)


if __name__ == "__main__":
    main()
