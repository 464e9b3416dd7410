#!/usr/bin/env python3
"""Looks for keys in all that the program writes: each file, each printed line, and the external memory.

    hostile/keys.py [--esa PROGRAM]

Every command of stage.py runs in one folder. Looked for is each master of its keys, the masters of the epoch, and the
keys of cipher and tag that are derived from them for each label, worked out by Python's HMAC: every eight bytes that
stand in one, as bytes and as sixteen hexadecimal digits of either case. That the search finds what is there is tried on
the keys files. Prints for each command what was searched.
"""

import hmac
import json
import os
import struct
import tempfile

from stage import DEVICE, STEPS, arguments, call, files_of, prepare, program_of, settle

PIECE = 8
EPOCH = 7
LABELS = [b"inner", b"outer", b"block"]


def mac(key, text):
    """HMAC-SHA-256."""
    return hmac.new(key, text, "sha256").digest()


def secrets_of(rings):
    """Each key that a command has in memory, by its name."""
    masters = {f"{place} {name}": bytes.fromhex(digits) for place, ring in enumerate(rings) for name, digits in ring.items()}
    masters |= {f"{name} of the epoch": mac(master, b"epoch:" + struct.pack(">I", EPOCH)) for name, master in masters.items()}
    derived = {f"{name}, {use}{label}": mac(master, use + label) for name, master in masters.items()
               for use in [b"enc:", b"mac:"] for label in LABELS}
    return masters | derived


def pieces_of(secrets):
    """Each piece of a key, as bytes and as digits, with the key's name."""
    pieces = {}
    for name, key in secrets.items():
        for at in range(len(key) - PIECE + 1):
            pieces[key[at:at + PIECE]] = name
    digits = {piece.hex().encode(): name for piece, name in pieces.items()}
    return pieces, digits


def found_in(data, pieces, digits):
    """The names of the keys of which a piece stands in the data."""
    found = {pieces[data[at:at + PIECE]] for at in range(len(data) - PIECE + 1) if data[at:at + PIECE] in pieces}
    lower = data.lower()
    return found | {digits[lower[at:at + 2 * PIECE]] for at in range(len(lower) - 2 * PIECE + 1) if lower[at:at + 2 * PIECE] in digits}


def main():
    esa = program_of(arguments(__doc__).parse_args())
    wrong = []
    with tempfile.TemporaryDirectory() as folder:
        prepare(folder)
        before = files_of(folder)
        rings = [json.loads(before[name]) for name in ["keys.json", "demo_keys.json"]]
        pieces, digits = pieces_of(secrets_of(rings))
        for place, name in enumerate(["keys.json", "demo_keys.json"]):
            found = found_in(before[name], pieces, digits)
            wrong += [f"the search misses {key} in {name}" for key in rings[place] if f"{place} {key}" not in found]
        print(f"{len(pieces)} pieces of keys. Searched, in bytes:")
        for command, job, _ in STEPS:
            status, printed = call(esa, folder, command, job)
            wrong += [f"{command} {job}.json ended with status {status}"] if status else []
            after = files_of(folder)
            made = {name: data for name, data in after.items() if before.get(name) != data}
            for name, data in {**made, "its lines": printed}.items():
                wrong += [f"{command} {job}.json: {key} stands in {name}" for key in found_in(data, pieces, digits)]
            print(f"  {command:<10} {job + '.json':<15}", ", ".join(f"{name} {len(data)}" for name, data in {**made, "lines": printed}.items()), flush=True)
            before = after
        wrong += [] if DEVICE in before else [f"there is no {DEVICE}"]
    settle(wrong)


if __name__ == "__main__":
    main()
