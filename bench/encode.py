#!/usr/bin/env python3
"""What encode costs, beside the library's bare hash, keystream and hexadecimal digits over as many blocks and bytes.

A report of form One, with a crowd's name of at most 55 bytes, costs eight blocks of SHA-256 beyond the keys, which are
prepared once: one for the crowd's id, three for the inner tag and four for the outer. It takes 200 bytes of keystream,
64 for its report and 136 for the outer text, and 352 digits. Instructions are callgrind's, so that a busy machine
changes nothing. The reports are those that gen makes.
"""

import json
import os
import tempfile

from measure import SIZES, instructions, peak_memory, program, settle, targets_of

KEYS = {"outer": bytes(range(32)).hex(), "inner": bytes(range(32, 64)).hex()}


def main():
    esa, bench, blocks = program("esa"), program("esa_bench_records"), program("esa_bench_blocks")
    print(f"{'reports':>8} {'instructions':>14} {'each':>7} {'of bare':>8} {'digits each':>11} {'by text':>8} {'peak of files':>13}", flush=True)
    with tempfile.TemporaryDirectory() as folder:
        write(folder, "keys.json", KEYS)
        write(folder, "encode.json", {"keys": "keys.json", "input": "reports", "output": "submissions", "nonce_base": 0})
        rows = {size: measure(esa, bench, blocks, folder, size) for size in SIZES}
    settle(targets_of("encode", rows))


def write(folder, name, fields):
    """Writes a JSON file."""
    with open(os.path.join(folder, name), "w") as file:
        json.dump(fields, file)


def measure(esa, bench, blocks, folder, size):
    """Prints one row of the table, and answers the instructions a report, and those and the peak beside what they are measured by."""
    write(folder, "gen.json", {"output": "reports", "number": 0, "records": size, "crowds": 40})
    peak_memory([esa, "gen", "gen.json"], folder)
    command = [esa, "encode", "encode.json"]
    count = instructions(command, folder)
    nothing = instructions([bench, "digits-slice", "0"], folder)
    digits = instructions([bench, "digits-slice", str(size)], folder)
    text = instructions([bench, "digits-text", str(size)], folder)
    bare = digits + instructions([blocks, "hash", str(8 * size)], folder) + instructions([blocks, "keystream", str(50 * size)], folder)
    files = sum(os.path.getsize(os.path.join(folder, name)) for name in ["reports", "submissions"])
    peak = peak_memory(command, folder) / files
    print(f"{size:>8} {count:>14} {count / size:>7.0f} {count / bare:>8.2f} {(digits - nothing) / size:>11.0f}"
          f" {(text - nothing) / size:>8.0f} {peak:>13.2f}", flush=True)
    return count / size, count / bare, peak


if __name__ == "__main__":
    main()
