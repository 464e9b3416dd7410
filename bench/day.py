#!/usr/bin/env python3
"""What a day's batch takes: for each command, at several numbers of records, its time, its memory and the files.

    bench/day.py [--esa PROGRAM] [--times X]

Reports are made by gen, sealed by encode, gathered by batch, shuffled and counted by run with the sizes of docs/SIZING.md,
and printed by histogram, all in form One. A time is the least of some runs, in seconds of the clock, so it says little on
a busy machine; memory is the most that the process had at once. It measures and has no limits. docs/OPERATING.md has its
table.
"""

import argparse
import json
import os
import subprocess
import tempfile
import time

from measure import peak_memory, program

# Records, and the sizes of a shuffle of as many.
SIZES = {
    1_000: {"b": 8, "c": 24, "s": 120, "k": 40, "w": 3, "q": 600},
    10_000: {"b": 16, "c": 52, "s": 300, "k": 60, "w": 3, "q": 2_400},
    100_000: {"b": 32, "c": 120, "s": 600, "k": 90, "w": 3, "q": 11_000},
    262_144: {"b": 64, "c": 80, "s": 1_000, "k": 80, "w": 3, "q": 14_500},
}
KEYS = {name: (bytes([place]) * 32).hex() for place, name in enumerate(["outer", "inner", "drop", "run"])}
FILES = ["reports", "submissions", "batch", "esa-device.bin", "database"]


def jobs_of(records, sizes):
    """The jobs, in the order of their commands."""
    return {
        "gen": {"output": "reports", "number": 0, "records": records, "crowds": 40},
        "encode": {"keys": "keys.json", "input": "reports", "output": "submissions", "nonce_base": 0},
        "batch": {"input": "submissions", "output": "batch", "m": 1},
        "run": {"keys": "keys.json", "input": "batch", "output": "database", "seed": "5f" * 32, **sizes,
                "workers": 1, "attempts": 4, "m": 1, "t": 10, "mode": "turns"},
        "histogram": {"input": "database"},
    }


def cost(command, folder, times):
    """The least time of some runs, and the most memory of one."""
    peak, taken = peak_memory(command, folder), []
    for _ in range(times):
        begun = time.monotonic()
        subprocess.run(command, cwd=folder, check=True, stdout=subprocess.DEVNULL)
        taken.append(time.monotonic() - begun)
    return min(taken), peak


def main():
    words = argparse.ArgumentParser(description=__doc__.splitlines()[0])
    words.add_argument("--esa", help="a built program, in place of one that is built here")
    words.add_argument("--times", type=int, default=3, help="how often each command is run for its time")
    asked = words.parse_args()
    esa = os.path.abspath(asked.esa) if asked.esa else program("esa")
    print("| Records | Command | Seconds | Memory, MiB |")
    print("|---:|---|---:|---:|")
    lengths = {}
    for records, sizes in SIZES.items():
        with tempfile.TemporaryDirectory() as folder:
            jobs = jobs_of(records, sizes)
            for name, fields in {"keys": KEYS, **jobs}.items():
                with open(os.path.join(folder, f"{name}.json"), "w", encoding="utf-8") as file:
                    json.dump(fields, file)
            for command in jobs:
                seconds, peak = cost([esa, command, f"{command}.json"], folder, asked.times)
                print(f"| {records:,} | {command} | {seconds:.2f} | {peak / 2**20:.0f} |", flush=True)
            lengths[records] = [os.path.getsize(os.path.join(folder, name)) for name in FILES]
    print(f"\n| Records | {' | '.join(f'{name}, MB' for name in FILES)} |")
    print("|---:" * (len(FILES) + 1) + "|")
    for records, row in lengths.items():
        print(f"| {records:,} | {' | '.join(f'{length / 1e6:.1f}' for length in row)} |")


if __name__ == "__main__":
    main()
