#!/usr/bin/env python3
"""What the command run costs, from files to files, beside the bare hash and keystream over its envelopes and blocks.

Reports are made by gen, sealed by encode and gathered by batch, and run shuffles and counts the batch with the sizes that
docs/SIZING.md has for so many records, in one attempt on one thread, over its device file. The bare work is SHA-256 and
the keystream of the bytes of each access, which are sealed or opened once; for each record what opens its outer
envelope, four blocks of SHA-256 and three of the keystream, and what opens its inner one, three and one; and for the
threshold three blocks of SHA-256 a record. Keys are prepared once. Instructions are callgrind's, so a busy machine
changes nothing. Each access is to be one pread64 or pwrite64.
"""

import argparse
import json
import os
import re
import subprocess
import tempfile

from measure import instructions, peak_memory, program, settle

# Records, and the sizes for as many.
SIZES = {
    10_000: {"b": 16, "c": 52, "s": 300, "k": 60, "w": 3, "q": 2_400},
    262_144: {"b": 64, "c": 80, "s": 1_000, "k": 80, "w": 3, "q": 14_500},
}
KEYS = {name: (bytes([place]) * 32).hex() for place, name in enumerate(["outer", "inner", "drop", "run"])}
SEED = "5f" * 32
ENVELOPE, ITEM, SEAL = 176, 137, 40
LIMIT, GROWTH = 1.2, 1.3
UNIT = 640_000


def main():
    words = argparse.ArgumentParser()
    words.add_argument("--esa", help="a built program, in place of one that is built here")
    words.add_argument("--bench", help="likewise esa_bench_blocks")
    asked = words.parse_args()
    esa = os.path.abspath(asked.esa) if asked.esa else program("esa")
    bench = os.path.abspath(asked.bench) if asked.bench else program("esa_bench_blocks")
    targets, each = [], {}
    print(f"{'records':>8} {'instructions':>13} {'a record':>9} {'of bare':>8} {'accesses':>9} {'calls':>6} {'peak':>6}", flush=True)
    with tempfile.TemporaryDirectory() as folder:
        block = instructions([bench, "hash", str(UNIT)], folder) / UNIT
        word = instructions([bench, "keystream", str(UNIT)], folder) / UNIT
        for records, sizes in SIZES.items():
            accesses = prepare(esa, folder, records, sizes)
            done = instructions([esa, "run", "run.json"], folder)
            bare = bare_of(records, sizes, block, word)
            calls = calls_of([esa, "run", "run.json"], folder)
            peak = peak_memory([esa, "run", "run.json"], folder)
            each[records] = done / records
            print(f"{records:>8} {done:>13} {done / records:>9.0f} {done / bare:>8.2f} {accesses:>9} {calls:>6} {peak / 2**20:>6.1f}", flush=True)
            targets.append((f"run of {records} records, instructions of bare", done / bare, LIMIT))
            targets.append((f"run of {records} records, calls of the device file for an access", calls / accesses, 1.0))
    small, large = SIZES
    targets.append((f"run, instructions a record at {large} of those at {small}", each[large] / each[small], GROWTH))
    settle(targets)


def prepare(esa, folder, records, sizes):
    """Makes the batch and the job of a run, runs it once, and answers how many accesses it made."""
    jobs = {
        "keys": KEYS,
        "gen": {"output": "reports", "number": 0, "records": records, "crowds": 40},
        "encode": {"keys": "keys.json", "input": "reports", "output": "submissions", "nonce_base": 0},
        "batch": {"input": "submissions", "output": "batch", "m": 1},
        "run": {"keys": "keys.json", "input": "batch", "output": "database", "seed": SEED, **sizes,
                "workers": 1, "attempts": 1, "m": 1, "t": 1, "mode": "turns"},
    }
    for name, fields in jobs.items():
        with open(os.path.join(folder, f"{name}.json"), "w") as file:
            json.dump(fields, file)
    said = ""
    for command in ["gen", "encode", "batch", "run"]:
        said = subprocess.run([esa, command, f"{command}.json"], cwd=folder, check=True, capture_output=True, text=True).stdout
    return int(re.search(r"accesses (\d+)", said).group(1))


def bare_of(records, sizes, block, word):
    """The instructions of the hash and of the keystream over what a run of one attempt seals and opens."""
    b, c, k = sizes["b"], sizes["c"], sizes["k"]
    inputs = records * ENVELOPE + b * SEAL
    chunks = b * b * (c * ITEM + SEAL)
    tails = b * (k * ITEM + SEAL)
    outputs = records * ITEM + b * SEAL
    moved = 2 * inputs + 2 * chunks + 2 * tails + 3 * outputs
    hashed = moved / 64 + records * (4 + 3 + 3)
    streamed = moved / 4 + records * 16 * (3 + 1)
    return hashed * block + streamed * word


def calls_of(command, folder):
    """How many blocks a command reads and writes in its device file, by the calls that the system saw."""
    log = os.path.join(folder, "calls")
    subprocess.run(["strace", "-y", "-e", "trace=pread64,pwrite64", "-o", log, *command], cwd=folder, check=True, stdout=subprocess.DEVNULL)
    with open(log) as file:
        return sum("esa-device.bin" in line for line in file)


if __name__ == "__main__":
    main()
