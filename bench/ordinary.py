#!/usr/bin/env python3
"""gen, encode, batch and analyse beside ordinary Rust, file to file.

bench/ordinary.rs says what the other program is. The data is made here: reports by gen; submissions by encode, in an
order that a generator draws, since they reach a shuffler in any; and a forward file of the inner envelopes, which the
yardstick opens. Both programs get the same files, and what they write must agree byte for byte.

Fifteen runs of each program in turn, and the least time of each counts, of the processor's own (user and system), so
that other work on the machine counts as little as may be. Beside it stand the instructions, as callgrind counts them
once, and the peaks of memory. Time swings with the machine and instructions don't, so each limit is asked of both. What
a record takes at the large size is compared with the small one by instructions, and by time beside ordinary Rust, whose
time for a record grows with its files as well. The script says of each limit whether it holds, and ends with status 1
where one doesn't.
"""

import argparse
import hashlib
import json
import os
import random
import resource
import subprocess
import tempfile

from measure import instructions, peak_memory, program, settle

HERE = os.path.dirname(os.path.abspath(__file__))
SIZES = [100_000, 262_144]
RUNS = 15

# What is wanted: of the time and the instructions of ordinary Rust; and of the instructions for a record at the small size
# those at the large one, and of the share of ordinary Rust's time at the small size that at the large one.
LIMITS = {"gen": 0.999, "encode": 1.0, "batch": 1.0, "analyse": 1.0}
GROWTH = 1.15

KEYS = {"outer": bytes(range(32)).hex(), "inner": bytes(range(32, 64)).hex()}


def main():
    words = argparse.ArgumentParser()
    words.add_argument("--runs", type=int, default=RUNS)
    words.add_argument("--esa", help="a built program, in place of one that is built here")
    asked = words.parse_args()
    esa = os.path.abspath(asked.esa) if asked.esa else program("esa")
    targets, shares, each = [], {}, {}
    with tempfile.TemporaryDirectory() as folder:
        ordinary = os.path.join(folder, "ordinary")
        subprocess.run(["rustc", "--edition", "2021", "-C", "opt-level=3", "-C", "target-cpu=x86-64-v2", "-o", ordinary, os.path.join(HERE, "ordinary.rs")], check=True)
        print(f"{'command':>8} {'records':>8} {'seconds':>8} {'of ordinary':>11} {'instructions':>12} {'of ordinary':>11} {'peak, of ordinary':>17}", flush=True)
        for size in SIZES:
            for command, pair in commands(esa, ordinary, folder, size):
                ratio, counted, executed = compared(command, size, pair, folder, asked.runs)
                targets.append((f"{command} of {size}, time of ordinary Rust", ratio, LIMITS[command]))
                targets.append((f"{command} of {size}, instructions of ordinary Rust", counted, LIMITS[command]))
                shares[command, size], each[command, size] = ratio, executed / size
    small, large = SIZES
    for command in LIMITS:
        targets.append((f"{command}, instructions for a record at {large} of those at {small}", each[command, large] / each[command, small], GROWTH))
        targets.append((f"{command}, share of ordinary Rust's time at {large} of that at {small}", shares[command, large] / shares[command, small], GROWTH))
    settle(targets)


def commands(esa, ordinary, folder, size):
    """Each command with its two command lines and the file that each writes. Those before it must have been run."""
    write(folder, "keys.json", KEYS)
    jobs = {
        "gen": {"output": "reports", "number": 0, "records": size, "crowds": 40},
        "encode": {"keys": "keys.json", "input": "reports", "output": "submissions", "nonce_base": 0},
        "batch": {"input": "shuffled", "output": "batch", "m": 1},
        "analyse": {"keys": "keys.json", "input": "forward", "output": "database"},
    }
    for command, fields in jobs.items():
        write(folder, f"{command}.json", fields)
    others = {
        "gen": ["0", str(size), "40"],
        "encode": [KEYS["outer"], KEYS["inner"], "0"],
        "batch": ["1"],
        "analyse": [KEYS["inner"]],
    }
    for command, fields in jobs.items():
        if command == "batch":
            shuffle_lines(folder, "submissions", "shuffled")
        if command == "analyse":
            subprocess.run([ordinary, "forward", "batch", "forward", KEYS["outer"]], cwd=folder, check=True, stdout=subprocess.DEVNULL)
        output = fields["output"]
        inputs = [fields["input"]] if "input" in fields else []
        yield command, [
            ([esa, command, f"{command}.json"], output),
            ([ordinary, command, *inputs, f"ordinary-{output}", *others[command]], f"ordinary-{output}"),
        ]


def compared(command, size, pair, folder, runs):
    """Prints one row of the table, and answers the ratios of times and of instructions, and the instructions of esa."""
    times = [[], []]
    for _ in range(runs):
        for place, (line, _) in enumerate(pair):
            times[place].append(seconds_of(line, folder))
    if len({digest(folder, output) for _, output in pair}) != 1:
        raise SystemExit(f"{command} of {size}: the two programs wrote different files")
    mine, theirs = (min(of) for of in times)
    counts = [instructions(line, folder) for line, _ in pair]
    peaks = [peak_memory(line, folder) for line, _ in pair]
    print(f"{command:>8} {size:>8} {mine:>8.4f} {mine / theirs:>11.2f} {counts[0]:>12} {counts[0] / counts[1]:>11.2f}"
          f" {peaks[0] / 2**20:>8.1f} {peaks[0] / peaks[1]:>8.2f}", flush=True)
    return mine / theirs, counts[0] / counts[1], counts[0]


def seconds_of(line, folder):
    """The processor's time for one run of a command, which must end with status 0."""
    before = resource.getrusage(resource.RUSAGE_CHILDREN)
    subprocess.run(line, cwd=folder, check=True, stdout=subprocess.DEVNULL)
    after = resource.getrusage(resource.RUSAGE_CHILDREN)
    return after.ru_utime - before.ru_utime + after.ru_stime - before.ru_stime


def shuffle_lines(folder, name, into):
    """Writes the lines of a file in another order, the same at every run."""
    with open(os.path.join(folder, name), "rb") as file:
        lines = file.readlines()
    random.Random(1).shuffle(lines)
    with open(os.path.join(folder, into), "wb") as file:
        file.writelines(lines)


def write(folder, name, fields):
    """Writes a JSON file."""
    with open(os.path.join(folder, name), "w") as file:
        json.dump(fields, file)


def digest(folder, name):
    """The SHA-256 of a file."""
    with open(os.path.join(folder, name), "rb") as file:
        return hashlib.sha256(file.read()).hexdigest()


if __name__ == "__main__":
    main()
