#!/usr/bin/env python3
"""Runs small jobs in mode crew over the machine's files, and holds each to the turns that it stored.

    bench/crews.py [--runs N] [--seed X] [--load N] [--esa PROGRAM]

Each of two thousand jobs has 2 to 16 workers, its own sizes, a batch of made up reports and up to three attempts. Its
run has to end, with status 0, or with 1 where each attempt failed. Then, with the turns file that it wrote, `plan` has
to give its trace, and `run` in mode `turns` the same status, lines, database and trace, byte for byte. A crew's attempt
ends with a turn of each worker that found no bucket left, so the turns that `run` stores are fewer, and not compared.
With `--load` so many processes keep the processors busy meanwhile.

It says how many runs ended how, in how many the workers' turns lie among one another, and how long the longest took. It
ends with 1 where one differs. A run that takes longer than a minute is taken for one that doesn't end.
"""

import argparse
import json
import os
import random
import subprocess
import sys
import tempfile
import time

from measure import program

KEYS = {name: (bytes([place]) * 32).hex() for place, name in enumerate(["outer", "inner", "drop", "run"])}
RECORDS = [1, 2, 5, 12, 40, 100]
ENDED, FAILED = 0, 1
LONGEST = 60


def sizes_of(dice, records):
    """Sizes for as many records: mostly with enough room for them, and at times tight, so that attempts fail."""
    b = dice.randint(2, 8)
    share = -(-records // b)
    tight = dice.random() < 0.3
    c = max(1, share // 2 if tight else share)
    s = dice.randint(0, 3) if tight else records + 1
    k = dice.randint(0, 2) if tight else share + 1
    w = dice.randint(1, b)
    return {"b": b, "c": c, "s": s, "k": k, "w": w, "q": b * c + k + w * share}


def call(esa, folder, command, name, fields):
    """Runs a command over a job, and answers its status and what it printed."""
    with open(os.path.join(folder, f"{name}.json"), "w") as file:
        json.dump(fields, file)
    done = subprocess.run([esa, command, f"{name}.json"], cwd=folder, capture_output=True, text=True, timeout=LONGEST)
    return done.returncode, done.stdout


def held(folder, name):
    """The bytes of a file, or none where it isn't there."""
    try:
        with open(os.path.join(folder, name), "rb") as file:
            return file.read()
    except FileNotFoundError:
        return None


def batches(esa, folder):
    """Makes a batch of each number of records."""
    for records in RECORDS:
        steps = [
            ("gen", {"output": "reports", "number": 0, "records": records, "crowds": 3}),
            ("encode", {"keys": "keys.json", "input": "reports", "output": "submissions", "nonce_base": 0}),
            ("batch", {"input": "submissions", "output": f"batch{records}", "m": 1}),
        ]
        for command, fields in steps:
            status, said = call(esa, folder, command, command, fields)
            if status:
                raise SystemExit(f"{command} of {records} records ended with status {status}: {said}")


def clear(folder, names):
    """Takes away what an earlier job wrote."""
    for name in names:
        if os.path.exists(os.path.join(folder, name)):
            os.remove(os.path.join(folder, name))


def is_shared_out(turns):
    """Whether some worker had a turn, then another one, and then the first again, in one attempt."""
    blocks = []
    for one, other in zip([b"next", *turns], turns):
        if other == b"next":
            blocks = []
        elif one != other:
            if other in blocks:
                return True
            blocks.append(other)
    return False


def differences(esa, folder, dice):
    """Runs a job in mode crew, and what its turns give; answers how it ended, its turns, its time and what differs."""
    records = dice.choice(RECORDS)
    shared = {**sizes_of(dice, records), "seed": dice.randbytes(32).hex(), "workers": dice.randint(2, 16),
              "attempts": dice.randint(1, 3)}
    job = {"keys": "keys.json", "input": f"batch{records}", "m": 1, "t": 1, **shared}
    clear(folder, ["database", "trace", "turns", "planned", "again", "trace_again", "turns_again"])
    begun = time.monotonic()
    status, said = call(esa, folder, "run", "crew", {
        **job, "output": "database", "trace": "trace", "turns_out": "turns", "mode": "crew"})
    took = time.monotonic() - begun
    if status not in (ENDED, FAILED):
        return status, [], took, [f"the crew ended with status {status}: {said}"], shared
    wrong = []
    turns = held(folder, "turns").split(b"\n")[:-1]
    planned = call(esa, folder, "plan", "plan", {
        **shared, "records": records, "turns": "turns", "trace": "planned", "mode": "turns"})
    if planned[0]:
        wrong.append(f"plan ended with status {planned[0]}: {planned[1]}")
    elif held(folder, "planned") != held(folder, "trace"):
        wrong.append("plan gives another trace")
    again = call(esa, folder, "run", "again", {
        **job, "output": "again", "trace": "trace_again", "turns": "turns", "turns_out": "turns_again",
        "mode": "turns"})
    if again != (status, said):
        wrong.append(f"run ended with status {again[0]} and printed {again[1]!r}, the crew {status} and {said!r}")
    for one, other in [("database", "again"), ("trace", "trace_again")]:
        if held(folder, one) != held(folder, other):
            wrong.append(f"run writes another {one}")
    return status, turns, took, wrong, shared


def main():
    words = argparse.ArgumentParser()
    words.add_argument("--runs", type=int, default=2000)
    words.add_argument("--seed", type=int, default=21)
    words.add_argument("--load", type=int, default=0)
    words.add_argument("--esa", help="a built program, in place of one that is built here")
    asked = words.parse_args()
    esa = os.path.abspath(asked.esa) if asked.esa else program("esa")
    dice = random.Random(asked.seed)
    busy = [subprocess.Popen([sys.executable, "-c", "while True: pass"]) for _ in range(asked.load)]
    ended, shared_out, longest, failed = {ENDED: 0, FAILED: 0}, 0, 0.0, False
    try:
        with tempfile.TemporaryDirectory() as folder:
            with open(os.path.join(folder, "keys.json"), "w") as file:
                json.dump(KEYS, file)
            batches(esa, folder)
            for number in range(asked.runs):
                status, turns, took, wrong, sizes = differences(esa, folder, dice)
                ended[status] = ended.get(status, 0) + 1
                longest = max(longest, took)
                shared_out += is_shared_out(turns)
                for line in wrong:
                    failed = True
                    print(f"run {number} of {sizes}: {line}", flush=True)
    finally:
        for process in busy:
            process.kill()
    print(f"{asked.runs} runs by crews: {ended[ENDED]} ended well, {ended[FAILED]} failed in each attempt")
    print(f"in {shared_out} turns of several workers lie among one another; the longest took {longest:.2f} s")
    if failed:
        raise SystemExit(1)


if __name__ == "__main__":
    main()
