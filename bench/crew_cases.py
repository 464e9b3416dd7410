#!/usr/bin/env python3
"""Runs three settings by crews over the machine's files, and hands the turns that each stored in again.

    bench/crew_cases.py [--runs N] [--esa PROGRAM]

The settings are 2,000 records in 40 crowds by four workers in eight buckets, the same with targets that are drawn by
separators, each time from another seed, and 100,000 records in 40 crowds by eight workers in 32 buckets. Of each the
commands run and shuffle are made in mode crew, which has to print the line below whatever the schedule, and run to
write the database of all values in crowds that are large enough, as it is counted here from the reports. Then the
command is made again in mode turns, with the turns file that the crew left: its lines, its output and its trace have to
be the same, byte for byte, and the turns that it stores a front of the crew's, which have more behind the last access.

It says how often each setting was made, and ends with 1 where something differs.
"""

import argparse
import json
import os
import random
import subprocess
import tempfile
from collections import Counter

from measure import program

KEYS = {name: (bytes([place]) * 32).hex() for place, name in enumerate(["outer", "inner", "drop", "run"])}
ZEROS = "0" * 64
LEAST, CROWDS, T = 1_000, 40, 10
SMALL = {"b": 8, "q": 2_000, "workers": 4, "attempts": 4}
SETTINGS = {
    "four workers": {"number": 1, "records": 2_000, "accesses": 184, "seed": ZEROS,
                     "sizes": {**SMALL, "c": 48, "s": 400, "k": 64, "w": 4}},
    "separators": {"number": 1, "records": 2_000, "accesses": 184, "seed": None,
                   "sizes": {**SMALL, "c": 250, "s": 0, "k": 0, "w": 8, "draw": "separators"}},
    "many records": {"number": 2, "records": 100_000, "accesses": 2_272, "seed": ZEROS,
                     "sizes": {"b": 32, "c": 144, "s": 20_000, "k": 512, "w": 16, "q": 100_000, "workers": 8,
                               "attempts": 4}},
}


def call(esa, folder, command, name, fields):
    """Runs a command over a job, and answers its status and what it printed."""
    with open(os.path.join(folder, f"{name}.json"), "w") as file:
        json.dump(fields, file)
    done = subprocess.run([esa, command, f"{name}.json"], cwd=folder, capture_output=True, text=True)
    return done.returncode, done.stdout


def held(folder, name):
    with open(os.path.join(folder, name), "rb") as file:
        return file.read()


def batch(esa, folder, setting):
    """Makes the batch of a setting, and answers how many values and how many different ones large enough crowds have."""
    steps = [
        ("gen", {"output": "reports", "number": setting["number"], "records": setting["records"], "crowds": CROWDS}),
        ("encode", {"keys": "keys.json", "input": "reports", "output": "submissions", "nonce_base": 0}),
        ("batch", {"input": "submissions", "output": "batch", "m": LEAST}),
    ]
    for command, fields in steps:
        status, said = call(esa, folder, command, command, fields)
        if status:
            raise SystemExit(f"{command} ended with status {status}: {said}")
    reports = [line.split(b"\t") for line in held(folder, "reports").split(b"\n")[:-1]]
    crowds = Counter(crowd for _, _, crowd, _ in reports)
    return Counter(value for _, _, crowd, value in reports if crowds[crowd] >= T)


def database(values):
    """The database of these values: how many there are of each, in the order of their bytes."""
    rows = b"".join(bytes([len(value)]) + value + number.to_bytes(4, "big") for value, number in sorted(values.items()))
    return b"ESAD\x01" + len(values).to_bytes(4, "big") + bytes(4) + rows


def differences(esa, folder, setting, command, said, values):
    """Runs a setting by a crew, and again with its turns; answers what differs."""
    seed = setting["seed"] or random.randbytes(32).hex()
    job = {"keys": "keys.json", "input": "batch", "m": LEAST, "t": T, "seed": seed, **setting["sizes"]}
    crew = call(esa, folder, command, "crew", {
        **job, "output": "output", "trace": "trace", "turns_out": "turns", "mode": "crew"})
    if crew != (0, said):
        return [f"the crew ended with status {crew[0]} and printed {crew[1]!r}"]
    wrong = []
    again = call(esa, folder, command, "again", {
        **job, "output": "output_again", "trace": "trace_again", "turns": "turns", "turns_out": "turns_again",
        "mode": "turns"})
    if again != crew:
        return [f"with its turns it ended with status {again[0]} and printed {again[1]!r}"]
    for name in ["output", "trace"]:
        if held(folder, name) != held(folder, f"{name}_again"):
            wrong.append(f"with its turns it writes another {name}")
    if not held(folder, "turns").startswith(held(folder, "turns_again")):
        wrong.append("with its turns it stores others")
    if command == "run" and held(folder, "output") != database(values):
        wrong.append("the database isn't that of the reports")
    return wrong


def main():
    words = argparse.ArgumentParser()
    words.add_argument("--runs", type=int, default=10)
    words.add_argument("--esa", help="a built program, in place of one that is built here")
    asked = words.parse_args()
    esa = os.path.abspath(asked.esa) if asked.esa else program("esa")
    failed = False
    for name, setting in SETTINGS.items():
        with tempfile.TemporaryDirectory() as folder:
            with open(os.path.join(folder, "keys.json"), "w") as file:
                json.dump(KEYS, file)
            values = batch(esa, folder, setting)
            records, forwarded = setting["records"], values.total()
            line = f"ok attempt 0 records {records} forwarded {forwarded}"
            accesses = f" accesses {setting['accesses']}\n"
            said = {"run": f"{line} rows {len(values)} unopened 0{accesses}", "shuffle": f"{line}{accesses}"}
            for number in range(asked.runs):
                for command in ["run", "shuffle"]:
                    for wrong in differences(esa, folder, setting, command, said[command], values):
                        failed = True
                        print(f"{name}, {command} {number}: {wrong}", flush=True)
        print(f"{name}: {asked.runs} runs and {asked.runs} shuffles, {line}{accesses}", end="", flush=True)
    if failed:
        raise SystemExit(1)


if __name__ == "__main__":
    main()
