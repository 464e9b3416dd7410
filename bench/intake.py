#!/usr/bin/env python3
"""The time of the command intake in mode crew over four files, beside that of batch over these joined.

    bench/intake.py [--runs N] [--esa PROGRAM]

The data is made here: submissions of form One whose envelopes are bytes that a generator draws, 65,536 lines a file. The
runs are interleaved, and the least time of each command counts, in seconds of the clock, so a busy machine changes it. Both
outputs have to be the same bytes. It ends with 1 where the target doesn't hold.
"""

import argparse
import json
import os
import random
import subprocess
import tempfile
import time

from measure import program, settle

FILES, LINES, LENGTH = 4, 65_536, 176
LIMIT = 0.6


def main():
    words = argparse.ArgumentParser()
    words.add_argument("--runs", type=int, default=15)
    words.add_argument("--esa")
    asked = words.parse_args()
    esa = os.path.abspath(asked.esa) if asked.esa else program("esa")
    with tempfile.TemporaryDirectory() as folder:
        make(folder)
        times = {"intake": [], "batch": []}
        for _ in range(asked.runs):
            for command, spent in times.items():
                spent.append(seconds_of([esa, command, f"{command}.json"], folder))
        if held(folder, "intake") != held(folder, "batch"):
            raise SystemExit("intake and batch wrote different batches")
    intake, batch = (min(spent) for spent in times.values())
    print(f"{FILES} files of {LINES} lines: intake {1_000 * intake:.0f} ms, batch {1_000 * batch:.0f} ms")
    settle([("intake by a crew, time of batch", intake / batch, LIMIT)])


def make(folder):
    """Writes the files of submissions, the same joined, and the jobs."""
    draws = random.Random(1)
    names = [f"submissions{number}" for number in range(1, FILES + 1)]
    with open(os.path.join(folder, "joined"), "wb") as joined:
        for name in names:
            text = b"".join(b"1\tm\t%s\n" % draws.randbytes(LENGTH).hex().encode() for _ in range(LINES))
            joined.write(text)
            with open(os.path.join(folder, name), "wb") as file:
                file.write(text)
    jobs = {
        "intake": {"inputs": names, "output": "intake", "m": 1, "mode": "crew"},
        "batch": {"input": "joined", "output": "batch", "m": 1},
    }
    for command, job in jobs.items():
        with open(os.path.join(folder, f"{command}.json"), "w") as file:
            json.dump(job, file)


def held(folder, name):
    """The bytes of a file."""
    with open(os.path.join(folder, name), "rb") as file:
        return file.read()


def seconds_of(command, folder):
    """The clock's time for one run of a command, which must end with status 0."""
    begun = time.monotonic()
    subprocess.run(command, cwd=folder, check=True, stdout=subprocess.DEVNULL)
    return time.monotonic() - begun


if __name__ == "__main__":
    main()
