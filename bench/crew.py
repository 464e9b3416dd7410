#!/usr/bin/env python3
"""How much faster a crew distributes the records of a run than one thread, and where the time of a run goes.

    bench/crew.py [--esa PROGRAM] [--runs N]

Made up reports of 100,000 records in 40 crowds are sealed and gathered, and run shuffles and counts the batch in 32
buckets, by the turns of one worker on one thread, and in mode crew by 1, 4, 8 and 16 workers. Each run has to print the
same line and to write the same database. A preloaded library (clock.c) notes when each access began and ended, and its
region says of which phase it is: the load of the input, the distribution, the drain and the compression, and the two
scans. A phase lasts from the end of the last access before it to that of its own last one; what comes before the first
access and behind the last is told apart. The runs are interleaved, and the least time of each kind counts.

Wanted: by four workers on four processors the distribution takes at most 0.4 times what it takes on one thread; by
sixteen no longer than by four; and by a crew of one, which has the lock and the history alone more, at most 1.02 times.
With fewer processors than four the first isn't asked.
"""

import argparse
import json
import os
import subprocess
import tempfile

from measure import program, settle

CLOCK = os.path.join(os.path.dirname(os.path.abspath(__file__)), "clock.c")
RECORDS, RUNS = 100_000, 15
SIZES = {"b": 32, "c": 144, "s": 20_000, "k": 512, "w": 16, "q": 100_000, "attempts": 4}
ACCESSES = 2_272
SAID = f"ok attempt 0 records {RECORDS} forwarded {RECORDS} rows 7 unopened 0 accesses {ACCESSES}\n"
KEYS = {name: (bytes([place]) * 32).hex() for place, name in enumerate(["outer", "inner", "drop", "run"])}
KINDS = {"one thread": ("turns", 1), "crew of 1": ("crew", 1), "crew of 4": ("crew", 4), "crew of 8": ("crew", 8),
         "crew of 16": ("crew", 16)}
PHASES = ["before", "load", "distribution", "compression", "scans", "behind"]
FASTER, NO_SLOWER, LOCK = 0.4, 1.05, 1.02
# The kinds of access of a trace by phase: an operation and a region.
PHASE_OF = {(1, 0): "load", (0, 0): "distribution", (1, 1): "distribution", (1, 2): "compression",
            (0, 1): "compression", (0, 2): "compression", (1, 3): "compression", (0, 3): "scans"}


def main():
    words = argparse.ArgumentParser()
    words.add_argument("--esa", help="a built program, in place of one that is built here")
    words.add_argument("--runs", type=int, default=RUNS)
    asked = words.parse_args()
    esa = os.path.abspath(asked.esa) if asked.esa else program("esa")
    with tempfile.TemporaryDirectory() as folder:
        clock = os.path.join(folder, "clock.so")
        subprocess.run(["cc", "-O2", "-shared", "-fPIC", "-o", clock, CLOCK, "-ldl"], check=True)
        prepare(esa, folder)
        least = {kind: dict.fromkeys([*PHASES, "whole"], float("inf")) for kind in KINDS}
        databases = set()
        for _ in range(asked.runs):
            for kind in KINDS:
                for phase, seconds in phases_of(esa, clock, folder, kind).items():
                    least[kind][phase] = min(least[kind][phase], seconds)
                with open(os.path.join(folder, "database"), "rb") as file:
                    databases.add(file.read())
    if len(databases) != 1:
        raise SystemExit("the runs wrote different databases")
    print(f"{'milliseconds':<12}", *(f"{phase:>13}" for phase in [*PHASES, "whole"]))
    for kind, times in least.items():
        print(f"{kind:<12}", *(f"{1_000 * times[phase]:>13.1f}" for phase in [*PHASES, "whole"]))
    ratio = lambda kind, other: least[kind]["distribution"] / least[other]["distribution"]
    targets = [("crew of 16, distribution of that of a crew of 4", ratio("crew of 16", "crew of 4"), NO_SLOWER),
               ("crew of 1, distribution of that on one thread", ratio("crew of 1", "one thread"), LOCK)]
    faster = ratio("crew of 4", "one thread")
    if len(os.sched_getaffinity(0)) >= 4:
        targets.insert(0, ("crew of 4, distribution of that on one thread", faster, FASTER))
    else:
        print(f"with fewer than four processors: crew of 4, distribution of that on one thread: {faster:.3f}")
    settle(targets)


def prepare(esa, folder):
    """Makes the batch and a job for each kind of run."""
    jobs = {
        "keys": KEYS,
        "gen": {"output": "reports", "number": 2, "records": RECORDS, "crowds": 40},
        "encode": {"keys": "keys.json", "input": "reports", "output": "submissions", "nonce_base": 0},
        "batch": {"input": "submissions", "output": "batch", "m": 1_000},
    }
    run = {"keys": "keys.json", "input": "batch", "output": "database", "trace": "trace", "seed": "0" * 64, "m": 1_000,
           "t": 10}
    for kind, (mode, workers) in KINDS.items():
        jobs[kind] = {**run, **SIZES, "mode": mode, "workers": workers}
    for name, fields in jobs.items():
        with open(os.path.join(folder, f"{name}.json"), "w") as file:
            json.dump(fields, file)
    for command in ["gen", "encode", "batch"]:
        subprocess.run([esa, command, f"{command}.json"], cwd=folder, check=True, stdout=subprocess.DEVNULL)


def phases_of(esa, clock, folder, kind):
    """The seconds of each phase of a run, by the times of its accesses and the regions of the trace that it wrote."""
    log = os.path.join(folder, "clock")
    noted = {**os.environ, "LD_PRELOAD": clock, "CLOCK": log}
    command = [esa, "run", f"{kind}.json"]
    run = subprocess.run(command, cwd=folder, check=True, capture_output=True, text=True, env=noted)
    if run.stdout != SAID:
        raise SystemExit(f"{kind} printed {run.stdout!r}")
    with open(os.path.join(folder, "trace"), "rb") as file:
        trace = file.read()[9:]
    phases = [PHASE_OF[trace[at], trace[at + 1]] for at in range(0, len(trace), 19)]
    with open(log) as file:
        (began, *_), *calls, (ended, *_) = [[int(word) for word in line.split()] for line in file]
    device = max(set(fd for *_, fd in calls), key=[fd for *_, fd in calls].count)
    accesses = [(begin, end) for begin, end, fd in calls if fd == device]
    if len(accesses) != len(phases):
        raise SystemExit(f"{kind} made {len(accesses)} calls for {len(phases)} accesses")
    times, last = dict.fromkeys(PHASES, 0), accesses[0][0]
    for phase, (_, end) in zip(phases, accesses):
        times[phase] += end - last
        last = end
    times.update(before=accesses[0][0] - began, behind=ended - last, whole=ended - began)
    return {phase: time / 1e9 for phase, time in times.items()}


if __name__ == "__main__":
    main()
