#!/usr/bin/env python3
"""Measures the turnstile beside an ordinary ticket lock in Rust.

One thread's enter and leave, and two and four threads that work a microsecond inside and ten outside.
The runs of both are interleaved, and the least time of each counts. On a busy machine give it --realtime, which
runs both ahead of everything else for a few seconds, and needs the right to do so."""

import os
import subprocess
import sys
import tempfile

import measure

ONE_TURNS = 1_000_000
ONE_RUNS = 15
CREW_SECONDS = 0.2
CREW_RUNS = 9
AHEAD = ["chrt", "-f", "50"] if "--realtime" in sys.argv[1:] else []


def nanoseconds(command):
    run = subprocess.run([*AHEAD, *(str(word) for word in command)], stdout=subprocess.PIPE, stderr=subprocess.DEVNULL, text=True)
    if run.returncode != 0:
        raise SystemExit(f"{command} ended with status {run.returncode}")
    return int(run.stdout)


def least(commands, runs):
    """The least time of each command, of so many runs of all in turn."""
    times = [[] for _ in commands]
    for _ in range(runs):
        for place, command in enumerate(commands):
            times[place].append(nanoseconds(command))
    return [min(one) for one in times]


def steps_of(command, wanted):
    """How many steps of work take so many nanoseconds."""
    steps = 2_000_000
    return max(1, round(steps * wanted / min(nanoseconds([*command, steps, 0, 0, 0]) for _ in range(7))))


def main():
    here = os.path.dirname(os.path.abspath(__file__))
    with tempfile.TemporaryDirectory() as folder:
        lock = os.path.join(folder, "ticket_lock")
        subprocess.run(["rustc", "--edition", "2021", "-O", "-o", lock, os.path.join(here, "ticket_lock.rs")], check=True)
        rust = [lock]
        ours = [measure.program("esa_bench_turnstile")]

        theirs, mine = least([[*rust, ONE_TURNS, 1, 0, 0], [*ours, ONE_TURNS, 1, 0, 0]], ONE_RUNS)
        print(f"one thread: {mine / ONE_TURNS:.1f} ns a turn, the ticket lock {theirs / ONE_TURNS:.1f} ns, "
              f"{mine / theirs:.2f} times its time (at most 3)")

        work = [(steps_of(one, 1_000), steps_of(one, 10_000)) for one in (rust, ours)]
        turns = int(CREW_SECONDS * 1e9 / 11_000)
        for threads in (2, 4):
            if threads > (os.cpu_count() or 1):
                continue
            theirs, mine = least([[*one, turns, threads, *steps] for one, steps in zip((rust, ours), work)], CREW_RUNS)
            print(f"{threads} threads: {threads * turns * 1e9 / mine:.0f} turns a second, the ticket lock "
                  f"{threads * turns * 1e9 / theirs:.0f}, {theirs / mine:.2f} of its throughput (at least 0.8)")


if __name__ == "__main__":
    main()
