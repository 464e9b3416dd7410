#!/usr/bin/env python3
"""What a forecast costs, beside a bare loop that appends as many accesses to a reserved list and does one addition for
each record of each attempt, to the number of places of its target.

Each is run once and three times, and half of what the three executed more is counted, so that what is made before
doesn't count. Instructions are callgrind's, so that a busy machine changes nothing. It counts each byte of a long copy by
the processor's one instruction for it, so the C library is told not to use that.

A forecast may execute at most four times the bare loop's instructions. It is linear where an access or a record costs as
much with sixteen attempts as with one. It takes no memory where the peak is the same after three forecasts as after one.
The script says of each target whether it holds, and ends with status 1 where one doesn't.
"""

import os
import subprocess
import tempfile

from measure import instructions, peak_memory, program, settle

# The shuffles: how many records each has, and with how many attempts it is forecast.
SHAPES = [("256 buckets", 0, 16_384, [1, 2, 4, 8, 16]), ("32 buckets", 1, 100_000, [1])]

# What is wanted: instructions beside the bare loop's, those for an access or a record with the most attempts beside those
# with the fewest, and the peak of memory after three forecasts beside that after one.
RATIO, GROWTH, MEMORY = 4, 1.1, 1.02


def main():
    os.environ["GLIBC_TUNABLES"] = "glibc.cpu.x86_rep_movsb_threshold=268435456"
    bench = program("esa_bench_shuffle")
    print(f"{'shuffle':>12} {'attempts':>8} {'accesses':>9} {'records':>8} {'instructions':>13} {'of bare':>8} {'memory':>7}", flush=True)
    targets = []
    with tempfile.TemporaryDirectory() as folder:
        for name, shape, records, attempts in SHAPES:
            rows = {number: measure(bench, folder, name, shape, records, number) for number in attempts}
            targets += judged(name, rows)
    settle(targets)


def measure(bench, folder, name, shape, records, attempts):
    """Prints one row of the table, and answers the instructions for an access or a record, those of a forecast beside the
    bare loop's, and the peak of memory after three forecasts beside that after one."""
    def command(runs, bare):
        return [bench, "forecast", str(shape), str(attempts), str(runs), str(bare)]

    def each(bare):
        return (instructions(command(3, bare), folder) - instructions(command(1, bare), folder)) / 2

    accesses = count(command(1, 0))
    if accesses != count(command(1, 1)):
        raise SystemExit("the bare loop appends another number of accesses")
    forecast, bare = each(0), each(1)
    memory = peak_memory(command(3, 0), folder) / peak_memory(command(1, 0), folder)
    print(f"{name:>12} {attempts:>8} {accesses:>9} {records * attempts:>8} {forecast:>13.0f} {forecast / bare:>8.2f} {memory:>7.2f}", flush=True)
    return forecast / (accesses + records * attempts), forecast / bare, memory


def judged(name, rows):
    """The targets of one shuffle: what is measured, what was found, and the most that it may be."""
    for number, (_, ratio, memory) in rows.items():
        yield f"{name}, {number} attempts, instructions of bare", ratio, RATIO
        yield f"{name}, {number} attempts, memory after three forecasts of that after one", memory, MEMORY
    fewest, most = min(rows), max(rows)
    if fewest < most:
        yield f"{name}, instructions for an access or a record with {most} attempts of those with {fewest}", rows[most][0] / rows[fewest][0], GROWTH


def count(command):
    """The number of accesses that a command prints."""
    return int(subprocess.run(command, capture_output=True, text=True, check=True).stdout.split()[0])


if __name__ == "__main__":
    main()
