#!/usr/bin/env python3
"""What batch costs, beside the bare hex decoding and std's bare sort of the same envelopes.

Instructions are callgrind's, so that a busy machine changes nothing. The data is made here, by esa_bench_records: submissions
of form One whose envelopes are bytes that a generator draws.
"""

import os
import tempfile

from measure import SIZES, instructions, peak_memory, program, settle, targets_of


def main():
    esa, bench = program("esa"), program("esa_bench_records")
    print(f"{'records':>8} {'instructions':>14} {'each':>7} {'of bare':>8} {'peak of input and output':>24}", flush=True)
    with tempfile.TemporaryDirectory() as folder:
        with open(os.path.join(folder, "job.json"), "w") as file:
            file.write('{"input": "submissions.txt", "output": "batch", "m": 1}')
        rows = {size: measure(esa, bench, folder, size) for size in SIZES}
    settle(targets_of("batch", rows))


def measure(esa, bench, folder, size):
    """Prints one row of the table, and answers the instructions a record, and those and the peak beside what they are measured by."""
    peak_memory([bench, "submissions", str(size)], folder)
    command = [esa, "batch", "job.json"]
    count = instructions(command, folder)
    bare = instructions([bench, "decode-and-sort"], folder)
    files = sum(os.path.getsize(os.path.join(folder, name)) for name in ["submissions.txt", "batch"])
    peak = peak_memory(command, folder) / files
    print(f"{size:>8} {count:>14} {count / size:>7.0f} {count / bare:>8.2f} {peak:>24.2f}", flush=True)
    return count / size, count / bare, peak


if __name__ == "__main__":
    main()
