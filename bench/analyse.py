#!/usr/bin/env python3
"""What analyse costs, beside the bare hash and the bare keystream over as many blocks and bytes.

An envelope of form One costs three blocks of SHA-256 beyond the keys, which are prepared once: two for the inner hash
of its tag and one for the outer. Its report is one block of the keystream. Instructions are callgrind's, so that a
busy machine changes nothing. The data is made here, by esa_bench_records: reports with seven values, or with all values
distinct. The script says of each target whether it holds, and ends with status 1 where one doesn't.
"""

import os
import tempfile

from measure import SIZES, instructions, peak_memory, program, settle, targets_of

MASTER = bytes(range(32)).hex()


def main():
    esa, bench, blocks = program("esa"), program("esa_bench_records"), program("esa_bench_blocks")
    print(f"{'values':>8} {'envelopes':>9} {'instructions':>14} {'each':>7} {'of bare':>8} {'peak of input':>13}", flush=True)
    targets = []
    with tempfile.TemporaryDirectory() as folder:
        for name, text in {
            "job.json": '{"keys": "keys.json", "input": "forward.bin", "output": "database.bin"}',
            "keys.json": '{"inner": "%s"}' % MASTER,
        }.items():
            with open(os.path.join(folder, name), "w") as file:
                file.write(text)
        for values in ["seven", "distinct"]:
            rows = {size: measure(esa, bench, blocks, folder, values, size) for size in SIZES}
            targets += targets_of(values, rows)
    settle(targets)


def measure(esa, bench, blocks, folder, values, size):
    """Prints one row of the table, and answers the instructions an envelope, and those and the peak beside what they are measured by."""
    peak_memory([bench, f"forward-{values}", str(size)], folder)
    command = [esa, "analyse", "job.json"]
    count = instructions(command, folder)
    bare = instructions([blocks, "hash", str(3 * size)], folder) + instructions([blocks, "keystream", str(16 * size)], folder)
    peak = peak_memory(command, folder) / os.path.getsize(os.path.join(folder, "forward.bin"))
    print(f"{values:>8} {size:>9} {count:>14} {count / size:>7.0f} {count / bare:>8.2f} {peak:>13.2f}", flush=True)
    return count / size, count / bare, peak


if __name__ == "__main__":
    main()
