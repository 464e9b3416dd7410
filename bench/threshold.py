#!/usr/bin/env python3
"""What the threshold by crowd costs over an output in memory, beside the bare hash, the bare keystream and std's sort.

Each of the two scans hashes the output and makes as much of the keystream. The tag of a record costs three blocks of
SHA-256 beyond the key, which is prepared once: two for the inner hash and one for the outer; a crowd's code costs two.
The sort is std's, of as many crowds and tags. The records are of form One, in 40 crowds or each in a crowd of its own,
and all of them are forwarded. Instructions are callgrind's, so that a busy machine changes nothing; the difference
between one threshold and none leaves out what is done once.
"""

import tempfile

from measure import instructions, program, settle

SIZES = [10_000, 100_000, 262_144]
CROWDS = {"in 40 crowds": lambda records: 40, "each a crowd": lambda records: records}
ITEM = 137
LIMIT, LIMIT_AT = 1.2, 100_000
GROWTH, GROWTH_FROM, GROWTH_TO = 1.3, 10_000, 262_144
UNIT = 64_000


def main():
    bench, blocks = program("esa_bench_shuffle"), program("esa_bench_blocks")
    targets = []
    print(f"{'records':>8} {'':>12} {'instructions':>13} {'a record':>9} {'sorting':>8} {'of bare':>8}", flush=True)
    with tempfile.TemporaryDirectory() as folder:
        block = instructions([blocks, "hash", str(UNIT)], folder) / UNIT
        word = instructions([blocks, "keystream", str(UNIT)], folder) / UNIT
        for name, crowds_of in CROWDS.items():
            each = {}
            for records in SIZES:
                crowds = crowds_of(records)
                done = difference(lambda times: [bench, "threshold", str(records), str(crowds), str(times)], folder)
                sorting = difference(lambda times: [bench, "threshold-sort", str(records), str(crowds), str(times)], folder)
                output = records * ITEM
                bare = 2 * (output / 64 * block + output / 4 * word) + (3 * records + 2 * crowds) * block + sorting
                each[records] = done / records
                print(f"{records:>8} {name:>12} {done:>13} {done / records:>9.0f} {sorting / records:>8.0f} {done / bare:>8.2f}", flush=True)
                if records == LIMIT_AT:
                    targets.append((f"{records} records, {name}, of bare", done / bare, LIMIT))
            growth = each[GROWTH_TO] / each[GROWTH_FROM]
            targets.append((f"a record at {GROWTH_TO} of one at {GROWTH_FROM}, {name}", growth, GROWTH))
    settle(targets)


def difference(command, folder):
    """The instructions of one round, without what is done before it."""
    return instructions(command(1), folder) - instructions(command(0), folder)


if __name__ == "__main__":
    main()
