#!/usr/bin/env python3
"""What coins cost, beside the same calls of the libraries alone.

Drawn: the targets of 262,144 records in 256 buckets, and 256 orders of 16,384 places, which is as much as one attempt
may draw. Beside it stand the bare draws and shuffles of rand over the same generator.

Read: a coins file of 16 MB with random targets and orders. Beside it stand serde_json's reading of the text and one
copy of its numbers; for memory, the reading alone.

Instructions are callgrind's, so that a busy machine changes nothing.
"""

import json
import os
import random
import tempfile

from measure import instructions, peak_memory, program, settle

RECORDS = 262_144
BUCKETS = 128
PLACES = 22_000
LIMIT = 1.5


def main():
    bench = program("esa_bench_shuffle")
    targets = []
    for draw in ["single", "separators"]:
        drawn = instructions([bench, f"coins-{draw}", str(RECORDS)], ".")
        bare = instructions([bench, f"coins-{draw}-bare", str(RECORDS)], ".")
        print(f"drawn {draw}: {drawn} instructions")
        targets.append((f"drawn {draw}, of rand alone", drawn / bare, LIMIT))
    with tempfile.TemporaryDirectory() as folder:
        size = write_coins(os.path.join(folder, "coins.json"))
        steps = {name: instructions([bench, f"coins-{name}", str(RECORDS)], folder) for name in ["read", "copy"]}
        peaks = {name: peak_memory([bench, f"coins-{name}", str(RECORDS)], folder) for name in ["read", "value"]}
    print(f"read {size} bytes: {steps['read']} instructions, at most {peaks['read']} bytes of memory")
    targets.append(("instructions of reading and copying", steps["read"] / steps["copy"], LIMIT))
    targets.append(("peak of memory of reading alone", peaks["read"] / peaks["value"], LIMIT))
    settle(targets)


def write_coins(path):
    """Writes a coins file, and answers its length."""
    chance = random.Random(1)
    orders = [chance.sample(range(PLACES), PLACES) for _ in range(BUCKETS)]
    targets = [chance.randrange(BUCKETS) for _ in range(RECORDS)]
    with open(path, "w") as file:
        json.dump({"attempts": [{"targets": targets, "orders": orders}]}, file, separators=(",", ":"))
    return os.path.getsize(path)


if __name__ == "__main__":
    main()
