#!/usr/bin/env python3
"""How often attempts of a shuffle fail, by its sizes: the table of docs/SIZING.md.

    python3 bench/sizing.py [SEEDS]

It runs `esa plan` for each setting below over SEEDS seeds (1,000), one attempt each, and prints for each how many
attempts failed and why. Seed number i is the SHA-256 of the text `sizing i`, so anyone gets the same table.
"""

import collections
import concurrent.futures
import hashlib
import json
import os
import subprocess
import sys
import tempfile

from measure import program

# Records, the numbers b, c, s, k, w, q, and what is too tight in it.
SETTINGS = [
    (1_000, dict(b=8, c=24, s=120, k=40, w=3, q=600), ""),
    (1_000, dict(b=8, c=18, s=20, k=40, w=3, q=600), "c and s"),
    (10_000, dict(b=16, c=52, s=300, k=60, w=3, q=2_400), ""),
    (10_000, dict(b=16, c=46, s=300, k=10, w=3, q=2_400), "c and k"),
    (100_000, dict(b=32, c=120, s=600, k=90, w=3, q=11_000), ""),
    (100_000, dict(b=32, c=120, s=600, k=90, w=3, q=9_600), "q"),
    (262_144, dict(b=64, c=80, s=1_000, k=80, w=3, q=14_500), ""),
    (262_144, dict(b=64, c=80, s=1_000, k=80, w=1, q=14_500), "w"),
]


def verdict(esa, folder, number, records, sizes):
    """How the one attempt of a seed ends."""
    name = os.path.join(folder, f"{records}-{sizes['c']}-{sizes['w']}-{sizes['q']}-{number}.json")
    seed = hashlib.sha256(f"sizing {number}".encode()).hexdigest()
    job = dict(sizes, records=records, seed=seed, workers=1, attempts=1, mode="turns")
    with open(name, "w") as file:
        json.dump(job, file)
    done = subprocess.run([esa, "plan", name], capture_output=True, text=True)
    os.remove(name)
    if done.returncode != 0:
        sys.exit(f"{name}: {done.stdout}{done.stderr}")
    return done.stdout.split()[2]


def main():
    seeds = int(sys.argv[1]) if len(sys.argv) > 1 else 1_000
    esa = program("esa")
    print("| Records | B | C | S | K | W | Q | Failed | Why | Too tight |")
    print("|---|---|---|---|---|---|---|---|---|---|")
    with tempfile.TemporaryDirectory() as folder, concurrent.futures.ThreadPoolExecutor(2) as pool:
        for records, sizes, tight in SETTINGS:
            ends = collections.Counter(
                pool.map(lambda i: verdict(esa, folder, i, records, sizes), range(seeds))
            )
            failed = seeds - ends["good"]
            why = ", ".join(f"{end} {count}" for end, count in ends.most_common() if end != "good")
            numbers = " | ".join(f"{sizes[n]:,}" for n in "bcskwq")
            print(f"| {records:,} | {numbers} | {failed} of {seeds:,} | {why} | {tight} |", flush=True)


if __name__ == "__main__":
    main()
