#!/usr/bin/env python3
"""What it costs to encode values as shares, and to recover a database of shares.

Encoding a short value as one of three shares adds five blocks of SHA-256: one for its mark, and two for the code of each
of the two powers, beyond the key, which is prepared once. It stands beside encoding the same values as they are and the
bare hash of as many blocks.

A database has shares of each value at as many points as it takes, and of a third of the values at one more. Reading,
recovering and writing it stands beside reading and writing it as it is and the bare hash of each value, since a value
counts only where its mark is the one that was sent; what it takes to make the database is left out of all. The ratio
to reading and writing alone is printed too: the hash alone takes four times as much as they do. At 30,000 values of
three shares these are 100,000 rows. Beside a small database and beside few shares a value stands
what is added for each row and share that it takes. Instructions are callgrind's, so that a busy machine changes nothing.

By time the command recover stands beside upgrade, which reads and writes the same database as it is, each from file to
file: here a value's hash is no more than a part, since the files are read and written too. The runs are interleaved, and
the least processor's time of each counts.
"""

import argparse
import hashlib
import json
import os
import random
import resource
import subprocess
import tempfile

from measure import instructions, program, settle

ENCODED, ADDED, ENCODE_LIMIT = 20_000, 5, 1.3
VALUES, SHARES, RECOVER_LIMIT = 30_000, 3, 4
FEW_VALUES, MANY_SHARES, GROWTH = 3_000, 12, 1.3
RUNS, TIME_LIMIT = 15, 4


def main():
    words = argparse.ArgumentParser()
    words.add_argument("--runs", type=int, default=RUNS)
    words.add_argument("--built", metavar="FOLDER", help="where the programs are that are built, in place of those that are built here")
    words.add_argument("--only", choices=["instructions", "time"])
    words.add_argument("--realtime", action="store_true", help="time each run ahead of everything else on the machine")
    asked = words.parse_args()
    built = lambda name: os.path.join(os.path.abspath(asked.built), name) if asked.built else program(name)
    targets = []
    with tempfile.TemporaryDirectory() as folder:
        if asked.only != "time":
            bench, blocks = built("esa_bench_records"), built("esa_bench_blocks")
            run = lambda *words: instructions([bench, *map(str, words)], folder)
            bare_hash = lambda count: instructions([blocks, "hash", str(count)], folder)
            targets += [encoded(run, bare_hash), *recovered(run, bare_hash)]
        if asked.only != "instructions":
            targets.append(timed(["chrt", "-f", "50"] if asked.realtime else [], built("esa"), folder, asked.runs))
    settle(targets)


def encoded(run, bare_hash):
    """The target of encoding."""
    plain, shares = run("shares-values", ENCODED, SHARES), run("shares-encode", ENCODED, SHARES)
    bare = bare_hash(ADDED * ENCODED)
    print(f"encoded {ENCODED}: {plain / ENCODED:.0f} instructions a value, {shares / ENCODED:.0f} as a share", flush=True)
    return f"encode with {SHARES} shares, of encode and {ADDED} blocks of the bare hash", shares / (plain + bare), ENCODE_LIMIT


def recovered(run, bare_hash):
    """The targets of recovering."""
    rows = {}
    for values, shares in [(FEW_VALUES, SHARES), (VALUES, SHARES), (FEW_VALUES, MANY_SHARES)]:
        made, copied, whole = (run(f"shares-{work}", values, shares) for work in ["make", "copy", "recover"])
        bare = bare_hash(values)
        count = values * shares + values // 3
        rows[values, shares] = (whole - made) / (copied - made + bare), (whole - copied) / (count * shares)
        print(f"{count:>8} rows of {values} values, {shares} shares: {(copied - made) / count:.0f} instructions a row to copy,"
              f" {(whole - made) / count:.0f} to recover, {(whole - made) / (copied - made):.1f} times as many", flush=True)
    yield "recover, of reading, writing and a bare hash a value", rows[VALUES, SHARES][0], RECOVER_LIMIT
    small = rows[FEW_VALUES, SHARES][1]
    yield f"what a row and share adds with {VALUES} values, of that with {FEW_VALUES}", rows[VALUES, SHARES][1] / small, GROWTH
    yield f"what a row and share adds with {MANY_SHARES} shares, of that with {SHARES}", rows[FEW_VALUES, MANY_SHARES][1] / small, GROWTH


def timed(ahead, esa, folder, runs):
    """The target of the time that recover takes."""
    rows = share_rows()
    with open(os.path.join(folder, "database"), "wb") as file:
        file.write(b"ESAD\x01" + len(rows).to_bytes(4, "big") + bytes(4))
        for row in rows:
            file.write(bytes([len(row)]) + row + (1).to_bytes(4, "big"))
    times = {"recover": [], "upgrade": []}
    for command in times:
        with open(os.path.join(folder, f"{command}.json"), "w") as file:
            json.dump({"input": "database", "output": command}, file)
    for _ in range(runs):
        for command, spent in times.items():
            spent.append(seconds_of([*ahead, esa, command, f"{command}.json"], folder))
    with open(os.path.join(folder, "recover"), "rb") as file:
        if int.from_bytes(file.read(9)[5:], "big") != VALUES:
            raise SystemExit("recover didn't give back each value")
    recover, upgrade = (min(spent) for spent in times.values())
    print(f"{len(rows):>8} rows of {VALUES} values, {SHARES} shares: recover {1_000 * recover:.1f} ms, upgrade {1_000 * upgrade:.1f} ms", flush=True)
    return "recover, time of the command that reads and writes the database as it is", recover / upgrade, TIME_LIMIT


def share_rows():
    """Share records of so many values, which it takes three of, in rising order. A third of the values has one more."""
    powers = [1]
    for _ in range(509):
        twice = powers[-1] << 1 ^ (0x11B if powers[-1] & 0x80 else 0)
        powers.append(powers[-1] ^ twice)
    exponents = {power: exponent for exponent, power in enumerate(powers[:255])}
    product = lambda a, b: powers[exponents[a] + exponents[b]] if a and b else 0
    draws, rows = random.Random(1), []
    for number in range(VALUES):
        value = b"value %d" % number
        ones, twos = draws.randbytes(len(value)), draws.randbytes(len(value))
        for point in range(1, SHARES + 1 + (number % 3 == 0)):
            share = bytes(byte ^ product(point, one) ^ product(product(point, point), two) for byte, one, two in zip(value, ones, twos))
            rows.append(b"\xe5" + bytes([SHARES, point]) + hashlib.sha256(value).digest()[:16] + share)
    return sorted(rows)


def seconds_of(command, folder):
    """The processor's time for one run of a command, which must end with status 0."""
    before = resource.getrusage(resource.RUSAGE_CHILDREN)
    subprocess.run(command, cwd=folder, check=True, stdout=subprocess.DEVNULL)
    after = resource.getrusage(resource.RUSAGE_CHILDREN)
    return after.ru_utime - before.ru_utime + after.ru_stime - before.ru_stime


if __name__ == "__main__":
    main()
