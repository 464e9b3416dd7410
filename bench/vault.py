#!/usr/bin/env python3
"""What it costs to seal, put, get and open a block, beside the bare hash and the bare keystream over the same bytes.

A block of n items is put and got again over a device in memory. Its bare work is SHA-256 of its bytes and as many
bytes of the keystream, each twice. Instructions are callgrind's, so that a busy machine changes nothing; the
difference between many rounds and few leaves out what the program does once. The blocks have real items alone, or
dummies alone, whose bodies are looked at.
"""

import tempfile

from measure import instructions, program, settle

BODIES = {"one": 136, "two": 264}
ITEMS = [144, 3_125]
FEW, MANY = 2, 7
LIMIT = 1.2


def main():
    bench = program("esa_bench_blocks")
    targets = []
    print(f"{'form':>4} {'items':>6} {'real':>6} {'instructions':>13} {'of bare':>8}")
    with tempfile.TemporaryDirectory() as folder:
        for form, body in BODIES.items():
            for items in ITEMS:
                bare = bare_work(bench, folder, items * (body + 1))
                for real in [items, 0]:
                    each = difference(lambda times: [bench, f"vault-{form}", str(items), str(real), str(times)], folder)
                    print(f"{form:>4} {items:>6} {real:>6} {each:>13.0f} {each / bare:>8.2f}", flush=True)
                    targets.append((f"form {form}, {items} items, {real} real, of bare", each / bare, LIMIT))
    settle(targets)


def bare_work(bench, folder, length):
    """The instructions of the hash and of the keystream, each twice over so many bytes."""
    blocks, words = length // 64, length // 4
    hash_each = difference(lambda times: [bench, "hash", str(times * blocks)], folder)
    keystream_each = difference(lambda times: [bench, "keystream", str(times * words)], folder)
    return 2 * (hash_each + keystream_each)


def difference(command, folder):
    """The instructions of one round more."""
    return (instructions(command(MANY), folder) - instructions(command(FEW), folder)) / (MANY - FEW)


if __name__ == "__main__":
    main()
