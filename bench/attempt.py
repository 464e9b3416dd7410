#!/usr/bin/env python3
"""What a replay costs, and what the rest of an attempt does, beside the bare hash and keystream over the same bytes.

100,000 records of form One lie in 32 buckets, with the sizes that docs/SIZING.md has for so many, over a device in
memory. A replay of no turns reads each block of the input, opens its envelopes, exchanges the items and writes each
chunk. Its bare work is SHA-256 and the keystream of the bytes of these blocks, for each envelope four blocks of SHA-256
beyond the keys, which are prepared once, and three of the keystream, and one copy of each item. The rest writes the
tails, reads chunks and tails again and writes the output; its bare work is SHA-256 and the keystream of their bytes.
The run ends where the device fails: at the first access behind the load, at the first behind the replay, and never. So
the differences are what the replay and the rest cost. Instructions are callgrind's, and a busy machine changes nothing.
Callgrind counts each byte of a long copy by the processor's one instruction for it, so the C library is told not to use
that.

All memory of a run is taken before its first access: a whole attempt takes memory as often as one that ends there.
"""

import os
import tempfile

from measure import allocations, instructions, program, settle

RECORDS, B, C, K = 100_000, 32, 120, 90
ENVELOPE, ITEM, SEAL = 176, 137, 40
LOADED = B + 1
REPLAYED = LOADED + B + B * B
NEVER = 1_000_000
FIRST = 1
REPLAY_LIMIT, REST_LIMIT = 1.2, 1.15
UNIT = 640_000


def main():
    os.environ["GLIBC_TUNABLES"] = "glibc.cpu.x86_rep_movsb_threshold=268435456:glibc.cpu.x86_rep_stosb_threshold=268435456"
    attempts, bench = program("esa_attempts"), program("esa_bench_blocks")
    targets = []
    with tempfile.TemporaryDirectory() as folder:
        block = instructions([bench, "hash", str(UNIT)], folder) / UNIT
        word = instructions([bench, "keystream", str(UNIT)], folder) / UNIT
        copy = [instructions([attempts, "measure", "copy", str(many)], folder) for many in [RECORDS, 0]]
        loaded, replayed, ended = [instructions([attempts, "measure", "attempt", str(fails)], folder) for fails in [LOADED, REPLAYED, NEVER]]
        inputs = RECORDS * ENVELOPE + B * SEAL
        chunks = B * B * (C * ITEM + SEAL)
        tails = B * (K * ITEM + SEAL)
        outputs = RECORDS * ITEM + B * SEAL
        opened = RECORDS * (4 * block + 3 * 16 * word)
        begun, whole = [allocations([attempts, "measure", "attempt", str(fails)], folder) for fails in [FIRST, NEVER]]
        print(f"memory is taken {begun} times before the first access, and {whole} times in all", flush=True)
        targets.append(("memory taken behind the first access", whole - begun, 0))
        for name, done, bare, limit in [
            ("replay", replayed - loaded, bytes_of(inputs + chunks, block, word) + opened + copy[0] - copy[1], REPLAY_LIMIT),
            ("drain and compression", ended - replayed, bytes_of(2 * tails + chunks + outputs, block, word), REST_LIMIT),
        ]:
            print(f"{name}: {done} instructions, {done / RECORDS:.0f} a record, bare {bare:.0f}", flush=True)
            targets.append((f"{name} of {RECORDS} records, of bare", done / bare, limit))
    settle(targets)


def bytes_of(length, block, word):
    """The instructions of the hash and of the keystream of so many bytes."""
    return length / 64 * block + length / 4 * word


if __name__ == "__main__":
    main()
