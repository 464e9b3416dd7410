#!/usr/bin/env python3
"""Goes through a shuffle without esa, for the expected bytes of worked cases.

    bench/accesses.py --n N --b B --c C --s S --k K --w W --q Q [--workers X] [--form F] [--scans] [--turns TURNS] COINS..

COINS is for each attempt its targets, as digits by place, and each target's order, as digits, with colons between: the
coins 0010:012:012 of four places and two targets. TURNS are the workers of the turns that are handed in, as digits, with
a comma between one attempt and the next. It plays the turns by queues, and prints how each attempt ended, the order of
the places, the turns that were made, and the accesses as lines that a case takes as they are.
"""

import argparse
from collections import deque

READ, WRITE = 0, 1
INPUT, MID, TAIL, OUTPUT = range(4)


class Failed(Exception):
    """An attempt that failed, with its line."""


class Shuffle:
    """The sizes, the accesses and the turns of a shuffle."""

    def __init__(self, sizes):
        self.sizes = sizes
        self.share = -(-sizes.n // sizes.b)
        self.envelope, self.item = (176, 137) if sizes.form == 1 else (304, 265)
        self.accesses = []
        self.turns = []
        self.attempts = []
        # for each access, how many turns of each attempt were made up to it
        self.stored = []

    def places(self, bucket):
        """The places of a bucket."""
        n = self.sizes.n
        return range(min(n, bucket * self.share), min(n, (bucket + 1) * self.share))

    def access(self, op, region, attempt, index):
        """Adds an access."""
        b = self.sizes.b
        number = [0, b, b + b * b, 2 * b + b * b][region] + index
        length = 40 + [self.envelope * len(self.places(index)), self.item * self.sizes.c, self.item * self.sizes.k,
                       self.item * len(self.places(index))][region]
        nonce = number if region == INPUT else (attempt << 32) + number
        self.accesses.append((op, region, attempt, index, length, nonce))
        self.stored.append([len(turns) for turns in self.turns])

    def load(self):
        """Writes the input."""
        for bucket in range(self.sizes.b):
            self.access(WRITE, INPUT, 0, bucket)

    def scan(self, attempt):
        """Reads the output."""
        for bucket in range(self.sizes.b):
            self.access(READ, OUTPUT, attempt, bucket)


class Attempt:
    """An attempt at a shuffle, with its targets and its orders."""

    def __init__(self, shuffle, number, targets, orders):
        self.shuffle, self.number, self.targets, self.orders = shuffle, number, targets, orders
        b = shuffle.sizes.b
        self.stash = [deque() for _ in range(b)]
        self.chunks = {}
        self.tails = {}
        self.written = 0
        self.out = []

    def turn(self, state):
        """One turn of a worker."""
        shuffle, b = self.shuffle, self.shuffle.sizes.b
        phase, bucket = state["phase"], state["bucket"]
        if phase == 0:
            bucket = state["bucket"] = self.claimed
            self.claimed += 1
        state["phase"] = (phase + 1) % (b + 3)
        if bucket >= b or phase == 0:
            return
        if phase == 1:
            shuffle.access(READ, INPUT, self.number, bucket)
        elif phase == 2:
            for place in shuffle.places(bucket):
                self.stash[self.targets[place]].append(place)
            for target, queue in enumerate(self.stash):
                self.chunks[bucket, target] = [queue.popleft() for _ in range(min(shuffle.sizes.c, len(queue)))]
            if sum(map(len, self.stash)) > shuffle.sizes.s:
                raise Failed(f"stash-overflow {bucket}")
        else:
            shuffle.access(WRITE, MID, self.number, bucket * b + phase - 3)
            self.written += 1

    def distribute(self, handed_in, turns):
        """The turns that were handed in, and then those of all workers in turn, until all chunks are written."""
        sizes = self.shuffle.sizes
        self.claimed = 0
        states = [{"phase": 0, "bucket": None} for _ in range(sizes.workers)]
        made = 0
        while self.written < sizes.b * sizes.b:
            worker = handed_in[made] if made < len(handed_in) else (made - len(handed_in)) % sizes.workers
            turns.append(worker)
            made += 1
            self.turn(states[worker])

    def drain(self):
        """A tail for each target."""
        for target, queue in enumerate(self.stash):
            if len(queue) > self.shuffle.sizes.k:
                raise Failed(f"stash-left {target}")
            self.tails[target] = list(queue)
            self.shuffle.access(WRITE, TAIL, self.number, target)

    def import_target(self, target):
        """The places of a target, arranged."""
        shuffle, sizes = self.shuffle, self.shuffle.sizes
        parts = []
        for bucket in range(sizes.b):
            shuffle.access(READ, MID, self.number, bucket * sizes.b + target)
            chunk = self.chunks[bucket, target]
            parts += chunk + [None] * (sizes.c - len(chunk))
        shuffle.access(READ, TAIL, self.number, target)
        tail = self.tails[target]
        parts += tail + [None] * (sizes.k - len(tail))
        return [parts[x] for x in self.orders[target] if parts[x] is not None]

    def compress(self):
        """The output, bucket by bucket, through the queue."""
        shuffle, sizes = self.shuffle, self.shuffle.sizes
        queue, imported, out = deque(), 0, self.out
        for bucket in range(sizes.b):
            while imported < min(bucket + sizes.w, sizes.b):
                came = self.import_target(imported)
                if len(queue) + len(came) > sizes.q:
                    raise Failed(f"queue-overflow {imported}")
                queue.extend(came)
                imported += 1
            size = len(shuffle.places(bucket))
            if len(queue) < size:
                raise Failed(f"queue-starved {bucket}")
            out += [queue.popleft() for _ in range(size)]
            shuffle.access(WRITE, OUTPUT, self.number, bucket)
        return out


def line_of(access):
    """An access as a line that a case takes as it is."""
    op, region, attempt, index, length, nonce = access
    return f"  hex {op:02x} {region:02x} {attempt:02x} {index:08x} {length:08x} {nonce:016x}"


def run(sizes, coins, handed_in, scans, tell=print):
    """A shuffle up to its first good attempt, with two scans of its output if they are wanted. It tells each one's end."""
    shuffle = Shuffle(sizes)
    shuffle.load()
    for number, drawn in enumerate(coins):
        targets, *orders = [[int(digit) for digit in part] for part in drawn.split(":")]
        attempt = Attempt(shuffle, number, targets, orders)
        shuffle.attempts.append(attempt)
        turns = []
        shuffle.turns.append(turns)
        try:
            attempt.distribute(handed_in[number] if number < len(handed_in) else [], turns)
            attempt.drain()
            places = attempt.compress()
        except Failed as failed:
            tell(f"attempt {number} {failed}")
            continue
        tell(f"attempt {number} good: places", *places)
        if scans:
            shuffle.scan(number)
            shuffle.scan(number)
        break
    return shuffle


def main():
    parser = argparse.ArgumentParser(description=__doc__.splitlines()[0])
    for name in ["n", "b", "c", "s", "k", "w", "q"]:
        parser.add_argument("--" + name, type=int, required=True)
    parser.add_argument("--workers", type=int, default=1)
    parser.add_argument("--form", type=int, default=1)
    parser.add_argument("--scans", action="store_true", help="the two scans of the output follow a good attempt")
    parser.add_argument("--turns", default="")
    parser.add_argument("coins", nargs="+", metavar="COINS")
    words = parser.parse_args()
    handed_in = [[int(digit) for digit in part] for part in words.turns.split(",")]
    shuffle = run(words, words.coins, handed_in, words.scans)
    for turns in shuffle.turns:
        print("turns", *turns)
    print(len(shuffle.accesses), "accesses")
    for access in shuffle.accesses:
        print(line_of(access))


if __name__ == "__main__":
    main()
