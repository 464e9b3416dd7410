#!/usr/bin/env python3
"""What an exchange costs for each item, beside how many items the stash holds.

Each exchange has 3,125 items for 32 targets in turn, and a chunk of 96 for each target, so that no queue is ever
empty. The instructions of filling the stash are counted apart and taken off. They are callgrind's, so that a busy
machine changes nothing.
"""

from measure import instructions, program, settle

HELD = [20_000, 200_000]
EXCHANGES = 20
ITEMS = 3_125
LIMIT = 1.2


def main():
    bench = program("esa_bench_shuffle")
    print(f"{'held':>8} {'instructions an item':>20}")
    costs = [each(bench, held) for held in HELD]
    for held, cost in zip(HELD, costs):
        print(f"{held:>8} {cost:>20.1f}")
    settle([("the greatest of the least", max(costs) / min(costs), LIMIT)])


def each(bench, held):
    """The instructions of an exchange for each of its items, with so many items in the stash."""
    filled = instructions([bench, "stash-filled", str(held)], ".")
    exchanged = instructions([bench, "stash-exchanged", str(held)], ".")
    return (exchanged - filled) / (EXCHANGES * ITEMS)


if __name__ == "__main__":
    main()
