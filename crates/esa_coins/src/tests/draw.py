#!/usr/bin/env python3
"""Draws the numbers that the tests expect, from the published algorithms alone: ChaCha20 with a 64-bit counter and a
64-bit stream number (Bernstein), Canon's method for a number below a bound, and a Fisher-Yates shuffle in which one
draw serves several swaps (as rand 0.9 and later do it). Run it to print the tables of tests.rt."""

MASK = 0xFFFFFFFF


def rotate(x, k):
    return ((x << k) | (x >> (32 - k))) & MASK


def quarter(s, a, b, c, d):
    s[a] = (s[a] + s[b]) & MASK; s[d] = rotate(s[d] ^ s[a], 16)
    s[c] = (s[c] + s[d]) & MASK; s[b] = rotate(s[b] ^ s[c], 12)
    s[a] = (s[a] + s[b]) & MASK; s[d] = rotate(s[d] ^ s[a], 8)
    s[c] = (s[c] + s[d]) & MASK; s[b] = rotate(s[b] ^ s[c], 7)


def block(key, counter, stream):
    start = [0x61707865, 0x3320646E, 0x79622D32, 0x6B206574] + key
    start += [counter & MASK, counter >> 32, stream & MASK, stream >> 32]
    s = list(start)
    for _ in range(10):
        for q in ((0, 4, 8, 12), (1, 5, 9, 13), (2, 6, 10, 14), (3, 7, 11, 15)):
            quarter(s, *q)
        for q in ((0, 5, 10, 15), (1, 6, 11, 12), (2, 7, 8, 13), (3, 4, 9, 14)):
            quarter(s, *q)
    return [(x + y) & MASK for x, y in zip(s, start)]


def words(seed, stream):
    key = [int.from_bytes(seed[4 * i : 4 * i + 4], "little") for i in range(8)]
    counter = 0
    while True:
        yield from block(key, counter, stream)
        counter += 1


def below(stream, bound):
    product = next(stream) * bound
    high, low = product >> 32, product & MASK
    if low > 2**32 - bound:
        if low + (next(stream) * bound >> 32) >= 2**32:
            high += 1
    return high


def shuffle(stream, items):
    n, chunk, left = 0, 0, 1
    for i in range(len(items)):
        n += 1
        if left == 0:
            bound, left = n, 1
            while bound * (n + left) < 2**32:
                bound *= n + left
                left += 1
            chunk = below(stream, bound)
        left -= 1
        index = chunk if left == 0 else chunk % n
        chunk //= n
        items[i], items[index] = items[index], items[i]
    return items


def single(seed, b, n, attempt, bucket):
    stream = words(seed, attempt * 2**32 + bucket)
    return [below(stream, b) for _ in range(n)]


def separators(seed, b, n, attempt, bucket):
    entries = shuffle(words(seed, attempt * 2**32 + 2**17 + bucket), list(range(n + b - 1)))
    return [sum(e >= n for e in entries[: entries.index(x)]) for x in range(n)]


def order(seed, m, attempt, target):
    return shuffle(words(seed, attempt * 2**32 + 2**16 + target), list(range(m)))


if __name__ == "__main__":
    assert block([0] * 8, 0, 0)[0] == 0xADE0B876  # the first word of the key stream of zeros
    seed = bytes(range(32))
    for attempt in range(2):
        for bucket, n in ((0, 8), (1, 8), (2, 6)):
            print("single", attempt, bucket, single(seed, 3, n, attempt, bucket))
            print("separators", attempt, bucket, separators(seed, 3, n, attempt, bucket))
            print("order", attempt, bucket, order(seed, 13, attempt, bucket))
