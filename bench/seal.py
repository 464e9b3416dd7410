#!/usr/bin/env python3
"""Seals reports without esa, for the expected bytes of worked cases.

    bench/seal.py inner --inner MASTER --nonce N VALUE
    bench/seal.py outer --inner MASTER --outer MASTER --nonce N CROWD VALUE
    bench/seal.py block --inner MASTER [--outer MASTER] --run MASTER --nonce N NONCE:CROWD:VALUE..

prints an inner envelope, the outer one that a submission carries, or a block of the external memory, as lines of 32
bytes that a case takes as they are. A block is one of the input where there is an outer master, with the outer envelope
of each report, and otherwise one behind the input, with the item of each. A master has 64 hexadecimal digits; 0 stands
for zero bytes. With --epoch N the form is Two, and the masters are those of that epoch. With --shares T and --share KEY
a share of the value is sealed in place of it. With --damaged the last byte of the inner envelope is another one. HMAC
and SHA-256 are those of Python's library; ChaCha20 stands in demo/make_forward.py.
"""

import argparse
import hashlib
import os
import struct
import sys

sys.path.insert(0, os.path.join(os.path.dirname(os.path.abspath(__file__)), "..", "demo"))
from make_forward import mac, seal

# Zero bytes, in the place of a master that isn't given.
NO_MASTER = "0"


def master_of(digits, epoch):
    """A master, or that of an epoch."""
    master = bytes(32) if digits == NO_MASTER else bytes.fromhex(digits)
    return master if epoch is None else mac(master, b"epoch:" + struct.pack(">I", epoch))


def report(value, epoch):
    """The spelling of a value as a report of the form."""
    length = 64 if epoch is None else 192
    return (struct.pack(">H", len(value)) + value).ljust(length, b"\0")


def product(a, b):
    """The product of two elements of the field of 256, bit by bit."""
    made = 0
    for bit in range(8):
        made ^= a * (b >> bit & 1)
        a = a << 1 ^ (a >> 7) * 0x11b
    return made


def share_of(value, shares, key, nonce):
    """The share record of a value: polynomials whose coefficients come from the key, at the point of the nonce."""
    if not value:
        return value
    point = 1 + nonce % 255
    share = bytearray(value)
    power = 1
    for k in range(1, shares):
        power = product(power, point)
        for y in range(len(value)):
            share[y] ^= product(mac(key, bytes([k, y // 32]) + value)[y % 32], power)
    return bytes([0xe5, shares, point]) + hashlib.sha256(value).digest()[:16] + bytes(share)


def sealed_report(words, nonce, value):
    """The inner envelope of a value."""
    return seal(master_of(words.inner, words.epoch), b"inner", nonce, report(value, words.epoch))


def outer_plain(crowd, envelope):
    """What an outer envelope holds: the crowd's id and the inner envelope."""
    return hashlib.sha256(crowd).digest() + envelope


def block_of(words):
    """A block of the external memory, with a report for each text."""
    places = b""
    for text in words.texts:
        nonce, crowd, value = text.split(":", 2)
        plain = outer_plain(crowd.encode(), sealed_report(words, int(nonce), value.encode()))
        if words.outer == NO_MASTER:
            places += b"\x01" + plain
        else:
            places += seal(master_of(words.outer, words.epoch), b"outer", int(nonce), plain)
    return seal(master_of(words.run, None), b"block", words.nonce, places)


def print_lines(made):
    for at in range(0, len(made), 32):
        print("  hex", made[at:at + 32].hex())


def main():
    parser = argparse.ArgumentParser(description=__doc__.splitlines()[0])
    parser.add_argument("kind", choices=["inner", "outer", "block"])
    parser.add_argument("texts", nargs="+", metavar="TEXT", help="the value, the crowd and the value, or reports")
    parser.add_argument("--inner", default=NO_MASTER)
    parser.add_argument("--outer", default=NO_MASTER)
    parser.add_argument("--run", default=NO_MASTER)
    parser.add_argument("--nonce", type=int, required=True)
    parser.add_argument("--epoch", type=int)
    parser.add_argument("--shares", type=int, help="how many shares give the value")
    parser.add_argument("--share", default=NO_MASTER, help="the key that shares are made from")
    parser.add_argument("--damaged", action="store_true", help="the tag of the inner envelope is wrong")
    words = parser.parse_args()
    if words.kind == "block":
        print_lines(block_of(words))
        return
    *crowd, value = [text.encode() for text in words.texts]
    if len(crowd) != (words.kind == "outer"):
        parser.error("an inner envelope is of a value, and an outer one of a crowd and a value")
    if words.shares:
        value = share_of(value, words.shares, master_of(words.share, None), words.nonce)
    envelope = sealed_report(words, words.nonce, value)
    if words.damaged:
        envelope = envelope[:-1] + bytes([envelope[-1] ^ 1])
    if crowd:
        envelope = seal(master_of(words.outer, words.epoch), b"outer", words.nonce, outer_plain(crowd[0], envelope))
    print_lines(envelope)


if __name__ == "__main__":
    main()
