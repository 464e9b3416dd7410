#!/usr/bin/env python3
"""Writes demo/forward: 400 sealed reports as a shuffler hands them on, made without esa.

Each report is a value in 64 bytes, sealed under the inner master of keys.json: HMAC-SHA-256 of the standard
library gives the two keys and the tag, and ChaCha20 with a 64-bit counter and a 64-bit nonce stands below.
Seven of the envelopes have a changed tag, so they don't open.
"""
import hashlib
import hmac
import json
import os
import struct

HERE = os.path.dirname(os.path.abspath(__file__))
MASK = 0xFFFFFFFF


def rotate(x, n):
    return ((x << n) | (x >> (32 - n))) & MASK


def quarter(s, a, b, c, d):
    s[a] = (s[a] + s[b]) & MASK
    s[d] = rotate(s[d] ^ s[a], 16)
    s[c] = (s[c] + s[d]) & MASK
    s[b] = rotate(s[b] ^ s[c], 12)
    s[a] = (s[a] + s[b]) & MASK
    s[d] = rotate(s[d] ^ s[a], 8)
    s[c] = (s[c] + s[d]) & MASK
    s[b] = rotate(s[b] ^ s[c], 7)


def chacha_block(key, counter, nonce):
    """64 bytes of keystream: the constant, the key, the counter and the nonce of 64 bits each."""
    state = list(struct.unpack("<4I", b"expand 32-byte k")) + list(struct.unpack("<8I", key))
    state += [counter & MASK, counter >> 32, nonce & MASK, nonce >> 32]
    s = state[:]
    for _ in range(10):
        quarter(s, 0, 4, 8, 12)
        quarter(s, 1, 5, 9, 13)
        quarter(s, 2, 6, 10, 14)
        quarter(s, 3, 7, 11, 15)
        quarter(s, 0, 5, 10, 15)
        quarter(s, 1, 6, 11, 12)
        quarter(s, 2, 7, 8, 13)
        quarter(s, 3, 4, 9, 14)
    return struct.pack("<16I", *[(a + b) & MASK for a, b in zip(s, state)])


def mac(key, message):
    return hmac.new(key, message, hashlib.sha256).digest()


def seal(master, label, nonce, plain):
    enc, tag_key = mac(master, b"enc:" + label), mac(master, b"mac:" + label)
    stream = b"".join(chacha_block(enc, n, nonce) for n in range((len(plain) + 63) // 64))
    cipher = bytes(a ^ b for a, b in zip(plain, stream))
    head = struct.pack(">Q", nonce)
    return head + cipher + mac(tag_key, label + head + cipher)


def report(value):
    return struct.pack(">H", len(value)) + value + bytes(62 - len(value))


def main():
    # The seal of 32 zero bytes under the zero key and nonce 0 has a known cipher text.
    known = "76b8e0ada0f13d90405d6ae55386bd28bdd219b8a08ded1aa836efcc8b770dc7"
    assert chacha_block(bytes(32), 0, 0)[:32].hex() == known
    with open(os.path.join(HERE, "keys.json")) as file:
        master = bytes.fromhex(json.load(file)["inner"])
    values = (
        [b"crash: none"] * 231
        + [b"crash: out of memory"] * 84
        + [b"crash: disk full"] * 41
        + [b"crash: timeout"] * 22
        + [b"note\twith a tab"] * 9
        + ["crash: d\u00e9j\u00e0 vu".encode()] * 6
    )
    order = sorted(range(len(values)), key=lambda n: mac(b"order", struct.pack(">I", n)))
    envelopes = [seal(master, b"inner", 1000 + n, report(values[n])) for n in order]
    for n in range(7):
        changed = bytearray(seal(master, b"inner", 5000 + n, report(b"changed on the way")))
        changed[-1] ^= 1
        envelopes.insert(50 * n + 3, bytes(changed))
    header = b"ESAF" + struct.pack(">BIH", 1, len(envelopes), 104)
    with open(os.path.join(HERE, "forward"), "wb") as file:
        file.write(header + b"".join(envelopes))


if __name__ == "__main__":
    main()
