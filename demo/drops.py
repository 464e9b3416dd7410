#!/usr/bin/env python3
"""Prints a drops file: 256 numbers drawn from a normal distribution, rounded, and none below 0.

    demo/drops.py MEAN DEVIATION >drops
"""
import random, sys

if len(sys.argv) != 3:
    sys.exit(__doc__)
for _ in range(256):
    print(max(0, round(random.SystemRandom().gauss(float(sys.argv[1]), float(sys.argv[2])))))
