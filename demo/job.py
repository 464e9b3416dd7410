#!/usr/bin/env python3
"""Prints a job of run for a batch of so many records, with the threshold T for crowds and a fresh seed.

    demo/job.py RECORDS T >run.json

Its sizes are those that docs/SIZING.md has for the next larger number of records, and m is the number of records, so a
batch with fewer is refused.
"""
import json, os, re, secrets, sys

if len(sys.argv) != 3:
    sys.exit(__doc__)
records, least = int(sys.argv[1]), int(sys.argv[2])
page = os.path.join(os.path.dirname(os.path.abspath(__file__)), "..", "docs", "SIZING.md")
with open(page, encoding="utf-8") as file:
    rows = re.findall(r"^\| ([\d,]+) \|(( [\d,]+ \|){6}) 0 of", file.read(), re.M)
settings = [(int(of.replace(",", "")), [int(number) for number in re.findall(r"\d+", row.replace(",", ""))]) for of, row, _ in rows]
sizes = next((numbers for of, numbers in settings if of >= records), None)
if sizes is None:
    sys.exit(f"a batch has at most {settings[-1][0]} records")
print(json.dumps({"keys": "keys.json", "input": "batch", "output": "counted", "seed": secrets.token_hex(32),
                  **dict(zip("bcskwq", sizes)), "workers": 1, "attempts": 4, "m": records, "t": least, "mode": "turns"}))
