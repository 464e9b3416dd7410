#!/usr/bin/env python3
"""Puts fresh keys into a keys file, 32 random bytes of the system each, and leaves the others as they are.

    demo/fresh.py KEYS NAME..          as demo/fresh.py keys.json run drop
"""
import json, os, secrets, sys

if len(sys.argv) < 3:
    sys.exit(__doc__)
path, names = sys.argv[1], sys.argv[2:]
with open(path, encoding="utf-8") as file:
    keys = json.load(file)
keys.update((name, secrets.token_hex(32)) for name in names)
made = f"{path}.new"
with open(os.open(made, os.O_WRONLY | os.O_CREAT | os.O_TRUNC, 0o600), "w", encoding="utf-8") as file:
    json.dump(keys, file)
    file.write("\n")
os.replace(made, path)
