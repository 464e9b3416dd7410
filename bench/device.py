#!/usr/bin/env python3
"""How often a device in a file calls the system, beside the accesses that are made of it.

esa_bench_blocks writes each of 88 blocks once and reads each once. strace lists the calls on the device's file: one to open it
anew, one to size it, and then one for each access, which gives or takes the whole block at its place. The bytes go from
and to the caller's buffer.
"""

import os
import re
import subprocess
import tempfile
from collections import Counter

from measure import program

CALLS = "openat,ftruncate,pread64,pwrite64,read,write,lseek,close"
ACCESSES = 176


def main():
    bench = program("esa_bench_blocks")
    with tempfile.TemporaryDirectory() as folder:
        log = os.path.join(folder, "calls")
        subprocess.run(["strace", "-f", "-e", f"trace={CALLS}", "-e", "signal=none", "-o", log, bench, "device"],
                       cwd=folder, check=True, stdout=subprocess.DEVNULL)
        with open(log) as lines:
            calls, cut = calls_on("device.bin", lines)
    for name, count in sorted(calls.items()):
        print(f"{name:>10} {count:>5}")
    if cut or calls["pread64"] + calls["pwrite64"] != ACCESSES or calls["read"] + calls["write"] + calls["lseek"]:
        raise SystemExit(f"{ACCESSES} accesses took other calls, {cut} of them for a part of a block")


def calls_on(name, lines):
    """How often each call was made on the file of this name, and how many calls gave or took a part alone."""
    calls, cut, number = Counter(), 0, None
    for line in lines:
        opened = re.search(r'openat\(.*"%s".* = (\d+)$' % re.escape(name), line)
        if opened:
            number = opened.group(1)
            calls["openat"] += 1
            continue
        call = re.search(r"(\w+)\((\d+)\b.* = (-?\d+)", line)
        if not call or call.group(2) != number:
            continue
        calls[call.group(1)] += 1
        if call.group(1) in ("pread64", "pwrite64"):
            asked = re.search(r", (\d+), \d+\) = (-?\d+)$", line)
            cut += asked is None or asked.group(1) != asked.group(2)
        if call.group(1) == "close":
            number = None
    return calls, cut


if __name__ == "__main__":
    main()
