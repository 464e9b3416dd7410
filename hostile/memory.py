#!/usr/bin/env python3
"""Refuses each allocation in turn, for each command, in the program as built.

    hostile/memory.py [--esa PROGRAM]

A preloaded library (refuse.c, built here by cc) lets one call for memory fail, the Nth. Then the command has to say `out
of memory`, end with status 6, leave every file as it was and make none, but an external memory without an access, which
is zero bytes; or it has to answer, print and write what it does with ample memory. Prints for each command how many
allocations it makes and what came of refusing each.
"""

import mmap
import os
import struct
import subprocess
import tempfile

from stage import DEVICE, STEPS, arguments, call, files_of, prepare, program_of, restore, settle

HERE = os.path.dirname(os.path.abspath(__file__))


class Refuser:
    """The preloaded library, and the two numbers that it shares with this script."""

    def __init__(self, folder):
        self.library = os.path.join(folder, "refuse.so")
        subprocess.run(["cc", "-O1", "-shared", "-fPIC", "-o", self.library, os.path.join(HERE, "refuse.c")], check=True)
        self.path = os.path.join(folder, "calls")
        with open(self.path, "wb") as file:
            file.write(bytes(16))
        with open(self.path, "r+b") as file:
            self.numbers = mmap.mmap(file.fileno(), 16)

    def call(self, esa, folder, command, job, refused):
        """Calls a command with this allocation refused, 0 for none; its status, what it printed, and how often it asked."""
        self.numbers[:] = struct.pack("=QQ", refused, 0)
        around = ["env", f"LD_PRELOAD={self.library}", f"ESA_CALLS={self.path}"]
        status, printed = call(esa, folder, command, job, around)
        return status, printed, struct.unpack("=QQ", self.numbers[:])[1]


def is_unmade(before, after):
    """No file was changed or made, but an external memory that nothing was written to."""
    after = {name: data for name, data in after.items() if name != DEVICE or data.strip(b"\0")}
    return after == {name: data for name, data in before.items() if name != DEVICE}


def settled(files, fields):
    """The files that are the same whatever the schedule: of a crew's run not the external memory."""
    return {name: data for name, data in files.items() if name != DEVICE or fields.get("mode") != "crew"}


def main():
    asked = arguments(__doc__).parse_args()
    esa = program_of(asked)
    wrong = []
    with tempfile.TemporaryDirectory() as tools, tempfile.TemporaryDirectory() as folder:
        refuser = Refuser(tools)
        prepare(folder)
        print(f"{'command':<10} {'job':<14} {'allocations':>11} {'out of memory':>14} {'as with ample memory':>21}")
        for command, job, fields in STEPS:
            before = files_of(folder)
            before.pop(DEVICE, None)
            restore(folder, before)
            status, printed, count = refuser.call(esa, folder, command, job, 0)
            wrong += [f"{command} {job}.json ended with status {status}"] if status else []
            wrong += [] if count else [f"{command} {job}.json: no allocation was seen"]
            ample = files_of(folder)
            if asked.only and job not in asked.only:
                continue
            short = same = 0
            for refused in range(1, count + 1):
                restore(folder, before)
                answer = refuser.call(esa, folder, command, job, refused)[:2]
                after = files_of(folder)
                if answer == (6, b"out of memory\n") and is_unmade(before, after):
                    short += 1
                elif answer == (status, printed) and settled(after, fields) == settled(ample, fields):
                    same += 1
                else:
                    wrong.append(f"{command} {job}.json, allocation {refused}: {answer}")
            restore(folder, ample)
            print(f"{command:<10} {job:<14} {count:>11} {short:>14} {same:>21}", flush=True)
    settle(wrong)


if __name__ == "__main__":
    main()
