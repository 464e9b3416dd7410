#!/usr/bin/env python3
"""Lets two runs shuffle in one folder at the same time, again and again.

    hostile/shared.py [--esa PROGRAM]

Both use the file esa-device.bin of the folder, each with its own run key and output. One of them has to end as it does
alone; the other ends so too, where it came when the first had gone, or it says `device fault: lay`, ends with status 4 and
writes nothing. Which of the two comes first, and by how much, is changed from time to time. Prints how often each pair
of endings came.
"""

import collections
import json
import os
import subprocess
import tempfile
import time

from stage import KEYS, STEPS, arguments, call, files_of, prepare, program_of, put, restore, settle

TIMES = 100
ALONE, LOCKED = "as alone", "device fault: lay"


def ending_of(status, printed, output, alone):
    """How one of the two ended, in words."""
    if (status, printed, output) == alone:
        return ALONE
    if (status, printed, output) == (4, b"device fault: lay\n", None):
        return LOCKED
    return f"status {status}, {printed!r}, {'no' if output is None else 'an'} output"


def main():
    esa = program_of(arguments(__doc__).parse_args())
    with tempfile.TemporaryDirectory() as folder:
        prepare(folder)
        for command, job, fields in STEPS:
            if command == "run":
                break
            call(esa, folder, command, job)
        for name in ["one", "other"]:
            put(folder, f"{name}_keys.json", json.dumps({**KEYS, "run": os.urandom(32).hex()}))
            ran = {field: fields[field] for field in fields if field not in ["trace", "turns_out"]}
            put(folder, f"{name}.json", json.dumps({**ran, "keys": f"{name}_keys.json", "output": f"{name}_database"}))
        before = files_of(folder)
        begun = time.monotonic()
        status, printed = call(esa, folder, "run", "one")
        lasts = time.monotonic() - begun
        alone = (status, printed, files_of(folder)["one_database"])
        pairs = collections.Counter()
        for number in range(TIMES):
            restore(folder, before)
            first, second = ["one", "other"] if number % 2 else ["other", "one"]
            runs = {first: subprocess.Popen([esa, "run", f"{first}.json"], cwd=folder, stdout=subprocess.PIPE)}
            time.sleep(lasts * number / TIMES)
            runs[second] = subprocess.Popen([esa, "run", f"{second}.json"], cwd=folder, stdout=subprocess.PIPE)
            said = {name: run.communicate()[0] for name, run in runs.items()}
            after = files_of(folder)
            pairs[tuple(sorted(ending_of(runs[name].returncode, said[name], after.get(f"{name}_database"), alone) for name in runs))] += 1
    for pair, count in pairs.most_common():
        print(f"{count:>4}  {pair[0]}; {pair[1]}")
    settle([f"{pair[0]}; {pair[1]}" for pair in pairs if set(pair) - {ALONE, LOCKED} or ALONE not in pair])


if __name__ == "__main__":
    main()
