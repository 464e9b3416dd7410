#!/usr/bin/env python3
"""Fails each call of the system that has to do with files, one in turn, for each command.

    hostile/faults.py [--esa PROGRAM]

`strace` answers a command's Nth call of each kind with an error (EIO), for each N. Then the command has to answer,
print and write what it does undisturbed, where the call doesn't matter; or to say which file or which block failed, by
status 4 or 5 and its line, or by status 5 and no more lines where that was the printer; or it didn't begin, since the
system's own loader failed. No file that was there before may be changed, and what is there of an output has to be the
beginning of what it becomes, or of a trace its first accesses; and the next call, with a fresh run key where it runs a
shuffle, must answer, print and write what it does undisturbed. Prints for each command how often which of these came.
"""

import re
import tempfile

from kill import Step
from stage import STEPS, arguments, call, files_of, prepare, program_of, restore, settle

KINDS = ["openat", "read", "pread64", "write", "pwrite64", "lseek", "ftruncate", "fstat", "newfstatat", "statx", "flock",
         "close"]
ROLES = "job|keys|drops|turns|input|coins|output|trace|turns_out"
NOT_BEGUN = 127


def ending_of(step, status, printed):
    """How a command ended, in a word, or none where it isn't among those that may be."""
    if (status, printed) == step.answer:
        return "as ever"
    if status == 5 and re.fullmatch(rf"outside fault: ({ROLES})\n", printed.decode()):
        return "file"
    if status == 5 and step.answer[1].startswith(printed):
        return "printer"
    if status == 4 and re.fullmatch(r"device fault: (lay|slot \d+)\n", printed.decode()):
        return "device"
    return "not begun" if status == NOT_BEGUN and not printed else None


def main():
    asked = arguments(__doc__).parse_args()
    esa = program_of(asked)
    wrong, endings = [], ["as ever", "file", "printer", "device", "not begun"]
    with tempfile.TemporaryDirectory() as folder:
        prepare(folder)
        print(f"{'command':<10} {'job':<14}", *(f"{ending:>10}" for ending in endings))
        for command, job, fields in STEPS:
            step = Step(esa, folder, command, job, fields)
            if asked.only and job not in asked.only:
                continue
            counts = dict.fromkeys(endings, 0)
            for kind, count in step.kinds().items():
                for number in range(1, count + 1 if kind in KINDS else 1):
                    restore(folder, step.before)
                    how = f"inject={kind}:error=EIO:when={number}"
                    status, printed = call(esa, folder, command, job, ["strace", "-o", "/dev/null", "-e", how])
                    after, ending = files_of(folder), ending_of(step, status, printed)
                    faults = [*step.faults(after), *step.faults_again(after)]
                    faults += [] if ending else [f"it ends with {status} and prints {printed}"]
                    wrong += [f"{command} {job}.json, call {number} of {kind} failed: {fault}" for fault in faults]
                    counts[ending or "as ever"] += 1
            restore(folder, step.done)
            print(f"{command:<10} {job:<14}", *(f"{number:>10}" for number in counts.values()), flush=True)
    settle(wrong)


if __name__ == "__main__":
    main()
