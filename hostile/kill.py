#!/usr/bin/env python3
"""Kills the program at each call of the system that it makes, and lets it run again.

    hostile/kill.py [--esa PROGRAM]

`strace` kills each command of stage.py at its Nth call of each kind, for each N. Then every file that was there before
must be byte for byte as it was, and what is there of an output must be the beginning of what it becomes; and the same
command, with a fresh run key where it runs a shuffle, must answer, print and write what it does undisturbed. Prints for
each command how often it was killed, how often an output was cut then, and how often all outputs were there whole. Of a
crew the calls of its first thread count.
"""

import collections
import json
import os
import re
import tempfile

from stage import DEVICE, KEYS, STEPS, arguments, call, files_of, prepare, program_of, restore, settle

KILLED = -9


def is_beginning(part, whole):
    """What is there of a file is its beginning, or it is a whole trace of the first accesses of the one that is due."""
    accesses, rest = divmod(len(part) - 9, 19)
    is_trace = part[:5] == whole[:5] == b"ESAT\x01" and rest == 0 and part[5:9] == accesses.to_bytes(4, "big")
    return whole.startswith(part) or (is_trace and whole[9:].startswith(part[9:]))


def is_missed(status, fields):
    """How often a thread of a crew makes a call differs from run to run, so a run may end before the one that kills it."""
    return status == 0 and fields.get("mode") == "crew"


class Step:
    """A command in its folder: the files before it, and what it answers and leaves undisturbed."""

    def __init__(self, esa, folder, command, job, fields):
        self.esa, self.folder, self.command, self.job = esa, folder, command, job
        self.outputs = {fields[field] for field in ["output", "trace", "turns_out"] if field in fields}
        self.before = {name: data for name, data in files_of(folder).items() if name != DEVICE}
        restore(folder, self.before)
        self.answer = call(esa, folder, command, job)
        self.done = files_of(folder)

    def kinds(self):
        """How many calls of each kind it makes, from its own beginning on and but for its last one."""
        log = os.path.join(self.folder, "calls")
        call(self.esa, self.folder, self.command, self.job, ["strace", "-o", log])
        with open(log, encoding="utf-8", errors="replace") as file:
            kinds = re.findall(r"^(\w+)\(", file.read(), re.M)
        os.remove(log)
        return collections.Counter(kind for kind in kinds if kind not in ["execve", "exit_group"])

    def kill(self, kind, number):
        """Kills it at a call, and answers the files that it leaves."""
        restore(self.folder, self.before)
        how = f"inject={kind}:signal=KILL:when={number}"
        status, _ = call(self.esa, self.folder, self.command, self.job, ["strace", "-o", "/dev/null", "-e", how])
        return status, files_of(self.folder)

    def faults(self, after):
        """What is wrong with the files that it left."""
        for name in self.before:
            if after[name] != self.before[name]:
                yield f"it changed {name}"
        for name in after:
            if name in self.outputs and not is_beginning(after[name], self.done[name]):
                yield f"it left a wrong {name}"
            elif name not in self.outputs | {DEVICE} and name not in self.before:
                yield f"it made {name}"

    def faults_again(self, after):
        """What is wrong with its next call, over what it left."""
        fresh = {"keys.json": json.dumps({**KEYS, "run": os.urandom(32).hex()}).encode()} if self.command in ["run", "shuffle"] else {}
        restore(self.folder, {**after, **fresh})
        answer, held = call(self.esa, self.folder, self.command, self.job), files_of(self.folder)
        if answer != self.answer:
            yield f"then it answers {answer}"
        for name in self.outputs:
            if held[name] != self.done[name]:
                yield f"then it writes another {name}"


def main():
    asked = arguments(__doc__).parse_args()
    esa = program_of(asked)
    wrong = []
    with tempfile.TemporaryDirectory() as folder:
        prepare(folder)
        print(f"{'command':<10} {'job':<14} {'killed':>7} {'output cut':>11} {'output whole':>13}")
        for command, job, fields in STEPS:
            step = Step(esa, folder, command, job, fields)
            if asked.only and job not in asked.only:
                continue
            killed = cut = whole = 0
            for kind, count in step.kinds().items():
                for number in range(1, count + 1):
                    status, after = step.kill(kind, number)
                    faults = [*step.faults(after), *step.faults_again(after)]
                    faults += [] if status == KILLED or is_missed(status, fields) else [f"it ended with {status}"]
                    wrong += [f"{command} {job}.json, killed at call {number} of {kind}: {fault}" for fault in faults]
                    same = [name in after and after[name] == step.done[name] for name in step.outputs]
                    killed, whole = killed + (status == KILLED), whole + (same != [] and all(same))
                    cut += any(name in after and after[name] != step.done[name] for name in step.outputs)
            restore(folder, step.done)
            print(f"{command:<10} {job:<14} {killed:>7} {cut:>11} {whole:>13}", flush=True)
    settle(wrong)


if __name__ == "__main__":
    main()
