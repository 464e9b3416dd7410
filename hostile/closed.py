#!/usr/bin/env python3
"""Calls each command with standard streams closed.

    hostile/closed.py [--esa PROGRAM]

A file that is opened takes the least number that is free, which is then that of a standard stream, and what is printed
would go over it. Without a standard output nothing can be printed: each command has to end with status 5, and to leave
the files that it leaves otherwise, esa-device.bin among them. Without the other two streams it has to print and answer
as otherwise. Prints a line for each command.
"""

import os
import subprocess
import tempfile

from stage import STEPS, arguments, call, files_of, prepare, program_of, restore, settle

CLOSED = [[0], [1], [2], [0, 1], [1, 2], [0, 2], [0, 1, 2]]


def call_without(esa, folder, command, job, streams):
    """Calls a command with some streams closed, and answers its status and what it printed, if it could."""
    def close():
        for stream in streams:
            os.close(stream)

    out = None if 1 in streams else subprocess.PIPE
    run = subprocess.run([esa, command, f"{job}.json"], cwd=folder, stdout=out, preexec_fn=close, check=False)
    return run.returncode, run.stdout


def main():
    esa = program_of(arguments(__doc__).parse_args())
    wrong = []
    with tempfile.TemporaryDirectory() as folder:
        prepare(folder)
        for command, job, _ in STEPS:
            before = files_of(folder)
            answer = call(esa, folder, command, job)
            after = files_of(folder)
            for streams in CLOSED:
                restore(folder, before)
                wanted = (5, None) if 1 in streams else answer
                told = call_without(esa, folder, command, job, streams)
                if told != wanted or files_of(folder) != after:
                    wrong.append(f"{command} {job} without {streams}: {told}")
            restore(folder, after)
            print(f"{command} {job}: {len(CLOSED)} times")
    settle(wrong)


if __name__ == "__main__":
    main()
