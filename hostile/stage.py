"""What the scripts of this folder share: the program, a folder with a small pipeline in it, and its commands."""

import argparse
import hashlib
import json
import os
import subprocess
import sys

TOP = os.path.dirname(os.path.dirname(os.path.abspath(__file__)))
sys.path.insert(0, os.path.join(TOP, "bench"))
from measure import program

KEYS = {name: hashlib.sha256(name.encode()).hexdigest() for name in ["outer", "inner", "drop", "run", "share"]}
DEVICE = "esa-device.bin"
SHUFFLE = {"b": 8, "c": 48, "s": 400, "k": 64, "w": 4, "q": 2000, "workers": 4, "attempts": 4, "mode": "turns", "seed": "5f" * 32}
RECORDS = 2000
DROPS = "".join(f"{place % 5}\n" for place in range(256))

# A command, the job in which it is called, and that job. Each finds the files that those before it wrote. Jobs of crews
# ask for no trace and no turns, which differ from run to run.
STEPS = [
    ("gen", "gen", {"output": "reports", "number": 1, "records": RECORDS, "crowds": 40}),
    ("encode", "encode", {"keys": "keys.json", "input": "reports", "output": "submissions", "nonce_base": 0}),
    ("encode", "shares", {"keys": "keys.json", "input": "reports", "output": "shared", "nonce_base": RECORDS, "shares": 2}),
    ("encode", "two", {"keys": "keys.json", "input": "reports", "output": "submissions2", "nonce_base": 0, "form": 2, "epoch": 7}),
    ("batch", "batch", {"input": "submissions", "output": "batch", "m": 100}),
    ("batch", "two_batch", {"input": "submissions2", "output": "batch2", "m": 100, "form": 2, "epoch": 7}),
    ("intake", "intake", {"inputs": ["submissions", "shared"], "output": "both", "m": 100, "mode": "turns"}),
    ("plan", "plan", {"records": RECORDS, "trace": "foretold", **SHUFFLE}),
    ("run", "run", {"keys": "keys.json", "input": "batch", "output": "database", "trace": "made", "turns_out": "turns",
                    "drops": "drops", "m": 100, "t": 20, **SHUFFLE}),
    ("run", "two_run", {"keys": "keys.json", "input": "batch2", "output": "database2", "m": 100, "t": 20, **SHUFFLE}),
    ("shuffle", "shuffle", {"keys": "keys.json", "input": "batch", "output": "handed_on", "m": 100, "t": 20, **SHUFFLE}),
    ("run", "crew", {"keys": "keys.json", "input": "batch", "output": "database3", "drops": "drops", "m": 100, "t": 20,
                     **SHUFFLE, "mode": "crew"}),
    ("shuffle", "crew_shuffle", {"keys": "keys.json", "input": "batch2", "output": "handed_on2", "m": 100, "t": 20,
                                 **SHUFFLE, "mode": "crew"}),
    ("analyse", "analyse", {"keys": "demo_keys.json", "input": "forward", "output": "counted"}),
    ("histogram", "histogram", {"input": "counted"}),
    ("upgrade", "upgrade", {"input": "counted", "output": "upgraded"}),
    ("recover", "recover", {"input": "counted", "output": "recovered"}),
]


def arguments(about):
    """The words of a script, which all may name the program."""
    words = argparse.ArgumentParser(description=about.splitlines()[0])
    words.add_argument("--esa", help="a built program, in place of one that is built here")
    words.add_argument("--only", metavar="JOB", nargs="*", help="try these jobs alone, and call the others once")
    return words


def program_of(asked):
    """The program that was named, or one that is built here."""
    return os.path.abspath(asked.esa) if asked.esa else program("esa")


def put(folder, name, text):
    """Writes a file of a folder."""
    with open(os.path.join(folder, name), "w", encoding="utf-8") as file:
        file.write(text)


def prepare(folder):
    """Puts into a folder what no command makes: keys, drops, jobs, and the demo's forward file with its keys."""
    put(folder, "keys.json", json.dumps(KEYS))
    put(folder, "drops", DROPS)
    for _, job, fields in STEPS:
        put(folder, f"{job}.json", json.dumps(fields))
    with open(os.path.join(TOP, "demo", "keys.json"), encoding="utf-8") as file:
        put(folder, "demo_keys.json", file.read())
    with open(os.path.join(TOP, "demo", "forward"), "rb") as file:
        forward = file.read()
    with open(os.path.join(folder, "forward"), "wb") as file:
        file.write(forward)


def call(esa, folder, command, job, around=(), **options):
    """Calls a command, perhaps by another program, and answers its status and what it printed."""
    run = subprocess.run([*around, esa, command, f"{job}.json"], cwd=folder, capture_output=True, **options)
    return run.returncode, run.stdout


def files_of(folder):
    """The bytes of each file of a folder, by its name."""
    held = {}
    for name in os.listdir(folder):
        with open(os.path.join(folder, name), "rb") as file:
            held[name] = file.read()
    return held


def restore(folder, held):
    """Makes a folder hold these files and no others."""
    held_now = files_of(folder)
    for name in held_now:
        if name not in held:
            os.remove(os.path.join(folder, name))
    for name, data in held.items():
        path = os.path.join(folder, name)
        if held_now.get(name) != data:
            with open(path, "wb") as file:
                file.write(data)


def settle(wrong):
    """Prints what was wrong, and ends with 1 if anything was."""
    for line in wrong[:20]:
        print("WRONG:", line)
    if wrong:
        raise SystemExit(f"{len(wrong)} things were wrong")
    print("All of it is as it has to be.")
