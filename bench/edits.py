#!/usr/bin/env python3
"""Tries the edits that the gate leaves out, those of crates/NAME/more-edits/, and says which of them still prove.

    bench/edits.py NAME..         the crates that are named
    bench/edits.py --since REV    those that changed since a revision, in the last commit or in files that aren't committed
    bench/edits.py --all          each crate

It works on a copy in a temporary folder, in which the edits of more-edits/ stand in the place of those of must-fail/.
It prints a line for each edit, the edits that tell against a contract last, and counts. The status is 1 if the prover
let an edit through, couldn't read one or didn't try one.
"""

import argparse
import os
import re
import shutil
import subprocess
import tempfile

TOP = os.path.dirname(os.path.dirname(os.path.abspath(__file__)))
OUTCOMES = ["NOT REFUSED", "BAD EDIT", "NOT TRIED"]


def crates_with_edits():
    """The crates that have edits beside those of the gate."""
    crates = os.path.join(TOP, "crates")
    return [name for name in sorted(os.listdir(crates)) if os.path.isdir(os.path.join(crates, name, "more-edits"))]


def changed_since(revision):
    """The crates of which a file differs from that of a revision."""
    git = ["git", "-C", TOP]
    paths = subprocess.run([*git, "diff", "--name-only", revision, "--", "crates"], check=True, capture_output=True, text=True).stdout
    paths += subprocess.run([*git, "ls-files", "--others", "--exclude-standard", "crates"], check=True, capture_output=True, text=True).stdout
    return {path.split("/")[1] for path in paths.splitlines() if path.count("/") > 1}


def copy_of(names, room):
    """Copies the repository's crates, with the edits to try of those that are named."""
    for file in ("crates.txt", "HANDLES"):
        shutil.copy(os.path.join(TOP, file), room)
    shutil.copytree(os.path.join(TOP, "crates"), os.path.join(room, "crates"), ignore=shutil.ignore_patterns("out", "must-fail", "more-edits"))
    for name in names:
        shutil.copytree(os.path.join(TOP, "crates", name, "more-edits"), os.path.join(room, "crates", name, "must-fail"))


def try_edits(name, room):
    """Proves a crate of the copy and tries its edits: what is said of each, by the edit's name."""
    folder = os.path.join(room, "crates", name)
    proof = subprocess.run(["rt", "check"], cwd=folder, stdin=subprocess.DEVNULL, stdout=subprocess.PIPE, stderr=subprocess.STDOUT, text=True)
    if proof.returncode != 0:
        raise SystemExit(f"{name} isn't proved as it stands, so its edits would show nothing:\n{proof.stdout[-2000:]}")
    run = subprocess.run(["rt", "must-fail", name], cwd=room, stdin=subprocess.DEVNULL, stdout=subprocess.PIPE, stderr=subprocess.STDOUT, text=True)
    told = {}
    for line in run.stdout.splitlines():
        found = re.search(r"must-fail (\w+/\S+\.edit): (.*)", line)
        if found:
            told[found.group(1)] = found.group(2)
    for edit in sorted(os.listdir(os.path.join(folder, "must-fail"))):
        told.setdefault(f"{name}/{edit}", "NOT TRIED: rt must-fail says nothing of it")
    return told


def main():
    parser = argparse.ArgumentParser(description="Tries the edits of crates/NAME/more-edits/.")
    parser.add_argument("names", nargs="*", metavar="NAME")
    parser.add_argument("--since", metavar="REV", help="the crates that changed since this revision")
    parser.add_argument("--all", action="store_true", help="each crate")
    words = parser.parse_args()
    every = crates_with_edits()
    for name in words.names:
        if not os.path.isdir(os.path.join(TOP, "crates", name)):
            raise SystemExit(f"there is no crate {name}")
        if name not in every:
            print(f"{name}: all its edits are the gate's")
    since = changed_since(words.since) if words.since else set()
    names = [name for name in every if words.all or name in words.names or name in since]
    if not (words.all or words.names or words.since):
        parser.error("name a crate, or give --since or --all")
    told = {}
    with tempfile.TemporaryDirectory(prefix="esa-edits-") as room:
        copy_of(names, room)
        for name in names:
            found = try_edits(name, room)
            told.update(found)
            for edit, outcome in found.items():
                print(f"{edit}: {outcome[:150]}", flush=True)
    wrong = {edit: outcome for edit, outcome in told.items() if outcome.startswith(tuple(OUTCOMES))}
    print()
    for edit, outcome in wrong.items():
        print(f"{edit}: {outcome}")
    counts = [f"{sum(outcome.startswith(kind) for outcome in told.values())} {kind.lower()}" for kind in OUTCOMES]
    print(f"{len(names)} crates, {len(told)} edits: {len(told) - len(wrong)} refused, {', '.join(counts)}")
    return 1 if wrong else 0


if __name__ == "__main__":
    raise SystemExit(main())
