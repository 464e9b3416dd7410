#!/usr/bin/env python3
"""Says where the gate's time goes: for each crate the processor seconds of its proof, tests, programs and edits.

    bench/gate.py [--out FILE] [WORD..]     runs `rt ci WORD..`, as `--anew` or names of crates, and watches it
    bench/gate.py [--out FILE] --watch PID  watches an `rt ci` that runs already, from now on

`rt ci` prints no times, so the script looks at the processes below it, four times a second, and adds up what each has
taken. A process's last quarter of a second can be missed: the script says how much of all seconds it has told apart.
With nothing kept from earlier runs, or with --anew, it is a run from nothing. It needs Linux, for /proc.

The table goes to standard output, or to FILE; what `rt ci` prints goes to standard error. The status is that of
`rt ci`.
"""

import argparse
import os
import re
import resource
import subprocess
import sys
import time

TOP = os.path.dirname(os.path.dirname(os.path.abspath(__file__)))
TICK = os.sysconf("SC_CLK_TCK")
KINDS = ["proof", "tests", "programs", "edits"]


class Work:
    """What one process that works for a crate has taken, with those that it started."""

    def __init__(self, crate, kind, now):
        self.crate, self.kind = crate, kind
        self.seconds, self.begun, self.ended = 0.0, now, now


def processes():
    """All processes: the number of each, its parent's, when it was started, and its seconds with its ended children's."""
    found = {}
    for name in os.listdir("/proc"):
        if not name.isdigit():
            continue
        try:
            with open(f"/proc/{name}/stat") as file:
                fields = file.read().rpartition(")")[2].split()
        except OSError:
            continue
        found[int(name)] = (int(fields[1]), int(fields[19]), sum(map(int, fields[11:15])) / TICK)
    return found


def below(found):
    """The children of each process."""
    children = {}
    for pid, (parent, _, _) in found.items():
        children.setdefault(parent, []).append(pid)
    return children


def read_words(pid):
    """A process's words and the folder that it works in."""
    try:
        with open(f"/proc/{pid}/cmdline", "rb") as file:
            words = file.read().decode(errors="replace").split("\0")
        return words, os.readlink(f"/proc/{pid}/cwd")
    except OSError:
        return [], ""


def task_of(words, folder):
    """Which crate a process works for, and at what."""
    if "--crate-name" in words[:-1]:
        crate = words[words.index("--crate-name") + 1]
        if "/rt-edit" in folder:
            return crate, "edits"
        if "--test" in words:
            return crate, "tests"
        return crate, "programs" if "--crate-checked" in words else "proof"
    for word in words:
        made = re.search(r"/rt-run-[^/]*/bin/(\w+)$", word) or re.search(r"\bout/(\w+?)(?:\.rattle)?(?:\.o)?$", word)
        if made:
            name = made.group(1)
            return (name[:-len("_tests")], "tests") if name.endswith("_tests") else (name, "programs")
    return None


def seconds_of(pid, found, children):
    """The seconds of a process and of all below it."""
    return found[pid][2] + sum(seconds_of(it, found, children) for it in children.get(pid, []))


def look(top, works):
    """Adds what the processes below `rt ci` have taken by now."""
    found = processes()
    children, now, left = below(found), time.monotonic(), [top]
    while left:
        pid = left.pop()
        if pid not in found:
            continue
        key = (pid, found[pid][1])
        if key not in works or works[key] is None:
            task = task_of(*read_words(pid)) if pid != top else None
            works[key] = Work(*task, now) if task else None
        work = works[key]
        if work is None:
            left += children.get(pid, [])
            continue
        work.seconds, work.ended = max(work.seconds, seconds_of(pid, found, children)), now


def chain(elapsed):
    """The longest chain of crates, each on the next, by the seconds that the proof of each lasted."""
    stands = {}
    with open(os.path.join(TOP, "crates.txt")) as file:
        for line in file:
            name, _, on = line.partition("#")[0].partition(":")
            if name.strip():
                stands[name.split()[0]] = on.split()
    longest = {}

    def of(crate):
        if crate not in longest:
            longest[crate] = max((of(it) for it in stands.get(crate, []) if it in stands), default=(0.0, []))
            longest[crate] = (longest[crate][0] + elapsed.get(crate, 0.0), longest[crate][1] + [crate] * (crate in elapsed))
        return longest[crate]

    return max((of(it) for it in stands), default=(0.0, []))


def table(works, lasted, total):
    """The table, as lines of Markdown."""
    done = [work for work in works.values() if work]
    crates = sorted({work.crate for work in done})
    rows = {crate: {kind: sum(w.seconds for w in done if (w.crate, w.kind) == (crate, kind)) for kind in KINDS} for crate in crates}
    elapsed = {crate: sum(w.ended - w.begun for w in done if (w.crate, w.kind) == (crate, "proof")) for crate in crates}
    yield f"| Crate | {' | '.join(kind.capitalize() for kind in KINDS)} | All | Proof, elapsed |"
    yield "|---|" + "---:|" * (len(KINDS) + 2)
    for crate in sorted(crates, key=lambda it: -sum(rows[it].values())):
        row = [rows[crate][kind] for kind in KINDS]
        yield f"| `{crate}` | " + " | ".join(f"{it:.0f}" for it in [*row, sum(row), elapsed[crate]]) + " |"
    sums = [sum(row[kind] for row in rows.values()) for kind in KINDS]
    yield "| all | " + " | ".join(f"{it:.0f}" for it in [*sums, sum(sums)]) + " | |"
    yield ""
    told = f", {100 * sum(sums) / total:.0f} percent of the {total:.0f} that were taken" if total else ""
    yield f"{sum(sums) / 60:.1f} minutes of processor time{told}, in {lasted / 60:.1f} minutes on {os.cpu_count()} processors."
    seconds, names = chain(elapsed)
    yield f"Longest chain of proofs: {seconds / 60:.1f} minutes, {' '.join(names)}."


def main():
    parser = argparse.ArgumentParser(description=__doc__.splitlines()[0])
    parser.add_argument("--out", help="where the table goes")
    parser.add_argument("--watch", type=int, metavar="PID", help="an rt ci that runs already")
    words, more = parser.parse_known_args()
    begun, works, total, status = time.monotonic(), {}, None, 0
    if words.watch:
        while os.path.exists(f"/proc/{words.watch}"):
            look(words.watch, works)
            time.sleep(0.25)
    else:
        run = subprocess.Popen(["rt", "ci", *more], cwd=TOP, stdin=subprocess.DEVNULL, stdout=sys.stderr)
        while run.poll() is None:
            look(run.pid, works)
            time.sleep(0.25)
        usage = resource.getrusage(resource.RUSAGE_CHILDREN)
        total, status = usage.ru_utime + usage.ru_stime, run.returncode
    lines = "\n".join(table(works, time.monotonic() - begun, total))
    if words.out:
        with open(words.out, "w") as file:
            file.write(lines + "\n")
    else:
        print(lines)
    return status


if __name__ == "__main__":
    raise SystemExit(main())
