"""What the scripts of this folder share: programs of the repository, their instructions and memory, and targets."""

import os
import re
import subprocess
import tempfile

TOP = os.path.dirname(os.path.dirname(os.path.abspath(__file__)))

# The sizes at which a command over records is measured, and what is wanted of it: its instructions beside those of the
# bare work at one size, a record's instructions at a large size beside those at a small one, and its peak of memory
# beside its files from the size on where these outweigh the program itself.
SIZES = [1_000, 10_000, 100_000, 262_144]
RATIO, RATIO_AT = 1.5, 100_000
GROWTH, GROWTH_FROM, GROWTH_TO = 1.3, 10_000, 262_144
PEAK, PEAK_FROM = 3, 100_000


def is_built(path):
    """Whether a program is there, as the gate leaves it, and no file that it may be built of is newer."""
    if not os.path.exists(path):
        return False
    built = os.path.getmtime(path)
    texts = [os.path.join(TOP, name) for name in ["crates.txt", "HANDLES"]]
    for folder, folders, files in os.walk(os.path.join(TOP, "crates")):
        folders[:] = [name for name in folders if name != "out"]
        texts += [os.path.join(folder, name) for name in files if name.endswith((".rt", ".antt"))]
    return all(os.path.getmtime(text) <= built for text in texts)


def program(name):
    """Answers the path of a program of the repository. Unless it is built already, it is proved and built here."""
    folder = os.path.join(TOP, "crates", name)
    path = os.path.join(folder, "out", name)
    if not is_built(path):
        with tempfile.TemporaryFile() as log:
            subprocess.run(["rt", "run"], cwd=folder, stdout=log, stderr=log, stdin=subprocess.DEVNULL)
    if not os.path.exists(path):
        raise SystemExit(f"{name} was not built: run rt run in crates/{name}")
    return path


def instructions(command, folder):
    """How many instructions a command executes, as callgrind counts them. It must end with status 0."""
    run = subprocess.run(
        ["valgrind", "--tool=callgrind", "--callgrind-out-file=/dev/null", *command],
        cwd=folder, stdout=subprocess.DEVNULL, stderr=subprocess.PIPE, text=True)
    if run.returncode != 0:
        raise SystemExit(f"{command} ended with status {run.returncode}: {run.stderr[-400:]}")
    return int(re.search(r"Collected : (\d+)", run.stderr).group(1))


def allocations(command, folder):
    """How often a command takes memory, as memcheck counts it. It must end with status 0."""
    run = subprocess.run(
        ["valgrind", "--tool=memcheck", "--leak-check=no", *command],
        cwd=folder, stdout=subprocess.DEVNULL, stderr=subprocess.PIPE, text=True)
    if run.returncode != 0:
        raise SystemExit(f"{command} ended with status {run.returncode}: {run.stderr[-400:]}")
    return int(re.search(r"total heap usage: ([\d,]+) allocs", run.stderr).group(1).replace(",", ""))


def peak_memory(command, folder):
    """The most bytes that a command had in memory at once."""
    child = subprocess.Popen(command, cwd=folder, stdout=subprocess.DEVNULL)
    _, status, usage = os.wait4(child.pid, 0)
    child.returncode = os.waitstatus_to_exitcode(status)
    if child.returncode != 0:
        raise SystemExit(f"{command} ended with status {child.returncode}")
    return usage.ru_maxrss * 1024


def targets_of(name, rows):
    """The targets of a command, by its row at each size: a record's instructions, and those and the peak beside what they are measured by."""
    yield f"{name}, instructions of bare at {RATIO_AT}", rows[RATIO_AT][1], RATIO
    yield f"{name}, instructions a record at {GROWTH_TO} of those at {GROWTH_FROM}", rows[GROWTH_TO][0] / rows[GROWTH_FROM][0], GROWTH
    for size in SIZES:
        if size >= PEAK_FROM:
            yield f"{name}, peak of its files at {size}", rows[size][2], PEAK


def settle(targets):
    """Says of each target (what is measured, what was found, the most that it may be) whether it holds, and ends with status 1 where one doesn't."""
    failed = False
    for target, found, limit in targets:
        print(f"{target}: {found:.3f}, at most {limit}: {'holds' if found <= limit else 'FAILS'}")
        failed |= found > limit
    if failed:
        raise SystemExit(1)
