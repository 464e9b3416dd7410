#!/usr/bin/env python3
"""Makes the worked cases of files in which one byte is another one, and of files that are cut, without esa.

    bench/changed.py

writes crates/esa_cases/data/changed_*.txt, and prints the lines that a run of them prints where nothing differs. A
small file of each kind is read with each of its bytes in turn set to 0, to 255, and to its complement, and cut before
each of its bytes; of the drops file those of some lines. What is answered is worked out from docs/FORMATS.md: the tests
of a file are gone through below, an envelope opens where its tag is right by Python's HMAC, and JSON is what Python's
reader takes. Neighbouring bytes with one answer are one case.
"""

import collections
import json
import os
import re
import struct
import sys

sys.path.insert(0, os.path.join(os.path.dirname(os.path.abspath(__file__)), "..", "demo"))
from make_forward import chacha_block, mac, seal

DATA = os.path.join(os.path.dirname(os.path.dirname(os.path.abspath(__file__))), "crates", "esa_cases", "data")
ZERO = bytes(32)


def with_byte(change):
    """Makes a file with the byte at a place changed."""
    return lambda data, at: data[:at] + bytes([change(data[at])]) + data[at + 1:]


FRONT, BEHIND = "first {n} of {name}", "after {n} of {name}"
# How a file is made from another and a place: the case's title, its pieces, and the file.
WAYS = [
    ("changed_bytes: {kind}, byte {n} is 0", [FRONT, "hex 00", BEHIND], with_byte(lambda byte: 0)),
    ("changed_bytes: {kind}, byte {n} is 255", [FRONT, "hex ff", BEHIND], with_byte(lambda byte: 255)),
    ("changed_bytes: {kind}, byte {n} is its complement", [FRONT, "not {n} of {name}", BEHIND], with_byte(lambda byte: 255 - byte)),
    ("each_prefix: {kind}, {n} bytes", [FRONT], lambda data, at: data[:at]),
]
RECORD = {b"ESAB": {1: 176, 2: 304}, b"ESAF": {1: 104, 2: 232}}

# An answer: the lines that are printed, the status, and the file `output` where one is made.
Answer = collections.namedtuple("Answer", "lines status output", defaults=[None])


def refused(text):
    """A refusal."""
    return Answer((f"refused: {text}",), 3)


# The files.

def header(magic, version, count):
    """The header of a batch or a forward file."""
    return magic + struct.pack(">BIH", version, count, RECORD[magic][version]) + (struct.pack(">I", 7) if version == 2 else b"")


def report(value, version):
    """A report of the form of the version."""
    return (struct.pack(">H", len(value)) + value).ljust({1: 64, 2: 192}[version], b"\0")


def master_of(version):
    """The inner master: 32 zero bytes, or that of the epoch 7."""
    return ZERO if version == 1 else mac(ZERO, b"epoch:" + struct.pack(">I", 7))


def forward_of(version):
    """A forward file of the reports `a` and `b`."""
    sealed = [seal(master_of(version), b"inner", nonce, report(value, version)) for nonce, value in [(1, b"a"), (2, b"b")]]
    return header(b"ESAF", version, 2) + b"".join(sealed)


def batch_of(version):
    """A batch of two envelopes, which nobody opens here."""
    return header(b"ESAB", version, 2) + bytes([1]) * RECORD[b"ESAB"][version] + bytes([2]) * RECORD[b"ESAB"][version]


def database(rows, unopened, version):
    """A database file."""
    spelled = b"".join(bytes([len(value)]) + value + struct.pack(">I", count) for value, count in rows)
    return b"ESAD" + struct.pack(">BII", version, len(rows), unopened) + spelled


# What is answered.

def header_refusal(word, magic, data):
    """The first test of a header that a file fails, or its version and where its records begin."""
    if len(data) < 11:
        return f"{word} cut want 11 have {len(data)}"
    version, count, size = struct.unpack(">BIH", data[4:11])
    if data[:4] != magic:
        return f"{word} bad-magic"
    if version not in (1, 2):
        return f"{word} bad-version"
    start = 11 if version == 1 else 15
    if len(data) < start:
        return f"{word} cut want {start} have {len(data)}"
    if size != RECORD[magic][version]:
        return f"{word} bad-size"
    whole = start + count * size
    if len(data) < whole:
        return f"{word} cut want {whole} have {len(data)}"
    if len(data) > whole:
        return f"{word} trailing"
    return None


def records_of(magic, data):
    """The records of a file whose header is good."""
    size = RECORD[magic][data[4]]
    start = 11 if data[4] == 1 else 15
    return [data[at:at + size] for at in range(start, len(data), size)]


def read_batch(data):
    """Of a batch with at least one record."""
    refusal = header_refusal("batch", b"ESAB", data)
    if refusal:
        return refused(refusal)
    records = records_of(b"ESAB", data)
    falls = [place for place in range(1, len(records)) if records[place] < records[place - 1]]
    if falls:
        return refused(f"batch unsorted {falls[0]}")
    return Answer((), 0) if records else refused("batch too-few 0 1")


def opened(envelope, master):
    """The text of an envelope, where its tag is right."""
    body, tag = envelope[:-32], envelope[-32:]
    if mac(mac(master, b"mac:inner"), b"inner" + body) != tag:
        return None
    nonce, = struct.unpack(">Q", body[:8])
    stream = b"".join(chacha_block(mac(master, b"enc:inner"), block, nonce) for block in range(len(body) // 64 + 1))
    return bytes(one ^ other for one, other in zip(body[8:], stream))


def analyse(data):
    """Of a forward file, under the master of 32 zero bytes."""
    refusal = header_refusal("forward", b"ESAF", data)
    if refusal:
        return refused(refusal)
    version = data[4]
    master = ZERO if version == 1 else mac(ZERO, b"epoch:" + data[11:15])
    counts, unopened = collections.Counter(), 0
    for envelope in records_of(b"ESAF", data):
        text = opened(envelope, master)
        if text is None:
            unopened += 1
        else:
            length, = struct.unpack(">H", text[:2])
            counts[text[2:2 + length]] += 1
    rows = sorted(counts.items())
    return Answer((f"rows {len(rows)} unopened {unopened}",), 0, database(rows, unopened, version))


def shown(value):
    """A value as histogram prints it."""
    return "".join("\\\\" if byte == 0x5c else chr(byte) if 0x20 <= byte <= 0x7e else f"\\x{byte:02x}" for byte in value)


def histogram(data):
    """Of a database file."""
    if len(data) < 13:
        return refused(f"database cut want 13 have {len(data)}")
    if data[:4] != b"ESAD":
        return refused("database bad-magic")
    version, count, unopened = struct.unpack(">BII", data[4:13])
    if version not in (1, 2):
        return refused("database bad-version")
    at, before, lines = 13, None, []
    for row in range(count):
        if at >= len(data):
            return refused(f"database cut want {at + 1} have {len(data)}")
        length = data[at]
        if length > (62 if version == 1 else 190):
            return refused(f"database bad-length {row}")
        if at + 5 + length > len(data):
            return refused(f"database cut want {at + 5 + length} have {len(data)}")
        value = data[at + 1:at + 1 + length]
        number, = struct.unpack(">I", data[at + 1 + length:at + 5 + length])
        if before is not None and value <= before:
            return refused(f"database unsorted {row}")
        if number == 0:
            return refused(f"database zero-count {row}")
        lines.append(f"{number:>10} {shown(value)}")
        at, before = at + 5 + length, value
    if at < len(data):
        return refused("database trailing")
    return Answer((*lines, f"unopened {unopened}"), 0)


def of_json(refusal):
    """Of a file that has to be JSON, and is none with any byte changed, nor cut."""
    def answer(data):
        try:
            json.loads(data.decode("utf-8"))
        except ValueError:
            return refused(refusal)
        raise SystemExit(f"{data!r} is JSON, and what is said of it isn't worked out here")
    return answer


def lines_of(data):
    """The lines of a text."""
    lines = data.split(b"\n")
    return lines[:-1] if lines[-1] == b"" else lines


def is_decimal(line):
    """A decimal number, as lines have it."""
    return line.isdigit() and (line == b"0" or not line.startswith(b"0"))


def drops(data):
    """Of a drops file."""
    lines = lines_of(data)
    for number in range(1, 257):
        if number > len(lines) or not is_decimal(lines[number - 1]) or int(lines[number - 1]) > 262_144:
            return refused(f"drops {number}")
    return refused("drops 257") if len(lines) > 256 else Answer((), 0)


def plan(data):
    """Of a turns file, by a plan of two workers in one attempt, which is good and has 22 accesses whatever turns are made."""
    for number, line in enumerate(lines_of(data), 1):
        if not is_decimal(line) or int(line) > 1:
            return refused(f"turns {number}")
    return Answer(("attempt 0 good", "accesses 22"), 0)


NUMBERS = '"records":4,"b":2,"c":1,"s":2,"k":1,"w":2,"q":4,"workers":2,"attempts":1,"mode":"turns"'
COINS = '{"attempts":[{"targets":[0,0,1,0],"orders":[[0,1,2],[0,1,2]]}]}'
JOB = '{"keys":"keys","input":"in","output":"out"}'
KEYS = json.dumps({name: "0f" * 32 for name in ["outer", "inner", "drop", "run"]})
DROPS = b"2\n" * 256

# Of each kind: its name, the file, the places that are changed (each, where there are none), the name that the file has in
# the case, the setting, how it is read, and what is answered.
Kind = collections.namedtuple("Kind", "name data places file setting call answer")
FILES = {
    "batches": [Kind(f"batch, version {version}", batch_of(version), None, "batch", None, "read batch 1 batch", read_batch) for version in [1, 2]],
    "databases": [Kind(f"database, version {version}", database([(b"a", 1), (b"b", 1)], 0, version), None, "input", "analyse",
                       "run histogram job.json", histogram) for version in [1, 2]],
    "forward_files": [Kind(f"forward, version {version}", forward_of(version), None, "input", "analyse", "run analyse job.json", analyse)
                      for version in [1, 2]],
    "texts": [
        Kind("job", JOB.encode(), None, "job.json", None, "read job analyse alone job.json", of_json("job job")),
        Kind("keys", KEYS.encode(), None, "keys", None, "read keys run whole keys", of_json("keys keys")),
        Kind("coins", COINS.encode(), None, "coins", "plan", "run plan job.json", of_json("coins shape")),
        Kind("drops", DROPS, [*range(6), *range(254, 258), *range(506, 512)], "drops", None, "read drops drops", drops),
        Kind("turns", b"0\n1\n0\n", None, "turns", "plan with turns", "run plan job.json", plan),
    ],
}


def groups_of(kind, made):
    """The answers for neighbouring places of a file that is made from one: from which to which, and what is answered."""
    groups = []
    for at in kind.places or range(len(kind.data)):
        answer = kind.answer(made(kind.data, at))
        answer = answer._replace(lines=tuple(re.sub(rf" have {at}$", " have {n}", line) for line in answer.lines))
        if groups and groups[-1][1] == at - 1 and groups[-1][2] == answer:
            groups[-1][1] = at
        else:
            groups.append([at, at, answer])
    return groups


def hex_lines(data):
    """Bytes, as lines of a case."""
    return [f"    hex {data[at:at + 32].hex()}" for at in range(0, len(data), 32)]


def case_of(kind, title, pieces, first, last, answer):
    """The lines of a case."""
    setting = [f"  in {kind.setting}"] if kind.setting else []
    output = ["  left output", *hex_lines(answer.output)] if answer.output is not None else []
    status = [f"  status {answer.status}"] if answer.status else []
    return [f"each {first} to {last}", f"case {title}", *setting, f"  file {kind.file}",
            *(f"    {piece.format(name=name_of(kind), n='{n}')}" for piece in pieces), f"  {kind.call}",
            *("  prints " + line.replace("\\", "\\\\") for line in answer.lines), *status, *output, ""]


ABOUT = "# Files in which one byte is 0, 255 or its complement, and cut files. bench/changed.py makes this, and says what is expected."
SETTINGS = {
    "analyse": ["  file job.json", '    text {"keys":"keys.json","input":"input","output":"output"}',
                "  file keys.json", f'    text {{"inner":"{ZERO.hex()}"}}'],
    "plan": ["  file job.json", f'    text {{{NUMBERS},"coins":"coins"}}'],
    "plan with turns": ["  file job.json", f'    text {{{NUMBERS},', '    text "coins":"coins","turns":"turns"}', "  file coins", f"    text {COINS}"],
}


def name_of(kind):
    """The name that a file's bytes have in the cases."""
    return kind.name.replace(", version ", "_").upper()


def write(file, kinds):
    """Writes the cases of a file, and answers what a run of them prints."""
    out, said = [ABOUT, ""], []
    for setting in dict.fromkeys(kind.setting for kind in kinds if kind.setting):
        out += [f"setting {setting}", *SETTINGS[setting], ""]
    for kind in kinds:
        out += [f"bytes {name_of(kind)}", *(line[2:] for line in hex_lines(kind.data)), ""]
        for title, pieces, made in WAYS:
            for first, last, answer in groups_of(kind, made):
                out += case_of(kind, title.format(kind=kind.name, n="{n}"), pieces, first, last, answer)
                said.append(f"{file}: {title.format(kind=kind.name, n=last)}: ok")
    with open(os.path.join(DATA, file), "w", encoding="utf-8") as made:
        made.write("\n".join(out).rstrip("\n") + "\n")
    return said


def main():
    for name, kinds in FILES.items():
        print("\n".join(write(f"changed_{name}.txt", kinds)))


if __name__ == "__main__":
    main()
