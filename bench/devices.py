#!/usr/bin/env python3
"""Makes the worked cases of a device that fails, flips a bit or holds another block, without esa.

    bench/devices.py

writes device_attempts.txt, device_form_two.txt, device_blocks.txt and device_replays.txt in crates/esa_cases/data, and
prints the lines that a run of them prints where nothing differs. The accesses and the turns are those of
bench/accesses.py, and the blocks those of bench/seal.py.

In the first file is a job with a second attempt, whose first one leaves more than a tail holds, and in the second one
of form Two: each access fails in turn, and each read gives a bit otherwise than it was written, which is another one at
each access. A bit that would be another one at a write changes nothing. In the other two the device holds in each slot
in turn a block that isn't the one that was written last: that of another slot, that of the attempt before, or one that
opens, with another record in it.
"""

import argparse
import os
import sys

sys.path.insert(0, os.path.dirname(os.path.abspath(__file__)))
import accesses
import seal

DATA = os.path.join(os.path.dirname(os.path.dirname(os.path.abspath(__file__))), "crates", "esa_cases", "data")
MASTERS = {"inner": bytes(range(32)).hex(), "outer": bytes(range(32, 64)).hex(), "run": bytes(range(96, 128)).hex()}
EPOCH = 7
NAMES = ["Input", "Mid", "Tail", "Output"]


class Job:
    """A job over the four records a to d: what it is called, what it says, and its accesses."""

    def __init__(self, kind, form, fields, coins, **sizes):
        self.kind, self.form, self.fields, self.coins = kind, form, fields, coins
        self.sizes = argparse.Namespace(n=4, b=2, s=2, q=4, w=2, workers=1, form=form, **sizes)
        self.shuffle = accesses.run(self.sizes, coins, [], True, tell=lambda *words: None)
        self.made = self.shuffle.accesses
        self.last = len(self.shuffle.turns) - 1

    def slot(self, access):
        """The slot's number, which is the end of its nonce."""
        return access[5] & 0xFFFFFFFF

    def lines(self):
        """The setting of all its cases."""
        masters = [f'"{name}":"{digits}"' for name, digits in MASTERS.items()]
        yield "setting keys"
        yield "  file keys"
        yield from text_lines("{" + ",".join(masters + [f'"drop":"{bytes(range(64, 96)).hex()}"']) + "}")
        yield ""
        yield f"setting {self.kind}"
        yield "  in keys"
        yield "  file coins"
        drawn = []
        for coins in self.coins:
            targets, *orders = [",".join(part) for part in coins.split(":")]
            drawn.append(f'{{"targets":[{targets}],"orders":[{",".join(f"[{order}]" for order in orders)}]}}')
        yield from text_lines('{"attempts":[' + ",".join(drawn) + "]}")
        yield "  file job.json"
        yield from text_lines(
            '{"keys":"keys","input":"batch","output":"database","trace":"trace","turns_out":"turns_out",'
            f'"coins":"coins","b":2,"s":2,"w":2,"q":4,"workers":1,"m":1,"t":1,"mode":"turns",{self.fields}}}')
        yield "  file batch"
        yield "    text ESAB"
        yield "    hex 01 00000004 00b0" if self.form == 1 else f"    hex 02 00000004 0130 {EPOCH:08x}"
        for place in range(4):
            yield from hex_lines(envelope(self.form, *record(place)))
        yield ""
        yield "bytes ACCESSES"
        yield from map(accesses.line_of, self.made)
        yield ""

    def database(self, values):
        yield "  left database"
        yield "    text ESAD"
        yield f"    hex {self.form:02x} {len(values):08x} 00000000"
        for value in sorted(values):
            yield f"    hex 01 {value.encode().hex()} 00000001"

    def records(self, count):
        """The trace file of so many accesses, and the turns that are stored with the last of them."""
        yield "  left trace"
        yield "    text ESAT"
        yield f"    hex 01 {count:08x}"
        yield f"    first {19 * count} of ACCESSES"
        yield "  left turns_out"
        for attempt, turns in enumerate(self.shuffle.stored[count - 1]):
            if attempt:
                yield "    line next"
            yield f"    {turns} times line 0"

    def case(self, title, odd, run):
        yield f"case {title}"
        yield f"  in {self.kind}"
        yield from odd
        yield "  run run job.json"
        yield from run
        yield ""

    def good(self, values="abcd"):
        yield (f"  prints ok attempt {self.last} records 4 forwarded 4 rows 4 unopened 0 "
               f"accesses {len(self.made)}")
        yield from self.database(values)
        yield from self.records(len(self.made))

    def fault(self, count):
        yield f"  prints device fault: slot {self.slot(self.made[count - 1])}"
        yield "  status 4"
        yield from self.records(count)

    def tampered(self, count):
        yield f"  prints tampered: slot {self.slot(self.made[count - 1])}"
        yield "  status 7"
        yield from self.records(count)

    def first_read(self, slot):
        """The number of the first read of a slot."""
        numbers = enumerate(self.made, 1)
        return next(x for x, access in numbers if access[0] == accesses.READ and self.slot(access) == slot)


def record(place):
    """The nonce, the crowd and the value of the record of a place."""
    return place + 1, "crowd", "abcd"[place]


def words(form, nonce):
    """The words of bench/seal.py for this form."""
    epoch = None if form == 1 else EPOCH
    return argparse.Namespace(epoch=epoch, nonce=nonce, texts=[], **MASTERS)


def envelope(form, nonce, crowd, value):
    """An outer envelope."""
    given = words(form, nonce)
    plain = seal.outer_plain(crowd.encode(), seal.sealed_report(given, nonce, value.encode()))
    return seal.seal(seal.master_of(given.outer, given.epoch), b"outer", nonce, plain)


def item(form, real):
    """An item: of a record, or a dummy."""
    if real is None:
        return bytes(137 if form == 1 else 265)
    nonce, crowd, value = real
    return b"\x01" + seal.outer_plain(crowd.encode(), seal.sealed_report(words(form, nonce), nonce, value.encode()))


def places_of(job, access):
    """The places whose records a block has, and how many places it has with its dummies."""
    _, region, attempt, index, _, _ = access
    made = job.shuffle.attempts[attempt]
    if region == accesses.INPUT:
        return list(job.shuffle.places(index)), 2
    if region == accesses.MID:
        return made.chunks[index // 2, index % 2], job.sizes.c
    if region == accesses.TAIL:
        return made.tails[index], job.sizes.k
    return made.out[2 * index:2 * index + 2], 2


def block(job, access, changed=None):
    """The block that a write of a job takes. Its first record is another one, where that is wanted."""
    _, region, _, _, _, nonce = access
    places, room = places_of(job, access)
    reals = [record(place) for place in places] + [None] * (room - len(places))
    if changed is not None:
        reals[0] = changed
    if region == accesses.INPUT:
        text = b"".join(envelope(job.form, *real) for real in reals)
    else:
        text = b"".join(item(job.form, real) for real in reals)
    return seal.seal(bytes.fromhex(MASTERS["run"]), b"block", nonce, text)


def text_lines(text):
    """Pieces that add a text, each of which ends behind a comma."""
    while text:
        end = len(text) if len(text) <= 100 else text.rindex(",", 0, 100) + 1
        yield f"    text {text[:end]}"
        text = text[end:]


def hex_lines(data):
    """Pieces that add bytes."""
    for at in range(0, len(data), 32):
        yield f"    hex {data[at:at + 32].hex()}"


def each_access(job):
    """Each access fails, and each flips a bit."""
    for x in range(1, len(job.made) + 1):
        yield from job.case(f"fail_each_access: {job.kind}, {x}", [f"  device fails {x}"], job.fault(x))
    for x, access in enumerate(job.made, 1):
        byte, bit = 37 * x % access[4], x % 8
        ends = job.tampered(x) if access[0] == accesses.READ else job.good()
        yield from job.case(f"flip_each_access: {job.kind}, {x}", [f"  device flips {x} {byte} {bit}"], ends)


def holds(slot, data):
    yield f"  device holds {slot}"
    yield from hex_lines(data)


def latest_writes(job):
    """The last write of each slot."""
    return {job.slot(access): access for access in job.made if access[0] == accesses.WRITE}


def other_blocks(job):
    """In each slot stands the block of the next slot with a block of this length."""
    latest = latest_writes(job)
    for slot, access in latest.items():
        others = [other for other in sorted(latest) if latest[other][4] == access[4] and other != slot]
        other = next((x for x in others if x > slot), others[0])
        count = job.first_read(slot)
        yield from job.case(f"other_block: {job.kind}, slot {slot} holds that of slot {other}",
                            holds(slot, block(job, latest[other])), job.tampered(count))


def replaced_blocks(job):
    """In each slot with a record stands a block that opens, with another first record in it."""
    for slot, access in latest_writes(job).items():
        places, _ = places_of(job, access)
        if not places:
            continue
        changed = block(job, access, (26, "crowd", "z"))
        yield from job.case(f"replaced_block: {job.kind}, {NAMES[access[1]]} {access[3]}",
                            holds(slot, changed), job.good("abcdz".replace("abcd"[places[0]], "")))


def replayed_blocks(job):
    """In each slot that the first attempt wrote stands the block of the first attempt."""
    for access in job.made:
        if access[0] == accesses.WRITE and access[1] != accesses.INPUT and access[2] == 0:
            slot = job.slot(access)
            yield from job.case(f"replayed_block: {job.kind}, slot {slot}", holds(slot, block(job, access)),
                                job.tampered(job.first_read(slot)))


def write(name, about, *parts):
    """Writes a file of cases, and prints the lines of a run of them."""
    lines = [f"# {about} Made by bench/devices.py.", ""]
    titles = []
    for line in (line for part in parts for line in part):
        if line.startswith("case "):
            assert line not in titles, line
            titles.append(line)
        lines.append(line)
    with open(os.path.join(DATA, name), "w") as file:
        file.write("\n".join(lines).rstrip("\n") + "\n")
    for title in titles:
        print(f"{name}: {title.removeprefix('case ')}: ok")


def main():
    base = Job("base", 1, '"c":1,"k":1,"attempts":1', ["0010:012:012"], c=1, k=1)
    second = Job("a second attempt", 1, '"c":1,"k":0,"attempts":2', ["0010:01:01", "0101:01:01"], c=1, k=0)
    wide = Job("form Two", 2, '"c":1,"k":1,"attempts":1', ["0010:012:012"], c=1, k=1)
    about = "What run answers at each access of two attempts."
    write("device_attempts.txt", about, second.lines(), each_access(second))
    about = "What run answers at each access in form Two."
    write("device_form_two.txt", about, wide.lines(), each_access(wide))
    about = "What run answers where a slot of the device holds another block than was written there."
    write("device_blocks.txt", about, base.lines(), other_blocks(base), replaced_blocks(base))
    about = "The same in a job of two attempts."
    write("device_replays.txt", about, second.lines(), replayed_blocks(second), replaced_blocks(second))


if __name__ == "__main__":
    main()
