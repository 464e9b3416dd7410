#!/usr/bin/env python3
"""Makes report lines of log lines: reads standard input, writes standard output.

    lines.py syslog                            lines as `Nov 22 10:00:01 host program[123]: message`, or with a moment
                                               as `2026-11-22T10:00:01.123456+00:00`
    lines.py json MOMENT SENDER CROWD VALUE    JSON lines, with the names of the four fields

A report line is a moment, a sender, a crowd and a value with tabs between. Of a syslog line the moment is its number,
the crowd its program, and the value its message with `#` for each number, so that messages that differ in numbers
alone count as one. Of a JSON line the moment has to be a whole number. Tabs become spaces, bytes that a sender can't
have `_`, senders are cut at 64 bytes and values at 62, which is what a report of form One has room for. Lines that it
can't read are left out, and their number is said at the end.
"""
import json, re, sys

SYSLOG = re.compile(r"(?:\w{3} +\d+ [\d:]+|\d{4}-\S+) (\S+) ([^:\[]+)(?:\[\d+\])?: ?(.*)")

def syslog(number, line):
    host, program, message = SYSLOG.match(line).groups()
    return number, host, program, re.sub(r"\d+", "#", message)

def of_json(number, line):
    moment, *rest = [json.loads(line)[field] for field in sys.argv[2:6]]
    return int(moment), *rest

if (sys.argv[1:2], len(sys.argv)) not in [(["syslog"], 2), (["json"], 6)]:
    sys.exit(__doc__)
read, unread = {"syslog": syslog, "json": of_json}[sys.argv[1]], 0
for number, line in enumerate(open(0, encoding="utf-8", errors="replace"), 1):
    try:
        fields = [re.sub(r"[\t\n]", " ", str(field)).encode() for field in read(number, line.rstrip("\n"))]
    except (AttributeError, KeyError, TypeError, ValueError):
        unread += 1
        continue
    sender = re.sub(rb"[^!-~]", b"_", fields[1])[:64] or b"_"
    sys.stdout.buffer.write(b"\t".join([fields[0], sender, fields[2], fields[3][:62]]) + b"\n")
if unread:
    print(f"lines that could not be read: {unread}", file=sys.stderr)
