#!/usr/bin/env python3
# SPDX-License-Identifier: Apache-2.0
"""usage: tests/dump/times.py PROGRAM

Writes pcapng captures, one with a packet on each day until 2554, when 2^64 nanoseconds end, and one with packets of each unit of
time, with and without an offset, and compares each form of sctp_dump's times with Python's datetime, in integers, and which packets
of some days are from a time on and up to it. Prints what differs; status 0 if nothing does."""
import datetime
import itertools
import json
import random
import struct
import subprocess
import sys

COOKIE_ACK = bytes.fromhex("138813880102030400000000 0b000004")
SECOND = 10 ** 9
END = 2 ** 64


def block(kind, body):
    size = struct.pack("<I", 12 + len(body))
    return struct.pack("<I", kind) + size + body + size


def capture(packets):
    """A file with a packet of each unit (as if_tsresol), offset in seconds, and time in units."""
    interfaces = {}
    parts = [block(0x0A0D0D0A, struct.pack("<IHHq", 0x1A2B3C4D, 1, 0, -1))]
    for unit, offset, ticks in packets:
        if (unit, offset) not in interfaces:
            interfaces[unit, offset] = len(interfaces)
            options = struct.pack("<HHB3xHHq4x", 9, 1, unit, 14, 8, offset)
            parts.append(block(1, struct.pack("<HHI", 248, 0, 0) + options))
        place = interfaces[unit, offset]
        parts.append(block(6, struct.pack("<IIIII", place, ticks >> 32, ticks % 2 ** 32, 16, 16) + COOKIE_ACK))
    return b"".join(parts)


def seconds(value, digits):
    """A number of units of 10^-digits seconds."""
    whole, fraction = divmod(abs(value), 10 ** digits)
    return f"{'-' * (value < 0)}{whole}." + (f"{fraction:0{digits}}" if digits else "0")


class Seen:
    """When a packet was seen."""

    def __init__(self, unit, offset, ticks):
        parts = 2 ** (unit - 128) if unit > 127 else 10 ** unit
        digits = 9 if unit > 127 else min(unit, 19)
        self.captured = seconds(ticks * 10 ** digits // parts + offset * 10 ** digits, digits)
        self.digits = 9 if unit > 6 else 6 if unit > 3 else 3
        nanoseconds = ticks * SECOND // parts
        is_known = nanoseconds < END and abs(offset) * SECOND < END and 0 <= nanoseconds + offset * SECOND < END
        self.nanoseconds = nanoseconds + offset * SECOND if is_known else None

    def date(self, form, end):
        if self.nanoseconds is None:
            return self.captured
        whole, fraction = divmod(self.nanoseconds, SECOND)
        date = datetime.datetime(1970, 1, 1) + datetime.timedelta(seconds=whole)
        return f"{date:{form}}." + f"{fraction:09}"[:self.digits] + end

    def since(self, nanoseconds):
        """With as many digits as its own unit, or the difference, needs."""
        if self.nanoseconds is None:
            return "-"
        span = self.nanoseconds - nanoseconds
        digits = max(self.digits, 9 if span % 1000 else 6 if span % 10 ** 6 else 3)
        return seconds(span // 10 ** (9 - digits), digits)


def times(packets, form):
    """What is printed of each packet."""
    before = None
    for packet in packets:
        before = packet.nanoseconds if before is None else before
        if form == "captured":
            yield packet.captured
        elif form == "iso":
            yield packet.date("%Y-%m-%dT%H:%M:%S", "Z")
        elif form == "utc":
            yield packet.date("%H:%M:%S", "")
        else:
            yield packet.since(before)
        if form == "delta" and packet.nanoseconds is not None:
            before = packet.nanoseconds


def printed(program, form, words, file):
    words = [program, *words, *(["--time", form] if form != "captured" else [])]
    return subprocess.run(words, input=file, capture_output=True, text=False).stdout.decode().splitlines()[:-1]


def differences(program, packets, forms):
    file, seen = capture(packets), [Seen(*packet) for packet in packets]
    for form in forms:
        lines = [line.split(" ")[1] for line in printed(program, form, ["--brief"], file)]
        objects = [json.loads(line, parse_float=str).get("time", "-") for line in printed(program, form, ["--json"], file)]
        for packet, wanted, line, value in itertools.zip_longest(packets, times(seen, form), lines, objects):
            if not wanted == line == value:
                yield f"{form} of {packet}: {line} in a line, {value} in JSON, and not {wanted}"


def bounds(program, days, file):
    """Days whose packet is not the only one that is from its time on and up to it, as a date or as seconds."""
    for day in days:
        seen, first = Seen(*day), Seen(0, 0, 0)
        for time in (seen.date("%Y-%m-%dT%H:%M:%S", ""), "+" + seen.since(first.nanoseconds)):
            lines = printed(program, "iso", ["--brief", "--from", time, "--to", time], file)
            if [line.split(" ")[1] for line in lines] != [seen.date("%Y-%m-%dT%H:%M:%S", "Z")]:
                yield f"from {time} on and up to it: {lines[:3]}"


def main():
    program = sys.argv[1]
    days = [(0, 0, 86400 * day + 7919 * day % 86400) for day in range(END // SECOND // 86400)]
    chance = random.Random(1)
    units = [(unit, offset, chance.randrange(2 ** chance.randrange(1, 64))) for unit in (*range(42), *range(126, 194), 255)
             for offset in (0, 3600, -1700000001, 2 ** 35) for _ in range(8)]
    chance.shuffle(units)
    found = list(differences(program, days, ["iso"])) + list(differences(program, units, ["captured", "iso", "utc", "relative", "delta"]))
    dates = ("1970-01-01", "1970-12-31", "1972-02-29", "2000-02-29", "2024-12-31", "2100-03-01")
    some = [days[(datetime.date.fromisoformat(it) - datetime.date(1970, 1, 1)).days] for it in dates]
    found += list(bounds(program, some + days[-1:], capture(days)))
    for text in found[:20]:
        print(f"times: {text}")
    print(f"times: {len(days)} days, {len(units)} times of units, {len(found)} wrong")
    sys.exit(bool(found))


main()
