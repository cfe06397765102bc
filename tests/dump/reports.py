#!/usr/bin/env python3
# SPDX-License-Identifier: Apache-2.0
"""usage: tests/dump/reports.py PROGRAM

Compares what sctp_dump prints of packets with the rows of tests/dump/reports.txt, which says how a row reads. The packets of rows
with the same options are in one capture. Prints what differs; status 0 if nothing does."""
import os
import re
import struct
import subprocess
import sys

ROWS = os.path.join(os.path.dirname(os.path.abspath(__file__)), "reports.txt")
HEADER = bytes.fromhex("13881388 01020304 00000000")
POLYNOMIAL = 0x82F63B78


def whole(raw):
    return raw, len(raw)


def cut(raw):
    return raw[2:], int.from_bytes(raw[:2], "big")


def chunk(raw):
    return whole(HEADER + raw)


def text(raw):
    """DATA whose payload is a text."""
    return chunk(struct.pack(">BBHIHHI", 0, 3, 16 + len(raw), 1, 2, 3, 51) + raw + bytes(-len(raw) % 4))


def sealed(raw):
    """A packet with this checksum field, in which this number is expected: the last four bytes lead its CRC32c there."""
    front = HEADER[:8] + raw[:4] + bytes.fromhex("63000008")
    register, end = 0xFFFFFFFF, ~int.from_bytes(raw[4:], "little") & 0xFFFFFFFF
    for byte in HEADER[:8] + bytes(4) + front[12:]:
        register ^= byte
        for _ in range(8):
            register = register >> 1 ^ POLYNOMIAL * (register & 1)
    for _ in range(32):
        end = (end ^ POLYNOMIAL) << 1 | 1 if end >> 31 else end << 1
    return whole(front + (register ^ end).to_bytes(4, "little"))


BLOCK, LINE, OBJECT = r"\n((?s:.*))", r"(?:\S+ ){5}(.*)", r'("length".*)}$'
# Of each call the packet, the options, and what is compared of what is printed.
CALLS = {
    "report": (chunk, "", r"(?:.*\n){3}((?s:.*))"),
    "report-fault": (whole, "--strict", r"(error: (?s:.*))"),
    "report-packet": (whole, "", BLOCK),
    "report-whole": (whole, "--payload", BLOCK),
    "report-cut": (cut, "", BLOCK),
    "report-cut-whole": (cut, "--payload", BLOCK),
    "report-checksum": (sealed, "", r"\nchecksum \w+: (.*)"),
    "brief": (whole, "--brief", LINE),
    "brief-cut": (cut, "--brief", LINE),
    "json": (whole, "--json", OBJECT),
    "json-cut": (cut, "--json", OBJECT),
    "json-places": (whole, "--json --places", OBJECT),
    "json-cut-places": (cut, "--json --places", OBJECT),
    "json-text": (text, "--json", r'"text":(.*)}]}$'),
}


def rows():
    """Each row, and the lines of its answer."""
    found = []
    with open(ROWS, encoding="utf-8") as file:
        for line in file.read().split("\n"):
            if line.startswith("  "):
                found[-1][1].append(line[2:])
            elif line and line[0] != "#":
                row, _, answer = line.partition(" = ")
                found.append((row, [answer] if answer else []))
    return found


def printed(program, options, packets):
    """What is printed of each packet, and of all."""
    capture = struct.pack("<IHHiIII", 0xA1B2C3D4, 2, 4, 0, 0, 65535, 248)
    for raw, length in packets:
        capture += struct.pack("<IIII", 0, 0, len(raw), length) + raw
    done = subprocess.run([program, *options], input=capture, capture_output=True, timeout=600)
    ends = "\n" if {"--brief", "--json"} & {*options} else "\n\n"
    # The packets aren't of one association: forms.py looks at what was sent again.
    found = re.sub(r" ~ tsn=\d+ again=\d+", "", done.stdout.decode()).rstrip("\n").split(ends)
    if done.stderr or done.returncode not in (0, 1) or len(found) != len(packets) + 1:
        sys.exit(f"reports.py: status {done.returncode} with {options}: {done.stderr.decode()}{found}")
    return found


def main():
    if len(sys.argv) != 2:
        sys.exit(__doc__)
    by_options, wrong = {}, 0
    for row, answer in rows():
        call, _, words = row.partition(" ")
        make, options, pattern = CALLS[call]
        raw = bytes.fromhex(re.sub(r"(\w\w)\*(\d+)", lambda it: it[1] * int(it[2]), words))
        by_options.setdefault(options, []).append((row, answer, pattern, make(raw)))
    for options, group in by_options.items():
        options = options.split()
        for (row, answer, pattern, _), it in zip(group, printed(sys.argv[1], options, [it[-1] for it in group])):
            found = re.search(pattern, it)
            said = found[1] if found else "none"
            if "--json" in options:
                said = said.replace(',"', ', "')
            wanted = "\n".join(answer)
            if {"--brief", "--json"} & {*options}:
                wanted = re.sub(r"\n *", " ", wanted)
            if said != wanted:
                wrong += 1
                print(f"reports.py: {row}\n< {wanted}\n> {said}")
    print(f"reports: {sum(map(len, by_options.values()))} rows" + (f", {wrong} wrong" if wrong else ""))
    sys.exit(bool(wrong))


if __name__ == "__main__":
    main()
