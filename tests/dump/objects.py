#!/usr/bin/env python3
# SPDX-License-Identifier: Apache-2.0
"""usage: tests/dump/objects.py PROGRAM

Reads what sctp_dump --json --places prints of the files in crates/sctp_dump/data, and of packets with each byte in each text:
that each line is JSON, in which no object has a key twice, that each place holds the value of its key, and that there are the
same lines without --places, but for the places, and with payloads. Prints what differs; status 0 if nothing does."""
import json
import os
import shutil
import struct
import subprocess
import sys

ROOT = os.path.dirname(os.path.dirname(os.path.dirname(os.path.abspath(__file__))))
DATA = f"{ROOT}/crates/sctp_dump/data"
# Numbers whose place holds more than they say, or another number: bits, of which some bytes have several.
BITS = {"unordered", "beginning", "end", "immediate", "tag_reflected"}
wrong = []


def fail(line, text):
    wrong.append(text)
    print(f"objects.py: {text}: {line[:300]}")


def item(header, value):
    raw = header + struct.pack(">H", 4 + len(value)) + value
    return raw + bytes(-len(raw) % 4)


def packet(*chunks):
    return struct.pack(">HHII", 5000, 5001, 1, 0) + b"".join(chunks)


def data(ppid, payload):
    return item(b"\0\3", struct.pack(">IHHI", 1, 2, 3, ppid) + payload)


def with_texts():
    """Texts with each byte, alone and in a UTF-8 sequence where there is one, and packets that hold them."""
    texts = [bytes([byte]) for byte in range(256)] + [chr(code).encode() for code in range(128, 0x2100, 7)]
    for text in texts + [b'"\\/<!--</script>\x7f\0', "\U0001f600".encode(), b"\xed\xa0\x80", b"\xf4\x90\x80\x80", b""]:
        opened = struct.pack(">BBHIHH", 3, 0, 0, 0, len(text), len(text)) + text + text
        yield text, packet(item(b"\x06\0", item(b"\0\x0c", text) + item(b"\0\x0d", text)), data(51, text))
        yield text, packet(data(50, opened), data(51, text), data(53, text), item(b"\x09\0", item(b"\0\x05", text)))
        yield text, packet(item(b"\1\0", struct.pack(">IIHHI", 1, 2, 3, 4, 5) + item(b"\0\x0b", text) + item(b"\0\x07", text)))


def once(pairs):
    keys = [key for key, _ in pairs]
    if len(set(keys)) != len(keys):
        raise ValueError(f"a key twice in {keys}")
    return dict(pairs)


def refuse(word):
    raise ValueError(word)


def read(line):
    return json.loads(line, object_pairs_hook=once, parse_constant=refuse)


def look(line, value, packet_bytes, counts):
    """Compares each value with the bytes at its place, and returns the value without places."""
    if isinstance(value, list):
        return [look(line, each, packet_bytes, counts) for each in value]
    if not isinstance(value, dict):
        return value
    payload = {}
    for key, place in value.items():
        if not key.endswith("@"):
            continue
        counts["places"] += 1
        offset, size = place
        there = packet_bytes[offset:offset + size]
        held = value.get(key[:-1])
        if key == "@":
            continue
        if key == "payload@":
            # (it has its place alone)
            payload = {"payload": there.hex()}
            if held is not None:
                fail(line, "a payload twice")
            continue
        if isinstance(held, bool):
            good = key[:-1] in BITS and size == 1
        elif isinstance(held, int):
            good = size in (1, 2, 4) and len(there) == size and int.from_bytes(there, "big") == held
        elif key in ("value@", "information@"):
            good = held == there.hex()
        elif key == "address@":
            good = size in (4, 16) and len(there) == size
        else:
            good = held.encode() == there
        if not good:
            fail(line, f"{key} {place} is {there.hex()}, and not {held!r}")
    return payload | {key: look(line, each, packet_bytes, counts) for key, each in value.items()
                      if not key.endswith("@") and not (key == "bytes" and "packet" in value)}


def run(program, words, given=b""):
    done = subprocess.run([program, "--json", *words], input=given, capture_output=True, cwd=DATA, timeout=600)
    # (that one does)
    said = done.stderr.replace(b"sctp_dump: ethernet.pcap: ends inside a record\n", b"")
    if said or done.returncode not in (0, 1, 2, 3):
        fail(str(done.stderr), f"status {done.returncode} of {words}")
    return done.stdout.split(b"\n")


def main():
    program = os.path.abspath(sys.argv[1])
    counts = {"lines": 0, "places": 0}
    texts = "\n".join(raw.hex() for _, raw in with_texts()).encode()
    printed = []
    for words, given in ((sorted(os.listdir(DATA)), b""), (["-"], texts)):
        words = [*words, "--paths", "--check"]
        placed, plain = run(program, ["--places", *words], given), run(program, words, given)
        if len(placed) != len(plain):
            fail(str(words), "other lines with --places")
        for with_places, without in zip(placed, plain):
            if not with_places:
                continue
            counts["lines"] += 1
            try:
                value, bare = read(with_places), read(without)
            except ValueError as error:
                fail(repr(with_places), str(error))
                continue
            if look(with_places.decode(), value, bytes.fromhex(value.get("bytes", "")), counts) != bare:
                fail(without.decode(), "another line with --places")
        printed.append(placed)
    # Each text in UTF-8 is there as it was sent.
    for (text, _), line in zip(with_texts(), printed[1]):
        if is_text(text) and text.decode() not in strings(read(line)):
            fail(line.decode(), f"not {text}")
    if shutil.which("jq"):
        done = subprocess.run(["jq", "-c", "."], input=b"\n".join(sum(printed, [])), capture_output=True)
        if done.returncode or done.stdout.count(b"\n") != counts["lines"]:
            fail(str(done.stderr), "jq reads other lines")
    print("json: {lines} lines, {places} places".format(**counts) + (f", {len(wrong)} wrong" if wrong else ""))
    sys.exit(bool(wrong) or counts["places"] < 1000)


def is_text(raw):
    try:
        raw.decode()
        return True
    except UnicodeDecodeError:
        return False


def strings(value):
    if isinstance(value, dict):
        value = list(value.values())
    if isinstance(value, list):
        for each in value:
            yield from strings(each)
    if isinstance(value, str):
        yield value


if __name__ == "__main__":
    main()
