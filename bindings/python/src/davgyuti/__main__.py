# SPDX-License-Identifier: Apache-2.0
"""Prints packets: `python -m davgyuti --help`."""

import argparse
import io
import os
import sys
from collections.abc import Iterator

import davgyuti


def lines(packet: davgyuti.Packet) -> Iterator[str]:
    """What examples/expected.txt has of a packet: each chunk, and the text."""
    for (raw, items), chunk in zip(packet.raw_items(), packet, strict=True):
        yield f"  chunk {raw.type}, flags {raw.flags}, {len(raw.value)} bytes"
        if isinstance(chunk, davgyuti.Data | davgyuti.IData):
            ssn = chunk.ssn if isinstance(chunk, davgyuti.Data) else 0
            mid, fsn = (chunk.mid, chunk.fsn) if isinstance(chunk, davgyuti.IData) else (0, 0)
            yield (
                f"    tsn {chunk.tsn}, stream {chunk.stream}, ssn {ssn}, mid {mid}, fsn {fsn}, ppid {chunk.ppid}, "
                f"U {chunk.is_unordered:d}, B {chunk.is_beginning:d}, E {chunk.is_end:d}, I {chunk.immediate_ack:d}"
            )
            yield f"    payload {chunk.payload.hex()}"
        if isinstance(chunk, davgyuti.Sack):
            yield f"    cumulative tsn {chunk.cumulative_tsn_ack}, a_rwnd {chunk.a_rwnd}"
            yield "    blocks" + "".join(f" {block.start}-{block.end}" for block in chunk.blocks)
            yield "    duplicates" + "".join(f" {tsn}" for tsn in chunk.duplicates)
        for item in items:
            yield f"    item {item.type}, {len(item.value)} bytes"
    yield packet.text()


def standard_input() -> Iterator[str]:
    with open(0, encoding="ascii", errors="replace", closefd=False) as file:
        yield from (line for line in map(str.strip, file) if line and not line.startswith("#"))


def complain(text: str) -> None:
    print(f"python -m davgyuti: {text}", file=sys.stderr)


def main() -> int:
    parser = argparse.ArgumentParser(
        prog="python -m davgyuti",
        description="Prints SCTP packets (RFC 9260): their chunks and a line of text for each, or the first fault.",
        epilog="The status is 0 where all are packets, 1 where one has a fault, 2 where one isn't hexadecimal, or where "
        "reading or writing fails.",
    )
    parser.add_argument(
        "packets",
        metavar="PACKET",
        nargs="*",
        help="in hexadecimal, blanks allowed inside quotes; if there is none, each line of standard input is one, "
        "but for empty lines and those that begin with #",
    )
    parser.add_argument("--report", action="store_true", help="print all that a packet holds, as sctp_dump does")
    parser.add_argument("--any-checksum", action="store_true", help="accept every checksum")
    parser.add_argument("--zero-checksum", action="store_true", help="accept a checksum of zero (RFC 9653)")
    parser.add_argument("--strict-padding", action="store_true", help="refuse padding that is missing or not zero")
    parser.add_argument("--version", action="version", version=f"davgyuti {davgyuti.__version__}")
    options = parser.parse_args()
    policy = davgyuti.Policy(
        any_checksum=options.any_checksum, zero_checksum=options.zero_checksum, strict_padding=options.strict_padding
    )
    if isinstance(sys.stdout, io.TextIOWrapper):
        sys.stdout.reconfigure(errors="backslashreplace")
    status = 0
    for number, word in enumerate(options.packets or standard_input(), 1):
        try:
            data = bytes.fromhex(word)
        except ValueError:
            complain(f"packet {number} isn't hexadecimal: {word[:40]!a}")
            status = 2
            continue
        print(f"packet of {len(data)} bytes")
        try:
            packet = davgyuti.Packet(data, policy)
        except davgyuti.Fault as fault:
            print(f"  fault {fault.code} at byte {fault.offset}: {fault.text}")
            status = max(status, 1)
            continue
        if options.report:
            print("".join(f"  {line}\n" for line in packet.report().splitlines()), end="")
        else:
            print("\n".join(lines(packet)))
    sys.stdout.flush()
    return status


if __name__ == "__main__":
    try:
        sys.exit(main())
    except KeyboardInterrupt:
        complain("interrupted")
        status = 130
    except BrokenPipeError:
        # (What reads has had enough.)
        status = 1
    except OSError as error:
        complain(error.strerror or str(error))
        status = 2
    # (Python would complain once more as it ends, of what is left to be written.)
    os.dup2(os.open(os.devnull, os.O_WRONLY), sys.stdout.fileno())
    sys.exit(status)
