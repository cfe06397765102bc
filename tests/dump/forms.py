#!/usr/bin/env python3
# SPDX-License-Identifier: Apache-2.0
"""usage: tests/dump/forms.py PROGRAM

Compares the three forms of what sctp_dump prints, which it writes apart: makes from its JSON the lines of --brief and the blocks,
and looks whether it prints these, of its files in crates/sctp_dump/data and data/, under a key too, of the packets in
examples/rules.txt, refused.txt and objects.py, and of one with each code, whose names it compares with names.txt. Prints what
differs; status 0 if nothing does."""
import collections
import glob
import itertools
import json
import os
import shutil
import struct
import subprocess
import sys
import tempfile

sys.dont_write_bytecode = True
from auth import pcap, plain as with_auth, vectors
from objects import DATA, ROOT, data, item, packet, with_texts

COUNTS = (
    "packets {packets}: accepted {accepted}, refused {refused} (size {size}, length {length}, padding {padding}, value {value}), "
    "cut off {cut_off}; skipped {skipped} (not SCTP {not_sctp}, fragment {fragment}, cut {cut}, malformed {malformed}, "
    "too long {too_long}, unknown {unknown}, link type {link_type})"
)
# What isn't a field of its own in a line or a block.
HEADS = {"chunk", "parameter", "cause", "name", "flags", "length", "payload", "text", "label", "protocol", "value"}
# The words of a block, and the form of a number, where they aren't `key number`.
WORDS = {
    "initiate_tag": "tag {:#010x}", "cumulative_tsn_ack": "cumulative tsn {}", "request_number": "request {}",
    "response_number": "response {}", "a_rwnd": "a_rwnd {}", "address": "{}", "indication": "{:#010x}", "increment": "increment {} ms",
    "staleness": "staleness {} us", "sender_next_tsn": "\n    sender's next tsn {}", "receiver_next_tsn": "\n    receiver's next tsn {}",
}
# Bytes at the end of a chunk, and what of its length is before them.
ENDS = {"hmac": 8, "packet": 16}


def printed(raw, shown):
    """A text of the peer: printable ASCII, and escapes of all other bytes."""
    shows = lambda byte: chr(byte) in shown or 0x20 < byte < 0x7F and byte not in b'"\\'
    return "".join(chr(byte) if shows(byte) else f"\\x{byte:02x}" for byte in raw)


def is_text(holder):
    """Whether a parameter or a cause holds a text alone, which its value has, also if it isn't UTF-8."""
    return "value" in holder and "value_size" not in holder


def is_message(chunk, ppid):
    whole = chunk.get("payload_size") == len(chunk.get("payload", "")) // 2
    return chunk.get("ppid") == ppid and chunk["beginning"] and chunk["end"] and whole


def is_reliable(chunk, key):
    """Whether the field is the reliability of a channel in which it means nothing."""
    return key == "reliability" and chunk["channel_type"] in (0, 0x80)


def fields(holder):
    yield from ((key, value) for key, value in holder.items() if key not in HEADS and not key.endswith("_name"))
    if holder.get("message") == 3:
        # Of a DATA_CHANNEL_OPEN both texts (RFC 8832 section 5.1), which JSON leaves out where they aren't UTF-8.
        message = bytes.fromhex(holder["payload"])
        size = int.from_bytes(message[8:10], "big")
        yield from (("label", message[12:12 + size]), ("protocol", message[12 + size:]))


# ---- lines


def brief_entry(key, entry):
    if key in ("parameters", "causes"):
        code = entry.get("parameter", entry.get("cause"))
        text = ":" + printed(bytes.fromhex(entry["value"]), "") if is_text(entry) else ""
        return entry.get("name", f"{code:#06x}").replace(" ", "_") + text
    if key in ("blocks", "nr_blocks"):
        return str(entry["start"]) + (f"-{entry['end']}" if entry["end"] != entry["start"] else "")
    if "unordered" in entry:
        entry = {**entry, "unordered": "unordered" if entry["unordered"] else "ordered"}
    return "/".join(map(str, entry.values()))


def brief_chunk(chunk):
    words = [chunk.get("name", f"{chunk['chunk']:#04x}")]
    for key, value in fields(chunk):
        if isinstance(value, bool):
            words += [key] if value else ["ordered"] if key == "unordered" else []
        elif isinstance(value, list):
            words += [f"{key}={','.join(brief_entry(key, entry) for entry in value)}"] if value else []
        elif isinstance(value, bytes):
            words.append(f"{key}={printed(value, '')}")
        elif key.endswith("_size"):
            words.append(f"size={value}")
        elif key in ENDS:
            continue
        elif not is_reliable(chunk, key):
            name = "/" + chunk[key + "_name"] if key + "_name" in chunk else ""
            words.append(f"{key}={value:#010x}" if key == "initiate_tag" else f"{key}={value}{name}")
    return " ".join(word.replace(" ", "_") for word in words)


def brief_type(name):
    return name[-5:-1] if name.startswith("chunk type") else name.replace(" ", "_")


def has_header(seen, key):
    """Whether this field of the header is printed: it was captured, and the packet isn't shorter than a header."""
    return key in seen and ("verdict" in seen or "captured" in seen)


def brief_end(seen, key, port, is_local):
    if "direction" in seen:
        name = f"({seen['transport']})" if "transport" in seen else ""
        host = "local" + name if is_local else "remote"
    else:
        host = seen.get(key, "-")
    host = f"[{host}]" if ":" in host else host
    return f"{host}:{seen[port] if has_header(seen, port) else '-'}"


def sent_again(seen, places):
    """The marks of the TSNs that were sent before. Each of 65,536 that follow one another has a place."""
    marks = ""
    for chunk in seen["chunks"]:
        if chunk["chunk"] in (0, 64) and "tsn" in chunk:
            sending = [seen.get(key) for key in ("tag", "source", "destination", "direction")] + [chunk["tsn"]]
            place = (seen["tag"] + chunk["tsn"] + 32768 * (seen.get("direction") == "incoming")) % 65536
            if place not in places or places[place][0] != sending:
                places[place] = sending, seen["packet"], seen.get("file")
                continue
            _, packet, file = places[place]
            elsewhere = f"@{printed(file.encode(), '')}" if file != seen.get("file") else ""
            marks += f" ~ tsn={chunk['tsn']} again={packet}{elsewhere}"
    return marks


def brief(seen, places):
    is_outgoing = seen.get("direction") == "outgoing"
    source = brief_end(seen, "from", "source", is_outgoing)
    destination = brief_end(seen, "to", "destination", not is_outgoing)
    tag = f"{seen['tag']:#010x}" if has_header(seen, "tag") else "-"
    line = f"{seen['packet']} {seen.get('time', '-')} {source} > {destination} {tag} {seen.get('verdict', 'unknown')}"
    line += " |".join(" " + brief_chunk(chunk) for chunk in seen["chunks"])
    if "fault" in seen:
        line += " ! {kind} at {offset}: {reason}".format(**seen["fault"])
    elif "captured" in seen:
        line += " ! cut off"
    line += sent_again(seen, places)
    line += f" * AUTH {seen['auth']}" if "auth" in seen else ""
    return line + (f" * unauthenticated {brief_type(seen['unauthenticated'])}" if "unauthenticated" in seen else "")


# ---- blocks


def size_of(size, digits):
    captured = len(digits) // 2
    text = f"{size} byte{'s' * (size != 1)}" + (f", {captured} captured" if captured < size else "")
    return text + (f": {digits[:32]}" if captured else "") + (" .." if captured and min(16, captured) < size else "")


def block_names(key, entries):
    names = [entry.get("name", f"{entry['type']:#04x}" if key == "chunk_types" else str(list(entry.values())[0])) for entry in entries]
    return ",\n    ".join(", ".join(names[i:i + 10]) for i in range(0, len(names), 10))


def block_entry(key, entry, is_inside):
    if key in ("parameters", "causes"):
        return block_item(entry, "cause" if key == "causes" else "parameter").replace("\n", "\n  " if is_inside else "\n")
    if key in ("blocks", "nr_blocks"):
        return f"\n  {key[:-1].replace('_', ' ')} " + "{start} to {end}: tsn {first_tsn} to {last_tsn}".format(**entry)
    if key == "types":
        return f"\n    parameter type {entry['parameter']:#06x}"
    if key == "duplicates":
        return f"\n  duplicate tsn {entry['tsn']}"
    words = ["ordered" if value is False else word if value is True else f"{word} {value}" for word, value in entry.items()]
    return ("\n    " if is_inside else "\n  ") + ", ".join(words)


def block_field(holder, key, value, before):
    if key == "middlebox":
        return ", from a middlebox" if value else ""
    if isinstance(value, bool):
        return f", {key.replace('_', ' ')}" if value else ", ordered" if key == "unordered" else ""
    if key in ("chunk_types", "address_types", "hmacs"):
        return f": {block_names(key, value)}" if value else ""
    if isinstance(value, list):
        return "".join(block_entry(key, entry, "chunk" not in holder) for entry in value)
    if key in ENDS:
        return f"\n  {key}: {size_of(holder['length'] - ENDS[key], value)}"
    if key == "payload_size":
        return f"\n  payload: {size_of(value, holder['payload'])}" + block_text(holder)
    if key == "value_size":
        shown = size_of(value, holder["value"])
        if "chunk" in holder and "name" not in holder:
            return f", {shown}"
        # The flags of COOKIE ECHO mean nothing.
        flags = f"flags {holder['flags']:#04x}, " if holder.get("flags") and holder["chunk"] != 10 else ""
        return f": {flags}{shown}"
    if key == "message":
        return f"\n  {holder['message_name']}"
    if key == "channel_type":
        return f": {holder.get('channel_type_name', f'channel type {value}')}"
    if isinstance(value, bytes):
        return f', {key} "{printed(value, " ")}"'
    if is_reliable(holder, key):
        return ""
    name = f" ({holder[key + '_name']})" if key + "_name" in holder else ""
    unit = " ms" if key == "reliability" and holder["channel_type"] in (2, 0x82) else ""
    words = WORDS.get(key, key.replace("_", " ") + " {}").format(value)
    return ("" if words[0] == "\n" else before) + words + name + unit


def block_text(chunk):
    if is_message(chunk, 50) and "message" not in chunk:
        return "\n  not a DCEP message"
    if not is_message(chunk, 51):
        return ""
    raw = bytes.fromhex(chunk["payload"])
    end = min(64, len(raw))
    while end < len(raw) and raw[end] >> 6 == 2 and end > 61:
        end -= 1
    return f'\n  text: "{printed(raw[:end], " ")}"' + (" .." if end < len(raw) else "")


def block_fields(holder):
    text, before = "", ": "
    for key, value in fields(holder):
        text += block_field(holder, key, value, before)
        before = ", "
    return text


def block_item(holder, level):
    name, code, number = holder.get("name"), holder[level], "type" if level == "parameter" else "code"
    head = f"{level} {code:#06x} {name}" if name else f"{level} {number} {code} ({code:#06x})"
    text = f': "{printed(bytes.fromhex(holder["value"]), " ")}"' if is_text(holder) else block_fields(holder)
    return f"\n  {head}{text}"


# what a block has of a tunnel's identifier
IDENTIFIERS = {"GRE": ", key {identifier:#010x}", "ERSPAN": ", session ID {identifier}", "VXLAN": ", VNI {identifier}",
               "Geneve": ", VNI {identifier}", "GTP-U": ", TEID {identifier:#010x}"}


def block(seen):
    text = f"packet {seen['packet']}" + "".join(f", {word}{seen[key]}" for key, word in (("time", "time "), ("direction", ""), ("transport", "")) if key in seen)
    text += ", {captured} of {length} bytes".format(**seen) if "captured" in seen else ""
    text += "\nfrom {from} to {to}".format(**seen) if "from" in seen else ""
    text += "\nudp source {udp_source}, destination {udp_destination}".format(**seen) if "udp_source" in seen else ""
    for tunnel in seen.get("tunnels", []):
        text += "\nin {kind} from {from} to {to}".format(**tunnel)
        text += IDENTIFIERS[tunnel["kind"]].format(**tunnel) if "identifier" in tunnel else ""
    text += "\nsource {source}, destination {destination}".format(**seen) if "source" in seen else ""
    text += f", tag {seen['tag']:#010x}" if "tag" in seen else ""
    if "verdict" in seen:
        verdict = seen["verdict"].replace("unknown", "not known")
        text += f"\nchecksum {seen['checksum']:#010x}: {verdict}" + (f", expected {seen['expected']:#010x}" if "expected" in seen else "")
    for chunk in seen["chunks"]:
        text += "\n" + chunk.get("name", f"chunk type {chunk['chunk']} ({chunk['chunk']:#04x}), flags {chunk['flags']:#04x}") + block_fields(chunk)
    if "fault" in seen:
        at, raw = seen["fault"]["offset"], bytes.fromhex(seen["bytes"])
        row = at // 16 * 16
        text += f"\nerror: {seen['fault']['reason']}\nat byte {at}\n{row:04x}:"
        text += "".join(f" {byte:02x}" for byte in raw[row:row + 16]) + "\n" + " " * (6 + 3 * (at - row)) + "^^"
    text += "\nauthentication: " + seen["auth"].replace("unknown", "not known") if "auth" in seen else ""
    text += f"\nunauthenticated: {seen['unauthenticated']}" if "unauthenticated" in seen else ""
    return text + "\n"


# ---- all that is printed


def made(objects, is_brief):
    """The lines of one of the other two forms."""
    between, file, places = "" if is_brief else "\n", None, {}
    for value in objects:
        if "packet" in value:
            yield brief(value, places) if is_brief else block(value)
            if value.get("file") != file:
                yield f"a packet of {file!r}, and not of {value.get('file')!r}"
        elif "packets" in value:
            yield COUNTS.format(**value)
        elif "file" in value:
            file = value["file"]
            yield f"file {printed(file.encode(), ' ')}{between}"
        else:
            yield "{0} {1} skipped: {skipped}".format(*list(value.items())[0], **value) + between


def run(program, words, given):
    done = subprocess.run([program, "--time", "iso", *words], input=given, capture_output=True, cwd=DATA, timeout=600)
    return done.stdout.split(b"\n")[:-1]


def plain(raw):
    """A line with the bytes of what isn't ASCII, as a text may have."""
    return "".join(chr(byte) if byte < 0x80 else f"\\x{byte:02x}" for byte in raw)


def without_places(pairs):
    """An object without places, but for that of a payload, which has its place alone."""
    return {key.removesuffix("@"): value for key, value in pairs if key == "payload@" or not key.endswith("@")}


def with_payloads(value):
    raw = bytes.fromhex(value.get("bytes", ""))
    for chunk in value.get("chunks", []):
        if "payload" in chunk:
            offset, size = chunk["payload"]
            chunk["payload"] = raw[offset:offset + size].hex()
    return value


# Values of parameters and causes that have a meaning, and of those that need a size.
FOUR, NUMBERS, TYPES = bytes([1, 2, 3, 4]), bytes(range(1, 17)), struct.pack(">20H", *range(20))
VALUES = {5: FOUR, 6: NUMBERS, 9: FOUR, 11: b"h", 12: TYPES, 13: NUMBERS, 14: NUMBERS, 15: FOUR, 16: FOUR + bytes(4) + NUMBERS[8:],
          17: NUMBERS[:8], 18: NUMBERS[:8], 0x8001: FOUR, 0x8003: NUMBERS, 0x8004: TYPES, 0x8008: bytes(range(256)), 0xC006: FOUR}

CAUSES = {2: b"\0\0\0\2" + FOUR, 9: FOUR, 12: b"why", 13: b"why"}


def with_codes():
    """Packets with each code that could have a name."""
    for first in range(0, 0x10000, 0x1000):
        codes = range(first, first + 0x1000)
        yield packet(item(b"\4\0", b"".join(item(struct.pack(">H", code), VALUES.get(code, b"")) for code in codes)))
        yield packet(item(b"\x09\0", b"".join(item(struct.pack(">H", code), CAUSES.get(code, b"")) for code in codes)))
    yield packet(item(b"\x82\0", b"".join(item(b"\0\x10", struct.pack(">II", 1, result)) for result in range(7))))
    yield packet(*(data(50, bytes([3, code]) + bytes(10)) for code in range(256)), *(data(50, bytes([code])) for code in range(4)))
    yield packet(*(data(ppid, b"a") for ppid in range(1000)))


def with_cuts():
    """A pcap file with packets of which only the first bytes were captured: each number of them."""
    numbers = struct.pack(">III", 1, 2, 3)
    packets = [raw for text, raw in with_texts() if text == b"x"] + [
        packet(item(b"\3\0", numbers[:8] + struct.pack(">6HI", 2, 1, 2, 3, 5, 7, 4)), item(b"\7\0", FOUR), item(b"\x0a\0", b"cookie")),
        packet(item(b"\x82\0", item(b"\0\x0d", numbers + FOUR) + item(b"\0\x0f", FOUR)), item(b"\x40\3", numbers + b"12345")),
        packet(item(b"\xc0\0", numbers), item(b"\xc2\0", numbers), item(b"\x63\1", b"x"), item(b"\x0e\1", b""), b"\0\0\0\3"),
    ]
    records = (struct.pack("<IIII", 0, 0, size, len(raw)) + raw[:size] for raw in packets for size in range(len(raw) + 1))
    return struct.pack("<IHHIIII", 0xA1B2C3D4, 2, 4, 0, 0, 65535, 248) + b"".join(records)


LEVELS = {"chunks": "chunk", "chunk_types": "chunk", "parameters": "parameter", "causes": "cause", "address_types": "address_types", "hmacs": "hmacs"}


def names_of(value, key=""):
    """Each code in an object, and its name."""
    if isinstance(value, list):
        for entry in value:
            yield from names_of(entry, key)
    elif isinstance(value, dict):
        if key in LEVELS:
            yield (LEVELS[key], next(iter(value.values()))), value.get("name")
        for inner, held in value.items():
            if inner in ("result", "ppid", "channel_type", "message"):
                yield (inner, held), value.get(inner + "_name")
            yield from names_of(held, inner)


def names():
    lines = [line.split(None, 2) for line in open(f"{ROOT}/tests/dump/names.txt") if line.strip() and line[0] != "#"]
    return {(key, int(code)): name.strip() for key, code, name in lines}


def inputs():
    with tempfile.TemporaryDirectory() as folder:
        # A name that has to be escaped.
        odd = f'{folder}/a"b\\c\n\x1f\x7f\u00e9'
        shutil.copy(f"{DATA}/raw.pcap", odd)
        yield [*sorted(os.listdir(DATA)), odd], b""
    for name in sorted(glob.glob(f"{ROOT}/tests/dump/data/*.[lp]*")):
        yield [name], b""
        yield ["--auth-key=0b", name], b""
    lines = [raw.hex() for raw in [*with_codes(), *(raw for _, raw in with_texts())]]
    for name, header in ("examples/rules.txt", ""), ("tests/dump/refused.txt", "138813890102030400000000 "):
        rows = [line.split(" = ")[0].split(" / ") for line in open(f"{ROOT}/{name}") if " = " in line and line[0] != "#"]
        lines += [header + row for row in sum(rows, [])]
    yield ["-"], "\n".join(lines).encode()
    yield ["-"], with_cuts()
    tunnels = open(f"{ROOT}/tests/dump/runs.txt").read().split("# ---- tunnels\n")[1].split("\n# ----")[0]
    yield ["-"], "\n".join(line[2:] for line in tunnels.splitlines() if line[:2] == "< ").encode()
    for case in with_auth, vectors:
        yield ["--auth-key=7:0badc0de", "-"], pcap(case(bytes.fromhex("0badc0de"), 7).packets)


def differences(program):
    found = collections.defaultdict(set)
    for words, given in inputs():
        objects = []
        for line in run(program, ["--json", "--places", *words], given):
            try:
                objects.append(with_payloads(json.loads(line, object_pairs_hook=without_places)))
            except ValueError as error:
                yield f"{line!r}: {error}"
        for code, name in names_of(objects):
            found[code].add(name)
        for is_brief in True, False:
            wanted = plain("\n".join(made(objects, is_brief)).encode()).split("\n")
            lines = [plain(line) for line in run(program, ["--brief"] * is_brief + words, given)]
            yield from (f"of JSON {a!r}, printed {b!r}" for a, b in itertools.zip_longest(wanted, lines) if a != b)
    expected = names()
    for code in {**expected, **found}:
        if found[code] != {expected.get(code)}:
            yield f"{code} is {found[code]}, and not {expected.get(code)!r}"


def main():
    found = list(differences(os.path.abspath(sys.argv[1])))
    for text in found[:20]:
        print(f"forms: {text}")
    print(f"forms: {len(found)} differences")
    sys.exit(bool(found))


main()
