#!/usr/bin/env python3
# SPDX-License-Identifier: Apache-2.0
"""usage: tests/dump/auth.py PROGRAM

Compares what sctp_dump --auth-key says of AUTH (RFC 4895) with HMACs that hashlib computes over the same bytes: of the associations
of usrsctp in data/usrsctp.pcap, whose key is empty, as they are, with a bit flipped in each packet, and under other keys; and of
associations that are made here, of which each packet is right, wrong or not known as it was made. Prints what differs; status 0 if
nothing does."""
import collections
import hashlib
import hmac
import json
import os
import struct
import subprocess
import sys
import tempfile

sys.dont_write_bytecode = True
from objects import ROOT, item

CAPTURE = f"{ROOT}/tests/dump/data/usrsctp.pcap"
DATA, INIT, INIT_ACK, SACK, ABORT, COOKIE_ECHO, COOKIE_ACK, AUTH, ASCONF = 0, 1, 2, 3, 6, 10, 11, 15, 193
NAMES = {DATA: "DATA", COOKIE_ECHO: "COOKIE ECHO", COOKIE_ACK: "COOKIE ACK", ASCONF: "ASCONF", 99: "chunk type 99 (0x63)"}
RANDOM, CHUNKS, HMAC_ALGO = 0x8002, 0x8003, 0x8004
HASHES = {1: hashlib.sha1, 3: hashlib.sha256}
wrong = []


def fail(text):
    wrong.append(text)
    print(f"auth.py: {text}")


# ---- bytes (RFC 9260 section 3.2, RFC 4895 sections 3 and 5)


def items(raw):
    """The items that lie here: the first two bytes of each as a number, its value, and its offset."""
    at = 0
    while at + 4 <= len(raw):
        code, size = struct.unpack_from(">HH", raw, at)
        yield code, raw[at + 4:at + size], at
        at += (size + 3) // 4 * 4


def chunk(typ, value=b"", flags=0):
    return item(bytes([typ, flags]), value)


def packet(tag, *chunks, source=5000):
    """To the end of port 5000, whose tags are odd, or to that of port 5001."""
    source = 5001 if tag % 2 else source
    return struct.pack(">HHII", source, 10001 - source, tag, 0) + b"".join(chunks)


def key_vector(parameters):
    """RFC 4895 section 6.1: without padding; parameters that weren't sent are omitted."""
    found = {code: value for code, value, _ in items(parameters)}
    if RANDOM not in found or HMAC_ALGO not in found:
        return None
    return b"".join(struct.pack(">HH", code, 4 + len(found[code])) + found[code] for code in (RANDOM, CHUNKS, HMAC_ALGO) if code in found)


def chunk_list(parameters):
    return list({code: value for code, value, _ in items(parameters)}.get(CHUNKS, b""))


def shared_key(pair_key, one, other):
    """RFC 4895 section 6.1: the smaller vector as a number, and of equal ones the shorter."""
    return pair_key + b"".join(sorted((one, other), key=lambda vector: (int.from_bytes(vector, "big"), len(vector))))


def digest(key, raw, at):
    """Section 6.2: of the AUTH chunk at an offset with its HMAC field set to zero, and of all chunks after it."""
    identifier = struct.unpack_from(">H", raw, at + 6)[0]
    size = HASHES[identifier]().digest_size
    return hmac.new(key, raw[at:at + 8] + bytes(size) + raw[at + 8 + size:], HASHES[identifier]).digest()


# ---- data/usrsctp.pcap: what an end listed, and the HMACs


def records(path):
    raw = open(path, "rb").read()
    at, found = 24, []
    while at < len(raw):
        size = struct.unpack_from("<I", raw, at + 8)[0]
        found.append(raw[at + 16:at + 16 + size])
        at += 16 + size
    return found


def pcap(packets):
    header = struct.pack("<IHHIIII", 0xA1B2C3D4, 2, 4, 0, 0, 65535, 248)
    return header + b"".join(struct.pack("<IIII", second, 0, len(raw), size) + raw for second, (raw, size) in enumerate(packets))


def handshakes(packets):
    """The parameters of each INIT and INIT ACK by the tag in it, and the other end's tag by an end's."""
    parameters, peers = {}, {}
    for raw in packets:
        code, value, _ = next(items(raw[12:]))
        if code >> 8 in (INIT, INIT_ACK):
            tag = struct.unpack_from(">I", value)[0]
            parameters[tag] = value[16:]
            if code >> 8 == INIT_ACK:
                to = struct.unpack_from(">I", raw, 4)[0]
                peers[to], peers[tag] = tag, to
    return parameters, peers


def expected(packets, pair_key, identifier=0):
    """The verdict on each packet with AUTH, by its number, of associations whose handshakes are among these."""
    parameters, peers = handshakes(packets)
    for number, raw in enumerate(packets, 1):
        for code, value, at in items(raw[12:]):
            if code >> 8 == AUTH:
                tag = struct.unpack_from(">I", raw, 4)[0]
                key = shared_key(pair_key, key_vector(parameters[tag]), key_vector(parameters[peers[tag]]))
                right = value[4:] == digest(key, raw, 12 + at)
                yield number, "unknown" if struct.unpack_from(">H", value)[0] != identifier else "right" if right else "wrong"
                break


# ---- what the program says


def said(program, capture, *words):
    """Of a capture its packets, its associations and the counts."""
    with tempfile.NamedTemporaryFile(suffix=".pcap") as file:
        file.write(capture)
        file.flush()
        done = subprocess.run([program, "--json", "--associations", *words, file.name], stdout=subprocess.PIPE, check=False)
    objects = [json.loads(line) for line in done.stdout.splitlines()]
    packets = {it["packet"]: it for it in objects if "packet" in it}
    return packets, [it for it in objects if "association" in it and "ends" in it], objects[-1]


def compare(what, program, capture, words, verdicts, bare):
    """The verdict and what isn't authenticated of each packet, in all three places where it is said."""
    packets, associations, counts = said(program, capture, *words)
    for number, found in packets.items():
        for key, wanted in ("auth", verdicts.get(number)), ("unauthenticated", bare.get(number)):
            if found.get(key) != wanted:
                fail(f"{what}: packet {number}: {key} is {found.get(key)}, and not {wanted}")
    wanted = collections.Counter(verdicts.values())
    numbers = {f"auth_{verdict}": wanted[verdict] for verdict in ("right", "wrong", "unknown")} | {"unauthenticated": len(bare)}
    if any(counts.get(key) != number for key, number in numbers.items()):
        fail(f"{what}: counted {counts}, and not {numbers}")
    for association in associations:
        for place, end in enumerate(association["ends"]):
            own = [number for number, it in packets.items() if it.get("association") == association["association"] and it["end"] == place]
            sums = collections.Counter(f"auth_{verdicts[number]}" for number in own if number in verdicts)
            sums["unauthenticated"] = sum(number in bare for number in own)
            if any(end.get(key, 0) != sums[key] for key in numbers):
                fail(f"{what}: end {place} of association {association['association']} counts {end}, and not {dict(sums)}")
    return associations


def of_usrsctp(program):
    packets = records(CAPTURE)
    parameters, _ = handshakes(packets)
    whole = [(raw, len(raw)) for raw in packets]
    verdicts = dict(expected(packets, b""))
    if not verdicts or set(verdicts.values()) != {"right"}:
        fail(f"usrsctp.pcap: its HMACs are {verdicts}")
    associations = compare("usrsctp.pcap", program, pcap(whole), ["--auth-key="], verdicts, {})
    for end in (end for association in associations for end in association["ends"]):
        listed = [entry["type"] for entry in end.get("chunk_list", [])]
        if listed != chunk_list(parameters.get(end["tag"], b"")):
            fail(f"usrsctp.pcap: the end {end['tag']:#x} lists {listed}")
    compare("another key", program, pcap(whole), ["--auth-key", "0b"], dict(expected(packets, b"\x0b")), {})
    compare("another identifier", program, pcap(whole), ["--auth-key", "1:"], dict(expected(packets, b"", 1)), {})
    # without a key that is given nothing is judged
    found, _, counts = said(program, pcap(whole))
    if any("auth" in it for it in found.values()) or "auth_right" in counts:
        fail("usrsctp.pcap: judged without a key")
    # the last bit of each packet with AUTH, which the HMAC covers
    flipped = [raw[:-1] + bytes([raw[-1] ^ 1]) if number in verdicts else raw for number, raw in enumerate(packets, 1)]
    compare("a bit flipped", program, pcap([(raw, len(raw)) for raw in flipped]), ["--auth-key="], dict.fromkeys(verdicts, "wrong"), {})
    # the packets without the handshakes
    later = [raw for number, raw in enumerate(packets, 1) if number in verdicts]
    compare("no handshake", program, pcap([(raw, len(raw)) for raw in later]), ["--auth-key="],
            dict.fromkeys(range(1, len(later) + 1), "unknown"), {})


# ---- associations that are made


def random_number(seed):
    return hashlib.sha256(seed.encode()).digest()


def announced(seed, types=(), identifiers=(3, 1), order=(RANDOM, CHUNKS, HMAC_ALGO), others=None):
    """RANDOM, CHUNKS if there are types, and HMAC-ALGO in an order, with others among them."""
    algorithms = struct.pack(f">{len(identifiers)}H", *identifiers)
    made = {RANDOM: random_number(seed), CHUNKS: bytes(types), HMAC_ALGO: algorithms} | (others or {})
    return b"".join(item(struct.pack(">H", code), made[code]) for code in order if code in made and (code != CHUNKS or types))


def init(tag, parameters, typ=INIT):
    return chunk(typ, struct.pack(">IIHHI", tag, 65536, 10, 10, 1) + parameters)


class Made:
    """A capture, and what is to be said of its packets."""

    def __init__(self):
        self.packets, self.verdicts, self.bare = [], {}, {}

    def add(self, raw, verdict=None, bare=None, size=None):
        self.packets.append((raw if size is None else raw[:size], len(raw)))
        if verdict:
            self.verdicts[len(self.packets)] = verdict
        if bare is not None:
            self.bare[len(self.packets)] = NAMES[bare]

    def handshake(self, tags, one, other):
        self.add(packet(0, init(tags[0], one)))
        self.add(packet(tags[0], init(tags[1], other, INIT_ACK)))
        self.add(packet(tags[1], chunk(COOKIE_ECHO, b"cookie")))
        self.add(packet(tags[0], chunk(COOKIE_ACK)))


def signed(tag, key, *chunks, identifier=0, function=3, before=(), size=None):
    """A packet with AUTH after the chunks `before`, and these after it."""
    size = HASHES[function]().digest_size if size is None else size
    raw = bytearray(packet(tag, *before, chunk(AUTH, struct.pack(">HH", identifier, function) + bytes(size)), *chunks))
    at = 12 + sum(map(len, before))
    raw[at + 8:at + 8 + size] = digest(key, bytes(raw), at)[:size]
    return bytes(raw)


DATA_1 = chunk(DATA, struct.pack(">IHHI", 1, 0, 0, 0) + b"a message", 3)
SACK_1 = chunk(SACK, struct.pack(">IIHH", 1, 65536, 0, 0))


def flipped(raw, at):
    return raw[:at] + bytes([raw[at] ^ 0x80]) + raw[at + 1:]


def plain(key, identifier):
    made, tags = Made(), (0x11, 0x12)
    one, other = announced("one", (ASCONF, DATA, 99)), announced("other", (ASCONF,), (1,))
    made.handshake(tags, one, other)
    shared = shared_key(key, key_vector(one), key_vector(other))
    for tag in tags:
        for function in HASHES:
            raw = signed(tag, shared, DATA_1, SACK_1, identifier=identifier, function=function)
            made.add(raw, "right")
            # each byte from the AUTH chunk's HMAC on, and the flags
            for at in (13, 20, len(raw) - len(SACK_1) - 1, len(raw) - 1):
                made.add(flipped(raw, at), "wrong")
            made.add(signed(tag, shared, SACK_1, identifier=identifier + 1, function=function), "unknown")
            made.add(raw, "unknown", size=len(raw) - 1)
            made.add(signed(tag, shared, identifier=identifier, function=function), "right")
            made.add(signed(tag, shared + b"x", identifier=identifier, function=function), "wrong")
        # an HMAC of the other function's size, and an identifier that was never given out
        made.add(signed(tag, shared, SACK_1, identifier=identifier, function=3, size=20), "wrong")
        raw = signed(tag, shared, SACK_1, identifier=identifier)
        made.add(raw[:18] + b"\0\2" + raw[20:], "unknown")
    # what the first end listed, of the second; INIT ACK and AUTH don't count
    made.add(packet(tags[0], DATA_1), bare=DATA)
    made.add(packet(tags[0], SACK_1, chunk(99), DATA_1), bare=99)
    made.add(packet(tags[1], DATA_1))
    made.add(packet(tags[1], chunk(ASCONF, struct.pack(">I", 1))), bare=ASCONF)
    made.add(packet(tags[0], SACK_1))
    made.add(signed(tags[0], shared, SACK_1, identifier=identifier, before=(DATA_1,)), "right", DATA)
    made.add(flipped(signed(tags[0], shared, SACK_1, identifier=identifier, before=(SACK_1,)), 20), "right")
    # of no association
    made.add(signed(0x99, shared, SACK_1, identifier=identifier), "unknown")
    return made


def vectors(key, identifier):
    """Key vectors of several sizes and orders, padding and other parameters among them, and too much of them."""
    made = Made()
    mixed = dict(order=(HMAC_ALGO, 0xC000, CHUNKS, 5, RANDOM), others={0xC000: b"", 5: bytes(4)})
    pairs = [
        (announced("a"), announced("b")), (announced("b"), announced("a")), (announced("a"), announced("a")),
        (announced("a", (1, 2, 14, 15, 99)), announced("b", (99,))), (announced("a", range(16, 32)), announced("b", (99,), (1,))),
        (announced("a", (99,), **mixed), announced("b", (99, 193, 128), (1,), **mixed)),
        (announced("a", range(256)), announced("b", (99,), (1,) * 10)), (announced("a", range(256), (1,) * 10), announced("b")),
    ]
    for index, (one, other) in enumerate(pairs):
        tags = 0x101 + 2 * index, 0x200 + 2 * index
        made.handshake(tags, one, other)
        shared = shared_key(key, key_vector(one), key_vector(other))
        for tag in tags:
            made.add(signed(tag, shared, chunk(99), SACK_1, identifier=identifier), "right")
            made.add(signed(tag, key + key_vector(one) + key_vector(other) + b"\0", SACK_1, identifier=identifier), "wrong")
    for index, (one, other) in enumerate(pairs):
        # a COOKIE ECHO or a COOKIE ACK that was listed and came without AUTH
        for number, (listed, typ) in enumerate(((other, COOKIE_ECHO), (one, COOKIE_ACK)), 8 * index + 3):
            if typ in chunk_list(listed):
                made.bare[number] = NAMES[typ]
    # longer than 320 bytes; without one of the two that have to be there
    without = announced("a", order=(CHUNKS, HMAC_ALGO)), announced("a", order=(RANDOM,)), b""
    for index, one in enumerate((announced("a", range(256), (1,) * 11), *without)):
        tags = 0x301 + 2 * index, 0x400 + 2 * index
        other = announced("b", (99,))
        made.handshake(tags, one, other)
        shared = shared_key(key, key_vector(one) or b"", key_vector(other))
        for tag in tags:
            made.add(signed(tag, shared, SACK_1, identifier=identifier), "unknown")
            made.add(packet(tag, chunk(99)))
    return made


def beginnings(key, identifier):
    """An INIT that is answered twice, both ends that send INIT, and a restart."""
    made = Made()
    one, other, third = (announced(seed, (99,)) for seed in ("one", "other", "third"))
    shared = [shared_key(key, key_vector(one), key_vector(vector)) for vector in (other, third)]
    made.add(packet(0, init(0x21, one)))
    made.add(packet(0x21, init(0x22, other, INIT_ACK)))
    made.add(packet(0x21, init(0x24, third, INIT_ACK)))
    # the first answer is used, and the second end speaks first
    made.add(signed(0x21, shared[0], SACK_1, identifier=identifier), "right")
    made.add(signed(0x22, shared[0], SACK_1, identifier=identifier), "right")
    made.add(signed(0x22, shared[1], SACK_1, identifier=identifier), "wrong")
    made.add(signed(0x21, shared[0], SACK_1, identifier=identifier), "right")
    # RFC 9260 section 5.2.1
    made.add(packet(0, init(0x31, one)))
    made.add(packet(0, init(0x32, other), source=5001))
    made.add(packet(0x31, init(0x32, other, INIT_ACK)))
    made.add(packet(0x32, init(0x31, one, INIT_ACK)))
    for tag in 0x31, 0x32:
        made.add(signed(tag, shared[0], SACK_1, identifier=identifier), "right")
        made.add(signed(tag, shared[1], SACK_1, identifier=identifier), "wrong")
    # the same ends begin anew
    made.handshake((0x41, 0x42), one, third)
    for tag in 0x41, 0x42:
        made.add(signed(tag, shared[1], SACK_1, identifier=identifier), "right")
        made.add(signed(tag, shared[0], SACK_1, identifier=identifier), "wrong")
    return made


def main():
    program = os.path.abspath(sys.argv[1])
    of_usrsctp(program)
    done = subprocess.run([program, "--auth-key", "5a" * 129, CAPTURE], capture_output=True, check=False)
    if done.returncode != 2 or not done.stderr.startswith(b"sctp_dump: --auth-key takes"):
        fail("a key of 129 bytes is taken")
    for words, key, identifier in ((["--auth-key="], b"", 0), (["--auth-key", "7:0badC0DE"], bytes.fromhex("0badc0de"), 7),
                                   (["--auth-key=65534:" + "5a" * 128], b"\x5a" * 128, 65534)):
        for case in plain, vectors, beginnings:
            made = case(key, identifier)
            compare(f"{case.__name__} {words}", program, pcap(made.packets), words, made.verdicts, made.bare)
    print(f"auth.py: {len(wrong)} differences")
    sys.exit(bool(wrong))


if __name__ == "__main__":
    main()
