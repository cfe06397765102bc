# SPDX-License-Identifier: Apache-2.0
"""Compares what was said and written with what sctp_dump, the package davgyuti, its canonical writer and tshark read."""

import json
import struct
import subprocess
from functools import cmp_to_key

import davgyuti as d
from aiortc import rtcsctptransport as sctp
from aiortc.utils import uint32_gt
from talk import CHANNELS, RELIABLE

# RFC 8832 section 5.1: the type of each channel, and its reliability parameter.
OPENED = {"ordered": (0, 0), "unordered": (0x80, 0), "once": (1, 0), "brief": (0x82, 500)}
# RFC 8831 section 8: a message without bytes is sent as one of one byte.
MESSAGES = {51: lambda it: it.decode(errors="replace"), 53: bytes, 56: lambda it: "", 57: lambda it: b""}
DATA, INIT, INIT_ACK, SACK, ABORT, COOKIE_ECHO, COOKIE_ACK, RE_CONFIG, FORWARD_TSN = 0, 1, 2, 3, 6, 10, 11, 130, 192
# tshark's names of TSNs: the chunk, and the field.
TSNS = {"sctp.data_tsn_raw": (DATA, "tsn"), "sctp.sack_cumulative_tsn_ack_raw": (SACK, "cumulative_tsn"),
        "sctp.forward_tsn_tsn": (FORWARD_TSN, "cumulative_tsn")}
# By them it is known that the INITs of both ends, where both send one, are of one association.
ADDRESSES = "10.0.0.1", "10.0.0.2"


def write(packets, path):
    """Writes a pcap of link type 228: IPv4. The sender's address says which peer it is."""
    with open(path, "wb") as file:
        file.write(struct.pack("<IHHiIII", 0xA1B2C3D4, 2, 4, 0, 0, 65535, 228))
        for it in packets:
            (seconds, micros), size = divmod(round(it.time * 10**6), 10**6), 20 + len(it.data)
            file.write(struct.pack("<IIII", seconds, micros, size, size))
            file.write(struct.pack("!BBHIBBH", 0x45, 0, size, 0, 64, 132, 0))
            for address in ADDRESSES[it.sender], ADDRESSES[1 - it.sender]:
                file.write(bytes(map(int, address.split("."))))
            file.write(it.data)


def dump(program, path, *options):
    """The lines of sctp_dump --json."""
    ran = subprocess.run([program, "--json", *options, path], capture_output=True, text=True)
    return [json.loads(line) for line in ran.stdout.splitlines()]


def in_order(tsns):
    return sorted(tsns, key=cmp_to_key(lambda a, b: (uint32_gt(a, b) > 0) - (uint32_gt(b, a) > 0)))


# ---- a chunk, as aiortc has its fields


def of_dump(chunk):
    """A chunk of sctp_dump --json."""
    def parameter(it):
        match it:
            case {"request_number": request, "response_number": response, "last_tsn": last, "streams": streams}:
                value = bytes(sctp.StreamResetOutgoingParam(request, response, last, [it["stream"] for it in streams]))
            case {"response_number": response, "result": result}:
                value = bytes(sctp.StreamResetResponseParam(response, result))
            case {"chunk_types": types}:
                value = bytes(it["type"] for it in types)
            case {"text": text}:
                value = text.encode()
            case _:
                value = bytes.fromhex(it.get("value", ""))
        return it["parameter" if "parameter" in it else "cause"], value

    c, kind = chunk, chunk["chunk"]
    it = {"type": kind, "flags": c["flags"]}
    if kind == DATA:
        bits = c["end"], c["beginning"], c["unordered"], c["immediate"]
        it |= {"flags": sum(bit << at for at, bit in enumerate(bits)), "tsn": c["tsn"], "stream_id": c["stream"],
               "stream_seq": c["ssn"], "protocol": c["ppid"], "user_data": bytes.fromhex(c["payload"])}
    elif kind in (INIT, INIT_ACK):
        it |= {"initiate_tag": c["initiate_tag"], "advertised_rwnd": c["a_rwnd"], "outbound_streams": c["outbound_streams"],
               "inbound_streams": c["inbound_streams"], "initial_tsn": c["initial_tsn"]}
    elif kind == SACK:
        it |= {"cumulative_tsn": c["cumulative_tsn_ack"], "advertised_rwnd": c["a_rwnd"],
               "gaps": tuple((it["start"], it["end"]) for it in c["blocks"]),
               "duplicates": tuple(it["tsn"] for it in c["duplicates"])}
    elif kind == FORWARD_TSN:
        it |= {"cumulative_tsn": c["new_cumulative_tsn"], "streams": tuple((it["stream"], it["ssn"]) for it in c["streams"])}
    elif kind in (COOKIE_ECHO, COOKIE_ACK):
        it |= {"body": bytes.fromhex(c.get("value", ""))}
    for name in ("parameters", "causes"):
        if name in c:
            it["params"] = tuple(map(parameter, c[name]))
    return it


def of_package(chunk):
    """A chunk of the package."""
    def parameter(it):
        match it:
            case d.OutgoingSsnReset():
                value = bytes(sctp.StreamResetOutgoingParam(it.request_number, it.response_number, it.last_tsn, it.streams))
            case d.ReConfigResponse(next_tsns=None):
                value = bytes(sctp.StreamResetResponseParam(it.response_number, it.result))
            case d.SupportedExtensions():
                value = it.chunk_types
            case d.ForwardTsnSupported():
                value = b""
            case d.StateCookie():
                value = it.cookie
            case d.UserInitiatedAbort():
                value = it.reason
            case _:
                value = it.value
        return int(it.code if hasattr(it, "code") else it.type), value

    c = chunk
    it = {"type": int(c.type), "flags": 0}
    match c:
        case d.Data():
            bits = c.is_end, c.is_beginning, c.is_unordered, c.immediate_ack
            it |= {"flags": sum(bit << at for at, bit in enumerate(bits)), "tsn": c.tsn, "stream_id": c.stream,
                   "stream_seq": c.ssn, "protocol": c.ppid, "user_data": c.payload}
        case d.Init() | d.InitAck():
            it |= {"initiate_tag": c.initiate_tag, "advertised_rwnd": c.a_rwnd, "outbound_streams": c.outbound_streams,
                   "inbound_streams": c.inbound_streams, "initial_tsn": c.initial_tsn}
        case d.Sack():
            it |= {"cumulative_tsn": c.cumulative_tsn_ack, "advertised_rwnd": c.a_rwnd,
                   "gaps": tuple(map(tuple, c.blocks)), "duplicates": c.duplicates}
        case d.ForwardTsn():
            it |= {"cumulative_tsn": c.new_cumulative_tsn, "streams": tuple(map(tuple, c.streams))}
        case d.CookieEcho():
            it |= {"body": c.cookie}
        case d.CookieAck():
            it |= {"body": b""}
        case d.Abort():
            it |= {"flags": int(c.tag_reflected)}
    for name in ("parameters", "causes"):
        if hasattr(c, name):
            it["params"] = tuple(map(parameter, getattr(c, name)))
    return it


# ---- what differs: the number of a packet, if it is one's, and a text


def differs(number, packet, name, header, chunks):
    read = *header, chunks
    for who, theirs in ("reads", packet.read), ("wrote", packet.written):
        if theirs and theirs != read:
            yield number, f"aiortc {who} {theirs}, {name} reads {read}"


def by_program(talk, program, path):
    """sctp_dump accepts each packet, finds no broken rule, and reads what aiortc reads and wrote."""
    lines = {it["packet"]: it for it in dump(program, path, "--check", "--strict") if "packet" in it}
    for number, packet in enumerate(talk.packets, 1):
        line = lines.get(number, {})
        is_good = line.get("verdict") == "right" and not {"fault", "warnings"} & line.keys()
        if not is_good or line["from"] != ADDRESSES[packet.sender]:
            yield number, f"sctp_dump: {line}"
        else:
            header = line["source"], line["destination"], line["tag"]
            yield from differs(number, packet, "sctp_dump", header, list(map(of_dump, line["chunks"])))


def by_package(talk, program, path):
    """The package reads the same. The canonical packet is the packet, and its chunks are written as it."""
    for number, packet in enumerate(talk.packets, 1):
        try:
            read = d.Packet(packet.data, d.Policy(strict_padding=True))
        except d.Fault as fault:
            yield number, f"the package: {fault}"
            continue
        header = read.header.source_port, read.header.destination_port, read.header.verification_tag
        yield from differs(number, packet, "the package", header, list(map(of_package, read)))
        builder = d.PacketBuilder(*header)
        for it in read:
            builder.add(it)
        for name, data in ("canonical", d.seal(read.canonical())), ("written again", builder.seal()):
            if data != packet.data:
                yield number, f"{name}: {data.hex()}, and not {packet.data.hex()}"


def by_tshark(talk, program, path):
    """tshark sees no malformed packet, and the same chunks and TSNs."""
    fields = "frame.number", "_ws.malformed", "sctp.checksum.status", "sctp.chunk_type", *TSNS
    words = ["-o", "sctp.checksum:CRC 32c", "-o", "sctp.reassembly:FALSE", "-T", "fields", *(f"-e{it}" for it in fields)]
    if talk.pion is not None:
        words += ["--disable-protocol", "rtcdc"]  # (pion 1.8 sends a DATA_CHANNEL_ACK of four bytes; RFC 8832 section 5.2 has one)
    ran = subprocess.run(["tshark", "-r", path, *words], capture_output=True, text=True)
    lines = {int(it.split("\t")[0]): it.split("\t")[1:] for it in ran.stdout.splitlines()}
    for number, packet in enumerate(talk.packets, 1):
        chunks = packet.read[3]
        tsns = [[it[field] for it in chunks if it["type"] == kind] for kind, field in TSNS.values()]
        wanted = ["", "1", *(",".join(map(str, it)) for it in ([it["type"] for it in chunks], *tsns))]
        if lines.get(number) != wanted:
            yield number, f"tshark: {lines.get(number)}, and not {wanted}"


def chunks_of(talk, sender, *kinds):
    return [it for packet in talk.packets if packet.sender == sender for it in packet.read[3] if it["type"] in kinds]


def association(talk, program, path):
    """sctp_dump sees one association, and what each end sent."""
    found = [it for it in dump(program, path, "--associations", "--summary") if "association" in it]
    if len(found) != 1:
        yield None, f"{len(found)} associations"
        return
    it, first = found[0], talk.packets[0].sender
    abort = next(number for number, packet in enumerate(talk.packets, 1) if packet.read[3][-1]["type"] == ABORT)
    events = [it.get(name, {}).get("chunk") for name in ("began", "established", "ended")]
    # (the one that offers ends it; the first end is the one that sent the first packet)
    ended = [it.get("ended", {}).get(name) for name in ("packet", "by")]
    if events != ["INIT", "COOKIE ACK", "ABORT"] or ended != [abort, first] or it.get("midway"):
        yield None, f"the association: {it}"
    for place, end in enumerate(it["ends"]):
        sender = place ^ first
        data, sacks = chunks_of(talk, sender, DATA), chunks_of(talk, sender, SACK)
        tsns = in_order({it["tsn"] for it in data})
        requests = {value[:4] for it in chunks_of(talk, sender, RE_CONFIG) for kind, value in it["params"] if kind == 13}
        wanted = {
            "addresses": [ADDRESSES[sender]], "port": 5000, "tag": chunks_of(talk, sender, INIT, INIT_ACK)[0]["initiate_tag"],
            "packets": sum(it.sender == sender for it in talk.packets), "refused": 0, "zero_checksums": 0, "wrong_checksums": 0,
            "data": len(data), "i_data": 0, "bytes": sum(len(it["user_data"]) for it in data),
            "first_tsn": tsns[0], "last_tsn": tsns[-1], "repeated": len(data) - len(tsns),
            "missing": (tsns[-1] - tsns[0]) % 2**32 + 1 - len(tsns),
            "acknowledged": in_order(it["cumulative_tsn"] for it in chunks_of(talk, 1 - sender, SACK))[-1],
            "forward_tsns": len(chunks_of(talk, sender, FORWARD_TSN)),
            "sacks": len(sacks), "sacks_with_gaps": sum(it["gaps"] != () for it in sacks),
            "requests": len(requests), "requests_unanswered": 0}
        for key, value in wanted.items():
            if end.get(key) != value:
                yield None, f"end {place}: {key} {end.get(key)}, and not {value}"


def is_part(some, whole):
    """Whether some messages are among the whole, in their order."""
    rest = iter(whole)
    return all(it in rest for it in some)


def messages(talk, program, path):
    """What sctp_dump shows of channels is how they were opened; of reliable ones all messages that were sent and got; of the
    others all that were got, and none that wasn't sent."""
    chunks = {}, {}  # by TSN
    for line in dump(program, path):
        if "packet" in line and "fault" not in line:
            for it in line["chunks"]:
                if it["chunk"] == DATA:
                    chunks[ADDRESSES.index(line["from"])].setdefault(it["tsn"], it)
    opened = {it["stream"]: it for way in chunks for it in way.values() if it.get("message_name") == "DATA_CHANNEL_OPEN"}
    settings = {it["label"]: (it["channel_type"], it["reliability"]) for it in opened.values()}
    if settings != OPENED:
        yield None, f"channels: {settings}, and not {OPENED}"
    for sender, way in enumerate(chunks):
        seen, parts = {}, []
        for it in map(way.get, in_order(way)):
            follows = parts and it["tsn"] == (parts[-1]["tsn"] + 1) % 2**32
            parts = [it] if it["beginning"] else [*parts, it] if follows else []
            if parts and it["end"] and it["ppid"] in MESSAGES and it["stream"] in opened:
                payload = bytes.fromhex("".join(it["payload"] for it in parts))
                seen.setdefault(opened[it["stream"]]["label"], []).append(MESSAGES[it["ppid"]](payload))
        for label in CHANNELS:
            got, shown, sent = talk.got[1 - sender][label], seen.get(label, []), talk.sent[sender][label]
            if "ordered" in CHANNELS[label]:
                got, shown, sent = (sorted(it, key=repr) for it in (got, shown, sent))
            is_right = got == shown == sent if label in RELIABLE else is_part(got, shown) and is_part(shown, sent)
            if not is_right:
                yield None, f"{label}, sent by {ADDRESSES[sender]}: {len(got)} got, {len(shown)} shown, {len(sent)} sent"


def fates(talk, program, path):
    """What --messages says: of reliable channels each message that was sent is acknowledged, with its bytes, and was got; of the others
    each that is acknowledged or abandoned was sent, and each that was got is one of these. It is acknowledged after it is sent, and an
    abandoned one by a FORWARD-TSN of its sender."""
    lines, first = dump(program, path, "--messages", "--payload"), talk.packets[0].sender
    opened = {chunk["stream"]: chunk["label"] for it in lines for chunk in it.get("chunks", ())
              if it.get("packet") and chunk.get("message_name") == "DATA_CHANNEL_OPEN"}
    shown = [{label: [] for label in CHANNELS} for _ in ADDRESSES]
    for it in lines:
        if "message_of" in it and it.get("ppid") in MESSAGES and it["stream"] in opened:
            value = MESSAGES[it["ppid"]](bytes.fromhex(it["payload"])) if "payload" in it else None
            is_acknowledged = "acknowledged_packet" in it
            shown[it["end"] ^ first][opened[it["stream"]]].append((value, is_acknowledged))
            ends = talk.packets[it["sent_packet"] - 1].sender == it["end"] ^ first
            if is_acknowledged:
                ends &= it["delay"] >= 0 and talk.packets[it["acknowledged_packet"] - 1].sender == 1 - (it["end"] ^ first)
            elif it.get("abandoned_by") == "FORWARD-TSN":
                ends &= talk.packets[it["abandoned_packet"] - 1].sender == it["end"] ^ first
            if not ends:
                yield None, f"a message by another end: {it}"
    for sender, label in ((sender, label) for sender in (0, 1) for label in CHANNELS):
        sent, got = (sorted(it[label], key=repr) for it in (talk.sent[sender], talk.got[1 - sender]))
        values = sorted((value for value, _ in shown[sender][label] if value is not None), key=repr)
        is_whole = all(is_acknowledged and value is not None for value, is_acknowledged in shown[sender][label])
        is_right = is_whole and sent == values == got if label in RELIABLE else is_part(got, values) and is_part(values, sent)
        if not is_right:
            said = f"{len(values)} of {len(shown[sender][label])} whole"
            yield None, f"{label}, sent by {ADDRESSES[sender]}: {len(got)} got, {said}, {len(sent)} sent"


def kinds(talk, program, path):
    """Each end sent each kind of chunk and list that is to be compared."""
    for sender in 0, 1:
        chunks = chunks_of(talk, sender, *range(256))
        seen = {it["type"] for it in chunks} | {name for it in chunks for name, value in it.items() if value != ()}
        seen |= {f"parameter {kind}" for it in chunks_of(talk, sender, RE_CONFIG) for kind, _ in it["params"]}
        lacks = {DATA, SACK, FORWARD_TSN, "gaps", "duplicates", "streams", "parameter 13", "parameter 16"} - seen
        if sender == talk.pion:
            lacks -= {"duplicates"}  # (pion 1.8 reports none)
        if lacks:
            yield None, f"{ADDRESSES[sender]} sent none of {lacks}"


READERS = {"sctp_dump": by_program, "the package": by_package, "tshark": by_tshark, "the association": association,
           "the messages": messages, "their fates": fates, "the kinds": kinds}
