# SPDX-License-Identifier: Apache-2.0
"""What registry/vectors says of bytes is what the package reads of them, and writes; VECTORS names a further file of kinds."""

import json
import os
import random
import typing
import unittest
from collections.abc import Iterator
from dataclasses import fields, replace
from ipaddress import IPv4Address, IPv6Address, ip_address
from typing import Any

import davgyuti
from davgyuti import Answer, Header, InitFault, PacketBuilder, Policy, Result, _kinds, registered
from support import ANY_CHECKSUM, VECTORS

HEADER = bytes.fromhex("138813890102030400000000")
STRICT = Policy(any_checksum=True, strict_padding=True)
RAW: dict[str, Any] = {"chunks": davgyuti.RawChunk, "parameters": davgyuti.RawParameter, "causes": davgyuti.RawCause}


def lines(path: str) -> Iterator[dict[str, Any]]:
    with open(path, encoding="ascii") as file:
        yield from map(json.loads, file)


def number_of(kind: Any) -> Any:
    """The type of a class, or its code."""
    return getattr(kind, "type", getattr(kind, "code", None))


CLASSES = {
    (level, number_of(it).name): it
    for level, base in (("chunks", "ChunkPart"), ("parameters", "ParameterPart"), ("causes", "CausePart"))
    for it in vars(_kinds).values()
    if isinstance(it, type) and issubclass(it, getattr(_kinds, base)) and isinstance(number_of(it), int) and not hasattr(it, "fields")
}
HINTS = {it: typing.get_type_hints(it) for it in CLASSES.values()}


def own(it: Any) -> dict[str, Any]:
    """The fields of a kind, and their values."""
    return {field.name: getattr(it, field.name) for field in fields(it) if field.name != "offset"}


def by_fields_alone(it: Any) -> dict[str, Any]:
    """The same, without a chunk's flags."""
    return {name: getattr(it, name) for name in it.fields}


def made(level: str, said: dict[str, Any]) -> Any:
    """The value that is said of a chunk, a parameter or an error cause."""
    if "kind" not in said:
        return RAW[level](**{name: bytes.fromhex(it) if name == "value" else it for name, it in said.items()})
    kind = CLASSES[level, said["kind"]]
    return kind(**{name: field(name, it, HINTS[kind][name]) for name, it in said.items() if name != "kind"})


def field(name: str, said: Any, hint: Any) -> Any:
    if isinstance(said, str):
        return bytes.fromhex(said)
    if isinstance(said, list):
        return tuple(made(name, it) if name in RAW else field(name, it, typing.get_args(hint)[0]) for it in said)
    if isinstance(said, dict):
        return (hint if isinstance(hint, type) else typing.get_args(hint)[0])(**said)
    return said


def by_method(builder: PacketBuilder, chunk: Any) -> None:
    """Writes a chunk by the builder's method for it, and its list one by one."""
    given = own(chunk)
    items = given.pop("parameters", given.pop("causes", ()))
    is_raw = isinstance(chunk, davgyuti.RawChunk | davgyuti.Heartbeat | davgyuti.HeartbeatAck)
    writer = builder.chunk(**{"type": chunk.type, **given}) if is_raw else getattr(builder, chunk.type.name.lower())(**given)
    for it in items:
        writer.parameter(it) if hasattr(it, "type") else writer.cause(it)


# What a `repr` evaluates among.
NAMES = {**vars(davgyuti), **vars(registered), "IPv4Address": IPv4Address, "IPv6Address": IPv6Address}


def offsets(chunk: Any) -> list[int | None]:
    return [chunk.offset, *(it.offset for it in getattr(chunk, "parameters", getattr(chunk, "causes", ())))]


class Kinds(unittest.TestCase):
    maxDiff = None

    def test_kinds(self) -> None:
        found = set()
        for path in (os.path.join(VECTORS, "kinds.jsonl"), *filter(None, [os.environ.get("VECTORS")])):
            for it in lines(path):
                data = HEADER + bytes.fromhex(it["bytes"])
                self.fault(data, ANY_CHECKSUM, it.get("fault"))
                if "chunks" in it:
                    self.fault(data, STRICT, it.get("strict"))
                    self.packet(data, tuple(made("chunks", chunk) for chunk in it["chunks"]), it.get("written", it["bytes"]))
                    found |= {part["kind"] for chunk in it["chunks"] for part in self.parts(chunk) if "kind" in part}
                else:
                    # (all that is whole is read of it, and nothing raises)
                    [*davgyuti.chunks(data)], [*davgyuti.raw_items(data)]
        self.assertEqual(found, {name for _, name in CLASSES})

    def test_sizes(self) -> None:
        """A value is of its kind where a check accepts it there; but a list may end too early."""
        for (level, _), kind in CLASSES.items():
            for size in range(41):
                for value in (bytes(size), random.Random(size).randbytes(size), (max(0, size - 4) // 2).to_bytes(4, "big") + bytes(36)):
                    number = number_of(kind).to_bytes(1 if level == "chunks" else 2, "big") + bytes(level == "chunks")
                    data = number + (4 + size).to_bytes(2, "big") + value[:size]
                    if level != "chunks":
                        data = (b"\x82\0" if level == "parameters" else b"\x09\0") + (4 + len(data)).to_bytes(2, "big") + data
                    (part,) = davgyuti.chunks(HEADER + data)
                    if level != "chunks":
                        (part,) = getattr(part, level)
                    is_kind = davgyuti.first_fault(HEADER + data, ANY_CHECKSUM) is None
                    if is_kind or size < 16 or not {"parameters", "causes"} & {it.name for it in fields(kind)}:
                        is_list = size and {"parameters", "causes"} & {it.name for it in fields(part)}
                        self.assertTrue(isinstance(part, kind) == is_kind or is_list, (kind, size))

    def parts(self, chunk: dict[str, Any]) -> list[dict[str, Any]]:
        return [chunk, *chunk.get("parameters", chunk.get("causes", []))]

    def fault(self, data: bytes, policy: Policy, said: tuple[str, int] | None) -> None:
        found = davgyuti.first_fault(data, policy)
        wanted = davgyuti.Fault(Result[f"FAULT_{said[0].upper()}"], said[1]) if said else None
        self.assertEqual(found, wanted, data.hex())

    def packet(self, data: bytes, chunks: tuple[Any, ...], written: str) -> None:
        packet, text = davgyuti.Packet(data, ANY_CHECKSUM), data.hex()
        found = packet.chunks()
        self.assertEqual(found, chunks, text)
        # (of the same classes, too: a bool isn't a number)
        self.assertEqual(repr(found), repr(tuple(davgyuti.chunks(data))), text)
        self.assertEqual(eval(repr(found), NAMES), found, text)
        self.assertEqual([*map(offsets, found)], [*map(offsets, davgyuti.chunks(data))], text)
        builder, other = PacketBuilder(5000, 5001, 0x01020304), PacketBuilder(5000, 5001, 0x01020304)
        for chunk, (raw, items) in zip(found, packet.raw_items(), strict=True):
            builder.add(chunk)
            by_method(other, chunk)
            self.assertEqual(davgyuti.read_chunk(bytes(chunk)), chunk, text)
            self.assertEqual((chunk.offset, chunk.type), (raw.offset, raw.type))
            self.assertEqual(bytes(raw), data[raw.offset : raw.offset + 4 + len(raw.value)])
            for part, item in zip(getattr(chunk, "parameters", getattr(chunk, "causes", ())), items, strict=True):
                again = (davgyuti.parameter if hasattr(part, "type") else davgyuti.cause)(item.type, item.value)
                self.assertEqual((again, again.offset, item.offset), (part, None, part.offset), text)
                self.assertEqual((part.value, again.value), (item.value, item.value), text)
                self.assertEqual(data[part.offset : part.offset + 2], bytes(part)[:2])
        self.assertEqual(bytes(builder)[12:].hex(), written, text)
        self.assertEqual(bytes(other), bytes(builder), text)
        self.assertEqual(davgyuti.Packet(builder.seal()).chunks(), found, text)


def of_field(name: str, said: Any) -> Any:
    """The value that is said of a field of what the library keeps as bytes."""
    if name in RAW:
        return tuple(made(name, it) for it in said)
    if name == "address":
        return ip_address(bytes.fromhex(said))
    return bytes.fromhex(said) if isinstance(said, str) else tuple(said) if isinstance(said, list) else said


def said_of(it: Any) -> Any:
    if isinstance(it, IPv4Address | IPv6Address):
        return it.packed.hex()
    if isinstance(it, tuple):
        return [said_of(part) for part in it]
    if hasattr(it, "offset"):
        return {"type" if hasattr(it, "type") else "code": number_of(it), "value": it.value.hex()}
    return it.hex() if isinstance(it, bytes) else it


class Registered(unittest.TestCase):
    KINDS: dict[str, Any] = {"chunk": registered.CHUNKS, "parameter": registered.PARAMETERS, "cause": registered.CAUSES}

    def test_registered(self) -> None:
        found = set()
        for it in lines(os.path.join(VECTORS, "registered.jsonl")):
            with self.subTest(it):
                level, kind = it["level"], self.KINDS[it["level"]].get(it["type"])
                values = {name: of_field(name, said) for name, said in (it["fields"] or {}).items()}
                if "refused" in it:
                    self.assertRaises(davgyuti.BadValue, bytes, kind(**values))
                    continue
                raw, value = RAW[level + "s"](it["type"]), bytes.fromhex(it["value"])
                raw.value, raw.offset = value, 4
                by_fields = raw.registered()
                if it["fields"] is None:
                    self.assertIsNone(by_fields)
                    continue
                found.add(kind)
                self.assertEqual((type(by_fields), by_fields.offset), (kind, 4))
                self.assertEqual(eval(repr(by_fields), NAMES), by_fields)
                self.assertEqual({name: said_of(part) for name, part in by_fields_alone(by_fields).items()}, it["fields"])
                items = getattr(by_fields, "parameters", getattr(by_fields, "causes", ()))
                for part in items:
                    self.assertEqual(value[part.offset - 8 : part.offset - 6], bytes(part)[:2])
                written = bytes.fromhex(it.get("written", it["value"]))
                self.assertEqual((by_fields.value, kind(**values).value), (written, written))
        self.assertEqual(found, {kind for kinds in self.KINDS.values() for kind in kinds.values()})

    def test_flags(self) -> None:
        """Those of each chunk, as they are; and the bits C, T, B and M of PKTDROP (draft-stewart-sctp-pktdrprep)."""
        values = bytes.fromhex("0000ffff 00000400 05dc 0000  0102")
        for flags, said in ((0, ()), (1, ("MIDDLEBOX",)), (2, ("BAD_CHECKSUM",)), (4, ("TRUNCATED",)), (0x8D, ("MIDDLEBOX", "TRUNCATED"))):
            data = b"\x81" + bytes((flags,)) + b"\0\x12" + values
            dropped = davgyuti.read_chunk(data).registered()
            assert isinstance(dropped, registered.Pktdrop)
            self.assertEqual(dropped, registered.Pktdrop(0xFFFF, 0x400, 0x5DC, b"\1\2", flags=flags))
            self.assertEqual(bytes(dropped), data)
            bits = sum(getattr(registered.Pktdrop, name) for name in said)
            self.assertEqual(dropped.flags & 7, bits)
        self.assertNotEqual(dropped, registered.Pktdrop(0xFFFF, 0x400, 0x5DC, b"\1\2"))
        for kind in registered.CHUNKS.values():
            given: dict[str, Any] = dict.fromkeys(kind.fields, 0) | {"address": ip_address("192.0.2.1"), "counts": (0, 0, 0)}
            chunk = kind(**{name: given[name] for name, form in kind.fields.items() if form not in ("bytes", "parameters")}, flags=0xA5)
            self.assertEqual(bytes(chunk)[:2], bytes((chunk.type, 0xA5)))
            self.assertEqual(davgyuti.read_chunk(bytes(chunk)).registered(), chunk)
            for wrong in (-1, 256):
                for it in (replace(chunk, flags=wrong), RAW["chunks"](chunk.type, wrong, chunk.value)):
                    self.assertRaisesRegex(ValueError, f"^flags has to be 0 to 255, and is {wrong}$", bytes, it)
                self.assertRaises(ValueError, it.registered)


def init_of(it: dict[str, Any]) -> Any:
    return davgyuti.Packet(bytes.fromhex(it["packet"]), ANY_CHECKSUM).chunks()[0]


def header_of(it: dict[str, Any]) -> Header:
    return Header(**it["header"], checksum=77)


def added(it: dict[str, Any]) -> tuple[str, int | None]:
    """What is added, and the offset at which the program stops."""
    builder, numbers = PacketBuilder(5000, 5001, 0x01020304), dict.fromkeys(own(davgyuti.Init(0, 0, 0, 0, 0)), 0)
    if it["call"] == "add_unrecognized_chunks":
        stop = builder.unrecognized_chunks(bytes.fromhex(it["packet"]), it["known"])
        return bytes(builder)[12:].hex(), stop
    init = init_of(it)
    if it["call"] == "add_new_addresses":
        builder.abort().new_addresses(init, bytes.fromhex(it["known"]))
        return bytes(builder)[12:].hex(), None
    if it["call"] == "add_unrecognized_parameters":
        del numbers["parameters"]
        stop = builder.init_ack(**numbers).unrecognized_parameters(init, it["known"])
    else:
        stop = builder.unrecognized_parameters_error(init, it["known"])
    offset = None if stop is None else init.parameters[stop].offset - init.parameters[0].offset
    return bytes(builder)[12:].hex(), offset


CONSTANTS = {"fault": InitFault, "answer": Answer}


def called(it: dict[str, Any]) -> Any:
    """What a call returns, of arguments in the order of the line: numbers, constants, and bytes before others, which are named."""
    call, given = getattr(davgyuti, it["call"]), {**it}
    del given["call"], given["returns"]
    if "header" in it:
        given["header"] = header_of(it)
    if it["call"] == "adds_addresses":
        given["packet"], given["known"] = init_of(it), bytes.fromhex(it["known"])
    given |= {name: kind[it[name]] for name, kind in CONSTANTS.items() if name in it}
    if isinstance(given.get("packet"), str):
        given["packet"] = bytes.fromhex(it["packet"])
    words = {name: given.pop(name) for name in it if isinstance(it[name], bool) and name in given}
    found = call(*given.values(), **words)
    if isinstance(found, tuple):
        return [rule.name for rule in found]
    return found.hex() if isinstance(found, bytes) else found if isinstance(found, bool) else found.name


class Calls(unittest.TestCase):
    def test_calls(self) -> None:
        for it in lines(os.path.join(VECTORS, "calls.jsonl")):
            with self.subTest(it):
                if it["call"].startswith("add_"):
                    self.assertEqual(added(it), (it["returns"], it.get("end")))
                elif it["returns"] is None:
                    self.assertRaises(davgyuti.BadValue, called, it)
                else:
                    self.assertEqual(called(it), it["returns"])


if __name__ == "__main__":
    unittest.main()
