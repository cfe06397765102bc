# SPDX-License-Identifier: Apache-2.0
"""What is said of a whole packet: faults, texts, the canonical packet."""

import copy
import inspect
import pickle
import types
import unittest
import weakref
from dataclasses import MISSING, fields
from functools import partial

import davgyuti
from davgyuti import _fast
from support import ANY_CHECKSUM, of_hex

COOKIE_ACK = of_hex("1388 1388 4d2df52d 67db78b5  0b 00 0004")


def crc32c(data: bytes) -> int:
    """The CRC32c (RFC 9260 appendix A), bit by bit."""
    crc = 0xFFFFFFFF
    for it in data:
        crc ^= it
        for _ in range(8):
            crc = crc >> 1 ^ (0x82F63B78 if crc & 1 else 0)
    return crc ^ 0xFFFFFFFF


class Check(unittest.TestCase):
    def fault(self, data: bytes, policy: davgyuti.Policy = davgyuti.Policy()) -> tuple[davgyuti.Result, int] | None:
        fault = davgyuti.first_fault(data, policy)
        if fault is None:
            davgyuti.check(data, policy)
            self.assertEqual(bytes(davgyuti.Packet(data, policy)), data)
            return None
        for function in (davgyuti.check, davgyuti.Packet, davgyuti.canonical, davgyuti.text, davgyuti.report):
            with self.subTest(function.__name__), self.assertRaises(davgyuti.Fault) as caught:
                function(data, policy)
            self.assertEqual((caught.exception.code, caught.exception.offset), (fault.code, fault.offset))
        return fault.code, fault.offset

    def test_checksum(self) -> None:
        data = COOKIE_ACK[:8] + bytes(4) + COOKIE_ACK[12:]
        self.assertEqual(self.fault(data), (davgyuti.Result.FAULT_CHECKSUM, 8))
        self.assertIsNone(self.fault(data, davgyuti.Policy(zero_checksum=True)))
        self.assertIsNone(self.fault(data, ANY_CHECKSUM))

    def test_own_word(self) -> None:
        word = davgyuti.word(COOKIE_ACK)
        self.assertEqual((word, type(word)), (0x67DB78B5, davgyuti.Word))
        davgyuti.check(COOKIE_ACK, word=word)
        self.assertEqual(davgyuti.Packet(COOKIE_ACK, word=word).word, word)
        crc = crc32c(COOKIE_ACK[:8] + bytes(4) + COOKIE_ACK[12:])
        self.assertEqual((own := davgyuti.Word.from_crc32c(crc), type(own)), (word, davgyuti.Word))
        for wrong in (-1, 2**32):
            self.assertRaisesRegex(ValueError, f"^crc has to be 0 to 4294967295, and is {wrong}$", davgyuti.Word.from_crc32c, wrong)
        # (a number may be what the packet has, which is no word)
        packet = davgyuti.Packet(COOKIE_ACK)
        self.assertIs(type(packet.word), davgyuti.Word)
        for function in (davgyuti.check, davgyuti.first_fault, davgyuti.Packet, davgyuti.canonical, davgyuti.text, davgyuti.report):
            for number in (packet.header.checksum, 0, False, "1"):
                with self.assertRaisesRegex(TypeError, f"^word has to be a Word, and is {number!r}$"):
                    function(COOKIE_ACK, word=number)  # type: ignore[arg-type]
        for wrong in (0, word ^ 1, crc):
            fault = davgyuti.first_fault(COOKIE_ACK, word=davgyuti.Word(wrong))
            assert fault
            self.assertEqual(fault.code, davgyuti.Result.FAULT_CHECKSUM)
        # A word of 0 is a word too.
        zero = COOKIE_ACK[:8] + bytes(4) + COOKIE_ACK[12:]
        for function in (davgyuti.check, davgyuti.Packet, davgyuti.canonical, davgyuti.text, davgyuti.report):
            function(zero, word=davgyuti.Word(0))
            with self.assertRaises(davgyuti.Fault):
                function(COOKIE_ACK, word=davgyuti.Word(0))
        text = "source=5000 destination=5000 tag=1294857517 checksum=0\nCOOKIE-ACK"
        self.assertEqual(davgyuti.Packet(zero, word=davgyuti.Word(0)).text(), text)
        for outside in (-1, 2**32):
            with self.assertRaises(ValueError):
                davgyuti.check(COOKIE_ACK, word=davgyuti.Word(outside))

    def test_fault_offset(self) -> None:
        # (the vectors have those of all other faults)
        for size in (12, 65536):
            fault = davgyuti.Fault(davgyuti.Result.FAULT_SIZE, min(size, 65535))
            self.assertEqual(davgyuti.first_fault(bytes(size), ANY_CHECKSUM), fault)
        self.assertEqual(davgyuti.first_fault(bytes(8) + b"none" + COOKIE_ACK[12:]), davgyuti.Fault(davgyuti.Result.FAULT_CHECKSUM, 8))

    def test_kinds_of_bytes(self) -> None:
        for data in (bytearray(COOKIE_ACK), memoryview(COOKIE_ACK), memoryview(COOKIE_ACK * 2)[:16]):
            self.assertEqual(bytes(davgyuti.Packet(data)), COOKIE_ACK)
            self.assertEqual(davgyuti.word(data), 0x67DB78B5)
        backwards = memoryview(COOKIE_ACK[::-1])[::-1]
        self.assertEqual(davgyuti.text(backwards), davgyuti.text(COOKIE_ACK))
        for wrong in ("abc", 16, None, [1, 2]):
            with self.assertRaises(TypeError):
                davgyuti.check(wrong)  # type: ignore[arg-type]
        # (they are copied)
        data = bytearray(COOKIE_ACK)
        packet = davgyuti.Packet(data)
        data[:] = bytes(16)
        self.assertEqual(packet.chunks(), (davgyuti.CookieAck(),))


class Text(unittest.TestCase):
    def test_long(self) -> None:
        builder = davgyuti.PacketBuilder(1, 2, 3)
        for _ in range(3000):
            builder.shutdown(7)
        data = builder.seal()
        self.assertEqual(davgyuti.text(data).count("\n"), 3000)
        self.assertEqual(davgyuti.report(data).count("\n"), 3002)


class Canonical(unittest.TestCase):
    def test_means_the_same(self) -> None:
        # (a COOKIE ECHO with flags that have no meaning, and other padding)
        one = davgyuti.seal(COOKIE_ACK[:12] + of_hex("0a 00 0005  61 00 00 00"))
        other = davgyuti.seal(COOKIE_ACK[:12] + of_hex("0a ff 0005  61 01 02 03"))
        expected = of_hex("1388 1388 4d2df52d 00000000  0a 00 0005  61 00 00 00")
        self.assertEqual(davgyuti.canonical(one), expected)
        self.assertEqual(davgyuti.Packet(other).canonical(), expected)
        self.assertNotEqual(davgyuti.Packet(one), davgyuti.Packet(other))
        self.assertEqual(davgyuti.canonical(davgyuti.seal(one[:17])), expected)  # (padding is completed)

    def test_too_long(self) -> None:
        chunk = of_hex("c8 00 fff3") + bytes(65519)
        data = davgyuti.seal(COOKIE_ACK[:12] + chunk)
        self.assertEqual(len(data), 65535)
        with self.assertRaises(davgyuti.TooLong) as caught:
            davgyuti.canonical(data)
        self.assertEqual(caught.exception.code, davgyuti.Result.TOO_LONG)
        self.assertEqual(str(caught.exception), "no canonical packet is as long")


class Change(unittest.TestCase):
    def test_seal(self) -> None:
        self.assertEqual(davgyuti.seal(bytearray(COOKIE_ACK[:8] + b"abcd" + COOKIE_ACK[12:])), COOKIE_ACK)

    def test_set_tag(self) -> None:
        data = davgyuti.set_tag(COOKIE_ACK, 0x01020304)
        self.assertEqual(data, of_hex("1388 1388 01020304 67db78b5  0b 00 0004"))
        self.assertIsNone(davgyuti.first_fault(davgyuti.seal(data)))
        for wrong in (-1, 2**32):
            with self.assertRaises(ValueError):
                davgyuti.set_tag(COOKIE_ACK, wrong)

    def test_too_short(self) -> None:
        for size in (0, 11):
            for change in (davgyuti.seal, partial(davgyuti.set_tag, verification_tag=1)):
                self.assertRaisesRegex(davgyuti.BadPlace, f"^fewer than 12 bytes: {size}$", change, bytes(size))
        self.assertEqual(len(davgyuti.seal(bytes(12))), 12)


class Errors(unittest.TestCase):
    def test_are_of_kinds_of_python(self) -> None:
        for error in (davgyuti.Fault, davgyuti.TooLong, davgyuti.BadValue, davgyuti.BadPlace):
            self.assertTrue(issubclass(error, davgyuti.Error) and issubclass(error, ValueError), error)
        self.assertTrue(issubclass(davgyuti.NoRoom, davgyuti.WriteError) and issubclass(davgyuti.NoRoom, BufferError))

    def test_faults_are_values(self) -> None:
        fault = davgyuti.Fault(davgyuti.Result.FAULT_SIZE, 3)
        self.assertEqual({fault: 1}[davgyuti.first_fault(b"abc") or fault], 1)
        self.assertEqual(davgyuti.first_fault(b"abc"), fault)
        self.assertNotEqual(davgyuti.first_fault(b"ab"), fault)
        self.assertNotEqual(davgyuti.Fault(davgyuti.Result.FAULT_LENGTH, 3), fault)
        self.assertEqual((str(fault), fault.text), ("not the size of a packet at byte 3", "not the size of a packet"))
        for error in (fault, davgyuti.NoRoom(davgyuti.Result.NO_ROOM, "why")):
            for again in (pickle.loads(pickle.dumps(error)), copy.copy(error)):
                self.assertEqual((type(again), str(again), vars(again)), (type(error), str(error), vars(error)))

    def test_policy(self) -> None:
        with self.assertRaisesRegex(TypeError, "^any_checksum has to be a bool, and is 'no'$"):
            davgyuti.Policy(any_checksum="no")  # type: ignore[arg-type]
        for wrong in (None, True):
            for function in (davgyuti.check, davgyuti.first_fault, davgyuti.canonical, davgyuti.text, davgyuti.Packet):
                with self.assertRaisesRegex(TypeError, f"^policy has to be a Policy, and is {wrong}$"):
                    function(COOKIE_ACK, wrong)  # type: ignore[arg-type]


class Value(unittest.TestCase):
    def test_packet(self) -> None:
        packet = davgyuti.Packet(COOKIE_ACK)
        self.assertEqual(packet, davgyuti.Packet(bytearray(COOKIE_ACK)))
        self.assertEqual({packet: 1}[davgyuti.Packet(COOKIE_ACK)], 1)
        self.assertEqual(len(packet), 16)
        self.assertEqual(repr(packet), "<Packet from port 5000 to 5000, tag 0x4d2df52d, 16 bytes>")
        self.assertNotEqual(packet, COOKIE_ACK)
        self.assertEqual(packet.header, davgyuti.Header(5000, 5000, 0x4D2DF52D, 0x67DB78B5))
        with self.assertRaises(davgyuti.Fault) as caught:
            davgyuti.header(COOKIE_ACK[:11])
        self.assertEqual((caught.exception.code, caught.exception.offset), (davgyuti.Result.FAULT_SIZE, 11))

        self.assertEqual(davgyuti.Packet(packet), packet)
        with self.assertRaises(davgyuti.Fault):
            davgyuti.Packet(davgyuti.Packet(COOKIE_ACK[:-1] + b"\5" + b"ab", ANY_CHECKSUM))

    def test_reprs(self) -> None:
        builder = davgyuti.PacketBuilder(5000, 5001, 7)
        builder.cookie_ack()
        self.assertEqual(repr(builder), "<PacketBuilder from port 5000 to 5001, tag 0x00000007, 16 bytes>")
        self.assertEqual(repr(davgyuti.PacketBuilder.__new__(davgyuti.PacketBuilder)), "<PacketBuilder>")
        for it in (
            davgyuti.Policy(), davgyuti.Policy(zero_checksum=True, strict_padding=True), davgyuti.Fault(davgyuti.Result.FAULT_SIZE, 3),
            davgyuti.ReConfigResponse(1, davgyuti.ReConfigResult.IN_PROGRESS), davgyuti.RawChunk(davgyuti.ChunkType.AUTH, 1, b"\0"),
            davgyuti.Action.SKIP, davgyuti.Rule.TAG_ZERO,
        ):
            again = eval(repr(it), vars(davgyuti))
            self.assertEqual((again, type(again)), (it, type(it)))
        self.assertEqual(repr(ANY_CHECKSUM), "Policy(any_checksum=True)")

    def test_classes(self) -> None:
        """Each says where it is found; what reads and writes kinds names their union."""
        for name in davgyuti.__all__:
            it = getattr(davgyuti, name)
            if isinstance(it, type):
                self.assertEqual((it.__module__, it.__qualname__), ("davgyuti", name))
            if callable(it) and not isinstance(it, types.UnionType):
                for member in (it, *(vars(it).values() if isinstance(it, type) else ())):
                    if inspect.isfunction(member):
                        self.assertNotIn("_kinds.", str(inspect.signature(member)))
        self.assertEqual(inspect.signature(davgyuti.Packet.chunks).return_annotation, "tuple[Chunk, ...]")
        cookie = davgyuti.Cookie(**dict.fromkeys((it.name for it in fields(davgyuti.Cookie) if it.default is MISSING), 0))
        for it in (
            davgyuti.CookieAck(), davgyuti.RawParameter(1), davgyuti.ProtocolViolation(b"a"), davgyuti.registered.Ecne(1),
            davgyuti.Policy(), davgyuti.header(COOKIE_ACK), davgyuti.PacketBuilder(1, 2, 3), cookie,
        ):
            self.assertIs(weakref.ref(it)(), it)

    def test_reserved_bytes(self) -> None:
        """`value` is what was read, what is written has zeros."""
        for kind in (davgyuti.AddOutgoingStreams, davgyuti.AddIncomingStreams):
            data = kind.type.to_bytes(2, "big") + of_hex("000c 2bc42959 8002000c")
            (chunk,) = davgyuti.chunks(bytes(12) + of_hex("82 00 0010") + data)
            assert isinstance(chunk, davgyuti.ReConfig)
            (it,) = chunk.parameters
            for again in (it, davgyuti.parameter(kind.type, data[4:]), pickle.loads(pickle.dumps(it)), copy.copy(it)):
                assert isinstance(again, kind)
                self.assertEqual((again, again.value), (kind(0x2BC42959, 0x8002), data[4:]))
                self.assertEqual((bytes(again), again.reserved), (data[:10] + bytes(2), 12))
            self.assertEqual((bytes(chunk), chunk.value), (of_hex("82 00 0010") + data[:10] + bytes(2), data[:10] + bytes(2)))
            for wrong in (-1, 65536):
                with self.assertRaisesRegex(ValueError, f"^reserved has to be 0 to 65535, and is {wrong}$"):
                    kind(1, 2, reserved=wrong).value

    def test_no_checksum_is_computed_where_any_is_accepted(self) -> None:
        packet = davgyuti.Packet(COOKIE_ACK[:8] + bytes(4) + COOKIE_ACK[12:], ANY_CHECKSUM)
        self.assertIsNone(packet._word)
        self.assertEqual(_fast.read(bytes(packet), ANY_CHECKSUM, None), (None, 1))
        # (the policy is kept)
        self.assertEqual((packet.canonical(), packet.text()[:12]), (bytes(packet), "source=5000 "))
        self.assertEqual((packet.word, packet.report().splitlines()[1]), (0x67DB78B5, "checksum 0x00000000: zero"))

    def test_iteration(self) -> None:
        for count in (1, 64, 65, 1000):
            packet = davgyuti.Packet(davgyuti.seal(COOKIE_ACK[:12] + count * COOKIE_ACK[12:]))
            self.assertEqual(([*packet], len(packet.chunks())), ([davgyuti.CookieAck()] * count, count))

    def test_names(self) -> None:
        self.assertEqual((davgyuti.chunk_name(130), davgyuti.chunk_name(99)), ("RE-CONFIG", "chunk type 99 (0x63)"))
        self.assertEqual((davgyuti.parameter_name(5), davgyuti.parameter_name(0x8006)), ("IPv4 Address", "parameter type 32774 (0x8006)"))
        self.assertEqual((davgyuti.cause_name(0x105), davgyuti.cause_name(99)), ("Unsupported HMAC Identifier", "cause code 99 (0x0063)"))
        for name in (davgyuti.chunk_name, davgyuti.parameter_name, davgyuti.cause_name):
            self.assertRaisesRegex(TypeError, "^'str' object cannot be interpreted as an integer$", name, "x")
        self.assertEqual((davgyuti.ChunkType.is_known(15), davgyuti.ChunkType.is_known(99)), (True, False))
        self.assertEqual(f"{davgyuti.Action.SKIP} {davgyuti.Action.SKIP:d} {davgyuti.ChunkType.SACK}", "SKIP 2 3")
        self.assertEqual([(it.reports, it.skips) for it in davgyuti.Action], [(False, False), (True, False), (False, True), (True, True)])
        self.assertEqual(davgyuti.Rule.TAG_ZERO.text, "the verification tag is 0 with a chunk other than INIT")
        self.assertEqual(davgyuti.Result.OK.__doc__, "The bytes are a packet; what was asked for is written.")

    def test_match(self) -> None:
        self.assertEqual(davgyuti.Data.__match_args__, ("tsn", "stream", "ssn", "ppid", "payload"))

    def test_values_have_slots(self) -> None:
        chunk = davgyuti.Shutdown(8)
        chunk.cumulative_tsn_ack = 7
        with self.assertRaises(AttributeError):
            chunk.tsn = 8  # type: ignore[attr-defined]
        self.assertEqual(hash(chunk), hash(davgyuti.Shutdown(7)))
        self.assertEqual(pickle.loads(pickle.dumps(chunk)), chunk)


if __name__ == "__main__":
    unittest.main()
