# SPDX-License-Identifier: Apache-2.0
"""What a stack needs besides packets: bare chunks, typed values of a type and bytes, checksums of zero."""

import unittest
from dataclasses import replace

import davgyuti
from davgyuti import Policy, Result
from support import ANY_CHECKSUM, mutated, of_hex

HEADER = of_hex("1388 1389 01020304 00000000")
ALLOWED = Policy(allowed_zero_checksum=True)


class Bare(unittest.TestCase):
    def test_offsets(self) -> None:
        # (an INIT as in SDP, whose last parameter has no padding)
        data = of_hex("0100001e 55841275 00500000 ffff ffff 40e0eb42 c0000004 80080006 82c0")
        chunk = davgyuti.read_chunk(data)
        assert isinstance(chunk, davgyuti.Init)
        self.assertEqual((bytes(chunk), [chunk.offset, *(it.offset for it in chunk.parameters)]), (data, [0, 20, 24]))

    def test_faults(self) -> None:
        for text, code, offset in (
            ("", Result.FAULT_SIZE, 0),
            ("0b 00 00", Result.FAULT_SIZE, 3),
            ("0b 00 0003", Result.FAULT_LENGTH, 0),
            ("0a 00 0009 616263 00", Result.FAULT_LENGTH, 0),
            # something in it
            ("04 00 000c 0001 0009 61626364", Result.FAULT_LENGTH, 4),
            ("82 00 0010 0010 000c 00000001 00000007", Result.FAULT_VALUE, 4),
            # something behind it: half a chunk, a chunk, padding twice
            ("0b 00 0004 00", Result.FAULT_LENGTH, 4),
            ("0b 00 0004 0b 00 0004", Result.FAULT_LENGTH, 4),
            ("0a 00 0005 61 000000 00000000", Result.FAULT_LENGTH, 8),
        ):
            with self.subTest(text), self.assertRaises(davgyuti.Fault) as caught:
                davgyuti.read_chunk(of_hex(text))
            self.assertEqual(caught.exception, davgyuti.Fault(code, offset))
        # (a packet has at most 65,535 bytes, and 12 of them before its first chunk)
        self.assertEqual(davgyuti.read_chunk(of_hex("0a 00 fff3") + bytes(65519)), davgyuti.CookieEcho(bytes(65519)))
        for data in (of_hex("0a 00 fff4") + bytes(65520), of_hex("0a 00 ffff") + bytes(65530)):
            with self.assertRaises(davgyuti.Fault) as caught:
                davgyuti.read_chunk(data)
            self.assertEqual(caught.exception, davgyuti.Fault(Result.FAULT_SIZE, 65523))
        # Any bytes are a chunk if they are a packet's only one.
        found = 0
        for data in mutated(4000, seed=9):
            is_one = davgyuti.first_fault(HEADER + data[12:], ANY_CHECKSUM) is None and len(list(davgyuti.chunks(data))) == 1
            try:
                self.assertEqual((davgyuti.read_chunk(data[12:]), is_one), (next(davgyuti.chunks(data)), True))
                found += 1
            except davgyuti.Fault:
                self.assertFalse(is_one)
        self.assertTrue(300 < found < 3700, found)
        with self.assertRaises(TypeError):
            davgyuti.read_chunk("0b000004")  # type: ignore[arg-type]


class TypedValues(unittest.TestCase):
    def test_values_of_no_kind(self) -> None:
        # (a count of more than there are; what has no room in a value)
        self.assertEqual(davgyuti.cause(2, of_hex("9b49137b")), davgyuti.RawCause(2, of_hex("9b49137b")))
        self.assertEqual(davgyuti.parameter(1, bytes(65532)), davgyuti.RawParameter(1, bytes(65532)))
        self.assertEqual(davgyuti.parameter(1), davgyuti.HeartbeatInfo(b""))
        self.assertIsNone(davgyuti.parameter(1, bytearray(b"a")).offset)
        # reserved bytes
        self.assertEqual(davgyuti.parameter(17, of_hex("00000001 0002 ffff")).value, of_hex("00000001 0002 ffff"))
        for make in (davgyuti.parameter, davgyuti.cause):
            self.assertRaises(ValueError, make, 65536)

    def test_flags(self) -> None:
        # RFC 9260 section 3.3.1 and RFC 8260 section 2.1: the bits I, U, B and E, of which E is the lowest.
        numbers = {"tsn": 1, "stream": 2, "ppid": 4}
        for value in (davgyuti.Data(**numbers, ssn=3, payload=b"abc"), davgyuti.IData(**numbers, mid=3, payload=b"abc")):
            self.assertEqual(value.flags, 3)
            for flags in range(16):
                it = value.with_flags(flags)
                self.assertEqual((it.flags, bytes(it)[1]), (flags, flags))
                bits = (it.immediate_ack, it.is_unordered, it.is_beginning, it.is_end)
                self.assertEqual(bits, tuple(bit == "1" for bit in f"{flags:04b}"))
                self.assertEqual(it.with_flags(3), value)
            self.assertEqual(value.with_flags(0xF3), value)


class ZeroChecksums(unittest.TestCase):
    # RFC 9653 section 5.2: INIT, COOKIE ECHO and ASCONF; what answers a packet out of the blue reflects its tag.
    NUMBERS = "00000001 00000002 0003 0004 00000005"
    CHECKSUMMED = (f"0100 0014 {NUMBERS}", "0a00 0005 61 000000", "c100 0008 00000001", "0601 0004", "0e01 0004")
    OTHERS = (f"02ff 0014 {NUMBERS}", "0b00 0004", "0600 0004", "0e00 0004", "0401 0008 0001 0004", "c801 0004")

    def test_needs_checksum(self) -> None:
        for text in self.CHECKSUMMED:
            self.assertTrue(davgyuti.needs_checksum(HEADER + of_hex(text)))
            self.assertTrue(davgyuti.needs_checksum(bytearray(HEADER + of_hex("0b00 0004" + text))))
        for text in self.OTHERS:
            self.assertFalse(davgyuti.needs_checksum(HEADER + of_hex(text)))
        for size in range(len(HEADER) + 4):
            self.assertFalse(davgyuti.needs_checksum((HEADER + of_hex("0100 0004"))[:size]))

    def test_allowed(self) -> None:
        wrong = davgyuti.Fault(Result.FAULT_CHECKSUM, 8)
        for text in self.CHECKSUMMED:
            data = HEADER + of_hex(text)
            self.assertEqual(davgyuti.first_fault(data, ALLOWED), wrong)
            self.assertIsNone(davgyuti.first_fault(davgyuti.seal(data), ALLOWED))
            for more in ("zero_checksum", "any_checksum"):
                self.assertIsNone(davgyuti.first_fault(data, replace(ALLOWED, **{more: True})))
            # (a word of 0 is right where the field is)
            self.assertIsNone(davgyuti.first_fault(data, ALLOWED, word=davgyuti.Word(0)))
        for text in self.OTHERS:
            data = HEADER + of_hex(text)
            packet = davgyuti.Packet(data, ALLOWED)
            self.assertEqual(packet.canonical(), davgyuti.canonical(data, ANY_CHECKSUM))
            self.assertEqual(packet.text(), davgyuti.text(data, ANY_CHECKSUM))
            self.assertEqual(davgyuti.first_fault(data[:8] + of_hex("00000001") + data[12:], ALLOWED), wrong)
            self.assertEqual(davgyuti.first_fault(data), wrong)

    def test_first_fault(self) -> None:
        # The size comes first, then the checksum, then the chunks, from the left.
        for text, code, offset in (
            ("", Result.FAULT_SIZE, 12),
            ("0100 0014 0000", Result.FAULT_LENGTH, 12),
            ("0b00 0003 0100 0004", Result.FAULT_LENGTH, 12),
            ("0100 0004 0b00 0003", Result.FAULT_CHECKSUM, 8),
        ):
            self.assertEqual(davgyuti.first_fault(HEADER + of_hex(text), ALLOWED), davgyuti.Fault(code, offset))
        large = HEADER + of_hex("0b00 0004") * 16381
        self.assertEqual(davgyuti.first_fault(large, ALLOWED), davgyuti.Fault(Result.FAULT_SIZE, 65535))
        self.assertIsNone(davgyuti.first_fault(large[:-4], ALLOWED))


if __name__ == "__main__":
    unittest.main()
