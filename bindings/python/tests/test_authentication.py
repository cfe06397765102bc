# SPDX-License-Identifier: Apache-2.0
"""What is authenticated: State Cookies, AUTH chunks and association shared keys. The HMACs are those of Python's hmac, of bytes
that are laid out here."""

import hmac
import unittest
from dataclasses import replace

import davgyuti
from davgyuti import BadPlace, Cookie, CookieError, CookieState, PacketBuilder, registered
from support import of_hex

KEY = b"a key"
SAYS = Cookie(
    created=1000000,
    lifespan=60000000,
    local_tag=0x01020304,
    peer_tag=0x05060708,
    local_tie_tag=0x11121314,
    peer_tie_tag=0x15161718,
    local_initial_tsn=0x090A0B0C,
    peer_initial_tsn=0x0D0E0F10,
    local_port=5000,
    peer_port=5001,
    outbound_streams=10,
    inbound_streams=20,
    extra=bytes([192, 0, 2, 1]),
)
# (as tests/c/auth.c has it)
SEALED = of_hex(
    "0e7f54ce817b4159983e9114aa8511194e5e71af023a055c38cb78f905a9ac0400000000000f4240"
    "000000000393870001020304050607081112131415161718090a0b0c0d0e0f1013881389000a0014c0000201"
)


class Cookies(unittest.TestCase):
    def refused(self, key: bytes, data: bytes, now: int) -> tuple[CookieState, int, str]:
        with self.assertRaises(CookieError) as caught:
            davgyuti.open_cookie(key, data, now)
        self.assertEqual(caught.exception.cookie, SAYS if caught.exception.code == CookieState.STALE else None)
        self.assertTrue(isinstance(caught.exception, davgyuti.Error) and isinstance(caught.exception, ValueError))
        return caught.exception.code, caught.exception.staleness, str(caught.exception)

    def test_seal(self) -> None:
        self.assertEqual(davgyuti.seal_cookie(KEY, SAYS), SEALED)
        self.assertEqual(SEALED[:32], hmac.digest(KEY, SEALED[32:], "sha256"))

    def test_open(self) -> None:
        # good to the end of its life, and on a clock that was set back
        for now in (0, 1000000, 61000000):
            self.assertEqual(davgyuti.open_cookie(KEY, SEALED, now), SAYS)
        self.assertEqual(davgyuti.open_cookie(KEY, memoryview(SEALED), 0), SAYS)

    def test_stale(self) -> None:
        self.assertEqual(self.refused(KEY, SEALED, 61000001), (CookieState.STALE, 1, "stale cookie, for 1 microseconds"))
        code, staleness, _ = self.refused(KEY, SEALED, 2**64 - 1)
        self.assertEqual((code, staleness), (CookieState.STALE, 2**64 - 1 - 61000000))

    def test_invalid(self) -> None:
        """Cut off, with a byte changed, or under another key."""
        invalid = CookieState.INVALID, 0, "invalid cookie"
        for at in range(len(SEALED)):
            self.assertEqual(self.refused(KEY, SEALED[:at], 1000000), invalid)
            changed = SEALED[:at] + bytes([SEALED[at] ^ 1]) + SEALED[at + 1 :]
            self.assertEqual(self.refused(KEY, changed, 1000000), invalid)
        for key, data in ((KEY[:4], SEALED), (b"", SEALED), (b"", b"")):
            self.assertEqual(self.refused(key, data, 1000000), invalid)

    def test_without_a_key_and_extra(self) -> None:
        says = replace(SAYS, extra=b"")
        data = davgyuti.seal_cookie(b"", says)
        self.assertEqual(data, hmac.digest(b"", SEALED[32:80], "sha256") + SEALED[32:80])
        self.assertEqual(davgyuti.open_cookie(b"", data, 1000000), says)

    def test_numbers(self) -> None:
        """The largest of each field has a place in it, and the next one has none."""
        for name, bits in (
            *((it, 64) for it in ("created", "lifespan")),
            *((it, 32) for it in ("local_tag", "peer_tag", "local_tie_tag", "peer_tie_tag")),
            *((it, 32) for it in ("local_initial_tsn", "peer_initial_tsn")),
            *((it, 16) for it in ("local_port", "peer_port", "outbound_streams", "inbound_streams")),
        ):
            says = replace(SAYS, **{name: 2**bits - 1})
            self.assertEqual(davgyuti.open_cookie(KEY, davgyuti.seal_cookie(KEY, says), 0), says)
            for number in (-1, 2**bits):
                with self.assertRaisesRegex(ValueError, name):
                    davgyuti.seal_cookie(KEY, replace(SAYS, **{name: number}))
        for now in (-1, 2**64):
            self.assertRaises(ValueError, davgyuti.open_cookie, KEY, SEALED, now)


# AUTH, and a DATA chunk after it, by its HMAC identifier; as tests/c/auth.c has them.
SIGNED = {
    1: of_hex(
        "0f00001c00000001c7495116c0ef32e9165201fbb044c4bb612e9d0e0003001400000001000200030000003361620000"
    ),
    3: of_hex(
        "0f00002800000003e95e27d95bf24d454ec42d0f7ae79c824a09c532620996ed19b3d3a3d9ec3d35"
        "0003001400000001000200030000003361620000"
    ),
}
SIZES = {1: 20, 3: 32}


class Auth(unittest.TestCase):
    def test_verify(self) -> None:
        for identifier, data in SIGNED.items():
            zeroed = data[:8] + bytes(SIZES[identifier]) + data[8 + SIZES[identifier] :]
            self.assertEqual(data[8 : 8 + SIZES[identifier]], hmac.digest(KEY, zeroed, {1: "sha1", 3: "sha256"}[identifier]))
            self.assertIs(davgyuti.verify_auth(KEY, data), True)
            self.assertIs(davgyuti.verify_auth(KEY[:4], data), False)
            for at in range(len(data)):
                changed = data[:at] + bytes([data[at] ^ 1]) + data[at + 1 :]
                self.assertIs(davgyuti.verify_auth(KEY, changed), False)
                self.assertIs(davgyuti.verify_auth(KEY, data[:at]), False)

    def test_sign(self) -> None:
        for identifier, data in SIGNED.items():
            end = 8 + SIZES[identifier]
            unsigned = data[:8] + bytes([0xA5]) * SIZES[identifier] + data[end:]
            self.assertIs(davgyuti.verify_auth(KEY, unsigned), False)
            self.assertEqual(davgyuti.sign_auth(KEY, unsigned), data)
            # no AUTH, another length, another identifier
            for at in (0, 3, 7):
                changed = bytearray(data)
                changed[at] ^= 4
                self.assertRaises(BadPlace, davgyuti.sign_auth, KEY, changed)
            self.assertRaises(BadPlace, davgyuti.sign_auth, KEY, data[: end - 1])
        self.assertRaises(BadPlace, davgyuti.sign_auth, b"", b"")

    def test_builder(self) -> None:
        for identifier, data in SIGNED.items():
            builder = PacketBuilder(5000, 5001, 7)
            builder.cookie_ack()
            auth, before = len(builder), bytes(builder)
            builder.add(registered.Auth(key=0, hmac_identifier=identifier, hmac=bytes(SIZES[identifier])))
            builder.data(b"ab\0\0", tsn=1, stream=2, ssn=3, ppid=51)
            builder.sign_auth(KEY, auth)
            self.assertEqual(bytes(builder), before + data)
            found = davgyuti.Packet(builder.seal())
            self.assertIs(davgyuti.verify_auth(KEY, bytes(found)[found.chunks()[1].offset :]), True)
            # (no AUTH is there)
            for offset in (0, 12, len(builder) - 20, len(builder)):
                self.assertRaises(BadPlace, builder.sign_auth, KEY, offset)
            for offset in (-1, len(builder) + 1):
                self.assertRaisesRegex(ValueError, "offset has to be 0", builder.sign_auth, KEY, offset)
            self.assertEqual(bytes(builder), before + data)
            # it can be added to
            builder.shutdown_ack()
            builder.sign_auth(KEY, auth)
            self.assertIs(davgyuti.verify_auth(KEY, bytes(builder)[auth:]), True)


class Keys(unittest.TestCase):
    """RFC 4895 section 3.2, and 6.1: the smaller number first; of two that are equal, the shorter."""

    def test_listed(self) -> None:
        chunk_list = bytes([0xC1, 0x80, 1, 2, 14, 15])
        listed = [it for it in range(256) if davgyuti.is_listed(chunk_list, it)]
        self.assertEqual(listed, [0x80, 0xC1])
        self.assertIs(davgyuti.is_listed(b"", 0xC1), False)
        self.assertRaises(ValueError, davgyuti.is_listed, chunk_list, 256)

    def test_shared(self) -> None:
        for one, other, expected in (
            ("0102", "0103", "70 0102 0103"),
            ("0103", "02", "70 02 0103"),
            ("0005", "05", "70 05 0005"),
            ("000101", "0102", "70 000101 0102"),
            ("07", "07", "70 07 07"),
        ):
            for first, second in ((one, other), (other, one)):
                found = davgyuti.shared_key(b"p", of_hex(first), of_hex(second))
                self.assertEqual(found, of_hex(expected))
        self.assertEqual(davgyuti.shared_key(b"", b"", b""), b"")
        self.assertEqual(davgyuti.shared_key(b"", bytearray(b"b"), memoryview(b"a")), b"ab")


if __name__ == "__main__":
    unittest.main()
