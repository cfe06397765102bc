# SPDX-License-Identifier: Apache-2.0
"""examples/multihomed.py: its answers are compared with bytes that were laid out from the RFCs."""

import contextlib
import io
import os
import subprocess
import sys
import unittest
from ipaddress import ip_address
from typing import Any

import davgyuti
from davgyuti import registered
from support import HERE, module, of_hex
from test_program import environment

PROGRAM = os.path.join(HERE, os.pardir, "examples", "multihomed.py")
ROWS = os.path.join(HERE, "../../rust/examples/multihomed.txt")
KEY = bytes(range(20))
OWN = ("203.0.113.1", "2001:db8:1::1")
V4, OTHER = ip_address("192.0.2.1"), ip_address("192.0.2.2")
TAG = 0x0DA73798


def packet(tag: int, *chunks: Any, ports: tuple[int, int] = (5000, 5001), key: bytes | None = None) -> bytes:
    """A packet whose chunks are authenticated under a key, if there is one."""
    builder = davgyuti.PacketBuilder(*ports, tag)
    for it in chunks if key is None else (registered.Auth(0, 3, bytes(32)), *chunks):
        builder.add(it)
    if key is not None:
        builder.sign_auth(key, 12)
    return builder.seal()


def of_address(it: Any) -> Any:
    return registered.Ipv4Address(it) if it.version == 4 else registered.Ipv6Address(it)


def asconf(number: int, key: bytes = KEY) -> bytes:
    return packet(TAG, registered.Asconf(number, V4), key=key)


def ack(number: int) -> bytes:
    return packet(9, registered.AsconfAck(number), ports=(5001, 5000), key=KEY)


def init(*parameters: Any, first: int = 7) -> bytes:
    return packet(0, davgyuti.Init(9, 0x20000, 3, 4, first, parameters))


def init_ack() -> bytes:
    parameters = *(of_address(ip_address(it)) for it in OWN), davgyuti.StateCookie(b"abcd")
    return packet(9, davgyuti.InitAck(TAG, 0x20000, 4, 4, 0x66E387AB, parameters), ports=(5001, 5000))


def conversation() -> list[tuple[Any, bytes, bytes]]:
    """The address that a packet came from, the packet, and the answer: as they were laid out from the RFCs."""
    if not os.path.exists(ROWS):
        raise unittest.SkipTest("the package for Rust isn't beside this one")
    with open(ROWS, encoding="ascii") as file:
        rows = [line.split() for line in file if not line.startswith("#")]
    return [(ip_address(source), of_hex(data), of_hex(wanted.replace("-", ""))) for source, data, wanted in rows]


@unittest.skipUnless(os.path.exists(PROGRAM), "there are no examples beside the tests")
class Multihomed(unittest.TestCase):
    def setUp(self) -> None:
        self.host = module("multihomed", PROGRAM).Host(KEY, [*map(ip_address, OWN)])

    def answers(self, source: Any, data: bytes, wanted: bytes) -> None:
        with contextlib.redirect_stderr(io.StringIO()):
            found = self.host.answer(source, data)
        self.assertEqual(found.hex(), wanted.hex())

    def test_conversation(self) -> None:
        for source, data, wanted in conversation():
            self.answers(source, data, wanted)

    def test_init(self) -> None:
        v6 = ip_address("2001:db8::7")
        self.answers(V4, init(of_address(V4), of_address(OTHER), of_address(v6)), init_ack())
        self.assertEqual({*self.host.peer}, {V4, OTHER, v6})
        # (an address of a wrong size is none, and says nothing)
        self.answers(V4, init(davgyuti.RawParameter(5, b"abc")), init_ack())
        self.assertEqual(self.host.peer, [V4])
        for wrong in (b"", init()[:-1], davgyuti.seal(davgyuti.set_tag(init(), 9)), packet(9, davgyuti.CookieAck())):
            self.answers(V4, wrong, b"")

    def test_numbers_begin_again(self) -> None:
        self.answers(V4, init(first=2**32 - 1), init_ack())
        self.answers(V4, asconf(2**32 - 1), ack(2**32 - 1))
        self.answers(V4, asconf(0), ack(0))
        self.answers(V4, asconf(0), ack(0))

    def test_hmac(self) -> None:
        self.answers(V4, init(), init_ack())
        right = asconf(7)
        for at in range(12, len(right)):
            wrong = bytearray(right)
            wrong[at] ^= 1
            self.answers(V4, davgyuti.seal(wrong), b"")
        self.answers(V4, asconf(7, key=KEY[1:]), b"")
        # (without an AUTH; with the one of another HMAC; with a chunk behind)
        asking = registered.Asconf(0, V4)
        for chunks in ([asking], [registered.Auth(0, 1, bytes(20)), asking], [*davgyuti.chunks(right), davgyuti.CookieAck()]):
            self.answers(V4, packet(TAG, *chunks), b"")
        self.answers(V4, right, ack(7))

    def test_program(self) -> None:
        lines = f"192.0.2.1 {init().hex()}\n192.0.2.1 {asconf(7).hex()}\n192.0.2.1 00\n"
        words = [sys.executable, PROGRAM, KEY.hex(), *OWN]
        done = subprocess.run(words, input=lines, capture_output=True, text=True, env=environment(), check=False)
        self.assertEqual((done.stdout, done.returncode), (f"{init_ack().hex()}\n{ack(7).hex()}\n\n", 0))
        self.assertEqual(done.stderr, "not the size of a packet at byte 1\n")


if __name__ == "__main__":
    unittest.main()
