# SPDX-License-Identifier: Apache-2.0
"""examples/responder.py answers as the responder in C does, to the packets of usrsctp, a real stack; and to packets with AUTH by
SHA-256, which usrsctp doesn't have, what was laid out from the RFCs."""

import copy
import os
import subprocess
import sys
import unittest
from typing import Any

import davgyuti
from support import HERE, module, mutated
from test_program import environment

PROGRAM = os.path.join(HERE, os.pardir, "examples", "responder.py")
ROWS = os.path.join(HERE, "../../rust/examples/responder.txt")


def of_word(word: str) -> bytes:
    return bytes.fromhex(word.replace("-", ""))


@unittest.skipUnless(os.path.exists(PROGRAM), "there are no examples beside the tests")
class Responders(unittest.TestCase):
    @unittest.skipUnless(os.path.exists(ROWS), "the package for Rust isn't beside this one")
    def test_rows(self) -> None:
        example = module("responder", PROGRAM)
        responder: Any = None
        saved: Any = None
        answers = 0
        with open(ROWS, encoding="ascii") as file:
            for place, line in enumerate(file, 1):
                match line.split():
                    case ["new", identifier, pair_key, listed, key]:
                        responder = example.Responder(
                            of_word(key),
                            example.Next(0, 0, b"", b""),
                            lambda data: None,
                            listed=of_word(listed),
                            pair_key=of_word(pair_key),
                            pair_key_identifier=int(identifier),
                        )
                    case ["next", tag, tsn, random, tie_tags]:
                        responder.next = example.Next(int(tag, 16), int(tsn, 16), of_word(random), of_word(tie_tags))
                    case ["save"]:
                        saved = copy.deepcopy(responder)
                    case ["restore"]:
                        responder = copy.deepcopy(saved)
                    case ["forget"]:
                        responder.state = example.State.CLOSED
                    case [now, packet, answer] if now.isdecimal():
                        found = responder.receive(int(now), of_word(packet))
                        self.assertEqual(found.hex(), of_word(answer).hex(), f"{ROWS}:{place}")
                        answers += answer != "-"
                    case [first, *_]:
                        self.assertEqual(first, "#", f"{ROWS}:{place}")
        self.assertGreater(answers, 150)

    def test_hostile(self) -> None:
        """Bytes that are no packet, and an INIT whose unknown parameters no INIT ACK has room for."""
        example = module("responder", PROGRAM)
        responder = example.Responder(bytes(32), example.draw(), lambda data: None, listed=bytes(1))
        builder = davgyuti.PacketBuilder(5000, 5001, 0)
        builder.add(davgyuti.Init(7, 1500, 1, 1, 9, 16_000 * (davgyuti.RawParameter(0xC100),)))
        self.assertEqual(responder.receive(0, builder.seal()), b"")
        answers = 0
        for it in mutated(4000, 7):
            found = responder.receive(0, davgyuti.seal(it) if len(it) >= 12 else it)
            answers += found != b""
            if found:
                davgyuti.check(found)
        self.assertGreater(answers, 1000)

    def test_program(self) -> None:
        """INIT, and the COOKIE ECHO with the cookie that came."""
        builder = davgyuti.PacketBuilder(5000, 5001, 0)
        builder.init(initiate_tag=7, a_rwnd=1500, outbound_streams=1, inbound_streams=1, initial_tsn=9)
        with subprocess.Popen(
            [sys.executable, PROGRAM], stdin=subprocess.PIPE, stdout=subprocess.PIPE, text=True, env=environment()
        ) as program:
            assert program.stdin and program.stdout

            def ask(data: bytes) -> davgyuti.Packet:
                assert program.stdin and program.stdout
                program.stdin.write(data.hex() + "\n")
                program.stdin.flush()
                return davgyuti.Packet(bytes.fromhex(program.stdout.readline()))

            acknowledged = ask(builder.seal())
            self.assertEqual(acknowledged.header.verification_tag, 7)
            (init_ack,) = acknowledged.chunks()
            assert isinstance(init_ack, davgyuti.InitAck)
            (cookie,) = [it.cookie for it in init_ack.parameters if isinstance(it, davgyuti.StateCookie)]
            builder.reset(5000, 5001, init_ack.initiate_tag)
            builder.cookie_echo(cookie)
            self.assertEqual(ask(builder.seal()).chunks(), (davgyuti.CookieAck(),))


if __name__ == "__main__":
    unittest.main()
