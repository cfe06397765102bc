# SPDX-License-Identifier: Apache-2.0
"""`python -m davgyuti`, in processes of its own, and the answers to the packets that it prints."""

import os
import re
import signal
import subprocess
import sys
import unittest

import davgyuti
from support import EXAMPLES, HERE, mypy, packets

COOKIE_ACK = "138813884d2df52d67db78b50b000004"


def read(name: str) -> str:
    with open(os.path.join(EXAMPLES, name), encoding="ascii") as file:
        return file.read()


def environment() -> dict[str, str]:
    # (the package that is tested here, whether it is installed or not)
    path = os.path.dirname(os.path.dirname(os.path.abspath(davgyuti.__file__)))
    paths = os.pathsep.join((path, *os.environ.get("PYTHONPATH", "").split(os.pathsep)))
    return {**os.environ, "PYTHONPATH": paths, "PYTHONDONTWRITEBYTECODE": "1"}


def run(*words: str, given: str = "") -> "subprocess.CompletedProcess[str]":
    return subprocess.run(
        [sys.executable, *words],
        input=given,
        capture_output=True,
        text=True,
        timeout=600,
        cwd=HERE,
        env=environment(),
    )


class Answers(unittest.TestCase):
    """What examples/expected.txt has as the answers to packets."""

    OWN_TAG, A_RWND = 0x0DA73798, 0x20000

    def answer(self, packet: davgyuti.Packet, peer_tag: int) -> bytes:
        """Answers an INIT with INIT ACK, and DATA with a SACK: that goes under the tag that the INIT before asked for."""
        header, (chunk, *others) = packet.header, packet.chunks()
        builder = davgyuti.PacketBuilder(header.destination_port, header.source_port, peer_tag)
        match chunk:
            case davgyuti.Init() if header.verification_tag == 0 and peer_tag != 0 and not others:
                init_ack = builder.init_ack(
                    initiate_tag=self.OWN_TAG, a_rwnd=self.A_RWND, outbound_streams=4, inbound_streams=4, initial_tsn=0x66E387AB
                )
                init_ack.parameter(davgyuti.StateCookie(b"abcd"))
            case davgyuti.Data(tsn=tsn) | davgyuti.IData(tsn=tsn) if header.verification_tag == self.OWN_TAG:
                builder.sack(tsn, self.A_RWND)
        return builder.seal() if len(builder) > 12 else b""

    def test_answers(self) -> None:
        peer_tag, found = 0, []
        for data in packets():
            if davgyuti.first_fault(data) is None:
                packet = davgyuti.Packet(data)
                peer_tag = next((it.initiate_tag for it in packet if isinstance(it, davgyuti.Init)), peer_tag)
                found.append(self.answer(packet, peer_tag).hex())
        self.assertEqual([it for it in found if it], re.findall("^  answer (.*)$", read("expected.txt"), re.MULTILINE))


class Program(unittest.TestCase):
    def test_lines(self) -> None:
        done = run("-m", "davgyuti", given=read("packets.txt"))
        expected = "".join(it for it in read("expected.txt").splitlines(True) if not it.startswith("  answer"))
        # (a fault is said by its name, and in words too)
        texts, results = re.compile(r"^  fault (\d)( at byte \d+)$", re.MULTILINE), {f"{it:d}": it for it in davgyuti.Result}
        expected = texts.sub(lambda it: f"  fault {results[it[1]].name}{it[2]}: {results[it[1]].text}", expected)
        self.assertEqual((done.stdout, done.stderr, done.returncode), (expected, "", 1))

    def test_arguments(self) -> None:
        done = run("-m", "davgyuti", COOKIE_ACK, "13881388 4d2df52d 67db78b5 0b000004")
        expected = (
            "packet of 16 bytes\n  chunk 11, flags 0, 0 bytes\n"
            "source=5000 destination=5000 tag=1294857517 checksum=1742436533\nCOOKIE-ACK\n"
        )
        self.assertEqual((done.stdout, done.stderr, done.returncode), (2 * expected, "", 0))

    def test_report(self) -> None:
        done = run("-m", "davgyuti", "--report", COOKIE_ACK, COOKIE_ACK[:-1] + "5")
        expected = (
            "packet of 16 bytes\n  source 5000, destination 5000, tag 0x4d2df52d\n  checksum 0x67db78b5: right\n"
            "  COOKIE ACK\npacket of 16 bytes\n  fault FAULT_CHECKSUM at byte 8: wrong checksum\n"
        )
        self.assertEqual((done.stdout, done.stderr, done.returncode), (expected, "", 1))

    def test_policy(self) -> None:
        zero = COOKIE_ACK[:16] + 8 * "0" + COOKIE_ACK[24:]
        padded = davgyuti.seal(bytes.fromhex(COOKIE_ACK[:24] + "0a00000561000100")).hex()
        for words, status in (
            ([zero], 1),
            (["--zero-checksum", zero], 0),
            (["--any-checksum", zero], 0),
            ([padded], 0),
            (["--strict-padding", padded], 1),
        ):
            self.assertEqual(run("-m", "davgyuti", *words).returncode, status, words)

    def test_usage(self) -> None:
        for words, text in (
            (["zz"], "packet 1 isn't hexadecimal: 'zz'"),
            (["123"], "packet 1 isn't hexadecimal"),
            (["--unknown"], "usage: python -m davgyuti"),
        ):
            done = run("-m", "davgyuti", *words)
            self.assertEqual((done.stdout, done.returncode), ("", 2))
            self.assertIn(text, done.stderr)
        # (what comes after a wrong line is read)
        done = run("-m", "davgyuti", given=f"# \xe9\n\n{COOKIE_ACK}\nab\xe9\n{COOKIE_ACK}\n{COOKIE_ACK[:-1]}5\n")
        self.assertEqual((done.stdout.count("\n"), done.returncode), (10, 2))
        self.assertRegex(done.stderr, r"^python -m davgyuti: packet 2 isn't hexadecimal: 'ab(\\ufffd)+'\n$")
        done = run("-m", "davgyuti", "--help")
        self.assertEqual((done.stderr, done.returncode), ("", 0))
        self.assertIn("--report", done.stdout)
        self.assertEqual(run("-m", "davgyuti", "--version").stdout, f"davgyuti {davgyuti.__version__}\n")
        self.assertEqual(run("-m", "davgyuti").stdout, "")

    @unittest.skipUnless(os.path.exists("/dev/full"), "there is no /dev/full")
    def test_full(self) -> None:
        words = [sys.executable, "-m", "davgyuti", COOKIE_ACK]
        with open("/dev/full", "w") as full:
            done = subprocess.run(words, stdout=full, stderr=subprocess.PIPE, text=True, env=environment())
        self.assertEqual((done.stderr, done.returncode), ("python -m davgyuti: No space left on device\n", 2))

    @unittest.skipUnless(hasattr(os, "fork"), "no interrupt can be sent")
    def test_interrupted(self) -> None:
        with subprocess.Popen(
            [sys.executable, "-m", "davgyuti"],
            stdin=subprocess.PIPE,
            stderr=subprocess.PIPE,
            text=True,
            env=environment(),
            # (who started the tests may ignore it)
            preexec_fn=lambda: signal.signal(signal.SIGINT, signal.SIG_DFL),
        ) as process:
            assert process.stdin and process.stderr
            process.stdin.write("zz\n")
            process.stdin.flush()
            self.assertIn("packet 1", process.stderr.readline())
            process.send_signal(signal.SIGINT)
            self.assertEqual((process.wait(600), process.stderr.read()), (130, "python -m davgyuti: interrupted\n"))


class Import(unittest.TestCase):
    def test_registered_is_imported_late(self) -> None:
        """Where it is asked for, by whichever way: a program that needs it not doesn't wait for it."""
        for ask in (
            "davgyuti.registered.Ecne", "davgyuti.RawChunk(12, 0, bytes(4)).registered()", "davgyuti.addresses(())",
            "davgyuti.PacketBuilder(1, 2, 3).init_ack(initiate_tag=1, a_rwnd=1, outbound_streams=1, inbound_streams=1, initial_tsn=1)"
            ".addresses(())",
        ):
            code = f"import sys, davgyuti; is_there = lambda: 'davgyuti.registered' in sys.modules; print(is_there()); {ask}; print(is_there())"
            self.assertEqual(run("-c", code).stdout, "False\nTrue\n", ask)
        code = "from davgyuti import *; print(registered.Ecne.__module__); import davgyuti; davgyuti.register"
        done = run("-c", code)
        self.assertEqual(done.stdout, "davgyuti.registered\n")
        self.assertIn("AttributeError: module 'davgyuti' has no attribute 'register'", done.stderr)


class Types(unittest.TestCase):
    def test_mypy(self) -> None:
        words = [*mypy(), os.path.dirname(davgyuti.__file__)]
        done = subprocess.run(words, capture_output=True, text=True)
        self.assertEqual(done.returncode, 0, done.stdout + done.stderr)


if __name__ == "__main__":
    unittest.main()
