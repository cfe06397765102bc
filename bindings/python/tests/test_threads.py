# SPDX-License-Identifier: Apache-2.0
"""Threads that read and write at once, also by one builder."""

import os
import signal
import threading
import time
import unittest
from collections.abc import Callable

import davgyuti
from support import packets

THREADS = 8


def at_once(work: Callable[[int], None]) -> list[BaseException]:
    """What was raised."""
    raised: list[BaseException] = []

    def run(number: int) -> None:
        try:
            work(number)
        except BaseException as error:
            raised.append(error)

    threads = [threading.Thread(target=run, args=(it,)) for it in range(THREADS)]
    for it in threads:
        it.start()
    for it in threads:
        it.join()
    return raised


class Threads(unittest.TestCase):
    def test_reading(self) -> None:
        known = packets()[:15]
        expected = [(davgyuti.text(it), davgyuti.report(it), davgyuti.canonical(it), [*davgyuti.chunks(it)]) for it in known]

        def work(number: int) -> None:
            for _ in range(20):
                for data, answers in zip(known, expected):
                    packet = davgyuti.Packet(data)
                    found = (packet.text(), packet.report(), packet.canonical(), [*packet])
                    if found != answers:
                        raise AssertionError(data.hex())

        self.assertEqual(at_once(work), [])

    def test_list_of_one_builder(self) -> None:
        builder, added = davgyuti.PacketBuilder(1, 2, 3), threading.Event()
        begun, kept = threading.Barrier(2), davgyuti.Shutdown(7)

        def work() -> None:
            begun.wait()
            builder.add(kept)
            added.set()

        thread = threading.Thread(target=work)
        thread.start()
        with self.assertRaises(davgyuti.BadPlace), builder.error() as error:
            error.cause(davgyuti.NoUserData(1))
            begun.wait()
            added.wait()
            error.cause(davgyuti.NoUserData(2))
        thread.join()
        # (what the other thread added is not taken back)
        chunks = davgyuti.Packet(builder.seal()).chunks()
        self.assertEqual(chunks, (davgyuti.OperationError((davgyuti.NoUserData(1),)), kept))

    def test_one_builder_in_one_step_and_in_several(self) -> None:
        builder = davgyuti.PacketBuilder(1, 2, 3)
        one = davgyuti.Data(tsn=1, stream=2, ssn=3, ppid=4, payload=b"abcd")
        several = davgyuti.OperationError((davgyuti.NoUserData(7), davgyuti.NoUserData(8)))

        def work(number: int) -> None:
            for _ in range(150):
                builder.add(several if number & 1 else one)
                davgyuti.check(builder.seal()), len(builder)

        self.assertEqual(at_once(work), [])
        chunks = davgyuti.Packet(builder.seal()).chunks()
        self.assertEqual([chunks.count(it) for it in (one, several)], [150 * THREADS // 2] * 2)
        self.assertEqual(len(chunks), 150 * THREADS)

    def test_one_builder_that_is_full(self) -> None:
        builder = davgyuti.PacketBuilder(1, 2, 3, limit=16 + 8 * 200)

        def work(number: int) -> None:
            for _ in range(1000):
                try:
                    builder.shutdown(number)
                except davgyuti.NoRoom:
                    pass

        self.assertEqual(at_once(work), [])
        self.assertEqual(len(davgyuti.Packet(builder.seal()).chunks()), 200)

    @unittest.skipUnless(hasattr(os, "fork"), "there is no fork")
    def test_forked_child(self) -> None:
        (data, *_), done = packets(), threading.Event()

        def child() -> None:
            packet = davgyuti.Packet(data)
            builder = davgyuti.PacketBuilder(1, 2, 3)
            for chunk in packet:
                builder.add(chunk)
            ends_well = packet.report() and davgyuti.first_fault(builder.seal()) is None
            os._exit(not ends_well)

        def work() -> None:
            while not done.is_set():
                davgyuti.text(data), davgyuti.canonical(data)

        threads = [threading.Thread(target=work) for _ in range(2)]
        for it in threads:
            it.start()
        try:
            for _ in range(20):
                pid = os.fork()
                if not pid:
                    try:
                        child()
                    finally:
                        os._exit(1)
                status, end = (0, 0), time.monotonic() + 600
                while status[0] == 0 and time.monotonic() < end:
                    status = os.waitpid(pid, os.WNOHANG)
                    time.sleep(0.001)
                if status[0] == 0:
                    os.kill(pid, signal.SIGKILL)
                    os.waitpid(pid, 0)
                self.assertEqual(status, (pid, 0))
        finally:
            done.set()
            for it in threads:
                it.join()


if __name__ == "__main__":
    unittest.main()
