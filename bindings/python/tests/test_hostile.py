# SPDX-License-Identifier: Apache-2.0
"""Bytes that are no packet, and packets changed at random: nothing but a Fault comes of them, and what is accepted is
written again as its canonical form."""

import gc
import sys
import unittest

import davgyuti
from support import ANY_CHECKSUM, mutated, packets

COUNT = 4000


class Hostile(unittest.TestCase):
    def test_accepted_or_a_fault(self) -> None:
        accepted = 0
        for data in mutated(COUNT, 1):
            fault = davgyuti.first_fault(data, ANY_CHECKSUM)
            try:
                packet = davgyuti.Packet(data, ANY_CHECKSUM)
            except davgyuti.Fault as raised:
                assert fault
                self.assertEqual((raised.code, raised.offset), (fault.code, fault.offset))
                self.assertLessEqual(raised.offset, len(data))
                continue
            accepted += 1
            self.assertIsNone(fault)
            header = packet.header
            builder = davgyuti.PacketBuilder(header.source_port, header.destination_port, header.verification_tag)
            for chunk in packet:
                builder.add(chunk)
            canonical = packet.canonical()
            self.assertEqual(bytes(builder).hex(), canonical.hex())
            self.assertEqual(davgyuti.Packet(builder.seal()).chunks(), packet.chunks())
            self.assertEqual(davgyuti.canonical(canonical, ANY_CHECKSUM), canonical)
            self.assertEqual(len(list(packet.raw_chunks())), len(packet.chunks()))
            self.assertEqual(packet.text().count("\n"), len(packet.chunks()))
            packet.report()
        self.assertGreater(accepted, COUNT // 10)
        self.assertLess(accepted, COUNT)

    def test_parts_of_any_bytes(self) -> None:
        for data in mutated(COUNT, 2):
            davgyuti.word(data)
            size = sum(4 + len(it.value) for it in davgyuti.raw_chunks(data))
            self.assertLessEqual(size, max(0, len(data) - 12))
            raw = [chunk for chunk, _ in davgyuti.raw_items(data)]
            typed = list(davgyuti.chunks(data))
            self.assertEqual(len(raw), len(typed))
            for chunk, one in zip(raw, typed):
                assert chunk.offset
                self.assertEqual((one.offset, bytes(chunk)), (chunk.offset, data[chunk.offset :][: len(bytes(chunk))]))
                # What is no value of its kind is there as it is.
                if isinstance(one, davgyuti.RawChunk):
                    self.assertEqual(one, chunk)

    def test_each_beginning_of_a_packet(self) -> None:
        for data in packets():
            for size in range(len(data)):
                list(davgyuti.chunks(data[:size]))
                fault = davgyuti.first_fault(data[:size], ANY_CHECKSUM)
                if size < 16:
                    assert fault
                    self.assertEqual((fault.code, fault.offset), (davgyuti.Result.FAULT_SIZE, size))

    def test_no_memory_is_lost(self) -> None:
        data, full = [*mutated(300, 5), *packets()], davgyuti.PacketBuilder(1, 2, 3, limit=12)

        def work() -> None:
            builder = davgyuti.PacketBuilder(1, 2, 3, limit=200)
            for it in data:
                for chunk in davgyuti.chunks(it):
                    try:
                        builder.add(chunk)
                        bytes(chunk), builder.seal()
                        builder.error().parameter(chunk)  # type: ignore[arg-type]
                    except (davgyuti.WriteError, TypeError):
                        builder.reset(1, 2, 3)
                davgyuti.first_fault(it), [*davgyuti.raw_items(it)]
            for wrong in ([(1, 2**16)], [(1, 2, 3)], 7):
                self.assertRaises((ValueError, TypeError), builder.sack, 1, 2, wrong)
            for _ in range(40):
                self.assertRaises(davgyuti.NoRoom, full.error)

        work()
        gc.collect()
        before = sys.getallocatedblocks()
        for _ in range(5):
            work()
        gc.collect()
        self.assertLess(sys.getallocatedblocks() - before, 100)


if __name__ == "__main__":
    unittest.main()
