# SPDX-License-Identifier: Apache-2.0
"""The processor's CRC32c, beside the library's; where the processor has none, the library's stays."""

import random
import unittest

import davgyuti

SIZES = range(12, 2001)


class Processor(unittest.TestCase):
    def setUp(self) -> None:
        self.addCleanup(davgyuti.use_processor_crc32c, False)
        source = random.Random(1)
        self.packets = [source.randbytes(it) for it in SIZES]

    def test_words(self) -> None:
        self.assertFalse(davgyuti.use_processor_crc32c(False))
        proved = [(davgyuti.word(it), davgyuti.seal(it)) for it in self.packets]
        is_used = davgyuti.use_processor_crc32c()
        print(f"\nthe processor's CRC32c: {'used' if is_used else 'not there'}")
        self.assertEqual([(davgyuti.word(it), davgyuti.seal(it)) for it in self.packets], proved)
        for size in range(12):
            self.assertRaises(davgyuti.BadPlace, davgyuti.seal, bytes(size))

    def test_packets(self) -> None:
        built = {}
        for is_used in (False, True):
            davgyuti.use_processor_crc32c(is_used)
            builder = davgyuti.PacketBuilder(1, 2, 3)
            built[is_used] = []
            for data in self.packets:
                builder.reset(1, 2, 3)
                builder.add(davgyuti.RawChunk(99, 0, data))
                built[is_used].append(builder.seal())
        self.assertEqual(built[True], built[False])
        for data in built[True]:
            davgyuti.check(data)
            wrong = bytearray(data)
            wrong[-1 - len(data) % 7] ^= 1
            self.assertRaisesRegex(davgyuti.Fault, "wrong checksum at byte 8", davgyuti.check, wrong)


if __name__ == "__main__":
    unittest.main()
