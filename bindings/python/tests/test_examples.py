# SPDX-License-Identifier: Apache-2.0
"""That the programs of examples/ do what they say, where there is what they need."""

import importlib.util
import os
import re
import sys
import unittest

from support import HERE
from test_program import run

FOLDER = os.path.join(HERE, os.pardir, "examples")


@unittest.skipUnless(os.path.isdir(FOLDER), "there are no examples beside the tests")
class Examples(unittest.TestCase):
    def test_aiortc(self) -> None:
        if not importlib.util.find_spec("aiortc"):
            print("\naiortc_over_davgyuti.py: left out, since there is no aiortc", file=sys.stderr)
            self.skipTest("aiortc isn't installed")
        done = run(os.path.join(FOLDER, "aiortc_over_davgyuti.py"))
        self.assertEqual((done.returncode, done.stderr), (0, ""))
        *faults, line = done.stdout.splitlines()
        # (RFC 9260 section 3.3.4: a SACK of one block has 20 bytes, and this one 16, after the header of 12)
        self.assertEqual(faults, ["received: wrong length of a chunk, a parameter or an error cause at byte 12, of 28"])
        counts = {name: int(count) for name, count in re.findall(r"([\w -]+?) (\d+)(?:, |$)", line)}
        self.assertEqual((counts["INIT sent"], counts["INIT ACK received"], counts["refused as received"]), (1, 1, 1))
        # 40 messages there and back, each in at least one DATA.
        self.assertGreaterEqual(counts["DATA received"], 80)
        # (the last ones may find the other side closed)
        self.assertLessEqual(counts["packets received"], counts["packets sent"])


if __name__ == "__main__":
    unittest.main()
