"""The module against the capture lister, on random captures and on bytes that are no capture file."""

import os
import subprocess
import unittest

import drawn
import kuzhenga
from test_kuzhenga import told_bytes

LISTER = os.environ.get("KUZHENGA_LISTER")


@unittest.skipUnless(LISTER, "KUZHENGA_LISTER does not name the capture lister")
class Lister(unittest.TestCase):
    def compare(self, files):
        """The numbers of the refusals and the kinds that were met."""
        heads = set()
        for data in files:
            line = subprocess.run([LISTER], input=data, stdout=subprocess.PIPE, check=True).stdout.decode()
            self.assertEqual(kuzhenga.line(data) + "\n", line)
            self.assertEqual(told_bytes(data) + "\n", line)
            heads.add(line.strip() if line.startswith("refused") else line.split()[2])
        return heads

    def test_captures(self):
        heads = self.compare([capture.to_bytes() for capture in drawn.captures(5, 500)])
        self.assertEqual(heads, {f"refused {number}" for number in range(7, 12)} | set(kuzhenga.KINDS))

    def test_bytes(self):
        heads = self.compare(drawn.files(6, 150))
        self.assertIn("refused 17", heads)
        self.assertGreater(len(heads), 3)
