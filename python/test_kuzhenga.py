"""Tests of kuzhenga.py: captures, files and replies. Run as a program, it runs every test of this folder.

The environment variable KUZHENGA_LISTER names the capture lister, if its lines are to be compared.
"""

import concurrent.futures
import pathlib
import sys
import tempfile
import unittest

import drawn
import kuzhenga

FOLDER = pathlib.Path(__file__).resolve().parent
ROOT = FOLDER.parent
CAPTURES = sorted((ROOT / "captures").glob("*.capture"))


def told(capture):
    """The bench's line, from the fields of the reply or of the refusal."""
    try:
        reply = capture.reading()
    except kuzhenga.Refused as refused:
        return f"refused {refused.number}"
    return f"{reply.word:06x} {reply.value:03x} {reply.kind} {reply.number}"


def told_bytes(data):
    try:
        return told(kuzhenga.read_bytes(data))
    except kuzhenga.Refused as refused:
        return f"refused {refused.number}"


class ShippedCaptures(unittest.TestCase):
    def test_lines(self):
        self.assertGreater(len(CAPTURES), 10)
        for path in CAPTURES:
            with self.subTest(path.name):
                stored = path.with_suffix(".line").read_text()
                data = path.read_bytes()
                self.assertEqual(kuzhenga.line(data) + "\n", stored)
                self.assertEqual(told_bytes(data) + "\n", stored)

    def test_files(self):
        for path in CAPTURES:
            if path.name == "not_a_capture.capture":
                continue
            with self.subTest(path.name):
                capture = kuzhenga.read_file(path)
                self.assertEqual(capture, kuzhenga.read_bytes(path.read_bytes()))
                self.assertEqual(capture.to_bytes(), path.read_bytes())
                self.assertEqual(told(capture), kuzhenga.line(path.read_bytes()))

    def test_made_again(self):
        options = {
            "at_rest": {"value": 0xFFF}, "speed": {"period_us": 1000}, "temp": {"value": 0x219, "edt": True},
            "late_edge_before": {"value": 0x191},
        }
        for name, given in options.items():
            stored = (ROOT / "captures" / f"{name}.capture").read_bytes()
            self.assertEqual(kuzhenga.make_capture(**given).to_bytes(), stored)


class Speeds(unittest.TestCase):
    def test_turns(self):
        reply = kuzhenga.make_capture(period_us=1000).reading()
        self.assertEqual((reply.kind, reply.number, reply.erpm), ("erpm", 600, 60000))
        self.assertEqual(reply.turns_per_minute(2), 60000)
        self.assertEqual(reply.turns_per_minute(poles=14), 60000 / 7)
        self.assertEqual(kuzhenga.make_capture(value=0xFFF).reading().turns_per_minute(14), 0)
        # A microsecond is the shortest period. The number takes more than 16 bits.
        self.assertEqual(kuzhenga.make_capture(period_us=1).reading().number, 600000)

    def test_wrong_poles(self):
        reply = kuzhenga.make_capture(period_us=1000).reading()
        for poles in (-2, 0, 1, 7, 2**64):
            self.assertRaises(ValueError, reply.turns_per_minute, poles)
        for poles in (14.0, "14", None):
            self.assertRaises(TypeError, reply.turns_per_minute, poles)

    def test_other_kinds_have_no_speed(self):
        reply = kuzhenga.make_capture(value=0x219, edt=True).reading()
        self.assertEqual((reply.kind, reply.number), ("temp", 25))
        with self.assertRaisesRegex(ValueError, "kind temp"):
            reply.erpm
        self.assertRaises(ValueError, reply.turns_per_minute, 14)


class WrittenAndRead(unittest.TestCase):
    def test_random(self):
        for capture in drawn.captures(1, 200):
            self.assertEqual(kuzhenga.read_bytes(capture.to_bytes()), capture)

    def test_lengths(self):
        for count in (0, 1, 127, 128, 4095, 4096):
            capture = kuzhenga.Capture([(40503 * place) % 65536 for place in range(count)], 65535, True)
            data = capture.to_bytes()
            self.assertEqual(kuzhenga.read_bytes(bytearray(data)), capture)
            self.assertEqual(kuzhenga.read_bytes(memoryview(data)), capture)
        self.assertEqual(kuzhenga.Capture([]).to_bytes(), b"\x00\x01\x00")

    def test_files(self):
        with tempfile.TemporaryDirectory() as folder:
            path = pathlib.Path(folder) / "a.capture"
            for capture in drawn.captures(2, 10):
                capture.write_file(path)
                self.assertEqual(path.read_bytes(), capture.to_bytes())
                self.assertEqual(kuzhenga.read_file(str(path)), capture)
            kept = path.read_bytes()
            self.assertRaises(kuzhenga.Refused, kuzhenga.Capture([0] * 4097).write_file, path)
            self.assertEqual(path.read_bytes(), kept)
            path.write_bytes(kept + bytes(100000))
            with self.assertRaisesRegex(kuzhenga.Refused, "refused with 17 "):
                kuzhenga.read_file(path)
            self.assertRaises(FileNotFoundError, kuzhenga.read_file, path.with_name("none"))


class RandomCaptures(unittest.TestCase):
    def test_line_and_fields(self):
        heads = set()
        for capture in drawn.captures(3, 1000):
            line = kuzhenga.line(capture.to_bytes())
            self.assertEqual(told(capture), line)
            self.assertEqual(told_bytes(capture.to_bytes()), line)
            heads.add(line if line.startswith("refused") else line.split()[2])
        # Every kind and every refusal of a capture was met.
        self.assertEqual(heads, {f"refused {number}" for number in range(7, 12)} | set(kuzhenga.KINDS))

    def test_every_value(self):
        for value in range(0x1000):
            for edt in (False, True):
                capture = kuzhenga.make_capture(value=value, edt=edt)
                line = told(capture)
                self.assertEqual(line, kuzhenga.line(capture.to_bytes()))
                self.assertIn(line.split()[1], (f"{value:03x}", "11"))

    def test_threads(self):
        captures = drawn.captures(4, 400)
        alone = [told(capture) for capture in captures]
        with concurrent.futures.ThreadPoolExecutor(4) as pool:
            self.assertEqual(list(pool.map(told, captures)), alone)


class Periods(unittest.TestCase):
    def test_periods(self):
        self.assertEqual(kuzhenga.period(0xFFF), (0, 0))
        for value in range(0xFFF):
            exponent, base = value >> 9, value & 511
            if base:
                self.assertEqual(kuzhenga.period(value), (base << exponent, 1 << exponent))
        with self.assertRaisesRegex(kuzhenga.Refused, r"refused with 11 \(ZERO_PERIOD\)"):
            kuzhenga.period(0x200)

    def test_sent_periods(self):
        for sent in range(1, 65408, 37):
            period_us, step_us = kuzhenga.period(kuzhenga.make_capture(period_us=sent).reading().value)
            self.assertTrue(period_us <= sent < period_us + step_us)


if __name__ == "__main__":
    suite = unittest.defaultTestLoader.discover(str(FOLDER), top_level_dir=str(FOLDER))
    result = unittest.TextTestRunner().run(suite)
    sys.exit(0 if result.wasSuccessful() else 1)
