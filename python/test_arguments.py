"""Arguments that do not fit raise; they are never cut to what fits."""

import array
import unittest

import kuzhenga

TOO_LARGE = 0x10000


class Arguments(unittest.TestCase):
    def test_samples(self):
        good = kuzhenga.make_capture(value=0xFFF).samples
        # If it were cut to 16 bits, each of these would read as the good ones.
        for wrong in ([sample + TOO_LARGE for sample in good], [sample - TOO_LARGE for sample in good]):
            self.assertRaises(ValueError, kuzhenga.read_samples, wrong)
            self.assertRaises(ValueError, kuzhenga.Capture, wrong)
        for wrong in ([float(sample) for sample in good], [None] * 160, ["1"] * 160, 160, None):
            self.assertRaises(TypeError, kuzhenga.read_samples, wrong)
        for wrong in (bytes(good), bytearray(good), memoryview(bytes(good)), "1" * 160):
            self.assertRaises(TypeError, kuzhenga.read_samples, wrong)
        for fine in (list(good), array.array("H", good), iter(good)):
            self.assertEqual(kuzhenga.read_samples(fine).value, 0xFFF)

    def test_mask(self):
        samples = kuzhenga.make_capture(value=0xFFF).samples
        for call in (kuzhenga.read_samples, kuzhenga.Capture):
            for wrong in (TOO_LARGE + 1, 2**32 + 1, -1, -65535):
                self.assertRaises(ValueError, call, samples, wrong)
            for wrong in (1.0, "1", None):
                self.assertRaises(TypeError, call, samples, wrong)

    def test_edt(self):
        samples = kuzhenga.make_capture(value=0x219).samples
        self.assertEqual(kuzhenga.read_samples(samples, edt=True).kind, "temp")
        self.assertEqual(kuzhenga.read_samples(samples, edt=False).kind, "erpm")
        for wrong in (2, -1, 2**32):
            self.assertRaises(ValueError, kuzhenga.read_samples, samples, 1, wrong)
        for wrong in ("no", None, 0.0):
            self.assertRaises(TypeError, kuzhenga.read_samples, samples, 1, wrong)

    def test_bytes(self):
        for call in (kuzhenga.read_bytes, kuzhenga.line):
            for wrong in ("text", 3, None, [0, 1, 0], ("0",)):
                self.assertRaises(TypeError, call, wrong)

    def test_make_capture(self):
        make = kuzhenga.make_capture
        self.assertRaises(TypeError, make)
        self.assertRaises(TypeError, make, value=1, period_us=1)
        self.assertRaises(TypeError, make, 1)
        for wrong in (
            {"value": 0x1000}, {"value": -1}, {"value": 2**32}, {"period_us": -1}, {"period_us": 2**32 + 1000},
            {"value": 1, "lead": -1}, {"value": 1, "lead": 2**64 + 10}, {"value": 1, "mask": TOO_LARGE + 1},
            {"value": 1, "mask": -1}, {"value": 1, "samples": 4097}, {"value": 1, "samples": -1},
            {"value": 1, "samples": 2**64 + 160}, {"value": 1, "edt": 2},
        ):
            with self.subTest(**wrong):
                self.assertRaises(ValueError, make, **wrong)
        for wrong in ({"value": 1.0}, {"period_us": 1000.0}, {"value": 1, "lead": 10.0}, {"value": 1, "mask": "1"},
                      {"value": 1, "samples": 160.0}, {"value": 1, "edt": "no"}):
            with self.subTest(**wrong):
                self.assertRaises(TypeError, make, **wrong)

    def test_period(self):
        for wrong in (-1, 0x1000, 2**32):
            self.assertRaises(ValueError, kuzhenga.period, wrong)
        self.assertRaises(TypeError, kuzhenga.period, 1.0)

    def test_captures_do_not_change(self):
        capture = kuzhenga.make_capture(value=1)
        for name, other in (("samples", ()), ("mask", TOO_LARGE), ("edt", True)):
            self.assertRaises(AttributeError, setattr, capture, name, other)
        self.assertIsInstance(capture.samples, tuple)
