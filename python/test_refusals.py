"""Each refusal that the module's calls can give, and how it is told."""

import pickle
import unittest

import drawn
import kuzhenga


def at_rest():
    return kuzhenga.make_capture(value=0xFFF).samples


def edges(count):
    """A capture with an edge every three samples."""
    return [1] * 10 + [place // 3 % 2 for place in range(3 * count)] + [1] * 20


class Refusals(unittest.TestCase):
    def refused(self, number, name, text, call, *arguments, **named):
        with self.assertRaises(kuzhenga.Refused) as caught:
            call(*arguments, **named)
        refused = caught.exception
        self.assertEqual((refused.number, refused.name, refused.text), (number, name, text))
        self.assertEqual(str(refused), f"refused with {number} ({name}): {text}")

    def test_no_reply(self):
        expected = (7, "NO_REPLY", "there is no reply")
        self.refused(*expected, kuzhenga.read_samples, [])
        self.refused(*expected, kuzhenga.read_samples, [0] * 160)
        self.refused(*expected, kuzhenga.read_samples, [1] * 160)
        self.refused(*expected, kuzhenga.read_samples, at_rest(), mask=0)
        self.refused(*expected, kuzhenga.read_samples, at_rest(), mask=2)
        self.refused(*expected, kuzhenga.Capture(()).reading)

    def test_reply_refused(self):
        samples = at_rest()
        # The last bit of the word is three samples from here on.
        last, end = 10 + 3 * 20, 10 + 3 * 21
        self.refused(8, "OVERLONG", "the reply has too many bits", kuzhenga.read_samples, edges(60))
        self.refused(9, "INVALID_SYMBOL", "the reply has five bits that are no symbol",
                     kuzhenga.read_samples, drawn.turned(samples, last, end, 1))
        self.refused(10, "CHECKSUM", "the reply's checksum is wrong",
                     kuzhenga.read_samples, drawn.turned(samples, last - 3, end, 1))
        self.refused(11, "ZERO_PERIOD", "the reply's period is 0", kuzhenga.make_capture(value=0x200).reading)

    def test_simulated_refused(self):
        make = kuzhenga.make_capture
        self.refused(12, "NO_MASK", "there is no such motor, or the mask is 0", make, value=1, mask=0)
        too_few = (13, "WRONG_LENGTH", "a slice has the wrong length")
        self.refused(*too_few, make, value=1, lead=10, samples=78)
        self.refused(*too_few, make, value=1, lead=0, samples=0)
        self.refused(*too_few, make, value=1, lead=2**32 - 1)
        out_of_range = (16, "PERIOD_OUT_OF_RANGE", "the period is 0 or above 65535 microseconds")
        for period_us in (0, 65536, 2**32 - 1):
            self.refused(*out_of_range, make, period_us=period_us)
        self.assertEqual(len(make(value=1, lead=10, samples=79).samples), 79)
        self.assertEqual(make(period_us=65535).reading().value, 0xFFF)

    def test_file_refused(self):
        expected = (17, "NOT_A_CAPTURE", "the file is no capture file")
        for data in (b"", b"\x80", b"\x00\x01", b"\x00\x01\x02", b"\x00\x01\x00\x00", bytes(100000)):
            self.refused(*expected, kuzhenga.read_bytes, data)
            self.assertEqual(kuzhenga.line(data), "refused 17")
        self.refused(13, "WRONG_LENGTH", "a slice has the wrong length", kuzhenga.Capture([0] * 4097).to_bytes)

    def test_numbers_without_a_refusal(self):
        self.assertEqual(kuzhenga.Refused(23).text, "no refusal has this number")

    def test_between_processes(self):
        back = pickle.loads(pickle.dumps(kuzhenga.Refused(12, kuzhenga.NO_MASK)))
        self.assertEqual((back.number, back.name, back.args), (12, "NO_MASK", (12, "NO_MASK")))
