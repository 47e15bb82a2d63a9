"""What the dump calls of the shared library give for a case. The buffers are lent with elements behind them."""

import ctypes
import pathlib
import sys

sys.path.insert(0, str(pathlib.Path(__file__).resolve().parents[2] / "python"))
import kuzhenga  # noqa: E402 (the line above tells where it is)

LibraryError = kuzhenga.LibraryError

BEHIND = 8
UNTOUCHED = 0xAA

SAMPLES, LINE, LINE_LENGTH, PLACE, SCALE, ABOUT = 4096, 32, 1, 3, 1, 4

_NUMBER, _LONG, _LENGTH, _TEXT, _BUFFER = (
    ctypes.c_uint32, ctypes.c_uint64, ctypes.c_size_t, ctypes.c_char_p, ctypes.c_void_p)
_ASKED = (_TEXT, _LENGTH, _TEXT, _LENGTH, _LONG, _LONG, _LONG)
CALLS = {
    "read_dump": (*_ASKED, _BUFFER, _LENGTH),
    "list_dump": (*_ASKED, _NUMBER, _BUFFER, _LENGTH, _BUFFER, _LENGTH),
    "dump_place": (*_ASKED, _BUFFER, _LENGTH),
    "dump_scale": (_TEXT, _LENGTH, _BUFFER, _LENGTH),
    "dump_variable": (_TEXT, _LENGTH, _LONG, _BUFFER, _LENGTH),
}


class Lent:
    """A buffer. `length` of its elements are lent; a call may be lent fewer or more than it takes."""

    def __init__(self, kind, length):
        self.length = length
        self.elements = (kind * (length + BEHIND))()
        ctypes.memset(self.elements, UNTOUCHED, ctypes.sizeof(self.elements))

    def slice(self):
        return (self.elements, self.length) if self.length else (None, 0)

    def content(self):
        return bytes(self.elements)


class Library:
    """The calls, under their names without kuzhenga_."""

    def __init__(self):
        path = kuzhenga.library_path()
        library = ctypes.CDLL(path)
        self.calls = {}
        for name, takes in CALLS.items():
            call = getattr(library, "kuzhenga_" + name, None)
            if call is None:
                raise kuzhenga.LibraryError(f"{path} has no call kuzhenga_{name}")
            call.restype, call.argtypes = _NUMBER, takes
            self.calls[name] = call

    def call(self, name, numbers, *lent):
        """What the call returns, and the bytes of each buffer after it."""
        slices = [part for buffer in lent for part in buffer.slice()]
        return (self.calls[name](*numbers, *slices), *(buffer.content() for buffer in lent))

    def answers(self, case):
        """The answers of all calls, by name."""
        text = (case.text or None, len(case.text))
        asked = (*text, case.name or None, len(case.name), case.offset, case.period, case.count)
        return {
            "read_dump": self.call("read_dump", asked, Lent(ctypes.c_uint16, SAMPLES)),
            "list_dump": self.call(
                "list_dump", (*asked, case.edt), Lent(ctypes.c_uint8, LINE), Lent(ctypes.c_uint16, LINE_LENGTH)),
            "dump_place": self.call("dump_place", asked, Lent(_LONG, PLACE)),
            "dump_scale": self.call("dump_scale", text, Lent(_LONG, SCALE)),
            "dump_variable": self.variables(text),
            "dump_variable from any byte": [self.variable(text, start)[0] for start in any_bytes(case.text)],
            "wrong lengths": self.wrong_lengths(text, asked, case),
        }

    def variable(self, text, start):
        about = Lent(_LONG, ABOUT)
        return self.call("dump_variable", (*text, start), about), about.elements[:ABOUT]

    def variables(self, text):
        """All variables in turn, up to the answer that is the last: a refusal, or an empty name."""
        found, start = [], 0
        while True:
            answer, (start, _, length, _) = self.variable(text, start)
            found.append(answer)
            # A text has fewer variables than bytes. So a library that never ends is seen too.
            if answer[0] or length == 0 or len(found) > text[1]:
                return found

    def wrong_lengths(self, text, asked, case):
        """Each call with a buffer that is empty, too short or too long. The text's length chooses which."""
        def wrong(kind, length):
            return Lent(kind, (0, length - 1, length + 1, 2 * length)[len(case.text) % 4])

        listed = (*asked, case.edt)
        return [
            self.call("read_dump", asked, wrong(ctypes.c_uint16, SAMPLES)),
            self.call("list_dump", listed, wrong(ctypes.c_uint8, LINE), Lent(ctypes.c_uint16, LINE_LENGTH)),
            self.call("list_dump", listed, Lent(ctypes.c_uint8, LINE), wrong(ctypes.c_uint16, LINE_LENGTH)),
            self.call("dump_place", asked, wrong(_LONG, PLACE)),
            self.call("dump_scale", text, wrong(_LONG, SCALE)),
            self.call("dump_variable", (*text, 0), wrong(_LONG, ABOUT)),
        ]


def any_bytes(text):
    """Bytes from which the next variable is asked for, inside words and behind the text too."""
    return len(text) // 4, len(text) // 3, len(text) + 1, 2**64 - 1


def listed(samples, edt):
    """The line of a capture with mask 1, with its line feed."""
    capture = kuzhenga.Capture(samples, 1, edt != 0)
    return kuzhenga.line(capture.to_bytes()).encode() + b"\n"
