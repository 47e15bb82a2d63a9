"""Reads the replies of ESCs out of pin samples and capture files, for people who calibrate in Python.

    >>> import kuzhenga
    >>> reply = kuzhenga.read_file("captures/speed.capture").reading()
    >>> reply.kind, reply.erpm
    ('erpm', 60000)

If the library refuses a reply, Refused is raised, with the number and the name that include/kuzhenga.h gives it. A
refused reply never reads as zeros, which would be a rotor at rest.

This module decides nothing itself: words, values, readings and lines come from the library's calls. It checks that each
argument fits. If a number does not fit, ValueError is raised. If something is no whole number, TypeError is raised.

It needs Python 3.8 or newer, and the shared library libkuzhenga.so.
"""

import ctypes
import ctypes.util
import dataclasses
import functools
import operator
import os
import pathlib

__all__ = [
    "KINDS", "REFUSALS", "Capture", "LibraryError", "Refused", "Reply", "library_path", "line", "make_capture",
    "period", "read_bytes", "read_file", "read_samples",
]

# Numbers of include/kuzhenga.h; python/test_header.py compares them with it.
FILE_SAMPLES = 4096
FILE_BYTES = 12294
LINE_BYTES = 32
WORD_SLOTS = 2
READING_SLOTS = 3
COUNT_MASK_EDT_SLOTS = 3

KINDS = ("erpm", "temp", "volt", "amp", "debug1", "debug2", "debug3", "state", "edt")
"""The kinds of readings, as the bench's line names them. The place of each is its number in include/kuzhenga.h."""

REFUSALS = (
    ("DONE", "done"),
    ("ZERO_TIMER_CLOCK", "the timer clock is 0"),
    ("ZERO_BITRATE", "the bit rate is 0"),
    ("PERIOD_TOO_SHORT", "the period of a bit or of a sample is too short"),
    ("PERIOD_TOO_LONG", "the period of a bit is too long"),
    ("VALUE_OUT_OF_RANGE", "a value is above 2047"),
    ("THROTTLE_OUT_OF_RANGE", "a throttle is above 2000"),
    ("NO_REPLY", "there is no reply"),
    ("OVERLONG", "the reply has too many bits"),
    ("INVALID_SYMBOL", "the reply has five bits that are no symbol"),
    ("CHECKSUM", "the reply's checksum is wrong"),
    ("ZERO_PERIOD", "the reply's period is 0"),
    ("NO_SUCH_MOTOR", "there is no such motor, or the mask is 0"),
    ("WRONG_LENGTH", "a slice has the wrong length"),
    ("WRONG_DUTY", "a duty is neither high time, the last slot is not 0, or the high times are equal"),
    ("PACKET_CHECKSUM", "the packet's checksum is neither plain nor inverted"),
    ("PERIOD_OUT_OF_RANGE", "the period is 0 or above 65535 microseconds"),
    ("NOT_A_CAPTURE", "the file is no capture file"),
    ("FAULTED", "the bank has latched a fault"),
    ("MOTORS_RUNNING", "a motor is running or under a lease"),
    ("COMMAND_PENDING", "a command run is pending"),
    ("TELEMETRY_PENDING", "a telemetry request is pending"),
    ("REPLIES_UNSUPPORTED", "a lane cannot receive replies"),
)
"""Name and text of each refusal. The place of each is its number."""

NO_MASK = "NO_MASK"
"""The other name of refusal 12, if a reply is simulated: the mask is 0."""


class Refused(Exception):
    """The library refused a call. `number`, `name` and `text` are those of include/kuzhenga.h."""

    def __init__(self, number, name=None):
        self.number = number
        self.name, self.text = REFUSALS[number] if number < len(REFUSALS) else ("", "no refusal has this number")
        self.name = name or self.name
        super().__init__(number, self.name)

    def __str__(self):
        return f"refused with {self.number} ({self.name}): {self.text}"


class LibraryError(Exception):
    """The shared library is not found, cannot be loaded, or is too old to have a call."""


# ---- arguments: ctypes would cut a number that does not fit, so each is checked first


def _number(name, number, most):
    try:
        whole = operator.index(number)
    except TypeError:
        raise TypeError(f"{name} is {number!r}, and not a whole number") from None
    if not 0 <= whole <= most:
        raise ValueError(f"{name} is {whole}, and not a number from 0 to {most}")
    return whole


def _flag(name, flag):
    return bool(_number(name, flag, 1))


def _bytes(data):
    if not isinstance(data, (bytes, bytearray, memoryview)):
        raise TypeError(f"data is of type {type(data).__name__}, and not the bytes of a file")
    return bytes(data)


def _samples(samples):
    # The bytes of a capture file are numbers too, but not its samples.
    if isinstance(samples, (str, bytes, bytearray, memoryview)):
        raise TypeError(f"samples are of type {type(samples).__name__}; read_bytes reads the bytes of a file")
    return tuple(_number("a sample", sample, 0xFFFF) for sample in samples)


def _slots(count):
    return (ctypes.c_uint16 * count)()


def _filled(samples):
    return (ctypes.c_uint16 * len(samples))(*samples)


# ---- the shared library

_NUMBER, _LENGTH = ctypes.c_uint32, ctypes.c_size_t
_SLOTS, _BYTES = ctypes.POINTER(ctypes.c_uint16), ctypes.POINTER(ctypes.c_uint8)
# A file's bytes are only read, so they are lent as they lie in Python's own bytes.
_FILE = ctypes.c_char_p

CALLS = {
    "reply_transitions": (_SLOTS, _LENGTH, _NUMBER, _SLOTS, _LENGTH),
    "decode_gcr": (_NUMBER, _SLOTS, _LENGTH),
    "reply_from_value": (_NUMBER, _NUMBER, _SLOTS, _LENGTH),
    "period_value": (_NUMBER, _SLOTS, _LENGTH),
    "simulate_reply": (_SLOTS, _LENGTH, _NUMBER, _LENGTH, _NUMBER),
    "read_capture": (_FILE, _LENGTH, _SLOTS, _LENGTH, _SLOTS, _LENGTH),
    "write_capture": (_SLOTS, _LENGTH, _NUMBER, _NUMBER, _BYTES, _LENGTH, _SLOTS, _LENGTH),
    "list_capture": (_FILE, _LENGTH, _BYTES, _LENGTH, _SLOTS, _LENGTH),
    "value_period": (_NUMBER, _SLOTS, _LENGTH),
}
"""The calls that this module makes, without kuzhenga_, and what each takes. Each returns a number of 32 bits."""

_HOW_TO_BUILD = (
    "`make` at the root of a checkout of Kuzhenga builds it as target/lib/libkuzhenga.so, and `make install` installs "
    "it. KUZHENGA_LIBRARY=FILE names another one."
)


def library_path():
    """The shared library that is used: the first that there is of these.

    - the file that the environment variable KUZHENGA_LIBRARY names; if that is not there, no other is taken;
    - lib/libkuzhenga.so of the prefix, if this module lies in share/kuzhenga/python of a prefix;
    - target/lib/libkuzhenga.so of the checkout, if this module lies in python of a checkout;
    - the one that the system finds.

    If there is none, LibraryError is raised.
    """
    named = os.environ.get("KUZHENGA_LIBRARY")
    if named:
        if not os.path.isfile(named):
            raise LibraryError(f"KUZHENGA_LIBRARY is {named}, which is no file. {_HOW_TO_BUILD}")
        # Without a folder in its name, the system would look for it elsewhere.
        return os.path.abspath(named)
    folder = pathlib.Path(__file__).resolve().parent
    if folder.parts[-3:] == ("share", "kuzhenga", "python"):
        near = folder.parents[2] / "lib" / "libkuzhenga.so"
    else:
        near = folder.parent / "target" / "lib" / "libkuzhenga.so"
    found = str(near) if near.is_file() else ctypes.util.find_library("kuzhenga")
    if not found:
        raise LibraryError(f"libkuzhenga.so is not found; {near} is no file. {_HOW_TO_BUILD}")
    return found


@functools.lru_cache(maxsize=None)
def _library():
    path = library_path()
    try:
        return ctypes.CDLL(path)
    except OSError as error:
        raise LibraryError(f"{path} cannot be loaded: {error}. {_HOW_TO_BUILD}") from error


@functools.lru_cache(maxsize=None)
def _call(name):
    library = _library()
    try:
        call = getattr(library, "kuzhenga_" + name)
    except AttributeError:
        raise LibraryError(f"{library._name} has no call kuzhenga_{name}. {_HOW_TO_BUILD}") from None
    call.restype = _NUMBER
    call.argtypes = CALLS[name]
    return call


def _lent(argument):
    """A number as it is. A slice as itself and its length, or as no pointer and 0 if it is empty."""
    if isinstance(argument, int):
        return (argument,)
    return (argument, len(argument)) if len(argument) else (None, 0)


def _do(name, *arguments, refusal_names=()):
    """Makes a call; raises Refused if the library refuses."""
    refusal = _call(name)(*(part for argument in arguments for part in _lent(argument)))
    if refusal:
        raise Refused(refusal, dict(refusal_names).get(refusal))


# ---- replies and captures


@dataclasses.dataclass(frozen=True)
class Reply:
    """What an ESC replied.

    word    the transition bits of the reply, 21 bits
    value   the checked value in it, 12 bits
    kind    one of KINDS
    number  of kind erpm the eRPM / 100, of temp degrees Celsius, of volt quarters of a volt, of amp amperes, of
            debug1 to debug3 and state a byte, of edt 0
    """

    word: int
    value: int
    kind: str
    number: int

    @property
    def erpm(self):
        """The electrical turns a minute, 0 at rest. A reply of another kind than erpm raises ValueError."""
        if self.kind != "erpm":
            raise ValueError(f"the reply is of kind {self.kind}, and only one of kind erpm has a speed")
        return 100 * self.number

    def turns_per_minute(self, poles):
        """The rotor's turns a minute. `poles` counts the magnets of the motor, an even number from 2 on."""
        poles = _number("poles", poles, 0xFFFF)
        if poles < 2 or poles % 2:
            raise ValueError(f"poles is {poles}, and not an even number from 2 on")
        return self.erpm / (poles // 2)


@dataclasses.dataclass(frozen=True)
class Capture:
    """What a capture file holds.

    samples  the samples of the pin, numbers of 16 bits
    mask     the pin's bit in a sample: a sample is high if it has a bit in common with the mask
    edt      whether extended telemetry is on in the ESC
    """

    samples: tuple
    mask: int = 1
    edt: bool = False

    def __post_init__(self):
        object.__setattr__(self, "samples", _samples(self.samples))
        object.__setattr__(self, "mask", _number("mask", self.mask, 0xFFFF))
        object.__setattr__(self, "edt", _flag("edt", self.edt))

    def reading(self):
        """The reply in the capture. Refused with 7 to 11."""
        word, value, reading = _slots(WORD_SLOTS), _slots(1), _slots(READING_SLOTS)
        _do("reply_transitions", _filled(self.samples), self.mask, word)
        bits = word[0] | word[1] << 16
        _do("decode_gcr", bits, value)
        _do("reply_from_value", value[0], int(self.edt), reading)
        return Reply(bits, value[0], KINDS[reading[0]], reading[1] | reading[2] << 16)

    def to_bytes(self):
        """The bytes of the capture's file. Refused with 13 (WRONG_LENGTH) if there are more than 4096 samples."""
        file, written = (ctypes.c_uint8 * FILE_BYTES)(), _slots(1)
        _do("write_capture", _filled(self.samples), self.mask, int(self.edt), file, written)
        return bytes(file[:written[0]])

    def write_file(self, path):
        """Writes the capture's file. If the capture is refused, no file is opened."""
        data = self.to_bytes()
        with open(path, "wb") as file:
            file.write(data)


def read_samples(samples, mask=1, edt=False):
    """The reply in samples, of which there may be any number. Refused with 7 to 11.

    If `edt` is false and extended telemetry is on in the ESC, a temperature reads as a speed.
    """
    return Capture(samples, mask, edt).reading()


def read_bytes(data):
    """The capture in the bytes of a capture file. Refused with 17 (NOT_A_CAPTURE)."""
    samples, parts = _slots(FILE_SAMPLES), _slots(COUNT_MASK_EDT_SLOTS)
    _do("read_capture", _bytes(data), samples, parts)
    count, mask, edt = parts
    return Capture(samples[:count], mask, edt)


def read_file(path):
    """The capture in a capture file. Refused with 17 (NOT_A_CAPTURE)."""
    with open(path, "rb") as file:
        # No capture file is longer, so one byte more is as much no capture file as all that follow it.
        return read_bytes(file.read(FILE_BYTES + 1))


def line(data):
    """The bench's line of the bytes of a file, without its line feed. If the capture is refused, it is `refused` and the number."""
    text, written = (ctypes.c_uint8 * LINE_BYTES)(), _slots(1)
    _do("list_capture", _bytes(data), text, written)
    return bytes(text[:written[0]]).decode("ascii").rstrip("\n")


# ---- the simulated ESC


def make_capture(*, value=None, period_us=None, lead=10, mask=1, samples=160, edt=False):
    """The capture that a reply leaves, three samples a bit.

    value      the value that is sent, 12 bits; or else
    period_us  the period of an electrical turn in microseconds. Refused with 16 (PERIOD_OUT_OF_RANGE) if it is 0 or
               above 65535
    lead       how many high samples come before the reply
    mask       what a high sample is, 16 bits. Refused with 12 (NO_MASK) if it is 0
    samples    how many samples there are, at most 4096. Refused with 13 (WRONG_LENGTH) if fewer than lead + 69
    edt        whether the capture is marked as one with extended telemetry
    """
    if (value is None) == (period_us is None):
        raise TypeError("make_capture takes value or period_us, and not both")
    if value is None:
        slot = _slots(1)
        _do("period_value", _number("period_us", period_us, 0xFFFFFFFF), slot)
        value = slot[0]
    drawn = _slots(_number("samples", samples, FILE_SAMPLES))
    mask = _number("mask", mask, 0xFFFF)
    lead = _number("lead", lead, 0xFFFFFFFF)
    _do("simulate_reply", drawn, _number("value", value, 0xFFF), lead, mask, refusal_names={12: NO_MASK})
    return Capture(drawn, mask, edt)


def period(value):
    """The period of an electrical turn that a speed's value stands for, and its step, both in microseconds.

    A period of 1234 is sent as 1232, in steps of 4. At rest both are 0. If the period is 0, Refused is raised with 11
    (ZERO_PERIOD). If the library is too old to have this call, LibraryError is raised.
    """
    parts = _slots(2)
    _do("value_period", _number("value", value, 0xFFF), parts)
    return parts[0], parts[1]
