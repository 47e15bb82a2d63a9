"""What the calls must give for a case, in the form of library.py: numbers, and the bytes of buffers after the calls."""

import struct

import library
import reader

WRONG_LENGTH = 13
# How `struct` writes an element, and how many bytes it has.
BYTE, SLOT, LONG = ("B", 1), ("H", 2), ("Q", 8)


def after(element, length, written=()):
    """A buffer of so many elements after a call that wrote its first ones, with the elements behind it."""
    letter, size = element
    data = struct.pack(f"={len(written)}{letter}", *written)
    return data + bytes([library.UNTOUCHED]) * (size * (length + library.BEHIND) - len(data))


def answers(case):
    number, samples = reader.read_dump(*case[:5])
    line = library.listed(samples, case.edt) if number == 0 else b"refused %d\n" % number
    scale_number, scale = reader.dump_scale(case.text)
    return {
        "read_dump": (number, after(SLOT, library.SAMPLES, samples or ())),
        "list_dump": (0, after(BYTE, library.LINE, line.ljust(library.LINE, b"\0")), after(SLOT, 1, (len(line),))),
        "dump_place": (0, after(LONG, library.PLACE, reader.dump_place(*case[:5]))),
        "dump_scale": (scale_number, after(LONG, library.SCALE, () if scale_number else (scale,))),
        "dump_variable": variables(case.text),
        "dump_variable from any byte": [variable(case.text, start)[0] for start in library.any_bytes(case.text)],
        "wrong lengths": wrong_lengths(case),
    }


def variable(text, start):
    number, about = reader.dump_variable(text, start)
    return (number, after(LONG, library.ABOUT, about or ())), about


def variables(text):
    found, start = [], 0
    while True:
        answer, about = variable(text, start)
        found.append(answer)
        if answer[0] or about[2] == 0:
            return found
        start = about[0]


def wrong_lengths(case):
    def wrong(element, length):
        return after(element, (0, length - 1, length + 1, 2 * length)[len(case.text) % 4])

    return [
        (WRONG_LENGTH, wrong(SLOT, library.SAMPLES)),
        (WRONG_LENGTH, wrong(BYTE, library.LINE), after(SLOT, library.LINE_LENGTH)),
        (WRONG_LENGTH, after(BYTE, library.LINE), wrong(SLOT, library.LINE_LENGTH)),
        (WRONG_LENGTH, wrong(LONG, library.PLACE)),
        (WRONG_LENGTH, wrong(LONG, library.SCALE)),
        (WRONG_LENGTH, wrong(LONG, library.ABOUT)),
    ]
