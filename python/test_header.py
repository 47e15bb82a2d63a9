"""The module's tables and calls against include/kuzhenga.h."""

import ctypes
import pathlib
import re
import unittest

import kuzhenga

HEADER = (pathlib.Path(__file__).resolve().parent.parent / "include" / "kuzhenga.h").read_text()


def between(start, end):
    return HEADER.split(start, 1)[1].split(end, 1)[0]


def defines(text):
    """The names that are defined as numbers, without KUZHENGA_."""
    return {name: int(number) for name, number in re.findall(r"^#define KUZHENGA_(\w+) (\d+)\b", text, re.MULTILINE)}


def parameter_type(text):
    """What ctypes calls the type of a parameter of C."""
    if "const uint8_t *" in text:
        return ctypes.c_char_p
    for name, kind in (("uint8_t", ctypes.c_uint8), ("uint16_t", ctypes.c_uint16)):
        if f"{name} *" in text:
            return ctypes.POINTER(kind)
    return {"uint32_t": ctypes.c_uint32, "size_t": ctypes.c_size_t}[text.split()[0]]


def prototypes():
    """The calls that return a number of 32 bits, without kuzhenga_, and the types of their parameters."""
    plain = re.sub(r"/\*.*?\*/", "", HEADER, flags=re.DOTALL)
    found = re.findall(r"^uint32_t kuzhenga_(\w+)\(([^)]*)\);", plain, re.MULTILINE)
    return {name: parameters.split(",") for name, parameters in found}


class Header(unittest.TestCase):
    def test_refusals(self):
        named = {name: number for number, (name, _) in enumerate(kuzhenga.REFUSALS)}
        named[kuzhenga.NO_MASK] = 12
        stated = defines(between("/* ---- refusals", "kuzhenga_refusal_text("))
        self.assertEqual(named, stated)
        self.assertGreater(len(stated), 22)

    def test_texts(self):
        body = between("static const char *const texts[] = {", "}\n")
        *texts, unknown = re.findall(r'"([^"]*)"', body)
        self.assertEqual([text for _, text in kuzhenga.REFUSALS], texts)
        self.assertEqual(kuzhenga.Refused(len(texts)).text, unknown)

    def test_kinds(self):
        stated = defines(between("/* ---- readings", "kuzhenga_pair_("))
        self.assertEqual({kind.upper(): number for number, kind in enumerate(kuzhenga.KINDS)}, stated)

    def test_numbers(self):
        stated = defines(HEADER)
        for name in ("FILE_SAMPLES", "FILE_BYTES", "LINE_BYTES", "WORD_SLOTS", "READING_SLOTS", "COUNT_MASK_EDT_SLOTS"):
            self.assertEqual(getattr(kuzhenga, name), stated[name], name)

    def test_calls(self):
        stated = prototypes()
        for name, types in kuzhenga.CALLS.items():
            with self.subTest(name):
                self.assertEqual(list(types), [parameter_type(parameter) for parameter in stated[name]])
