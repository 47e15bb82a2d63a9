"""The examples of README.md and of the module's own text print what is written there."""

import contextlib
import doctest
import io
import os
import pathlib
import re
import unittest

import kuzhenga

FOLDER = pathlib.Path(__file__).resolve().parent


class Examples(unittest.TestCase):
    def setUp(self):
        self.addCleanup(os.chdir, os.getcwd())
        os.chdir(FOLDER.parent)

    def test_readme(self):
        text = (FOLDER / "README.md").read_text()
        program, expected = re.findall(r"^```(?:python|text)\n(.*?)^```$", text, re.DOTALL | re.MULTILINE)
        printed = io.StringIO()
        with contextlib.redirect_stdout(printed):
            exec(compile(program, "README.md", "exec"), {})
        self.assertEqual(printed.getvalue(), expected)

    def test_module_text(self):
        failed, tried = doctest.testmod(kuzhenga)
        self.assertEqual((failed, tried > 0), (0, True))
