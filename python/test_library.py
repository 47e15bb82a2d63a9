"""Which shared library is taken, and what is said if there is none."""

import _ctypes
import os
import pathlib
import shutil
import subprocess
import sys
import tempfile
import unittest

import kuzhenga

MODULE = pathlib.Path(kuzhenga.__file__).resolve()
# Before the module is imported, the system is made to know one library or none.
SYSTEM = "import ctypes.util\nctypes.util.find_library = lambda name: {!r}\n"
NO_SYSTEM = SYSTEM.format(None)
TELL = "import kuzhenga\nprint(kuzhenga.library_path())\n"
TRY = """import kuzhenga
try:
    print(kuzhenga.line(b""))
except kuzhenga.LibraryError as error:
    print(error)
"""


def run(program, module_folder=MODULE.parent, library=None):
    """What a program prints, in another folder, with KUZHENGA_LIBRARY set or not."""
    environment = {name: text for name, text in os.environ.items() if name != "KUZHENGA_LIBRARY"}
    environment["PYTHONPATH"] = str(module_folder)
    if library is not None:
        environment["KUZHENGA_LIBRARY"] = str(library)
    done = subprocess.run([sys.executable, "-B", "-c", program], env=environment, cwd=tempfile.gettempdir(),
                          stdout=subprocess.PIPE, check=True, universal_newlines=True)
    return done.stdout.rstrip("\n")


class Named(unittest.TestCase):
    def test_named(self):
        with tempfile.TemporaryDirectory() as folder:
            named = pathlib.Path(folder).resolve() / "another.so"
            shutil.copy(kuzhenga.library_path(), named)
            self.assertEqual(run(TELL, library=named), str(named))
            self.assertEqual(run(TRY, library=named), "refused 17")

    def test_named_without_a_folder(self):
        with tempfile.TemporaryDirectory() as folder:
            named = pathlib.Path(folder).resolve() / "another.so"
            shutil.copy(kuzhenga.library_path(), named)
            program = f"import os\nos.chdir({str(folder)!r})\n" + TRY + TELL
            self.assertEqual(run(program, library="another.so"), f"refused 17\n{named}")

    def test_missing(self):
        # The one of the checkout is there, but it is not the one that was asked for.
        said = run(TRY, library="/nowhere/libkuzhenga.so")
        self.assertIn("KUZHENGA_LIBRARY is /nowhere/libkuzhenga.so, which is no file", said)
        self.assertIn("`make` at the root of a checkout", said)

    def test_no_library(self):
        self.assertIn(f"{MODULE} cannot be loaded", run(TRY, library=MODULE))

    def test_another_library(self):
        self.assertIn("has no call kuzhenga_list_capture", run(TRY, library=_ctypes.__file__))


class Found(unittest.TestCase):
    def laid_out(self, module_folder, library_folder):
        """A folder with the module and, if a folder is named for it, the library."""
        top = pathlib.Path(self.enterContext(tempfile.TemporaryDirectory())).resolve()
        (top / module_folder).mkdir(parents=True)
        shutil.copy(MODULE, top / module_folder)
        if library_folder:
            (top / library_folder).mkdir(parents=True)
            shutil.copy(kuzhenga.library_path(), top / library_folder / "libkuzhenga.so")
        return top

    # Python 3.11 and newer have it.
    if not hasattr(unittest.TestCase, "enterContext"):
        def enterContext(self, context):
            entered = context.__enter__()
            self.addCleanup(context.__exit__, None, None, None)
            return entered

    def test_prefix(self):
        top = self.laid_out("share/kuzhenga/python", "lib")
        said = run(SYSTEM.format("other.so") + TELL + TRY, top / "share/kuzhenga/python")
        self.assertEqual(said, f"{top}/lib/libkuzhenga.so\nrefused 17")

    def test_checkout(self):
        top = self.laid_out("python", "target/lib")
        said = run(SYSTEM.format("other.so") + TELL + TRY, top / "python")
        self.assertEqual(said, f"{top}/target/lib/libkuzhenga.so\nrefused 17")

    def test_other_folders_are_not_searched(self):
        top = self.laid_out("a/b/python", "lib")
        self.assertIn("libkuzhenga.so is not found", run(NO_SYSTEM + TRY, top / "a/b/python"))

    def test_system(self):
        top = self.laid_out("python", None)
        self.assertEqual(run(SYSTEM.format("libkuzhenga.so.9") + TELL, top / "python"), "libkuzhenga.so.9")
        self.assertIn("libkuzhenga.so.9 cannot be loaded", run(SYSTEM.format("libkuzhenga.so.9") + TRY, top / "python"))

    def test_nothing(self):
        for folder in ("python", "share/kuzhenga/python"):
            top = self.laid_out(folder, None)
            said = run(NO_SYSTEM + TRY, top / folder)
            self.assertIn("libkuzhenga.so is not found", said)
            self.assertIn("`make` at the root of a checkout", said)
