"""The files that the tests hold to each other, and the archive and library of the folder in ZEKTONK_LIB."""

import contextlib
import ctypes
import io
import os
import shutil
import subprocess
import tempfile
import unittest
from pathlib import Path
from typing import List, Tuple
from unittest import mock

from desk.cli import main

ROOT = Path(__file__).resolve().parent.parent.parent
FORMAT = ROOT / "docs" / "FORMAT.md"
LINKING = ROOT / "docs" / "LINKING.md"
C = ROOT / "bindings" / "c"
HEADER = C / "zektonk.h"
STILL = ROOT / "crates" / "still"  # a stored book, question and answer
FOLDER = Path(os.environ.get("ZEKTONK_LIB") or ROOT / "target" / "staticlib").resolve()
ARCHIVE = FOLDER / "libzektonk.a"
LIBRARY = FOLDER / "libzektonk.so"
BLOCK, ANSWER_ROOM = 512, 4608
WARNINGS = ("-Wall", "-Wextra", "-Wpedantic", "-Wconversion", "-Wshadow", "-Wcast-qual", "-Werror")
STRICT = ("-std=c11", "-O2", *WARNINGS)


def call():
    """zektonk_answer of the shared library."""
    function = ctypes.CDLL(str(LIBRARY)).zektonk_answer
    function.argtypes = [ctypes.c_char_p, ctypes.c_size_t] * 3
    function.restype = ctypes.c_uint64
    return function


def answered(function, book: bytes, question: bytes):
    """The number, and the answer slice afterwards."""
    room = ctypes.create_string_buffer(ANSWER_ROOM)
    number = function(book, len(book), question, len(question), room, ANSWER_ROOM)
    return number, room.raw


def words_of(block: bytes) -> List[int]:
    return [int.from_bytes(block[at : at + 8], "little") for at in range(0, BLOCK, 8)]


def sheet(*arguments: str) -> Tuple[int, str]:
    """Status and output of `./sheet`, run in this process."""
    out, err = (io.TextIOWrapper(io.BytesIO(), encoding="utf-8") for _ in range(2))
    with contextlib.redirect_stdout(out), contextlib.redirect_stderr(err):
        status = main(list(arguments))
    out.flush()
    return status, out.buffer.getvalue().decode("utf-8")


class InFolder(unittest.TestCase):
    """A test with a temporary folder of its own."""

    def setUp(self) -> None:
        temporary = tempfile.TemporaryDirectory(prefix="bindings-test-")
        self.addCleanup(temporary.cleanup)
        self.folder = Path(temporary.name)

    def by_both(self, *arguments: str) -> Tuple[Tuple[int, str], Tuple[int, str]]:
        """`./sheet` over the library, and over the program."""
        with mock.patch.dict(os.environ, {"SOURCE_DATE_EPOCH": "1794821400"}):
            found = sheet(*arguments)
            with mock.patch.dict(os.environ, {"ZEKTONK_LIB": str(self.folder)}):
                return found, sheet(*arguments)

    def run_in_folder(self, *command: object, **settings: object) -> subprocess.CompletedProcess:
        words = [str(word) for word in command]
        run = subprocess.run(words, cwd=self.folder, capture_output=True, timeout=120, **settings)
        self.assertEqual(run.returncode, 0, run.stderr.decode("utf-8", "replace"))
        return run

    def compiled(self, source: Path, *words: object) -> Path:
        """A C program, linked with the archive. Without a C compiler the test is left out; under CI=true it fails."""
        if shutil.which("cc") is None:
            if os.environ.get("CI") == "true":
                self.fail("cc is not installed")
            self.skipTest("cc is not installed")
        program = self.folder / source.stem
        self.run_in_folder("cc", *STRICT, f"-I{C}", source, ARCHIVE, "-o", program, *words)
        return program
