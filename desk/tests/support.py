"""Running ./sheet as a user does, and the stored files under golden/."""

import contextlib
import io
import os
import re
import subprocess
import tempfile
import unittest
from pathlib import Path
from typing import Dict, List, NamedTuple
from unittest import mock

from desk import core
from desk.cli import main

ROOT = Path(__file__).resolve().parent.parent.parent
GOLDEN = Path(__file__).resolve().parent / "golden"
SHEET = ROOT / "sheet"
YARD = ROOT / "yard" / "yard.txt"
ALCOHOLS = ROOT / "yard" / "alcohols.txt"
SAMPLE = ROOT / "yard" / "sample.txt"
STORE = os.environ.get("DESK_STORE") == "yes"  # scripts/desk-tests --store
os.environ["SOURCE_DATE_EPOCH"] = "1794821400"  # every sheet of the tests is of 2026-11-16 09:30
ROUNDING = re.compile(r"\b\de(-1\d|[+]00)\b")  # of a difference: differs with the machine's libm


# answers of the program by book and question: the tests ask many questions more than once
_kept: Dict[bytes, dict] = {}
_open = core.Core.__init__


def _opened(self: core.Core, book: bytes, program: Path = core.PROGRAM) -> None:
    _open(self, book, program)
    if self.program == core.PROGRAM.resolve():
        self._answers = _kept.setdefault(book, {})


class Run(NamedTuple):
    status: int
    out: str
    err: str


def sheet(*arguments: str, cwd: Path = ROOT) -> Run:
    """A command in this process, which spares the start of an interpreter."""
    out, err = (io.TextIOWrapper(io.BytesIO(), encoding="utf-8") for _ in range(2))
    kept = mock.patch.object(core.Core, "__init__", _opened)
    with kept, _inside(cwd), contextlib.redirect_stdout(out), contextlib.redirect_stderr(err):
        try:
            status = main(list(arguments))
        except SystemExit as ended:  # --help
            status = ended.code or 0
    return Run(status, _written(out), _written(err))


@contextlib.contextmanager
def _inside(folder: Path):
    before = os.getcwd()
    os.chdir(folder)
    try:
        yield
    finally:
        os.chdir(before)


def _written(stream: io.TextIOWrapper) -> str:
    stream.flush()
    return stream.buffer.getvalue().decode("utf-8")


def sheet_process(*arguments: str, **environment: str) -> Run:
    """A command as a user runs it."""
    run = subprocess.run(
        [str(SHEET), *arguments], cwd=ROOT, capture_output=True, timeout=120, env={**os.environ, **environment}
    )
    return Run(run.returncode, run.stdout.decode("utf-8"), run.stderr.decode("utf-8"))


def contents(folder: Path) -> Dict[str, bytes]:
    """Every file of a folder with its bytes."""
    return {str(path.relative_to(folder)): path.read_bytes() for path in sorted(folder.rglob("*")) if path.is_file()}


class InFolder(unittest.TestCase):
    """A test with a temporary folder of its own."""

    def setUp(self) -> None:
        temporary = tempfile.TemporaryDirectory(prefix="desk-test-")
        self.addCleanup(temporary.cleanup)
        self.folder = Path(temporary.name)

    def file(self, name: str, content) -> str:
        path = self.folder / name
        path.write_bytes(content if isinstance(content, bytes) else content.encode("utf-8"))
        return str(path)

    def program(self, body: List[str]) -> str:
        """A stand-in for still."""
        path = Path(self.file("program", "\n".join(["#!/usr/bin/env python3", "import struct, sys"] + body) + "\n"))
        path.chmod(0o755)
        return str(path)

    def assert_golden(self, name: str, found: str) -> None:
        self.assert_stored(GOLDEN / name, found)

    def assert_stored(self, path: Path, found: str) -> None:
        """Equal but for differences of a few roundings."""
        if STORE:
            path.write_text(found, encoding="utf-8")
        stored = path.read_text(encoding="utf-8")
        self.assertEqual(ROUNDING.sub("0", stored), ROUNDING.sub("0", found), f"differs from {path}")
