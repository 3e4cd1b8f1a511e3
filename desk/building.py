"""Building the program `still`: which crates have to be proved, and how far that is."""

import os
import re
import select
import shutil
import subprocess
import sys
import time
from pathlib import Path
from typing import Dict, Iterable, List, Optional, TextIO

from . import files
from .core import PROGRAM, ROOT
from .errors import DeskError

CRATE = "still"
FOLDER = ROOT / "crates" / CRATE
BUILT = FOLDER / "out" / CRATE  # where rt leaves the program
STARTED = re.compile(r"rt: chose --jobs \d+ for (\S+)")
PROVED = re.compile(r"logic=proved\b")
BAR = 20  # columns
PAUSE = 0.25  # s between two moves of the bar


def is_stale(built: Path = PROGRAM, among: Iterable[str] = ("*",)) -> bool:
    """Missing, or older than a source of these crates."""
    if not built.exists():
        return True
    made = built.stat().st_mtime
    return any(path.stat().st_mtime > made for path in sources(among))


def sources(among: Iterable[str] = ("*",)) -> Iterable[Path]:
    yield ROOT / "crates.txt"
    for crate in among:
        for folder in ("src", "specs", "proofs"):
            found = (ROOT / "crates").glob(f"{crate}/{folder}/**/*")
            yield from (path for path in found if path.suffix in (".rt", ".antt"))


def crates() -> Dict[str, List[str]]:
    return dependencies((ROOT / "crates.txt").read_text(encoding="utf-8"))


def dependencies(listing: str) -> Dict[str, List[str]]:
    """Crates and what they depend on, from crates.txt; what isn't listed there belongs to the toolchain."""
    lines = (line.partition(":") for line in listing.splitlines() if line.strip() and not line.startswith("#"))
    found = {name.split()[0]: needs.split() for name, _, needs in lines}
    return {name: [need for need in needs if need in found] for name, needs in found.items()}


def needed(crates: Dict[str, List[str]], crate: str = CRATE) -> List[str]:
    """A crate and all below it, in the order of the list."""
    wanted, due = set(), [crate]
    while due:
        name = due.pop()
        if name not in wanted:
            wanted.add(name)
            due += crates.get(name, [])
    return [name for name in crates if name in wanted]


class Proving:
    """What has been proved, what is being proved, and how many are left: lines, or on a terminal a bar that moves."""

    def __init__(self, crates: Dict[str, List[str]], out: Optional[TextIO] = None, clock=time.monotonic):
        self._crates, self._out, self._clock = crates, out or sys.stderr, clock
        self._due = needed(crates)
        self._done: List[str] = []
        self._now = ""
        self._started = self._last = clock()
        self._turns = 0
        self.terminal = self._out.isatty()

    def heard(self, line: str) -> None:
        """A crate that is begun stands on crates that are proved, by this run or an earlier one."""
        match = STARTED.match(line)
        if match:
            self._now = match.group(1)
            self._done += [name for name in needed(self._crates, self._now)[:-1] if name not in self._done]
        elif PROVED.match(line) and self._now in self._due and self._now not in self._done:
            self._done.append(self._now)
            self.show()

    def current(self) -> List[str]:
        """The crates whose dependencies are all proved."""
        return [
            name
            for name in self._due
            if name not in self._done and all(need in self._done for need in self._crates[name])
        ]

    def show(self) -> None:
        seconds = self._clock() - self._started
        done, due = len(self._done), len(self._due)
        if self.terminal:
            self._turns += 1
            tip = "|/-\\"[self._turns % 4] if done < due else ""
            bar = ("=" * (BAR * done // due) + tip).ljust(BAR)[:BAR]
            line = (
                f"[{bar}] {done} of {due} proved, {due - done} left, {seconds:.0f} s: {', '.join(self.current()[:3])}"
            )
            line = line.rstrip(": ")
            self._out.write(f"\r{line[: shutil.get_terminal_size().columns - 1]}\x1b[K")
        elif self._done:
            now = f"now {', '.join(self.current()[:3])}" if done < due else "all proved"
            self._out.write(
                f"sheet: {self._done[-1]} proved, {done} of {due}; {now}, {due - done} left ({seconds:.0f} s)\n"
            )
        self._out.flush()

    def ended(self) -> None:
        if self.terminal:
            self._out.write("\n")
            self._out.flush()


def build(out: Optional[TextIO] = None) -> None:
    """Proves and builds the program `still`, unless rt has left it so, and puts it where it is looked for."""
    if is_stale(BUILT, needed(crates())):
        prove(out)
    PROGRAM.parent.mkdir(parents=True, exist_ok=True)
    files.write_whole(str(PROGRAM), BUILT.read_bytes())
    PROGRAM.chmod(0o755)


def prove(out: Optional[TextIO] = None) -> None:
    """Has rt prove and build the program, and run it once: on no book and no question, which it refuses."""
    proving = Proving(crates(), out)
    streams = {"stdin": subprocess.DEVNULL, "stdout": subprocess.DEVNULL, "stderr": subprocess.PIPE}
    try:
        run = subprocess.Popen(["rt", "run"], cwd=FOLDER, bufsize=0, **streams)
    except OSError as error:
        raise DeskError(f"rt can't be run ({error.strerror}); the toolchain stands in /opt/rattle/bin") from None
    with run:
        last = _followed(run, proving)
    proving.ended()
    if run.returncode:
        raise DeskError(f"rt run of {CRATE} did not pass: {last or f'status {run.returncode}'}")


def _followed(run: subprocess.Popen, proving: Proving) -> str:
    """Each line as it comes, and the bar moved in between; the last line is handed on."""
    handle, rest, last = run.stderr.fileno(), b"", ""
    proving.show()
    while True:
        if not select.select([handle], [], [], PAUSE)[0]:
            if proving.terminal:
                proving.show()
            continue
        part = os.read(handle, 1 << 16)
        *lines, rest = (rest + part).split(b"\n")
        for line in lines + ([rest] if not part and rest else []):
            words = line.decode("utf-8", "replace")
            last = words.strip() or last
            proving.heard(words)
        if not part:
            return last
