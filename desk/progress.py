"""A progress line on standard error, shown only on a terminal and once the work has taken a second."""

import sys
import time
from typing import TypeVar

Result = TypeVar("Result")

DELAY = 1.0  # s
PAUSE = 0.2  # s between two prints


class Progress:
    def __init__(self, what: str, total: int, out=None, clock=time.monotonic, of: str = "points"):
        self.what, self.total, self.done, self.of = what, total, 0, of
        self._out = out or sys.stderr
        self._on_terminal = self._out is not None and self._out.isatty()
        self._clock = clock
        self._started = self._printed = clock()
        self._shown = False

    def __enter__(self) -> "Progress":
        return self

    def __exit__(self, *_: object) -> None:
        """The line is ended, also where the work was broken off."""
        if self._shown:
            self._out.write(f"\r{self.what}: {self.done} {self.of}, {self._clock() - self._started:.1f} s \n")
            self._out.flush()

    def stepped(self, result: Result) -> Result:
        """One of them is done; its result is handed on."""
        self.done += 1
        now = self._clock()
        if self._on_terminal and now - self._started >= DELAY and now - self._printed >= PAUSE:
            self._printed, self._shown = now, True
            self._out.write(f"\r{self.what}: {self.done} of {self.total} {self.of} ")
            self._out.flush()
        return result
