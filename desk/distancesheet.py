"""Asking how far it is to the next phase change: the drum's flash as on a sheet of its own, the nearest step with
another outcome, and on request the nearest upwards and downwards. The core's call gives the nearest in its order; all
else is by plain flashes."""

from collections import Counter
from dataclasses import dataclass
from typing import Dict, Iterable, Optional, Union

from . import answer, text
from .core import Core
from .distance import DOWN, ORDER, UP, Distance, at_step, tried
from .errors import DeskError
from .judgement import Mark, judged
from .library import Library
from .preview import Preview
from .progress import Progress
from .sheet import Sheet, flash_command

Asked = Union[Core, Library, Preview]

NO_AGREEMENT = "the core's distance doesn't agree with its own flashes"
CHANGE_LINE = "AT {} THE DRUM IS NOT WHAT IT LOOKS LIKE"


@dataclass(frozen=True)
class Change:
    """What the steps found, in the core's order or one way: the pressure (Pa) of the step, where there is one, how
    often each number refused a step before it, and what stands against the flash there."""

    found: Distance
    pascals: Optional[float]
    numbers: Dict[int, int]
    mark: Optional[Mark] = None


@dataclass(frozen=True)
class DistanceSheet:
    """`nearest` is None of a flash that is refused; `up` and `down` where both ways weren't asked for. With a pair that
    is tried `own` is the book's own."""

    flash: Sheet
    nearest: Optional[Change] = None
    up: Optional[Change] = None
    down: Optional[Change] = None
    own: Optional["DistanceSheet"] = None

    @property
    def outcome(self) -> str:
        return answer.outcome_words(self.flash.blocks.head[answer.OUTCOME])

    @property
    def mark(self) -> Optional[Mark]:
        """Of the flash, else of a change."""
        changes = (change.mark for change in (self.nearest, self.up, self.down) if change)
        return self.flash.judgement.mark or next(filter(None, changes), None)


def distance_sheet(core: Asked, flash: Sheet, both: bool = False) -> DistanceSheet:
    """Of a flash's sheet. With `both` up and down too."""
    if flash.blocks.refusal:
        return DistanceSheet(flash)
    with Progress("distance", len(ORDER), of="steps") as progress:
        asking = _Asking(core, flash, progress)
        nearest = asking.nearest()
        up, down = (asking.one_way(steps) if both else None for steps in (UP, DOWN))
    if both:
        steps = [change.found.steps for change in (up, down) if change.found.steps is not None]
        if nearest.found.steps != min(steps, key=ORDER.index, default=None):
            raise DeskError(NO_AGREEMENT)
    return DistanceSheet(flash, nearest, up, down)


class _Asking:
    def __init__(self, core: Asked, flash: Sheet, progress: Progress):
        self.core, self.flash, self.progress = core, flash, progress
        self.outcome = flash.blocks.head[answer.OUTCOME]

    def nearest(self) -> Change:
        """By the core's call where there is one. What refused the steps before it plain flashes say."""
        if not isinstance(self.core, Library):
            return self.one_way(ORDER)
        found = self.core.ask_distance(self.flash.question)
        change = self.one_way(ORDER) if found.refused else self._change(found, {})
        if change.found != found:
            raise DeskError(NO_AGREEMENT)
        return change

    def one_way(self, steps: Iterable[int]) -> Change:
        found, numbers = tried(self.core, self.flash.question, self.outcome, steps, self.progress.stepped)
        return self._change(found, dict(sorted(Counter(numbers).items())))

    def _change(self, found: Distance, numbers: Dict[int, int]) -> Change:
        if found.steps is None:
            return Change(found, None, numbers)
        question = at_step(self.flash.question, found.steps)
        return Change(found, question.pressure, numbers, self._mark(question))

    def _mark(self, question) -> Optional[Mark]:
        """The flash at the step is judged as on its own sheet, which says what holds instead. What stands against the
        drum at P too is said of that."""
        book, feed = self.flash.book, self.flash.feed
        mark = judged(self.core, book, question, self.core.ask(question), False, feed).mark
        if not mark or self.flash.judgement.mark:
            return None
        line = f"{CHANGE_LINE.format(text.kilopascals(question.pressure))}: {mark.line}"
        return Mark(mark.kind, line, ("What holds there says its own sheet:", flash_command(book, feed, question)))
