"""The sheet of a shift's flash questions under one allowance: each is answered, refused or put off by the core's queue,
and an answer is then judged as on a sheet of its own."""

from dataclasses import dataclass, replace
from typing import Any, Dict, Sequence, Union

from . import queue, refusals, units
from .core import Core
from .drumlist import Listed, Setting
from .errors import DeskError
from .judgement import Judgement
from .library import Library
from .listsheet import Row, RowSheet, own_sheet
from .progress import Progress
from .question import Options, Question
from .queue import Queued
from .sheet import NamedBook, Sheet, today
from .tasks import FLASH

PUT_OFF = "put off"
KELVINS = (*units.KELVIN_UNITS, *units.CELSIUS_UNITS)
# columns of the table besides the drum: names as the options of the command line have them
SETTINGS = (
    Setting("temperature", ("temperature", "t"), KELVINS, units.temperature),
    Setting("pressure", ("pressure", "p"), tuple(units.PRESSURE_UNITS), units.pressure),
    Setting("max iterations", ("max iterations",), (), units.whole),
    Setting("tolerance", ("tolerance",), (), units.number),
    Setting("threshold", ("threshold",), (), units.number),
)
OPTIONS = {"max iterations": "max_iterations", "tolerance": "tolerance", "threshold": "tm_threshold"}


@dataclass(frozen=True)
class QueueRow(Row):
    """A question of the queue, its own sheet, and what it took. Of one put off the sheet has no answer."""

    queued: Queued

    @property
    def status(self) -> str:
        return PUT_OFF if self.sheet.blocks.put_off else super().status

    @property
    def asked_for_some(self) -> bool:
        """Not refused ahead of its first evaluation."""
        return bool(self.queued.took) or self.status == PUT_OFF

    @property
    def before(self) -> int:
        """What was left for it."""
        return self.queued.left + self.queued.took

    @property
    def fitting_limit(self) -> int:
        """The largest `max_iterations` that would have fitted; 0 where none would."""
        each = (self.queued.asks - 4) // self.sheet.question.options.max_iterations
        return max((self.before - 4) // each, 0)


@dataclass(frozen=True)
class QueueSheet(RowSheet):
    """Its rows are `QueueRow`s."""

    allowance: int
    noun = "question"
    task = FLASH

    @property
    def left(self) -> int:
        return self.rows[-1].queued.left

    @property
    def exact(self) -> bool:
        return all(row.queued.exact for row in self.rows)

    @property
    def enough(self) -> int:
        """An allowance with which none of them is put off: each is left what it asks for, whatever the others put off
        take."""
        most = taken = 0
        for row in self.rows:
            most = max(most, taken + row.queued.asks) if row.asked_for_some else most
            taken += row.queued.asks if row.status == PUT_OFF else row.queued.took
        return most

    def line(self) -> str:
        said, off = super().line(), self.of(PUT_OFF)
        if not off:
            return said
        return "; ".join(filter(None, [said, f"{self._share(off)} put off, none is with --allowance {self.enough}"]))


def question_of(drum: Listed, given: Dict[str, Any], options: Options) -> Question:
    """What the line gives, else what the command line does."""
    if drum.feed.charge and drum.feed.charge.refusal:
        raise DeskError(f"line {drum.line}: {refusals.matter(drum.feed.charge.refusal)}")
    for name in ("temperature", "pressure"):
        if drum.given.get(name, given.get(name)) is None:
            raise DeskError(f"line {drum.line} has no {name}, and there is no --{name} for all")
    own = {field: drum.given[name] for name, field in OPTIONS.items() if name in drum.given}
    return Question(
        FLASH,
        drum.feed.fractions,
        drum.given.get("temperature", given.get("temperature")),
        drum.given.get("pressure", given.get("pressure")),
        options=replace(options, **own),
        by_mass=drum.feed.by_mass,
    )


def queue_sheet(
    core: Union[Core, Library],
    book: NamedBook,
    file: str,
    drums: Sequence[Listed],
    questions: Sequence[Question],
    allowance: int,
    label: str = "",
) -> QueueSheet:
    """The queue first, and then this tool's own checks of what was answered."""
    with Progress(file, 2 * len(drums), of="steps") as progress:
        found = queue.run(core, questions, allowance, progress.stepped)
        rows = tuple(
            progress.stepped(QueueRow(drum, _sheet(core, book, drum, question, entry), entry))
            for drum, question, entry in zip(drums, questions, found)
        )
    return QueueSheet(book, file, rows, label, today(), allowance)


def _sheet(core: Union[Core, Library], book: NamedBook, drum: Listed, question: Question, entry: Queued) -> Sheet:
    if entry.blocks.put_off:
        return Sheet(book, drum.feed, question, entry.blocks, Judgement(), label=drum.label)
    return own_sheet(core, book, drum, question, entry.blocks)
