"""The sheet of many drums at one setting: they go to the core up to 64 at a time, and each is then judged as on a sheet
of its own."""

from collections import Counter
from dataclasses import dataclass, replace
from typing import Dict, Iterator, List, Optional, Sequence, Tuple, Union

from . import batch, refusals
from .answer import Blocks
from .core import Core
from .drumlist import Listed
from .explain import detail
from .judgement import judged
from .library import Library
from .preview import Preview
from .progress import Progress
from .question import Question
from .ranges import PairRemark, Ranges, ranges_at
from .sheet import NamedBook, Sheet, today
from .tasks import Task
from .tried import Tried

Asked = Union[Core, Library, Preview]

ANSWERED, MARKED, REFUSED = "answered", "marked", "refused"


@dataclass(frozen=True)
class Row:
    """A drum of the list and its own sheet."""

    drum: Listed
    sheet: Sheet

    @property
    def status(self) -> str:
        if self.sheet.blocks.refusal:
            return REFUSED
        return MARKED if self.sheet.judgement.mark else ANSWERED

    @property
    def splits(self) -> bool:
        """Refused or not."""
        mark = self.sheet.judgement.mark
        return bool(mark and mark.kind == "splits")


@dataclass(frozen=True)
class RowSheet:
    """Rows of a list, and what it is a list of."""

    book: NamedBook
    file: str
    rows: Tuple[Row, ...]
    label: str
    date: str
    noun = "drum"

    def of(self, status: str) -> List[Row]:
        return [row for row in self.rows if row.status == status]

    @property
    def present(self) -> List[int]:
        """Places of the solvents that are in one of the drums."""
        return sorted({place for row in self.rows for place in row.sheet.present()})

    @property
    def repeated(self) -> Dict[str, List[int]]:
        """Labels that stand there more than once, with their lines."""
        counted = Counter(row.drum.label for row in self.rows if row.drum.label)
        return {
            label: [row.drum.line for row in self.rows if row.drum.label == label]
            for label, count in counted.items()
            if count > 1
        }

    def line(self) -> str:
        """What isn't as it looks, for standard error; nothing where all have ordinary answers."""
        refused, marked = self.of(REFUSED), self.of(MARKED)
        numbers = sorted({row.sheet.blocks.refusal for row in refused})
        said = []
        if refused:
            said.append(f"{self._share(refused)} refused, number {', '.join(map(str, numbers))}")
        if marked:
            said.append(f"{self._share(marked)} marked, the first is {marked[0].drum.name}")
        return "; ".join(said)

    def _share(self, rows: Sequence[Row]) -> str:
        return f"{len(rows)} of {len(self.rows)} {self.noun}s"


@dataclass(frozen=True)
class ListSheet(RowSheet):
    """`question` is that of every drum but for its fractions."""

    question: Question
    tried: Optional[Tried] = None  # then `book` is the copy that holds the pair

    @property
    def task(self) -> Task:
        return self.question.task

    @property
    def ranges(self) -> Ranges:
        """The pairs of all drums with something to say, at the one temperature."""
        found: Dict[Tuple[str, str], PairRemark] = {}
        for row in self.rows:
            for remark in row.sheet.ranges.remarks if row.sheet.ranges else ():
                found.setdefault(remark.names, remark)
        order = {name: place for place, name in enumerate(self.book.names)}
        remarks = sorted(found.values(), key=lambda remark: [order[name] for name in remark.names])
        return Ranges(self.question.temperature, None, None, tuple(remarks))


def list_sheet(
    core: Asked,
    book: NamedBook,
    file: str,
    drums: Sequence[Listed],
    question: Question,
    label: str = "",
    tried: Optional[Tried] = None,
) -> ListSheet:
    rows: Dict[int, Row] = {}
    with Progress(file, len(drums), of="drums") as progress:
        for places in _calls(drums):
            for k, blocks in zip(places, _asked(core, [drums[k] for k in places], question)):
                rows[k] = progress.stepped(Row(drums[k], own_sheet(core, book, drums[k], question, blocks)))
    return ListSheet(book, file, tuple(rows[k] for k in range(len(drums))), label, today(), question, tried)


def _calls(drums: Sequence[Listed]) -> Iterator[List[int]]:
    """Places of the drums that go into one call. Moles and mass are in calls of their own, since word 27 is the
    question's; so is a drum that has no fractions."""
    for by_mass in (False, True):
        places = [k for k, drum in enumerate(drums) if drum.feed.by_mass == by_mass and not _unpooled(drum)]
        yield from (places[k : k + batch.MOST_FEEDS] for k in range(0, len(places), batch.MOST_FEEDS))
    yield from ([k] for k, drum in enumerate(drums) if _unpooled(drum))


def _asked(core: Asked, drums: Sequence[Listed], question: Question) -> List[Blocks]:
    """What one call answers."""
    feed = drums[0].feed
    if _unpooled(drums[0]):
        return [core.ask_pooled(question, feed.charge.counts)]
    return core.ask_feeds(replace(question, by_mass=feed.by_mass), [drum.feed.fractions for drum in drums])


def _unpooled(drum: Listed) -> bool:
    """Amounts in mol that the core refuses as a pool (32), and that have no fractions."""
    return bool(drum.feed.charge and drum.feed.charge.refusal)


def own_sheet(core: Asked, book: NamedBook, drum: Listed, question: Question, blocks: Blocks) -> Sheet:
    """A drum's, judged as it would be by itself."""
    asked = replace(question, fractions=drum.feed.fractions, by_mass=drum.feed.by_mass)
    judgement = judged(core, book, asked, blocks, advise=False, feed=drum.feed)
    sheet = Sheet(book, drum.feed, asked, blocks, judgement, label=drum.label)
    if blocks.refusal:
        return sheet
    return replace(sheet, ranges=ranges_at(core, book, sheet.moles, question.temperature))


def reason(row: Row) -> str:
    """Why a drum is refused."""
    number = row.sheet.blocks.refusal
    return ": ".join(filter(None, (refusals.matter(number), detail(row.sheet))))
