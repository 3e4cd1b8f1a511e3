"""Many feeds at one setting (docs/FORMAT.md, "Feeds"): up to 64 in one call, each answered or refused by itself. The
library takes them all. The program `still` takes one: by the core's law each feed is answered as by a call on its own
(crates/batches/specs), and that is how it is asked."""

import struct
from dataclasses import replace
from typing import TYPE_CHECKING, List, Sequence

from . import answer, tasks
from .blocks import BLOCK, Rule, bits_of, sealed
from .book import MOST_SOLVENTS
from .errors import CoreRefusal
from .feed import Fractions
from .places import NOWHERE, Place, named
from .question import Question, eight
from .refusals import line

if TYPE_CHECKING:
    from .core import Core

FEED_BYTES = 8 * MOST_SOLVENTS
MOST_FEEDS = 64
PART = 9 * BLOCK  # of the answer slice, for each feed
FEEDS, TASK = 33, 12  # refusals: how many feeds, and a task that isn't one of these
TASKS = tuple(task for task in tasks.TASKS if task.takes_temperature)
OF_THE_BOOK = (*range(1, 10), 35, 37, 38)  # these, 33 and 10 end the whole call


class CallRefused(CoreRefusal):
    """The whole call, with no word about any feed."""

    def __init__(self, number: int, place: Place = NOWHERE, said: str = "", whose: str = ""):
        super().__init__(": ".join(filter(None, (line(number, place, said), whose))))
        self.number, self.place, self.said, self.whose = number, place, said, whose

    @classmethod
    def by(cls, blocks: answer.Blocks) -> "CallRefused":
        return cls(blocks.refusal, blocks.place, blocks.said)

    def of(self, names: Sequence[str]) -> "CallRefused":
        """The same with the names of a book's solvents."""
        return CallRefused(self.number, self.place, self.said, self.whose or named(self.place, names))


def bytes_of(feeds: Sequence[Fractions]) -> bytes:
    """One feed behind the other."""
    return b"".join(struct.pack("<8Q", *map(bits_of, eight(tuple(feed)))) for feed in feeds)


def parts_of(room: bytes, count: int, rule: Rule) -> List[answer.Blocks]:
    """What each feed's own bytes of the answer slice say."""
    return [_part(room[PART * k : PART * (k + 1)], rule) for k in range(count)]


def _part(part: bytes, rule: Rule) -> answer.Blocks:
    trials = int.from_bytes(part[8 * answer.TRIALS : 8 * answer.TRIALS + 8], "little")
    return answer.read(part[: BLOCK * (1 + trials)], rule)


def ask_plainly(core: "Core", question: Question, feeds: Sequence[Fractions]) -> List[answer.Blocks]:
    """One after another. Without fractions the core is never asked to calculate: that shows what it says of the
    book."""
    found = core.ask(replace(question, fractions=()))
    if found.refusal in OF_THE_BOOK:
        raise CallRefused.by(found)
    if not 1 <= len(feeds) <= MOST_FEEDS:
        raise CallRefused(FEEDS)
    if question.task not in TASKS:
        return [answer.read(sealed([answer.KIND_ANSWER, 0, TASK], core.rule), core.rule)] * len(feeds)
    return [core.ask(replace(question, fractions=tuple(feed))) for feed in feeds]
