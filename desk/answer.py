"""The answer and trial blocks (docs/FORMAT.md, "The answer")."""

from dataclasses import dataclass, field
from typing import List, Tuple

from . import refusals
from .blocks import BLOCK, Rule, Words, check_right, float_of, packed, split
from .book import MOST_SOLVENTS, Model
from .errors import DeskError
from .places import NOWHERE, Place
from .tasks import Task

KIND_ANSWER, KIND_TRIAL = 9, 10
TASK, REFUSAL, OUTCOME, TRIALS, NOTES = 1, 2, 3, 12, 13
T, P, BUBBLE, DEW, ITERATIONS, RESIDUAL, BALANCE, VAPOR_FRACTION = 4, 5, 6, 7, 8, 9, 10, 11
LIQUID, VAPOR, ENERGIES, VALIDITY, INFERRED, STABLE, EVALUATIONS = 14, 22, 30, 35, 36, 37, 38
TRIAL_COMPONENT, TRIAL_DISTANCE, TRIAL_ITERATIONS, TRIAL_TRIVIAL, TRIAL_FRACTIONS = 1, 2, 3, 4, 5

LIQUID_ONLY, VAPOR_ONLY, BOTH, PUT_OFF = 1, 2, 3, 4  # the last of a queued question that wasn't run
OUTCOMES = {LIQUID_ONLY: "liquid", VAPOR_ONLY: "vapor", BOTH: "liquid and vapor"}
VALIDITIES = {0: "unassessed", 1: "within the regression intervals", 2: "extrapolated"}
NOTE_WORDS = (
    ("A7-GAMMA-PHI", "NRTL liquid with an ideal-gas vapor"),
    ("A7-SPLIT-AT-SATURATION-BOUNDARY", "the split ended on the saturation boundary, so one phase is given"),
    (
        "A7-LIQUID-TPD-FINITE-TRIALS",
        "the liquid passed the trials from each near-pure start; that is evidence, not proof, that it doesn't split",
    ),
)
WILSON_WORDS = {  # of notes that say something else there
    "A7-GAMMA-PHI": "Wilson liquid with an ideal-gas vapor",
    "A7-LIQUID-TPD-FINITE-TRIALS": (
        "the liquid passed the trials from each near-pure start, as every liquid does by Wilson's equation; they can't "
        "tell whether a real one splits"
    ),
}


@dataclass(frozen=True)
class Blocks:
    """The words of an answer and of its trials; of a refusal where it was said no, and the core's sentence as far as it
    gave one."""

    head: Words
    trials: Tuple[Words, ...]
    place: Place = NOWHERE
    said: str = field(default="", compare=False)

    @property
    def refusal(self) -> int:
        return self.head[REFUSAL]

    @property
    def accepted(self) -> bool:
        return self.refusal == 0

    @property
    def sentence(self) -> str:
        """Of a refusal."""
        return self.said or refusals.sentence(self.refusal, self.place)

    @property
    def put_off(self) -> bool:
        """Of a question in a queue: not run."""
        return self.accepted and self.head[OUTCOME] == PUT_OFF

    def real(self, at: int) -> float:
        return float_of(self.head[at])

    @property
    def content(self) -> bytes:
        """The bytes that they were read from."""
        return b"".join(map(packed, (self.head, *self.trials)))

    def notes(self, model: Model = Model.NRTL) -> List[Tuple[str, str]]:
        """Names and words."""
        others = WILSON_WORDS if model is Model.WILSON else {}
        found = [note for bit, note in enumerate(NOTE_WORDS) if self.head[NOTES] >> bit & 1]
        return [(name, others.get(name, words)) for name, words in found]


def outcome_words(outcome: int) -> str:
    return OUTCOMES.get(outcome, str(outcome))


def phases(task: Task, blocks: Blocks) -> Tuple[bool, bool]:
    """Which of liquid and vapor the answer gives a composition of."""
    outcome = blocks.head[OUTCOME]
    if task.command == "rachford-rice":
        return outcome == BOTH, outcome == BOTH
    return outcome != VAPOR_ONLY, outcome != LIQUID_ONLY


def read(content: bytes, rule: Rule = Rule.PLAIN) -> Blocks:
    """The program's output, taken only if it is whole: one answer block and as many trials as it counts, checked by the
    book's rule."""
    blocks = split(content)
    if not blocks or len(content) % BLOCK or not all(check_right(words, rule) for words in blocks):
        raise DeskError(f"the program still wrote {len(content)} bytes that are no blocks of an answer")
    head, trials = blocks[0], tuple(blocks[1:])
    kinds = [words[0] for words in blocks]
    if kinds != [KIND_ANSWER] + [KIND_TRIAL] * head[TRIALS] or head[TRIALS] > MOST_SOLVENTS:
        raise DeskError("the program still wrote blocks of the wrong kinds")
    return Blocks(head, trials)
