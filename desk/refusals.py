"""The refusal numbers of docs/FORMAT.md: the matter of each as the core says it (crates/sentences/specs/Sentence.antt),
and what the desk can do about it. A new number is one entry."""

from dataclasses import dataclass, field
from typing import Dict

from .places import NOWHERE, Place

MAKE_AGAIN = "make it again with ./sheet book"
LOOK_AT_LIMITS = "look at --max-iterations and --max-temperature-iterations"
HIGHER = "raise --max-iterations and, for a temperature, --max-temperature-iterations, or --tolerance a little"
KEPT = "A higher limit can't change any accepted sheet"  # a law of the core


@dataclass(frozen=True)
class Refusal:
    matter: str
    advice: str
    by_command: Dict[str, str] = field(default_factory=dict)  # other advice for some commands


REFUSALS: Dict[int, Refusal] = {
    1: Refusal(
        "there are no whole blocks of 512 bytes where a book, one offered block or an answer is due", MAKE_AGAIN
    ),
    2: Refusal(
        "a check word is wrong: words were changed or, in a book of version 3, exchanged",
        f"the file was damaged; {MAKE_AGAIN}, in version 3, since versions 1 and 2 don't show two exchanged words",
    ),
    3: Refusal(
        "the head of the book is wrong: kind 1, 1 to 8 solvents, and as many blocks as these need", MAKE_AGAIN
    ),
    4: Refusal("a solvent's kind, place, CAS number or count of terms is wrong", MAKE_AGAIN),
    5: Refusal(
        "a solvent's correlation is not finite, not 0 < low <= high < t_r, or has a reducing value not above 0",
        "correct that solvent in the yard text",
    ),
    6: Refusal("two solvents of the book have one CAS number", "correct the CAS numbers in the yard text"),
    7: Refusal("a pair's kind, its two places or a flag is wrong", MAKE_AGAIN),
    8: Refusal("a pair has a number that is not finite", "correct that pair in the yard text"),
    9: Refusal("a pair's two alphas are not equal", "correct that pair; the yard text has one alpha for both"),
    10: Refusal(
        "too little room is lent: 4,608 bytes for each answer, 22 words for the floor, 160 bytes for a sentence",
        "this can't come from the program still; its caller has to lend more",
    ),
    11: Refusal(
        "the question is not one block of 512 bytes with kind 8 and the right check word",
        "this can't come from ./sheet; look at what wrote the question, whose check goes by the book's version",
    ),
    12: Refusal(
        "the task is not one that this call answers",
        "ask one of the nine commands; many feeds go to excess, bubble-pressure, dew-pressure, stability and flash, a "
        "distance is asked of a flash",
    ),
    13: Refusal("the temperature is not finite and positive", "give a temperature above 0 K"),
    14: Refusal("the pressure is not finite and positive", "give a pressure above 0 Pa"),
    15: Refusal(
        "a fraction or a K value is not finite",
        "look at --drum, --mass and --k; inside a calculation: a trial's composition overflowed",
    ),
    16: Refusal("a fraction is negative", "look at --drum or --mass"),
    17: Refusal("a K value is not positive", "look at --k"),
    18: Refusal(
        "the fractions don't sum to 1 within 1e-10",
        "look at --drum or --mass, or add --normalize; inside a calculation: a trial's composition doesn't sum to 1",
    ),
    19: Refusal(
        "a tolerance, the trial threshold or the temperature bracket is out of its range",
        "look at --tolerance and --energy-tolerance (above 0, up to 1e-6), --threshold (negative) and --bracket (in "
        "order, within 273.16 to 450 K)",
    ),
    20: Refusal("an iteration limit is 0", LOOK_AT_LIMITS),
    21: Refusal("an iteration limit is above 1,000,000", LOOK_AT_LIMITS),
    22: Refusal(
        "a temperature lies outside 273.16 to 450 K or the range of a solvent of the book, in the drum or not",
        "stay inside the ranges, or narrow --bracket; ./sheet show lists the ranges",
    ),
    23: Refusal(
        "a pressure, given or found, lies outside 100 to 500,000 Pa",
        "give a pressure of 100 to 500,000 Pa: the model holds for low pressures alone",
    ),
    24: Refusal("an NRTL alpha is not positive at this temperature", "correct the pair's alpha in the yard text"),
    25: Refusal(
        "a result is not finite, or not positive where it must be",
        "the data of a solvent or pair are extreme; look at them",
    ),
    26: Refusal("the bracket holds no root: the point lies outside it", "widen --bracket, or change the pressure"),
    27: Refusal(
        "not converged within the iteration limit, or the bracket collapsed",
        f"where the drum's liquid is one layer: {HIGHER}; ask ./sheet layers whether it is. {KEPT}",
        {command: f"raise --max-iterations. {KEPT}" for command in ("rachford-rice", "rachford-rice-negative")},
    ),
    28: Refusal(
        "the K values of the solvents present lie on one side of 1",
        "no split exists; rachford-rice answers with the single phase",
        {
            "flash": (
                "the core's steps left the two-phase region: the drum is close to its bubble or dew point; move T or "
                "p a little"
            )
        },
    ),
    29: Refusal(
        "the liquid didn't pass its trials: it splits in two liquids, which this core doesn't calculate",
        "ask ./sheet layers for the two liquids",
    ),
    30: Refusal(
        "the split's vapor fraction lies outside (0, 1)", "the drum is at its bubble or dew point; move T or p a little"
    ),
    31: Refusal(
        "there are not 1 to 64 whole drums to pool",
        "give two drums of one kind as one, with the sum of their amounts, until 64 are left",
    ),
    32: Refusal(
        "the drums hold nothing at all, or more than 2^53 micromoles",
        "look at the amounts and units of each --drum; 2^53 micromoles are about 9,007,199,255 mol",
    ),
    33: Refusal(
        "there are not 1 to 64 whole feeds in one call",
        "this can't come from ./sheet, which sends up to 64 at a time; its caller has to send the rest in another call",
    ),
    34: Refusal(
        "a composition inside the calculation, or a drum by mass, can't be brought to fractions that sum to 1",
        "the drum is not to blame: vapor pressures or activity coefficients are so extreme that all parts vanish or "
        "overflow, or a molar mass is far too small; look at the data of its solvents and pairs with ./sheet show",
    ),
    35: Refusal(
        "a solvent's molar mass is not finite and positive", "correct it in the yard text, and make the book again"
    ),
    36: Refusal(
        "the fractions are by neither moles nor mass, or by mass with no molar masses in the book or with drums pooled",
        "add 'molar mass = ... g/mol' to every solvent of the yard text and make the book again, or ask by moles",
    ),
    37: Refusal(
        "the book's model is neither NRTL nor, from version 2 on, Wilson",
        f"{MAKE_AGAIN}, from a text with 'model = wilson' and the molar mass of every solvent, or from one without a "
        "model, which is NRTL",
    ),
    38: Refusal(
        "the book's version is none of 1 to 3",
        f"it is not a book that this desk knows, or its first block is damaged: {MAKE_AGAIN}; a newer desk makes one "
        "for this one with --book-version 3",
    ),
    39: Refusal(
        "there are not 1 to 64 whole questions in the queue, or one of them is not a flash",
        "this can't come from ./sheet, which queues up to 64 flashes at a time; its caller has to send the rest in "
        "another call, and other tasks by themselves",
    ),
}

OFFERED: Dict[int, str] = {  # advice where the offered block, a pair that is tried, said no
    1: "look at what wrote the file; a pair is also tried as a text, with its section of a yard text",
    2: "the block was damaged, or sealed for a book of another version",
    7: (
        "look at words 0 to 2, 15 and 18 of the block: kind 3, two solvents of the book with i < j, and two flags of 0 "
        "or 1"
    ),
    8: "look at what wrote the block",
    9: "give one alpha for both directions",
}

UNKNOWN = Refusal("a number that this tool doesn't know", "look into docs/FORMAT.md of the core's version")


def numbers() -> str:
    """All of them in a row."""
    known = sorted(REFUSALS)
    firsts = [number for number in known if number - 1 not in REFUSALS]
    lasts = [number for number in known if number + 1 not in REFUSALS]
    *all_but_one, last = [f"{a} to {b}" if a < b else f"{a}" for a, b in zip(firsts, lasts)]
    return f"{', '.join(all_but_one)} and {last}" if all_but_one else last


def matter(number: int) -> str:
    return REFUSALS.get(number, UNKNOWN).matter


def advice(number: int, command: str = "") -> str:
    refusal = REFUSALS.get(number, UNKNOWN)
    return refusal.by_command.get(command, refusal.advice)


def sentence(number: int, place: Place = NOWHERE) -> str:
    """As the core composes it."""
    return f"{number}: {matter(number)}{f' ({place.words})' if place.words else ''}."


def line(number: int, place: Place = NOWHERE, said: str = "") -> str:
    """A sentence, the core's where it gave one, without its end mark: more can follow."""
    return f"refused, number {(said or sentence(number, place))[:-1]}"
