"""The sheet as JSON. Plain numbers, and the solvents of the drum alone; with --details every float with its value and
its exact bits (16 hex digits), and every solvent of the book. A value that isn't finite is null, since JSON has no word
for it."""

import json
import math
from typing import Any, Callable, Dict, Iterable, List, Optional, Sequence

from . import answer, charge, explain, places, refusals, units
from .blocks import bits_of, float_of, floats_at
from .feed import ByMass, Feed
from .judgement import Mark
from .question import Options
from .ranges import Ranges
from .report import phase_amounts
from .sheet import NamedBook, Sheet
from .tried import Tried, value_of
from .version import VERSION

ENERGIES = (
    "reduced_excess_gibbs",
    "excess_gibbs_J_per_mol",
    "excess_enthalpy_J_per_mol",
    "excess_entropy_J_per_mol_K",
    "excess_heat_capacity_J_per_mol_K",
)
FLOATS = (
    ("temperature_K", answer.T),
    ("pressure_Pa", answer.P),
    ("bubble_pressure_Pa", answer.BUBBLE),
    ("dew_pressure_Pa", answer.DEW),
    ("residual", answer.RESIDUAL),
    ("balance", answer.BALANCE),
    ("vapor_fraction", answer.VAPOR_FRACTION),
)
_SATURATION = {"temperature_K", "pressure_Pa", "iterations", "residual", "liquid"}
_SPLIT = {"outcome", "iterations", "residual", "vapor_fraction", "liquid"}
FIELDS = {
    "excess": {"temperature_K"},
    "bubble-pressure": _SATURATION,
    "dew-pressure": _SATURATION,
    "bubble-temperature": _SATURATION,
    "dew-temperature": _SATURATION,
    "stability": set(),
    "flash": _SATURATION | _SPLIT | {"bubble_pressure_Pa", "dew_pressure_Pa", "balance"},
    "rachford-rice": _SPLIT,
    "rachford-rice-negative": _SPLIT,
}


class Numbers:
    """Floats and solvents by name, in the plain form or with bits."""

    def __init__(self, names: Sequence[str], present: Sequence[int], details: bool):
        self.names, self.details = names, details
        self.places = range(len(names)) if details else present

    def number(self, value: Optional[float]) -> Any:
        if value is None:
            return None
        finite = value if math.isfinite(value) else None
        return {"value": finite, "bits": f"{bits_of(value):016x}"} if self.details else finite

    def by_name(self, values: Sequence[float]) -> Dict[str, Any]:
        return {self.names[i]: self.number(values[i]) for i in self.places}


def render(sheet: Sheet, details: bool = False) -> str:
    return dumped(document(sheet, details))


def dumped(document: Dict[str, Any]) -> str:
    return json.dumps(document, indent=2, ensure_ascii=False, allow_nan=False) + "\n"


def document(sheet: Sheet, details: bool = False) -> Dict[str, Any]:
    return Document(sheet, details).whole()


class Document:
    def __init__(self, sheet: Sheet, details: bool):
        self.sheet, self.details = sheet, details
        self.numbers = Numbers(sheet.book.names, sheet.present(), details)

    def whole(self) -> Dict[str, Any]:
        sheet, judgement = self.sheet, self.sheet.judgement
        number, task = sheet.blocks.refusal, sheet.question.task
        return {
            "command": task.command,
            "task": task.number,
            "version": VERSION,
            "date": sheet.date,
            "label": sheet.label or None,
            **({"preview": preview_document(sheet.tried, self.details)} if sheet.tried else {}),
            "book": book_document(sheet.tried.book if sheet.tried else sheet.book, self.details),
            "question": self._question(),
            "warning": mark_document(judgement.mark),
            "one_liquid_layer": sheet.book.one_layer(judgement.one_layer, sheet.present()),
            "refusal": self._refusal(number) if number else None,
            "answer": None if number else self._answer(),
            "by_mass": self._by_mass() if sheet.by_mass else None,
            "pairs": pairs_document(sheet.ranges),
        }

    def _refusal(self, number: int) -> Dict[str, Any]:
        return {
            "number": number,
            "matter": refusals.matter(number),
            "place": self._place(),
            "sentence": self.sheet.blocks.sentence,
            "detail": explain.detail(self.sheet) or None,
            "advice": explain.advice(self.sheet),
        }

    def _place(self) -> Optional[Dict[str, Any]]:
        """Where the book said no, and whose that is."""
        place, tried = self.sheet.blocks.place, self.sheet.tried
        if place == places.NOWHERE:
            return None
        return {
            "block": place.first if place.kind == places.A_BLOCK else None,
            "solvents": [place.first, place.second] if place.kind == places.A_PAIR else None,
            "offered": place == places.OFFERED,
            "names": list(places.names_in(place, self.sheet.book.names, tried.names if tried else None)),
        }

    def _question(self) -> Dict[str, Any]:
        question, number = self.sheet.question, self.numbers.number
        return {
            "temperature_K": number(question.temperature),
            "pressure_Pa": number(question.pressure),
            **feed_document(self.sheet.feed, self.numbers),
            "k_values": self.numbers.by_name(question.k_values) if question.k_values else None,
            **options_document(question.options, number),
        }

    def _by_mass(self) -> Dict[str, Any]:
        """Of a refusal the drum alone."""
        sheet = self.sheet
        amounts = {} if sheet.blocks.refusal else dict(phase_amounts(sheet))
        there = (False, False)
        if sheet.blocks.accepted and "liquid" in FIELDS[sheet.question.task.command]:
            there = answer.phases(sheet.question.task, sheet.blocks)
        entries = (("liquid", answer.LIQUID), ("vapor", answer.VAPOR))
        phases = {name: sheet.entries(at) if here else None for (name, at), here in zip(entries, there)}
        return mass_document(sheet.by_mass, sheet.feed, phases, amounts, self.numbers)

    def _answer(self) -> Dict[str, Any]:
        """The words that belong to the task; a phase that isn't there is null."""
        blocks, command = self.sheet.blocks, self.sheet.question.task.command
        fields: Dict[str, Any] = {
            name: self.numbers.number(blocks.real(at)) for name, at in FLOATS if name in FIELDS[command]
        }
        if "outcome" in FIELDS[command]:
            fields["outcome"] = answer.OUTCOMES.get(blocks.head[answer.OUTCOME])
        if "iterations" in FIELDS[command]:
            fields["iterations"] = blocks.head[answer.ITERATIONS]
        if command == "excess":
            fields.update(self._excess())
        if "liquid" in FIELDS[command]:
            fields.update(self._phases())
        if command in ("stability", "flash"):
            fields["stable"] = (
                bool(blocks.head[answer.STABLE]) if blocks.head[answer.OUTCOME] != answer.VAPOR_ONLY else None
            )
            fields["trials"] = [self._trial(words) for words in blocks.trials]
        if command == "flash":
            fields["evaluations"] = blocks.head[answer.EVALUATIONS]
            book, judgement, present = self.sheet.book, self.sheet.judgement, self.sheet.present()
            fields["bubble_of_a_stable_liquid"] = book.one_layer(judgement.bubble_holds, present)
            fields["dew_of_a_stable_liquid"] = book.one_layer(judgement.dew_holds, present)
            fields["notes"] = [{"name": name, "words": words} for name, words in blocks.notes(self.sheet.book.model)]
        return fields

    def _phases(self) -> Dict[str, Any]:
        liquid, vapor = answer.phases(self.sheet.question.task, self.sheet.blocks)
        return {
            "liquid": self.numbers.by_name(self.sheet.entries(answer.LIQUID)) if liquid else None,
            "vapor": self.numbers.by_name(self.sheet.entries(answer.VAPOR)) if vapor else None,
        }

    def _excess(self) -> Dict[str, Any]:
        head = self.sheet.blocks.head
        energies = zip(ENERGIES, floats_at(head, answer.ENERGIES, len(ENERGIES)))
        return {
            "ln_gamma": self.numbers.by_name(self.sheet.entries(answer.LIQUID)),
            "d_ln_gamma_dT_per_K": self.numbers.by_name(self.sheet.entries(answer.VAPOR)),
            **{name: self.numbers.number(value) for name, value in energies},
            "validity": answer.VALIDITIES.get(head[answer.VALIDITY]),
            "inferred": bool(head[answer.INFERRED]),
        }

    def _trial(self, words) -> Dict[str, Any]:
        return {
            "from": self.sheet.book.names[words[answer.TRIAL_COMPONENT]],
            "distance": self.numbers.number(float_of(words[answer.TRIAL_DISTANCE])),
            "iterations": words[answer.TRIAL_ITERATIONS],
            "trivial": bool(words[answer.TRIAL_TRIVIAL]),
            "stopped_at": self.numbers.by_name(floats_at(words, answer.TRIAL_FRACTIONS, len(self.sheet.book.names))),
        }


def mark_document(mark: Optional[Mark]) -> Optional[Dict[str, Any]]:
    return {"kind": mark.kind, "line": mark.line, "advice": list(mark.advice)} if mark else None


def preview_document(tried: Tried, details: bool, own: bool = True) -> Dict[str, Any]:
    """Of the pair that is tried the words that differ from the book's; with `own` also what the book itself says to the
    same question."""
    numbers = Numbers(tried.book.names, (), details)
    found: Dict[str, Any] = {
        "pair": list(tried.names) if tried.names else None,
        "source": tried.offered.source,
        "refused": tried.refusal or None,
        "words": _words_document(tried, numbers) if tried.places and not tried.refusal else None,
    }
    if own:
        names = ("warning", "one_liquid_layer", "refusal", "answer")
        whole = document(tried.own, details) if tried.own else {}
        found["by_the_book"] = {name: whole[name] for name in names} if whole else None
    return found


def _words_document(tried: Tried, numbers: Numbers) -> Dict[str, Any]:
    own, offered = tried.words()

    def written(value: Any) -> Any:
        return value if isinstance(value, bool) else numbers.number(value)

    return {
        word.name: {"in_the_book": written(value_of(own, word)), "as_tried": written(value_of(offered, word))}
        for word in tried.differing()
    }


def options_document(options: Options, number: Callable[[float], Any]) -> Dict[str, Any]:
    return {
        "max_iterations": options.max_iterations,
        "tolerance": number(options.tolerance),
        "max_temperature_iterations": options.max_temperature_iterations,
        "energy_tolerance": number(options.energy_tolerance),
        "tm_threshold": number(options.tm_threshold),
        "bracket_K": [number(end) for end in options.bracket],
    }


def feed_document(feed: Feed, numbers: Numbers) -> Dict[str, Any]:
    """What goes to the core, and what that comes from; `pool` is there where drums were pooled, and of drums that the
    core refuses nothing else."""
    found = {
        "feed": "mass" if feed.by_mass else "moles",
        "fractions": numbers.by_name(feed.fractions),
        "fractions_given": numbers.by_name(feed.given) if feed.given else None,
        "kilograms": numbers.by_name(feed.kilograms) if feed.kilograms and not feed.charge else None,
    }
    if not feed.charge:
        return found
    found["fractions"] = None if feed.charge.refusal else found["fractions"]
    return {**found, "pool": charge.document(feed, numbers)}


def mass_document(
    mass: ByMass,
    feed: Feed,
    phases: Dict[str, Optional[Sequence[float]]],
    amounts: Dict[str, float],
    numbers: Numbers,
) -> Dict[str, Any]:
    """Not the core's: the drum's mole fractions, and mass fractions and kg of the phases."""

    def phase(name: str, moles: Sequence[float]) -> Dict[str, Any]:
        weighed = feed.kilograms and name in amounts
        return {
            "mass_fractions": numbers.by_name(mass.fractions(moles)),
            "kilograms": numbers.by_name(mass.kilograms(moles, amounts[name])) if weighed else None,
        }

    return {
        "reckoned_by": feed.reckoned,
        "molar_masses_kg_per_mol": numbers.by_name(mass.masses),
        "drum_mole_fractions": numbers.by_name(mass.moles),
        **{name: phase(name, moles) if moles is not None else None for name, moles in phases.items()},
    }


def book_document(book: NamedBook, details: bool) -> Dict[str, Any]:
    """How many solvents it has; which ones with --details alone."""
    return {
        "file": book.file,
        "sha256": book.checksum,
        "model": book.model.title if book.model else None,
        "solvents": list(_solvents(book)) if details else len(book.names),
    }


def _solvents(book: NamedBook) -> Iterable[Dict[str, str]]:
    return ({"name": name, "cas": units.cas_text(cas)} for name, cas in zip(book.names, book.cas))


def pairs_document(ranges: Optional[Ranges]) -> Optional[Dict[str, Any]]:
    """The core's verdict on the drum's pairs at the sheet's temperature, and the pairs that are out of range, inferred
    or ideal."""
    if ranges is None:
        return None
    listed: List[Dict[str, Any]] = [
        {
            "pair": list(remark.names),
            "interval_K": [remark.interval.low, remark.interval.high] if remark.interval else None,
            "outside": remark.outside,
            "inferred": remark.inferred,
            "estimated_as_ideal": remark.ideal,
        }
        for remark in ranges.remarks
    ]
    validity = answer.VALIDITIES.get(ranges.validity) if ranges.validity is not None else None
    return {
        "temperature_K": ranges.kelvin,
        "outside_the_model": ranges.outside_model,
        "validity": validity,
        "inferred": ranges.inferred,
        "remarks": listed,
    }
