"""The sheet of two layers: at a temperature, or where they boil."""

from dataclasses import dataclass
from typing import Any, Dict, List, Optional, Tuple

from . import charge, jsonsheet, ranges, text, tryreport
from .feed import ByMass, Feed, by_mass
from .layers import Boiling, Layers
from .ranges import Ranges
from .report import drum_rows, mass_tables
from .sheet import NamedBook
from .tried import Tried
from .version import VERSION

COMPOSITIONS = 127  # of a pair that are tried
ASK_ANOTHER = "Whether it splits is a question for a handbook, or for a book by NRTL."
NO_FEED = dict.fromkeys(("feed", "fractions", "fractions_given", "kilograms"))
Lines = List[str]
Fractions = Tuple[float, ...]


@dataclass(frozen=True)
class LayersSheet:
    """What was asked (a drum, or a pair whose heterogeneous azeotrope or solubilities are wanted) and what was found.
    `drum` are mole fractions, `feed` is the drum as it was given.

    `layers` is None for a drum of one layer, and where nothing can be shown, which `reason` then says."""

    book: NamedBook
    drum: Fractions
    pair: Optional[Tuple[int, int]]
    kelvin: Optional[float]
    pascals: Optional[float]
    label: str
    date: str
    feed: Feed
    layers: Optional[Layers] = None
    boiling: Optional[Boiling] = None
    reason: str = ""  # no layers can be shown
    no_boiling: str = ""  # layers, but no vapor over them can be shown
    one_layer_at: Optional[float] = None  # boiling point (K) of a drum in one layer
    boils_at: Optional[float] = None  # boiling point (K) at the pressure asked, where a temperature was asked too
    ranges: Optional[Ranges] = None
    tried: Optional[Tried] = None  # then `book` is the copy that holds the pair

    @property
    def is_pair(self) -> bool:
        return self.pair is not None

    @property
    def present(self) -> List[int]:
        """In the book's order, of a pair in the order asked."""
        return list(self.pair) if self.pair else [i for i, x in enumerate(self.feed.fractions) if x != 0]

    @property
    def by_mass(self) -> Optional[ByMass]:
        """None too where nothing can be shown."""
        return None if self.reason else by_mass(self.book.molar_masses, self.feed)

    def heteroazeotrope(self) -> Optional[bool]:
        """Whether a pair's vapor lies between its layers, so that it boils to the end with one vapor."""
        if len(self.present) != 2 or self.boiling is None:
            return None
        place = self.present[0]
        low, high = sorted((self.boiling.layers.first[place], self.boiling.layers.second[place]))
        return low <= self.boiling.vapor[place] <= high


def render(sheet: LayersSheet, details: bool = False) -> str:
    lines = _head(sheet, details) + [text.RULE] + tryreport.stars(sheet.tried)
    if sheet.reason:
        lines += text.marked("NO LAYERS CAN BE SHOWN") + text.wrapped(f"{sheet.reason[0].upper()}{sheet.reason[1:]}.")
        return "\n".join(lines) + "\n"
    if sheet.ranges and sheet.ranges.line():
        lines += text.wrapped(sheet.ranges.line(), indent="") + [""]
    lines += _one_layer(sheet, details) if sheet.layers is None else _layers(sheet, sheet.layers, details)
    found = ranges.table(sheet.ranges) if sheet.ranges else []
    return "\n".join(lines + ([""] + found if found else []) + tryreport.tables(sheet.tried, details)) + "\n"


def _head(sheet: LayersSheet, details: bool) -> Lines:
    def listed(values: Fractions, unit: str = "") -> str:
        written = text.exact if details else text.plain
        return ", ".join(f"{sheet.book.names[i]} {written(values[i])}{unit}" for i in sheet.present)

    rows = [("Label", sheet.label)] if sheet.label else []
    rows += [("Date", sheet.date), *tryreport.book_rows(sheet.book, sheet.tried, details)]
    if sheet.is_pair:
        rows.append(("Pair", " and ".join(sheet.book.names[i] for i in sheet.present)))
    else:
        rows += drum_rows(sheet.feed, sheet.by_mass, listed)
    absent = [name for name, x in zip(sheet.book.names, sheet.feed.fractions) if x == 0]
    rows += [("Absent", ", ".join(absent))] if absent else []
    if sheet.kelvin is not None:
        rows.append(("T asked", text.temperature(sheet.kelvin, details)))
    if sheet.pascals is not None:
        rows.append(("p asked", text.pressure(sheet.pascals, details)))
    lines = [tryreport.title("LAYERS: the two liquids that a drum splits in, and where they boil", sheet.tried)]
    lines += text.fields(rows)
    return lines + (charge.table(sheet.feed, sheet.book.names, details) if sheet.feed.charge else [])


def _one_layer(sheet: LayersSheet, details: bool) -> Lines:
    verdict = f"  one liquid layer: {sheet.book.one_layer_words(sheet.present)}"
    shows = sheet.book.shows_layers(sheet.present)
    other = [] if shows else text.wrapped(ASK_ANOTHER)
    if sheet.is_pair:
        tried = f", at each of the {COMPOSITIONS} compositions tried" if shows else ""
        return [f"{verdict}{tried}"] + other
    rows = (
        [("it boils as one liquid at", text.temperature(sheet.one_layer_at, details))]
        if sheet.one_layer_at is not None
        else []
    )
    rows += _also_rows(sheet, details)
    return [verdict] + (text.fields(rows) if rows else []) + other


def _also_rows(sheet: LayersSheet, details: bool) -> List[Tuple[str, str]]:
    if sheet.boils_at is None:
        return []
    return [("at the pressure asked it boils at", text.temperature(sheet.boils_at, details))]


def _layers(sheet: LayersSheet, layers: Layers, details: bool) -> Lines:
    boiling = sheet.boiling
    rows = _boiling_rows(sheet, boiling, details) if boiling else []
    rows += _also_rows(sheet, details)
    lines = (
        ["  one liquid layer: NO, two", *(text.fields(rows) if rows else []), ""]
        + _compositions(sheet, layers, details)
    )
    lines += (
        [""]
        + text.wrapped(
            "By the core the activities of the two layers are equal: ln a differs by "
            f"{text.rounding(layers.difference)} "
            "at most. "
            "Each layer passes the core's trials."
        )
    )
    if boiling:
        lines += text.wrapped(
            "The pressure and the vapor are from these activities and the core's vapor pressures of the pure solvents."
        )
    if boiling and details and sheet.kelvin is None:
        lines += text.wrapped(f"ln p differs from the pressure asked by {text.rounding(boiling.mismatch)}.")
    if sheet.no_boiling:
        lines += text.wrapped(f"The vapor over them can't be shown: {sheet.no_boiling}.")
    return lines


def _boiling_rows(sheet: LayersSheet, boiling: Boiling, details: bool) -> List[Tuple[str, str]]:
    where = (
        text.temperature(boiling.layers.kelvin, details)
        if sheet.kelvin is None
        else text.pressure(boiling.pascals, details)
    )
    rows = [("the layers boil at", where)]
    names = {True: "yes: the vapor lies between the layers", False: "no: the vapor doesn't lie between the layers"}
    azeotrope = sheet.heteroazeotrope()
    return rows + ([("heterogeneous azeotrope", names[azeotrope])] if azeotrope is not None else [])


def _compositions(sheet: LayersSheet, layers: Layers, details: bool) -> Lines:
    columns: List[Tuple[str, Fractions]] = [] if sheet.is_pair else [(sheet.feed.called, sheet.drum)]
    columns += [("layer 1", layers.first), ("layer 2", layers.second)]
    columns += [("first bubble", sheet.boiling.vapor)] if sheet.boiling else []
    rows = []
    whole = sheet.feed.called
    amounts = {} if sheet.is_pair else {whole: 1.0, "layer 1": 1 - layers.amount, "layer 2": layers.amount}
    if amounts:
        rows.append(
            [f"moles per mole of {whole}"]
            + [text.fraction(amounts[name], details) if name in amounts else "" for name, _ in columns]
        )
    rows += [
        [sheet.book.names[i]] + [text.fraction(values[i], details) for _, values in columns] for i in sheet.present
    ]
    lines = text.table(["mole fractions"] + [name for name, _ in columns], rows)
    names = [sheet.book.names[i] for i in sheet.present]
    return lines + mass_tables(sheet.by_mass, sheet.feed, columns, amounts, sheet.present, names, details)


def document(sheet: LayersSheet, details: bool = False) -> Dict[str, Any]:
    numbers = jsonsheet.Numbers(sheet.book.names, sheet.present, details)
    return {
        "command": "layers",
        "version": VERSION,
        "date": sheet.date,
        "label": sheet.label or None,
        **({"preview": jsonsheet.preview_document(sheet.tried, details, own=False)} if sheet.tried else {}),
        "book": jsonsheet.book_document(sheet.tried.book if sheet.tried else sheet.book, details),
        "question": {
            "pair": [sheet.book.names[i] for i in sheet.present] if sheet.is_pair else None,
            **(NO_FEED if sheet.is_pair else jsonsheet.feed_document(sheet.feed, numbers)),
            "temperature_K": numbers.number(sheet.kelvin),
            "pressure_Pa": numbers.number(sheet.pascals),
        },
        "one_liquid_layer": None if sheet.reason else sheet.book.one_layer(sheet.layers is None, sheet.present),
        "warning": {
            "kind": "not shown", "line": "NO LAYERS CAN BE SHOWN", "advice": [sheet.reason]
        } if sheet.reason else None,
        "boiling_point_of_one_layer_K": numbers.number(sheet.one_layer_at),
        "boiling_point_at_the_pressure_asked_K": numbers.number(sheet.boils_at),
        "layers": _layers_document(sheet, sheet.layers, numbers) if sheet.layers else None,
        "boiling": _boiling_document(sheet, sheet.boiling, numbers) if sheet.boiling else None,
        "by_mass": _mass_document(sheet, sheet.by_mass, numbers) if sheet.by_mass else None,
        "pairs": jsonsheet.pairs_document(sheet.ranges),
    }


def _mass_document(sheet: LayersSheet, mass: ByMass, numbers: jsonsheet.Numbers) -> Dict[str, Any]:
    layers, phases, amounts = sheet.layers, dict.fromkeys(("layer_1", "layer_2", "vapor")), {}
    if layers:
        phases.update(layer_1=layers.first, layer_2=layers.second, vapor=sheet.boiling.vapor if sheet.boiling else None)
        amounts = {"layer_1": 1 - layers.amount, "layer_2": layers.amount}
    return jsonsheet.mass_document(mass, sheet.feed, phases, amounts, numbers)


def _layers_document(sheet: LayersSheet, layers: Layers, numbers: jsonsheet.Numbers) -> Dict[str, Any]:
    amounts = (None, None) if sheet.is_pair else (1 - layers.amount, layers.amount)
    listed = [
        {"amount": numbers.number(amount), "fractions": numbers.by_name(x)}
        for amount, x in zip(amounts, (layers.first, layers.second))
    ]
    return {
        "temperature_K": numbers.number(layers.kelvin),
        "largest_ln_activity_difference": numbers.number(layers.difference),
        "each": listed,
    }


def _boiling_document(sheet: LayersSheet, boiling: Boiling, numbers: jsonsheet.Numbers) -> Dict[str, Any]:
    return {
        "temperature_K": numbers.number(boiling.layers.kelvin),
        "pressure_Pa": numbers.number(boiling.pascals),
        "vapor": numbers.by_name(boiling.vapor),
        "heterogeneous_azeotrope": sheet.heteroazeotrope(),
    }
