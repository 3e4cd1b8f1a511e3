"""The yard text: a book that people read and write, with names and sources.

    # everything after a number sign is a comment
    [solvent ethanol]
    cas            = 64-17-5
    molar mass     = 46.06844 g/mol        for drums by mass; a book has that of every solvent or of none
    vapor t_r      = 514.71 K
    vapor reducing = 6268 kPa
    vapor range    = 273.16 K to 510 K
    vapor term     = -8.69441 : 1          n : exponent, one line for each of 1 to 8 terms
    density range  = 273.16 K to 510 K     if left out, the vapor pressure's range

    [pair ethanol water]
    tau ethanol water = t0 0, t1 -57.9601 cal/mol, t2 0, t3 0
    tau water ethanol = t1 1241.7396 cal/mol
    alpha             = 0.2937
    interval          = 298.15 K to 373.15 K
    inferred          = yes

With 'model = wilson' before the first heading a pair has other parameters in place of tau and alpha:

    wilson ethanol water = a -1.2, b -160 K
    wilson water ethanol = energy 953.2792 cal/mol

docs/GUIDE.md has the whole list of keys. A name is written without blanks. Solvents have the places in which they
stand; pairs may stand in any order."""

import re
from dataclasses import replace
from fractions import Fraction
from typing import Callable, Dict, List, Optional, Tuple

from . import parameters, units
from .book import (
    MOST_SOLVENTS, MOST_TERMS, AnyPair, Book, Correlation, Interval, Model, Pair, Solvent, WilsonPair, due_pairs
)
from .errors import DeskError, quoted, suggestion
from .sections import Entry, Section, sections_of
from .yard import BoilingCheck, MixtureCheck, SolubilityCheck, Yard

MODELS = {model.title.lower(): model for model in Model}
PARAMETERS = {Model.NRTL: ("tau", "alpha"), Model.WILSON: ("wilson",)}  # first words of a pair's keys
NAME = re.compile(r"[^\W_][\w.+()'-]*")
SEPARATOR = " to "


def parse(text: str) -> Yard:
    before, sections = sections_of(text)
    model = _model(before)
    solvents = [section for section in sections if section.kind == "solvent"]
    if not 1 <= len(solvents) <= MOST_SOLVENTS:
        raise DeskError(f"it has {len(solvents)} solvents, and 1 to {MOST_SOLVENTS} are due")
    names = _distinct_names(solvents)
    yard = Yard(names, Book((), (), model))
    records = tuple(_solvent(section, yard) for section in solvents)
    _distinct_cas(names, records)
    pairs = _pairs([section for section in sections if section.kind == "pair"], yard)
    found = replace(yard, book=Book(records, pairs, model))
    if model is Model.WILSON and found.lacking:
        raise DeskError(
            "a Wilson book has the molar mass of every solvent: add 'molar mass = ... g/mol' to "
            + ", ".join(f"[solvent {name}]" for name in found.lacking)
        )
    return found


def _model(before: List[Entry]) -> Model:
    """Before the first heading; NRTL where nothing is said."""
    if not before:
        return Model.NRTL
    if len(before) > 1:
        raise DeskError(f"line {before[1][2]}: 'model' stands there twice")
    _, name, line = before[0]
    if name.lower() not in MODELS:
        raise DeskError(f"line {line}: model {quoted(name)} is none of {', '.join(MODELS)}{suggestion(name, MODELS)}")
    return MODELS[name.lower()]


def _distinct_names(solvents: List[Section]) -> Tuple[str, ...]:
    names: List[str] = []
    for section in solvents:
        name = section.names[0]
        if not NAME.fullmatch(name) or re.fullmatch(r"[\d-]+", name):
            raise DeskError(
                f"line {section.line}: {quoted(name)} can't be a name (letters, digits and . + - ( ) ' without blanks)"
            )
        if name.lower() in (other.lower() for other in names):
            raise DeskError(f"line {section.line}: solvent {name} stands there twice")
        names.append(name)
    return tuple(names)


def _distinct_cas(names: Tuple[str, ...], solvents: Tuple[Solvent, ...]) -> None:
    seen: Dict[int, str] = {}
    for name, solvent in zip(names, solvents):
        if solvent.cas == 0:
            raise DeskError(f"[solvent {name}]: the CAS number is 0")
        if solvent.cas in seen:
            raise DeskError(f"{seen[solvent.cas]} and {name} have one CAS number, {units.cas_text(solvent.cas)}")
        seen[solvent.cas] = name


def _solvent(section: Section, yard: Yard) -> Solvent:
    name = section.names[0]
    with_place = f"[{section.title}]"
    cas = units.cas_number(section.take("cas"))
    mass, volume = section.optional("molar mass"), section.optional("molar volume")
    if volume:
        yard.volumes[name] = units.molar_volume(volume, f"{with_place} molar volume")
    vapor = _correlation(section, "vapor", units.pressure)
    density = _density(section, vapor)
    _note_source(section, yard, (name,))
    known = section.optional("boiling point")
    if known:
        yard.boiling[name] = _boiling_check(known, with_place)
    section.finish()
    return Solvent(cas, vapor, density, units.molar_mass(mass, f"{with_place} molar mass") if mass else None)


def _correlation(section: Section, record: str, reducing: Callable[[str, str], float]) -> Correlation:
    what = f"[{section.title}] {record}"
    t_r = units.temperature(section.take(f"{record} t_r"), f"{what} t_r")
    value = reducing(section.take(f"{record} reducing"), f"{what} reducing")
    low, high = _range(section.take(f"{record} range"), f"{what} range")
    terms = tuple(_term(text, f"{what} term") for text in section.take_all(f"{record} term"))
    if not 1 <= len(terms) <= MOST_TERMS:
        raise DeskError(f"{what} has {len(terms)} terms, and 1 to {MOST_TERMS} are due")
    return _checked(Correlation(t_r, value, low, high, terms), what)


def _density(section: Section, vapor: Correlation) -> Correlation:
    """The whole record, or its range alone: the core uses nothing else of it."""
    if any(key.startswith("density") and key != "density range" for key, _, _ in section.entries):
        return _correlation(section, "density", _density_value)
    what = f"[{section.title}] density"
    text = section.optional("density range")
    low, high = _range(text, f"{what} range") if text else (vapor.low, vapor.high)
    return _checked(Correlation(vapor.t_r, 1.0, low, high, ((1.0, 1.0),)), what)


def _density_value(text: str, what: str) -> float:
    value, _, unit = text.strip().partition(" ")
    if unit.strip() != "mol/m3":
        raise DeskError(f"{what}: {quoted(text)} needs the unit mol/m3")
    return units.number(value, what)


def _checked(record: Correlation, what: str) -> Correlation:
    """Question 5 of the core, where the line is still known."""
    if not 0 < record.low <= record.high < record.t_r:
        raise DeskError(
            f"{what} range: {record.low} K to {record.high} K doesn't lie between 0 and t_r, {record.t_r} K"
        )
    if record.reducing <= 0:
        raise DeskError(f"{what} reducing: {record.reducing} isn't positive")
    return record


def _term(text: str, what: str) -> Tuple[float, float]:
    parts = text.split(":")
    if len(parts) != 2:
        raise DeskError(f"{what}: {quoted(text)} is not 'n : exponent'")
    return units.number(parts[0], f"{what} n"), units.number(parts[1], f"{what} exponent")


def _range(text: str, what: str) -> Tuple[float, float]:
    parts = text.split(SEPARATOR)
    if len(parts) != 2:
        raise DeskError(f"{what}: {quoted(text)} is not 'LOW to HIGH', as in 273.16 K to 450 K")
    return units.temperature(parts[0], what), units.temperature(parts[1], what)


def _note_source(section: Section, yard: Yard, key: Tuple[str, ...]) -> None:
    source = section.optional("source")
    if source:
        yard.sources[key] = source


def _boiling_check(text: str, what: str) -> BoilingCheck:
    match = re.fullmatch(r"(.+?) at (.+?) within (\S+) K", text)
    if not match:
        raise DeskError(
            f"{what} boiling point: {quoted(text)} is not 'T at P within D K', as in 351.44 K at 101325 Pa within 0.5 K"
        )
    kelvin, pascals, within = match.groups()
    return BoilingCheck(units.temperature(kelvin, what), units.pressure(pascals, what), units.number(within, what))


def _mixture_check(text: str, what: str, pair: Tuple[str, str]) -> MixtureCheck:
    match = re.fullmatch(r"(\S+) (\S+), (.+?) at (.+)", text)
    if not match or match.group(1) not in pair:
        raise DeskError(f"{what}: {quoted(text)} is not 'NAME x, T at P', as in ethanol 0.894, 351.3 K at 101325 Pa")
    name, fraction, kelvin, pascals = match.groups()
    return MixtureCheck(
        name, units.number(fraction, what), units.temperature(kelvin, what), units.pressure(pascals, what)
    )


def _azeotrope_check(text: str, what: str, pair: Tuple[str, str]) -> MixtureCheck:
    published, limits, within = text.partition(" within ")
    known = _mixture_check(published, what, pair)
    if not limits:
        return known
    match = re.fullmatch(r"(\S+) K and (\S+)", within)
    if not match:
        raise DeskError(f"{what}: {quoted(within)} is not 'D K and d', as in 0.5 K and 0.04 behind 'within'")
    kelvin, fraction = (units.number(limit, what) for limit in match.groups())
    return replace(known, within=(kelvin, fraction))


def _solubility_check(text: str, what: str, pair: Tuple[str, str]) -> SolubilityCheck:
    match = re.fullmatch(r"(\S+) (\S+) in (\S+) at (.+)", text)
    if not match or {match.group(1), match.group(3)} != set(pair):
        raise DeskError(f"{what}: {quoted(text)} is not 'NAME x in NAME at T', as in toluene 0.0001 in water at 25 C")
    solvent, fraction, layer, kelvin = match.groups()
    return SolubilityCheck(solvent, units.number(fraction, what), layer, units.temperature(kelvin, what))


def _pairs(sections: List[Section], yard: Yard) -> Tuple[AnyPair, ...]:
    places = {name.lower(): place for place, name in enumerate(yard.names)}
    found: Dict[Tuple[int, int], AnyPair] = {}
    for section in sections:
        i, j = (_place(name, places, section) for name in section.names)
        if i == j:
            raise DeskError(f"line {section.line}: [{section.title}] names one solvent twice")
        if (min(i, j), max(i, j)) in found:
            raise DeskError(f"line {section.line}: the pair of {yard.names[i]} and {yard.names[j]} stands there twice")
        pair = _pair(section, yard, (yard.names[i], yard.names[j]))
        found[min(i, j), max(i, j)] = pair if i < j else pair.turned()
    return tuple(_due(key, found, yard.names) for key in due_pairs(len(yard.names)))


def parse_pair(
    text: str, names: Tuple[str, ...], model: Model, volumes: Dict[str, Fraction]
) -> Tuple[Tuple[int, int], AnyPair]:
    """A text with one pair's section alone, about solvents of these names: their places in order, and the pair."""
    before, sections = sections_of(text)
    if before and _model(before) is not model:
        raise DeskError(f"line {before[0][2]}: the model is {_model(before).title}, and that of the book {model.title}")
    if [section.kind for section in sections] != ["pair"]:
        raise DeskError(f"it has {len(sections)} headings, and one is due, [pair NAME NAME]")
    yard = Yard(names, Book((), (), model), volumes=dict(volumes))
    places = {name.lower(): place for place, name in enumerate(names)}
    i, j = (_place(name, places, sections[0]) for name in sections[0].names)
    if i == j:
        raise DeskError(f"line {sections[0].line}: [{sections[0].title}] names one solvent twice")
    pair = _pair(sections[0], yard, (names[i], names[j]), of_the_book=True)
    return ((i, j), pair) if i < j else ((j, i), pair.turned())


def _due(key: Tuple[int, int], found: Dict[Tuple[int, int], AnyPair], names: Tuple[str, ...]) -> AnyPair:
    if key not in found:
        raise DeskError(f"[pair {names[key[0]]} {names[key[1]]}] is missing")
    return found[key]


def _place(name: str, places: Dict[str, int], section: Section) -> int:
    if name.lower() not in places:
        raise DeskError(f"line {section.line}: [{section.title}] names {name}, which is no solvent of this book")
    return places[name.lower()]


def _pair(section: Section, yard: Yard, names: Tuple[str, str], of_the_book: bool = False) -> AnyPair:
    what = f"[{section.title}]"
    _expect_parameters(section, yard.book.model, of_the_book)
    pair = {Model.NRTL: _nrtl, Model.WILSON: _wilson}[yard.book.model](section, yard, names)
    _note_source(section, yard, tuple(sorted(names, key=yard.names.index)))
    known = section.optional("azeotrope")
    if known:
        yard.azeotropes[names] = _azeotrope_check(known, f"{what} azeotrope", names)
    boiling = section.take_all("boiling point")
    if boiling:
        yard.mixtures[names] = [_mixture_check(text, f"{what} boiling point", names) for text in boiling]
    hetero = section.optional("heteroazeotrope")
    if hetero:
        yard.heteroazeotropes[names] = _azeotrope_check(hetero, f"{what} heteroazeotrope", names)
    solubilities = section.take_all("solubility")
    if solubilities:
        yard.solubilities[names] = [_solubility_check(text, f"{what} solubility", names) for text in solubilities]
    section.finish()
    return pair


def _expect_parameters(section: Section, model: Model, of_the_book: bool) -> None:
    """None of another model, which is the text's own or that of the book that a pair is tried in."""
    for other in Model:
        for key, _, line in section.entries:
            if other is not model and key.split()[0] in PARAMETERS[other]:
                whose = (
                    f"the book's model is {model.title}"
                    if of_the_book
                    else f"the text's model is {model.title}; 'model = {other.title.lower()}' before the first heading "
                    "changes it"
                )
                raise DeskError(
                    f"line {line}: [{section.title}] has '{key}', which is of {other.title}, and {whose}"
                )


def _nrtl(section: Section, _: Yard, names: Tuple[str, str]) -> Pair:
    what, (first, second) = f"[{section.title}]", names
    tau_ij, tau_ji = (
        parameters.tau(section.take(key), f"{what} {key}")
        for key in (f"tau {first} {second}", f"tau {second} {first}")
    )
    alpha = parameters.alpha(section.take("alpha"), f"{what} alpha")
    return Pair(tau_ij, tau_ji, alpha, _interval(section, what))


def _wilson(section: Section, yard: Yard, names: Tuple[str, str]) -> WilsonPair:
    what = f"[{section.title}]"
    ij, ji = (
        parameters.wilson(section.take(f"wilson {a} {b}"), f"{what} wilson {a} {b}", (a, b), yard.volumes)
        for a, b in (names, names[::-1])
    )
    return WilsonPair(ij, ji, _interval(section, what))


def _interval(section: Section, what: str) -> Optional[Interval]:
    text, inferred = section.optional("interval"), section.optional("inferred")
    if inferred not in (None, "yes", "no"):
        raise DeskError(f"{what} inferred: {quoted(inferred)} is neither yes nor no")
    if text is None:
        if inferred:
            raise DeskError(f"{what}: 'inferred' stands there without an interval")
        return None
    return Interval(*_range(text, f"{what} interval"), inferred == "yes")

