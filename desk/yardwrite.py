"""The text of a yard, written so that it reads back to the same book, bit for bit."""

from typing import List, Tuple

from . import units
from .book import AnyPair, Model, Solvent, WilsonPair, due_pairs
from .errors import DeskError
from .yard import Yard


def write(yard: Yard) -> str:
    parts = [] if yard.book.model is Model.NRTL else [f"model = {yard.book.model.title.lower()}\n"]
    parts += [_solvent_text(name, solvent, yard) for name, solvent in zip(yard.names, yard.book.solvents)]
    for (i, j), pair in zip(due_pairs(len(yard.names)), yard.book.pairs):
        parts.append(_pair_text(yard.names[i], yard.names[j], pair, yard))
    return "\n".join(parts)


def _lines(heading: str, entries: List[Tuple[str, str]]) -> str:
    width = max(len(key) for key, _ in entries)
    return f"[{heading}]\n" + "".join(f"{key:{width}} = {value}\n" for key, value in entries)


def _solvent_text(name: str, solvent: Solvent, yard: Yard) -> str:
    entries = [("cas", _cas_as_read(solvent.cas))]
    if solvent.molar_mass is not None:
        entries.append(("molar mass", f"{solvent.molar_mass!r} kg/mol"))
    for record, unit, values in (("vapor", "Pa", solvent.vapor_pressure), ("density", "mol/m3", solvent.density)):
        entries += [
            (f"{record} t_r", f"{values.t_r!r} K"),
            (f"{record} reducing", f"{values.reducing!r} {unit}"),
            (f"{record} range", f"{values.low!r} K to {values.high!r} K"),
        ]
        entries += [(f"{record} term", f"{n!r} : {exponent!r}") for n, exponent in values.terms]
    return _lines(f"solvent {name}", entries + _source_entry(yard, (name,)))


def _cas_as_read(cas: int) -> str:
    """With hyphens where reading accepts them."""
    text = units.cas_text(cas)
    try:
        return text if units.cas_number(text) == cas else str(cas)
    except DeskError:
        return str(cas)


def _pair_text(first: str, second: str, pair: AnyPair, yard: Yard) -> str:
    entries = _parameters(first, second, pair)
    if pair.interval:
        entries.append(("interval", f"{pair.interval.low!r} K to {pair.interval.high!r} K"))
        entries.append(("inferred", "yes" if pair.interval.inferred else "no"))
    return _lines(f"pair {first} {second}", entries + _source_entry(yard, (first, second)))


def _parameters(first: str, second: str, pair: AnyPair) -> List[Tuple[str, str]]:
    def named(prefix: str, values: Tuple[float, ...]) -> str:
        return ", ".join(f"{prefix}{k} {value!r}" for k, value in enumerate(values))

    if isinstance(pair, WilsonPair):
        return [
            (f"wilson {first} {second}", f"a {pair.ij[0]!r}, b {pair.ij[1]!r} K"),
            (f"wilson {second} {first}", f"a {pair.ji[0]!r}, b {pair.ji[1]!r} K"),
        ]
    return [
        (f"tau {first} {second}", named("t", pair.tau_ij)),
        (f"tau {second} {first}", named("t", pair.tau_ji)),
        ("alpha", named("a", pair.alpha)),
    ]


def _source_entry(yard: Yard, key: Tuple[str, ...]) -> List[Tuple[str, str]]:
    return [("source", yard.sources[key])] if key in yard.sources else []
