"""A book's solvents and pairs as a list."""

from typing import Sequence

from . import text, units
from .book import AnyPair, Model, Pair, WilsonPair, due_pairs
from .yard import Yard

HEADS = {Model.NRTL: ("alpha",), Model.WILSON: ("a", "b, K", "a back", "b back, K")}


def listing(yard: Yard) -> str:
    n = len(yard.names)
    book = f"a book of version {yard.version or yard.book.version}, {yard.book.model.title}"
    lines = [f"{text.counted(n, 'solvent')}, {book}"] + _solvents(yard)
    pairs = [(yard.names[i], yard.names[j], pair) for (i, j), pair in zip(due_pairs(n), yard.book.pairs)]
    if pairs:
        lines += (
            ["", text.counted(len(pairs), "pair")]
            + text.table(("pair", *HEADS[yard.book.model], "interval, K", "inferred"), [_row(*pair) for pair in pairs])
        )
    if yard.sources:
        lines += ["", "sources"]
        for key, source in yard.sources.items():
            lines += text.wrapped(f"{' and '.join(key)}: {source}")
    return "\n".join(lines) + "\n"


def _solvents(yard: Yard):
    rows = []
    for name, solvent in zip(yard.names, yard.book.solvents):
        ranges = [f"{record.low:g} to {record.high:g}" for record in (solvent.vapor_pressure, solvent.density)]
        mass = f"{1000 * solvent.molar_mass:.10g}" if solvent.molar_mass is not None else "none"
        rows.append((name, units.cas_text(solvent.cas), mass, *ranges, str(len(solvent.vapor_pressure.terms))))
    return text.table(("solvent", "CAS", "g/mol", "vapor pressure, K", "density, K", "terms"), rows)


def _row(first: str, second: str, pair: AnyPair) -> Sequence[str]:
    interval = pair.interval
    bounds = f"{interval.low:g} to {interval.high:g}" if interval else "none"
    parameters = _wilson(pair) if isinstance(pair, WilsonPair) else [_alpha(pair)]
    return f"{first} and {second}", *parameters, bounds, "yes" if interval and interval.inferred else "no"


def _alpha(pair: Pair) -> str:
    return f"{pair.alpha[0]:g}" + (f" + {pair.alpha[1]:g} T" if pair.alpha[1] else "")


def _wilson(pair: WilsonPair) -> Sequence[str]:
    return [f"{value:.6g}" for value in (*pair.ij, *pair.ji)]
