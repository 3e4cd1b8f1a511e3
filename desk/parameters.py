"""A pair's parameters as a yard text has them, for NRTL and for Wilson.

    tau A B    = t0 0, t1 -57.9601 cal/mol        tau = t0 + t1/T + t2 ln(T/K) + t3 T
    alpha      = 0.2937                           or a0 0.2937, a1 0.0001
    wilson A B = a -0.12, b 345.6 K               ln Lambda_AB = a + b/T
    wilson A B = energy 325.0757 cal/mol          Lambda_AB = (V_B/V_A) exp(-energy/(R T))

The energy is lambda_AB - lambda_AA. It needs the molar volumes V of both solvents, and comes to a = ln(V_B/V_A) and
b = -energy/R."""

from decimal import MAX_EMAX, MIN_EMIN, Context, Decimal
from fractions import Fraction
from typing import Dict, List, Tuple

from . import units
from .errors import DeskError, quoted

GAS_CONSTANT = {"J/mol": 8.31446261815324, "cal/mol": 1.98720425864083}  # per K
ENERGY = "energy"
UNITS = {"t1": {"K": 1.0, **GAS_CONSTANT}, "b": {"K": 1.0}, ENERGY: GAS_CONSTANT}  # of a term, each with its divisor
PRECISE = Context(prec=60, Emax=MAX_EMAX, Emin=MIN_EMIN)


def tau(text: str, what: str) -> Tuple[float, ...]:
    return _terms(text, ("t0", "t1", "t2", "t3"), what)


def alpha(text: str, what: str) -> Tuple[float, ...]:
    return _terms(text if text.lstrip().startswith("a") else f"a0 {text}", ("a0", "a1"), what)


def wilson(text: str, what: str, names: Tuple[str, str], volumes: Dict[str, Fraction]) -> Tuple[float, ...]:
    """a and b from the first solvent to the second, given or from an energy and the molar volumes of both."""
    if text.split()[0] != ENERGY:
        return _terms(text, ("a", "b"), what)
    if len(text.split()) == 2:
        raise DeskError(f"{what}: {quoted(text)} has no unit; write J/mol or cal/mol")
    (over_gas_constant,) = _terms(text, (ENERGY,), what)
    for name in names:
        if name not in volumes:
            raise DeskError(f"{what}: an energy needs a 'molar volume = ... cm3/mol' of {name}; or give a and b")
    first, second = (volumes[name] for name in names)
    return _logarithm(second / first), 0.0 - over_gas_constant


def _logarithm(ratio: Fraction) -> float:
    """Rounded once, so that the book's bytes are the same everywhere."""
    quotient = PRECISE.divide(Decimal(ratio.numerator), Decimal(ratio.denominator))
    return float(PRECISE.ln(quotient))


def _terms(text: str, names: Tuple[str, ...], what: str) -> Tuple[float, ...]:
    """Named terms, in any order; a term that isn't named is 0."""
    values: Dict[str, float] = {}
    for part in text.split(","):
        words = part.split()
        if len(words) not in (2, 3) or words[0] not in names:
            raise DeskError(f"{what}: {quoted(part)} is not a term ({', '.join(names)}) and its number")
        if words[0] in values:
            raise DeskError(f"{what}: {words[0]} stands there twice")
        values[words[0]] = units.number(words[1], f"{what} {words[0]}") / _divisor(words, what)
    return tuple(values.get(name, 0.0) for name in names)


def _divisor(words: List[str], what: str) -> float:
    """t1 and b are in K; t1 may be an energy too, which is divided by the gas constant, and so is Wilson's."""
    known = UNITS.get(words[0], {})
    if len(words) == 2:
        return 1.0
    if words[2] in known:
        return known[words[2]]
    if words[0] == "b" and words[2] in GAS_CONSTANT:
        raise DeskError(
            f"{what}: b is in K; lambda_ij - lambda_ii goes in as '{ENERGY} {words[1]} {words[2]}', with molar volumes"
        )
    due = f"is none of {', '.join(known)}" if known else "is one too many: it has none"
    raise DeskError(f"{what}: unit {quoted(words[2])} of {words[0]} {due}")
