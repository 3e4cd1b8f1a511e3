"""Temperatures, pressures, weights, amounts, molar masses and molar volumes with their units, read as decimals and
rounded once to a float; CAS numbers."""

import math
import re
from decimal import Decimal
from fractions import Fraction
from typing import Dict, Optional

from .errors import DeskError, quoted, suggestion

CELSIUS_ZERO = Fraction("273.15")
# Pa; the conventional millimetre of mercury, and the pound-force per square inch from its definition
PRESSURE_UNITS: Dict[str, Fraction] = {
    "Pa": Fraction(1),
    "kPa": Fraction(1000),
    "mbar": Fraction(100),
    "bar": Fraction(100000),
    "atm": Fraction(101325),
    "mmHg": Fraction("133.322387415"),
    "Torr": Fraction(101325, 760),
    "psi": Fraction("4.4482216152605") / Fraction("0.0254") ** 2,
}
MOLAR_MASS_UNITS: Dict[str, Fraction] = {
    "kg/mol": Fraction(1), "g/mol": Fraction(1, 1000), "kg/kmol": Fraction(1, 1000)
}  # kg/mol
MOLAR_VOLUME_UNITS: Dict[str, Fraction] = {
    "m3/mol": Fraction(1),
    "m3/kmol": Fraction(1, 1000),
    "L/mol": Fraction(1, 1000),
    "cm3/mol": Fraction(1, 10**6),
    "mL/mol": Fraction(1, 10**6),
}  # m3/mol
WEIGHT_UNITS: Dict[str, Fraction] = {"kg": Fraction(1), "g": Fraction(1, 1000), "t": Fraction(1000)}  # kg
MOLE_UNITS: Dict[str, Fraction] = {
    "mol": Fraction(1), "kmol": Fraction(1000), "mmol": Fraction(1, 1000), "umol": Fraction(1, 10**6)
}  # mol
KELVIN_UNITS = ("K",)
CELSIUS_UNITS = ("C", "°C", "degC")
TEMPERATURES = "K, C or °C"
PRESSURES, MOLAR_MASSES, MOLAR_VOLUMES, WEIGHTS, AMOUNTS = (
    ", ".join(list(units)[:-1]) + f" or {list(units)[-1]}"
    for units in (PRESSURE_UNITS, MOLAR_MASS_UNITS, MOLAR_VOLUME_UNITS, WEIGHT_UNITS, {**MOLE_UNITS, **WEIGHT_UNITS})
)

_NUMBER = r"[+-]?(?:\d+(?:\.\d*)?|\.\d+)(?:[eE][+-]?\d{1,4})?"
_QUANTITY = re.compile(rf"\s*({_NUMBER})\s*([^\d\s].*?)?\s*", re.ASCII)
_CAS = re.compile(r"(\d{2,7})-(\d{2})-(\d)", re.ASCII)
_DIGITS = re.compile(r"\d{1,20}", re.ASCII)


def number(text: str, what: str) -> float:
    """A finite float from a decimal number; -0 keeps its sign."""
    match = re.fullmatch(_NUMBER, text.strip(), re.ASCII)
    if not match:
        raise DeskError(f"{what}: {quoted(text)} is not a number")
    return _finite(float(text), text, what)


def whole(text: str, what: str) -> int:
    text = text.strip()
    if not _DIGITS.fullmatch(text) or int(text) >= 2**64:
        raise DeskError(f"{what}: {quoted(text)} is not a whole number from 0 to 2^64 - 1")
    return int(text)


def temperature(text: str, what: str = "temperature") -> float:
    """Kelvin from a number with K, C or °C."""
    value, unit = _quantity(text, what, f"{TEMPERATURES}, as in 351.44K or 78.29C")
    if unit in KELVIN_UNITS:
        return _finite(float(value), text, what)
    if unit in CELSIUS_UNITS:
        return _rounded(Fraction(value) + CELSIUS_ZERO, text, what)
    raise DeskError(
        f"{what}: unit {quoted(unit)} in {quoted(text)} is not "
        f"{TEMPERATURES}{suggestion(unit, (*KELVIN_UNITS, *CELSIUS_UNITS))}"
    )


def pressure(text: str, what: str = "pressure") -> float:
    """Pascals from a number with one of PRESSURE_UNITS."""
    value, unit = _quantity(text, what, f"{PRESSURES}, as in 90kPa")
    if unit == "Pa":
        return _finite(float(value), text, what)
    if unit in PRESSURE_UNITS:
        return _rounded(Fraction(value) * PRESSURE_UNITS[unit], text, what)
    raise DeskError(
        f"{what}: unit {quoted(unit)} in {quoted(text)} is not {PRESSURES}{suggestion(unit, PRESSURE_UNITS)}"
    )


def molar_mass(text: str, what: str = "molar mass") -> float:
    """In kg/mol, finite and positive, from a number with one of MOLAR_MASS_UNITS."""
    value, unit = _quantity(text, what, f"{MOLAR_MASSES}, as in 46.06844 g/mol")
    if unit not in MOLAR_MASS_UNITS:
        raise DeskError(
            f"{what}: unit {quoted(unit)} in {quoted(text)} is not {MOLAR_MASSES}{suggestion(unit, MOLAR_MASS_UNITS)}"
        )
    found = _rounded(Fraction(value) * MOLAR_MASS_UNITS[unit], text, what)
    if found <= 0:
        raise DeskError(f"{what}: {quoted(text)} isn't positive")
    return found


def molar_volume(text: str, what: str = "molar volume") -> Fraction:
    """In m3/mol, positive, exactly, from a number with one of MOLAR_VOLUME_UNITS."""
    value, unit = _quantity(text, what, f"{MOLAR_VOLUMES}, as in 58.68 cm3/mol")
    if unit not in MOLAR_VOLUME_UNITS:
        known = suggestion(unit, MOLAR_VOLUME_UNITS)
        raise DeskError(f"{what}: unit {quoted(unit)} in {quoted(text)} is not {MOLAR_VOLUMES}{known}")
    if value <= 0:
        raise DeskError(f"{what}: {quoted(text)} isn't positive")
    return Fraction(value) * MOLAR_VOLUME_UNITS[unit]


def weight(text: str, what: str = "weight") -> Fraction:
    """In kg, exactly, from a number with one of WEIGHT_UNITS."""
    value, unit = _quantity(text, what, f"{WEIGHTS}, as in 40kg")
    if unit not in WEIGHT_UNITS:
        raise DeskError(
            f"{what}: unit {quoted(unit)} in {quoted(text)} is not {WEIGHTS}{suggestion(unit, WEIGHT_UNITS)}"
        )
    found = Fraction(value) * WEIGHT_UNITS[unit]
    _rounded(found, text, what)
    return found


def moles(text: str, what: str, molar_mass: Optional[float]) -> Fraction:
    """Exactly, from a number with one of MOLE_UNITS, or from a weight by the molar mass (kg/mol)."""
    value, unit = _quantity(text, what, f"{AMOUNTS}, as in 300mol")
    if unit in MOLE_UNITS:
        found = Fraction(value) * MOLE_UNITS[unit]
    elif unit in WEIGHT_UNITS:
        found = weight(text, what) / Fraction(molar_mass)
    else:
        known = suggestion(unit, (*MOLE_UNITS, *WEIGHT_UNITS))
        raise DeskError(f"{what}: unit {quoted(unit)} in {quoted(text)} is not {AMOUNTS}{known}")
    _rounded(found, text, what)
    return found


def in_moles(text: str) -> bool:
    """Whether a number has one of MOLE_UNITS."""
    match = _QUANTITY.fullmatch(text)
    return bool(match and match.group(2) in MOLE_UNITS)


def spaced(text: str) -> str:
    """A number and its unit with one blank between them."""
    return " ".join(_QUANTITY.fullmatch(text).groups())


def is_bare(text: str) -> bool:
    """Whether a number has no unit."""
    match = _QUANTITY.fullmatch(text)
    return bool(match and not match.group(2))


def has_unit(text: str) -> bool:
    """Whether something stands behind a number."""
    match = _QUANTITY.fullmatch(text)
    return bool(match and match.group(2))


def celsius(kelvin: float) -> float:
    """For display."""
    return float(Fraction(kelvin) - CELSIUS_ZERO) if math.isfinite(kelvin) else kelvin


def in_unit(pascals: float, unit: str) -> float:
    """For display."""
    return float(Fraction(pascals) / PRESSURE_UNITS[unit]) if math.isfinite(pascals) else pascals


def _quantity(text: str, what: str, units: str):
    match = _QUANTITY.fullmatch(text)
    if not match:
        raise DeskError(f"{what}: {quoted(text)} is not a number with a unit ({units})")
    if not match.group(2):
        raise DeskError(f"{what}: {quoted(text)} has no unit; write {units}")
    return Decimal(match.group(1)), match.group(2)


def _rounded(value: Fraction, text: str, what: str) -> float:
    try:
        return float(value)
    except OverflowError:
        return _finite(math.inf, text, what)


def _finite(value: float, text: str, what: str) -> float:
    if not math.isfinite(value):
        raise DeskError(f"{what}: {quoted(text)} is too large")
    return value


def cas_number(text: str) -> int:
    """64-17-5 as 64175, its last digit tested; a number without hyphens is taken as it is."""
    text = text.strip()
    match = _CAS.fullmatch(text)
    if not match:
        return whole(text, "CAS number")
    digits = "".join(match.groups())
    check = sum(place * int(digit) for place, digit in enumerate(reversed(digits)))
    if check % 10 != int(digits[-1]):
        raise DeskError(f"CAS number {text}: its last digit doesn't fit the others")
    return int(digits)


def cas_text(cas: int) -> str:
    """With hyphens, if the number can be a CAS number."""
    digits = str(cas)
    return f"{digits[:-3]}-{digits[-3:-1]}-{digits[-1]}" if 5 <= len(digits) <= 10 else digits
