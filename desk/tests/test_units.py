"""Units, numbers and CAS numbers."""

import unittest

from desk import units
from desk.errors import DeskError


class Units(unittest.TestCase):
    def test_temperatures(self):
        due = {
            "351.44K": 351.44,
            "78.29C": 351.44,
            "78.29 °C": 351.44,
            " 78.29°C ": 351.44,
            "-273.15C": 0.0,
            "1e2K": 100.0,
            "0.01C": 273.16,
            "-5degC": 268.15,
        }
        for text, kelvin in due.items():
            self.assertEqual(units.temperature(text), kelvin, text)

    def test_pressures(self):
        due = {
            "90kPa": 90000.0,
            "101325 Pa": 101325.0,
            "1.01325bar": 101325.0,
            "760mmHg": 101325.0144354,
            "0.1 kPa": 100.0,
            ".5bar": 50000.0,
        }
        due.update({"1atm": 101325.0, "900mbar": 90000.0, "760Torr": 101325.0, "14.7 psi": 101352.93220957491})
        for text, pascals in due.items():
            self.assertEqual(units.pressure(text), pascals, text)

    def test_rounded_once(self):
        self.assertNotEqual(1.1 * 133.322387415, units.pressure("1.1mmHg"))
        self.assertEqual(units.pressure("1.1mmHg"), 146.6546261565)

    def test_bad_quantities(self):
        for text in (
            "", "K", "78", "78 F", "78KK", "K78", "1,5K", "nan K", "inf K", "1e999K", "0x10K", "1_0K", "78 C C", "٣K"
        ):
            with self.assertRaises(DeskError, msg=text):
                units.temperature(text)
        for text in ("90", "90PSI", "kPa", "90KPA", "1e400bar", "9 0kPa", "90 kpa", "1 at", "1 torr"):
            with self.assertRaises(DeskError, msg=text):
                units.pressure(text)

    def test_numbers(self):
        self.assertEqual(str(units.number("-0", "x")), "-0.0")
        self.assertEqual(units.number(" 1e-3 ", "x"), 0.001)
        for text in ("", "nan", "inf", "1e999", "1/2", "50%", "one"):
            with self.assertRaises(DeskError, msg=text):
                units.number(text, "x")
        self.assertEqual(units.whole("18446744073709551615", "x"), 2**64 - 1)
        for text in ("18446744073709551616", "-1", "1.0", ""):
            with self.assertRaises(DeskError, msg=text):
                units.whole(text, "x")

    def test_cas_numbers(self):
        for text, number in (("64-17-5", 64175), ("7732-18-5", 7732185), ("108-88-3", 108883), ("67-63-0", 67630)):
            self.assertEqual(units.cas_number(text), number)
            self.assertEqual(units.cas_text(number), text)
        with self.assertRaises(DeskError):
            units.cas_number("64-17-4")
        self.assertEqual(units.cas_number("64174"), 64174)

    def test_nearest_unit(self):
        for text, near in (("90 kpa", "kPa"), ("90PSI", "psi"), ("1torr", "Torr"), ("1 Bar", "bar"), ("1mmhg", "mmHg")):
            with self.assertRaises(DeskError) as caught:
                units.pressure(text)
            self.assertIn(f"did you mean {near}?", str(caught.exception))
