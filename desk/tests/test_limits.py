"""Raising a limit: what 27 is told, and that a sheet that was accepted stays as it was."""

import shlex
import unittest

from desk import refusals, tasks
from desk.arguments import EXAMPLES

from .support import ALCOHOLS, sheet

LIMITED = tuple(task.command for task in tasks.TASKS if task.takes_options or task.takes_k)
OUTER = "--max-temperature-iterations"


def joined(text: str) -> str:
    """In one line, whatever the width."""
    return " ".join(text.split())


def limits(command: str, most: int) -> tuple:
    given = ("--max-iterations", str(most))
    return given if command.startswith("rachford") else (*given, OUTER, str(most))


class RaisedLimits(unittest.TestCase):
    def asked(self, command: str, *more: str):
        return sheet(*shlex.split(EXAMPLES[command])[1:], *more)

    def test_accepted_sheets_stay(self):
        for command in LIMITED:
            found = self.asked(command)
            self.assertIn(found.status, (0, 3), command)
            for most in (501, 4000, 1_000_000):
                self.assertEqual(self.asked(command, *limits(command, most)), found, command)

    def test_a_limit_that_is_spent(self):
        """Refused with 27, told what a higher one does, and answered with it as with any other."""
        commands = ("dew-pressure", "dew-temperature", "rachford-rice-negative")
        spent = {command: limits(command, 1) for command in commands}
        spent["bubble-temperature"] = (OUTER, "1")
        for command, given in spent.items():
            run = self.asked(command, *given)
            self.assertEqual(run.status, 1, command)
            self.assertIn("REFUSED, number 27: ", run.out)
            self.assertIn(f"{refusals.KEPT}.", joined(run.out))
            self.assertNotEqual(self.asked(command).status, 1)

    def test_what_to_raise(self):
        for command in ("dew-temperature", "dew-pressure"):
            self.assertIn(f"{refusals.HIGHER};", joined(self.asked(command, *limits(command, 1)).out))
        split = joined(self.asked("rachford-rice-negative", "--max-iterations", "1").out)
        self.assertIn("raise --max-iterations. ", split)
        self.assertNotIn("--tolerance", split)

    def test_of_a_wilson_book(self):
        drum = ("--book", str(ALCOHOLS), "--drum", "ethanol=0.3,water=0.7", "--temperature", "350K")
        run = sheet("dew-pressure", *drum, "--max-iterations", "1")
        self.assertEqual(run.status, 1)
        self.assertIn(f"{refusals.HIGHER}; look at the data of its pairs. {refusals.KEPT}.", joined(run.out))

    def test_help_says_it(self):
        for command in (*LIMITED, "queue", "diagram"):
            told = joined(sheet(command, "--help").out)
            self.assertIn("limit of iterations (default 500); a higher one can't change any accepted sheet", told)
            tried = "limit of temperatures tried (default 200); a higher one can't change any accepted sheet"
            (self.assertNotIn if command.startswith("rachford") else self.assertIn)(tried, told)
        self.assertIn("accepted sheet, but more of the allowance is asked for", joined(sheet("queue", "--help").out))
