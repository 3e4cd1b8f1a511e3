"""The sheet as text, to lay beside the drum label."""

import math
from typing import Callable, Dict, List, Optional, Sequence, Tuple

from . import answer, charge, explain, ranges, text, tryreport
from .blocks import float_of, floats_at
from .feed import ByMass, Feed, Fractions
from .sheet import Sheet
from .tasks import BUBBLE_PRESSURE, BUBBLE_TEMPERATURE, DEW_PRESSURE, DEW_TEMPERATURE, FLASH, NEGATIVE_SPLIT, SPLIT

ENERGY_NAMES = (
    ("excess Gibbs energy / RT", ""),
    ("excess Gibbs energy", " J/mol"),
    ("excess enthalpy", " J/mol"),
    ("excess entropy", " J/(mol K)"),
    ("excess heat capacity", " J/(mol K)"),
)

BUBBLE_POINTS, DEW_POINTS = (BUBBLE_PRESSURE, BUBBLE_TEMPERATURE), (DEW_PRESSURE, DEW_TEMPERATURE)
SATURATION_ROWS = {  # what each of T and p is
    "bubble-temperature": ("begins to boil at", "pressure"),
    "bubble-pressure": ("temperature", "begins to boil at"),
    "dew-temperature": ("begins to condense at", "pressure"),
    "dew-pressure": ("temperature", "begins to condense at"),
}
TRIAL_COLUMNS = (
    "Each trial starts at one nearly pure solvent and looks for a liquid that lies below the tangent plane of the "
    "drum's.",
    "'distance' is how far the liquid found lies above that plane (in units of RT): below 0 the drum's liquid splits, "
    "and the "
    "trial stops there; at 0 or above it found nothing.",
)
TRIAL_DETAILS = (
    "'trivial' trials came back to the drum's own liquid. The fractions are those at which a trial stopped, its start "
    "where it "
    "took one iteration; they are no layer: ./sheet layers has the layers."
)

Lines = List[str]


class Report:
    short = False

    def __init__(self, sheet: Sheet, details: bool = False):
        self.sheet, self.details = sheet, details

    def text(self) -> str:
        lines = self.head() + [text.RULE] + self._marks()
        body = self._refusal() if self.sheet.blocks.refusal else _BODIES[self.sheet.question.task.command](self)
        tried = tryreport.tables(self.sheet.tried, self.details, self.sheet)
        return "\n".join(lines + body + self._pairs() + tried) + "\n"

    # what was asked

    def head(self) -> Lines:
        sheet, question, task = self.sheet, self.sheet.question, self.sheet.question.task
        rows = [("Label", sheet.label)] if sheet.label else []
        rows += [("Date", sheet.date), *tryreport.book_rows(sheet.book, sheet.tried, self.details)]
        rows += drum_rows(sheet.feed, sheet.by_mass, self._listed)
        if sheet.absent():
            rows.append(("Absent", ", ".join(sheet.book.names[i] for i in sheet.absent())))
        if question.temperature is not None:
            rows.append(("T asked", text.temperature(question.temperature, self.details)))
        if question.pressure is not None:
            rows.append(("p asked", text.pressure(question.pressure, self.details)))
        if task in (BUBBLE_TEMPERATURE, DEW_TEMPERATURE) and self.details:
            rows.append(("Between", " and ".join(text.temperature(end, True) for end in question.options.bracket)))
        if question.k_values is not None:
            rows.append(("K", self._listed(question.k_values)))
        rows += [("Task", f"{task.number}, {task.function}")] if self.details else []
        lines = [tryreport.title(self.title(), sheet.tried)] + text.fields(rows)
        return lines + (charge.table(sheet.feed, sheet.book.names, self.details) if sheet.feed.charge else [])

    def title(self) -> str:
        task = self.sheet.question.task
        return f"{task.title.upper()}: {task.about}"

    def _listed(self, values: Sequence[float], unit: str = "") -> str:
        written = text.exact if self.details else text.plain
        return ", ".join(f"{self.sheet.book.names[i]} {written(values[i])}{unit}" for i in self.sheet.present())

    # above the numbers

    def _marks(self) -> Lines:
        """One line that nobody overlooks, what holds instead, and the pairs that are out of their range."""
        sheet, mark, found = self.sheet, self.sheet.judgement.mark, self.sheet.ranges
        lines = tryreport.stars(sheet.tried) + (text.marked(mark.line) if mark else [])
        if mark and not self.sheet.blocks.refusal:
            lines += text.sentences(mark.advice) + [""]
        if found and found.line():
            lines += text.wrapped(found.line(), indent="") + [""]
        return lines

    def _refusal(self) -> Lines:
        first, *others = explain.sentences(self.sheet)
        return text.wrapped(first, first="") + text.sentences(others)

    def _pairs(self) -> Lines:
        found = ranges.table(self.sheet.ranges) if self.sheet.ranges else []
        return [""] + found if found else []

    # numbers

    def fraction(self, value: float) -> str:
        return text.fraction(value, self.details)

    def temperature(self, kelvin: float) -> str:
        return text.temperature(kelvin, self.details)

    def pressure(self, pascals: float) -> str:
        return text.pressure(pascals, self.details)

    # the answers

    def excess(self) -> Lines:
        sheet = self.sheet
        logs, slopes = sheet.entries(answer.LIQUID), sheet.entries(answer.VAPOR)
        rows = [
            self._coefficients(name, *values)
            for name, *values in zip(sheet.book.names, sheet.moles, logs, slopes)
        ]
        lines = text.table(("solvent", "x", "gamma", "ln gamma", "d ln gamma/dT, 1/K"), rows)
        if sheet.absent():
            lines += text.wrapped(
                "A solvent with x = 0 isn't in the drum: its coefficients are those at infinite dilution in it."
            )
        energies = zip(ENERGY_NAMES, floats_at(sheet.blocks.head, answer.ENERGIES, len(ENERGY_NAMES)))
        fields = [(name, text.plain(value, self.details) + unit) for (name, unit), value in energies]
        head = sheet.blocks.head
        fields.append(("pairs at this T", answer.VALIDITIES.get(head[answer.VALIDITY], "unknown")))
        fields.append(("interval inferred", "yes" if head[answer.INFERRED] else "no"))
        return lines + [""] + text.fields(fields) + [""] + self._one_layer()

    def _coefficients(self, name: str, x: float, log: float, slope: float) -> Tuple[str, ...]:
        slope_words = repr(slope) if self.details else text.small(slope)
        return name, self.fraction(x), text.plain(shown_exp(log), self.details), self.fraction(log), slope_words

    def saturation(self) -> Lines:
        blocks = self.sheet.blocks
        names = SATURATION_ROWS[self.sheet.question.task.command]
        if self.sheet.judgement.mark:
            names = tuple(f"(as one liquid) {name}" if name.startswith("begins") else name for name in names)
        rows = list(zip(names, (self.temperature(blocks.real(answer.T)), self.pressure(blocks.real(answer.P)))))
        found = sorted(rows, key=lambda row: "begins" not in row[0])
        return text.fields(found + self._effort()) + [""] + self._phases() + [""] + self._one_layer()

    def _effort(self) -> List[Tuple[str, str]]:
        blocks = self.sheet.blocks
        rows = [
            ("iterations", str(blocks.head[answer.ITERATIONS])), ("residual", text.small(blocks.real(answer.RESIDUAL)))
        ]
        if self.sheet.question.task == FLASH:
            rows.append(("evaluations", f"{blocks.head[answer.EVALUATIONS]} (all activity coefficients at once)"))
        return rows if self.details else []

    def _phases(self) -> Lines:
        """Mole fractions of the solvents in the drum; a phase that isn't there has no column. Of a drum by mass the
        mass fractions too, and the kg of a flash's phases where the drum was weighed."""
        sheet, task = self.sheet, self.sheet.question.task
        liquid, vapor = answer.phases(task, sheet.blocks)
        columns = [(sheet.feed.called, sheet.moles)]
        if liquid and task not in BUBBLE_POINTS:
            columns.append(("first drop" if task in DEW_POINTS else "liquid", sheet.entries(answer.LIQUID)))
        if vapor and task not in DEW_POINTS:
            columns.append(("first bubble" if task in BUBBLE_POINTS else "vapor", sheet.entries(answer.VAPOR)))
        rows = [[sheet.book.names[i]] + [self.fraction(values[i]) for _, values in columns] for i in sheet.present()]
        lines = text.table(["mole fractions"] + [name for name, _ in columns], rows)
        names, amounts = [sheet.book.names[i] for i in sheet.present()], dict(phase_amounts(sheet))
        places = sheet.present()
        return lines + mass_tables(sheet.by_mass, sheet.feed, columns, amounts, places, names, self.details, self.short)

    def _one_layer(self) -> Lines:
        yes = self.sheet.book.one_layer_words(self.sheet.present())
        words = {True: yes, False: "NO, it splits in two", None: "not tested"}
        return [f"  one liquid layer: {words[self.sheet.judgement.one_layer]}"]

    def stability(self) -> Lines:
        words = (*TRIAL_COLUMNS, TRIAL_DETAILS) if self.details else TRIAL_COLUMNS
        return self._one_layer() + [""] + self._trials() + [""] + text.sentences(words)

    def flash(self) -> Lines:
        return text.fields(self.flash_rows()) + [""] + self._phases() + self.flash_remarks()

    def flash_rows(self) -> List[Tuple[str, str]]:
        rows = self._state() + [self._bound("bubble"), self._bound("dew")] + self._effort()
        balance = text.small(self.sheet.blocks.real(answer.BALANCE))
        return rows + ([("balance", balance)] if self.details else [])

    def flash_remarks(self) -> Lines:
        """Below its numbers: whether its liquid is one, and the core's notes."""
        blocks, lines = self.sheet.blocks, []
        if blocks.head[answer.OUTCOME] != answer.VAPOR_ONLY:
            lines = [""] + self._one_layer() + (self._trials() if self.details and blocks.trials else [])
        return lines + self._notes()

    def _state(self) -> List[Tuple[str, str]]:
        """What a flash gives: phases and vapor fraction."""
        sheet, outcome = self.sheet, self.sheet.blocks.head[answer.OUTCOME]
        phases = answer.outcome_words(outcome) + (" (as one liquid)" if sheet.judgement.mark else "")
        fraction = self.fraction(sheet.blocks.real(answer.VAPOR_FRACTION))
        return [("phases", phases), ("vapor fraction", f"{fraction} (moles of vapor per mole of {sheet.feed.called})")]

    def _bound(self, which: str) -> Tuple[str, str]:
        """A pressure of a liquid that isn't stable is no bubble or dew pressure."""
        name, at = {"bubble": ("boils from", answer.BUBBLE), "dew": ("all vapor below", answer.DEW)}[which]
        judgement = self.sheet.judgement
        shown = self.pressure(self.sheet.blocks.real(at))
        if judgement.bubble_holds if which == "bubble" else judgement.dew_holds:
            return name, shown + (" down" if which == "bubble" else "")
        why = (
            "the drum's liquid splits in two layers at this T"
            if which == "bubble"
            else "no stable first drop is known at this T"
        )
        return name, f"not known: {why}" + (f" (of one liquid {shown})" if self.details else "")

    def split(self) -> Lines:
        blocks = self.sheet.blocks
        outcome = blocks.head[answer.OUTCOME]
        rows = [("phases", answer.outcome_words(outcome))]
        if not any(answer.phases(self.sheet.question.task, blocks)):
            return text.fields(rows)
        rows.append(("vapor fraction", self.fraction(blocks.real(answer.VAPOR_FRACTION))))
        return text.fields(rows + self._effort()) + [""] + self._phases()

    def _trials(self) -> Lines:
        """What each found; where it stopped with --details alone, since that is often its start."""
        sheet = self.sheet
        if not sheet.blocks.trials:
            return ["  no trials were needed: fewer than two solvents in the liquid"]
        heads = ["trial started at", "distance", "found"]
        if self.details:
            heads = (
                heads[:2] + ["iterations", "trivial"] + [f"stopped at {sheet.book.names[i]}" for i in sheet.present()]
            )
        rows = [self._trial(words) for words in sheet.blocks.trials]
        return text.table(heads, rows, words=(0,) if self.details else (0, 2))

    def _trial(self, words) -> List[str]:
        names = self.sheet.book.names
        found = floats_at(words, answer.TRIAL_FRACTIONS, len(names))
        distance, trivial = float_of(words[answer.TRIAL_DISTANCE]), words[answer.TRIAL_TRIVIAL]
        row = [f"{names[words[answer.TRIAL_COMPONENT]]}, nearly pure", text.small(distance)]
        if not self.details:
            splits = distance < self.sheet.question.options.tm_threshold and not trivial
            return row + ["a lower plane: it splits" if splits else "nothing"]
        row += [str(words[answer.TRIAL_ITERATIONS]), "yes" if trivial else "no"]
        return row + [self.fraction(found[i]) for i in self.sheet.present()]

    def _notes(self) -> Lines:
        lines = [""]
        for name, words in self.sheet.blocks.notes(self.sheet.book.model):
            lines += text.wrapped(f"{name}: {words}." if self.details else f"{words[0].upper()}{words[1:]}.")
        return lines


def drum_rows(feed: Feed, mass: Optional[ByMass], listed: Callable[..., str]) -> List[Tuple[str, str]]:
    """The drum as it was given, and what goes to the core; of a drum by mass also its mole fractions."""
    if feed.charge:
        return charge.rows(feed.charge)
    rows = [("Given", f"{listed(feed.given)}, which sums to {math.fsum(feed.given):.12g}")] if feed.given else []
    sent = listed(feed.fractions) + (", normalized" if feed.given else "") + f" ({feed.kind})"
    if feed.kilograms:
        rows.append(("Drum", f"{listed(feed.kilograms, ' kg')}; {text.plain(feed.total)} kg in all"))
        rows.append(("By mass", sent))
    else:
        rows.append(("Drum", sent))
    return rows + ([("By moles", f"{listed(mass.moles)} (mole fractions)")] if mass else [])


def phase_amounts(sheet: Sheet) -> List[Tuple[str, float]]:
    """Moles of liquid and vapor per mole of drum, where the core gives them and both can be there."""
    fraction = sheet.blocks.real(answer.VAPOR_FRACTION)
    if sheet.question.task not in (FLASH, SPLIT, NEGATIVE_SPLIT) or not 0 <= fraction <= 1:
        return []
    return [(sheet.feed.called, 1.0), ("liquid", 1 - fraction), ("vapor", fraction)]


def mass_tables(
    mass: Optional[ByMass],
    feed: Feed,
    columns: Sequence[Tuple[str, Fractions]],
    amounts: Dict[str, float],
    places: Sequence[int],
    names: Sequence[str],
    details: bool,
    one: bool = False,
) -> Lines:
    """Mass fractions of the columns' phases, and their kg where a phase's amount and the drum's weight are known; where
    `one` table is wanted the kg alone."""
    if mass is None:
        return []
    weighed = [(name, moles) for name, moles in columns if name in amounts] if feed.kilograms else []
    lines: Lines = []
    if not (one and weighed):
        sent = "drum" if feed.by_mass else None
        found = [(name, feed.fractions if name == sent else mass.fractions(moles)) for name, moles in columns]
        rows = [[name] + [text.fraction(values[i], details) for _, values in found] for i, name in zip(places, names)]
        lines += [""] + text.table(["mass fractions"] + [name for name, _ in found], rows)
    if weighed:
        whole = feed.called
        kilograms = [feed.kilograms if name == whole else mass.kilograms(x, amounts[name]) for name, x in weighed]
        rows = [["all"] + [text.plain(math.fsum(values), details) for values in kilograms]]
        rows += [[name] + [text.plain(values[i], details) for values in kilograms] for i, name in zip(places, names)]
        lines += [""] + text.table(["kg"] + [name for name, _ in weighed], rows)
    return lines + text.wrapped(f"Reckoned by {feed.reckoned}.")


def shown_exp(value: float) -> float:
    """For display; too large to show is infinity."""
    try:
        return math.exp(value)
    except OverflowError:
        return math.inf


def render(sheet: Sheet, details: bool = False) -> str:
    return Report(sheet, details).text()


_BODIES: Dict[str, Callable[[Report], Lines]] = {
    "excess": Report.excess,
    "bubble-pressure": Report.saturation,
    "dew-pressure": Report.saturation,
    "bubble-temperature": Report.saturation,
    "dew-temperature": Report.saturation,
    "stability": Report.stability,
    "flash": Report.flash,
    "rachford-rice": Report.split,
    "rachford-rice-negative": Report.split,
}
