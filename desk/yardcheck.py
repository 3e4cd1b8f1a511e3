"""A yard against the world: boiling points, azeotropes and layers, by the core, beside the published ones in its
text."""

from dataclasses import dataclass
from functools import partial
from pathlib import Path
from typing import Callable, List, Optional, Tuple

from . import answer, files, tasks, text
from .core import Core
from .errors import DeskError
from .layers import boiling_at, layers_of
from .layersheet import splitting
from .liquids import ONE_LAYER, Liquids
from .openbook import bracket_of, named, shown, yard_of
from .progress import Progress
from .question import Options, Question
from .search import NotShown
from .sheet import NamedBook
from .sweep import Setting, Sweep, azeotropes
from .yard import BoilingCheck, MixtureCheck, SolubilityCheck

GRID = 21  # points between which an azeotrope is looked for
MIXTURE_KELVIN, AZEOTROPE_LIMITS = 1.0, (0.5, 0.01)  # differences that pass, an azeotrope's in K and mole fraction
SOLUBILITY = 0.02  # relative difference that passes
PURE, MIXTURE, AZEOTROPE, HETEROAZEOTROPE, SOLUBLE = "pure", "mixture", "azeotrope", "heteroazeotrope", "solubility"


@dataclass(frozen=True)
class Finding:
    """One published point beside the computed one. A mixture has the fraction of the solvent in `of`, and an azeotrope
    or a solubility a computed one too; a solubility's temperature is given. `within` are limits that the text has."""

    kind: str
    what: str
    pascals: Optional[float]
    published: float
    computed: Optional[float]
    passed: bool
    of: str = ""
    published_fraction: Optional[float] = None
    fraction: Optional[float] = None
    within: Optional[Tuple[float, float]] = None


def check(path: str, program: Path) -> List[Finding]:
    yard = yard_of(path, files.read(path))
    if not yard.has_published:
        raise DeskError(f"{path} has no 'boiling point' and no 'azeotrope' to check")
    book = named(yard, path)
    asked: List[Callable[[Core], Finding]] = [
        partial(_boiling, book, name, known) for name, known in yard.boiling.items()
    ]
    asked += [partial(_mixture, book, pair, known) for pair, all_known in yard.mixtures.items() for known in all_known]
    asked += [partial(_azeotrope, book, pair, known) for pair, known in yard.azeotropes.items()]
    asked += [partial(_heteroazeotrope, book, pair, known) for pair, known in yard.heteroazeotropes.items()]
    asked += [
        partial(_solubility, book, pair, known) for pair, all_known in yard.solubilities.items() for known in all_known
    ]
    with Core(book.content, program) as core, Progress(shown(path), len(asked)) as progress:
        return [progress.stepped(find(core)) for find in asked]


def _boiling(book: NamedBook, name: str, known: BoilingCheck, core: Core) -> Finding:
    pure = tuple(float(other == name) for other in book.names)
    blocks = core.ask(Question(tasks.BUBBLE_TEMPERATURE, pure, pressure=known.pascals, options=_options(book)))
    computed = blocks.real(answer.T) if blocks.accepted else None
    return Finding(PURE, name, known.pascals, known.kelvin, computed, _near(computed, known.kelvin, known.within))


def _heteroazeotrope(book: NamedBook, pair: Tuple[str, str], known: MixtureCheck, core: Core) -> Finding:
    """Where the two layers boil together, and their vapor."""
    liquids, places = Liquids(core), (book.names.index(pair[0]), book.names.index(pair[1]))
    bracket = bracket_of(book)
    drum = splitting(liquids, len(book.names), places, None, known.pascals, bracket)
    try:
        boiling = boiling_at(liquids, drum, known.pascals, bracket)
    except NotShown:
        boiling = None
    computed = boiling.layers.kelvin if boiling else None
    fraction = boiling.vapor[book.names.index(known.solvent)] if boiling else None
    return _azeotropic(HETEROAZEOTROPE, pair, known, computed, fraction)


def _solubility(book: NamedBook, pair: Tuple[str, str], known: SolubilityCheck, core: Core) -> Finding:
    """In the layer that is rich in the other solvent."""
    liquids, places = Liquids(core), (book.names.index(pair[0]), book.names.index(pair[1]))
    drum = splitting(liquids, len(book.names), places, known.kelvin, None, Options.bracket)
    try:
        layers = layers_of(liquids, drum, known.kelvin)
    except NotShown:
        layers = None
    place = book.names.index(known.solvent)
    fraction = min(layers.first[place], layers.second[place]) if layers else None
    passed = _near(fraction, known.fraction, SOLUBILITY * known.fraction)
    what = f"{known.solvent} in {known.layer}"
    return Finding(SOLUBLE, what, None, known.kelvin, None, passed, known.solvent, known.fraction, fraction)


def _options(book: NamedBook) -> Options:
    return Options(bracket=bracket_of(book))


def _near(computed: Optional[float], published: float, within: float) -> bool:
    return computed is not None and abs(computed - published) <= within


def _sweep(core: Core, book: NamedBook, pair: Tuple[str, str], known: MixtureCheck) -> Sweep:
    """Over the fraction of the solvent that the published point names."""
    other = pair[1] if known.solvent == pair[0] else pair[0]
    first, second = book.names.index(known.solvent), book.names.index(other)
    return Sweep(core, Setting(book, first, second, pressure=known.pascals, options=_options(book)))


def _mixture(book: NamedBook, pair: Tuple[str, str], known: MixtureCheck, core: Core) -> Finding:
    point = _sweep(core, book, pair, known).bubble(known.fraction)
    computed = point.temperature if point else None
    passed = _near(computed, known.kelvin, MIXTURE_KELVIN)
    return Finding(
        MIXTURE, " and ".join(pair), known.pascals, known.kelvin, computed, passed, known.solvent, known.fraction
    )


def _azeotrope(book: NamedBook, pair: Tuple[str, str], known: MixtureCheck, core: Core) -> Finding:
    """The published azeotrope beside the computed one that is nearest to it."""
    sweep = _sweep(core, book, pair, known)
    crossings = azeotropes(sweep, [sweep.bubble(k / (GRID - 1)) for k in range(GRID)])
    found = [point for point in crossings if sweep.verdict(point) == ONE_LAYER]
    nearest = min(found, key=lambda point: abs(point.x - known.fraction), default=None)
    computed, fraction = (nearest.temperature, nearest.x) if nearest else (None, None)
    return _azeotropic(AZEOTROPE, pair, known, computed, fraction)


def _azeotropic(
    kind: str, pair: Tuple[str, str], known: MixtureCheck, computed: Optional[float], fraction: Optional[float]
) -> Finding:
    kelvin, most = known.within or AZEOTROPE_LIMITS
    passed = _near(computed, known.kelvin, kelvin) and _near(fraction, known.fraction, most)
    published = (known.pascals, known.kelvin, computed, passed, known.solvent, known.fraction)
    return Finding(kind, " and ".join(pair), *published, fraction, known.within)


def _temperatures(finding: Finding) -> List[str]:
    return [f"{finding.pascals:g}", f"{finding.published:.2f}", *_computed(finding.computed, finding.published, 2)]


def _boiling_row(finding: Finding) -> List[str]:
    return [finding.what, *_temperatures(finding), _verdict(finding)]


def _mixture_row(finding: Finding) -> List[str]:
    return [finding.what, f"{finding.of} {finding.published_fraction:g}", *_temperatures(finding), _verdict(finding)]


def _azeotrope_row(finding: Finding) -> List[str]:
    fractions = _computed(finding.fraction, finding.published_fraction, 4)
    return [
        finding.what,
        *_temperatures(finding),
        f"{finding.of} {finding.published_fraction:.3f}",
        *fractions,
        _verdict(finding),
    ]


def _solubility_row(finding: Finding) -> List[str]:
    fractions = _computed(finding.fraction, finding.published_fraction, 7)
    return [finding.what, f"{finding.published:.2f}", f"{finding.published_fraction:g}", *fractions, _verdict(finding)]


def _computed(value: Optional[float], published: float, digits: int) -> List[str]:
    return (
        ["none", ""]
        if value is None
        else [f"{value:.{digits}f}", f"{round(value - published, digits) + 0.0:+.{digits}f}"]
    )


def _verdict(finding: Finding) -> str:
    allowed = f", within {finding.within[0]:g} K and {finding.within[1]:g}" if finding.within else ""
    return ("yes" if finding.passed else "NO") + allowed


TEMPERATURE_HEADS = ("p, Pa", "published, K", "computed, K", "difference")
BOILING_HEADS = ("pure solvent", *TEMPERATURE_HEADS, "passed")
MIXTURE_HEADS = ("mixture", "x", *TEMPERATURE_HEADS, "passed")
AZEOTROPE_HEADS = ("azeotrope", *TEMPERATURE_HEADS, "published x", "computed x", "difference", "passed")


HETEROAZEOTROPE_HEADS = (
    "heterogeneous azeotrope", *TEMPERATURE_HEADS, "published y", "computed y", "difference", "passed"
)
SOLUBILITY_HEADS = ("solubility", "T, K", "published x", "computed x", "difference", "passed")
TABLES: Tuple[Tuple[str, Tuple[str, ...], Callable[[Finding], List[str]]], ...] = (
    (PURE, BOILING_HEADS, _boiling_row),
    (MIXTURE, MIXTURE_HEADS, _mixture_row),
    (AZEOTROPE, AZEOTROPE_HEADS, _azeotrope_row),
    (HETEROAZEOTROPE, HETEROAZEOTROPE_HEADS, _azeotrope_row),
    (SOLUBLE, SOLUBILITY_HEADS, _solubility_row),
)


def _tables(findings: List[Finding]):
    found = [(heads, [row(finding) for finding in findings if finding.kind == kind]) for kind, heads, row in TABLES]
    return [(heads, rows) for heads, rows in found if rows]


def listing(findings: List[Finding]) -> str:
    return "\n\n".join("\n".join(text.table(heads, rows)) for heads, rows in _tables(findings)) + "\n"


def markdown(findings: List[Finding]) -> str:
    def line(cells) -> str:
        return "| " + " | ".join(cells) + " |"

    return (
        "\n\n".join(
            "\n".join([line(heads), line(["---"] * len(heads))] + [line(row) for row in rows])
            for heads, rows in _tables(findings)
        )
        + "\n"
    )
