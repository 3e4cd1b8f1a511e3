"""The command line: its commands, their options and examples."""

import argparse
import re
from pathlib import Path
from typing import Any, Dict, List, NoReturn, Tuple

from . import batch, core, tasks, units
from .diagram import PRESSURE_UNITS, TEMPERATURE_UNITS
from .errors import DeskError, quoted, suggestion
from .question import Options
from .version import VERSION

YARD = core.ROOT / "yard" / "yard.txt"
NEGATIVE = re.compile(r"-[\d.]")

EXAMPLES = {
    "excess": "./sheet excess --drum ethanol=0.5,water=0.5 --temperature 70C",
    "bubble-pressure": "./sheet bubble-pressure --drum ethanol=0.3,water=0.7 --temperature 350K",
    "dew-pressure": "./sheet dew-pressure --drum ethanol=0.3,water=0.7 --temperature 350K",
    "bubble-temperature": "./sheet bubble-temperature --drum acetone=0.6,methanol=0.4 --pressure 101325Pa",
    "dew-temperature": (
        "./sheet dew-temperature --drum acetone=0.6,methanol=0.4 --pressure 1.01325bar --bracket 290K:400K"
    ),
    "stability": "./sheet stability --drum toluene=0.4,water=0.6 --temperature 25C",
    "flash": "./sheet flash --book yard/yard.txt --drum ethanol=0.5,water=0.5 --temperature 78.29C --pressure 90kPa",
    "rachford-rice": "./sheet rachford-rice --drum ethanol=0.5,water=0.5 --k ethanol=2,water=0.5",
    "rachford-rice-negative": "./sheet rachford-rice-negative --drum ethanol=0.5,water=0.5 --k ethanol=4,water=0.9",
}


DRUM_HELP = (
    "mole fractions by name or CAS number, or weights of all with their units (kg, g, t); other solvents are absent. "
    "Several --drum are pooled into one charge, by amounts in mol or kg"
)
MASS_HELP = "mass fractions in place of --drum"
DRUMS_HELP = (
    "many drums in place of --drum: a table as CSV with a column for each solvent and one called label, a line for "
    "each drum; the core is asked for up to 64 at a time"
)
TRY_HELP = (
    "a pair in place of the book's own, for this sheet alone, which says that it is a preview: a file with its section "
    "of a yard text, the section itself as 'pair NAME NAME: KEY = VALUE; KEY = VALUE', or a pair's block of 512 bytes"
)
FAR = "./sheet distance --drum ethanol=0.5,water=0.5 --temperature 78.29C --pressure 90kPa"
FLOOR_HELP = "half a page for the floor: outcome, T, p, vapor fraction, compositions, and whether the liquid splits"
FLOOR = "./sheet flash --drum ethanol=0.5,water=0.5 --temperature 78.29C --pressure 90kPa --floor"
TRYING = "./sheet bubble-temperature --drum ethanol=0.3,water=0.7 --pressure 1atm --try yard/try.txt"
MANY = "./sheet flash --drums yard/week.csv --temperature 76C --pressure 1bar"
SHIFT = "./sheet queue --questions yard/shift.csv --allowance 5000"
QUESTIONS_HELP = (
    "a table as CSV, a line for each flash: a column for each solvent and one called label as --drums has them, and "
    "columns temperature, pressure, max iterations, tolerance and threshold for what differs from line to line"
)
TEMPERATURE_HELP = "with its unit: 351.44K, 78.29C or 78.29°C"
PRESSURE_HELP = "with its unit: 90000Pa, 90kPa, 0.9bar, 900mbar, 1atm, 675mmHg, 675Torr or 13psi"
HIGHER_HELP = "a higher one can't change any accepted sheet"
BRACKET_HELP = "temperatures between which a point is looked for (default 273.16K:450K, narrowed to the book's ranges)"
LAYERS = (
    "./sheet layers --drum toluene=0.4,water=0.6 --temperature 25C",
    "./sheet layers --drum acetone=0.3,water=0.3,toluene=0.4 --pressure 1atm",
    "./sheet layers --pair toluene,water --pressure 101325Pa",
)
WEIGHED = (
    "./sheet flash --drum ethanol=40kg,water=12kg --temperature 80C --pressure 1atm",
    "./sheet bubble-temperature --mass ethanol=0.7,water=0.3 --pressure 1atm",
    "./sheet flash --drum ethanol=40kg,water=12kg --drum ethanol=9kmol,acetone=7mol --temperature 78C --pressure 1atm",
)
STATUSES = (
    "exit status: 0 an answer, 1 a refusal (of the core, or no layers that can be shown, or a question that the queue\n"
    "put off), 2 bad usage, 3 an answer that is not what it looks like: the sheet says so above its numbers"
)


class Parser(argparse.ArgumentParser):
    """Complaints are one line, raised."""

    def __init__(self, **settings):
        settings.setdefault("formatter_class", argparse.RawDescriptionHelpFormatter)
        super().__init__(allow_abbrev=False, **settings)

    def error(self, message: str) -> NoReturn:
        raise DeskError(f"{message} ({self.prog} --help shows how)")


def joined_negatives(argv: List[str]) -> List[str]:
    """`--threshold -1e-8` as `--threshold=-1e-8`, which would otherwise be taken for an option."""
    joined: List[str] = []
    for argument in argv:
        if NEGATIVE.match(argument) and joined and joined[-1].startswith("--") and "=" not in joined[-1]:
            joined[-1] += f"={argument}"
        else:
            joined.append(argument)
    return joined


def parser() -> Parser:
    top = Parser(
        prog="./sheet",
        description="Sheets of a solvent still, answered by the proved program target/bin/still.",
        epilog="examples:\n  ./sheet demo\n  "
        + "\n  ".join(EXAMPLES.values())
        + "\n  ./sheet strike flash --drum ethanol=0.5,water=0.5 --temperature 78.29C --pressure 90kPa"
        + "\n  "
        + "\n  ".join((*WEIGHED, MANY, SHIFT, TRYING, FAR, FLOOR, *LAYERS))
        + "\n  ./sheet diagram txy --pair ethanol,water --pressure 101325Pa -o txy.svg"
        + f"\n\n{STATUSES}",
    )
    top.add_argument("--version", action="version", version=f"sheet {VERSION}")
    commands = top.add_subparsers(dest="command", metavar="COMMAND", required=True, parser_class=Parser)
    for task in tasks.TASKS:
        _add_task(commands, task)
    _add_layers(commands)
    _add_distance(commands)
    _add_queue(commands)
    _add_strike(commands)
    _add_diagram(commands)
    _add_book(commands)
    _add_show(commands)
    _add_check_yard(commands)
    _add_refusals(commands)
    _add_demo(commands)
    _add_help(commands)
    return top


def commands_of(top: Parser) -> Dict[str, Parser]:
    """The commands with their own parsers."""
    actions = (action for action in top._actions if isinstance(action, argparse._SubParsersAction))
    return dict(next(actions).choices)


def expect_known(argv: List[str], top: Parser) -> None:
    """A mistyped command or option is named with its nearest neighbour, before anything is said to be missing."""
    if not argv or argv[0].startswith("-"):
        return _expect_options(argv, top, "./sheet")
    known = commands_of(top)
    if argv[0] not in known:
        raise DeskError(f"{quoted(argv[0])} is no command{suggestion(argv[0], known)} (./sheet --help lists them)")
    return _expect_options(argv[1:], known[argv[0]], argv[0])


def _expect_options(argv: List[str], command: Parser, name: str) -> None:
    known = list(command._option_string_actions)
    for argument in argv:
        option = argument.split("=", 1)[0]
        if option == "--drums" and name in tasks.BY_COMMAND and option not in known:
            many = ", ".join(task.command for task in batch.TASKS)
            raise DeskError(f"{name} takes one drum at a time; many go to {many}, which have one temperature for all")
        if option.startswith("--") and len(option) > 2 and option not in known:
            raise DeskError(
                f"{option} is no option of {name}{suggestion(option, known)} ({command.prog} --help shows how)"
            )


def _add(commands, name: str, about: str, *examples: str) -> Parser:
    return commands.add_parser(
        name, help=about, description=about[0].upper() + about[1:] + ".", epilog="examples:\n  " + "\n  ".join(examples)
    )


def _add_task(commands, task: tasks.Task) -> None:
    example = EXAMPLES[task.command]
    command = _add(
        commands,
        task.command,
        task.about,
        example,
        f"{example} --json",
        example.replace("./sheet ", "./sheet strike ", 1),
    )
    _add_book_options(command)
    _add_try(command)
    feed = _add_feed(command)
    command.set_defaults(drums=None)
    if task in batch.TASKS:
        feed.add_argument("--drums", metavar="FILE", help=DRUMS_HELP)
        _add_list_options(command)
    _add_sheet_options(command)
    if task.takes_temperature:
        command.add_argument("--temperature", required=True, metavar="T", help=TEMPERATURE_HELP)
    if task.takes_pressure:
        command.add_argument("--pressure", required=True, metavar="P", help=PRESSURE_HELP)
    if task.takes_k:
        command.add_argument(
            "--k", action="append", required=True, metavar="NAME=K,NAME=K", help="K values of the solvents in the drum"
        )
        _add_limit(command)
    if task.takes_options:
        _add_options(command)
    command.add_argument("--floor", action="store_true", help=FLOOR_HELP)
    command.add_argument(
        "--strike", action="store_true", help="ask again with the drum's solvents alone, and compare word by word"
    )
    command.add_argument("--words", action="store_true", help="with --strike: list every word that was compared")


def _add_feed(command: Parser):
    feed = command.add_mutually_exclusive_group(required=True)
    feed.add_argument("--drum", action="append", metavar="NAME=X,NAME=X", help=DRUM_HELP)
    feed.add_argument("--mass", action="append", metavar="NAME=W,NAME=W", help=MASS_HELP)
    return feed


def _add_list_options(command: Parser) -> None:
    command.add_argument(
        "--by-mass", action="store_true", help="of a list: its numbers without a unit are mass fractions"
    )
    command.add_argument("--skip", metavar="NAME,NAME", help="of a list: columns to pass over")
    command.add_argument("--csv", action="store_true", help="of a list: a table for a spreadsheet, with all digits")


def _add_sheet_options(command: Parser) -> None:
    command.add_argument("--label", default="", help="what the drum's label says; printed at the head of the sheet")
    command.add_argument(
        "--normalize", action="store_true", help="divide the fractions by their sum; the sheet shows both"
    )
    command.add_argument(
        "--details",
        action="store_true",
        help="all digits, task number, iterations, residual, balance, evaluations and every trial",
    )
    command.add_argument(
        "--json", action="store_true", help="machine-readable; with --details the exact bits of each float too"
    )


def _add_layers(commands) -> None:
    command = _add(
        commands,
        "layers",
        "the two liquids that a drum splits in at a temperature, or where they boil; a pair's heterogeneous azeotrope",
        *LAYERS,
    )
    _add_book_options(command)
    _add_try(command)
    command.add_argument("--drum", action="append", metavar="NAME=X,NAME=X", help=DRUM_HELP)
    command.add_argument("--mass", action="append", metavar="NAME=W,NAME=W", help=MASS_HELP)
    command.add_argument(
        "--pair", metavar="NAME,NAME", help="in place of a drum: a pair's two layers, or its heterogeneous azeotrope"
    )
    command.add_argument("--temperature", metavar="T", help=f"of the layers, {TEMPERATURE_HELP}")
    command.add_argument("--pressure", metavar="P", help=f"at which the layers boil, {PRESSURE_HELP}")
    command.add_argument("--bracket", metavar="LOW:HIGH", help=BRACKET_HELP)
    _add_sheet_options(command)


def _add_distance(commands) -> None:
    command = _add(
        commands,
        "distance",
        "how far the pressure can rise or fall, in steps of 100 Pa, until a drum's phases change",
        FAR,
        f"{FAR} --both",
        "./sheet distance --drum ethanol=40kg,water=12kg --temperature 80C --pressure 1atm --both --details",
    )
    _add_book_options(command)
    _add_try(command)
    _add_feed(command)
    command.add_argument("--temperature", required=True, metavar="T", help=TEMPERATURE_HELP)
    command.add_argument("--pressure", required=True, metavar="P", help=f"from which the steps go, {PRESSURE_HELP}")
    command.add_argument(
        "--both", action="store_true", help="the nearest change upwards and downwards, not the nearest of both alone"
    )
    _add_sheet_options(command)
    _add_options(command)


def _add_queue(commands) -> None:
    command = _add(
        commands,
        "queue",
        "a shift's flashes in order, as far as one allowance of activity evaluations goes; what doesn't fit is put off",
        SHIFT,
        f"{SHIFT} --max-iterations 100 --details",
        "./sheet queue --questions drums.csv --temperature 76C --pressure 1bar --allowance 20000 --csv",
    )
    _add_book_options(command)
    command.add_argument("--questions", required=True, metavar="FILE", help=QUESTIONS_HELP)
    command.add_argument(
        "--allowance",
        required=True,
        metavar="N",
        help="evaluations that may be begun: a flash of m solvents asks for (m + 2) times its --max-iterations, and 4",
    )
    command.add_argument("--temperature", metavar="T", help=f"of lines that have none, {TEMPERATURE_HELP}")
    command.add_argument("--pressure", metavar="P", help=f"of lines that have none, {PRESSURE_HELP}")
    command.set_defaults(tried=None)  # the core has no call for both
    _add_list_options(command)
    _add_sheet_options(command)
    _add_options(command, ", but more of the allowance is asked for")


def _add_try(command: Parser) -> None:
    command.add_argument("--try", dest="tried", metavar="PAIR", help=TRY_HELP)


def _add_book_options(command: Parser) -> None:
    command.add_argument(
        "--book", default=str(YARD), metavar="FILE", help="a yard text or a book.bin (default: yard/yard.txt)"
    )
    command.add_argument("--names", metavar="TEXT", help="the yard text that names the solvents of a book.bin")
    _add_program(command)


def _add_program(command: Parser) -> None:
    command.add_argument(
        "--program",
        type=Path,
        default=core.PROGRAM,
        metavar="FILE",
        help="the program still (default: target/bin/still)",
    )


def _add_limit(command: Parser, besides: str = "") -> None:
    command.add_argument(
        "--max-iterations",
        metavar="M",
        help=f"limit of iterations (default {Options.max_iterations}); {HIGHER_HELP}{besides}",
    )


def _add_options(command: Parser, of_limit: str = "") -> None:
    _add_limit(command, of_limit)
    command.add_argument("--tolerance", metavar="E", help=f"largest ln fugacity residual (default {Options.tolerance})")
    command.add_argument(
        "--max-temperature-iterations",
        metavar="M",
        help=f"limit of temperatures tried (default {Options.max_temperature_iterations}); {HIGHER_HELP}",
    )
    command.add_argument(
        "--energy-tolerance",
        metavar="E",
        help=f"tested by the core, used by no task (default {Options.energy_tolerance})",
    )
    command.add_argument(
        "--threshold",
        metavar="TM",
        help=f"tangent-plane distance below which a liquid splits (default {Options.tm_threshold})",
    )
    command.add_argument("--bracket", metavar="LOW:HIGH", help=BRACKET_HELP)


def options_of(arguments: argparse.Namespace, bracket: Tuple[float, float]) -> Options:
    """The options given, each read with its name; the bracket of the book, and the others as they are."""
    given: Dict[str, Any] = {"bracket": bracket}
    readers = (
        ("max_iterations", units.whole, "max_iterations"),
        ("tolerance", units.number, "tolerance"),
        ("max_temperature_iterations", units.whole, "max_temperature_iterations"),
        ("energy_tolerance", units.number, "energy_tolerance"),
        ("threshold", units.number, "tm_threshold"),
        ("bracket", _bracket, "bracket"),
    )
    for name, reader, field in readers:
        text = getattr(arguments, name, None)
        if text is not None:
            given[field] = reader(text, "--" + name.replace("_", "-"))
    return Options(**given)


def _bracket(text: str, what: str) -> Tuple[float, ...]:
    ends = text.split(":")
    if len(ends) != 2:
        raise DeskError(f"{what}: '{text}' is not LOW:HIGH, as in 300K:400K")
    return tuple(units.temperature(end, what) for end in ends)


def _add_strike(commands) -> None:
    command = _add(
        commands,
        "strike",
        "ask a question with and without the solvents that aren't in the drum, and compare the two sheets word by word",
        "./sheet strike flash --drum ethanol=0.5,water=0.5 --temperature 78.29C --pressure 90kPa",
        "./sheet strike excess --drum acetone=0.2,methanol=0.8 --temperature 50C --words",
    )
    command.add_argument(
        "task",
        choices=sorted(tasks.BY_COMMAND),
        metavar="COMMAND",
        help="one of the nine; its own options follow (./sheet COMMAND --help)",
    )


def _add_diagram(commands) -> None:
    command = _add(
        commands,
        "diagram",
        "draw a pair's T-x-y, p-x-y or x-y diagram as SVG",
        "./sheet diagram txy --pair ethanol,water --pressure 101325Pa -o txy.svg",
        "./sheet diagram pxy --pair acetone,methanol --temperature 50C -o pxy.svg --unit mmHg",
        "./sheet diagram xy --pair ethanol,water --pressure 101325Pa -o xy.svg",
    )
    command.add_argument("kind", choices=("txy", "pxy", "xy"))
    _add_book_options(command)
    _add_try(command)
    command.add_argument("--pair", required=True, metavar="NAME,NAME", help="the first one's mole fraction is drawn")
    command.add_argument("--temperature", metavar="T", help="held in pxy, and in xy if no pressure is given")
    command.add_argument("--pressure", metavar="P", help="held in txy, and in xy if no temperature is given")
    command.add_argument("--points", default="101", metavar="N", help="points of a curve, 3 to 2001 (default 101)")
    command.add_argument(
        "--unit",
        choices=sorted({*TEMPERATURE_UNITS, *PRESSURE_UNITS}),
        help="of the upward axis (default C in txy, kPa in pxy)",
    )
    _add_options(command)
    command.add_argument(
        "-o", "--output", required=True, metavar="FILE", help="the .svg or .png to write; - is standard output (SVG)"
    )


def _add_book(commands) -> None:
    command = _add(
        commands,
        "book",
        "make book.bin from a yard text",
        "./sheet book yard/yard.txt -o book.bin",
        "./sheet book yard/yard.txt -o book.bin --book-version 1",
    )
    command.add_argument("text", help="the yard text; docs/GUIDE.md lists its keys, yard/yard.txt is one")
    command.add_argument(
        "-o", "--output", required=True, metavar="FILE", help="the book.bin to write; - is standard output"
    )
    command.add_argument(
        "--book-version",
        choices=("1", "2", "3"),
        help="for a desk that knows no later one: 1 has no molar masses, 2 has them, 3 finds exchanged words too "
        "(default: 3 where the text has every molar mass, else 1; a Wilson book is of 2 or 3)",
    )


def _add_show(commands) -> None:
    command = _add(
        commands,
        "show",
        "list a book's solvents, ranges, pairs and sources",
        "./sheet show yard/yard.txt",
        "./sheet show crates/still/data/book.bin --text",
    )
    command.add_argument("book", help="a yard text or a book.bin")
    command.add_argument("--text", action="store_true", help="write it as a yard text")


def _add_check_yard(commands) -> None:
    command = _add(
        commands,
        "check-yard",
        "hold a yard's boiling points and azeotropes against the published ones in its text (status 1 if one is too "
        "far off)",
        "./sheet check-yard",
        "./sheet check-yard --book yard/alcohols.txt --markdown",
    )
    command.add_argument("--book", default=str(YARD), metavar="FILE", help="a yard text (default: yard/yard.txt)")
    _add_program(command)
    command.add_argument("--markdown", action="store_true", help="the tables of docs/YARD.md and docs/ALCOHOLS.md")


def _add_refusals(commands) -> None:
    command = _add(commands, "refusals", "explain refusal numbers", "./sheet refusals", "./sheet refusals 27")
    command.add_argument("number", nargs="*", help="those to explain (default: all)")


def _add_demo(commands) -> None:
    command = _add(
        commands,
        "demo",
        "build the program if it is missing or older than the crates, and show a sheet for a sample drum",
        "./sheet demo",
    )
    _add_program(command)


def _add_help(commands) -> None:
    command = _add(commands, "help", "show this page, or that of a command", "./sheet help", "./sheet help flash")
    command.add_argument("about", nargs="?", metavar="COMMAND", help="the command to explain")
