"""What each command does."""

import argparse
import contextlib
import os
import sys
from dataclasses import replace
from typing import Iterator, List, Optional, Tuple, Union

from . import (
    answer, batch, building, core, diagram, distancereport, drumlist, explain, files, floorreport, jsonsheet
)
from . import layersreport, library, listreport, picture, places, queuereport, readers, refusals, report, strikereport
from . import tasks, text, units, yardcheck
from .arguments import commands_of, options_of, parser
from .book import VERSION, Model, encode
from .distancesheet import distance_sheet
from .errors import DeskError, quoted, suggestion
from .feed import Feed
from .judgement import Mark, judged
from .layersheet import layers_sheet
from .listsheet import MARKED as MARKED_ROW
from .listsheet import REFUSED as REFUSED_ROW
from .listsheet import RowSheet, list_sheet
from .openbook import bracket_of, feed_of, is_binary, k_values_of, open_book, open_yard, place_of, shown, yard_of
from .preview import Preview
from .question import Question
from .queuesheet import PUT_OFF, SETTINGS, question_of, queue_sheet
from .ranges import Ranges, ranges_at
from .sheet import SHORT, NamedBook, Sheet, checksum, today
from .showbook import listing
from .sweep import Setting, curves
from .tried import Tried, offered_of, trying
from .yard import Yard
from .yardwrite import write

MOST_POINTS = 2001
REFUSED, MARKED = 1, 3  # exit status
LIST_OPTIONS = ("by_mass", "skip", "csv")  # that say nothing of one drum
DEMO = (
    "flash",
    "--label",
    "sample drum",
    "--drum",
    "ethanol=0.45,water=0.35,acetone=0.2",
    "--temperature",
    "72C",
    "--pressure",
    "101.325kPa",
)


def ask(arguments: argparse.Namespace) -> int:
    """One of the nine tasks."""
    if arguments.drums is not None:
        return ask_many(arguments)
    for option in LIST_OPTIONS:
        if getattr(arguments, option, None):
            raise DeskError(f"--{option.replace('_', '-')} belongs to --drums")
    if arguments.floor and (arguments.details or arguments.strike):
        other = "--details" if arguments.details else "strike"
        raise DeskError(f"--floor is half a sheet, and {other} takes a whole one")
    with _asked(arguments, tasks.BY_COMMAND[arguments.command]) as (_, sheet):
        pass
    if arguments.strike:
        return _strike(arguments, sheet)
    if arguments.floor:
        _show_floor(arguments, sheet)
    else:
        sys.stdout.write((jsonsheet if arguments.json else report).render(sheet, arguments.details))
    return _ended(sheet, sheet.judgement.mark)


def ask_distance(arguments: argparse.Namespace) -> int:
    """From a drum's flash to the next phase change."""
    with _asked(arguments, tasks.FLASH, "zektonk_distance_placed") as (program, flash):
        sheet = distance_sheet(program, flash, arguments.both)
        if flash.tried and flash.tried.own:
            sheet = replace(sheet, own=distance_sheet(program.core, flash.tried.own))
    if arguments.json:
        sys.stdout.write(jsonsheet.dumped(distancereport.document(sheet, arguments.details)))
    else:
        sys.stdout.write(distancereport.render(sheet, arguments.details))
    return _ended(flash, sheet.mark)


@contextlib.contextmanager
def _asked(arguments: argparse.Namespace, task: tasks.Task, call: str = "") -> Iterator[Tuple["Asked", Sheet]]:
    """One drum's sheet, and who was asked; with a pair that is tried also by the book itself."""
    book = open_book(arguments.book, arguments.names)
    feed = feed_of(book, arguments.drum, arguments.mass, arguments.normalize)
    question = _question(arguments, book, feed, task)
    with _asking(arguments, book, call) as (program, asked, tried):
        sheet = _sheet(program, asked, feed, question)
        if tried and sheet.blocks.refusal not in batch.OF_THE_BOOK:
            tried = replace(tried, own=_sheet(program.core, book, feed, question, advise=False))
        yield program, replace(sheet, label=_label(arguments), date=today(), tried=tried)


def _show_floor(arguments: argparse.Namespace, sheet: Sheet) -> None:
    """By the library's reader where it is built, as the core is asked."""
    by_library = arguments.program == core.PROGRAM and library.offers("zektonk_floor")
    floor = (library if by_library else readers).floor(sheet.blocks.content)
    if arguments.json:
        sys.stdout.write(jsonsheet.dumped(floorreport.document(sheet, floor)))
    else:
        sys.stdout.write(floorreport.render(sheet, floor))


Asked = Union[core.Core, library.Library, Preview]


def _sheet(program: Asked, book: NamedBook, feed: Feed, question: Question, advise: bool = True) -> Sheet:
    blocks = program.ask_pooled(question, feed.charge.counts) if feed.charge else program.ask(question)
    sheet = Sheet(book, feed, question, blocks, judged(program, book, question, blocks, advise, feed))
    return replace(sheet, ranges=_ranges(program, sheet))


@contextlib.contextmanager
def _asking(
    arguments: argparse.Namespace, book: NamedBook, call: str = ""
) -> Iterator[Tuple[Asked, NamedBook, Optional[Tried]]]:
    """Who is asked, and about which book: with --try about a copy that holds the pair. The library is asked where it is
    built and has the call that is wanted; else the program, and where one was named."""
    offered = offered_of(book, arguments.tried) if arguments.tried is not None else None
    call = "zektonk_preview_placed" if offered else call
    if call and arguments.program == core.PROGRAM and library.offers(call):
        opened = library.Library(book.content)
    else:
        opened = core.Core(book.content, arguments.program)
    with opened:
        try:
            yield trying(opened, book, offered) if offered else (opened, book, None)
        except batch.CallRefused as refused:
            raise refused.of(book.names) from None


def _expect_offered(tried: Optional[Tried]) -> None:
    """Where there is no sheet that could say that the pair is refused."""
    if tried and tried.refusal:
        whose = places.named(places.OFFERED, (), tried.names)
        raise batch.CallRefused(tried.refusal, places.OFFERED, whose=whose)


def ask_many(arguments: argparse.Namespace) -> int:
    """Of one of the tasks at a temperature, a list of drums."""
    if arguments.strike:
        raise DeskError("strike takes one drum at a time, --drum or --mass")
    if arguments.floor:
        raise DeskError("--floor takes one drum at a time, --drum or --mass; --drums has a table of its own")
    _expect_one_form(arguments)
    book = open_book(arguments.book, arguments.names)
    drums = drumlist.read(arguments.drums, book, arguments.by_mass, arguments.normalize, _skip(arguments))
    question = _question(arguments, book, Feed(()), tasks.BY_COMMAND[arguments.command])
    with _asking(arguments, book, "zektonk_feeds_placed") as (program, asked, tried):
        _expect_offered(tried)
        sheet = list_sheet(program, asked, shown(arguments.drums), drums, question, _label(arguments), tried)
    return _printed(arguments, sheet, listreport)


def ask_queue(arguments: argparse.Namespace) -> int:
    """A shift's flashes under one allowance."""
    _expect_one_form(arguments)
    allowance = units.whole(arguments.allowance, "--allowance")
    book, path = open_book(arguments.book, arguments.names), arguments.questions
    drums = drumlist.read(path, book, arguments.by_mass, arguments.normalize, _skip(arguments), SETTINGS)
    given = {
        name: getattr(units, name)(getattr(arguments, name), f"--{name}")
        for name in ("temperature", "pressure")
        if getattr(arguments, name) is not None
    }
    options = options_of(arguments, bracket_of(book))
    try:
        questions = [question_of(drum, given, options) for drum in drums]
    except DeskError as error:
        raise DeskError(f"{path}, {error}") from None
    with _asking(arguments, book, "zektonk_queue_placed") as (program, _, _):
        sheet = queue_sheet(program, book, shown(path), drums, questions, allowance, _label(arguments))
    return _printed(arguments, sheet, queuereport)


def _expect_one_form(arguments: argparse.Namespace) -> None:
    if arguments.csv and arguments.json:
        raise DeskError("--csv and --json are two forms of one sheet; give one of them")


def _skip(arguments: argparse.Namespace) -> List[str]:
    return [name.strip() for name in arguments.skip.split(",")] if arguments.skip else []


def _printed(arguments: argparse.Namespace, sheet: RowSheet, form) -> int:
    """A list in the form asked for, and its status."""
    if arguments.csv:
        sys.stdout.write(form.written(sheet))
    elif arguments.json:
        sys.stdout.write(jsonsheet.dumped(form.document(sheet, arguments.details)))
    else:
        sys.stdout.write(form.render(sheet, arguments.details))
    if sheet.line():
        sys.stdout.flush()
        print(f"sheet: {sheet.line()}", file=sys.stderr)
    if sheet.of(REFUSED_ROW) or sheet.of(PUT_OFF):
        return REFUSED
    return MARKED if sheet.of(MARKED_ROW) else 0


def _label(arguments: argparse.Namespace) -> str:
    return " ".join(arguments.label.split())


def _ranges(program: Asked, sheet: Sheet) -> Optional[Ranges]:
    """At the temperature found or asked; none of a refusal, and of a split by given K values."""
    if sheet.question.task.takes_k or sheet.blocks.refusal:
        return None
    asked = sheet.question.temperature
    kelvin = sheet.blocks.real(answer.T) if asked is None else asked
    return ranges_at(program, sheet.book, sheet.moles, kelvin)


def _question(arguments: argparse.Namespace, book: NamedBook, feed: Feed, task: tasks.Task) -> Question:
    return Question(
        task,
        feed.fractions,
        units.temperature(arguments.temperature, "--temperature") if task.takes_temperature else None,
        units.pressure(arguments.pressure, "--pressure") if task.takes_pressure else None,
        k_values_of(book, ",".join(arguments.k), feed.fractions) if task.takes_k else None,
        options_of(arguments, bracket_of(book)),
        feed.by_mass,
    )


def _ended(sheet: Sheet, mark: Optional[Mark]) -> int:
    """The status, and for a refusal or a mark one line on standard error."""
    number = sheet.blocks.refusal
    if number or mark:
        sys.stdout.flush()
        refused = f"{explain.line(sheet)}{explain.hint(sheet)}" if number else ""
        print(f"sheet: {'; '.join(filter(None, (refused, mark.line if mark else '')))}", file=sys.stderr)
    return REFUSED if number else MARKED if mark else 0


def _strike(arguments: argparse.Namespace, sheet: Sheet) -> int:
    struck = strikereport.struck(sheet, arguments.program)
    if arguments.json:
        document = jsonsheet.document(sheet, arguments.details)
        sys.stdout.write(jsonsheet.dumped({**document, "strike": strikereport.document(struck, arguments.words)}))
    else:
        sys.stdout.write(report.render(sheet, arguments.details) + "\n" + strikereport.render(struck, arguments.words))
    if struck.comparisons is not None and not struck.equal:
        sys.stdout.flush()
        print("sheet: the two sheets differ", file=sys.stderr)
        return REFUSED
    return _ended(sheet, sheet.judgement.mark)


def layers(arguments: argparse.Namespace) -> int:
    """Two layers at T, or where they boil at p."""
    book = open_book(arguments.book, arguments.names)
    if sum(given is not None for given in (arguments.drum, arguments.mass, arguments.pair)) != 1:
        raise DeskError("layers takes --drum, --mass or --pair, and one of them alone")
    if arguments.temperature is None and arguments.pressure is None:
        raise DeskError("layers takes --temperature, --pressure or both")
    kelvin = units.temperature(arguments.temperature, "--temperature") if arguments.temperature else None
    pascals = units.pressure(arguments.pressure, "--pressure") if arguments.pressure else None
    pair = _pair(arguments.pair, book) if arguments.pair is not None else None
    feed = None if pair else feed_of(book, arguments.drum, arguments.mass, arguments.normalize)
    bracket = options_of(arguments, bracket_of(book)).bracket
    with _asking(arguments, book) as (program, asked, tried):
        _expect_offered(tried)
        sheet = layers_sheet(program, asked, feed, pair, kelvin, pascals, bracket, _label(arguments), tried)
    if arguments.json:
        sys.stdout.write(jsonsheet.dumped(layersreport.document(sheet, arguments.details)))
    else:
        sys.stdout.write(layersreport.render(sheet, arguments.details))
    if sheet.reason:
        sys.stdout.flush()
        print(f"sheet: no layers can be shown: {sheet.reason}", file=sys.stderr)
    return REFUSED if sheet.reason else 0


def draw(arguments: argparse.Namespace) -> int:
    setting = _setting(arguments)
    picture.expect_drawable(arguments.output)
    unit = _axis_unit(arguments.kind, arguments.unit)
    points = units.whole(arguments.points, "--points")
    if not 3 <= points <= MOST_POINTS:
        raise DeskError(f"--points: {points} is not from 3 to {MOST_POINTS}")
    with _asking(arguments, setting.book) as (program, asked, tried):
        _expect_offered(tried)
        setting = replace(setting, book=asked, tried=tried)
        found = curves(program, setting, points, with_dew=arguments.kind != "xy")
    if arguments.kind == "xy":
        drawn = diagram.composition(setting, found)
    else:
        drawn = diagram.saturation(arguments.kind, setting, found, unit)
    picture.write(arguments.output, drawn)
    to_output = arguments.output == picture.STANDARD_OUTPUT
    name = "diagram" if to_output else arguments.output
    said = [f"{name}: {diagram.title_of(arguments.kind, setting)}"]
    said += [f"  {line}" for line in diagram.findings(arguments.kind, setting, found, unit)]
    print("\n".join(said), file=sys.stderr if to_output else sys.stdout)
    return 0


def _setting(arguments: argparse.Namespace) -> Setting:
    held = _held(arguments)
    value = getattr(units, held)(getattr(arguments, held), f"--{held}")
    book = open_book(arguments.book, arguments.names)
    first, second = _pair(arguments.pair, book)
    return Setting(book, first, second, **{held: value}, options=options_of(arguments, bracket_of(book)))


def _held(arguments: argparse.Namespace) -> str:
    """Which of temperature and pressure the diagram holds; exactly that one is given."""
    due = {"txy": ("pressure",), "pxy": ("temperature",), "xy": ("pressure", "temperature")}[arguments.kind]
    given = [name for name in ("pressure", "temperature") if getattr(arguments, name) is not None]
    if len(given) != 1 or given[0] not in due:
        raise DeskError(f"diagram {arguments.kind} takes {' or '.join(f'--{name}' for name in due)}, and that alone")
    return given[0]


def _pair(text: str, book: NamedBook) -> Tuple[int, int]:
    names = text.split(",")
    if len(names) != 2:
        raise DeskError(f"--pair: {quoted(text)} is not NAME,NAME")
    first, second = (place_of(book, name.strip()) for name in names)
    if first == second:
        raise DeskError(f"--pair: {quoted(text)} names one solvent twice")
    return first, second


def _axis_unit(kind: str, unit: Optional[str]) -> str:
    allowed, default = {
        "txy": (diagram.TEMPERATURE_UNITS, "C"), "pxy": (diagram.PRESSURE_UNITS, "kPa"), "xy": ((), "")
    }[kind]
    if unit is not None and unit not in allowed:
        raise DeskError(
            f"--unit: {unit} is no unit of the upward axis of {kind}" + (f" ({', '.join(allowed)})" if allowed else "")
        )
    return unit or default


def make_book(arguments: argparse.Namespace) -> int:
    content = files.read(arguments.text)
    if is_binary(content):
        raise DeskError(f"{arguments.text} is not a yard text")
    yard = yard_of(arguments.text, content)
    if os.path.realpath(arguments.output) == os.path.realpath(arguments.text):
        raise DeskError(f"{arguments.output} is the text itself; give the book another name")
    version = _book_version(arguments.book_version, yard)
    book = encode(yard.book, version)
    said = (
        f"{text.counted(len(yard.names), 'solvent')}, {text.counted(len(yard.book.pairs), 'pair')}, "
        f"{yard.book.model.title}, {len(book)} bytes, version {version}"
    )
    if yard.lacking and len(yard.lacking) < len(yard.names):
        said += f" (no molar mass of {', '.join(yard.lacking)})"
    if arguments.output == picture.STANDARD_OUTPUT:
        sys.stdout.flush()
        sys.stdout.buffer.write(book)
        return 0
    files.write_whole(arguments.output, book)
    print(f"{arguments.output}: {said}, SHA-256 {checksum(book)[:SHORT]}")
    return 0


def _book_version(asked: Optional[str], yard: Yard) -> int:
    """The one asked for, or the latest that the text has the numbers for."""
    if asked and asked != str(VERSION) and yard.lacking:
        raise DeskError(
            f"--book-version: version {asked} needs the molar mass of every solvent, and the text lacks that of "
            + ", ".join(yard.lacking)
        )
    if asked == str(VERSION) and yard.book.model is not Model.NRTL:
        raise DeskError(f"--book-version: version 1 has NRTL alone, and the text's model is {yard.book.model.title}")
    return int(asked) if asked else yard.book.version


def show(arguments: argparse.Namespace) -> int:
    yard = open_yard(arguments.book)
    sys.stdout.write(write(yard) if arguments.text else listing(yard))
    return 0


def check_yard(arguments: argparse.Namespace) -> int:
    findings = yardcheck.check(arguments.book, arguments.program)
    sys.stdout.write((yardcheck.markdown if arguments.markdown else yardcheck.listing)(findings))
    return 0 if all(finding.passed for finding in findings) else 1


def explain_numbers(arguments: argparse.Namespace) -> int:
    numbers = [units.whole(word, "refusal number") for word in arguments.number] or sorted(refusals.REFUSALS)
    for number in numbers:
        if number not in refusals.REFUSALS:
            raise DeskError(f"{number} is no refusal number; they are {refusals.numbers()}")
    for number in numbers:
        print(f"{number:2}  {refusals.matter(number)}\n    what to do: {refusals.advice(number)}")
        for command, advice in refusals.REFUSALS[number].by_command.items():
            print(f"    after {command}: {advice}")
        if number in refusals.OFFERED:
            print(f"    of a pair that is tried: {refusals.OFFERED[number]}")
    return 0


def demo(arguments: argparse.Namespace) -> int:
    if arguments.program == core.PROGRAM and building.is_stale():
        print(
            "sheet: proving and building the program still (scripts/program); the first time this takes minutes",
            file=sys.stderr,
        )
        building.build()
    return ask(parser().parse_args([*DEMO, "--program", str(arguments.program)]))


def show_help(arguments: argparse.Namespace) -> int:
    top = parser()
    known = commands_of(top)
    if arguments.about and arguments.about not in known:
        raise DeskError(
            f"{quoted(arguments.about)} is no command{suggestion(arguments.about, known)} (./sheet help lists them)"
        )
    (known[arguments.about] if arguments.about else top).print_help()
    return 0
