"""The C examples: built with all warnings as errors, and what they print."""

import dataclasses
import os
import shutil

import desk
from nine import NINE
from support import C, HEADER, ROOT, STILL, WARNINGS, InFolder

BOOK = STILL / "data" / "book.bin"
QUESTION = STILL / "stdin"
PRESSURES = (70000.0, 120000.0)  # Pa: all vapor, all liquid
STORE = os.environ.get("BINDINGS_STORE") == "yes"  # scripts/c-example --store


class Examples(InFolder):
    def assert_stored(self, name: str, found: str) -> None:
        if STORE:
            (C / name).write_text(found, encoding="utf-8")
        self.assertEqual(found, (C / name).read_text(encoding="utf-8"))

    def test_flash_labels_the_words_by_the_task(self):
        program = self.compiled(C / "flash.c")
        single = [dataclasses.replace(NINE[7], pressure=pressure) for pressure in PRESSURES]
        one_sided = dataclasses.replace(NINE[8], k_values=(2.0, 2.0))
        asked = [*NINE.values(), *single, one_sided]
        printed = "\n".join(self.printed(program, BOOK.read_bytes(), question.block()) for question in asked)
        self.assert_stored("flash.txt", printed)
        self.assertEqual(QUESTION.read_bytes(), NINE[7].block())

    def printed(self, program, book: bytes, question: bytes, status: int = 0) -> str:
        (self.folder / "book").write_bytes(book)
        (self.folder / "question").write_bytes(question)
        if status == 0:
            return self.run_in_folder(program, "book", "question").stdout.decode("ascii")
        run = self.run_in_folder("sh", "-c", f'"{program}" book question; echo "status $?"')
        return run.stdout.decode("ascii")

    def test_flash_refuses(self):
        program = self.compiled(C / "flash.c")
        book, question = BOOK.read_bytes(), QUESTION.read_bytes()
        self.assertEqual(self.printed(program, book, question[:-1], 1), "refused: 11\nstatus 1\n")
        self.assertEqual(self.printed(program, book[:-1], question, 1), "refused: 1\nstatus 1\n")
        self.assertEqual(self.printed(program, bytes(30000), question, 1), "refused: 1\nstatus 1\n")
        (self.folder / "question").unlink()
        run = self.run_in_folder("sh", "-c", f'"{program}" book question; "{program}" book; echo "status $?"')
        self.assertEqual(run.stdout, b"status 2\n")

    def test_ask_writes_a_book_and_a_question(self):
        program = self.compiled(C / "ask.c")
        self.assert_stored("ask.txt", self.run_in_folder(program, "answer").stdout.decode("ascii"))
        self.assertEqual((self.folder / "answer").read_bytes(), (STILL / "stdout").read_bytes())

    def test_pool_tips_two_drums_together(self):
        """As much of both, as the stored question has it."""
        program = self.compiled(C / "pool.c")
        self.assert_stored("pool.txt", self.run_in_folder(program, BOOK, QUESTION).stdout.decode("ascii"))
        with desk.Core(BOOK.read_bytes()) as core:
            due = core.ask_block(QUESTION.read_bytes()).real(desk.answer.VAPOR_FRACTION)
        self.assertIn(f"vapor fraction {due:.17g}\n", (C / "pool.txt").read_text(encoding="ascii"))
        run = self.run_in_folder("sh", "-c", f'"{program}" nowhere "{QUESTION}"; echo "status $?"')
        self.assertTrue(run.stdout.endswith(b"refused: 1\nstatus 1\n"))

    def test_feeds_puts_one_question_to_a_week(self):
        """The first drum is that of the stored question; the third is refused."""
        program = self.compiled(C / "feeds.c")
        self.assert_stored("feeds.txt", self.run_in_folder(program, BOOK, QUESTION).stdout.decode("ascii"))
        with desk.Core(BOOK.read_bytes()) as core:
            due = core.ask_block(QUESTION.read_bytes()).real(desk.answer.VAPOR_FRACTION)
        lines = (C / "feeds.txt").read_text(encoding="ascii").splitlines()
        self.assertEqual((len(lines), lines[0]), (4, f"ethanol 0.5, water 0.5: vapor fraction {due:.17g}"))
        self.assertEqual(lines[2], "ethanol 0.5, water 0.4: refused: 18")
        run = self.run_in_folder("sh", "-c", f'"{program}" nowhere "{QUESTION}"; echo "status $?"')
        self.assertTrue(run.stdout.endswith(b"refused: 1\nstatus 1\n"))

    def test_preview_tries_a_pair(self):
        program = self.compiled(C / "preview.c")
        self.assert_stored("preview.txt", self.run_in_folder(program, BOOK, QUESTION).stdout.decode("ascii"))
        book = desk.open_yard(str(ROOT / "yard" / "sample.txt")).book
        t1 = [0.0, -45.938911213102365, 0.0, 0.0], [0.0, 651.4780724581726, 0.0, 0.0]
        pair = desk.Pair(*map(tuple, t1), (0.2937, 0.0))
        changed = desk.encode(dataclasses.replace(book, pairs=(pair,)), 1)
        for name, content in (("by the book", BOOK.read_bytes()), ("as tried", changed)):
            with desk.Core(content) as core:
                due = core.ask_block(QUESTION.read_bytes()).real(desk.answer.VAPOR_FRACTION)
            self.assertIn(f"{name}: vapor fraction {due:.17g}\n", (C / "preview.txt").read_text(encoding="ascii"))
        run = self.run_in_folder("sh", "-c", f'"{program}" nowhere "{QUESTION}"; echo "status $?"')
        self.assertTrue(run.stdout.endswith(b"by the book: refused: 1\nstatus 1\n"))

    def test_queue_runs_a_shift(self):
        """Answered, refused and put off under one allowance; the first is the stored question."""
        program = self.compiled(C / "queue.c")
        self.assert_stored("queue.txt", self.run_in_folder(program, BOOK, QUESTION).stdout.decode("ascii"))
        lines = (C / "queue.txt").read_text(encoding="ascii").splitlines()
        asked = [NINE[7], *(dataclasses.replace(NINE[7], pressure=pressure) for pressure in PRESSURES)]
        with desk.Core(BOOK.read_bytes()) as core:
            for line, question in zip((lines[0], *lines[3:]), asked):
                blocks = core.ask(question)
                due, begun = blocks.real(desk.answer.VAPOR_FRACTION), blocks.head[desk.answer.EVALUATIONS]
                self.assertTrue(line.endswith(f": vapor fraction {due:.17g}, {begun} of 2004 evaluations"), line)
        self.assertEqual([line.partition(": ")[2] for line in lines[1:3]], ["refused: 22", "put off, asks for 4000004"])
        run = self.run_in_folder("sh", "-c", f'"{program}" nowhere "{QUESTION}"; echo "status $?"')
        self.assertTrue(run.stdout.endswith(b"refused: 1\nstatus 1\n"))

    def test_distance_says_how_far(self):
        """The second is the stored question; the last is refused at P."""
        program = self.compiled(C / "distance.c")
        self.assert_stored("distance.txt", self.run_in_folder(program, BOOK, QUESTION).stdout.decode("ascii"))
        lines = (C / "distance.txt").read_text(encoding="ascii").splitlines()
        with desk.Core(BOOK.read_bytes()) as core:
            for line, pascals in zip(lines, (5000.0, 90000.0)):
                found = core.ask_distance(dataclasses.replace(NINE[7], pressure=pascals))
                words = f"{desk.answer.OUTCOMES[found.outcome]} at {100 * found.steps:+d} Pa"
                self.assertEqual(line, f"from {pascals:.0f} Pa: {words}, {found.refused} steps refused")
        none = "from 400000 Pa: no change within 100000 Pa, 0 steps refused"
        self.assertEqual(lines[3:], [none, "from 90 Pa: refused: 23"])
        run = self.run_in_folder("sh", "-c", f'"{program}" nowhere "{QUESTION}"; echo "status $?"')
        self.assertTrue(run.stdout.endswith(b"from 90 Pa: refused: 1\nstatus 0\n"))

    def test_floor_shows_the_outcome(self):
        program = self.compiled(C / "floor.c")
        self.assert_stored("floor.txt", self.run_in_folder(program, BOOK, QUESTION).stdout.decode("ascii"))
        with desk.Core(BOOK.read_bytes()) as core:
            blocks = core.ask_block(QUESTION.read_bytes())
        due = blocks.real(desk.answer.VAPOR_FRACTION), 512 * (1 + len(blocks.trials))
        stored = (C / "floor.txt").read_text(encoding="ascii")
        self.assertIn(f"vapor fraction {due[0]:.5f}\n", stored)
        self.assertTrue(stored.endswith(f"for the lab: {due[1]} bytes of 4608\n"))
        run = self.run_in_folder("sh", "-c", f'"{program}" nowhere "{QUESTION}"; echo "status $?"')
        self.assertEqual(run.stdout, b"refused: 1\nstatus 1\n")

    def test_reason_says_why_and_where(self):
        """The first damage is none; a book that isn't there is refused with 1."""
        program = self.compiled(C / "reason.c")
        self.assert_stored("reason.txt", self.run_in_folder(program, BOOK, QUESTION).stdout.decode("ascii"))
        lines = (C / "reason.txt").read_text(encoding="ascii").splitlines()
        said = [line for line in lines if line[0].isdigit()]
        self.assertEqual([line.partition(":")[0] for line in said], ["2", "3", "4", "5", "6", "7", "8", "7"])
        found = [desk.refusals.sentence(int(line.partition(":")[0]), desk.places.read(line)) for line in said]
        self.assertEqual(said, found)
        run = self.run_in_folder("sh", "-c", f'"{program}" nowhere "{QUESTION}"; "{program}" nowhere; echo "status $?"')
        first = f"{desk.refusals.sentence(1)}\n"
        self.assertEqual(run.stdout.decode("ascii"), first * 9 + "status 2\n")

    def test_header_alone(self):
        self.compiled(C / "ask.c")
        strict = ("-fsyntax-only", "-Wsign-conversion", *WARNINGS)
        for standard in ("c99", "c11", "c17"):
            self.run_in_folder("cc", f"-std={standard}", *strict, "-x", "c", HEADER)
        if shutil.which("c++"):
            for standard in ("c++11", "c++17"):
                self.run_in_folder("c++", f"-std={standard}", *strict, "-Wold-style-cast", "-x", "c++", HEADER)


CHECKED = """#include <inttypes.h>
#include <stdio.h>
#include <stdlib.h>
#include "zektonk.h"

/* Reads a book and a question, gives each block its check by the version, asks, and prints what comes. */
int main(int argc, char **argv)
{
    static uint8_t book[ZEKTONK_BOOK_MOST], question[ZEKTONK_QUESTION], answer[ZEKTONK_ANSWER_ROOM];
    uint64_t version = strtoull(argv[argc - 3], NULL, 10);
    FILE *books = fopen(argv[argc - 2], "rb"), *questions = fopen(argv[argc - 1], "rb");
    size_t length = fread(book, 1, sizeof book, books);
    if (fread(question, 1, sizeof question, questions) != sizeof question)
        return 2;
    zektonk_put_word(book, ZEKTONK_BOOK_WORD_VERSION, version);
    for (size_t at = 0; at < length; at += ZEKTONK_BLOCK)
        zektonk_seal_by(book + at, version);
    zektonk_seal_by(question, version);
    uint64_t number = zektonk_answer(book, length, question, sizeof question, answer, sizeof answer);
    printf("%" PRIu64 " %" PRIu64 "\\n", zektonk_get_word(book, ZEKTONK_WORD_CHECK), number);
    return number == 0 && zektonk_get_word(answer, ZEKTONK_WORD_CHECK) != zektonk_check(answer, version);
}
"""


class Checks(InFolder):
    def test_of_each_version(self):
        """Block 0 has version and 2 solvents behind its kind; 35 is for molar masses that the stored book lacks."""
        source = self.folder / "checked.c"
        source.write_text(CHECKED, encoding="ascii")
        program = self.compiled(source, "-lm")
        weighed = self.folder / "weighed"
        weighed.write_bytes(desk.encode(desk.open_yard(str(ROOT / "yard" / "sample.txt")).book, 2))
        for version, check, stored, found in (
            (1, 4, 0, 0), (2, 5, 35, 0), (3, 63 + 62 * 3 + 61 * 2, 35, 0), (4, 7, 38, 38), (0, 3, 38, 38)
        ):
            for book, number in ((BOOK, stored), (weighed, found)):
                run = self.run_in_folder(program, version, book, QUESTION)
                self.assertEqual(run.stdout.decode("ascii"), f"{check} {number}\n")


ROUNDED = """#include <fenv.h>
#include <stdio.h>
#include "zektonk.h"

int main(int argc, char **argv)
{
    static uint8_t book[ZEKTONK_BOOK_MOST], question[ZEKTONK_QUESTION], answer[ZEKTONK_ANSWER_ROOM];
    FILE *books = fopen(argv[argc - 2], "rb"), *questions = fopen(argv[argc - 1], "rb");
    size_t length = fread(book, 1, sizeof book, books);
    if (fread(question, 1, sizeof question, questions) != sizeof question || fesetround(FE_UPWARD) != 0)
        return 2;
    uint64_t number = zektonk_answer(book, length, question, sizeof question, answer, sizeof answer);
    fesetenv(FE_DFL_ENV);
    printf("%.17g\\n", zektonk_get_float(answer, ZEKTONK_ANSWER_WORD_VAPOR_FRACTION));
    return (int)number;
}
"""


class Rounding(InFolder):
    def test_another_rounding_gives_other_digits_and_no_refusal(self):
        source = self.folder / "rounded.c"
        source.write_text(ROUNDED, encoding="ascii")
        program = self.compiled(source, "-lm")
        found = float(self.run_in_folder(program, BOOK, QUESTION).stdout)
        right = 0.69859496870010152
        self.assertNotEqual(found, right)
        self.assertLess(abs(found - right), 1e-12)
