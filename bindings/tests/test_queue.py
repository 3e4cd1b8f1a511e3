"""Queues: the library's call under an allowance, and plain calls one after another, which is how whoever runs `still`
asks. The same blocks, to a bit, as far as the program says what a question took."""

import ctypes
import random
import unittest
from dataclasses import replace
from unittest import mock

import desk
from desk.batch import PART, CallRefused
from desk.blocks import Rule, rule_of, sealed, split
from desk.openbook import open_book
from desk.queue import MOST_QUESTIONS, asks_for, bytes_of, most_evaluations, run
from nine import NINE, SAMPLE_BOOK, WRONG_BOOKS
from support import ANSWER_ROOM, LIBRARY, ROOT, InFolder

YARD, ALCOHOLS = (open_book(str(ROOT / "yard" / name)) for name in ("yard.txt", "alcohols.txt"))
COUNT = 40
EVERYTHING = 2**64 - 1
FILLED = bytes((7 * k + 3) % 256 for k in range(66 * ANSWER_ROOM))
FLASH = NINE[7]  # of equal moles: takes 243 of 2004
PUT_OFF = [9, 7, 0, 4, *[0] * 59]


def limited(question: desk.Question, limit: int) -> desk.Question:
    return replace(question, options=replace(question.options, max_iterations=limit))


def questions_of(source: random.Random, n: int):
    """1 to 64 flashes, some of their solvents absent; about one in four is refused before or behind an evaluation."""
    found = []
    for _ in range(source.choice((1, 2, 5, 20, 64))):
        parts = [source.random() if source.random() < 0.6 else source.choice((0.0, -0.0)) for _ in range(n)]
        total = sum(parts) or 1.0
        feed = tuple(part / total for part in parts)
        if source.random() < 0.1:
            feed = (source.choice((2.0, -0.1, float("nan"), float("inf"))), *feed[1:])
        options = desk.Options(max_iterations=source.choice((0, 3, 30, 30, 100, 200)), tolerance=1e-10)
        kelvin = source.choice((-1.0, 260.0, *[source.uniform(290.0, 400.0)] * 20))
        pascals = 10 ** source.uniform(3.5, 5.6)
        found.append(desk.Question(desk.FLASH, feed, kelvin, pascals, options=options, by_mass=source.random() < 0.3))
    return found


class AsPlain(unittest.TestCase):
    """By calls."""

    def test_queues_of_both_yards(self):
        """With all there is, each question as by a call on its own; else what fits, by the counts that answers have."""
        seen = {"answered": 0, "refused": 0, "put off": 0}
        for book in (YARD.content, ALCOHOLS.content, SAMPLE_BOOK):
            n, source = desk.book.solvent_count(book), random.Random(11)
            library = desk.Library(book)
            for _ in range(COUNT):
                questions = questions_of(source, n)
                self.assertEqual(library.ask_queue(questions, EVERYTHING), [library.ask(asked) for asked in questions])
                allowance = source.choice((0, 100, 400, 1500, 6000))
                left = allowance
                for question, blocks in zip(questions, library.ask_queue(questions, allowance)):
                    alone = library.ask(question)
                    ahead = alone.refusal and library.begun(question, alone.refusal) == (0, True)
                    fits = asks_for(question, book) <= left
                    if ahead or fits:
                        self.assertEqual(blocks, alone)
                        taken = library.begun(question, alone.refusal)[0] if alone.refusal else alone.head[38]
                        left -= 0 if ahead else taken
                        seen["refused" if alone.refusal else "answered"] += 1
                    else:
                        self.assertTrue(blocks.put_off)
                        seen["put off"] += 1
        self.assertTrue(all(count > 200 for count in seen.values()), seen)

    def test_library_and_program(self):
        """The same to a bit up to the first question whose count the program doesn't say."""
        whole = 0
        for book in (YARD.content, SAMPLE_BOOK):
            n, source = desk.book.solvent_count(book), random.Random(3)
            with desk.Library(book) as library, desk.Core(book) as program:
                for _ in range(COUNT // 4):
                    questions, allowance = questions_of(source, n)[:8], source.choice((0, 300, 2000))
                    by_library, by_program = (run(core, questions, allowance) for core in (library, program))
                    unsaid = [k for k, entry in enumerate(by_program) if not entry.exact] or [len(questions)]
                    self.assertEqual(by_library[: unsaid[0]], by_program[: unsaid[0]])
                    whole += unsaid[0] == len(questions)
                    if unsaid[0] < len(questions):
                        first = by_library[unsaid[0]], by_program[unsaid[0]]
                        self.assertTrue(0 < first[0].took <= first[1].took == first[1].asks)
        self.assertGreater(whole, 3)

    def test_what_refused_flashes_began(self):
        """Of a dew point that ends in its limit 1 and each turn; of 24 and of 25 in the first evaluation 1."""
        library = desk.Library(SAMPLE_BOOK)
        for limit in (1, 2, 9, 40):
            self.assertEqual(library.ask(limited(FLASH, limit)).refusal, 27)
            self.assertEqual(library.begun(limited(FLASH, limit), 27), (1 + limit, True))
        pair = split(SAMPLE_BOOK)[3]
        for words, number in (({11: 0xBFF0 << 48, 13: 0xBFF0 << 48}, 24), ({7: 0xC0B7700000000000}, 25)):  # -1, -6000
            changed = [words.get(at, word) for at, word in enumerate(pair)][:63]
            library = desk.Library(SAMPLE_BOOK[:1536] + sealed(changed))
            self.assertEqual(library.ask(FLASH).refusal, number)
            self.assertEqual(library.begun(FLASH, number), (1, True))

    def test_a_split_and_trials_that_end_in_their_limit(self):
        """Counted from the iterations that longer limits tell: 1, the dew point's and 1, 1 and the split's, 1 and the
        trials'."""
        library = desk.Library(SAMPLE_BOOK)
        answered, dew = library.ask(FLASH), library.ask(replace(FLASH, task=desk.DEW_PRESSURE))
        turns = dew.head[desk.answer.ITERATIONS], answered.head[desk.answer.ITERATIONS]
        trials = [words[desk.answer.TRIAL_ITERATIONS] for words in answered.trials]
        self.assertEqual((*turns, *trials), (48, 73, 59, 59))
        self.assertEqual(answered.head[desk.answer.EVALUATIONS], 1 + 48 + 1 + 1 + 73 + 1 + 59 + 59)
        for limit, begun in ((47, 1 + 47), (48, 1 + 48 + 1 + 1 + 48), (72, 1 + 48 + 1 + 1 + 72)):
            self.assertEqual(library.begun(limited(FLASH, limit), 27), (begun, True))

    def test_refused_ahead_of_the_questions(self):
        """The book's numbers, then 39: what ends the whole call."""
        others = [[FLASH, NINE[number]] for number in (1, 2, 3, 4, 5, 6, 8, 9)]
        for book, number in (*WRONG_BOOKS, (SAMPLE_BOOK, 39)):
            for questions in ([], [FLASH] * 65, *others, *([[FLASH]] if number != 39 else [])):
                for core in (desk.Library(book), desk.Core(book)):
                    with core, self.assertRaises(CallRefused) as refused:
                        core.ask_queue(questions, EVERYTHING)
                    self.assertEqual(refused.exception.number, number)


class Bytes(unittest.TestCase):
    """The call itself."""

    def setUp(self) -> None:
        self.call = ctypes.CDLL(str(LIBRARY)).zektonk_queue
        slices = [ctypes.c_char_p, ctypes.c_size_t]
        self.call.argtypes = slices * 2 + [ctypes.c_uint64] + slices
        self.call.restype = ctypes.c_uint64

    def asked(self, questions: bytes, allowance: int, length: int, book: bytes = SAMPLE_BOOK):
        """The number, and the answer slice."""
        room = ctypes.create_string_buffer(FILLED, len(FILLED))
        number = self.call(book, len(book), questions, len(questions), allowance, room, length)
        return number, room.raw

    def test_questions_that_are_not_whole(self):
        """39 with every byte as it was, ahead of 10 and whatever the room."""
        whole = FLASH.block() * 66
        for length in (0, 1, 511, 513, 1023, 64 * 512 - 1, 64 * 512 + 1, 65 * 512, 66 * 512):
            for room in (len(FILLED), 0):
                self.assertEqual(self.asked(whole[:length], EVERYTHING, room), (39, FILLED), length)
                self.assertEqual(self.asked(whole[:length], EVERYTHING, room, b"")[0], 1)

    def test_tasks(self):
        """39 where 11 passes; where it doesn't the task isn't asked for, and the block has 11 and task 0."""
        own = FLASH.block()
        for number in (1, 2, 3, 4, 5, 6, 8, 9):
            other = NINE[number].block()
            for questions in (other, own + other, other + own, own * 63 + other):
                self.assertEqual(self.asked(questions, EVERYTHING, len(FILLED)), (39, FILLED))
                self.assertEqual(self.asked(questions, EVERYTHING, 0), (39, FILLED))
            wrong = bytes([other[0] ^ 1]) + other[1:]
            self.assertEqual(self.asked(wrong + other, EVERYTHING, len(FILLED))[0], 39)
            for broken in (wrong, NINE[number].block(Rule.RUNNING), other[:504] + bytes(8)):
                found, room = self.asked(broken + own, 2004, 2 * PART)
                self.assertEqual((found, room[:PART]), (0, sealed([9, 0, 11]) + FILLED[512:PART]))
                self.assertEqual(split(room[PART : PART + 512])[0][38], 243)

    def test_room(self):
        """4,608 bytes for each question; 10 ahead of 11."""
        for count in (1, 2, 63, 64):
            for questions in (FLASH.block() * count, bytes(512 * count)):
                self.assertEqual(self.asked(questions, 0, PART * count)[0], 0)
                for short in (PART * count - 1, PART * (count - 1), 0):
                    self.assertEqual(self.asked(questions, 0, short), (10, FILLED))

    def test_every_byte(self):
        """Each question's blocks at the front of its own bytes; all others as they were."""
        for book in (SAMPLE_BOOK, YARD.content):
            rule, library = rule_of(book), desk.Library(book)
            feed = (0.5, 0.5) if book == SAMPLE_BOOK else (0.5, 0.5, 0.0, -0.0)
            own = replace(FLASH, fractions=feed)
            cold, large = replace(own, temperature=260.0), limited(own, 10**6)
            questions = [cold, own, large, own, limited(own, 3), cold]
            number, room = self.asked(bytes_of(questions, rule), 2004, PART * 6 + 100, book)
            due = FILLED
            for k, question in enumerate(questions):
                blocks = sealed(PUT_OFF, rule) if k in (2, 3) else library.ask_bytes(question.block(rule))
                due = due[: PART * k] + blocks + due[PART * k + len(blocks) :]
            self.assertEqual(number, 0)
            self.assertTrue(room == due)

    def test_allowances(self):
        """0, what is asked for and one less, 2^64 - 1."""
        for limit in (60, 500, 10**6):
            block, most = limited(FLASH, limit).block(), most_evaluations(2, limit)
            for allowance in (0, most - 1):
                number, room = self.asked(block, allowance, PART)
                self.assertEqual((number, room), (0, sealed(PUT_OFF) + FILLED[512:]))
            alone = desk.Library(SAMPLE_BOOK).ask_bytes(block)
            for allowance in (most, most + 1, 2**63, EVERYTHING):
                number, room = self.asked(block, allowance, PART)
                self.assertEqual((number, room), (0, alone + FILLED[len(alone) :]))

    def test_nothing_is_kept(self):
        both = FLASH.block() * 2
        due = self.asked(both, 2246, 2 * PART)
        self.asked(both, 5000, 2 * PART)
        self.assertEqual(self.asked(both, 2246, 2 * PART), due)
        self.assertEqual([split(due[1][PART * k : PART * k + 512])[0][3] for k in (0, 1)], [3, 4])

    def test_sizes(self):
        self.assertEqual((MOST_QUESTIONS, PART), (64, ANSWER_ROOM))


class Sheets(InFolder):
    """`./sheet queue` over the library, which takes 64 at a time, and over the program: the same sheet where that says
    what each took."""

    def test_one_sheet(self):
        source, lines = random.Random(2), ["label,water,ethanol,acetone,temperature (C)"]
        for k in range(70):
            parts = [source.random() for _ in range(3)]
            feed = ",".join(repr(part / sum(parts)) for part in parts)
            lines.append(f"d{k},{feed},{'-20' if k % 9 == 4 else source.uniform(60, 80)}")
        path = self.folder / "list.csv"
        path.write_text("\n".join(lines) + "\n", encoding="utf-8")
        calls, real = [], desk.Library.ask_queue

        def counted(library, questions, allowance):
            calls.append(len(questions))
            return real(library, questions, allowance)

        asked = ("queue", "--questions", str(path), "--allowance", "7000", "--pressure", "1bar", "--json", "--details")
        with mock.patch.object(desk.Library, "ask_queue", counted):
            by_library, by_program = self.by_both(*asked)
        self.assertEqual(calls, [64, 6])
        self.assertEqual(by_library, by_program)
        self.assertTrue(all(f'"{status}": 0' not in by_library[1] for status in ("answered", "refused", "put_off")))

    def test_the_sample_shift(self):
        path = str(ROOT / "yard" / "shift.csv")
        for form in ((), ("--details",), ("--json",), ("--csv",)):
            by_library, by_program = self.by_both("queue", "--questions", path, "--allowance", "3000", *form)
            self.assertEqual(by_library, by_program)
            self.assertEqual(by_library[0], 1)

    def test_what_a_refused_flash_took(self):
        """By the library its real count, by the program all that it asked for."""
        path = self.folder / "list.csv"
        path.write_text("label,water,toluene\nlayers,0.6,0.4\nwater,1,\n", encoding="utf-8")
        asked = ("queue", "--questions", str(path), "--temperature", "72C", "--pressure", "1bar", "--allowance", "3000")
        by_library, by_program = self.by_both(*asked)
        self.assertRegex(by_program[1], r"REFUSED \(28\) +2004 +2004 \(at most\) +996\n.*PUT OFF")
        found = desk.Library(YARD.content).begun(
            desk.Question(desk.FLASH, (0.6, 0.0, 0.0, 0.0, 0.0, 0.4), 345.15, 100000.0), 28
        )
        self.assertRegex(by_library[1], rf"REFUSED \(28\) +2004 +{found[0]} +{3000 - found[0]}\n.*answered")
        self.assertNotIn("at most", by_library[1])


if __name__ == "__main__":
    unittest.main()
