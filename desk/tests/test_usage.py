"""Bad input: one line on standard error, status 2, no traceback, no file changed."""

import json
import os
import random
import resource
import stat
import subprocess
import unittest

from desk.arguments import joined_negatives
from desk.blocks import joined, split
from desk.files import write_whole

from .support import ROOT, YARD, InFolder, contents, sheet, sheet_process

TP = ("--temperature", "70C", "--pressure", "1bar")
PAIR = ("--drum", "ethanol=0.5,water=0.5")
BAD = {
    "COMMAND": (),
    "'bogus' is no command (": ("bogus",),
    "'flahs' is no command; did you mean flash?": ("flahs", *TP),
    "--presure is no option of flash; did you mean --pressure?": ("flash", "--temperature", "70C", "--presure", "1bar"),
    "--Drum is no option of flash; did you mean --drum?": ("flash", "--Drum=ethanol=1", *TP),
    "'bubbel-pressure' is no command; did you mean bubble-pressure?": ("help", "bubbel-pressure"),
    "'etanol' is no solvent of yard/yard.txt, which has water, ethanol, "
    "methanol, acetone, 2-propanol, toluene; did you mean ethanol?": ("flash", "--drum", "etanol=1", *TP),
    "layers takes --drum, --mass or --pair": ("layers", "--temperature", "25C"),
    "one of the arguments --drum --mass --drums is required": ("excess", "--temperature", "25C"),
    "--mass: not allowed with argument --drum": ("flash", *PAIR, "--mass", "ethanol=1", *TP),
    "--mass or --pair, and one of them alone": (
        "layers", *PAIR, "--mass", "ethanol=1", "--temperature", "25C"
    ),
    "ethanol 40kg: mass fractions have no unit; weights go to --drum ethanol=40kg": (
        "flash", "--mass", "water=1,ethanol=40kg", *TP
    ),
    "--drum: water has no unit where another solvent has one; give weights of all (kg, g or t), or mole fractions": (
        "flash", "--drum", "ethanol=40kg,water=0.2", *TP
    ),
    "unit 'lb' in '40lb' is not kg, g or t": ("flash", "--drum", "ethanol=40lb", *TP),
    "unit 'KG' in '40KG' is not kg, g or t; did you mean kg?": ("flash", "--drum", "ethanol=40KG", *TP),
    "the weights sum to 0 kg": ("flash", "--drum", "ethanol=0kg,water=0 g", *TP),
    "the weights sum to -1 kg": ("flash", "--drum", "ethanol=-3kg,water=2kg", *TP),
    "water 1e-400kg is too little beside the others": ("flash", "--drum", "ethanol=1kg,water=1e-400kg", *TP),
    "'1e306t' is too large": ("flash", "--drum", "ethanol=1e306t,water=1kg", *TP),
    "layers takes --temperature, --pressure or both": ("layers", *PAIR),
    "is written as .svg or .png, not as .pdf": (
        "diagram", "xy", "--pair", "ethanol,water", "--pressure", "1bar", "-o", "a.pdf"
    ),
    "--drum": ("flash", *TP),
    "'wine' is no solvent": ("flash", "--drum", "ethanol=0.5,wine=0.5", *TP),
    "'64-17-4' is no solvent": ("flash", "--drum", "64-17-4=1", *TP),
    "stands there twice": ("flash", "--drum", "ethanol=0.5,Ethanol=0.5", *TP),
    "ethanol stands there twice": ("flash", "--drum", "ethanol=0.5,64-17-5=0.5", *TP),
    "'abc' is not a number": ("flash", "--drum", "ethanol=0.5,water=abc", *TP),
    "'nan' is not a number": ("flash", "--drum", "ethanol=nan,water=0.5", *TP),
    "is too large": ("flash", "--drum", "ethanol=1e999,water=0.5", *TP),
    "'ethanol' is not NAME=NUMBER": ("flash", "--drum", "ethanol", *TP),
    "'' is not NAME=NUMBER": ("flash", "--drum", "", *TP),
    "--temperature: '70' has no unit": ("flash", *PAIR, "--temperature", "70", "--pressure", "1bar"),
    "--pressure: '1' has no unit": ("flash", *PAIR, "--temperature", "70C", "--pressure", "1"),
    "is not K, C or": ("flash", *PAIR, "--temperature", "70F", "--pressure", "1bar"),
    "is not Pa, kPa, mbar, bar, atm, mmHg, Torr or psi; did you mean psi?": (
        "flash", *PAIR, "--temperature", "70C", "--pressure", "1PSI"
    ),
    "'warm' is not a number with a unit": ("flash", *PAIR, "--temperature", "warm", "--pressure", "1bar"),
    "--pressure is no option of excess": ("excess", *PAIR, *TP),
    "--toler is no option of flash; did you mean --tolerance?": ("flash", *PAIR, *TP, "--toler", "1e-9"),
    "unrecognized arguments: stray": ("flash", *PAIR, *TP, "stray"),
    "--max-iterations: '1.5'": ("flash", *PAIR, *TP, "--max-iterations", "1.5"),
    "--tolerance: 'tight'": ("flash", *PAIR, *TP, "--tolerance", "tight"),
    "is not LOW:HIGH": ("flash", *PAIR, *TP, "--bracket", "300K"),
    "water is in the drum and has no K value": ("rachford-rice", *PAIR, "--k", "ethanol=2"),
    "No such file": ("flash", "--book", "nowhere.txt", *PAIR, *TP),
    "Is a directory": ("flash", "--book", ".", *PAIR, *TP),
    "README.md is not a book": ("flash", "--book", str(ROOT / "README.md"), *PAIR, *TP),
    "still is not a book": ("flash", "--book", str(ROOT / "target" / "bin" / "still"), *PAIR, *TP),
    "--names belongs to a book.bin": ("flash", "--names", str(YARD), *PAIR, *TP),
    "is not there; ./sheet demo builds it": ("flash", "--program", "nowhere", *PAIR, *TP),
    "no blocks of an answer": ("flash", "--program", "/bin/true", *PAIR, *TP),
    "ended with status 1": ("flash", "--program", "/bin/false", *PAIR, *TP),
    "wrong kinds": ("flash", "--program", "/bin/cat", *PAIR, *TP),
    "there is no folder": ("book", str(YARD), "-o", "nowhere/book.bin"),
    "is not a plain file": ("book", str(YARD), "-o", "/dev/null"),
    "is not a yard text": ("book", str(ROOT / "crates" / "still" / "data" / "book.bin"), "-o", "b.bin"),
    "takes --pressure, and that alone": (
        "diagram", "txy", "--pair", "ethanol,water", "--temperature", "70C", "-o", "a.svg"
    ),
    "--pressure or --temperature, and that alone": ("diagram", "xy", "--pair", "ethanol,water", "-o", "a.svg"),
    "names one solvent twice": ("diagram", "xy", "--pair", "ethanol,64-17-5", "--pressure", "1bar", "-o", "a.svg"),
    "is not NAME,NAME": ("diagram", "xy", "--pair", "ethanol", "--pressure", "1bar", "-o", "a.svg"),
    "not from 3 to 2001": (
        "diagram", "xy", "--pair", "ethanol,water", "--pressure", "1bar", "--points", "2", "-o", "a.svg"
    ),
    "is no unit of the upward axis": (
        "diagram", "txy", "--pair", "ethanol,water", "--pressure", "1bar", "--unit", "bar", "-o", "a.svg"
    ),
    "no folder": ("diagram", "xy", "--pair", "ethanol,water", "--pressure", "1bar", "-o", "nowhere/a.svg"),
    "40 is no refusal number; they are 1 to 39": ("refusals", "40"),
    "no 'boiling point'": ("check-yard", "--book", str(ROOT / "yard" / "sample.txt")),
    "./sheet strike --help": ("strike", "bogus"),
}


class BadInput(InFolder):
    def assert_one_line(self, run, words: str, status: int = 2) -> None:
        self.assertEqual((run.status, run.out), (status, ""), run.err)
        self.assertIn(words, run.err)
        self.assertTrue(run.err.startswith("sheet: "), run.err)
        self.assertEqual(run.err.count("\n"), 1, run.err)
        self.assertNotIn("internal error", run.err)

    def test_bad_input(self):
        for words, arguments in BAD.items():
            with self.subTest(words):
                self.assert_one_line(sheet(*arguments, cwd=self.folder), words)
        self.assertEqual(contents(self.folder), {})

    def test_damaged_command_lines(self):
        """A command line with a character changed is answered, refused or complained of in one line."""
        rng = random.Random(23)
        lines = (
            ("flash", "--drum", "toluene=0.4,water=0.6", *TP),
            ("bubble-temperature", "--drum", "ethanol=0.5,water=0.5", "--pressure", "1atm", "--bracket", "300K:400K"),
            ("rachford-rice", *PAIR, "--k", "ethanol=2,water=0.5", "--max-iterations", "50"),
            ("layers", "--drum", "toluene=0.4,water=0.6", "--temperature", "25C", "--normalize"),
            (
                "stability",
                "--drum",
                "toluene=0.4,water=0.6",
                "--temperature",
                "70C",
                "--threshold",
                "-1e-8",
                "--details",
            ),
        )
        seen = {0: 0, 1: 0, 2: 0, 3: 0}
        for k in range(100):
            words = list(lines[k % len(lines)])
            place = rng.choice([at for at, word in enumerate(words) if not word.startswith("--") or rng.random() < 0.2])
            at = rng.randrange(len(words[place]))
            words[place] = (
                words[place][:at] + rng.choice("0123456789.eE+-=:,KCxé ") + words[place][at + rng.randint(0, 1) :]
            )
            run = sheet(*words, cwd=self.folder)
            seen[run.status] += 1
            self.assertNotIn("internal error", run.err, words)
            self.assertEqual(run.err.count("\n"), int(run.status != 0), (words, run.err))
        self.assertTrue(all(seen.values()), seen)
        self.assertEqual(contents(self.folder), {})

    def test_bad_text_leaves_the_old_book(self):
        self.file("book.bin", b"old")
        text = YARD.read_text(encoding="utf-8")
        for name, content in (
            ("pair.txt", text.replace("[pair ethanol water]", "[pair ethanol wine]")),
            ("cut.txt", text[: len(text) // 2]),
            ("empty.txt", ""),
        ):
            self.file(name, content)
            before = contents(self.folder)
            self.assert_one_line(sheet("book", name, "-o", "book.bin", cwd=self.folder), f"{name} is not a book: ")
            self.assertEqual(contents(self.folder), before)

    def test_text_is_not_overwritten(self):
        self.file("yard.txt", YARD.read_bytes())
        self.assert_one_line(sheet("book", "yard.txt", "-o", "./yard.txt", cwd=self.folder), "is the text itself")
        self.assertEqual(contents(self.folder), {"yard.txt": YARD.read_bytes()})

    def test_no_point_of_a_diagram(self):
        run = sheet(
            "diagram",
            "txy",
            "--pair",
            "ethanol,water",
            "--pressure",
            "50bar",
            "-o",
            "a.svg",
            "--points",
            "3",
            cwd=self.folder,
        )
        self.assert_one_line(run, "refused, number 23", status=1)
        self.assertEqual(contents(self.folder), {})

    def test_bytes_that_are_no_text(self):
        self.assert_one_line(
            sheet("show", self.file("a.txt", b"\xff\xfe[solvent")), "neither a text in UTF-8 nor blocks"
        )
        self.assert_one_line(sheet("show", self.file("b.txt", b"x" * (1 << 21))), "more than")

    def test_as_a_process(self):
        self.assert_one_line(sheet_process("flash", "--drum", "wine=1", *TP), "'wine' is no solvent")
        self.assertEqual(sheet_process("flash", *PAIR, *TP).status, 0)

    def test_program_that_writes_nonsense(self):
        for body in (
            "sys.stdout.write('x' * 512)",
            "sys.stdout.write('x' * 10)",
            "sys.stdout.buffer.write(bytes(512))",
            "raise SystemExit(3)",
        ):
            run = sheet("flash", *PAIR, *TP, "--program", self.program([body]))
            self.assert_one_line(run, "program")

    def test_full_output(self):
        if os.path.exists("/dev/full"):
            status = os.system(f"cd {ROOT} && ./sheet show yard/yard.txt >/dev/full 2>{self.folder}/err")
            self.assertEqual(os.waitstatus_to_exitcode(status), 2)
            self.assertEqual((self.folder / "err").read_text(), "sheet: No space left on device\n")

    def test_closed_output(self):
        status = os.system(f"cd {ROOT} && ./sheet show yard/yard.txt >&- 2>{self.folder}/err")
        self.assertEqual(os.waitstatus_to_exitcode(status), 2)
        self.assertEqual((self.folder / "err").read_text(), "sheet: standard output is closed\n")

    def test_ascii_terminal(self):
        run = sheet_process("flash", *PAIR, *TP, LC_ALL="C", PYTHONIOENCODING="ascii", PYTHONUTF8="0")
        self.assertEqual((run.status, run.err), (0, ""))


class DamagedBooks(InFolder):
    """A book.bin with the blocks of a book goes to the core, whose number is shown."""

    def damaged(self, block: int, word: int, value: int) -> bytes:
        blocks = split((ROOT / "crates" / "still" / "data" / "book.bin").read_bytes())
        blocks[block][word] = value
        return joined(blocks)

    def test_numbers(self):
        flipped = bytearray(self.damaged(0, 5, 0))
        flipped[600] ^= 1
        infinity = 0x7FF0000000000000
        cases = {
            2: bytes(flipped), 4: self.damaged(1, 0, 7), 5: self.damaged(1, 3, infinity), 7: self.damaged(3, 15, 2)
        }
        cases.update({8: self.damaged(3, 4, infinity), 9: self.damaged(3, 13, 1), 24: self.damaged_alpha(-1.0)})
        for number, content in cases.items():
            with self.subTest(number):
                run = sheet(
                    "excess", "--book", self.file("book.bin", content), "--drum", "64-17-5=1", "--temperature", "70C"
                )
                self.assertIn(f"REFUSED, number {number}: ", run.out)
                self.assertEqual(run.status, 1)

    def damaged_alpha(self, value: float) -> bytes:
        from desk.blocks import bits_of

        blocks = split(self.damaged(3, 11, bits_of(value)))
        blocks[3][13] = bits_of(value)
        return joined(blocks)


class Books(InFolder):
    """Other books than the yard."""

    def test_one_solvent(self):
        text = YARD.read_text(encoding="utf-8")
        path = self.file("one.txt", text[text.index("[solvent toluene]") : text.index("# water with the others")])
        run = sheet("bubble-temperature", "--book", path, "--drum", "toluene=1", "--pressure", "101325Pa")
        self.assertEqual(run.status, 0, run.err)
        self.assertIn("383.78", run.out)

    def test_bracket_is_narrowed_to_the_ranges(self):
        path = self.file("narrow.txt", YARD.read_text(encoding="utf-8").replace("273.15 K to 580 K", "10 C to 390 K"))
        for command in ("bubble-temperature", "dew-temperature"):
            asked = (command, "--book", path, "--drum", "ethanol=0.5,water=0.5", "--pressure", "1bar")
            run = sheet(*asked, "--details")
            self.assertIn("Between  10 °C (283.15 K) and 116.85 °C (390.0 K)", run.out)
            self.assertEqual(run.status, 0, run.err)
            refused = sheet(*asked, "--bracket", "273.16K:450K").err
            self.assertIn("number 22", refused)
            self.assertIn(
                "0.01 °C (273.16 K) lies below the range of toluene's vapor pressure, 10.00 to 116.85 °C (283.15 to "
                "390 K)",
                refused,
            )
            self.assertIn("176.85 °C (450.00 K) lies above the range of toluene's vapor pressure", refused)

    def test_names_and_cas_numbers(self):
        sheet("book", str(YARD), "-o", "book.bin", cwd=self.folder)
        asked = ("--temperature", "70C", "--json", "--details")
        by_text = sheet("excess", "--drum", "Ethanol=0.5, WATER = 0.5", *asked)
        by_name = sheet(
            "excess",
            "--book",
            "book.bin",
            "--names",
            str(YARD),
            "--drum",
            "ethanol=0.5,water=0.5",
            *asked,
            cwd=self.folder,
        )
        by_cas = sheet("excess", "--book", "book.bin", "--drum", "64-17-5=0.5,7732185=0.5", *asked, cwd=self.folder)
        answers = [json.loads(run.out)["answer"] for run in (by_text, by_name, by_cas)]
        self.assertEqual(answers[0], answers[1])
        self.assertEqual(list(answers[0]["ln_gamma"].values()), list(answers[2]["ln_gamma"].values()))
        self.assertEqual(list(answers[2]["ln_gamma"])[:2], ["7732-18-5", "64-17-5"])

    def test_byte_order_mark_and_carriage_returns(self):
        path = self.file("dos.txt", b"\xef\xbb\xbf" + YARD.read_bytes().replace(b"\n", b"\r\n"))
        sheet("book", path, "-o", "dos.bin", cwd=self.folder)
        sheet("book", str(YARD), "-o", "unix.bin", cwd=self.folder)
        self.assertEqual((self.folder / "dos.bin").read_bytes(), (self.folder / "unix.bin").read_bytes())


class Writing(InFolder):
    def test_book_is_written_whole(self):
        run = sheet("book", str(YARD), "-o", "book.bin", cwd=self.folder)
        self.assertEqual((run.status, run.err), (0, ""))
        self.assertEqual(list(contents(self.folder)), ["book.bin"])
        shown = sheet("show", "book.bin", "--text", cwd=self.folder)
        again = self.file("again.txt", shown.out)
        sheet("book", again, "-o", "again.bin", cwd=self.folder)
        self.assertEqual((self.folder / "book.bin").read_bytes(), (self.folder / "again.bin").read_bytes())

    def test_disk_full_leaves_the_old_book(self):
        self.file("book.bin", b"old")
        limit = lambda: resource.setrlimit(resource.RLIMIT_FSIZE, (1000, 1000))  # noqa: E731
        command = [ROOT / "sheet", "book", YARD, "-o", "book.bin"]
        run = subprocess.run(command, cwd=self.folder, capture_output=True, text=True, preexec_fn=limit)
        self.assertEqual((run.returncode, run.stderr), (2, "sheet: book.bin can't be written: File too large\n"))
        self.assertEqual(contents(self.folder), {"book.bin": b"old"})

    def test_mode_and_link_stay(self):
        path = self.folder / "a"
        path.write_bytes(b"old")
        path.chmod(0o640)
        (self.folder / "link").symlink_to(path)
        write_whole(str(self.folder / "link"), b"new")
        self.assertEqual((path.read_bytes(), stat.S_IMODE(path.stat().st_mode)), (b"new", 0o640))
        self.assertTrue((self.folder / "link").is_symlink())


class Help(unittest.TestCase):
    def test_every_command_has_help_with_examples(self):
        commands = (
            "excess",
            "bubble-pressure",
            "dew-pressure",
            "bubble-temperature",
            "dew-temperature",
            "stability",
            "flash",
            "rachford-rice",
        )
        commands += (
            "rachford-rice-negative",
            "layers",
            "strike",
            "diagram",
            "book",
            "show",
            "check-yard",
            "refusals",
            "demo",
            "help",
        )
        for command in ((), *((name,) for name in commands)):
            run = sheet(*command, "--help")
            self.assertEqual((run.status, run.err), (0, ""))
            self.assertIn("examples:\n  ./sheet", run.out)
            self.assertEqual(sheet("help", *command).out, run.out)

    def test_version(self):
        run = sheet("--version")
        self.assertEqual((run.status, run.out), (0, f"sheet {(ROOT / 'VERSION').read_text().strip()}\n"))
        self.assertRegex(run.out, r"^sheet \d+\.\d+\.\d+$")

    def test_examples_of_the_help_run(self):
        lines = [
            line.split()[1:]
            for line in sheet("--help").out.splitlines()
            if line.startswith("  ./sheet ") and "diagram" not in line
        ]
        self.assertGreater(len(lines), 10)
        for arguments in lines:
            marked = 3 if arguments[0] in ("stability", "rachford-rice-negative") else 0
            refused = "--drums" in arguments or arguments[0] == "queue"
            self.assertEqual(sheet(*arguments).status, 1 if refused else marked, arguments)

    def test_negative_values(self):
        self.assertEqual(joined_negatives(["--threshold", "-1e-8", "-o", "-1"]), ["--threshold=-1e-8", "-o", "-1"])
        self.assertEqual(joined_negatives(["--json", "-.5"]), ["--json=-.5"])
