"""A book and a question written by who has docs/FORMAT.md and the header and nothing else, in Python and in C, are
answered as the stored ones are. The numbers are those of the page's example."""

import re
import shutil
import struct
from typing import Dict, Iterator, List, Tuple

from pages import page, span, tables
from support import ARCHIVE, BLOCK, FORMAT, HEADER, ROOT, STILL, STRICT, InFolder, answered, call, words_of

STORED = (STILL / "stdout").read_bytes()
SAID = (
    r"Outcome (\d), vapor fraction ([\d.]+)…, ethanol ([\d.]+)… in the liquid and ([\d.]+)… in the vapor, notes (\d)"
)
Entry = Tuple[str, int, str]  # the header's name, how many words behind its first, the value as the page has it


def example() -> Dict[str, List[Entry]]:
    """The blocks of the page's example, in its order."""
    (rows,) = [rows for _, heads, rows in tables() if heads == ["block", "word", "value"]]
    blocks: Dict[str, List[Entry]] = {}
    for block, names, values in rows:
        blocks.setdefault(block, []).extend(entries(block, re.findall(r"`(\w+)`", names), values.split(", ")))
    return blocks


def entries(block: str, names: List[str], values: List[str]) -> Iterator[Entry]:
    """As many values as names, or a row of values from the one name on."""
    prefix = f"ZEKTONK_{re.match('[a-z]+', block).group(0).upper()}_WORD_"
    full = ["ZEKTONK_WORD_KIND" if name == "KIND" else prefix + name for name in names]
    if len(names) == 1:
        return ((full[0], place, value) for place, value in enumerate(values))
    assert len(names) == len(values)
    return ((name, 0, value) for name, value in zip(full, values))


def is_count(value: str) -> bool:
    return value.isdigit()


class InPython(InFolder):
    """Word positions from the page's tables."""

    def block(self, rows: List[Entry]) -> bytes:
        words = [0] * 64
        for name, place, value in rows:
            place += span(page()[name])[0]
            words[place] = int(value) if is_count(value) else struct.unpack("<Q", struct.pack("<d", float(value)))[0]
        words[span(page()["ZEKTONK_WORD_CHECK"])[0]] = sum(words) % 2**64
        return struct.pack("<64Q", *words)

    def asked(self) -> Tuple[bytes, bytes]:
        *book, question = (self.block(rows) for rows in example().values())
        return b"".join(book), question

    def test_by_the_library(self):
        number, answer = answered(call(), *self.asked())
        self.assertEqual((number, answer[: len(STORED)]), (0, STORED))

    def test_by_the_program(self):
        book, question = self.asked()
        (self.folder / "book.bin").write_bytes(book)
        run = self.run_in_folder(ROOT / "target" / "bin" / "still", input=question)
        self.assertEqual(run.stdout, STORED)

    def test_what_the_page_says_of_the_answer(self):
        text = re.search(SAID, " ".join(FORMAT.read_text(encoding="utf-8").split()))
        words = words_of(answered(call(), *self.asked())[1][:BLOCK])
        at = {name: span(page()[f"ZEKTONK_ANSWER_WORD_{name}"])[0] for name in ("OUTCOME", "NOTES", "TRIALS")}
        counts = [words[at[name]] for name in ("OUTCOME", "NOTES", "TRIALS")]
        self.assertEqual(counts, [int(text.group(1)), int(text.group(5)), 2])
        for group, name in ((2, "VAPOR_FRACTION"), (3, "LIQUID"), (4, "VAPOR")):
            word = words[span(page()[f"ZEKTONK_ANSWER_WORD_{name}"])[0]]
            found = struct.unpack("<d", word.to_bytes(8, "little"))[0]
            self.assertTrue(repr(found).startswith(text.group(group)), name)


PROGRAM = """#include <stdio.h>
#include "zektonk.h"

int main(void)
{
    static uint8_t blocks[ZEKTONK_BOOK_LARGEST], answer[ZEKTONK_ANSWER_ROOM];
    uint8_t *block = blocks;
%s
    uint8_t *question = block - ZEKTONK_BLOCK;
    size_t book_len = (size_t)(question - blocks);
    if (zektonk_answer(blocks, book_len, question, ZEKTONK_QUESTION, answer, sizeof answer) != ZEKTONK_ANSWERED)
        return 1;
    size_t trials = (size_t)zektonk_get_word(answer, ZEKTONK_ANSWER_WORD_TRIALS);
    return fwrite(answer, ZEKTONK_BLOCK, 1 + trials, stdout) != 1 + trials;
}
"""


class InC(InFolder):
    """Names of the header, with no other file in the folder."""

    def source(self) -> str:
        lines = []
        for rows in example().values():
            for name, place, value in rows:
                kind = "word" if is_count(value) else "float"
                lines.append(f"    zektonk_put_{kind}(block, {name} + {place}, {value});")
            lines += ["    zektonk_seal(block);", "    block += ZEKTONK_BLOCK;"]
        return PROGRAM % "\n".join(lines)

    def test_answered(self):
        source = self.folder / "stranger.c"
        source.write_text(self.source(), encoding="utf-8")
        program = self.compiled(source)
        self.assertEqual(self.run_in_folder(program).stdout, STORED)

    def test_the_header_stands_alone(self):
        shutil.copy(HEADER, self.folder)
        source = self.folder / "stranger.c"
        source.write_text(self.source(), encoding="utf-8")
        self.compiled(source)
        self.run_in_folder("cc", *STRICT, "-I.", source, ARCHIVE, "-o", "alone")
        self.assertEqual(self.run_in_folder("./alone").stdout, STORED)
