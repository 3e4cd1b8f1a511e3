"""The program `replay` on stored files that people touched: which lines count as read, and which are passed over."""

import os
import re
import subprocess
import unittest

from support import ROOT, InFolder

PROGRAM = ROOT / "crates" / "replay" / "out" / "replay"  # rt leaves it there
BUFFER = 524288  # bytes of a file that are read
FILES = 15
ZERO = "0" * 16
LINE = "exp %s = 3ff0000000000000\n" % ZERO
MANY = LINE * (BUFFER // len(LINE) + 50)

# A file, and the lines replayed, that differ, and not read.
READ = {
    "a line": (LINE, (1, 0, 0)),
    "another result": ("exp %s = 3ff0000000000001\n" % ZERO, (1, 1, 0)),
    "no text in a comment": (b"# \xe9\n" + LINE.encode(), (1, 0, 0)),
    "no text in a line": (b"exp \xe9\n" + LINE.encode(), (1, 0, 1)),
    "a line's end of two bytes": (LINE.replace("\n", "\r\n"), (0, 0, 1)),
    "capital digits": ("exp 3FF0000000000000 = 4005bf0a8b14576a\n", (0, 0, 1)),
    "small digits": ("exp 3ff0000000000000 = 4005bf0a8b14576a\n", (1, 0, 0)),
    "no results": ("exp %s =\n" % ZERO, (1, 1, 0)),
    "a space at the end": ("exp %s = 3ff0000000000000 \n" % ZERO, (0, 0, 1)),
    "ended twice": ("exp %s = = 3ff0000000000000\n" % ZERO, (0, 0, 1)),
    "a run of zeros": ("exp z1 = 3ff0000000000000\n", (1, 0, 0)),
    "a run with a sign": ("exp z+1 = 3ff0000000000000\n", (0, 0, 1)),
    "a run of no length": ("exp z = 3ff0000000000000\n", (0, 0, 1)),
    "a run of sixteen letters": ("exp z000000000000001 = 3ff0000000000000\n", (0, 0, 1)),
    "a size with a sign": ("exp b+0 = 3ff0000000000000\n", (0, 0, 1)),
    "a size that no longer fits": ("bits_of b11529215046068469765 = 0000000000000005\n", (1, 0, 0)),
    "too few inputs": ("powf %s = 3ff0000000000000\n" % ZERO, (0, 0, 1)),
    "640 results": ("exp z1 = 3ff0000000000000 z639\n", (1, 1, 0)),
    "641 results": ("exp z1 = 3ff0000000000000 z640\n", (1, 1, 0)),
    "4,096 words": ("exp z1 = 3ff0000000000000 z4094\n", (1, 1, 0)),
    "4,097 words": ("exp z1 = 3ff0000000000000 z4095\n", (0, 0, 1)),
    "one byte less than the buffer": (MANY[: BUFFER - 1], (13107, 0, 1)),
    "as much as the buffer": (MANY[:BUFFER], (13107, 0, 2)),
    "more than the buffer": (MANY, (13107, 0, 2)),
}


class Replay(InFolder):
    def counts(self, file):
        """Replayed, different and unread lines of a folder that has this file alone."""
        (self.folder / "numbers.txt").write_bytes(file if isinstance(file, bytes) else file.encode("utf-8"))
        said = subprocess.run([PROGRAM], cwd=self.folder, stdout=subprocess.PIPE, check=True).stdout.decode("ascii")
        calls = [tuple(map(int, found)) for found in re.findall(r": (\d+) replayed, (\d+) differ", said)]
        unread = int(re.search(r"^unread: (\d+)$", said, re.MULTILINE).group(1))
        return sum(call[0] for call in calls), sum(call[1] for call in calls), unread - (FILES - 1)

    def test_each_file_is_read_line_by_line(self):
        if not PROGRAM.exists() and os.environ.get("CI") != "true":
            self.skipTest("crates/replay/out/replay is missing: rt ci writes it")
        for name, (file, expected) in READ.items():
            with self.subTest(name):
                self.assertEqual(self.counts(file), expected)


if __name__ == "__main__":
    unittest.main()
