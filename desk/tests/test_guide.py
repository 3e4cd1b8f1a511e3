"""docs/GUIDE.md and README.md: each command in them is run, and its output is what the page shows."""

import re
import shlex

from .support import ROOT, InFolder, sheet

GUIDE, README = ROOT / "docs" / "GUIDE.md", ROOT / "README.md"
PICTURES = ("ethanol-water.svg", "toluene-water.svg", "2-propanol-water.svg")
BLOCK = re.compile(r"^```\n\$ \./sheet (.*)\n((?:.*\n)*?)```$", re.MULTILINE)


class Guide(InFolder):
    def output(self, command: str) -> str:
        run = sheet(*shlex.split(command), cwd=self.folder)
        self.assertIn(run.status, (0, 1, 3), run.err)
        # no progress lines
        return run.out + "".join(line for line in run.err.splitlines(True) if line.startswith("sheet: "))

    def page(self, text: str, least: int) -> str:
        """With the output that each command has today."""
        self.assertGreaterEqual(len(BLOCK.findall(text)), least)
        return BLOCK.sub(lambda match: f"```\n$ ./sheet {match.group(1)}\n{self.output(match.group(1))}```", text)

    def test_first_lines_of_the_readme(self):
        text = README.read_text(encoding="utf-8")
        self.assertIn("$ ./sheet", "\n".join(text.splitlines()[:12]))
        self.assert_stored(README, self.page(text, 1))

    def test_commands(self):
        (self.folder / "yard").symlink_to(ROOT / "yard")
        found = self.page(GUIDE.read_text(encoding="utf-8"), 11)
        pictures = [(GUIDE.parent / name, (self.folder / name).read_text(encoding="utf-8")) for name in PICTURES]
        for path, content in ((GUIDE, found), *pictures):
            self.assert_stored(path, content)
