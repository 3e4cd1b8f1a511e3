"""docs/LINKING.md: what is fenced on it is run, beside the repository's files, and prints what the page shows."""

import os
import re
import shutil
import sys

from support import ARCHIVE, LINKING, ROOT, InFolder

FENCE = re.compile(r"^```(\w+)\n(.*?)^```$", re.MULTILINE | re.DOTALL)


class Page(InFolder):
    def test_what_is_fenced(self):
        (self.folder / "target" / "staticlib").mkdir(parents=True)
        (self.folder / "target" / "bin").symlink_to(ROOT / "target" / "bin")
        shutil.copy(ARCHIVE, self.folder / "target" / "staticlib")
        for name in ("bindings", "crates", "desk", "yard", "VERSION"):
            (self.folder / name).symlink_to(ROOT / name)
        settings = {name: value for name, value in os.environ.items() if name != "ZEKTONK_LIB"}
        settings.update({"PYTHONPATH": str(self.folder), "ZEKTONK_LIB": "target/staticlib"})
        fences = FENCE.findall(LINKING.read_text(encoding="utf-8"))
        self.assertEqual([kind for kind, _ in fences], ["sh", "text", "sh", *["python", "text"] * 9])
        printed = ""
        for kind, text in fences:
            if kind == "text":
                self.assertEqual(printed, text)
            else:
                command = ("sh", "-e", "-c") if kind == "sh" else (sys.executable, "-B", "-c")
                printed = self.run_in_folder(*command, text, env=settings).stdout.decode("utf-8")
        self.assertTrue((self.folder / "target" / "staticlib" / "libzektonk.so").is_file())
