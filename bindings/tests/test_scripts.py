"""The scripts as a user runs them: from another folder, and without a C compiler."""

import os
import shutil
import subprocess
import sys
from pathlib import Path

from support import ARCHIVE, ROOT, InFolder

C_EXAMPLE, SHARED_LIBRARY = ROOT / "scripts" / "c-example", ROOT / "scripts" / "shared-library"


class Scripts(InFolder):
    def setUp(self) -> None:
        super().setUp()
        (self.folder / "lib").mkdir()
        shutil.copy(ARCHIVE, self.folder / "lib")

    def test_a_relative_folder_is_seen_from_where_the_user_stands(self):
        settings = {"env": {**os.environ, "ZEKTONK_LIB": "lib"}}
        said = self.run_in_folder(C_EXAMPLE, **settings).stdout
        self.assertEqual(said, b"C examples: built, and print what is stored\n")
        self.run_in_folder(SHARED_LIBRARY, **settings)
        self.assertTrue((self.folder / "lib" / "libzektonk.so").is_file())
        program = "import desk, sys; sys.stdout.write(str(desk.find()))"
        settings["env"]["PYTHONPATH"] = str(ROOT)
        found = self.run_in_folder(sys.executable, "-B", "-c", program, **settings).stdout.decode("utf-8")
        self.assertEqual(Path(found), (self.folder / "lib" / "libzektonk.so").resolve())

    def without_cc(self, **environment: str) -> subprocess.CompletedProcess:
        """c-example with the tools that it needs but for cc."""
        tools = self.folder / "tools"
        tools.mkdir(exist_ok=True)
        for tool in ("bash", "env", "dirname", "python3"):
            if not (tools / tool).exists():
                (tools / tool).symlink_to(shutil.which(tool))
        settings = {name: value for name, value in os.environ.items() if name != "CI"}
        return subprocess.run([C_EXAMPLE], env={**settings, "PATH": str(tools), **environment}, capture_output=True)

    def test_no_compiler_is_a_failure_in_the_gate_alone(self):
        said = b"C examples: not run (cc is not installed)\n"
        run = self.without_cc()
        self.assertEqual((run.returncode, run.stdout), (0, said))
        run = self.without_cc(CI="true")
        self.assertEqual((run.returncode, run.stdout), (1, said))
