"""The Rust crate's build: documents without the archive, a folder as the user names it, what is said without one."""

import os
import shutil
import subprocess
import unittest

from support import ARCHIVE, ROOT, InFolder

MANIFEST = ROOT / "bindings" / "rust" / "Cargo.toml"


class Build(InFolder):
    def setUp(self) -> None:
        super().setUp()
        if shutil.which("cargo") is None:
            if os.environ.get("CI") == "true":
                self.fail("cargo is not installed")
            raise unittest.SkipTest("cargo is not installed")
        (self.folder / "lib").mkdir()

    def cargo(self, *words: str) -> subprocess.CompletedProcess:
        target = {"CARGO_TARGET_DIR": str(self.folder / "target"), "RUSTDOCFLAGS": "-D warnings"}
        settings = {**os.environ, **target, "ZEKTONK_LIB": "lib", "PWD": str(self.folder)}
        command = ["cargo", *words, "--offline", "--manifest-path", str(MANIFEST)]
        return subprocess.run(command, cwd=self.folder, env=settings, capture_output=True, text=True)

    def test_documents_and_checks_without_the_archive(self):
        for words in (("doc", "--no-deps"), ("check",)):
            run = self.cargo(*words)
            self.assertEqual(run.returncode, 0, run.stderr)
            self.assertIn(f"the core's archive is not at {self.folder}/lib/libzektonk.a", run.stderr)
        self.assertTrue((self.folder / "target" / "doc" / "zektonk" / "fn.tp_flash.html").is_file())

    def test_linking_without_the_archive_says_what_is_missing(self):
        run = self.cargo("build")
        self.assertNotEqual(run.returncode, 0)
        self.assertIn("could not find native static library `zektonk`", run.stderr)
        self.assertIn("`scripts/archive` writes it", run.stderr)

    def test_a_relative_folder_is_seen_from_where_the_user_stands(self):
        shutil.copy(ARCHIVE, self.folder / "lib")
        run = self.cargo("build", "--example", "flash")
        self.assertEqual(run.returncode, 0, run.stderr)
        program = self.folder / "target" / "debug" / "examples" / "flash"
        stored = (MANIFEST.parent / "examples" / "flash.txt").read_bytes()
        self.assertEqual(self.run_in_folder(program).stdout, stored)
