"""One version: the file VERSION, the header, the Rust crate, the desk's package."""

import re
import subprocess
import unittest

import desk
from pages import macros
from support import HEADER, ROOT

VERSION = (ROOT / "VERSION").read_text(encoding="utf-8").strip()


class Versions(unittest.TestCase):
    def test_header(self):
        self.assertEqual(macros()["ZEKTONK_VERSION"], f'"{VERSION}"')
        parts = [macros()[f"ZEKTONK_VERSION_{part}"] for part in ("MAJOR", "MINOR", "PATCH")]
        self.assertEqual(".".join(parts), VERSION)

    def test_rust(self):
        manifest = (ROOT / "bindings" / "rust" / "Cargo.toml").read_text(encoding="utf-8")
        self.assertEqual(re.search(r'^version = "(.*)"$', manifest, re.MULTILINE).group(1), VERSION)
        lock = (ROOT / "bindings" / "rust" / "Cargo.lock").read_text(encoding="utf-8")
        self.assertIn(f'name = "zektonk"\nversion = "{VERSION}"\n', lock)

    def test_desk(self):
        self.assertEqual(desk.__version__, VERSION)

    @unittest.skipUnless((ROOT / "desk" / "version.py").exists(), "./sheet has no --version yet")
    def test_sheet(self):
        run = subprocess.run([ROOT / "sheet", "--version"], capture_output=True, text=True, check=True)
        self.assertEqual(run.stdout.split()[-1], VERSION)

    def test_licence(self):
        self.assertTrue((ROOT / "LICENSE").read_text(encoding="utf-8").startswith("MIT License\n"))
        for manifest in ("bindings/rust/Cargo.toml", "reference/Cargo.toml"):
            self.assertIn('\nlicense = "MIT"\n', (ROOT / manifest).read_text(encoding="utf-8"))
        self.assertIn("SPDX-License-Identifier: MIT", HEADER.read_text(encoding="utf-8"))
