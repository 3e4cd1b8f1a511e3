"""The archive that users link, and the library made from it: exactly the header's names, and nothing undefined but
memcpy, memmove and memset."""

import os
import re
import shutil
import subprocess
import unittest

from pages import prototypes
from support import ARCHIVE, LIBRARY


def symbols(*words: object):
    if shutil.which("nm") is None:
        if os.environ.get("CI") == "true":
            raise AssertionError("nm is not installed")
        raise unittest.SkipTest("nm is not installed")
    text = subprocess.run(["nm", *map(str, words)], check=True, capture_output=True, text=True).stdout
    return sorted({name.split("@")[0] for name in re.findall(r"^[\da-f ]* \w (\S+)$", text, re.MULTILINE)})


class Archive(unittest.TestCase):
    def test_names(self):
        self.assertEqual(symbols("--defined-only", "--extern-only", ARCHIVE), prototypes())
        self.assertIn("zektonk_answer", prototypes())

    def test_nothing_undefined_but_three(self):
        self.assertEqual(symbols("--undefined-only", ARCHIVE), ["memcpy", "memmove", "memset"])

    def test_what_a_debugger_has(self):
        """As docs/LINKING.md says: the names of the core's functions, and nothing to walk out of them by."""
        text = subprocess.run(["nm", str(ARCHIVE)], check=True, capture_output=True, text=True).stdout
        self.assertRegex(text, r"(?m)^[\da-f]+ t numerics::ln$")
        headers = subprocess.run(["objdump", "-h", str(ARCHIVE)], check=True, capture_output=True, text=True).stdout
        self.assertIn(".text", headers)
        self.assertNotRegex(headers, r"\.eh_frame|\.debug_")


class Comparison(unittest.TestCase):
    def test_nothing_undefined_but_memset(self):
        """The archive of the comparison and of the benchmarks, where `./compare` has put one beside the users'."""
        archive = ARCHIVE.with_name("libexports.a")
        if not archive.exists():
            raise unittest.SkipTest("./compare has not written libexports.a")
        self.assertEqual(symbols("--undefined-only", archive), ["memset"])


class Library(unittest.TestCase):
    def test_names(self):
        self.assertEqual(symbols("--dynamic", "--defined-only", LIBRARY), prototypes())

    def test_nothing_undefined_but_three(self):
        """Weak names are those that the compiler's own start files put into every library."""
        command = ["nm", "--dynamic", "--undefined-only", str(LIBRARY)]
        text = subprocess.run(command, check=True, capture_output=True, text=True).stdout
        strong = re.findall(r"^ +U (\w+)", text, re.MULTILINE)
        self.assertEqual(sorted(strong), ["memcpy", "memmove", "memset"])
