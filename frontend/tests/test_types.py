"""The package has types throughout, and neither mypy nor pyflakes finds anything in it."""

import os
import shutil
import subprocess
import tempfile
import unittest

from paths import FRONTEND

SET_LATER = "nllc_tools/texts/mir/functions.py"    # its `begin` gives the name a value, which is declared without one


def said_by(*words):
    """The status of a program in the folder frontend/, and what it says."""
    done = subprocess.run(words, cwd=FRONTEND, stdout=subprocess.PIPE, stderr=subprocess.STDOUT, check=False, text=True)
    return done.returncode, done.stdout


@unittest.skipUnless(shutil.which("mypy"), "there is no mypy")
class Types(unittest.TestCase):
    def test_types(self):
        status, said = said_by("mypy")
        self.assertEqual(status, 0, said)

    def test_what_mypy_must_find(self):
        for text, code in (("def made(one):\n    return one\n", "no-untyped-def"),
                           ("def made(one: dict) -> None:\n    pass\n", "type-arg"),
                           ("from typing import Any\n\n\ndef made(one: Any) -> None:\n    pass\n", "misc"),
                           ("from nllc_tools.rustc.tables import Spot\n\n\ndef made(one: Spot) -> int:\n    return one\n",
                            "return-value")):
            with self.subTest(text=text), tempfile.TemporaryDirectory() as folder:
                path = os.path.join(folder, "made.py")
                with open(path, "w", encoding="utf-8") as file:
                    file.write(text)
                status, said = said_by("mypy", path)
                self.assertEqual((status, f"[{code}]" in said), (1, True), said)


@unittest.skipUnless(shutil.which("pyflakes3"), "there is no pyflakes3")
class Names(unittest.TestCase):
    def test_names(self):
        _, said = said_by("pyflakes3", "nllc_tools", "nllc_tools/rustc/rustc-wrapper", "run", "cargo-nllc")
        self.assertEqual([line for line in said.splitlines()
                          if not line.startswith(SET_LATER) or "undefined name 'definitions'" not in line], [])
