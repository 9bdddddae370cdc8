"""A folder of each test's own, programs in it that a test needs, and commands that are called in this process."""

import contextlib
import io
import os
import shutil
import sys
import tempfile
import unittest
from unittest import mock

from paths import ROOT

REFERENCE, STATES = (os.path.join(ROOT, "check", "reference", name) for name in ("reference.py", "reference_states.py"))


class Room(unittest.TestCase):
    """Each test has a folder of its own."""

    def setUp(self):
        self.room = tempfile.mkdtemp()
        self.addCleanup(shutil.rmtree, self.room)

    def path(self, *names):
        return os.path.join(self.room, *names)

    def write(self, name, data):
        """Writes a text, or bytes; the path."""
        os.makedirs(os.path.dirname(self.path(name)), exist_ok=True)
        with open(self.path(name), "wb") as file:
            file.write(data.encode() if isinstance(data, str) else data)
        return self.path(name)

    def read(self, *names):
        with open(self.path(*names), encoding="utf-8") as file:
            return file.read()

    def program(self, name, body):
        """A script of the shell; its path."""
        os.chmod(self.write(name, f"#!/bin/sh\n{body}\n"), 0o755)
        return self.path(name)

    def slow(self, name="nllc", program=REFERENCE):
        """A program that runs the slow reference."""
        return self.program(name, f'exec "{sys.executable}" "{program}" "$@"')

    def called(self, main, words, **programs):
        """The status of a command that is called with programs of the folder by variables, and what it prints."""
        out, err = io.StringIO(), io.StringIO()
        named = {variable: self.path(name) for variable, name in programs.items()}
        with mock.patch.dict(os.environ, named), contextlib.redirect_stdout(out), contextlib.redirect_stderr(err):
            try:
                status = main(words)
            except SystemExit as ended:
                status = ended.code
        return status, out.getvalue(), err.getvalue()

    def refused(self, pattern, *words, status=2, **more):
        """The command that `run_main` calls ends with this status and one line of this pattern, and leaves nothing."""
        before = sorted(os.listdir(self.room))
        got, out, err = self.run_main(*words, **more)
        self.assertEqual((got, out), (status, ""))
        self.assertRegex(err, pattern)
        self.assertEqual(err.count("\n"), 1, err)
        self.assertEqual(sorted(os.listdir(self.room)), before)
