"""The one entry to the checks, check/run, and that to the measurements, bench/run; and each script that a person starts says
what it does, and does nothing else, when it's asked for help."""

import importlib.machinery
import importlib.util
import os
import subprocess
import sys
import tempfile
import unittest
from unittest import mock

from support import ROOT

FOLDERS = ("tools", "frontend", "check", "bench", "bench/programs")
# Those that a person doesn't start.
OTHERS = {"frontend/cargo-nllc"}    # cargo starts it: `cargo nllc --help`


def entry(path):
    """The script as a module; its name has no ending."""
    name = path.replace("/", "_")
    loader = importlib.machinery.SourceFileLoader(name, str(ROOT / path))
    module = importlib.util.module_from_spec(importlib.util.spec_from_loader(name, loader))
    with mock.patch.object(sys, "dont_write_bytecode", True):
        loader.exec_module(module)
    return module


def run(*words, **environment):
    return subprocess.run([str(ROOT / words[0]), *words[1:]], capture_output=True, text=True, check=False,
                          env=os.environ | environment)


def check_names(test, script, names):
    """Its help has each name, and where no name of these is given it prints the same and ends with 2."""
    done = run(script, "--help")
    test.assertEqual((done.returncode, done.stderr), (0, ""))
    test.assertEqual([name for name in names if f"\n    {name} " not in done.stdout], [])
    for words in ((), ("none",)):
        done = run(script, *words)
        test.assertEqual((done.returncode, done.stdout), (2, ""))
        test.assertIn(f"{script} NAME", done.stderr)


class Checks(unittest.TestCase):
    def setUp(self):
        self.entry = entry("check/run")

    def test_scripts(self):
        """Each check has its script, and the usage line of that script names the check."""
        for name, check in self.entry.CHECKS.items():
            with self.subTest(name=name):
                said = (ROOT / "check" / check.words[0]).read_text()
                self.assertRegex(said, rf"\n    check/run (?:[\w|]*\b)?{name}\b")

    def test_program(self):
        with tempfile.NamedTemporaryFile() as program, mock.patch.dict(os.environ, {"NLLC": program.name}):
            os.chmod(program.name, 0o700)
            command = self.entry.command_of("mir", ["--count", "3", "--seed", "7"])
            self.assertEqual(command[2:], ["--mir", "--count", "3", "--nllc", program.name, "--seed", "7"])
            command = self.entry.command_of("worked", ["--nllc", "OTHER", "--large"])
            self.assertEqual(command[2:], ["--program", "OTHER", "--large"])
            self.assertEqual(self.entry.command_of("model", ["--count", "3"])[2:], ["--model", "--count", "3"])

    def test_words(self):
        check_names(self, "check/run", self.entry.CHECKS)
        done = run("check/run", "memory", NLLC="/none")
        self.assertEqual((done.returncode, done.stdout), (2, ""))
        self.assertIn("no program at /none", done.stderr)
        done = run("check/run", "threads", "--count", "3")
        self.assertEqual((done.returncode, done.stderr), (2, "check/run: threads has no --count\n"))


class Measurements(unittest.TestCase):
    def setUp(self):
        self.entry = entry("bench/run")

    def test_scripts(self):
        """Each script that measures has a name, and says its words."""
        there = {path.name for path in (ROOT / "bench" / "measure").glob("*.sh")} - {"texts.sh"}
        self.assertLessEqual(there, {one.words[0] for one in self.entry.MEASUREMENTS.values()})
        for name, one in self.entry.MEASUREMENTS.items():
            with self.subTest(name=name):
                script = ROOT / "bench" / "measure" / one.words[0]
                self.assertIn(f"bench/run {name} ", script.read_text().replace("`", " "))

    def test_help(self):
        for name, said in (("solving", "Times solving"), ("growth", "usage: growth.py")):
            done = run("bench/run", name, "--help")
            self.assertEqual((done.returncode, done.stderr), (0, ""))
            self.assertTrue(done.stdout.startswith(said), done.stdout)

    def test_program(self):
        with tempfile.NamedTemporaryFile() as program, mock.patch.dict(os.environ, {"NLLC": program.name}):
            os.chmod(program.name, 0o700)
            self.assertEqual(self.entry.command_of("line", ["--size", "1"])[1:], ["--nllc", program.name, "--size", "1"])
            self.assertEqual(self.entry.command_of("all", ["--program", "P", "--into", "F"])[1:],
                             ["--nllc", program.name, "--program", "P", "--into", "F"])
        self.assertEqual(self.entry.command_of("bases", ["--program", "P", "--runs", "1"])[1:],
                         ["--nllc", "P", "--parts", "bases", "--runs", "1"])
        self.assertEqual(self.entry.command_of("mailboxes", ["--runs", "1", "--program", "P"])[1:],
                         ["--program", "P", "--runs", "1"])

    def test_words(self):
        check_names(self, "bench/run", self.entry.MEASUREMENTS)
        self.assertEqual(run("bench/run", "line", NLLC="/none").returncode, 2)


def scripts():
    for folder in FOLDERS:
        for path in sorted((ROOT / folder).iterdir()):
            if path.is_file() and os.access(path, os.X_OK) and str(path.relative_to(ROOT)) not in OTHERS:
                yield path


class Help(unittest.TestCase):
    def test_each_script(self):
        self.assertGreater(len([*scripts()]), 15)
        with tempfile.TemporaryDirectory() as room:
            for path in scripts():
                with self.subTest(script=path.relative_to(ROOT)):
                    done = subprocess.run([str(path), "--help"], cwd=room, capture_output=True, text=True, check=False,
                                          stdin=subprocess.DEVNULL, env={**os.environ, "PYTHONDONTWRITEBYTECODE": "1"},
                                          timeout=60)
                    self.assertEqual((done.returncode, done.stderr), (0, ""))
                    self.assertGreater(len(done.stdout.split()), 8)
                    self.assertEqual(os.listdir(room), [])

    def test_words_that_these_do_not_take(self):
        for script in ("tools/prove.py", "tools/compile_unproved.py", "frontend/world_program.sh"):
            done = subprocess.run([str(ROOT / script), "--none"], capture_output=True, text=True, check=False)
            self.assertEqual((done.returncode, done.stdout), (2, ""), script)


if __name__ == "__main__":
    unittest.main()
