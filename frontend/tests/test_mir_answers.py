"""`nllc.sh mir`, and `nllc.sh rust --from-mir`, which tells the same faults at the same lines by nllc's own rules."""

import os
import unittest

import facts_support as support
from rooms import Room

RUN = os.path.join(support.FRONTEND, "run")
STAND_INS = {"NLLC": os.path.join(support.HERE, "quick_nllc.py"),
             "WORLD_PROGRAM": os.path.join(support.HERE, "quick_world.py")}


def run(*words):
    return support.run(RUN, *words, cwd=support.ROOT, env=os.environ | STAND_INS)


@unittest.skipUnless(support.rustc_release().startswith(support.KNOWN), "rustc 1.95 isn't there")
class FromMir(Room):
    def both_ways(self, source):
        plain = run("rust", source, "-o", self.room)
        by_rules = run("rust", source, "--from-mir", "-o", self.room)
        self.assertEqual((by_rules.returncode, by_rules.stdout, by_rules.stderr), (plain.returncode, plain.stdout, ""))
        return plain.stdout

    def test_faults(self):
        told = self.both_ways("examples/three.rs")
        self.assertIn("examples/three.rs:24:5: `'b` must outlive `'a`", told)
        self.assertIn("nllc&#x27;s rules, of the function&#x27;s MIR text.", self.read("longer.html"))

    def test_loans(self):
        self.assertIn("examples/loans.rs:8:5: E0499", self.both_ways("examples/loans.rs"))


@unittest.skipUnless(support.rustc_release().startswith(support.KNOWN), "rustc 1.95 isn't there")
class Texts(Room):
    def test_a_file(self):
        done = run("mir", "frontend/tests/sources/forms.rs", "-o", self.room)
        self.assertEqual(len(done.stdout.splitlines()), 73)
        self.assertEqual(done.stderr.splitlines(), [
            "nllc.sh mir: waits::{closure#0}: a coroutine", "nllc.sh mir: two_parts: captures that rustc doesn't print",
            "nllc.sh mir: 73 texts; without one 1 for a coroutine, 1 for captures that rustc doesn't print"])
        self.assertEqual(sorted(os.listdir(self.room)), sorted(map(os.path.basename, done.stdout.splitlines())))
        self.assertEqual(done.returncode, 0)

    def test_one_function(self):
        done = run("mir", "examples/three.rs", "longer", "-o", self.room)
        self.assertEqual((done.stdout, done.stderr), (self.path("longer.mir") + "\n", ""))

    def test_a_crate(self):
        done = run("mir", "examples/shelf", "-o", self.room, "--", "--quiet")
        self.assertIn(self.path("words-counted.mir"), done.stdout.splitlines())
        self.assertEqual(done.returncode, 0)

    def test_refused(self):
        for words, said in ((["nothing.rs"], "nothing.rs isn't a readable file; give the path of a Rust file"),
                            (["examples"], "examples is in no Cargo project: give a Rust file, or the folder of a package"),
                            (["examples/running.mir"], "examples/running.mir is a MIR text, not a Rust file")):
            done = run("mir", *words)
            with self.subTest(words=words):
                self.assertIn(said, done.stderr)
                self.assertEqual((done.stdout, done.returncode), ("", 2))
