"""The wrong bodies that the compiler or a test refuses, and the tool that tries them."""

import re
import unittest

from support import ROOT, InRepository
import tried_bodies

# An `rt` that writes down what it sees of the crates, and prints what the edited source holds.
RT = """#!/bin/sh
echo "$@" in $(basename "$PWD") >> {said}
cat ../../crates.txt src/*.rt >> {said}
cat ../low/src/lib.rt
"""
FAILS = "# wrong: it is two\n# fails: low_tests rows::one\nfile: src/lib.rt\nold: one\nnew: "
REFUSED = FAILS.replace("fails: low_tests rows::one", "refused: low_tests: the bound `A: B` is not satisfied")
TESTS = """use a;

#[test]
fn one(rt: HostRuntime) {
    if true {
    }
}

// Another.
#[test]
fn two(rt: HostRuntime) {
}

fn helper() {
}
"""


class Edits(unittest.TestCase):
    def test_each_can_be_applied_and_names_a_test(self):
        edits = tried_bodies.edits_of(ROOT)
        self.assertTrue(edits)
        for name, edit in edits.items():
            texts = {}
            for path, old, new in edit.pairs:
                file = ROOT / "crates" / edit.crate / path
                text = texts.setdefault(file, file.read_text())
                self.assertEqual(text.count(old), 1, f"{name}: {old}")
                self.assertNotEqual(old, new, name)
                texts[file] = text.replace(old, new)
            if edit.test:
                module, _, test = edit.test.rpartition("::")
                source = ROOT / "crates" / edit.tests / "src" / (module.replace("::", "/") + ".rt")
                self.assertIn(test, re.findall(tried_bodies.TEST, source.read_text()), name)

    def test_a_text_goes_on_behind_a_bar(self):
        text = "file: a\nold: one\n|   two\nnew:\n| three\n|four\nold: five\nnew: six\n"
        self.assertEqual(tried_bodies.pairs_in(text), (("a", "one\n  two", "\nthree\nfour"), ("a", "five", "six")))


class Trying(InRepository):
    def setUp(self):
        super().setUp()
        self.write("crates.txt", "low:\nhigh: low\nlow_tests: low\n")
        self.write("HANDLES", "Handles allowed: none.\n")
        self.write("crates/low/src/lib.rt", "one\n")
        self.write("crates/low_tests/src/lib.rt", "mod rows;\n")
        self.write("crates/low_tests/src/rows.rt", TESTS)

    def try_on(self, text, *words):
        """What the tool ends with, what `rt` was asked and saw, and what was printed, with this edit alone."""
        self.write("crates/low/tried-bodies/two.edit", text)
        return self.ended(tried_bodies.main, [*words, "--jobs", "1"], RT)

    def test_the_copy_has_what_the_tests_stand_on_and_the_named_test_alone(self):
        _, said, _ = self.try_on(FAILS + "test rows::one ... FAILED")
        self.assertEqual(said.splitlines()[:3], ["try --test --seconds 20 in low_tests", "low:", "low_tests: low"])
        self.assertIn("fn one(", said)
        self.assertIn("fn helper(", said)
        self.assertNotIn("fn two(", said)
        self.assertEqual((self.root / "crates/low/src/lib.rt").read_text(), "one\n")

    def test_a_test_must_fail_or_not_end(self):
        for text, ended, told in (
                ("test rows::one ... FAILED", 0, "rows::one fails, as it must"),
                ("test rows::one ... FAILED\n|     checked: no-answer: it did not end", 0, "does not end, as it must"),
                ("test rows::one ... ok", 1, "NOT FAILED: rows::one passes"),
                ("test rows::one_more ... FAILED", 1, "NOT TRIED: test rows::one_more"),
                ("src/lib.rt:1:2: error[a]: no such name", 1, "NOT TRIED: no such name")):
            status, _, printed = self.try_on(FAILS + text)
            self.assertEqual(status, ended, printed)
            self.assertIn(told, printed)
            self.assertIn(f"0 refused by the compiler, {1 - ended} failed by their tests, {ended} neither", printed)

    def test_each_error_must_have_the_message(self):
        right = "src/a.rt:1:2: error[b]: the bound `A: B` is not satisfied: help"
        other = "src/a.rt:1:2: error: no name"
        for text, ended in ((right, 0), (f"{right}\n| {right}", 0), (f"{right}\n| {other}", 1), (other, 1), ("ok", 1)):
            status, said, printed = self.try_on(REFUSED + text)
            self.assertEqual(status, ended, printed)
            self.assertIn("fn tried(", said)
            self.assertIn(f"1 tried, {1 - ended} refused by the compiler, 0 failed", printed)

    def test_an_edit_that_does_not_fit_is_told(self):
        for text in (FAILS.replace("old: one", "old: none"), FAILS.replace("rows::one", "rows::none"),
                     FAILS.replace("src/lib.rt", "src/none.rt")):
            ended, said, printed = self.try_on(text)
            self.assertEqual((ended, said), (1, ""), printed)
            self.assertIn("BAD EDIT: ", printed)

    def test_an_edit_says_one_thing_of_what_must_come_of_it(self):
        for text in (FAILS.replace("# fails", "# falls"), FAILS + "\n# refused: low_tests: a"):
            self.assertRaises(ValueError, self.try_on, text)

    def test_those_that_are_named_are_tried(self):
        self.assertEqual(self.try_on(FAILS + "test rows::one ... FAILED", "low/two")[0], 0)
        self.assertEqual(self.try_on(FAILS + "test rows::one ... FAILED", "low")[0], 0)
        ended, said, _ = self.try_on(FAILS, "low/three")
        self.assertEqual((ended, said), (2, ""))


if __name__ == "__main__":
    unittest.main()
