"""Which changes the crates above a crate see, and what is checked after a change."""

import pathlib
import unittest

from support import ROOT, InRepository
import changes
import check_changed
import crates

SOURCE = """
ghost use Rattle.std.specs.Prelude.{◌≡◌, ◌<◌, length};
use crate::error::{Memory, Refusal};

/// One more than a number.
pub fn next<'a>(words: &'a [u32; 2], x: usize) -> Result<usize, Memory>
    requires small { x < 1000 }
    ensures { result ≡ { x + 1 } }
{
    let c = '{'; // }
    if x == 0 { return Ok(1); }
    Ok(x + 1)
}

pub const TEXT: &str = "fn a() { 1 }\\" // {
";

pub const RAW: &[u8] = br#"a " // b"#;

trait Named {
    fn name(&self) -> u32;
    fn other(&self) -> u32 { 2 }
}
"""
PROOFS = """-- Lemmas.
use Rattle.std.proofs.Common.{refl, sym, List}
use Rattle.low.specs.Echo.{echo_of}

pub echo_is : (x : ℕ) → echo_of x ≡ x
unfolding echo_of
echo_is x = sym refl

abbrev pub Both : Type → Type
Both t = List t
"""


def see(path, before, after):
    """Whether the crates above see a change of this file."""
    return changes.said(f"crates/low/{path}", before) != changes.said(f"crates/low/{path}", after)


class Seen(unittest.TestCase):
    def seen(self, path, text, old, new):
        self.assertIn(old, text)
        return see(path, text, text.replace(old, new, 1))

    def test_a_body_is_not_seen(self):
        for old, new in (("Ok(x + 1)", "Ok(x + 2)"), ("'{'", "'}'"), ("{ 2 }", "{ if a { b } else { c } }"),
                         ("// }", "// ensures {"), ("return Ok(1);", "")):
            self.assertFalse(self.seen("src/lib.rt", SOURCE, old, new), old)

    def test_comments_and_layout_are_not_seen(self):
        for old, new in (("/// One more", "/// One less"), ("    requires", "\n  requires"), ("// }", "")):
            self.assertFalse(self.seen("src/lib.rt", SOURCE, old, new), old)

    def test_clauses_types_and_constants_are_seen(self):
        for old, new in (("x < 1000", "x < 100"), ("x + 1 }", "x + 2 }"), ("requires small", "requires s"),
                         ("Result<usize, Memory>", "usize"), ("[u32; 2]", "[u32; 3]"), ("pub fn", "fn"),
                         ("{ 1 }\\", "{ 2 }\\"), ("// {\n", "//  {\n"), ("fn name", "fn title"),
                         ("// b", "// c")):
            self.assertTrue(self.seen("src/lib.rt", SOURCE, old, new), old)

    def test_imports_are_seen_where_what_is_seen_needs_them(self):
        self.assertFalse(self.seen("src/lib.rt", SOURCE, ", length", ""))
        self.assertFalse(self.seen("src/lib.rt", SOURCE, ", Refusal", ""))
        self.assertTrue(self.seen("src/lib.rt", SOURCE, "{Memory, ", "{"))
        self.assertTrue(self.seen("src/lib.rt", SOURCE, "Prelude.{◌≡◌", "Other.{◌≡◌"))

    def test_definitions_are_seen(self):
        text = "-- Says.\npub echo_of : ℕ → ℕ\necho_of x = x\n"
        self.assertTrue(self.seen("specs/Echo.antt", text, "= x", "= 0"))
        self.assertFalse(self.seen("specs/Echo.antt", text, "Says", "Tells"))

    def test_of_lemmas_the_statements_are_seen(self):
        self.assertFalse(self.seen("proofs/EchoLemmas.antt", PROOFS, "sym refl", "refl"))
        self.assertFalse(self.seen("proofs/EchoLemmas.antt", PROOFS, "refl, sym", "refl"))
        for old, new in (("echo_of x ≡ x", "x ≡ echo_of x"), ("List t", "t"), ("sym, List", "sym, Lists"),
                         ("low.specs", "other.specs")):
            self.assertTrue(self.seen("proofs/EchoLemmas.antt", PROOFS, old, new), old)

    def test_answers_are_not_seen(self):
        self.assertFalse(see("proofs/echo/Answers.antt", "pub returns : goal.returns\n", ""))

    def test_of_each_source_here_no_body_is_left(self):
        for path in ROOT.glob("crates/*/src/**/*.rt"):
            left = changes.without_bodies(path.read_text())
            self.assertNotIn("return Ok(", left, path)
            self.assertNotIn(" let mut ", left, path)


# An `rt` that writes down what it's asked, and proves a crate and those below it, but for one that fails.
RT = """#!/bin/sh
crate=$(basename "$PWD")
echo "$1 $crate" >> {said}
[ "$1" = test ] && exit 0
for one in $(cat {room}/below-$crate); do echo "== $one"; echo "logic=proved functions=1"; done
echo "== $crate"
if [ "$crate" = "{fails}" ]; then echo "logic=not-proved functions=1"; exit 1; fi
echo "logic=proved functions=1"
"""


class Checking(InRepository):
    def setUp(self):
        super().setUp()
        self.write("crates.txt", "low: clap\nmiddle: low\nhigh: middle\nbeside:\n"
                   "low_tests: low\nhigh_tests: high\n")
        for crate, used in crates.uses_of(self.root).items():
            test = "#[test]\nfn test() { 1 }\n" if crate.endswith("_tests") else ""
            self.write(f"crates/{crate}/src/lib.rt", f"{test}pub fn f() {{ 1 }}\n")
            names = " ".join(crates.below(crates.uses_of(self.root), crate))
            (self.room / f"below-{crate}").write_text(names)
        self.write("crates/low/must-fail/one.edit", "")
        self.commit()

    def check(self, words=(), fails=""):
        """What the tool ends with, what `rt` was asked, and what was printed."""
        status, said, printed = self.ended(check_changed.main, words, RT, fails=fails)
        return status, said.splitlines(), printed

    def test_where_nothing_changed_nothing_is_checked(self):
        self.assertEqual(self.check()[:2], (0, []))

    def test_a_body_concerns_its_crate_and_the_tests_above(self):
        self.write("crates/low/src/lib.rt", "pub fn f() { 2 }\n")
        wanted = ["fmt low", "all low_tests", "all high_tests", "test low_tests", "test high_tests"]
        self.assertEqual(self.check()[1], wanted)

    def test_a_clause_concerns_the_crates_above_too(self):
        self.write("crates/high/src/lib.rt", "pub fn f() ensures { 1 } { 1 }\n")
        self.write("crates/beside/src/more.rt", "pub fn f() { 1 }\n")
        wanted = ["fmt high", "fmt beside", "all beside", "all high_tests", "test high_tests"]
        self.assertEqual(self.check()[1], wanted)

    def test_a_line_of_the_list_of_crates_concerns_its_crate(self):
        self.write("crates.txt", (self.root / "crates.txt").read_text().replace("beside:", "beside: clap"))
        self.assertEqual(changes.changes_since(self.root, "HEAD"), ({"beside"}, {"beside"}, set()))
        self.assertEqual(self.check()[1], ["fmt beside", "all beside"])

    def test_what_the_gate_adds_is_told(self):
        self.write("crates/low/src/lib.rt", "pub fn f() { 2 }\n")
        told = self.check()[2].splitlines()
        self.assertIn("low: proved, 0 s", told)
        self.assertIn("low_tests: tests passed, 0 s", told)
        self.assertEqual(told[-2:], ["the gate also tries the edits of these: low 1",
                                     "the gate also checks, with their edits: beside"])

    def test_what_stands_on_a_crate_that_fails_is_not_checked(self):
        self.write("crates/low/src/lib.rt", "pub fn f() { 2 }\n")
        ended, asked, told = self.check(fails="low_tests")
        self.assertEqual((ended, asked), (1, ["fmt low", "all low_tests", "all high_tests", "test high_tests"]))
        self.assertIn("low_tests: NOT PROVED", told)
        log = pathlib.Path(told.split("what rt printed: ")[1].strip())
        self.assertIn("logic=not-proved", log.read_text())
        log.unlink()

    def test_an_unknown_commit_is_refused(self):
        self.assertEqual(self.check(["--since", "nothing"])[:2], (2, []))


if __name__ == "__main__":
    unittest.main()
