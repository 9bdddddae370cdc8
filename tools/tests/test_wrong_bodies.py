"""The wrong bodies of the gate and those beside them, and the tool that tries them."""

import collections
import re
import unittest

from support import ROOT, InRepository
import definitions
import wrong_bodies

FOLDERS = sorted(folder for name in wrong_bodies.FOLDERS for folder in ROOT.glob(f"crates/*/{name}"))

# `FUNCTION, CLAUSE` or `FUNCTION: what else refuses it`; and clauses of functions of std.
REFUSES = re.compile(r"(?:ring's )?([\w:]+)(?: of [^,:]*)?(?:, |: )(.+)")
OF_STD = {"and", "from_gives", "steps"}

# An `rt` that writes down what it's asked and sees, and proves the functions that return a number.
RT = """#!/usr/bin/env python3
import os, pathlib, re, sys

said = open({said!r}, "a")
print(*sys.argv[1:], "in", os.path.basename(os.getcwd()), file=said)
if sys.argv[1] == "all":
    print("== low\\nlogic=proved functions=1")
    sys.exit({proves})
for stamp in sorted(pathlib.Path("..").glob("*/out/*/*")):
    print(stamp, "has", stamp.stat().st_nlink, "names", file=said)
crate, proved = os.path.basename(os.getcwd()), True
for name, word in re.findall(r"fn (\\w+)\\(\\) {{\\n    (.*)\\n", open("src/lib.rt").read()):
    if not word.isdigit():
        print("fn " + crate + "::" + name + ": no proof: expected answers in ./proofs/" + name + "/Answers.antt; " + word)
        proved = False
print("logic=proved" if proved else "logic=not-proved")
"""
SOURCE = "pub fn f() {\n    1\n}\n\npub fn g() {\n    2\n}\n"
WRONG = "file: src/lib.rt\nold: 1\nnew: one\n"
OTHER = "file: src/lib.rt\nold: 2\nnew: two\n"
NOT_WRONG = "file: src/lib.rt\nold: 1\nnew: 3\n"


class Edits(unittest.TestCase):
    def test_each_can_be_applied(self):
        for folder in FOLDERS:
            self.assertTrue(list(folder.glob("*.edit")), folder)
            for edit in folder.glob("*.edit"):
                pairs = wrong_bodies.read_edit(folder.parent.name, edit).pairs
                self.assertTrue(pairs, edit)
                for file, old, _ in pairs:
                    self.assertEqual((folder.parent / file).read_text().count(old), 1, f"{edit}: {old}")

    def test_each_says_what_is_wrong_and_what_refuses_it(self):
        silent = [str(edit.relative_to(ROOT)) for folder in FOLDERS for edit in folder.glob("*.edit")
                  if not wrong_bodies.header_of(edit.read_text())]
        self.assertEqual(silent, [])

    def test_what_refuses_it_is_there(self):
        """The function that an edit's head names, and its clauses, or the relation by which a trait says them."""
        clauses, relations = collections.defaultdict(set), {*OF_STD}
        for path in (ROOT / "crates").glob("*/src/**/*.rt"):
            lines = path.read_text().split("\n")
            for at, line in enumerate(lines):
                if name := re.match(r" *(?:pub(?:\(crate\))? )?fn (\w+)", line):
                    texts = ("\n".join(lines[at:to]) for to in range(at + 1, len(lines) + 1))
                    contract = next(filter(definitions.is_end, texts), line)
                    clauses[name[1]].update(re.findall(r"\b(?:ensures|requires) (\w+) \{", contract))
                elif name := re.match(r" *ghost (\w+):", line):
                    relations.add(name[1])
        wrong = []
        for edit in (edit for folder in FOLDERS for edit in folder.glob("*.edit")):
            for part in wrong_bodies.header_of(edit.read_text())[1].replace("`", "").split("; "):
                found = REFUSES.fullmatch(part)
                name, what = found.groups() if found else ("", "")
                words = set(re.findall(r"\w+", what)) if re.fullmatch(r"\w+(?:, \w+)*(?: and \w+)?", what) else set()
                if name.rpartition("::")[2] not in clauses or words - clauses[name.rpartition("::")[2]] - relations:
                    wrong.append(f"{edit.relative_to(ROOT)}: {part}")
        self.assertEqual(wrong, [])

    def test_none_has_the_name_of_another_of_its_crate(self):
        names = [(edit.parents[1].name, edit.stem) for folder in FOLDERS for edit in folder.glob("*.edit")]
        self.assertEqual(len(names), len(set(names)))


class Trying(InRepository):
    def setUp(self):
        super().setUp()
        self.write("crates.txt", "low:\nhigh: low\ntop: high\nbeside:\n")
        for crate in ("low", "high", "top", "beside"):
            self.write(f"crates/{crate}/src/lib.rt", SOURCE)
            self.write(f"crates/{crate}/out/rlib/stamp", crate)
            self.write(f"crates/{crate}/out/incremental/found", crate)
        for edit, text in {"low/wrong-bodies/one": WRONG, "high/wrong-bodies/two": OTHER,
                           "high/must-fail/gates": WRONG, "beside/must-fail/other": WRONG}.items():
            self.write(f"crates/{edit}.edit", text)

    def try_on(self, words, proves=0, jobs=1):
        """What the tool ends with, what `rt` was asked and saw, and what was printed."""
        return self.ended(wrong_bodies.main, [*words, "--jobs", str(jobs)], RT, proves=proves)

    def tried(self, words):
        """The edits that are tried, by what is printed."""
        ended, _, printed = self.try_on(words)
        self.assertEqual(ended, 0, printed)
        return re.findall(r"^(\w+/\w+): ", printed, re.M)

    def test_each_crate_gets_its_wrong_bodies_alone(self):
        self.assertEqual(sorted(self.tried([])), ["high/two", "low/one"])
        self.assertEqual(self.tried(["high"]), ["high/two"])

    def test_a_list_has_what_the_edits_say(self):
        self.write("crates/high/must-fail/gates.edit", "# wrong: it adds\n# refused by: f, sum\n" + WRONG)
        self.assertEqual(self.try_on(["--list", "high"]), (0, "", """\
high/must-fail/gates: it adds
    refused by f, sum
high/wrong-bodies/two: (it doesn't say)
    refused by (it doesn't say)
"""))

    def test_those_of_the_gate_are_tried_where_all_are_asked_for(self):
        wanted = ["beside/other", "high/gates", "high/two", "low/one"]
        self.assertEqual(sorted(self.tried(["--all"])), wanted)

    def test_the_libraries_are_proved_first(self):
        said = self.try_on(["high"])[1].split("\n")
        self.assertEqual(said[0], f"all check --jobs 1 in {wrong_bodies.LIBRARIES}")
        self.assertEqual(said[1], "check --jobs 1 in high")
        self.assertIn("library low: proved", self.try_on(["high"])[2])

    def test_edits_of_different_functions_share_a_check(self):
        ended, said, printed = self.try_on(["--all", "high"])
        self.assertEqual((ended, said.count("check --jobs 1 in high")), (0, 1))
        self.assertIn("high/gates: refused by a clause's goal: no proof: ", printed)
        self.assertIn("high/two: refused by a clause's goal: no proof: ", printed)

    def test_of_what_is_kept_a_room_has_the_libraries_alone_and_no_second_time(self):
        said = self.try_on(["high"])[1]
        self.assertEqual(re.findall(r"^(\S+/out/.*)$", said, re.M), ["../low/out/rlib/stamp has 3 names"])

    def test_where_a_library_is_not_proved_nothing_is_tried(self):
        ended, said, printed = self.try_on(["high"], proves=1)
        self.assertEqual((ended, said.count("\n")), (1, 1))
        self.assertIn("logic=proved functions=1", printed)

    def test_what_stands_on_no_library_needs_no_proof(self):
        self.assertEqual(self.try_on(["low"])[1].split("\n")[0], "check --jobs 1 in low")

    def test_what_came_of_each_is_told_and_counted(self):
        self.write("crates/low/wrong-bodies/five.edit", NOT_WRONG)
        ended, _, printed = self.try_on(["low"])
        self.assertEqual(ended, 1)
        self.assertEqual(printed.splitlines()[-1], "2 tried, 1 refused by a clause's goal, 0 by a step of a "
                         "proof file, 0 by a missing name, 1 not refused")
        self.assertIn("low/five: NOT REFUSED: the crate is still proved with it", printed)

    def test_an_edit_that_cannot_be_made_is_not_refused(self):
        self.write("crates/low/wrong-bodies/one.edit", "file: src/a.rt\nold: 1\nnew: 2\n")
        ended, _, printed = self.try_on(["low"])
        self.assertEqual((ended, printed.splitlines()[-1].split(", ")[-1]), (1, "1 not refused"))

    def test_a_crate_without_wrong_bodies_is_refused(self):
        ended, said, _ = self.try_on(["beside"])
        self.assertEqual((ended, said), (2, ""))

    def test_since_a_commit_leaves_out_what_is_as_it_was(self):
        self.commit()
        self.assertEqual(self.tried(["--since", "HEAD"]), [])
        self.write("crates/low/src/lib.rt", SOURCE.replace("2", "4"))
        self.assertEqual(self.tried(["--since", "HEAD", "--all"]), ["low/one"])
        self.write("crates/low/src/lib.rt", SOURCE.replace("pub fn g()", "pub fn h()"))
        wanted = ["high/gates", "high/two", "low/one"]
        self.assertEqual(sorted(self.tried(["--since", "HEAD", "--all"])), wanted)
        self.assertEqual(self.tried(["--since", "HEAD", "high"]), ["high/two"])

    def test_since_a_commit_an_edit_that_changed_is_tried(self):
        self.commit()
        self.write("crates/high/wrong-bodies/two.edit", WRONG)
        self.assertEqual(self.tried(["--since", "HEAD"]), ["high/two"])

    def test_an_unknown_commit_is_refused(self):
        self.commit()
        self.assertEqual(self.try_on(["--since", "nothing"])[0], 2)


if __name__ == "__main__":
    unittest.main()
