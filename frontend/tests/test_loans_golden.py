"""Loans and lifetimes of the functions of loans/: each error of rustc is found, and nothing else.

rustc's errors stand in loans/errors.tsv; store_facts.py writes them down. Dumps are stored, so that
these tests need no rustc; where it is at hand, another test compares the errors with fresh ones.
"""

import os
import re
import unittest

import facts_support as support
import page_support
from nllc_tools.base.sentences import plain
from nllc_tools.judge import differences
from nllc_tools.judge.as_rustc.loan_faults import loan_faults
from nllc_tools.judge.content import Content, Fault
from nllc_tools.judge.findings import findings
from nllc_tools.model import chains, faults
from nllc_tools.rustc.error_kinds import LIFETIMES, LOANS
from nllc_tools.texts.source import source_of
from nllc_tools.texts.facts.reader import read_facts
from quick_solver import quick_values

KINDS = ("E0499", "E0502", "E0505", "E0506", "E0597", "E0515", "E0716", "E0503", "E0373", "E0510", "E0713",
         "E0500", "E0501", "E0524")
FN = re.compile(r"\s*(?:pub )?(?:async )?fn (\w+)")


def content_of(text, source=None):
    """What a page shows of a text, where a source is named with its lines."""
    facts = read_facts(text.encode(), "TEXT")
    values = quick_values(facts)
    found = faults.faults(facts, values)
    needs = faults.needs(facts, found)
    wrong = [Fault(sup, sub, chains.chain(facts, values, sup, sub))
             for sup, sub in found if (sup, sub) not in needs]
    lines = source_of(facts, os.path.join(support.HERE, "TEXT")) if source else None
    return Content(facts, values, wrong, "TEXT", lines, "", "", list(loan_faults(facts, values)), needs)


def found_in(source):
    """The code, line and column of each fault of a source."""
    found = set()
    for text in support.stored_texts(source).values():
        for one in findings.all_of(content_of(text, source)):
            found.add((one.code if one.code in LOANS else "", one.place.line, one.place.column))
    return found


class Found(unittest.TestCase):
    def test_errors_are_those_of_rustc(self):
        for source in support.WRONG:
            with self.subTest(source=source):
                errors = {(error.code if error.code in LOANS else "", error.line, error.column)
                          for error in support.stored_errors(source)}
                self.assertEqual(found_in(source), errors)

    def test_right_functions_have_none(self):
        for source in (*support.RIGHT, "small", "rfc2094"):
            with self.subTest(source=source):
                self.assertEqual(found_in(source), set())
                self.assertEqual(support.stored_errors(source), [])


class Moves(unittest.TestCase):
    """Errors of moves and assignments are those of rustc, since the lines that the source marks."""

    def test_errors(self):
        lines = page_support.file_bytes(support.HERE, support.source_path("moves")).decode().split("\n")
        marked = {number for number, line in enumerate(lines, 1) if line.endswith("// before")}
        found, since = set(), set()
        for text in support.stored_texts("moves").values():
            content = content_of(text, "moves")
            for one in findings.all_of(content):
                found.add((one.code, one.place.line, one.place.column))
                since.update(content.facts.remarks.point(point).line for point in one.fault.since)
            self.assertEqual(differences.refused(content), [])
        errors = {(error.code, error.line, error.column) for error in support.stored_errors("moves")}
        self.assertEqual(found, errors)
        self.assertEqual({code for code, _, _ in errors}, {"E0381", "E0382", "E0384"})
        self.assertEqual(since - {self.line(lines, "pub fn argument(number: u8) -> u8 {") + 1}, marked)

    def line(self, lines, code):
        return lines.index(code) + 1

    def test_words(self):
        content = content_of(support.stored_texts("moves")["on_one_way.facts"], "moves")
        [one] = findings.all_of(content)
        self.assertEqual([plain(one.head), plain(one.cause)], [
            "`text` is used here, and line 20 may have moved it",
            "line 20 (`drop(text);`) moves it, and a path leads from there to here on which it gets no new value "
            "(by lines 20, 21, 22)"])


class Sources(unittest.TestCase):
    """That there are functions enough, of each kind."""

    def test_wrong_functions(self):
        errors = [error for source in support.WRONG for error in support.stored_errors(source)]
        self.assertLessEqual({error.code for error in errors} - {""}, {*LOANS, *LIFETIMES})
        for kind in KINDS:
            self.assertIn(kind, {error.code for error in errors})
        functions = {(error.places[0][0], self.function(error)) for error in errors
                     if error.code in LOANS}
        self.assertGreaterEqual(len(functions), 60)

    def function(self, error):
        lines = page_support.file_bytes(support.HERE, error.places[0][0]).decode().split("\n")
        return next(line for line in range(error.line, 0, -1) if FN.match(lines[line - 1]))

    def test_right_functions(self):
        count = 0
        for source in support.RIGHT:
            text = page_support.file_bytes(support.HERE, support.source_path(source)).decode()
            count += sum(FN.match(line) is not None for line in text.split("\n"))
        self.assertGreaterEqual(count, 60)


class Needs(unittest.TestCase):
    def test_of_closures_and_async_bodies(self):
        needed = 0
        for source in support.RIGHT:
            for name, text in support.stored_texts(source).items():
                content = content_of(text)
                if content.needs:
                    self.assertIn("closure", name)
                    needed += 1
        self.assertGreaterEqual(needed, 20)

    def test_beyond_them_is_a_fault(self):
        facts = page_support.facts_of(1, "universal 'a", "universal 'b", "universal 'c", "return 0",
                                      "constraint 'a 'b 0", "constraint 'b 'c 0", "# needs 'b 'c")
        found = faults.faults(facts, quick_values(facts))
        self.assertEqual(found, [(1, 2), (1, 3), (2, 3)])
        self.assertEqual(faults.needs(facts, found), [(2, 3)])

    def test_of_equal_regions_one_is_a_fault(self):
        facts = page_support.facts_of(1, "universal 'a", "universal 'b", "universal 'c", "return 0",
                                      "constraint 'a 'b 0", "# needs 'b 'c", "# needs 'c 'b")
        self.assertEqual(faults.distinct(facts, [(1, 2), (1, 3), (2, 1)]), [(1, 2), (2, 1)])

    def test_what_follows_from_them_is_one(self):
        facts = page_support.facts_of(1, "universal 'a", "universal 'b", "universal 'c", "return 0",
                                      "constraint 'a 'b 0", "constraint 'b 'c 0",
                                      "# needs 'a 'b", "# needs 'b 'c")
        found = faults.faults(facts, quick_values(facts))
        self.assertEqual(faults.needs(facts, found), found)


class Differences(unittest.TestCase):
    def told(self, function):
        name = f"{function}.facts"
        content = content_of(support.golden_text("differ", function))
        self.assertFalse(content.faults or content.loans, name)
        return [(line, words.split(":")[0], plain(why))
                for (line, _, words, *_), why in differences.differences(content)]

    def test_problem_case_3(self):
        for line, code, why in self.told("get_default"):
            self.assertEqual(code, "E0499")
            self.assertIn(line, (55, 56))
            self.assertIn("problem case 3 of RFC 2094: the loan of line 52", why)
        self.assertEqual(len(self.told("get_default")), 2)

    def test_a_constraint_holds_from_its_point_on(self):
        [(line, _, why)] = self.told("last")
        self.assertEqual(line, 14)
        self.assertIn("nllc applies a constraint from its statement on", why)

    def test_where_both_refuse(self):
        content = content_of(support.golden_text("differ", "longer"))
        self.assertEqual(differences.differences(content), [])


class Solver(unittest.TestCase):
    """The quick values are those of the slow reference."""

    def test_golden_texts(self):
        for source in support.SOURCES:
            for name, text in support.golden_texts(source).items():
                with self.subTest(text=name):
                    self.compare(text.encode())

    def test_random_texts(self):
        for seed in range(300):
            with self.subTest(seed=seed):
                self.compare(page_support.random_text(seed))

    def compare(self, text):
        facts, values = page_support.solved(text)
        self.assertEqual(quick_values(facts).rows, values.rows)
