"""Constraints at all points in texts and on pages, and both answers side by side."""

import os
import re
import unittest
import unittest.mock
from dataclasses import replace

from facts_support import stored_texts
from page_support import EXAMPLES, Folder, content_of, file_bytes, random_text, reference, solved, text
from quick_solver import quick_report, quick_values

from nllc_tools.base.refusal import Refusal
from nllc_tools.base.sentences import plain
from nllc_tools.judge import verdicts
from nllc_tools.judge.chain_sentences import step_brief, step_sentence
from nllc_tools.judge.content import explained
from nllc_tools.model.chains import chain, check
from nllc_tools.model.facts import ALL
from nllc_tools.model.faults import faults
from nllc_tools.texts.facts import widening
from nllc_tools.texts.facts.reader import read_facts
from nllc_tools.views.html.page import page
from nllc_tools.views.html.parts import answers_part
from nllc_tools.views.html.parts.region_list import region_list
from nllc_tools.views.terminal.explaining import second_answer


def second(points, *lines):
    return text(points, *lines).replace(b"nll-facts 1", b"nll-facts 2", 1)


def with_both(data):
    return replace(content_of(*solved(data)), everywhere=content_of(*solved(widening.at_all_points(data))))


class Reading(unittest.TestCase):
    def test_all_points(self):
        facts = read_facts(second(2, "region 'all", "constraint 'all 'static all", "constraint'all'static\t1",
                                  "constraint 'all 'static all"), "TEXT")
        self.assertEqual(facts.constraints, [(1, 0, ALL), (1, 0, 1)])
        self.assertEqual([facts.place_name(c.at) for c in facts.constraints], ["all", "1"])

    def test_no_line_of_version_1(self):
        with self.assertRaisesRegex(Refusal, "line 3"):
            read_facts(text(1, "constraint 'static 'static all"), "TEXT")

    def test_nowhere_else(self):
        for line in ["base 'static all", "return all", "next 0 all", "constraint 'static 'static all 0",
                     "constraint 'static 'static 'all", "constraint 'static all"]:
            with self.subTest(line=line), self.assertRaisesRegex(Refusal, "line 3"):
                read_facts(second(1, line), "TEXT")


class Chains(unittest.TestCase):
    def test_without_a_walk(self):
        facts, values = solved(second(2, "universal 'a", "universal 'b", "next 0 1", "next 1 0",
                                      "constraint 'a 'b all"))
        steps = chain(facts, values, 1, 2)
        self.assertEqual(steps, [((1, 2, ALL), [])])
        check(facts, values, 1, 2, steps)
        self.assertEqual(plain(step_sentence(facts, steps[0], 2)),
                         "At every point `'a` must outlive `'b`: `'a` must hold all that `'b` holds, wherever "
                         "that is, and so `end('b)`.")
        self.assertEqual(plain(step_brief(facts, steps[0])), "to `'a`: at every point `'a` must outlive `'b`")

    def test_random_texts(self):
        for seed in range(60):
            data = widening.at_all_points(random_text(seed))
            facts, values = solved(data)
            self.assertEqual(quick_values(facts).rows, values.rows)
            for fault in explained(facts, values, faults(facts, values), "nllc"):
                check(facts, values, fault.sup, fault.sub, fault.steps)


class Both(unittest.TestCase):
    def test_the_second_text(self):
        self.assertEqual(
            widening.at_all_points(b"nll-facts 1\npoints 2\n# constraint\nregion 'x\nconstraint 'x 'x 0\n"
                               b"constraint'x'x 1\n\tconstraint 'static 'x 1 \nend\n"),
            b"nll-facts 2\npoints 2\n# constraint\nregion 'x\nconstraint 'x 'x all\n"
            b"constraint 'static 'x all\nend\n")

    def test_what_it_says(self):
        for seed in range(60):
            data = random_text(seed)
            said = reference.said_in(widening.at_all_points(data))
            first = reference.said_in(data)
            self.assertEqual(said.constraints, {(a, b, ALL) for a, b, _ in first.constraints})
            self.assertEqual((said.edges, said.bases), (first.edges, first.bases))

    def test_a_fault_in_the_second_alone(self):
        content = with_both(file_bytes(EXAMPLES, "overwritten.facts"))
        self.assertEqual(verdicts.in_words(content), "no fault")
        self.assertEqual(verdicts.in_words(content.everywhere), "1 fault")
        self.assertEqual([content.facts.names[r] for r in verdicts.differing(content, content.everywhere)], ["a", "p"])
        told = list(second_answer(content))
        self.assertEqual(told[0], "with each constraint at all points: 1 fault, in place of no fault")
        made = page(content)
        self.assertIn('<section class="answers"', made)
        self.assertIn('<td>no fault</td><td>1 fault</td>', made)
        self.assertIn("no fault · 1 fault at all points</p>", made)
        self.assertIn("2 regions of the list below hold more at all points", made)
        strips = region_list(content).split('data-r="2"')[1].split("</button>")[0]
        self.assertEqual(re.findall(r'aria-label="([^"]*)"><path d="([^"]*)"', strips),
                         [("holds 3 points", "M1 0h1v1h-1zM3 0h2v1h-2z"), ("at all points it holds 5 points", "M0 0h5v1h-5z")])

    def test_both_the_same(self):
        content = with_both(text(1, "universal 'a", "return 0", "constraint 'static 'a 0"))
        self.assertEqual(list(second_answer(content)), [])
        self.assertIn("Each region holds the same in both.", answers_part.both(content))

    def test_no_second_answer(self):
        content = content_of(*solved(text(1, "return 0")))
        self.assertEqual(answers_part.both(content), "")
        self.assertNotIn('class="answers"', page(content))

    def test_examples_at_all_points(self):
        for name in ("running", "overwritten"):
            first = read_facts(widening.at_all_points(file_bytes(EXAMPLES, f"{name}.facts")), "TEXT")
            other = read_facts(file_bytes(EXAMPLES, f"{name}_everywhere.facts"), "TEXT")
            self.assertEqual(first.constraints, other.constraints)

    def test_a_constraint_at_all_points_is_one(self):
        content = content_of(*solved(file_bytes(EXAMPLES, "overwritten_everywhere.facts")))
        self.assertIn(" · 3 constraints", page(content))


class Command(Folder):
    def test_answered(self):
        from nllc_tools.commands import answers
        text = file_bytes(EXAMPLES, "overwritten.facts")
        path = self.write("overwritten.facts", text)
        self.enterContext(unittest.mock.patch.dict("os.environ", {"NLLC": self.path("nllc")}))
        said = answers.answered(path, text, answers.How(everywhere=True))
        self.assertEqual(said.faults, 0)
        self.assertEqual(said.lines[0], "with each constraint at all points: 1 fault, in place of no fault")
        self.assertEqual(answers.answered(path, text).lines, [])

    def test_a_page_where_something_is_told(self):
        from nllc_tools.commands import answers
        self.enterContext(unittest.mock.patch.dict("os.environ", {"NLLC": self.path("nllc")}))
        for name, has_page in (("running", False), ("as_static", True)):
            text = file_bytes(EXAMPLES, f"{name}.facts")
            said = answers.answered(self.write(f"{name}.facts", text), text, answers.How(has_page=False))
            self.assertEqual(bool(said.page), has_page)
            self.assertEqual(os.path.exists(self.path(f"{name}.html")), has_page)

    def test_of_which_nothing_is_told_is_known_without_values(self):
        """Of all stored texts: what is said of one without reading it is what is said of it when it is read."""
        from nllc_tools.base import nllc
        from nllc_tools.judge import silence
        from nllc_tools.judge.content import content_of
        from nllc_tools.judge.summary import silent, summary_of
        self.enterContext(unittest.mock.patch.object(nllc, "run", quick_report))
        self.enterContext(unittest.mock.patch.object(nllc, "has_faults", lambda text: bool(quick_report(text).faults)))
        count = 0
        for path, text in all_texts():
            with self.subTest(path=path):
                content = content_of(path, text)
                said = summary_of(content)
                is_quiet = silence.silence_of(text).is_silent
                count += is_quiet
                if is_quiet:
                    self.assertEqual(replace(silent(silence.facts_of(text)), path=said.path), said)
                is_told = said.count() or said.differences or said.further or said.refused
                self.assertEqual(is_quiet, not is_told and not content.needs)
        self.assertGreater(count, 80)


def all_texts():
    """Texts of right and of wrong functions, with loans that something conflicts with in both."""
    for source in ("differ", "right", "iterators", "coroutines", "borrowed_twice", "moves"):
        yield from ((f"{source}/{name}", text.encode()) for name, text in sorted(stored_texts(source).items()))
