"""Sentences, places, and the part of the source that is shown."""

import unittest

from page_support import SAMPLES, facts_of, file_bytes, solved

from nllc_tools.base import grouping, sentences
from nllc_tools.base.sentences import Code, plain
from nllc_tools.judge import asking_statements, chain_sentences
from nllc_tools.model import chains
from nllc_tools.model.facts import Constraint
from nllc_tools.texts import source


class Sentences(unittest.TestCase):
    def setUp(self):
        self.facts, self.values = solved(file_bytes(SAMPLES, "pick.facts"))
        self.steps = chains.chain(self.facts, self.values, 2, 1)

    def test_the_fault(self):
        self.assertEqual(plain(chain_sentences.fault_head(self.facts, 2, 1)),
                         "`'b` must outlive `'a`, but the signature doesn't declare it")

    def test_each_step(self):
        self.assertEqual([plain(chain_sentences.step_sentence(self.facts, step, 1)) for step in self.steps], [
            "After `_0 = copy best` (line 9), `'best` must hold all that is reached inside `'a` "
            "from point 8 on. The "
            "function returns right there, and the walk goes on to `end('a)`, which `'a` holds; so "
            "`'best` holds it too.",
            "After `best = copy second` (line 7), `'b` must hold all that is reached inside "
            "`'best` from point 6 on. "
            "Inside `'best` a walk from there (6 → 7 → 8) leads to point 8, where the function "
            "returns, and on to "
            "`end('a)`, which `'best` holds; so `'b` holds it too."])

    def test_what_it_means(self):
        facts = facts_of(1, "universal 'a", "universal 'b")
        self.assertEqual(plain(chain_sentences.conclusion(facts, 1, 2)),
                         "So `'a` would have to last as long as `'b`, whatever the caller chooses.")

    def test_the_lines(self):
        self.assertEqual(asking_statements.arising(self.facts, self.steps), [7, 9])
        self.assertEqual(asking_statements.entry(self.facts, self.steps), 7)
        self.assertEqual(asking_statements.entry(self.facts, self.steps[:1]), 9)

    def test_a_step_without_remarks(self):
        facts = facts_of(2, "universal 'a", "region 'x", "next 0 1", "return 1",
                         "constraint 'x 'a 1")
        step = chains.Step(Constraint(2, 1, 1), [1])
        self.assertTrue(plain(chain_sentences.step_sentence(facts, step,
                                                  1)).startswith("`'x` must hold all that is "
                                                                 "reached inside"))
        self.assertEqual(plain(chain_sentences.step_brief(facts, step)),
                         "to `'x`: from point 1 on, inside `'a` by 1")
        self.assertEqual(asking_statements.arising(facts, [step]), [])

    def test_a_constraint_at_every_point(self):
        facts = facts_of(2, "universal 'a", "region 'x", "next 0 1", "return 1",
                         "# point 0: line 4: x = y",
                         "constraint 'x 'a 0", "constraint 'x 'a 1")
        step = chains.Step(Constraint(2, 1, 1), [1])
        self.assertTrue(plain(chain_sentences.step_sentence(facts, step,
                                                  1)).startswith("At every point `'x` must "
                                                                 "outlive `'a`: "))
        self.assertEqual(asking_statements.arising(facts, [step]), [])

    def test_several_statements(self):
        remarks = [f"# point {p}: line {p + 5}: x{p}" for p in range(4)]
        edges = [f"next {p} 4" for p in range(4)]
        few = facts_of(5, *remarks, *edges[:2])
        self.assertEqual(plain(chain_sentences.reason(few, Constraint(0, 0, 4))),
                         "After `x0` (line 5) or `x1` (line 6), ")
        many = facts_of(5, *remarks, *edges)
        step = chains.Step(Constraint(0, 0, 4), [4])
        self.assertEqual((asking_statements.arising(few, [step]), asking_statements.arising(many, [step])), ([5, 6], []))
        self.assertEqual(plain(chain_sentences.reason(many, Constraint(0, 0, 4))),
                         "By one of the 4 statements before point 4, ")

    def test_a_way_out_by_a_panic(self):
        facts = facts_of(2, "universal 'a", "return 0", "# point 0: resume (bb3[0])")
        step = chains.Step(Constraint(0, 1, 0), [0])
        self.assertIn("The function unwinds right there",
                      plain(chain_sentences.step_sentence(facts, step, 1)))

    def test_a_point_in_the_middle_of_a_statement(self):
        facts = facts_of(3, "next 0 1", "next 1 2", "# point 1: line 2: x = y (bb0[0], mid)")
        origins = [asking_statements.origins(facts, Constraint(0, 0, at)) for at in range(3)]
        self.assertEqual(origins, [[0], [1], [1]])

    def test_a_statement_asks_at_each_point_after_it(self):
        facts = facts_of(5, "region 'x", "region 'y", "next 0 1", "next 0 4", "next 2 3", "next 2 4",
                         "constraint 'x 'y 1", "constraint 'x 'y 4")
        self.assertEqual(asking_statements.origins(facts, Constraint(1, 2, 4)), [0])
        self.assertEqual(asking_statements.origins(facts, Constraint(2, 1, 4)), [0, 2])

    def test_walks(self):
        facts = facts_of(14)
        for points, said in (([3], "3"), ([1, 2, 3, 4, 5, 6, 7], "1 → 2 → 3 → 4 → 5 → 6 → 7"),
                             ([1, 2, 3, 7], "1 → 2 → 3 → 7"),
                             ([1, 2, 3, 4, 5, 9, 11, 12, 13], "1 → … → 5 → 9 → 11 → 12 → 13")):
            self.assertEqual(chain_sentences.walk_text(facts, points), said)
        facts.point_names.update({1: "bb0/1", 2: "bb1/0"})
        self.assertEqual(chain_sentences.walk_text(facts, [1, 2]), "bb0/1 → bb1/0")

    def test_small_words(self):
        self.assertEqual(grouping.spans([0, 1, 2, 5, 7, 8]), [[0, 2], [5, 5], [7, 8]])
        self.assertEqual((sentences.plural(1, "point"), sentences.plural(2000, "point")),
                         ("1 point", "2,000 points"))
        self.assertEqual(plain(sentences.joined([["a"], [Code("b")], ["c"]])), "a, `b` and c")
        facts = facts_of(1, "# region 'a: " + "x" * 100, "# region 'b: first; second",
                         "universal 'a", "universal 'b")
        self.assertEqual(chain_sentences.region_words(facts, 1), "x" * 89 + "…")
        self.assertEqual(chain_sentences.region_words(facts, 2), "first; second")
        self.assertEqual(chain_sentences.region_words(facts, 0), "lasts for ever")


class Windows(unittest.TestCase):
    LINES = ["use a;", "", "/// Doc.", "#[inline]", "pub fn f(", "    x: u8,", ") {", "    g();",
             "}", "", "fn g() {}"]

    def test_the_function_and_no_other(self):
        self.assertEqual(source.window(self.LINES, [8]), (3, 9))
        self.assertEqual(source.window(self.LINES, [5, 8, 9]), (3, 9))
        self.assertEqual(source.window(self.LINES, [11]), (11, 11))

    def test_an_end_that_is_far_away(self):
        self.assertEqual(source.window(["fn f() {", "    g();"] + ["    h();"] * 60 + ["}"], [2]),
                         (1, 2))

    def test_no_function_above(self):
        self.assertEqual(source.window(["a", "b", "c"], [2]), (2, 2))
