"""Reading facts texts, their remarks, and reports."""

import unittest

from page_support import facts_of, file_bytes, random_text, reference, solved, text, SAMPLES

from nllc_tools.base.refusal import Refusal
from nllc_tools.texts.facts.reader import read_facts
from nllc_tools.model.remarks import Remark
from nllc_tools.texts.facts.values import read_values


class Facts(unittest.TestCase):
    def test_what_a_text_says(self):
        facts = facts_of(3, "universal 'a", "universal 'b", "outlives 'a 'b", "region 'x",
                         "next 0 1", "next 0 1",
                         "next 1 2", "return 2", "base 'x 1", "constraint 'a 'x 1",
                         "constraint'a'x\t1\r")
        self.assertEqual(facts.names, ["static", "a", "b", "x"])
        self.assertEqual(facts.universals, 3)
        self.assertEqual(facts.outlives, {(1, 2)})
        self.assertEqual(facts.successors, [[1], [2], []])
        self.assertEqual(facts.predecessors, [[], [0], [1]])
        self.assertEqual(facts.returns, {2})
        self.assertEqual(facts.bases[3], {1})
        self.assertEqual(facts.constraints, [(1, 3, 1)])
        self.assertEqual(facts.end_of(2), 5)

    def test_what_the_reference_reads(self):
        for seed in range(200):
            said = reference.said_in(random_text(seed))
            facts = read_facts(random_text(seed), "TEXT")
            names = [name.encode() for name in facts.names]
            self.assertEqual(names, said.names())
            self.assertEqual({(p, q) for p in range(facts.points) for q in facts.successors[p]},
                             said.edges)
            self.assertEqual({(names[c.sup], names[c.sub], c.at) for c in facts.constraints},
                             said.constraints)
            self.assertEqual({(names[r], p) for r, points in enumerate(facts.bases)
                              for p in points}, said.bases)
            self.assertEqual(facts.returns, said.returns)

    def test_lines_that_are_none(self):
        for line in ["nothing", "next 0", "next 0 3", "next 0 01", "base 'x 0",
                     "constraint 'static 'static 9",
                     "universal 'static", "points 3", "next 0 1 !", "outlives 'x 'static", "'a",
                     "return 'a", "end 1"]:
            with self.subTest(line=line), self.assertRaisesRegex(Refusal, "line 3.*nllc check"):
                facts_of(3, line)

    def test_no_facts_text(self):
        none = "isn't a facts text.*nllc.sh facts"
        for data, said in ((b"", none), (b"fn main() {}\n", none), (b"nll-facts 3\npoints 1\nend\n", none), (b"\xff\xfe\n", none),
                           (text(1, "region 'x", "universal 'a"), "line 4"),
                           (b"nll-facts 1\npoints 1\n", "stops before its `end` line"), (text(1) + b"return 0\n", "line 4"),
                           (b"nll-facts 1\n# \xff\npoints 1\nend\n", "line 2: not UTF-8")):
            with self.subTest(data=data), self.assertRaisesRegex(Refusal, said):
                read_facts(data, "TEXT")


class Remarks(unittest.TestCase):
    def test_each_form(self):
        remarks = facts_of(2, "# function: a::b", "  #source: src/x y.rs \r",
                           "# point 0: line 7: _1 = &'r _2 (bb0[3])",
                           "# point 1: return", "# region 'static: for ever",
                           "# region 'r: line 3: the borrow &x").remarks
        self.assertEqual((remarks.function, remarks.source), ("a::b", "src/x y.rs"))
        self.assertEqual(remarks.point(0), Remark(7, "_1 = &'r _2 (bb0[3])"))
        self.assertEqual(remarks.point(0).spot(), ("bb0", "3", None))
        self.assertEqual(remarks.point(0).statement(), "_1 = &'r _2")
        self.assertEqual(remarks.point(1), Remark(None, "return"))
        self.assertIsNone(remarks.point(1).spot())
        self.assertEqual(remarks.region("r"), Remark(3, "the borrow &x"))
        self.assertEqual(remarks.region("q"), Remark(None, ""))
        self.assertTrue(remarks.has_lines())

    def test_halves_of_a_place(self):
        self.assertEqual(Remark(1, "drop(_2) (bb10[0], mid)").spot(), ("bb10", "0", "mid"))

    def test_other_remarks_are_left_alone(self):
        remarks = facts_of(1, "# point of no return: 0", "# region x: y", "#", "# functions: f",
                           "# point 99: far").remarks
        self.assertEqual((remarks.function, remarks.source, remarks.regions), ("", "", {}))
        self.assertFalse(remarks.has_lines())

    def test_the_first_of_two_counts(self):
        self.assertEqual(facts_of(1, "# point 0: a", "# point 0: b").remarks.point(0).text, "a")


class Reports(unittest.TestCase):
    def setUp(self):
        self.facts = facts_of(2, "universal 'a", "region 'x", "next 0 1", "return 1", "base 'x 0")
        self.report = "'static: 0 1 end('static)\n'a: 0 1 end('a)\n'x: 0\n"

    def test_values(self):
        values = read_values(self.report, self.facts, "REPORT")
        self.assertEqual([values.elements(region) for region in range(3)],
                         [[0, 1, 2], [0, 1, 3], [0]])
        self.assertTrue(values.has(1, 3))
        self.assertFalse(values.has(2, 3))

    def test_reports_of_other_texts(self):
        for wrong in ["", self.report.replace("'x", "'y"), self.report.replace("'x: 0", "'x:"),
                      self.report.replace("'x: 0", "'x: 0 9"),
                      self.report.replace("'x: 0", "'x: 0 end('b)"),
                      self.report.replace("'a: 0 1", "'a: 1"), self.report + "'z:\n",
                      self.report.replace("'x: 0", "'x: 0 0")]:
            with self.subTest(wrong=wrong), self.assertRaisesRegex(Refusal, "REPORT isn't the report of this"):
                read_values(wrong, self.facts, "REPORT")

    def test_no_report(self):
        with self.assertRaisesRegex(Refusal, "REPORT, line 1: no line of a report"):
            read_values("ok\n", self.facts, "REPORT")

    def test_sample(self):
        _, values = solved(file_bytes(SAMPLES, "pick.facts"))
        self.assertEqual(values.elements(3), [1, 2, 3, 4, 6, 7, 8, 10])
