"""The lists of a page: regions with their ends, points with their marks, faults with their lines."""

import re
import unittest

from page_support import SAMPLES, facts_of, file_bytes, solved, text

from nllc_tools.base import nllc
from nllc_tools.judge.content import Content, Fault
from nllc_tools.model.chains import chain
from nllc_tools.texts.source import Source
from nllc_tools.views.html.parts.finding_list import finding_list, told
from nllc_tools.views.html.parts.point_list import point_list, said_at, source_list, tabs
from nllc_tools.views.html.parts.region_list import barcode, region_list


def content(facts, values, faults=(), source=None):
    return Content(facts, values, list(faults), "TEXT", source, "nllc.sh", nllc.PROVED)


def bare(html):
    """The text of some HTML, its pieces apart."""
    return [piece for piece in re.split(r"<[^>]*>", html) if piece.strip()]


class Regions(unittest.TestCase):
    def test_ends_of_others(self):
        made = region_list(content(*solved(file_bytes(SAMPLES, "pick.facts"))))
        self.assertIn("with-ends", made)
        self.assertEqual(re.findall(r'class="ends"[^>]*>([^<]*)<', made),
                         ["", "", "&#x27;a", "&#x27;a"])

    def test_no_column_where_no_end_is_held(self):
        made = region_list(content(*solved(text(2, "universal 'a", "next 0 1", "return 1"))))
        self.assertNotIn("with-ends", made)

    def test_many_ends(self):
        made = region_list(content(*solved(text(
            1, *(f"universal 'u{n}" for n in range(3)), "region 'x", "return 0",
            *(f"constraint 'x 'u{n} 0" for n in range(3))))))
        self.assertIn("3 ends", made)

    def test_the_strip(self):
        self.assertIn('d="M1 0h2v1h-2zM4 0h1v1h-1z"', barcode(facts_of(5), [1, 2, 4, 6]))
        self.assertIn("holds 1 point", barcode(facts_of(5), [3]))


class Points(unittest.TestCase):
    def test_where_the_function_returns(self):
        facts = facts_of(3, "# point 0: x = y", "# point 1: return", "return 0", "return 1",
                         "return 2")
        self.assertEqual(bare(point_list(facts)),
                         ["0–2", "0", "x = y", "returns", "1", "return", "2", "returns"])

    def test_what_the_text_says_without_remarks(self):
        facts = facts_of(1, "universal 'a", *(f"region 'r{n}" for n in range(6)),
                         *(f"base 'r{n} 0" for n in range(6)), "constraint 'a 'r0 0")
        self.assertEqual(said_at(facts, 0), "('a: 'r0);  live: 'r0, 'r1, 'r2, 'r3 and 2 more")

    def test_blocks_and_lines(self):
        facts = facts_of(2, "# point 0: line 4: a (bb0[0])", "# point 1: line 5: b (bb1[0])")
        self.assertEqual(bare(point_list(facts)),
                         ["bb0 ", "0", "0", "a", "line 4", "bb1 ", "1", "1", "b", "line 5"])
        self.assertEqual(point_list(facts).count('<details class="block"'), 2)

    def test_tabs(self):
        facts, values = solved(file_bytes(SAMPLES, "pick.facts"))
        self.assertEqual(bare(tabs(content(facts, values))), ["Points"])
        both = tabs(content(facts, values, source=Source("pick.rs", 4, ["fn pick()"])))
        self.assertRegex(both,
                         'tab-source"[^>]*aria-selected="true".*points" aria-selected="false"')


class Lines(unittest.TestCase):
    def setUp(self):
        self.facts, self.values = solved(file_bytes(SAMPLES, "pick.facts"))
        faults = [Fault(2, 1, chain(self.facts, self.values, 2, 1))]
        lines = file_bytes(SAMPLES, "pick.rs").decode().splitlines()[2:10]
        self.content = content(self.facts, self.values, faults, Source("pick.rs", 3, lines))

    def test_lines_with_points_open(self):
        made = source_list(self.content)
        self.assertEqual(re.findall(r'<details class="[^"]*" id="line-(\d+)"', made),
                         ["5", "6", "7", "9", "10"])
        self.assertEqual(re.findall(r'<div class="line" id="line-(\d+)"', made), ["3", "4", "8"])

    def test_lines_that_ask(self):
        self.assertEqual(re.findall(r'"line asks" id="line-(\d+)"', source_list(self.content)),
                         ["7", "9"])

    def test_the_fault(self):
        made = finding_list(self.content)
        self.assertEqual("".join(bare(re.search(r'<p class="told">.*?</p>', made)[0])),
                         "Data that lives for &#x27;b enters at line 7, best = second, and at line 9, best, it "
                         "has to live for &#x27;a; nothing declares that &#x27;b outlives &#x27;a.")
        self.assertIn('<a href="#line-7" data-line="7">', made)

    def test_steps_from_the_cause_to_the_end(self):
        made = finding_list(self.content)
        self.assertEqual(re.findall(r'data-r="(\d)" data-walk="([\d,]*)" data-end="(\d)"', made),
                         [("3", "6,7,8", "1"), ("1", "8", "1")])
        steps = [" ".join(bare(step)) for step in re.findall(r"<summary><h3>.*?</h3></summary>", made)]
        self.assertEqual(steps, ["line 7  best = second &#x27;b  must outlive  &#x27;best",
                                 "line 9  best &#x27;best  must outlive  &#x27;a"])

    def test_a_fault_of_one_line(self):
        facts, values = solved(text(2, "# point 0: line 3: x", "universal 'a", "next 0 1", "return 1",
                                    "constraint 'a 'static 1"))
        fault = Fault(1, 0, chain(facts, values, 1, 0))
        said = "".join(bare(told(content(facts, values, [fault], Source("x.rs", 3, ["x // out"])), fault)))
        self.assertEqual(said, "Data that lives for &#x27;a has to live for &#x27;static at line 3, x; nothing declares "
                               "that &#x27;a outlives &#x27;static.")
