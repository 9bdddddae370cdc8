"""What a page answers at a glance: both verdicts, labels at lines, folded steps, what to do."""

import re
import unittest
from dataclasses import replace

import page_support
from nllc_tools.base.sentences import Code, plain
from nllc_tools.judge import labels
from nllc_tools.judge.as_rustc import loan_faults
from nllc_tools.judge.content import Content, Fault
from nllc_tools.judge.findings import advice, finding, findings, loan_findings
from nllc_tools.judge.names import is_inner, lifetime_words
from nllc_tools.judge.verdicts import verdict_of
from nllc_tools.model.chains import chain
from nllc_tools.texts.source import Source
from nllc_tools.views.html import index, index_rows
from nllc_tools.views.html.page import page, start, title_of
from nllc_tools.views.html.parts.chain_list import chain_of_fault, stretches
from nllc_tools.views.html.parts.finding_list import finding_list, more_part
from nllc_tools.views.html.parts.point_list import code_part, source_list
from quick_solver import quick_values

# `let a = &mut v; touch(a); v = 1; use(a)`: a borrow, its copy into a, an assignment against it, a use.
LOAN = ["# function: grow", "# source: g.rs",
        "# point 0: line 3: _2 = &'r1 mut v (bb0[0])", "# point 1: line 3: a = move _2 (bb0[1])",
        "# point 2: line 4: v = const 1 (bb0[2])", "# point 3: line 5: use(a) (bb0[3])", "# point 4: line 6: return (bb0[4])",
        "# region 'r1: line 3: the borrow &mut v", "region 'r1",
        "# region 'r2: line 3: the type of the temporary _2: &'r2 mut i32", "region 'r2",
        "# region 'r3: line 3: the type of a: &'r3 mut i32", "region 'r3",
        "next 0 1", "next 1 2", "next 2 3", "next 3 4", "return 4",
        "base 'r2 1", "base 'r3 2", "base 'r3 3",
        "constraint 'r1 'r2 1", "constraint 'r2 'r3 2",
        "# loans: 1", "# loan 0: 'r1 at 0, 3:13-3:19, mut of v", "# against 2, 4:5-4:10, assigns: 0",
        "# uses 'r2: 1", "# uses 'r3: 3"]
# The borrow goes out of the function.
OUTGOING = [*LOAN[:7], "universal 'a", "region 'r1", "next 0 1", "next 1 2", "next 2 3", "next 3 4", "return 4",
            "constraint 'r1 'a 1", *LOAN[23:26]]
SOURCE = ["/// Grows.", "fn grow(mut v: i32) {", "    let a = &mut v;", "    v = 1;", "    use_it(a);", "}"]


def content_of(*lines, source=SOURCE, first=1):
    facts = page_support.facts_of(5, *lines)
    values = quick_values(facts)
    return Content(facts, values, [], "g.facts", Source("g.rs", first, source), "nllc", "unknown",
                   list(loan_faults.loan_faults(facts, values)))


def with_fault(*lines, source=()):
    facts = page_support.facts_of(4, "# function: f", *lines)
    values = quick_values(facts)
    return Content(facts, values, [Fault(2, 1, chain(facts, values, 2, 1))], "f.facts",
                   Source("f.rs", 1, list(source)) if source else None, "nllc", "unknown")


# `r1` of 'b comes into x by way of two regions without a name.
FOLDED = ["# point 0: line 2: x = s", "# point 1: line 3: _0 = x", "# region 'r2: line 2: the borrow &(*s)",
          "# region 'r3: line 2: in the statement x = s", "# region 'r4: line 2: the type of x: &'r4 str",
          "universal 'a", "universal 'b", "region 'r2", "region 'r3", "region 'r4", "next 0 1", "next 1 2", "next 2 3",
          "return 3", *(f"base '{name} {point}" for name in ("r2", "r3", "r4") for point in (1, 2, 3)),
          "constraint 'b 'r2 1", "constraint 'r2 'r3 1", "constraint 'r3 'r4 1", "constraint 'r4 'a 2"]


class Verdicts(unittest.TestCase):
    def test_rustc_refuses_alone(self):
        content = content_of("# loans: 0", "# rustc 4:5: E0506: cannot assign to `v` because it is borrowed")
        self.assertEqual(verdict_of(content), ("differs", "rustc refuses, nllc doesn’t", "E0506"))
        made = finding_list(content)
        self.assertIn('data-line="4">line 4</a>: E0506: cannot assign to <code>v</code> because', made)
        self.assertIn("nllc: no fault there;", made)

    def test_both_refuse(self):
        content = content_of(*LOAN, "# rustc 4:5: E0506: cannot assign to `v` because it is borrowed")
        self.assertEqual(verdict_of(content), ("faulty", "1 loan error", "E0506"))
        self.assertEqual(re.findall(r'<section class="([^"]*)"', finding_list(content)), ["faults loans"])

    def test_neither(self):
        self.assertEqual(verdict_of(content_of("# loans: 0")), ("fine", "no fault", "no such error"))
        self.assertEqual(verdict_of(content_of()), ("fine", "no fault", None))

    def test_lifetimes_have_no_code(self):
        content = content_of("# loans: 0", "# rustc 4:5: lifetime may not live long enough",
                             "# rustc 5:5: lifetime may not live long enough")
        self.assertEqual(verdict_of(content).rustc, "lifetime error")


class Labels(unittest.TestCase):
    def test_three_lines_of_a_loan(self):
        found = labels.labels_of(content_of(*LOAN))
        self.assertEqual([(line, one.kind, one.words) for line, its in sorted(found.items()) for one in its],
                         [(3, "made", "borrowed here"), (4, "against", "assigned here"),
                          (5, "later", "used here later")])

    def test_the_loan_is_lit_at_first(self):
        self.assertEqual(start(content_of(*LOAN)), {"region": 1})

    def test_the_variable_is_lit_at_first(self):
        """Where rustc alone has one lifetime come to another: the first variable on the way."""
        refused = ["# rustc 3:5: lifetime may not live long enough", "# label 3:5-3:9: `'b` must outlive `'a`"]
        content = replace(with_fault(*FOLDED, *refused), faults=[])
        self.assertEqual(start(content), {"region": content.facts.names.index("r4")})
        content = replace(with_fault(*FOLDED, refused[0]), faults=[])
        self.assertEqual(start(content), {})

    def test_a_fault(self):
        content = with_fault(*FOLDED)
        found = labels.labels_of(content)
        self.assertEqual([(line, one.words) for line, its in sorted(found.items()) for one in its],
                         [(2, "'b enters here"), (3, "'a is required here")])
        self.assertEqual(start(content), {"step": 0})

    def test_where_rustc_alone_refuses(self):
        content = content_of(*LOAN[:-3], "# rustc 5:5: E0499: cannot borrow `v`")
        self.assertEqual([one.words for one in labels.labels_of(content)[5]], ["rustc: E0499 here"])

    def test_moves(self):
        content = content_of(*LOAN[:-5], "# gone 3, 5:5, E0382 of a, by 1 2 3: 1",
                             "# rustc 5:5: E0382: use of moved value: `a`")
        self.assertEqual([(line, one.kind, one.words) for line, its in sorted(labels.labels_of(content).items())
                          for one in its], [(3, "made", "moved here"), (5, "against", "used after the move")])
        made = finding_list(content)
        self.assertIn('<section class="faults" aria-label="Moves and assignments">', made)
        rows = [("a.html", index_rows.row_of(content, "grow"))]
        self.assertIn("1 function with errors of moves<", index.whole_verdict(rows))

    def test_moves_of_a_text_without_errors_of_rustc(self):
        for gone, said in (
                ("E0382 of a, by 1 2 3: 1", ("`a` is used here, and line 3 may have moved it", "line 3 (`let a = &mut v;`) moves it, and "
                                             "a path leads from there to here on which it gets no new value (by lines 3, 4, 5)")),
                ("E0382 of a, by 3:", ("`a` is used here, and an earlier statement may have moved it", "an earlier statement moves it, "
                                       "and a path leads from there to here on which it gets no new value")),
                ("E0381 of a, by 0 3:", ("`a` is used here, and may have no value yet", "a path leads here on which nothing is assigned "
                                         "to it")),
                ("E0384 of a, by 3: 1", ("`a` is assigned to here, may have a value already, and isn't `mut`",
                                         "it has one since line 3 (`let a = &mut v;`)")),
                ("E0384 of a, by 3:", ("`a` is assigned to here, may have a value already, and isn't `mut`",
                                       "the caller has given it one"))):
            with self.subTest(gone=gone):
                content = content_of(*LOAN[:-5], f"# gone 3, 5:5, {gone}")
                told, = findings.all_of(content)
                self.assertEqual(tuple(plain(words) for words in (told.head, told.cause)), said)
                self.assertIn('aria-label="Moves and assignments">', page(content))

    def test_a_remark_of_another_error_is_for_the_reader(self):
        self.assertEqual(findings.all_of(content_of(*LOAN[:-5], "# gone 3, 5:5, E0596 of a, by 1 2 3: 1")), [])

    def test_words_that_are_marked(self):
        made = code_part(Source("g.rs", 1, SOURCE), SOURCE[2], labels.labels_of(content_of(*LOAN))[3])
        self.assertEqual("".join(re.findall(r'<span class="[^"]*at made">([^<]*)<', made)), "&amp;mut v")
        self.assertTrue(made.endswith('<span class="label made">borrowed here</span>'))

    def test_lines_with_labels_are_marked(self):
        made = source_list(content_of(*LOAN))
        self.assertEqual(re.findall(r'line asks" id="line-(\d)"', made), ["3", "4", "5"])


class Steps(unittest.TestCase):
    def test_names(self):
        facts = content_of(*LOAN).facts
        self.assertEqual([is_inner(facts, region) for region in range(4)], [False, True, True, False])
        self.assertEqual([plain(lifetime_words(facts, region)) for region in range(4)],
                         ["`'static`", "the borrow `'r1`", "`'r2`", "the lifetime in `a`"])

    def test_steps_between_regions_without_a_name_are_one(self):
        content = with_fault(*FOLDED)
        steps = content.faults[0].steps[::-1]
        found = stretches(content.facts, steps)
        self.assertEqual([len(stretch) for stretch in found], [3, 1])
        made = chain_of_fault(content, content.faults[0])
        self.assertIn("must outlive the lifetime in <code>x</code>", made)
        self.assertIn("3 steps, by way of <code>&#x27;r2</code> and <code>&#x27;r3</code>.", made)
        self.assertEqual(made.count('<ol class="inner">'), 1)

    def test_the_way_of_a_loan(self):
        made = finding_list(content_of(*LOAN))
        self.assertIn("The lifetime in <code>a</code> holds line 4: line 5 uses it", made)
        self.assertIn("the borrow <code>&#x27;r1</code> must outlive the lifetime in <code>a</code>", made)
        self.assertIn("2 steps, by way of <code>&#x27;r2</code>.", made)


class Advice(unittest.TestCase):
    def test_a_later_use(self):
        content = content_of(*LOAN)
        self.assertTrue(plain(loan_findings.advised(content, content.loans[0])).startswith(
            "move the use in line 5 above line 4; or clone"))
        self.assertIn("<b>What to do</b>: move the use", finding_list(content))

    def test_codes(self):
        content = content_of(*LOAN)
        for code, said in (("E0515", "return the value itself"), ("E0716", "give the temporary a name"),
                           ("E0373", "write `move`"), ("E0597", "declare what is borrowed before")):
            self.assertTrue(plain(loan_findings.advised(content, content.loans[0]._replace(code=code))).startswith(said))

    def test_a_fault(self):
        content = with_fault(*FOLDED)
        self.assertTrue(plain(advice.of_fault(content, content.faults[0])).startswith(
                "consider adding the bound `'b: 'a` to the signature; or write `'a` in place of `'b`"))
        static = plain(advice.of_fault(content, Fault(2, 0, [])))
        self.assertTrue(static.startswith("ask for `'static` in the signature"))
        self.assertIn("<b>What to do</b>: consider adding the bound ", finding_list(content))


class More(unittest.TestCase):
    def test_what_rustc_says_beyond_the_error(self):
        said = finding.Finding(None, "", [], [], None, [
            ["help: ", "consider ", Code("'a")], ["invariant: ", "behind ", Code("&mut")], ["line 3 with names: ", Code("x")]])
        self.assertEqual(re.findall(r'<p class="more">(.*?)</p>', more_part(said, [])),
                         ["<b>rustc’s help</b>: consider <code>&#x27;a</code>.",
                          "<b>Invariance</b>: behind <code>&amp;mut</code>.", "Line 3 with names: <code>x</code>."])

    def test_help_that_is_advised_already(self):
        """rustc's help is there once, and nothing is taken for rustc's that it doesn't say."""
        for helps, shown in (("", 0), ("# help: consider adding the following bound: `'b: 'a`", 0),
                             ("# help: consider `'static`", 1)):
            content = with_fault("# rustc 3:5: lifetime may not live long enough", *[helps] * bool(helps), *FOLDED)
            self.assertEqual(finding_list(content).count("rustc’s help"), shown, helps)
        self.assertNotIn("rustc’s help", finding_list(content_of(*LOAN)))

    def test_a_region_that_outlives_the_function(self):
        self.assertIn("<code>&#x27;a</code> holds line 4: it outlives the function.", finding_list(content_of(*OUTGOING)))


class Heads(unittest.TestCase):
    def test_the_line_of_the_fn(self):
        self.assertEqual(index_rows.line_of(content_of(*LOAN)), 2)
        self.assertEqual(index_rows.line_of(content_of(*["# function: m::grow::{closure#0}", *LOAN[1:]])), 3)
        self.assertIsNone(index_rows.line_of(content_of(*LOAN[1:])))

    def test_what_a_row_says(self):
        row = index_rows.row_of(content_of(*LOAN), "grow")
        self.assertEqual((row.line, row.kind, row.said, row.told[0][0]), (2, "faulty", "1 loan error", 4))

    def test_rows_without_lines_and_with_equal_names(self):
        row = index_rows.Row("last", "a.facts", None, 1, 1, 0, None)
        rows = [("a.html", row), ("b.html", row._replace(source="b.facts")), ("c.html", row._replace(name="c", source="c.facts"))]
        made = index.index_parts(rows)
        self.assertEqual(made["lacks"], "no-line no-rustc no-said")
        self.assertTrue(made["rows"].startswith("<tbody>"))
        self.assertEqual(re.findall(r'<span class="file">(.*?)<', made["rows"]), ["a", "b"])
        told = [index_rows.Told(3, "x")]
        self.assertEqual(index.index_parts([("a.html", row._replace(line=3, rustc="E0499", told=told))])["lacks"], "")

    def test_title_and_icon(self):
        content = content_of(*LOAN)
        self.assertEqual(title_of(content), "grow (g.rs)")
        made = page(content)
        self.assertIn("<title>grow (g.rs) – nllc</title>", made)
        self.assertIn('<link rel="icon" href="data:image/svg+xml,%3Csvg', made)
        self.assertNotIn('class="back"', made)
        self.assertIn('<a class="back" href="./index.html">', page(replace(content, index="index.html")))

    def test_points_of_a_mir_text_have_their_names(self):
        content = content_of(*LOAN)
        content.facts.point_names.update({point: f"bb0/{point}" for point in range(5)})
        made = page(replace(content, loans=loan_faults.loan_faults(content.facts, content.values)))
        self.assertIn("<title>point bb0/2: v = const 1</title>", made)
        self.assertIn('"names":["bb0/0","bb0/1","bb0/2","bb0/3","bb0/4"]', made)
        self.assertRegex(made, r'class="point" data-p="2" tabindex="-1">bb0/2<')
        self.assertRegex(made, r'class="number">bb0/2</tspan>')
        self.assertFalse(re.search(r"point [0-9]", made.split("<dialog")[0]))
