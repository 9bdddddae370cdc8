"""The command `nllc.sh page`: pages of both kinds of texts, by the slow programs, and their index."""

import io
import os
import re
import unittest
from unittest import mock

from page_support import EXAMPLES, SAMPLES, Folder, file_bytes, reference, text
from rooms import STATES

from nllc_tools.commands.page import main
from nllc_tools.texts.facts.values import read_values
from nllc_tools.texts.mir.problem import problem_in
from nllc_tools.texts.mir.remarks import MirText
from nllc_tools.views.html import index, index_rows
from nllc_tools.views.html.index import write_index
from schedule_support import printed, schedule


class Command(Folder):
    def run_main(self, *words, world=STATES):
        status, out, err = self.called(main, [*words, "-o", self.path("pages")], NLLC="nllc", WORLD_PROGRAM=world)
        return status, out.splitlines(), err

    def page(self, name):
        return self.read("pages", name)


class Pages(Command):
    def test_a_mir_text(self):
        status, out, err = self.run_main(os.path.join(EXAMPLES, "two_universals.mir"))
        self.assertEqual((status, err), (0, ""))
        self.assertEqual(out, [self.path("pages", "two_universals.mir.html"), self.path("pages", "index.html")])
        page = self.page("two_universals.mir.html")
        self.assertIn("<code>&#x27;b</code> must outlive <code>&#x27;a</code>", page)
        self.assertIn("_0 = copy _1", page)
        self.assertIn("bb0/1", page)
        self.assertIn("The text’s problem from check/reference/reference_states.py", page)

    def test_a_facts_text_and_a_struct_with_a_drop(self):
        for name, page, said in (("chain.facts", "chain.html", "no fault"), ("drop.mir", "drop.mir.html", "drop _1 -&gt; bb1")):
            status, out, err = self.run_main(os.path.join(EXAMPLES, name))
            self.assertEqual((status, out[0], err), (0, self.path("pages", page), ""))
            self.assertIn(said, self.page(page))

    def test_both_of_one_name(self):
        _, out, _ = self.run_main(*(os.path.join(EXAMPLES, f"running.{kind}") for kind in ("facts", "mir")))
        self.assertEqual([os.path.basename(path) for path in out],
                         ["running.html", "running.mir.html", "index.html"])

    def test_standard_input(self):
        for name, shown in (("chain.facts", "no fault"), ("drop.mir", "drop _1 -&gt; bb1")):
            with mock.patch("sys.stdin", io.TextIOWrapper(io.BytesIO(file_bytes(EXAMPLES, name)))):
                status, out, err = self.run_main("-")
            self.assertEqual((status, out[0], err), (0, self.path("pages", "stdin.html"), ""))
            self.assertIn(shown, self.page("stdin.html"))

    def test_refusals(self):
        for name, data, said in (
                ("wrong.mir", b"nll-mir 1\nend\n", "nllc refuses the text: nllc: line 2: syntax"),
                ("second.mir", b"nll-mir 2\nend\n", "nllc refuses the text: nllc: line 2: syntax"),
                ("wrong.rs", b"fn f() {}\n", r"is a Rust file: nllc.sh rust \S*wrong.rs makes its texts"),
                ("other", b"hello\n", "isn't a facts text or a MIR text: .*`nll-mir 1`"),
                ("empty", b"", "isn't a facts text"), ("bytes", b"\xff\0", "isn't a facts text")):
            with self.subTest(name=name):
                status, out, err = self.run_main(self.write(name, data))
                self.assertEqual((status, out, err.count("\n")), (2, [], 1))
                self.assertRegex(err, said)

    def test_a_program_that_is_not_there(self):
        status, out, err = self.run_main(os.path.join(EXAMPLES, "drop.mir"), world=self.path("missing"))
        self.assertEqual((status, out), (3, []))
        self.assertIn("can't be run", err)


class MirTexts(unittest.TestCase):
    def test_statements_and_regions(self):
        said = MirText(file_bytes(EXAMPLES, "running.mir").decode())
        self.assertEqual(said.statements["bb1/1"], (24, "_3 = &'bar _2 (bb1[1])"))
        self.assertEqual(said.regions["p"], (17, "the type of _3: &'p int"))
        self.assertEqual(said.regions["bar"], (24, "the borrow _3 = &'bar _2"))

    def test_each_point_has_its_statement(self):
        """The names of points are those of the definitions, in every example."""
        for name in sorted(os.listdir(EXAMPLES)):
            if not name.endswith(".mir"):
                continue
            with self.subTest(name=name):
                data = file_bytes(EXAMPLES, name)
                facts, _ = problem_in(printed(data, schedule(), 1), name)
                self.assertEqual(sorted(MirText(data.decode()).statements), sorted(facts.point_names.values()))
                report = reference.answer("values", data)[0].decode()
                self.assertEqual(len(read_values(report, facts, "REPORT").rows), len(facts.names))


class Index(Command):
    def test_a_row_a_page(self):
        for name in ("pick.facts", "pick.rs"):
            self.write(name, file_bytes(SAMPLES, name))
        self.write("drop.mir", file_bytes(EXAMPLES, "drop.mir"))
        self.run_main(self.path("pick.facts"), self.path("drop.mir"))
        made = self.page("index.html")
        self.assertEqual(re.findall(r'<a href="\./([^"]*)"', made),
                         ["drop.mir.html", "pick.html", "pick.html#line=7"])
        rows = dict(index_rows.rows_in(self.path("pages")))
        said = index_rows.Told(7, "`'b` must outlive `'a`, but the signature doesn't declare it")
        self.assertEqual(rows["pick.html"], ("pick", self.path("pick.rs"), 4, 9, 4, 1, None, "faulty", "1 fault",
                                             None, [said], True))
        self.assertIsNone(rows["drop.mir.html"].line)
        self.assertIn(">line 7</a>: <code>&#x27;b</code> must outlive <code>&#x27;a</code>, but", made)
        self.assertIn("2 pages", made)

    def test_pages_of_an_earlier_run_come_last(self):
        self.run_main(os.path.join(EXAMPLES, "chain.facts"))
        self.run_main(os.path.join(EXAMPLES, "drop.mir"))
        made = self.page("index.html")
        self.assertIn("1 text<", made)
        self.assertRegex(made, r"(?s)drop\.mir\.html.*Made before.*chain\.html")

    def test_two_texts_of_one_name(self):
        os.mkdir(self.path("other"))
        for folder in (".", "other"):
            self.write(os.path.join(folder, "x.facts"), text(1, "return 0"))
        _, out, _ = self.run_main(self.path("x.facts"), self.path("other", "x.facts"))
        self.assertEqual([os.path.basename(path) for path in out], ["x.html", "x-2.html", "index.html"])
        self.assertIn("other/x.facts", self.page("x-2.html"))

    def test_text_stays_text(self):
        nasty = '"><script>alert(1)</script>&'
        row = index_rows.Row(nasty, nasty, 1, 2, 3, 0, 1, "faulty", nasty, nasty, [index_rows.Told(3, nasty)], True)
        self.write("a b%.html", index_rows.row_mark(row).encode())
        self.assertEqual(index_rows.row_in(self.path("a b%.html")), row)
        made = "".join(index.index_parts(index_rows.rows_in(self.room))[part] for part in ("title", "rows", "verdict"))
        self.assertNotIn("<script", made)
        self.assertIn('href="./a%20b%25.html"', made)
        self.assertIn("1 loan error<", made)

    def test_pages_that_are_named_alone(self):
        for name in ("old.html", "new.html"):
            self.write(name, index_rows.row_mark(index_rows.Row(name, "x", 1, 1, 1, 0, None)).encode())
        write_index(self.room, ["new.html"])
        with open(self.path("index.html"), encoding="utf-8") as file:
            self.assertEqual(re.findall(r'href="\./([^"]*)"', file.read()), ["new.html"])

    def test_other_files(self):
        self.write("other.html", b"<p>no page</p>")
        self.write("index.html", index_rows.row_mark(index_rows.Row("x", "x", 1, 1, 1, 0, None)).encode())
        self.assertEqual(index_rows.rows_in(self.room), [])
