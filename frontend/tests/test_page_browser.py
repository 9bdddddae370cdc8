"""Pages in a headless Chromium, where there is one: at many widths, and of many points."""

import os
import re
import shutil
import tempfile
import unittest
from unittest import mock

from page_support import EXAMPLES, SAMPLES, content_of, file_bytes, solved
from test_page_glance import LOAN, SOURCE, content_of as loan_content

import devtools
from big_text import facts_text

from nllc_tools.base import nllc
from nllc_tools.judge.content import Content
from nllc_tools.texts.facts.reader import read_facts
from nllc_tools.model.values import Values
from nllc_tools.texts.source import Source
from nllc_tools.views.html.index import index_parts
from nllc_tools.views.html.index_rows import Row
from nllc_tools.views.html.page import page
from nllc_tools.views.html.writing import fill

WIDTHS = (320, 414, 768, 1280, 1920)
OVERFLOWING = """[...document.querySelectorAll("html, main, .lists, .fault, .step, .chosen, table")]
    .filter((one) => one.scrollWidth > one.clientWidth && one.getClientRects().length > 0)
    .map((one) => one.className || one.localName)"""


def sample():
    lines = file_bytes(SAMPLES, "pick.rs").decode().splitlines()
    return content_of(*solved(file_bytes(SAMPLES, "pick.facts")), Source("pick.rs", 1, lines))


def long_words():
    """Names, paths and statements without a place to break them."""
    name = "a_name_without_a_place_to_break_it" * 3
    facts = [f"# function: {name}", f"# source: {name}/{name}.rs",
             f"# point 0: line 1: {name}({name}) (bb0[0])", "universal 'a",
             f"# region 'x: line 1: in the statement {name[:48]}", "region 'x", "next 0 1", "return 1", "base 'x 0",
             "constraint 'x 'a 1", "constraint 'a 'static 1"]
    read, values = solved(("\n".join(["nll-facts 1", "points 2", *facts, "end", ""])).encode())
    return content_of(read, values, Source(f"{name}.rs", 1, [f"{name}({name});"]))


def large(points=20_000):
    """So many points, and values as they may be: what each region is live at, and its own end."""
    facts = read_facts(facts_text(points, 1).encode(), "TEXT")
    rows = [sorted(bases) for bases in facts.bases]
    for region in range(facts.universals):
        rows[region] = [*range(facts.points), facts.end_of(region)]
    return Content(facts, Values(rows), [], "TEXT", None, "nllc.sh", nllc.PROVED)


@unittest.skipUnless(any(map(shutil.which, devtools.NAMES)), "there is no Chromium")
class Browser(unittest.TestCase):
    @classmethod
    def setUpClass(cls):
        folder = tempfile.TemporaryDirectory()
        cls.addClassCleanup(folder.cleanup)
        cls.folder = folder.name
        cls.browser = cls.enterClassContext(devtools.Browser())

    def write(self, name, text):
        path = os.path.join(self.folder, name)
        with open(path, "w", encoding="utf-8") as file:
            file.write(text)
        return path

    def opened(self, name, text, address=""):
        """The page at every width: it begins at its top, and nothing overflows sideways."""
        path = self.write(name, text)
        for width in WIDTHS:
            with self.subTest(name=name, width=width, address=address):
                shown = self.browser.open(path, width, 740, "light", address)
                over = shown.value(OVERFLOWING)
                self.assertEqual((over, shown.value("scrollY"), shown.complaints()), ([], 0, []))
                top = shown.value("document.querySelector('h1').getBoundingClientRect().top")
                self.assertTrue(0 <= top < 30)
                self.browser.call("Target.closeTarget", targetId=shown.target)

    def test_widths(self):
        self.opened("long.html", page(long_words()))

    def test_widths_with_a_choice(self):
        self.opened("pick.html", page(sample()), "#step=0")
        self.opened("chain.html", page(content_of(*solved(file_bytes(EXAMPLES, "chain.facts")))),
                    "#region=x&point=1")

    def test_widths_of_an_index(self):
        rows = [(f"{n}.html", Row("name" * 3 * n, "file.rs", n, 10 ** n, 5, n % 2, n % 3)) for n in range(5)]
        self.opened("index.html", fill("index.html", index_parts(rows)))

    def test_a_choice_leaves_a_phone_where_it_is(self):
        shown = self.browser.open(self.write("pick.html", page(sample())), 360, 740)
        for choice in ("chooseRegion(3)", "chooseElement(5)", "chooseStep(all('.step')[0])", "setView('folded')"):
            shown.value(choice)
            self.assertEqual(shown.value("scrollY"), 0, choice)

    def test_the_labels_of_a_long_function_are_in_sight(self):
        def moved(found):
            return f"{found[1]}{int(found[2]) + 150}{found[3]}"

        lines = [re.sub(r"([ -])(\d+)(:\d)", moved, re.sub(r"(line )(\d+)(:)", moved, line)) for line in LOAN]
        content = loan_content(*lines, source=[*SOURCE[:2], *["    step();"] * 150, *SOURCE[2:-1], *["    step();"] * 99, "}"])
        path = self.write("long.html", page(content))
        for width, height in ((1400, 900), (1000, 800), (768, 900), (390, 844)):
            shown = self.browser.open(path, width, height)
            self.assertEqual(shown.value("all('#source .label').map((one) => isInside(one, byId('source')))"), [True] * 3, width)
            self.assertEqual(shown.value("scrollY"), 0)
            shown.close()

    def test_hovering_shows_what_a_click_fixes(self):
        shown = self.browser.open(self.write("pick.html", page(sample())), 1440, 900)
        shown.value("clear()")
        lit = "all('#graph .cell.held').map((one) => Number(one.dataset.p)).sort((a, b) => a - b).join()"
        held = self.hover(shown, ".region[data-r='3']", lit)
        self.assertTrue(held)
        self.assertIsNone(shown.value("chosen.region"))
        shown.click(".region[data-r='3']")
        self.assertEqual(shown.value(lit), held)
        other = self.hover(shown, ".region[data-r='1']", lit)
        self.assertNotEqual(other, held)
        self.assertEqual(self.hover(shown, "h1", lit), held)

    def hover(self, shown, selector, lit):
        """What is lit while the pointer is on the node."""
        x, y = shown.probe("middle", selector)
        shown.call("Input.dispatchMouseEvent", type="mouseMoved", x=x, y=y)
        shown.value("new Promise((done) => requestAnimationFrame(() => requestAnimationFrame(done)))")
        return shown.value(lit)

    def test_20_000_points(self):
        """Few nodes are made at first, on which its time depends (`opening.py` measures it); the others are there in time."""
        shown = self.browser.open(self.write("large.html", page(large())), 1440, 900)
        self.assertLess(shown.value("document.getElementsByTagName('*').length"), 20_000)
        self.assertTrue(shown.value("probe.inSight(\"#graph .cell[data-p='0']\")"))
        region = shown.value("data.regions.length - 1")
        shown.value(f"chooseRegion({region})")
        wanted = shown.value(f"data.regions[{region}].holds[0][0]")
        self.assertEqual(shown.value("all('#points .point.held')[0].dataset.p"), str(wanted))
        shown.value("chooseElement(19000)")
        self.assertTrue(shown.value("probe.inSight(\"#graph .cell[data-p='19000']\")"))
        self.assertEqual(shown.complaints(), [])

    def test_rows_made_by_the_script_are_those_of_the_page(self):
        """A small text's page, made as if it were large, says the same when all is opened."""
        small = page(sample())
        with mock.patch.multiple("nllc_tools.views.html.page", FEW_ROWS=0, MOST_ROWS=1):
            as_large = page(sample())
        said = []
        for name, made in (("small.html", small), ("large.html", as_large)):
            shown = self.browser.open(self.write(name, made), 1440, 900)
            shown.value("setView('folded'); setTab('points'); Promise.all(all('details:not([open])').map((one) => "
                        "new Promise((done) => { one.addEventListener('toggle', done, { once: true }); one.open = true; })))")
            shown.value("chooseRegion(3)")
            said.append((shown.value("byId('points').innerText"),
                         shown.value("all('.line').map((one) => one.textContent).join()"),
                         shown.probe("elements", ".graph.folded .cell"),
                         shown.probe("elements", ".graph.folded .cell.held")))
        self.assertEqual(*said)
