#!/usr/bin/env python3
"""Makes pages, opens them in a headless Chromium, chooses things there, and says what is wrong.

    drive.py [--shots FOLDER] [FACTS ...]

Without FACTS: a sample of 9 points, `squeeze` with 170, and made texts of some 200 and 2,000. Each
page is tried in both colour schemes. Needs Chromium (Debian: `apt-get install chromium`) and an
`nllc`; it is run by hand, and the unit tests don't need it. Status 1 where something is wrong.
"""

import argparse
import contextlib
import io
import os
import sys
import tempfile

from paths import EXAMPLES, TESTS
from big_text import facts_text
from devtools import Browser

from nllc_tools.base import nllc
from nllc_tools.commands.page import main as make_page
from nllc_tools.texts.facts.reader import read_facts
from nllc_tools.texts.facts.values import read_values

SLOW = 250      # milliseconds for one choice are too many
LEAST = 4.5     # the contrast that text must have
WIDTHS = (1920, 1440, 1000, 600, 320)

# Text that has to be read, in the states in which it stands.
TEXTS = ["h1", ".about", ".verdict", "footer p", ".group", ".region .name", ".region .what",
         ".region .ends", ".region[aria-pressed=true] .name", ".region[aria-pressed=true] .what",
         ".point", ".point.held", ".point.base", ".line .no", ".line.asks .no", ".line code",
         ".comment", ".keyword", ".lifetime", ".string", ".row code", ".row .at", ".row .said",
         ".chosen .label", ".chosen .hint", ".chip", ".chip.on", ".end", ".end.held",
         ".fault summary", ".step p", ".step.on p", ".step .show", ".step.on .show",
         ".step.on .what", ".where", ".told", ".so", ".block > summary", "[role=tab]", ".views button"]


class Drive:
    """One page in one colour scheme."""

    def __init__(self, browser, path, facts, values, scheme, shots):
        self.browser = browser
        self.path = path
        self.facts = facts
        self.values = values
        self.scheme = scheme
        self.shots = shots
        self.name = f"{os.path.basename(path).removesuffix('.html')}-{scheme}"
        self.page = self.opened()
        self.wrong = []

    def opened(self, fragment=""):
        """The page, of a large one with all its rows and cells."""
        page = self.browser.open(self.path, 1440, 900, self.scheme, fragment)
        page.value("if (data.large) { data.large.boxes.forEach((_, box) => fillBox(box)); "
                   "all('.block').forEach(fillBlock); all('.block').forEach((one) => { one.open = true; }); }")
        return page

    def all(self):
        """Tries everything; what is wrong, a line each."""
        self.shot("first")
        self.regions()
        self.points()
        self.source()
        self.steps()
        self.tabulator()
        self.keys()
        self.views()
        self.outlives()
        self.widths()
        self.address()
        self.contrast()
        complaints = self.page.complaints()
        self.expect(f"the console says {complaints[:1]}", not complaints)
        return self.wrong

    def expect(self, what, is_right):
        if not is_right:
            self.wrong.append(f"{self.name}: {what}")

    def shot(self, name):
        if self.shots:
            self.page.screenshot(os.path.join(self.shots, f"{self.name}-{name}.png"))

    def elements(self, selector):
        return self.page.probe("elements", selector)

    def points_of(self, region):
        return [e for e in self.values.elements(region) if e < self.facts.points]

    def regions(self):
        """A chosen region lights what it holds."""
        for region in self.some_regions():
            self.page.value("clear()")
            self.page.click(f".region[data-r='{region}']")
            self.check_lit(region)
            took = self.page.probe("timeOfShow")
            self.expect(f"choosing takes {took:.0f} ms", took < SLOW)
        self.shot("region")
        self.page.click(f".region[data-r='{region}']")
        self.expect("a second click doesn't let go", self.elements("#graph .cell.held") == [])

    def some_regions(self):
        """Some regions of each kind: of the signature, large, small and empty ones."""
        sized = sorted(range(len(self.facts.names)), key=lambda r: len(self.values.elements(r)))
        count = len(sized)
        return sorted({0, self.facts.universals - 1, sized[0], sized[count // 2], sized[-1],
                       count * 2 // 3, count - 1})

    def check_lit(self, region):
        name = self.facts.names[region]
        points = self.points_of(region)
        ends = self.values.elements(region)[len(points):]
        base = sorted(self.facts.bases[region])
        self.page.value("setTab('points')")
        for selector, wanted in (("#graph .cell.held", points), (".end.held", ends),
                                 ("#points .point.held", points), ("#points .point.base", base)):
            self.expect(f"'{name}: {selector} are others", self.elements(selector) == wanted)

    def points(self):
        """A chosen point lists the regions that hold it, and comes into sight in the graph."""
        count = self.facts.points
        for point in sorted({0, count // 2, count * 2 // 3, count - 1}):
            self.page.value(f"clear(); makePlaces({point})")
            self.page.click(f"#graph .cell[data-p='{point}']")
            self.check_holders(point)
        self.page.value("clear(); setTab('points')")
        self.page.click(f"#points .point[data-p='{count // 2}']")
        self.check_holders(count // 2)
        self.expect("a point chosen in the list isn't in sight in the graph",
                    self.page.probe("inSight", f"#graph .cell[data-p='{count // 2}']"))
        self.shot("point")

    def check_holders(self, point):
        wanted = [f"'{name}" for region, name in enumerate(self.facts.names)
                  if not self.facts.is_universal(region) and self.values.has(region, point)]
        shown = self.page.probe("holders")
        self.expect(f"point {point} is held by {wanted[:4]}, shown is {shown[:4]}", shown == wanted)

    def source(self):
        """A line's strip is lit as its points are, and a point in an opened line can be chosen."""
        if not self.page.probe("nodes", "#tab-source"):
            return
        self.page.value("clear()")
        self.page.click("#tab-source")
        region = len(self.facts.names) - 1
        self.page.click(f".region[data-r='{region}']")
        wanted = [p for p in self.points_of(region) if self.facts.remarks.point(p).line]
        self.expect("the strips are lit otherwise",
                    self.elements("#source .strip i.held") == wanted)
        self.shot("source")
        point = self.facts.points - 1
        line = self.facts.remarks.point(point).line
        self.page.probe("openAll", "#source details", False)
        self.page.click(f"#line-{line} summary")
        self.page.click(f"#line-{line} .point[data-p='{point}']")
        self.expect("a point of an opened line isn't chosen",
                    self.elements("#graph .cell.picked") == [point])

    def steps(self):
        """A chosen step of a chain lights its walk."""
        self.page.probe("openAll", "details.fault", True)
        for at in range(self.page.value("all('.step .show').length")):
            walk = self.page.value(f"all('.step .show')[{at}].closest('.step').dataset.walk").split(",")
            self.page.value(f"all('.step .show')[{at}].id = 'driven'")
            self.page.click("#driven")
            self.page.value("byId('driven').removeAttribute('id')")
            self.expect(f"step {at} lights another walk",
                        self.elements("#graph .cell.walked") == sorted(set(map(int, walk))))
            self.shot(f"step-{at}")

    def tabulator(self):
        """Tab comes to every part, and the focus can be seen there."""
        self.page.value("clear(); setTab('points')")
        self.page.probe("focusFirst")
        parts = set()
        for _ in range(60):
            self.page.key("Tab")
            focus = self.page.probe("focus")
            if focus["isNowhere"]:
                break
            parts.add(focus["part"])
            self.expect(f"the focus on {focus['name']} can't be seen", focus["isVisible"])
        missing = {"tools", "filter", "lists", "points", "graph", "after"} - parts
        self.expect(f"Tab never comes to {missing}", not missing)

    def keys(self):
        self.page.value("document.querySelector('.region').focus()")
        for key in ("End", "Home", "ArrowDown", "Enter"):
            self.page.key(key)
        if len(self.facts.names) > 1:
            self.expect("ArrowDown and Enter don't choose the second region",
                        self.page.value("chosen.region") == 1)
        for key in ("]", "[", "n", "p", "f", "f", "+", "-", "0", "Escape"):
            self.page.key(key)
        self.expect("Escape leaves a region chosen", self.page.value("chosen.region") is None)
        self.page.value("probe.nodes('#graph .cell')[0].focus()")
        self.page.key("ArrowDown")
        self.page.key("Enter")
        if self.facts.successors[0]:
            self.expect("ArrowDown and Enter don't choose the successor of point 0",
                        self.page.value("chosen.element") == self.facts.successors[0][0])
        self.shot("focus")
        self.filter_and_legend()

    def filter_and_legend(self):
        self.page.key("/")
        self.page.key("z")
        shown = self.page.value("probe.nodes('.region').map((one) => one.textContent)")
        self.expect("the filter shows what doesn't fit", all("z" in one.lower() for one in shown))
        self.page.value("byId('filter').value = ''; filterRegions(); clear()")
        self.page.value("byId('filter').blur()")
        self.page.key("?", shift=True)
        self.expect("? doesn't open the legend", self.page.value("byId('help').open"))
        self.shot("legend")
        self.page.key("Escape")
        self.expect("Escape doesn't close the legend", not self.page.value("byId('help').open"))

    def views(self):
        """Both views have all points, and no box is too narrow."""
        points = list(range(self.facts.points))
        for view in ("folded", "statements"):
            if not self.page.value(f"all('.graph.{view}').length"):
                continue
            self.page.click(f"#view-{view}")
            self.expect(f"{view}: points are missing", self.elements("#graph .cell") == points)
            narrow = self.page.probe("narrowBoxes")
            self.expect(f"{view}: {narrow} boxes are narrower than their words", not narrow)
            self.page.click("#zoom-fit")
            self.shot(view)
            self.page.value("zoomTo(1)")

    def outlives(self):
        """The graph of regions has each region that a constraint speaks of, and a click there chooses it."""
        self.page.click("#view-outlives")
        wanted = {r for c in self.facts.constraints if c.sup != c.sub for r in (c.sup, c.sub)}
        shown = self.page.value("all('.knot').map((knot) => Number(knot.dataset.r))")
        if self.page.value("all('svg.outlives').length"):
            self.expect("regions are missing in their graph", set(shown) == wanted)
            self.page.value("clear()")
            self.page.click(".knot")
            self.expect("a click in the graph of regions chooses another",
                        self.page.value("chosen.region") == shown[0])
        self.shot("outlives")
        self.page.click("#view-folded")

    def widths(self):
        for width in WIDTHS:
            self.page.resize(width, 900)
            over = self.page.probe("overflow")
            self.expect(f"{width} wide, the page is {over} too wide", over <= 0)
            self.shot(f"width-{width}")
        self.page.resize(1440, 900)

    def address(self):
        """The address of what is chosen chooses it in a fresh page."""
        region = len(self.facts.names) - 1
        self.page.value(f"clear(); chooseRegion({region})")
        fragment = self.page.value("location.hash")
        other = self.opened(fragment)
        self.expect(f"the address {fragment} doesn't choose what it names",
                    other.probe("elements", "#graph .cell.held") == self.points_of(region))

    def contrast(self):
        self.page.probe("openAll", "details", True)
        found = {}
        for state in ("clear()", f"chooseRegion({self.facts.universals - 1})",
                      f"chooseRegion({len(self.facts.names) - 1})", "clear(); chooseElement(0)",
                      "setTab('points')", "all('.show')[0]?.click()"):
            self.page.value(state)
            for selector, ratio in self.page.probe("contrast", TEXTS):
                found[selector] = min(ratio, found.get(selector, ratio))
        for selector, ratio in found.items():
            self.expect(f"the contrast of {selector} is {ratio:.2f}", ratio >= LEAST)


def texts(folder):
    """The texts that are tried where none is named."""
    yield os.path.join(TESTS, "page_samples", "pick.facts")
    yield os.path.join(EXAMPLES, "squeeze.facts")
    for points in (200, 2000):
        path = os.path.join(folder, f"made-{points}.facts")
        with open(path, "w", encoding="utf-8") as file:
            file.write(facts_text(points, 1))
        yield path


def drive(browser, path, folder, shots):
    """Makes the page of a text and tries it in both schemes."""
    with open(path, "rb") as file:
        text = file.read()
    report = nllc.run(text).values
    out = os.path.join(folder, os.path.basename(path).removesuffix(".facts") + ".html")
    with contextlib.redirect_stdout(io.StringIO()):
        if make_page([path, "-o", folder]):
            return [f"{path}: no page"]
    facts = read_facts(text, path)
    values = read_values(report, facts, path)
    wrong = []
    for scheme in ("light", "dark"):
        wrong += Drive(browser, out, facts, values, scheme, shots).all()
    print(f"{os.path.basename(path)}: {facts.points} points, {len(facts.names)} regions: "
          f"{len(wrong) or 'nothing'} wrong", flush=True)
    return wrong


def main():
    parser = argparse.ArgumentParser(description=__doc__,
                                     formatter_class=argparse.RawDescriptionHelpFormatter)
    parser.add_argument("--shots", metavar="FOLDER", help="keep pictures there")
    parser.add_argument("facts", nargs="*", metavar="FACTS")
    asked = parser.parse_args()
    if asked.shots:
        os.makedirs(asked.shots, exist_ok=True)
    wrong = []
    with tempfile.TemporaryDirectory() as folder, Browser() as browser:
        for path in asked.facts or texts(folder):
            wrong += drive(browser, path, folder, asked.shots)
    for line in wrong:
        print(line)
    return 1 if wrong else 0


if __name__ == "__main__":
    sys.exit(main())
