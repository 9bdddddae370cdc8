"""The gallery in a headless Chromium, where there is one: each page at its first view, in both themes, at three widths
and with two sets of fonts; and every control of one page of each kind."""

import os
import shutil
import tempfile
import unittest
import xml.etree.ElementTree as ElementTree

from test_gallery import make

import devtools

HAS_ALL = bool(shutil.which("rustc")) and any(map(shutil.which, devtools.NAMES))
ROOM = tempfile.TemporaryDirectory()
GALLERY = ROOM.name     # made for these tests
FOLDERS = "/usr/share/fonts/truetype"
FONTS = {"noto": ("noto", "dejavu"), "dejavu": ("dejavu",)}
WIDTHS = (1400, 768, 360)
LEAST_LETTERS = 10
LEAST_CONTRAST = 4.5


def setUpModule():
    if HAS_ALL:
        make(GALLERY)


def fonts_of(name):
    return [os.path.join(FOLDERS, folder) for folder in FONTS[name]]


@unittest.skipUnless(HAS_ALL, "there is no Chromium, or no rustc")
class Gallery(unittest.TestCase):
    def views(self, fonts, look):
        """All pages with these fonts: letters and overflow, and what else is looked at; no word of the console."""
        if not all(map(os.path.isdir, fonts_of(fonts))):
            self.skipTest(f"there are no fonts in {', '.join(fonts_of(fonts))}")
        with devtools.Browser(fonts_of(fonts)) as browser:
            for name in sorted(os.listdir(GALLERY)):
                shown = browser.open(os.path.join(GALLERY, name), 1400, 900)
                with self.subTest(name=name, fonts=fonts):
                    self.letters(shown)
                    look(shown)
                    for width in WIDTHS:
                        shown.resize(width, 900)
                        self.assertEqual(shown.probe("wide"), [], width)
                    self.assertEqual(shown.complaints(), [])
                shown.close()

    def letters(self, shown):
        size, words = shown.probe("smallest")
        self.assertGreaterEqual(size, LEAST_LETTERS - 0.01, words)

    def contrast(self, shown):
        for scheme in ("light", "dark"):
            shown.use(scheme)
            self.assertEqual(shown.probe("faint", LEAST_CONTRAST), [], scheme)

    def alone(self, shown):
        """The page loads itself and nothing else."""
        self.assertEqual([url for url in shown.asked_for() if not url.startswith("data:")],
                         [shown.value("location.href")])

    def test_with_noto(self):
        self.views("noto", self.contrast)

    def test_with_dejavu(self):
        self.views("dejavu", self.alone)

    def test_a_phone_s_first_view(self):
        with devtools.Browser() as browser:
            for name in sorted(os.listdir(GALLERY)):
                shown = browser.open(os.path.join(GALLERY, name), 390, 844)
                with self.subTest(name=name):
                    self.letters(shown)
                    self.assertEqual(shown.probe("overlapping"), [])
                shown.close()


@unittest.skipUnless(HAS_ALL, "there is no Chromium, or no rustc")
class Controls(unittest.TestCase):
    @classmethod
    def setUpClass(cls):
        cls.browser = cls.enterClassContext(devtools.Browser())

    def opened(self, name, width=1400, height=900, address=""):
        shown = self.browser.open(os.path.join(GALLERY, name), width, height, "light", address)
        self.addCleanup(shown.close)
        return shown

    def test_every_control(self):
        """Each button, summary, link into the page, field and tab is used; the console stays silent."""
        for name in ("kept_and_used_later.html", "found_or_inserted.html", "asks_the_function_around.html",
                     "lookup.mir.html", "late_hole.schedule.html"):
            shown = self.opened(name)
            with self.subTest(name=name):
                used = shown.value("""(() => {
                    let used = 0;
                    for (const node of document.querySelectorAll(
                        "button, summary, .cell, .words, .stub, .knot, a[href^='#'], [role=tab], input")) {
                      if (node.closest("dialog form") || node.id === "save") continue;
                      node.dispatchEvent(new MouseEvent("click", { bubbles: true, cancelable: true }));
                      document.querySelector("dialog").close();
                      used += 1;
                    }
                    return used;
                })()""")
                self.assertGreater(used, 30)
                self.assertEqual(shown.complaints(), [])

    def test_the_loan_is_seen_at_once(self):
        """Its three lines are marked, its region is lit, and nothing is in the address."""
        shown = self.opened("kept_and_used_later.html")
        self.assertEqual(shown.value("probe.nodes('#source .label').map((one) => one.textContent)"),
                         ["borrowed here", "conflicts here", "used here later"])
        self.assertEqual(shown.value("data.regions[chosen.region].what"), "the borrow &mut letters, line 19")
        self.assertTrue(shown.value("probe.nodes('#graph .cell.held').length > 0"))
        self.assertEqual(shown.value("location.hash"), "")

    def test_both_verdicts(self):
        shown = self.opened("found_or_inserted.html")
        self.assertEqual(shown.value("document.querySelector('.verdicts').innerText.split('\\n').filter(Boolean)"),
                         ["◆ rustc refuses, nllc doesn’t", "rustc: E0499"])

    def test_the_graph_begins_at_its_entry(self):
        for name in ("found_or_inserted.html", "walk_down.html", "lookup.mir.html"):
            shown = self.opened(name)
            self.assertTrue(shown.value("isInside(document.querySelector('.graph.statements .cell[data-p=\"0\"]'), byId('graph'))"), name)

    def test_each_view_has_its_scale(self):
        shown = self.opened("found_or_inserted.html")
        scales = []
        for view in ("outlives", "folded", "statements"):
            shown.click(f"#view-{view}")
            scales.append(shown.value("scale"))
            self.assertGreaterEqual(shown.probe("smallest")[0], LEAST_LETTERS - 0.01, view)
        shown.value("zoomTo(2); setView('folded'); setView('statements')")
        self.assertEqual(shown.value("scale"), 2)

    def test_fit_never_has_small_letters(self):
        shown = self.opened("found_or_inserted.html", 900, 900)
        shown.click("#zoom-fit")
        self.assertLess(shown.value("scale"), 0.92)
        self.assertGreaterEqual(shown.probe("smallest")[0], LEAST_LETTERS - 0.01)

    def test_back(self):
        shown = self.opened("kept_and_used_later.html")
        shown.click(".region[data-r='2']")
        shown.click(".region[data-r='3']")
        for address, region in (("#region=" + shown.value("data.regions[2].name"), 2), ("", None)):
            shown.value("new Promise((done) => { addEventListener('popstate', () => done(), { once: true }); history.back(); })")
            self.assertEqual(shown.value("location.hash"), address)
            if region is not None:
                self.assertEqual(shown.value("chosen.region"), region)
        self.assertTrue(shown.value("chosen.isFirst"))

    def test_a_key_that_is_held(self):
        """It adds to the history where it begins and where it is let go."""
        shown = self.opened("found_or_inserted.html")
        shown.key("Escape")
        before = shown.value("history.length")
        shown.hold("]", 5)
        self.assertEqual(shown.value("[chosen.region, history.length]"), [5, before + 2])
        self.assertEqual(shown.value("location.hash"), "#region=" + shown.value("data.regions[5].name"))

    def test_a_link_to_a_line(self):
        shown = self.opened("kept_and_used_later.html", address="#line=20")
        self.assertTrue(shown.value("byId('line-20').open"))

    def test_the_graph_as_a_file(self):
        shown = self.opened("found_or_inserted.html")
        shown.value("zoomTo(0.3)")
        made = shown.value("""(() => {
            let text = "";
            const whole = window.Blob;
            window.Blob = class extends whole { constructor(parts, kind) { super(parts, kind); text = parts.join(""); } };
            document.addEventListener("click", (event) => { if (event.target.download) event.preventDefault(); }, { once: true });
            byId("save").click();
            window.Blob = whole;
            return text;
        })()""")
        drawing = ElementTree.fromstring(made)
        words = ["".join(node.itertext()) for node in drawing.iter("{http://www.w3.org/2000/svg}text")]
        self.assertTrue(any("switchInt" in one for one in words))
        self.assertNotIn("var(", made)
        self.assertAlmostEqual(shown.value("scale"), 0.3)

    def test_columns_are_dragged(self):
        shown = self.opened("kept_and_used_later.html")
        width = "document.querySelector('.lists').getBoundingClientRect().width"
        before = shown.value(width)
        x, y = shown.probe("middle", "#lists-divider")
        for kind, at in (("mousePressed", x), ("mouseMoved", x + 60), ("mouseReleased", x + 60)):
            shown.call("Input.dispatchMouseEvent", type=kind, x=at, y=y, button="left", buttons=1, clickCount=1)
        self.assertAlmostEqual(shown.value(width), before + 60, delta=2)
        shown.value("byId('lists-divider').focus()")
        shown.key("ArrowLeft")
        self.assertAlmostEqual(shown.value(width), before + 36, delta=2)
        graph = "byId('graph-pane').getBoundingClientRect().width"
        before = shown.value(graph)
        shown.value("byId('graph-divider').focus()")
        shown.key("ArrowLeft")
        self.assertAlmostEqual(shown.value(graph), before + 24, delta=2)

    def test_a_phone(self):
        """The source comes second; what is chosen covers the foot only after a choice, and is closed by its button."""
        shown = self.opened("kept_and_used_later.html", 390, 844)
        tops = shown.value("['#faults', '#text-pane', '#regions-part', '#graph-pane'].map("
                           "(one) => document.querySelector(one).getBoundingClientRect().top)")
        self.assertEqual(tops, sorted(tops))
        shown.resize(768, 900)
        self.assertEqual(shown.probe("overlapping"), [])
        shown.resize(390, 844)
        self.assertEqual(shown.value("probe.nodes('.chosen').length"), 0)
        shown.value("chooseRegion(2)")
        self.assertEqual(shown.value("probe.nodes('.chosen').length"), 1)
        shown.click("#clear")
        self.assertEqual(shown.value("probe.nodes('.chosen').length"), 0)

    def test_themes(self):
        for name in ("kept_and_used_later.html", "late_hole.schedule.html"):
            shown = self.opened(name)
            for theme in ("light", "dark", "system"):
                shown.click("#theme")
                self.assertEqual(shown.value("document.querySelector('#theme span').textContent"), theme)

    def test_print(self):
        """On paper the parts stand one below the other, as wide as the page, and no tool is there."""
        shown = self.opened("kept_and_used_later.html", 760, 1000)
        shown.call("Emulation.setEmulatedMedia", media="print")
        boxes = shown.value("['#faults', '#text-pane', '#graph-pane'].map((one) => "
                            "document.querySelector(one).getBoundingClientRect()).map(({ top, bottom, width }) => [top, bottom, width])")
        self.assertTrue(all(above[1] <= below[0] for above, below in zip(boxes, boxes[1:])), boxes)
        self.assertTrue(all(width > 700 for _, _, width in boxes), boxes)
        self.assertEqual(shown.value("probe.nodes('.tools, .zoom, .views, .divider, #save').length"), 0)
        self.assertEqual(shown.probe("overlapping"), [])
        self.assertEqual(shown.value("probe.nodes('.pane, .scroll').filter((one) => one.scrollHeight > one.clientHeight + 1)"
                                     ".map((one) => one.id)"), [])

    def test_keys(self):
        """Each key of the legend, and what is chosen after it."""
        shown = self.opened("found_or_inserted.html")
        shown.key("Escape")
        for key, wanted in (("]", [0, None]), ("]", [1, None]), ("[", [0, None]), ("n", [0, 0]), ("Escape", [None, None])):
            shown.key(key)
            self.assertEqual(shown.value("[chosen.region, chosen.element]"), wanted, key)
        shown.value("chooseRegion(2)")
        runs = shown.value("data.regions[2].holds.map(([first]) => first)")
        for key, wanted in (("n", runs[0]), ("n", runs[1]), ("p", runs[0])):
            shown.key(key)
            self.assertEqual(shown.value("chosen.element"), wanted)
        shown.value("zoomTo(1)")
        for key, wanted in (("+", 1.25), ("-", 1), ("-", 0.8), ("0", 1)):
            shown.key(key)
            self.assertAlmostEqual(shown.value("scale"), wanted)
        for view in ("folded", "statements"):
            shown.key("f")
            self.assertEqual(shown.value("document.body.dataset.view"), view)
        shown.key("?", shift=True)
        self.assertTrue(shown.value("byId('help').open"))
        shown.key("Escape")
        self.assertFalse(shown.value("byId('help').open"))
        shown.key("/")
        shown.key("x")
        self.assertEqual(shown.value("byId('filter').value"), "x")
        self.assertEqual(shown.complaints(), [])

    def test_a_schedule_plays(self):
        """An event at each tick of the clock, up to the last one; a choice stops it."""
        shown = self.opened("late_hole.schedule.html")
        shown.value("{ window.ticks = []; window.setInterval = (act) => ticks.push(act);"
                    " window.clearInterval = () => ticks.pop(); }")
        label = "byId('play').getAttribute('aria-label')"
        shown.click("#play")
        self.assertEqual(shown.value(f"[{label}, ticks.length, now]"), ["Stop", 1, 0])
        self.assertEqual(shown.value("ticks[0](), ticks[0](), now"), 2)
        shown.click("#play")
        self.assertEqual(shown.value(f"[{label}, ticks.length, now]"), ["Play", 0, 2])
        shown.click("#play")
        shown.value("while (ticks.length) ticks[0]()")
        self.assertEqual(shown.value(f"[{label}, now === last]"), ["Play", True])
        shown.key(" ")
        self.assertEqual(shown.value("[ticks.length, now]"), [1, 0])
        shown.key("ArrowRight")
        self.assertEqual(shown.value("[ticks.length, now]"), [0, 1])

    def test_the_events_of_a_schedule(self):
        """The slider, a row of the list, and the keys come to the same event."""
        shown = self.opened("late_hole.schedule.html")
        for act in ("byId('slider').value = 3; byId('slider').dispatchEvent(new Event('input'))",
                    "all('#events a')[3].click()"):
            shown.value("choose(0)")
            shown.value(act)
            self.assertEqual(shown.value("[now, location.hash, byId('where').textContent]"), [3, "#event=3", "3"])
        shown.key("End")
        self.assertTrue(shown.value("now === last"))
        shown.key("ArrowLeft")
        self.assertTrue(shown.value("now === last - 1"))

    def test_who_waits_for_whom(self):
        """What is drawn is said, too; `not now` has its reason at the event."""
        shown = self.opened("each_other.schedule.html", address="#event=18")
        self.assertEqual(shown.value("probe.nodes('.waiting > p').map((one) => one.textContent)"), ["Owner 0 waits for owner 1."])
        self.assertEqual(shown.value("probe.nodes('.wait').map((one) => one.querySelector('title').textContent)"), ["owner 0 waits for owner 1"])
        shown.key("Home")
        self.assertEqual(shown.value("probe.nodes('.waiting > p').map((one) => one.textContent)"), ["Nobody waits."])
        self.assertEqual(shown.value("probe.nodes('#events .why').map((one) => one.textContent)[0]"),
                         "The box from owner 1 to owner 0 is empty.")
