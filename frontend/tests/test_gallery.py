"""The gallery: its cards, and the command that makes it."""

import hashlib
import io
import json
import os
import re
import shutil
import sys
import tempfile
import unittest
from contextlib import redirect_stderr, redirect_stdout
from glob import glob
from unittest import mock

import page_support
from paths import TESTS
from rooms import STATES, Room
from test_page_glance import LOAN, SOURCE, content_of

from nllc_tools.commands import gallery
from nllc_tools.rustc.compiler import version
from nllc_tools.views import gallery as cards
from nllc_tools.views.gallery import Shown
from nllc_tools.views.html.page import SCRIPTS
from nllc_tools.views.html.index_rows import row_in
from nllc_tools.views.html.writing import compact

GOLDEN = os.path.join(TESTS, "golden", "gallery.txt")
QUICK = os.path.join(TESTS, "quick_nllc.py")


class Cards(unittest.TestCase):
    def card(self, *lines):
        content = content_of(*lines)
        found = list(cards.of_functions([Shown("grow.html", "grow", content)]))
        self.assertEqual(len(found), 1)
        return found[0]

    def test_sentence_and_source(self):
        card = self.card(*LOAN)
        self.assertEqual((card.name, card.sentence, card.code.first, card.code.lines), ("grow", "Grows.", 2, SOURCE[1:]))

    def test_a_function_without_a_sentence_has_no_card(self):
        content = content_of(*LOAN, source=SOURCE[1:], first=2)
        self.assertEqual(list(cards.of_functions([Shown("grow.html", "grow", content)])), [])

    def test_verdicts(self):
        for more, wanted in (([], ["✕ 1 loan error", "✓ accepts"]),
                             (["# rustc 4:5: E0506: cannot assign"], ["✕ 1 loan error", "✕ E0506"])):
            made = cards.card_part(self.card(*LOAN, *more))
            found = re.findall(r'<p class="verdict [a-z]+"><span aria-hidden="true">(.)</span> ([^<]*)<', made)
            self.assertEqual([" ".join(one) for one in found], wanted)

    def test_they_differ(self):
        made = cards.card_part(self.card(*LOAN[:-3], "# rustc 4:5: E0506: cannot assign"))
        self.assertEqual(re.findall(r"</span> ([^<]*)</p>", made), ["accepts", "E0506", "they differ"])
        self.assertIn("Line 4: rustc: E0506: cannot assign; nllc: no fault there", made)

    def test_labels_are_at_the_lines(self):
        made = cards.card_part(self.card(*LOAN))
        self.assertEqual(re.findall(r'<span class="label [a-z]+">([^<]*)<', made),
                         ["borrowed here", "assigned here", "used here later"])


class Kept(unittest.TestCase):
    """What docs/ has of pages has the style and the script that pages have today; else run frontend/tests/browser/pictures.py."""

    def test_style_and_script(self):
        style = compact("look.css", "code.css", "page.css")
        script = compact(*SCRIPTS)
        for path in glob(os.path.join(page_support.ROOT, "docs", "pages", "*.html")):
            made = page_support.file_bytes(path).decode()
            if 'content="nll-page"' in made:
                with self.subTest(path=path):
                    self.assertTrue(style in made and script in made)


def make(folder):
    """Makes the gallery with the quick stand-ins for programs; the status, and what is printed."""
    out, err, before = io.StringIO(), io.StringIO(), os.getcwd()
    try:
        with mock.patch.dict(os.environ, NLLC=QUICK, WORLD_PROGRAM=STATES), redirect_stdout(out), redirect_stderr(err):
            return gallery.main([folder]), out.getvalue(), err.getvalue()
    finally:
        os.chdir(before)


def settled(made):
    """What a page says: without its head, its scripts and its foot, and with its constraints in order, since they are a set."""
    body = re.sub(r"<footer>.*?</footer>|<style>.*?</style>|<script>.*?</script>", "", made, flags=re.DOTALL)
    return re.sub(r'"constraints":(\[\[.*?\]\])', lambda found: str(sorted(json.loads(found[1]))), body)


def said_in(folder):
    """Of each page of a gallery what an index says of it, and a sum of the page."""
    for name in sorted(os.listdir(folder)):
        made = page_support.file_bytes(os.path.join(folder, name)).decode()
        row = row_in(os.path.join(folder, name))
        yield f"{name} {hashlib.sha256(settled(made).encode()).hexdigest()[:16]}"
        if row:
            yield f"    {row.source}:{row.line}: {row.said}; rustc: {row.rustc}; {row.points} points, {row.regions} regions"
            yield from (f"    line {line}: {words}" for line, words in row.told)


def all_said(folder):
    return "".join(f"{line}\n" for line in [f"rustc {version().split()[1]}", *said_in(folder)])


@unittest.skipUnless(shutil.which("rustc"), "no rustc")
class Whole(unittest.TestCase):
    @classmethod
    def setUpClass(cls):
        folder = tempfile.TemporaryDirectory()
        cls.addClassCleanup(folder.cleanup)
        cls.folder = folder.name
        cls.status, _, cls.said = make(cls.folder)

    def test_it_says_what_it_said(self):
        """Else look at the pages that `./nllc.sh gallery` makes, before and after; `test_gallery.py --write` takes them over."""
        self.maxDiff = None
        golden = page_support.file_bytes(GOLDEN).decode()
        if golden.partition("\n")[0] != f"rustc {version().split()[1]}":
            self.skipTest("the golden file is of another rustc")
        self.assertEqual((self.status, self.said), (0, ""))
        self.assertEqual(all_said(self.folder), golden)

    def test_links(self):
        """Each page is linked from the gallery's own, and links back to it."""
        whole = page_support.file_bytes(os.path.join(self.folder, "index.html")).decode()
        names = sorted(name for name in os.listdir(self.folder) if name != "index.html")
        self.assertEqual(sorted({*re.findall(r'href="\./([^"#]*)', whole)}), names)
        for name in names:
            self.assertIn('<a class="back" href="./index.html">', page_support.file_bytes(os.path.join(self.folder, name)).decode())


class Command(Room):
    def run_main(self, *words, **programs):
        self.addCleanup(os.chdir, os.getcwd())
        return self.called(gallery.main, list(words), **programs)

    def test_words(self):
        self.assertEqual(self.run_main("--help")[0::2], (0, ""))
        status, out, err = self.run_main("a", "b")
        self.assertEqual((status, out), (2, ""))
        self.assertIn("usage: nllc.sh gallery", err)

    @unittest.skipUnless(shutil.which("rustc"), "no rustc")
    def test_one_file_one_text_and_one_schedule(self):
        with mock.patch.multiple(gallery, FILES={"variance": "Variance"}, MIR_TEXTS={"drop": ("w", "A drop.")},
                                 SCHEDULES={"each_other": "Two owners."}):
            self.assertEqual(self.run_main(self.room, NLLC=QUICK, WORLD_PROGRAM=STATES), (0, self.path("index.html") + "\n", ""))
        made, whole = sorted(os.listdir(self.room)), self.read("index.html")
        self.assertIn('<a class="back" href="./index.html">', self.read("each_other.schedule.html"))
        self.assertIn("cell_is_invariant.html", made)
        self.assertEqual(sorted({*re.findall(r'href="\./([^"#]*)', whole), "index.html"}), made)
        self.assertIn('href="./drop.mir.html#region=w"', whole)
        self.assertEqual(whole.count('class="card faulty"'), 3)


def write():
    with tempfile.TemporaryDirectory() as folder:
        if make(folder)[0] == 0:
            with open(GOLDEN, "w", encoding="utf-8") as file:
                file.write(all_said(folder))


if __name__ == "__main__":
    write() if sys.argv[1:] == ["--write"] else unittest.main()
