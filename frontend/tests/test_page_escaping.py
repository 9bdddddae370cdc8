"""No text from outside becomes markup, script or a hidden character."""

import json
import re
import unittest

from page_support import Markup, content_of, random_text, solved, text

from nllc_tools.base import nllc
from nllc_tools.base.sentences import Code, plain, visible
from nllc_tools.texts.source import Source, pieces
from nllc_tools.views.html.page import SCRIPTS, page
from nllc_tools.views.html.writing import fill, script_data, sentence, template

NASTY = """</script><img src=x onerror=alert(1)> & "quoted" 'and' `so` {{data}} $& <!-- \\u003c --> ]]>"""


def page_of(nasty):
    data = text(2, f"# function: {nasty}", f"# source: {nasty}",
                f"# point 0: line 1: {nasty} (bb0[0])",
                f"# region 'a: {nasty}", f"# region 'x: line 1: {nasty}", "universal 'a",
                "region 'x", "next 0 1",
                "return 1", "base 'x 0", "constraint 'x 'a 1", "constraint 'a 'static 1")
    source = Source(nasty, 1, [nasty, f"fn f() {{ \"{nasty}\" }} // {nasty}"])
    return page(content_of(*solved(data), source, nasty, nasty, nllc.UNKNOWN))


class Pages(unittest.TestCase):
    def test_text_stays_text(self):
        made = page_of(NASTY)
        plain_page, nasty_page = Markup(page_of("harmless")), Markup(made)
        self.assertNotIn("<img", made)
        self.assertEqual(set(nasty_page.tags), set(plain_page.tags))
        self.assertEqual(nasty_page.tags.count("script"), 2)
        self.assertFalse([name for name, _ in nasty_page.attributes if name.startswith("on")])
        self.assertIn(NASTY, "".join(nasty_page.text))
        self.assertIn(NASTY, dict(enumerate(json.loads(nasty_page.scripts[0])["texts"]))[0])

    def test_nothing_is_fetched(self):
        made = Markup(page_of("harmless"))
        self.assertFalse({"img", "iframe", "object", "embed", "base", "audio", "video"} & set(made.tags))
        self.assertEqual((made.values("rel"), made.values("src")), (["icon"], []))
        self.assertTrue(all(value.startswith(("#", "data:image/svg+xml,")) for value in made.values("href")))
        self.assertIn("default-src 'none'", page_of("harmless"))

    def test_elements_are_closed_in_order(self):
        for data in [page_of(NASTY)] + [page(content_of(*solved(random_text(seed)))) for seed in range(40)]:
            made = Markup(data)
            self.assertEqual((made.open, made.wrong), ([], []))

    def test_each_identity_is_there_once(self):
        found = Markup(page_of(NASTY)).values("id")
        self.assertEqual(len(found), len(set(found)))


class Pieces(unittest.TestCase):
    def test_hidden_characters_are_shown(self):
        self.assertEqual(visible("a\u202eb\x1b[0m\tc\0"), "a‹U+202E›b‹U+001B›[0m    c‹U+0000›")

    def test_data_of_scripts(self):
        made = script_data({"a": "</script><!--", "b": "\u2028&"})
        self.assertNotRegex(made, "[<>&\u2028]")
        self.assertEqual(json.loads(made), {"a": "</script><!--", "b": "\u2028&"})

    def test_sentences(self):
        parts = ["a < b, ", Code("<'a>"), " & more"]
        self.assertEqual(sentence(parts), "a &lt; b, <code>&lt;&#x27;a&gt;</code> &amp; more")
        self.assertEqual(plain(parts), "a < b, `<'a>` & more")

    def test_what_is_put_in_is_not_looked_at_again(self):
        names = re.findall(r"\{\{(\w+)\}\}", template("page.html"))
        with_marks = fill("page.html", {name: "{{css}}" for name in names})
        self.assertIn("<style>\n{{css}}</style>", with_marks)

    def test_pieces_of_a_line_are_the_line(self):
        for line in [NASTY, "let x: &'a str = \"a\\\"b\"; // 'c'", "'\\'' 'x' b'y' 'label: loop",
                     "/* a */ 0x1f 'a\"", ""]:
            self.assertEqual("".join(piece for _, piece in pieces(line)), line)

    def test_kinds_of_pieces_of_a_mir_text(self):
        for line, kinds in (("  region '2", ["keyword", "lifetime"]), ("# 'a", ["comment"]),
                            ("switch copy _2.0 bb1 bb2", ["keyword", "keyword", "number"]),
                            ("_0 = call get(move _6: &'6 mut Map)", ["keyword", "keyword", "lifetime", "keyword"])):
            found = list(pieces(line, of_mir=True))
            self.assertEqual("".join(piece for _, piece in found), line)
            self.assertEqual([kind for kind, _ in found if kind], kinds)

    def test_kinds_of_pieces(self):
        self.assertEqual([kind for kind, _ in pieces("fn f<'a>(x: &'a u8) -> u8 { 'b' }") if kind],
                         ["keyword", "lifetime", "lifetime", "char"])


class Scripts(unittest.TestCase):
    def test_the_script_makes_no_markup(self):
        for script in map(template, SCRIPTS):
            for forbidden in ("innerHTML", "outerHTML", "insertAdjacentHTML", "document.write",
                              "eval(", "</script"):
                self.assertNotIn(forbidden, script)
