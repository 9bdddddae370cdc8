"""The tree of the crates: layers and their picture, documents that name each crate, lengths of lines."""

import re
import unittest

from support import ROOT
from crates import layers_of, uses_of

# Of lines, imports apart, by folder: what they end in, and how many columns they may have.
COLUMNS = {"src": (".rt", 100), "specs": (".antt", 100), "proofs": (".antt", 120)}
MOST_WORDS = 170                                    # of a crate's README
MOST_LONG = {"src": 0, "specs": 0, "proofs": 0}     # lines that are longer
IMPORT = re.compile(r"\s*(?:pub |ghost )*use ")


def named(text):
    """The crates that a text names; one without `nll` in its name has to stand in quotes, in a path or in the picture."""
    others = "|".join(name for name in uses_of(ROOT) if not name.startswith("nll"))
    return set(re.findall(rf"\bnll(?:_\w+|c)\b|(?:(?<=[`/])|(?<=  ))(?:{others})\b(?![-_:])", text))


class Layers(unittest.TestCase):
    def setUp(self):
        self.readme = (ROOT / "crates" / "README.md").read_text()
        self.layers = layers_of(ROOT)

    def test_each_crate_has_its_layer(self):
        there = {path.name for path in (ROOT / "crates").iterdir() if path.is_dir()}
        self.assertEqual(sorted(name for _, _, names in self.layers for name in names), sorted(there))

    def test_crates_stand_on_those_before_them(self):
        before = set()
        for name, uses in uses_of(ROOT).items():
            self.assertLessEqual(set(uses), before, name)
            before.add(name)

    def test_the_same_headings_in_the_same_order(self):
        parts = dict(re.findall(r"^## (.*)\n((?:(?!## ).*\n)*)", self.readme, re.MULTILINE))
        self.assertEqual(list(parts), [title for title, _, _ in self.layers])
        for title, said, names in self.layers:
            with self.subTest(layer=title):
                self.assertLessEqual(set(names), named(parts[title]))
                if said:
                    self.assertIn(f"{said}.".lower(), parts[title].strip().splitlines()[0].lower())

    def test_the_picture(self):
        """Each layer is a box of the picture with just its crates, save for that of the tests."""
        picture = "\n".join(re.findall(r"^    .*$", self.readme, re.MULTILINE))
        wanted = {name for title, _, names in self.layers if title != "Tests" for name in names}
        self.assertEqual(named(picture), wanted)
        for title, _, _ in self.layers[:-1]:
            self.assertIn(f" {title} ", picture)


class Documents(unittest.TestCase):
    def test_each_crate_is_named(self):
        """The claims have each crate but those of tests."""
        [claims] = ROOT.glob("docs/**/CLAIMS.md")
        found = named(claims.read_text())
        for title, _, names in layers_of(ROOT):
            with self.subTest(layer=title):
                self.assertEqual([name for name in names if title != "Tests" and name not in found], [])


class Readmes(unittest.TestCase):
    """A crate's README is short, and the files that it names are there."""

    def setUp(self):
        self.readmes = sorted((ROOT / "crates").glob("*/README.md"))

    def test_lengths(self):
        self.assertEqual([path.parent.name for path in self.readmes], sorted(uses_of(ROOT)))
        long = {path.parent.name: len(path.read_text().split()) for path in self.readmes
                if len(path.read_text().split()) > MOST_WORDS}
        self.assertEqual(long, {})

    def test_files(self):
        for path in self.readmes:
            for name in re.findall(r"`((?:src|specs|proofs)/\w+\.\w+)`(?! of)", path.read_text()):
                self.assertTrue((path.parent / name).is_file(), f"{path.parent.name}: {name}")
            for link in re.findall(r"\]\(([^)#]+)\)", path.read_text()):
                self.assertTrue((path.parent / link).is_file(), f"{path.parent.name}: {link}")


def long_lines(path, columns):
    """The lines of a file that are too long, by number; an import goes on until its braces close."""
    is_import = False
    for number, line in enumerate(path.read_text().splitlines(), 1):
        is_import = is_import or bool(IMPORT.match(line))
        if len(line) > columns and not is_import:
            yield number
        is_import = is_import and not ("}" in line or ";" in line or "{" not in line and IMPORT.match(line))


class Reading(unittest.TestCase):
    """docs/READING.md names files that are there."""

    def setUp(self):
        self.text = (ROOT / "docs" / "READING.md").read_text()

    def test_files_of_the_walks(self):
        there = {path.name for path in (ROOT / "crates").glob("*/src/**/*.rt")}
        for name in re.findall(r"`(\w+\.rt)`", self.text):
            with self.subTest(name=name):
                self.assertIn(name, there)

    def test_calls_of_the_walks(self):
        """A call that is named with its file stands there, in some crate."""
        text = re.sub(r"\s+", " ", self.text)
        for call, file in re.findall(r"`(?:\w+::)?((?!nll)[a-z]\w+)` (?:of `nll\w*` )?\(\[?`(\w+\.rt)`", text):
            with self.subTest(call=call, file=file):
                found = [path.read_text() for path in (ROOT / "crates").glob(f"*/src/{file}")]
                self.assertTrue(any(re.search(rf"\bfn {call}\b", one) for one in found))

    def test_links_of_the_walks(self):
        """A file that is named is linked, to a file of that name; a call that is named with it stands there."""
        text = re.sub(r"\s+", " ", self.text)
        for name, path in re.findall(r"\[`([\w/.-]+)`\]\(\.\./([\w/.-]+)\)", text):
            with self.subTest(name=name):
                self.assertTrue((ROOT / path).is_file() and f"/{path}".endswith(f"/{name}"))
        linked = re.findall(r"`(?:\w+::)?((?!nll)[a-z]\w+)` (?:of `nll\w*` )?\(\[`\w+\.rt`\]\(\.\./([\w/.-]+)\)", text)
        self.assertGreater(len(linked), 30)
        for call, path in linked:
            with self.subTest(call=call, path=path):
                self.assertRegex((ROOT / path).read_text(), rf"\bfn {call}\b")


def table(text, head):
    """The rows of the table whose head begins with this: what each speaks of, and the files that it names."""
    rows = re.search(rf"^\| {re.escape(head)} \|.*\n\|.*\n((?:\|.*\n)*)", text, re.MULTILINE)[1]
    for row in rows.splitlines():
        what, files = row.strip("| ").split(" | ")
        yield what, re.findall(r"`([^`]*)`", files)


def variants(name):
    """The variants of an enum, in the one crate that has it."""
    head = re.compile(rf"^pub enum {name}\b.*\n((?:    .*\n)*)", re.MULTILINE)
    bodies = [found[1] for path in sorted((ROOT / "crates").glob("*/src/**/*.rt")) for found in head.finditer(path.read_text())]
    return [re.findall(r"^    (\w+)", body, re.MULTILINE) for body in bodies]


class Calls(unittest.TestCase):
    def test_one_crate_each(self):
        """No two crates hand out a call of one name; what a crate hands on of another isn't its own.

        The crates for any analysis, those without `nll`, count by themselves: those of the owners have calls of the same names.
        """
        handed = re.compile(r"^pub use (?!nll_)\w+::(\{[^}]*\}|\w+);", re.MULTILINE)
        crates = {}
        for path in sorted((ROOT / "crates").glob("*/src/lib.rt")):
            for names in handed.findall(path.read_text()):
                for name in re.findall(r"\b[a-z]\w*", names):
                    crates.setdefault((name, not path.parts[-3].startswith("nll")), []).append(path.parts[-3])
        self.assertIn(("solve", False), crates)
        self.assertEqual({name: where for name, where in crates.items() if len(where) > 1}, {})


class Rules(unittest.TestCase):
    """docs/READING.md says of each kind of error, each statement and each rule what to open."""

    def setUp(self):
        self.text = (ROOT / "docs" / "READING.md").read_text()
        self.formats = (ROOT / "docs" / "FORMATS.md").read_text()

    def said(self, head):
        return " ".join(what for what, _ in table(self.text, head))

    def test_at_most_three_files(self):
        for head in ("Kind", "Statement, terminator", "Rule"):
            for what, files in table(self.text, head):
                with self.subTest(what=what):
                    self.assertIn(len(files), (1, 2, 3))
                    self.assertEqual([name for name in files if not (ROOT / "crates" / name).is_file()], [])

    def test_each_kind(self):
        [kinds] = variants("TextKind")
        self.assertIn("NotUtf8", kinds)
        named = re.findall(r"`(\w+)`", self.said("Kind"))
        self.assertEqual(sorted(set(named)), sorted(kinds))

    def test_each_statement(self):
        [statements] = [names for names in variants("Statement") if "Assign" in names]
        self.assertEqual(sorted(re.findall(r"`(\w+)`", self.said("Statement, terminator"))), sorted(statements))

    def test_each_rule(self):
        """What the sections of docs/FORMATS.md on effects, on types that fit and on the problem of a body name."""
        said = self.said("Rule")
        effects = re.search(r"^### What a statement uses.*\n\n\| \| \|\n.*\n((?:\|.*\n)*)", self.formats, re.MULTILINE)[1]
        rules = re.findall(r"^\| ([\w ]+?) \|", effects, re.MULTILINE)
        self.assertIn("uses", rules)
        fit = re.search(r"^### Types that fit \(.*\.(\w+)`\)$", self.formats, re.MULTILINE)
        problem = re.search(r"^### The problem of a body .*\n(?:(?!##).*\n)*", self.formats, re.MULTILINE)
        rules += [fit[1]] + re.findall(r"`(?:\w+\.)?([A-Z]\w+)`", problem[0])
        self.assertEqual([rule for rule in rules if not re.search(rf"\b{rule}\b", said)], [])


class Definitions(unittest.TestCase):
    """What a reader has to believe brings in no proof, but for two files that say why they do."""

    # A code owes a proof that what is stored as steps is made by them again; a law of a trait owes a proof.
    # Neither may be in the `proofs/` of its own crate, since a type or an `impl` cites it.
    OWING = {"nll_types/specs/TypeCodes.antt", "nll_owner/specs/RegionsLawful.antt"}

    def test_no_proofs(self):
        paths = sorted((ROOT / "crates").glob("*/specs/**/*.antt"))
        self.assertGreater(len(paths), 100)
        brings_in = re.compile(r"^\s*(?:pub )?use [\w.]*\.proofs\b", re.MULTILINE)
        found = {str(path.relative_to(ROOT / "crates")) for path in paths if brings_in.search(path.read_text())}
        self.assertEqual(found - self.OWING, set())
        self.assertEqual(self.OWING - found, set())


class Lines(unittest.TestCase):
    def test_lengths(self):
        """No line more is too long than there were when this was written."""
        for folder, (ending, columns) in COLUMNS.items():
            long = [f"{path.relative_to(ROOT)}:{number}"
                    for path in sorted((ROOT / "crates").glob(f"*/{folder}/**/*{ending}"))
                    for number in long_lines(path, columns)]
            with self.subTest(folder=folder):
                self.assertLessEqual(len(long), MOST_LONG[folder], long[:40])


if __name__ == "__main__":
    unittest.main()
