"""What documents show is so: answers, below a `$`, by the slow programs of check/reference/; definitions and contracts, and how
many there are; drawings of the examples; tables of what was measured; and what they name."""

import pathlib
import re
import subprocess
import sys
import tempfile
import unittest
import xml.etree.ElementTree as tree
from concurrent.futures import ThreadPoolExecutor

from support import ROOT
import definitions
import drawings
import tables

DOCUMENTS = ["README.md", "docs/LEARNING.md"]
ANSWER = re.compile(r"\./nllc\.sh (values|check) ")
OF_NO_CRATE = {"Are", "HANDLES", "pthread_create", "pthread_join", "sched_yield", "syscall"}
PROOF = (ROOT / "docs/PROOF.md").read_text()
QUOTED = ("abbrev pub ", "pub record ", "pub fn ", "-- ")
MUST = ("Least", "AreFaults", "solve", "read_facts", "run", "IsRunOutcome", "drive")
MOST_APART = 0.05       # of counts, which change with each definition


def shown(document):
    """The commands of a document that ask for an answer, each with the lines shown below it."""
    command, lines = None, []
    for line in [*(ROOT / document).read_text().splitlines(), ""]:
        is_command = line.startswith("    $ ")
        if command and (is_command or not line.startswith("    ")):
            yield command, lines
            command, lines = None, []
        if is_command:
            command = line[6:]
        elif command:
            lines.append(line[4:])


def answered(command):
    """What the slow programs print for a command of a document."""
    reference = f"{sys.executable} check/reference/reference.py"
    asked = ANSWER.sub(lambda found: f"{reference} {found[1]} ", command)
    run = subprocess.run(asked, shell=True, cwd=ROOT, capture_output=True, text=True)
    return run.stdout.splitlines()


class Documents(unittest.TestCase):
    def test_shown_answers(self):
        asked = [(document, command, lines) for document in DOCUMENTS
                 for command, lines in shown(document) if ANSWER.search(command)]
        self.assertEqual({document for document, _, _ in asked}, set(DOCUMENTS))
        with ThreadPoolExecutor() as pool:
            answers = pool.map(answered, [command for _, command, _ in asked])
            for (document, command, lines), answer in zip(asked, answers):
                with self.subTest(document=document, command=command):
                    self.assertEqual(answer, lines)

    def test_shown_texts(self):
        """A text that the course shows in part stands line by line, in this order, in its example."""
        text = (ROOT / "docs/LEARNING.md").read_text()
        for block in re.findall(r"(?:^    .*\n)+", text, re.MULTILINE):
            lines = [line[4:].split("    ")[0].rstrip() for line in block.splitlines()]
            if not any(line.startswith("block ") for line in lines):
                continue
            with self.subTest(block=lines[0]):
                self.assertTrue(any(stands_in(lines, path) for path in (ROOT / "examples").glob("*.mir")))

    def test_named_wrong_bodies(self):
        """Each wrong body that the claims name stands in the folder that was named last."""
        named = re.findall(r"`(?:(\w+/[\w-]+)/)?(\w+)\.edit`", (ROOT / "docs/dev/CLAIMS.md").read_text())
        self.assertTrue(named)
        folder = None
        for of, edit in named:
            folder = of or folder
            with self.subTest(folder=folder, edit=edit):
                self.assertTrue((ROOT / "crates" / folder / f"{edit}.edit").is_file())

    def test_claims(self):
        """Each file that a claim names is there, and each row of the promises of PROOF leads to a claim."""
        text = (ROOT / "docs/dev/CLAIMS.md").read_text()
        for path in set(re.findall(r"`(crates/[\w/]+\.rt)`", text)):
            with self.subTest(path=path):
                self.assertTrue((ROOT / path).is_file())
        claims = re.findall(r"^### (\d+)\. ", text, re.MULTILINE)
        self.assertEqual(claims, [str(number) for number in range(1, len(claims) + 1)])
        promises = re.search(r"^\|.*\| Claim \|\n(?:\|.*\n)+", (ROOT / "docs/PROOF.md").read_text(), re.MULTILINE)[0]
        rows = re.findall(r"^\|.*\| ([\d, ]+) \|$", promises, re.MULTILINE)
        self.assertTrue(rows)
        for row in rows:
            self.assertLessEqual(set(row.split(", ")), set(claims))

    def test_clauses(self):
        """Each function, type and clause that a claim's clauses name stands in the file that was named last."""
        others = {name for one in definitions.all_definitions() for name in (one.crate, *one.names)}
        for bullet in re.findall(r"^- Clauses?: ((?:.*\n)(?:  .*\n)*)", (ROOT / "docs/dev/CLAIMS.md").read_text(), re.MULTILINE):
            folder, text = None, None
            for name in re.findall(r"`([^`]+)`", bullet):
                if name.endswith(".rt"):
                    folder = ROOT / name.partition("/src/")[0] if name.startswith("crates/") else folder
                    [path] = [path for path in (folder / "src").rglob("*.rt") if path.match(name)]
                    text = path.read_text()
                elif name not in others:
                    with self.subTest(file=path.relative_to(ROOT), name=name):
                        for word in name.split("::"):
                            stands = rf"\b(?:fn|ensures|trait|struct|enum) {word}\b|^impl\b.*\b{word}\b"
                            self.assertTrue(re.search(stands, text, re.MULTILINE))

    def test_names(self):
        """Each name in what is said of the crates is a word of some source of a crate, or the name of a file; each file is
        there."""
        paths = [path for folder in ("crates", "check", "bench", "tools") for path in (ROOT / folder).rglob("*")
                 if "out" not in path.parts]
        words = {word for path in paths for word in path.name.split(".")}
        for path in paths:
            if path.suffix in (".rt", ".antt"):
                words.update(re.findall(r"\w+", path.read_text()))
        for document in ("CONTRIBUTING.md", "docs/PROOF.md", "docs/READING.md", "docs/dev/CLAIMS.md"):
            text = (ROOT / document).read_text()
            named = re.findall(r"`([A-Za-z]\w*(?:::\w+)*)`", text)
            files = re.findall(r"`([\w/]+\.rt)`", text)
            with self.subTest(document=document):
                self.assertEqual({word for name in named for word in name.split("::")} - words - OF_NO_CRATE, set())
                self.assertEqual([name for name in files if not any(path.match(name) for path in paths)], [])

    def test_links(self):
        """Each document that a document names is there."""
        for path in [*sorted(ROOT.glob("*.md")), *sorted(ROOT.glob("*/README.md")), *sorted((ROOT / "docs").glob("**/*.md"))]:
            text = path.read_text()
            named = re.findall(r"\b(docs/(?:\w+/)?[\w-]+\.md)\b", text)
            linked = [link for link in re.findall(r"\]\(([^)#]+)\)", text) if "://" not in link]
            for name in set(named):
                self.assertTrue((ROOT / name).is_file(), f"{path}: {name}")
            for link in set(linked):
                self.assertTrue((path.parent / link).exists(), f"{path}: {link}")

    def test_contents(self):
        """A document of more than 3,000 words begins with its headings, and links to headings lead to one."""
        for path in sorted((ROOT / "docs").glob("**/*.md")):
            text = path.read_text()
            headings = re.findall(r"^## (.*)$", text, re.MULTILINE)
            listed = re.findall(r"^- \[(.*)\]\(#(.*)\)$", text.partition("\n## ")[0], re.MULTILINE)
            with self.subTest(path=path.name):
                if len(text.split()) > 3000:
                    self.assertEqual(listed, [(heading, anchor(heading)) for heading in headings])
                for link in re.findall(r"\]\(#(.*?)\)", text):
                    self.assertIn(link, map(anchor, re.findall(r"^#+ (.*)$", text, re.MULTILINE)))


def anchor(heading):
    """What a link to a heading ends in."""
    return re.sub(r"[^\w\- ]", "", heading.lower()).replace(" ", "-")


def stands_in(lines, path):
    """Whether the lines stand in a text in this order, where `..` stands for any lines."""
    rest = iter(path.read_text().splitlines())
    return all(line == ".." or line in rest for line in lines)


class Proof(unittest.TestCase):
    def test_quotations(self):
        sources = [path.read_text() for kind in ("specs/*.antt", "src/**/*.rt")
                   for path in sorted((ROOT / "crates").glob(f"*/{kind}"))]
        blocks = [re.sub(r"^    ", "", block, flags=re.M).strip("\n")
                  for block in re.findall(r"(?:^(?:    .*)?\n)+", PROOF, re.M) if block.strip()]
        quoted = [part for block in blocks for part in re.split(r"\n\n+", block) if part.startswith(QUOTED)]
        for part in quoted:
            with self.subTest(begins=part.splitlines()[0]):
                self.assertTrue(any(part in source for source in sources))
        names = {name for part in quoted for name in re.findall(r"(?:abbrev pub|pub record|pub fn) (\w+)", part)}
        self.assertLessEqual(set(MUST), names)

    def test_counts(self):
        rows = re.findall(r"^\| `(nll_\w+)` `(\w+)` \| ([\d,]+) \| ([\d,]+) \|$", PROOF, re.M)
        self.assertTrue(rows)
        for crate, function, count, lines in rows:
            found = definitions.rests_on(ROOT, crate, function)
            for said, have in ((count, len(found)),
                               (lines, sum(len(definitions.without_comments(one.text)) for one in found))):
                with self.subTest(crate=crate, function=function):
                    self.assertLessEqual(abs(int(said.replace(",", "")) - have), MOST_APART * have, have)

    def test_the_edits_are_counted(self):
        [said] = re.findall(r"(\d+) wrong bodies", PROOF)
        found = [path for path in (ROOT / "crates").glob("*/*/*.edit") if path.parent.name != "tried-bodies"]
        self.assertLessEqual(abs(int(said) - len(found)), MOST_APART * int(said))


class Drawings(unittest.TestCase):
    def test_they_are_up_to_date(self):
        for name in drawings.DRAWINGS:
            with self.subTest(name=name):
                self.assertEqual((ROOT / "docs/pictures" / f"{name}.svg").read_text(), drawings.drawing(name))

    def test_each_is_shown(self):
        shown = re.findall(r"pictures/([\w-]+)\.svg", (ROOT / "docs/LEARNING.md").read_text())
        self.assertEqual(sorted(shown), sorted(drawings.DRAWINGS))

    def test_what_is_lit(self):
        """A row of a point is filled where the region holds the point."""
        root = tree.fromstring(drawings.drawing("running-foo"))
        rows = [one for one in root if one.tag.endswith("rect") and one.get("height") == str(drawings.ROW)]
        self.assertEqual([one.get("fill") == drawings.LIT for one in rows], [False, True, True, False, False, True, False])


class Tables(unittest.TestCase):
    def test_each_row_has_each_column(self):
        for path in tables.RESULTS.glob("*.csv"):
            head, found = tables.read(path)
            self.assertTrue(head.startswith(f"commit {path.stem}; "), path)
            for name, (_, columns, rows) in found.items():
                with self.subTest(path=path.name, table=name):
                    self.assertTrue(rows)
                    self.assertEqual({len(row) for row in rows}, {len(columns)})

    def test_documents_show_what_was_measured(self):
        """`bench/tables.py --write` puts it there."""
        self.assertTrue(tables.shown_in())
        for path in tables.shown_in():
            self.assertEqual(path.read_text(), tables.with_tables(path.read_text()), path)

    def test_some_columns(self):
        self.assertEqual(tables.markdown(["a", "b"], [["1", "2"]], ["b"]), "| b |\n|---|\n| 2 |\n")

    def test_what_scripts_wrote_is_taken(self):
        with tempfile.TemporaryDirectory() as folder:
            (pathlib.Path(folder) / "reading.md").write_text("Four processors.\n\n| Text | s |\n|---|---|\n| a, b | 1 |\n")
            text = tables.take(folder, "abc", "a machine")
        self.assertEqual(text, '# commit abc; a machine\n\n# reading: Four processors.\nText,s\n"a, b",1\n')


if __name__ == "__main__":
    unittest.main()
