"""README, the course and the page on proofs have no sentence of more than 30 words; documents, comments and messages have
plain words."""

import ast
import pathlib
import re
import tempfile
import unittest

from support import ROOT

DOCUMENTS = ("README.md", "docs/LEARNING.md", "docs/PROOF.md")
SCRIPTS = ("frontend", "tools", "check", "bench")
MOST_WORDS = 30
# Turns of speech for which a document has plain words: appends; live; conflicts with; returned; out of memory; for
# readers who; round-robin.
REFUSED = ("behind the others", "in force", "goes against", "handed out", "want of memory", "for who ", "dealt in turns")
# Of comments also: scratch space; in prose; separated by; follows; the error says.
REFUSED_IN_COMMENTS = (*REFUSED, "for its own use", "the same in words", "parted by", "stands behind", "error tells",
                       "No effect at run time")
# Of messages also: return; give; conflict with; with; follow; is out of; gave no reason; shows at most; fix; data that
# lives for; required; by default.
REFUSED_IN_MESSAGES = (*REFUSED, "hand out", "hands out", "hand in", "handed in", "go against", "beside the figures",
                       "may stand", "stands out of", "not why", "no use to anybody", "mend what", "What lives for", "what lives for",
                       "is wanted for", "unless told")
# A comment that begins so leaves its reader to search for what it is like: "Like `f`, but ..".
REFUSED_BEGINNING = re.compile(r"[Tt]he same(?=[,.]| (?:as|but|by|for|in|of|where|with)\b)")
COMMENT = {".rt": re.compile(r"\s*//[/!]? ?(.*)"), ".antt": re.compile(r"\s*-- ?(.*)")}
APART = re.compile(r"\||#|!\[|    ")     # tables, headings, pictures and what is shown as code
ITEM = re.compile(r"^(?:[-*]|\d+\.) ")
END = re.compile(r"(?<=[.?!])[)*\"”]*\s+(?=[A-Z`\"(*\[“'])|(?<=[.?!]\"|[.?!]\)|[.?!]\*)\s+(?=[A-Z`\"(*\[“])")
WORD = re.compile(r"[^\W_]")


def paragraphs(text):
    """The paragraphs and list items of a document, a line each."""
    lines, is_list = [], False
    for line in [*text.splitlines(), ""]:
        is_new = ITEM.match(line) and (is_list or not lines)
        is_list = bool(is_new) or is_list and bool(line.strip())
        if (is_new or not line.strip() or APART.match(line)) and lines:
            yield " ".join(lines)
            lines = []
        if line.strip() and not APART.match(line):
            lines.append(ITEM.sub("", line.strip(), 1) if is_new else line.strip())


def sentences(text):
    """The sentences of a document; a colon in front of what is shown ends one as a full stop does."""
    for paragraph in paragraphs(text):
        yield from END.split(paragraph)


def count(sentence):
    """Its words; code is one word, whatever stands in it."""
    plain = re.sub(r"\[([^\]]*)\]\([^)]*\)", r"\1", re.sub(r"`[^`]*`", "code", sentence))
    return sum(1 for word in plain.split() if WORD.search(word))


def comments(path):
    """The paragraphs of the comments of a file, a line each; those at the end of a line of code don't count."""
    lines = []
    for line in [*path.read_text().splitlines(), ""]:
        comment = COMMENT[path.suffix].match(line)
        if comment and comment[1].strip():
            lines.append(comment[1].strip())
        elif lines:
            yield " ".join(lines)
            lines = []


def messages(path):
    """The strings of a script in Python, without what is said of its functions and of a module that isn't run."""
    tree = ast.parse(path.read_text())
    said = {id(node.body[0].value) for node in ast.walk(tree) if isinstance(node, (ast.FunctionDef, ast.ClassDef))
            and isinstance(node.body[0], ast.Expr)}
    if tree.body and isinstance(tree.body[0], ast.Expr) and not path.read_bytes().startswith(b"#!"):
        said.add(id(tree.body[0].value))
    return [node.value for node in ast.walk(tree)
            if isinstance(node, ast.Constant) and isinstance(node.value, str) and id(node) not in said]


def scripts():
    """The scripts in Python, those of tests apart."""
    paths = (path for folder in SCRIPTS for path in sorted((ROOT / folder).rglob("*")) if path.is_file())
    return [path for path in paths if "tests" not in path.parts and "target" not in path.parts
            and (path.suffix == ".py" or re.match(rb"#!.*python", path.read_bytes()[:60]))]


def refused(comment):
    """The turns of speech in a comment for which there are plain words."""
    beginning = REFUSED_BEGINNING.match(comment)
    return [words for words in REFUSED_IN_COMMENTS if words in comment] + ([beginning[0]] if beginning else [])


class Sentences(unittest.TestCase):
    def test_lengths(self):
        for document in DOCUMENTS:
            for sentence in sentences((ROOT / document).read_text()):
                with self.subTest(document=document, sentence=sentence[:60]):
                    self.assertLessEqual(count(sentence), MOST_WORDS, sentence)

    def test_plain_words(self):
        """In what documents say, and not in what they show of messages; claims and choices have words of their own."""
        for path in sorted([*ROOT.glob("*.md"), *ROOT.glob("crates/**/README.md"), *ROOT.glob("docs/*.md")]):
            if path.name in ("CLAIMS.md", "DECISIONS.md"):
                continue
            said = " ".join(line for line in path.read_text().splitlines() if not line.startswith("    "))
            self.assertEqual([words for words in REFUSED if words in said], [], path)

    def test_plain_comments(self):
        """In comments of sources and of definitions."""
        crates = ROOT / "crates"
        paths = sorted([*crates.glob("*/src/**/*.rt"), *crates.glob("*/specs/**/*.antt")])
        self.assertGreater(len(paths), 500)
        for path in paths:
            found = [(comment[:60], refused(comment)) for comment in comments(path) if refused(comment)]
            self.assertEqual(found, [], path)

    def test_plain_messages(self):
        """In what scripts print."""
        self.assertGreater(len(scripts()), 100)
        for path in scripts():
            found = [(words, said[:60]) for said in messages(path) for words in REFUSED_IN_MESSAGES if words in said]
            self.assertEqual(found, [], path)

    def test_messages(self):
        with tempfile.TemporaryDirectory() as folder:
            path = pathlib.Path(folder) / "one.py"
            path.write_text('"""One."""\ndef f():\n    """Two."""\n    print(f"three {4}", "five")\n')
            self.assertEqual(sorted(messages(path)), ["five", "three "])
            path.write_text("#!/usr/bin/env python3\n" + path.read_text())
            self.assertEqual(sorted(messages(path)), ["One.", "five", "three "])

    def test_refused(self):
        self.assertEqual(refused("Puts a type behind the others."), ["behind the others"])
        self.assertEqual(refused("The same of a text."), ["The same"])
        self.assertEqual(refused("The same where it is a text."), ["The same"])
        self.assertEqual(refused("Like `answer`, but takes the text. The same of all."), [])
        self.assertEqual(refused("The same type."), [])

    def test_counting(self):
        text = "One `two three` four. Five\nsix: seven!\n\n- Eight nine.\n- Ten (eleven.) Twelve\n\n    code\n"
        self.assertEqual([count(sentence) for sentence in sentences(text)], [3, 3, 2, 2, 1])


if __name__ == "__main__":
    unittest.main()
