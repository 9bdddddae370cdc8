"""What README.md and the documents on Rust and on learning show of commands on Rust files is what these print.

    python3 frontend/tests/test_from_rust.py --write       makes what they show anew

The functions' values are those of the quick solver, and a MIR text's problem is that of the slow reader. Where
there is no rustc of the release that the document speaks of, nothing is compared.
"""

import os
import pathlib
import re
import subprocess
import sys
import tempfile
import unittest
from concurrent.futures import ThreadPoolExecutor

import facts_support as support

ROOT = pathlib.Path(__file__).resolve().parents[2]
DOCUMENTS = ("docs/FROM-RUST.md", "docs/FACTS-FROM-RUSTC.md", "docs/LEARNING.md", "README.md")
COMMAND = re.compile(r"    \$ (\./nllc\.sh (?:rust|facts|page) .*)")
NUMBERED = re.compile(r" {3,5}(\d{1,2})  (.*)")
SECONDS = re.compile(r" +\d+\.\d\b(?= |$)")
needs_known = unittest.skipUnless(support.rustc_release().startswith(support.KNOWN),
                                  f"no rustc {support.KNOWN}x, the release that is shown")


def blocks(lines):
    """The shown commands: where what they print begins and ends, and the command."""
    for at, line in enumerate(lines):
        if found := COMMAND.match(line):
            end = at + 1
            while end < len(lines) and lines[end].startswith("    ") and not lines[end].startswith("    $"):
                end += 1
            if end > at + 1:
                yield at + 1, end, found[1]


def printed(command, folder):
    """What a command prints in a folder in which it finds the repository's files."""
    environment = os.environ | {"NLLC": str(ROOT / "frontend/tests/quick_nllc.py"),
                                "WORLD_PROGRAM": str(ROOT / "check/reference/reference_states.py")}
    done = subprocess.run(command, shell=True, cwd=folder, env=environment, capture_output=True, text=True,
                          check=False)
    return done.stdout.splitlines()


def folder_of_links():
    folder = tempfile.TemporaryDirectory(prefix="nll-documents.")
    for name in ("examples", "frontend", "nllc.sh"):
        os.symlink(ROOT / name, os.path.join(folder.name, name))
    return folder


def without_seconds(lines):
    return [SECONDS.sub("  0.0", line) for line in lines]


def write(document):
    path = ROOT / document
    lines = path.read_text().split("\n")
    with folder_of_links() as folder:
        for begin, end, command in reversed(list(blocks(lines))):
            lines[begin:end] = ["    " + line for line in printed(command, folder)]
    path.write_text("\n".join(lines))


class Shown(unittest.TestCase):
    @needs_known
    def test_commands(self):
        shown = {command: [line[4:] for line in lines[begin:end]]
                 for lines in ((ROOT / name).read_text().split("\n") for name in DOCUMENTS)
                 for begin, end, command in blocks(lines)}
        with folder_of_links() as folder, ThreadPoolExecutor() as pool:
            answers = pool.map(lambda command: printed(command, folder), shown)
            for (command, lines), answer in zip(shown.items(), answers):
                with self.subTest(command=command):
                    self.assertEqual(without_seconds(answer), without_seconds(lines))

    @needs_known
    def test_figures_of_the_text(self):
        """What docs/FROM-RUST.md says of points and regions of examples/three.rs."""
        with folder_of_links() as folder:
            printed("./nllc.sh facts examples/three.rs", folder)
            said = {}
            for name in ("news", "fixed", "longer"):
                path = os.path.join(folder, "out", "rust", "three", f"{name}.facts")
                said[name] = pathlib.Path(path).read_text()
                lines = printed(f"frontend/tests/quick_nllc.py values {path}", folder)
                said[name, "values"] = dict(line.split(":", 1) for line in lines)
        self.assertIn("# region 'r4: line 8: the borrow &draft\n", said["news"])
        self.assertIn("# region 'r12: line 8: the type of text", said["news"])
        self.assertIn("\nconstraint 'r4 'r12 5\n", said["news"])
        self.assertIn("\nbase 'r12 45\n", said["news"])
        self.assertIn(" 45 ", said["news", "values"]["'r4"])
        self.assertIn("# region 'r9: line 29: the type of text", said["fixed"])
        self.assertEqual(said["fixed", "values"]["'r9"], " 2 3 4 5 6 14 15 16 17 18 end('static)")
        self.assertRegex(said["fixed"], "# point 6: line 30: _3 = show")
        self.assertIn("# region 'r11: line 20: the type of best", said["longer"])
        self.assertIn("# point 21: line 22: best = move _10 (bb3[4])\n", said["longer"])

    def test_many_texts(self):
        """What is shown for many texts answers each, by the path that stands for NLLC."""
        text = (ROOT / "docs/FACTS-FROM-RUSTC.md").read_text()
        [shown] = re.findall(r"    \$ (find texts .*\n +xargs .*)", text)
        with folder_of_links() as folder:
            texts = pathlib.Path(folder, "texts", "a crate")
            texts.mkdir(parents=True)
            for name in ("chain", "as_static"):
                (texts / f"{name}.facts").write_bytes((ROOT / "examples" / f"{name}.facts").read_bytes())
            printed(shown.replace("NLLC", str(ROOT / "frontend/tests/quick_nllc.py")), folder)
            self.assertEqual({path.name: path.read_text() for path in texts.glob("*.answer")},
                             {"chain.answer": "ok\n", "as_static.answer": "fault 'a must outlive 'static\n"})

    def test_how_many_functions(self):
        """What examples/README.md says of the files of Rust."""
        rows = re.findall(r"\[`(\w+)\.rs`\].*\| (\w+) functions", (ROOT / "examples/README.md").read_text())
        self.assertEqual({name: word for name, word in rows}.keys(), {"three", "loans"})
        for name, word in rows:
            count = len(re.findall(r"^\s*(?:pub )?fn ", (ROOT / "examples" / f"{name}.rs").read_text(), re.MULTILINE))
            self.assertEqual(word, ("no", "one", "two", "three", "four", "five")[count])

    def test_sources(self):
        """Lines of Rust that are shown with numbers stand there in a file that the document names."""
        for document in DOCUMENTS:
            text = (ROOT / document).read_text()
            files = [(ROOT / name).read_text().split("\n") for name in
                     sorted(set(re.findall(r"\b(?:examples|frontend/tests/sources)/\w+\.rs\b", text)))]
            for block in re.findall(r"(?:^ {3,5}\d{1,2}(?:  .*)?\n)+", text, re.MULTILINE):
                shown = [NUMBERED.match(line + "  ") for line in block.splitlines()]
                with self.subTest(document=document, block=block.splitlines()[0]):
                    self.assertTrue(any(all(
                        line and int(line[1]) <= len(file)
                        and file[int(line[1]) - 1] == line[2].rstrip() for line in shown) for file in files))


if __name__ == "__main__":
    if sys.argv[1:] == ["--write"]:
        for name in DOCUMENTS:
            write(name)
    else:
        unittest.main()
