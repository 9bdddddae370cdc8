"""How the commands end where standard output is closed or full, and what they call themselves."""

import os
import shutil
import subprocess
import sys

from paths import EXAMPLES, FRONTEND
from rooms import STATES, Room

RUN = [sys.executable, os.path.join(FRONTEND, "run")]
WORDS = ("rust", "facts", "mir", "page", "json", "schedule", "explain")


class Ends(Room):
    def setUp(self):
        super().setUp()
        self.answers = {"NLLC": self.slow(), "WORLD_PROGRAM": self.slow("world", STATES)}

    def run_words(self, *words, redirect="", **more):
        """What the command prints, with a redirection of the shell."""
        return subprocess.run(["sh", "-c", f'exec "$@" {redirect}', "sh", *RUN, *words], capture_output=True, check=False,
                              encoding="utf-8", cwd=self.room, env={**os.environ, **self.answers, **more})

    def calls(self):
        facts, schedule = (os.path.join(EXAMPLES, f"each_other.{kind}") for kind in ("facts", "schedule"))
        yield "page", facts
        yield "schedule", facts, schedule, "-o", os.path.join(self.room, "s.html")
        if shutil.which("rustc"):
            yield "rust", os.path.join(EXAMPLES, "three.rs"), "news"
            yield "facts", os.path.join(EXAMPLES, "three.rs"), "news"
        yield from ((word, "--help") for word in WORDS)

    def test_nowhere_to_write(self):
        for words in self.calls():
            for redirect, why in ((">/dev/full", "No space left on device"), (">&-", "it is closed")):
                with self.subTest(words=words, redirect=redirect):
                    done = self.run_words(*words, redirect=redirect)
                    self.assertEqual((done.returncode, done.stdout, done.stderr), (
                        3, "", f"nllc.sh {words[0]}: standard output can't be written: {why}\n"))

    def test_nobody_reads(self):
        for words in self.calls():
            with self.subTest(words=words):
                reading, writing = os.pipe()
                os.close(reading)
                done = subprocess.run([*RUN, *words], stdout=writing, stderr=subprocess.PIPE, check=False, encoding="utf-8",
                                      cwd=self.room, env={**os.environ, **self.answers})
                os.close(writing)
                self.assertEqual((done.returncode, done.stderr),
                                 (3, f"nllc.sh {words[0]}: standard output can't be written: Broken pipe\n"))

    def test_what_else_the_system_refuses(self):
        """It isn't laid on standard output: a folder for temporary files, and memory."""
        for work, said in (("raise OSError(errno.ENOENT, 'No such file or directory', 'a/b')", "a/b: No such file or directory"),
                           ("raise FileNotFoundError(errno.ENOENT, 'No usable folder')", "No usable folder"),
                           ("raise MemoryError", "out of memory")):
            script = ("import sys, errno\n"
                      f"from nllc_tools.base.streams import guarded\ndef work():\n    {work}\nsys.exit(guarded('page', work))\n")
            done = subprocess.run([sys.executable, "-c", script], capture_output=True, check=False, encoding="utf-8", cwd=FRONTEND)
            self.assertEqual((done.returncode, done.stdout, done.stderr), (3, "", f"nllc.sh page: {said}\n"))

    def test_closed_standard_error(self):
        done = self.run_words("page", "none.facts", redirect="2>&-")
        self.assertEqual((done.returncode, done.stdout), (2, ""))

    def test_one_name(self):
        for word in WORDS:
            for name, more in (("nllc.sh", {}), ("nllc", {"NLLC_CALLED": "nllc"})):
                with self.subTest(word=word, name=name):
                    done = self.run_words(word, "--none", **more)
                    self.assertEqual(done.returncode, 2)
                    self.assertTrue(done.stderr.startswith(f"usage: {name} {word} "), done.stderr)
                    self.assertIn(f"\n{name} {word}: error: ", done.stderr)
        for word, *files in (("page", "none"), ("schedule", "none", "none"), ("explain", "none"), ("rust", "none"),
                             ("facts", "none")):
            done = self.run_words(word, *files)
            self.assertEqual((done.returncode, done.stdout), (2, ""))
            self.assertRegex(done.stderr, rf"\Anllc.sh {word}: none .*\n\Z")

    def test_help(self):
        for word in WORDS:
            done = self.run_words(word, "--help")
            self.assertEqual((done.returncode, done.stderr), (0, ""))
            self.assertIn("tatus", done.stdout)    # help says what the statuses are
            self.assertNotIn("\\", done.stdout)
