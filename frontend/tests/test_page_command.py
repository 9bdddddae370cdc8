"""The command: the page that it writes, and each refusal, after which nothing is left."""

import os
import stat
import subprocess
import sys
import time
from unittest import mock

from page_support import SAMPLES, Folder, file_bytes, text
from paths import ROOT
from rooms import REFERENCE

from nllc_tools.base import nllc
from nllc_tools.commands import answers
from nllc_tools.commands.page import main
from nllc_tools.views.terminal import finding_lines


class Commands(Folder):
    def setUp(self):
        super().setUp()
        self.write("pick.facts", file_bytes(SAMPLES, "pick.facts"))
        self.write("pick.rs", file_bytes(SAMPLES, "pick.rs"))

    def run_main(self, *words, nllc="nllc"):
        return self.called(main, [*words, "-o", self.room], **({"NLLC": nllc} if nllc else {}))

    def page(self, name="pick.html"):
        return self.read(name)

    # What is written

    def test_a_page(self):
        status, out, err = self.run_main(self.path("pick.facts"))
        self.assertEqual((status, out.splitlines(), err), (0, [self.path("pick.html"), self.path("index.html")], ""))
        page = self.page()
        self.assertIn("<code>&#x27;b</code> must outlive <code>&#x27;a</code>, but the signature "
                      "doesn&#x27;t declare it", page)
        self.assertIn('data-walk="6,7,8"', page)
        self.assertIn('id="line-7"', page)       # the source, by the text's own remark
        self.assertNotIn("next_one", page)       # and of it this function alone
        self.assertIn("The longer one", page)
        self.assertEqual(stat.S_IMODE(os.stat(self.path("pick.html")).st_mode),
                         0o666 & ~self.umask())

    def umask(self):
        mask = os.umask(0)
        os.umask(mask)
        return mask

    def test_an_older_page_is_replaced(self):
        self.write("pick.html", b"old")
        self.run_main(self.path("pick.facts"))
        self.assertTrue(self.page().startswith("<!doctype html>"))

    def answered(self):
        with mock.patch.dict(os.environ, {"NLLC": self.path("nllc")}):
            return answers.answered(self.path("pick.facts"), file_bytes(SAMPLES, "pick.facts"), answers.How(in_full=True))

    # The help has three ways out. The first is that of rustc 1.95, which refuses pick.rs with "consider adding the following bound:
    # `'b: 'a`"; the second is docs/FROM-RUST.md's "give both arguments one lifetime". With either one rustc takes pick.rs. The third
    # is the one that is left where the caller can promise neither.
    def test_faults_in_words(self):
        said = self.answered()
        self.assertEqual(finding_lines.lines(said.path, said.findings[0].finding), [
            f"{self.room}/pick.rs:7: `'b` must outlive `'a`, but the signature doesn't declare it",
            "    data that lives for `'b` flows into `'a` at line 7 (`best = second;`) and line 9 (`best`)",
            "    help: consider adding the bound `'b: 'a` to the signature; or write `'a` in place of `'b`; "
            "or return an owned value"])

    def test_faults_step_by_step(self):
        self.assertEqual(self.answered().lines, [
            "`'b` must outlive `'a`, but the signature doesn't declare it:",
            "    `end('a)` reaches",
            "    to `'best`, the type of best: after `_0 = copy best` (line 9), inside `'a` by 8",
            "    to `'b`, 'b of the signature: after `best = copy second` (line 7), inside `'best` "
            "by 6 → 7 → 8"])

    def test_a_text_without_remarks(self):
        bare = self.write("bare.facts", b"".join(
            line for line in file_bytes(SAMPLES, "pick.facts").splitlines(True)
            if not line.startswith(b"#")))
        status, _, err = self.run_main(bare)
        self.assertEqual((status, err), (0, ""))
        self.assertIn("doesn’t say which statements its points are", self.page("bare.html"))

    def test_a_source_that_is_not_there(self):
        os.unlink(self.path("pick.rs"))
        status, _, err = self.run_main(self.path("pick.facts"))
        self.assertEqual((status, err), (0, ""))
        self.assertNotIn('id="line-7"', self.page())

    # Which nllc it was

    def test_the_standing_of_each_program(self):
        text = file_bytes(SAMPLES, "pick.facts")
        for word, standing in (("unproved", nllc.UNPROVED), ("proved", nllc.PROVED)):
            script = os.path.join(word, "nllc.sh")
            os.mkdir(self.path(word))
            self.program(script, f'[ "$*" = --which ] && echo "{word} {self.path("nllc")}" && '
                                 f'echo asked >>{self.path(word, "log")}')
            with mock.patch.dict(os.environ, {"NLLC": self.path(script)}):
                for _ in range(2):
                    answer = nllc.run(text)
                    self.assertEqual((answer.program, answer.standing), (self.path("nllc"), standing))
            self.assertEqual(file_bytes(self.path(word, "log")), b"asked\n")
        with mock.patch.dict(os.environ, {"NLLC": self.path("nllc")}):
            self.assertEqual(nllc.run(text).standing, nllc.UNKNOWN)

    def test_a_script_that_has_no_program(self):
        self.program("nllc.sh", "echo nllc.sh: nothing was compiled >&2; exit 127")
        status, out, err = self.run_main(self.path("pick.facts"), nllc="nllc.sh")
        self.assertEqual((status, out), (3, ""))
        self.assertRegex(err, r"\Anllc.sh: nothing was compiled\n"
                              r"nllc.sh page: \S*nllc.sh has no program to run, as it says above\n\Z")

    # What is refused

    def test_texts(self):
        for path, said in (
                (self.write("none", b"none"), "isn't a facts text or a MIR text: .*`nll-mir 1` .*nllc.sh facts FILE.rs"),
                (self.write("empty", b""), "isn't a facts text"), (self.write("bytes", bytes(range(256))), "isn't a facts text"),
                (self.path("missing.facts"), "missing.facts can't be read: No such file"),
                (self.room, "can't be read: Is a directory"),
                (self.write("wrong.facts", text(1, "region 'x", "region 'x")), "nllc refuses the text: nllc: line 4: duplicate")):
            with self.subTest(said=said):
                self.refused(said, path)

    def test_no_nllc(self):
        self.refused("there is no program .*missing, which the variable NLLC names", self.path("pick.facts"), nllc="missing")
        with mock.patch.object(nllc, "ROOT", self.path("nowhere")), mock.patch.dict(os.environ, {"PATH": ""}):
            self.refused("no nllc is found: .* by the variable NLLC", self.path("pick.facts"), nllc=None)

    def test_an_nllc_that_fails(self):
        """One that ends, one that finds no fault, and two whose values don't follow or are of another text."""
        slow = f'"{sys.executable}" "{REFERENCE}" "$@"'
        checking = f'[ "$1" = check ] && exec {slow}\n'
        for body, said, status in (
                ("echo nllc: memory >&2; exit 3", "ended with status 3: nllc: memory$", 3),
                (f'[ "$1" = check ] && {{ echo ok; exit 0; }}\nexec {slow}', "the faults of .* aren't those of", 3),
                (f"{checking}{slow} | sed \"s/^'best: .*/'best: 1 2 3 4 6 7/\"",
                 "the values of .*answering don't follow from the text: no constraints bring", 2),
                (f"{checking}echo \"'static: 0 end('static)\"", "isn't the report of this facts text", 2)):
            with self.subTest(said=said):
                self.program("answering", body)
                self.refused(said, self.path("pick.facts"), nllc="answering", status=status)

    def test_sources_that_are_none(self):
        self.write("pick.rs", b"\xff")
        self.refused("isn't UTF-8", self.path("pick.facts"))
        self.write("pick.rs", b"fn f() {}\n")
        self.refused("has 1 lines, and the facts text speaks of line 10: was the file changed", self.path("pick.facts"))

    def test_pages_that_cannot_be_written(self):
        os.mkdir(self.path("pick.html"))
        self.refused("can't be written: Is a directory; name another place by -o", self.path("pick.facts"), status=3)

    def test_a_run_that_is_stopped(self):
        self.program("slow", f"touch {self.path('began')}; exec sleep 20")
        with mock.patch.dict(os.environ, {"NLLC": self.path("slow")}):
            run = subprocess.Popen([os.path.join(ROOT, "frontend", "run"), "page",
                                    self.path("pick.facts"), "-o", self.room],
                                   stdout=subprocess.PIPE, stderr=subprocess.PIPE, text=True)
        while not os.path.exists(self.path("began")):
            time.sleep(0.02)
        run.terminate()
        out, err = run.communicate(timeout=10)
        self.assertEqual((run.returncode, out, err), (130, "", "nllc.sh page: stopped; nothing half-written is left\n"))
        self.assertNotIn("pick.html", os.listdir(self.room))
