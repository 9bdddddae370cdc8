"""An installed copy: made in an empty folder, used from elsewhere, and taken away again."""

import hashlib
import os
import pathlib
import shutil
import subprocess
import sys
import tempfile
import unittest

from support import ROOT

EXAMPLES = ROOT / "examples"
# Where the proved programs are; here they are the slow programs from the definitions.
PROGRAMS = {"crates/nllc/out/nllc": "reference.py",
            "out/world_program/crates/world_program/out/world_program": "reference_states.py"}


class Installed(unittest.TestCase):
    def setUp(self):
        folder = tempfile.TemporaryDirectory()
        self.addCleanup(folder.cleanup)
        self.folder = pathlib.Path(folder.name)
        self.root, self.prefix, self.elsewhere = (self.folder / name for name in ("a repository", "to", "elsewhere"))
        for name in ("crates", "tools"):
            (self.root / name).mkdir(parents=True)
        self.elsewhere.mkdir()
        for name in ("nllc.sh", "crates.txt", "Makefile", "tools/install.sh"):
            shutil.copy(ROOT / name, self.root / name)
        shutil.copytree(ROOT / "tools/installed", self.root / "tools/installed")
        shutil.copytree(ROOT / "frontend", self.root / "frontend", ignore=shutil.ignore_patterns("tests", "__pycache__"))
        for name, script in PROGRAMS.items():
            self.program(self.root / name, script)

    def program(self, path, script):
        path.parent.mkdir(parents=True, exist_ok=True)
        path.write_text(f'#!/bin/sh\nexec "{sys.executable}" "{ROOT}/check/reference/{script}" "$@"\n')
        path.chmod(0o755)

    def run_in(self, folder, *words, **more):
        environment = {**os.environ, "NLLC": "", "WORLD_PROGRAM": "", "XDG_CACHE_HOME": str(self.folder / "cache")}
        return subprocess.run([str(word) for word in words], cwd=folder, capture_output=True, text=True, check=False,
                              env={**environment, **more.pop("env", {})}, **more)

    def make(self, word, *more):
        return self.run_in(self.root, "make", "--no-print-directory", word, f"PREFIX={self.prefix}", *more)

    def nllc(self, *words, **more):
        """Runs the installed copy from elsewhere, with no way back to the repository."""
        return self.run_in(self.elsewhere, self.prefix / "bin/nllc", *words, **more)

    def install(self):
        done = self.make("install")
        self.assertEqual((done.returncode, done.stdout), (0, ""), done.stderr)
        shutil.rmtree(self.root)
        return done.stderr

    def answered(self, *words, status=0, **more):
        done = self.nllc(*words, **more)
        self.assertEqual((done.returncode, done.stderr), (status, ""), words)
        return done.stdout

    def test_the_programs_commands(self):
        self.assertIn(f"install.sh: installed in {self.prefix}: the proved program\n", self.install())
        chain, static = EXAMPLES / "chain.facts", EXAMPLES / "as_static.facts"
        self.assertEqual(self.answered("check", chain), "ok\n")
        self.assertEqual(self.answered("check", static, status=1), "fault 'a must outlive 'static\n")
        self.assertEqual(self.answered("check", "-", input=chain.read_text()), "ok\n")
        self.assertEqual(self.answered("check", chain, static, status=1),
                         f"{chain}: ok\n{static}: fault 'a must outlive 'static\n")
        self.assertEqual(self.answered("values", chain), "'static: 0 1 2 end('static)\n'p: 1 2\n'x: 1 2\n'y:\n")
        self.assertEqual(self.answered("explain", "-", input="nll-facts 1\n", status=2).splitlines()[0],
                         "stdin:1: end: the text stops before its `end` line")

    def test_pages(self):
        self.install()
        self.assertEqual(self.answered("page", EXAMPLES / "chain.facts", EXAMPLES / "running.mir").splitlines(),
                         ["out/pages/chain.html", "out/pages/running.mir.html", "out/pages/index.html"])
        page = (self.elsewhere / "out/pages/running.mir.html").read_text()
        self.assertTrue("the proved build" in page and "nothing has proved" not in page)
        schedule = self.elsewhere / "s"
        shutil.copy(EXAMPLES / "each_other.schedule", schedule)
        self.assertEqual(self.answered("schedule", EXAMPLES / "each_other.facts", schedule), f"{schedule}.html\n")

    @unittest.skipUnless(shutil.which("rustc"), "no rustc")
    def test_rust(self):
        self.install()
        said = self.answered("rust", EXAMPLES / "three.rs", "longer", status=1)
        self.assertTrue(said.startswith("longer: 1 fault\n"), said)
        self.assertTrue(said.endswith("\npages: out/rust/three/index.html\n"), said)
        self.assertTrue((self.elsewhere / "out/rust/three/index.html").exists())
        self.assertIn("longer: ", self.nllc("facts", EXAMPLES / "three.rs", "longer").stdout)

    def test_what_it_says_of_itself(self):
        program = (self.root / "crates/nllc/out/nllc").read_bytes()
        self.install()
        self.assertEqual(self.answered("version"), f"nllc, commit unknown\nprogram: {self.prefix}/lib/nllc/nllc, which "
                         f"is proved\nkit: unknown\nsha256: {hashlib.sha256(program).hexdigest()}\n")
        for word in ("rust", "facts", "mir", "page", "json", "schedule", "explain"):
            self.assertTrue(self.answered("help", word).startswith(f"usage: nllc {word} "))
        self.assertEqual(self.nllc("--prove").returncode, 2)
        self.assertEqual(self.nllc("page", "none").stderr, "nllc page: none can't be read: No such file or directory\n")

    def test_a_build_that_is_not_proved(self):
        (self.root / "crates/nllc/out/nllc").unlink()
        self.program(self.root / "out/nllc-unproved", "reference.py")
        self.assertIn("a build that isn't proved", self.install())
        done = self.nllc("check", EXAMPLES / "chain.facts")
        self.assertEqual((done.returncode, done.stdout), (0, "ok\n"))
        self.assertEqual(done.stderr, "nllc: this build isn't proved, and is slow on large texts; nllc version says more\n")
        self.assertEqual(self.answered("check", EXAMPLES / "chain.facts"), "ok\n")    # it is said once an hour
        self.assertIn("which isn't proved\n", self.answered("version"))

    def test_uninstall(self):
        self.make("install")
        other = self.prefix / "bin/other"
        other.write_text("")
        self.assertEqual(self.make("uninstall").returncode, 0)
        self.assertEqual([path for path in self.prefix.rglob("*") if not path.is_dir()], [other])
        done = self.make("uninstall")
        self.assertIn(f"install.sh: there is no nllc in {self.prefix}\n", done.stderr)
        self.assertNotEqual(done.returncode, 0)

    def test_again_and_under_destdir(self):
        self.make("install")
        self.assertEqual(self.make("install").returncode, 0)
        self.assertEqual(self.make("install", f"DESTDIR={self.folder}/stage").returncode, 0)
        self.assertTrue((self.folder / f"stage{self.prefix}" / "bin/nllc").exists())

    def test_what_it_does_not_write_over(self):
        (self.prefix / "lib/nllc").mkdir(parents=True)
        (self.prefix / "lib/nllc/mine").write_text("")
        self.assertNotEqual(self.make("install").returncode, 0)
        self.assertTrue((self.prefix / "lib/nllc/mine").exists())

    def test_words(self):
        script = ROOT / "tools/install.sh"
        done = self.run_in(self.folder, script, "--help")
        self.assertEqual((done.returncode, done.stderr), (0, ""))
        self.assertIn("install.sh install PREFIX", done.stdout)
        for words in ((), ("install",), ("other", "x"), ("install", ""), ("uninstall", "")):
            done = self.run_in(self.folder, script, *words)
            self.assertEqual((done.returncode, done.stdout), (2, ""))


class Completions(unittest.TestCase):
    def complete(self, *words):
        script = f'. "{ROOT}/tools/installed/nllc.bash"; COMP_WORDS=("$@"); COMP_CWORD=$(($# - 1)); _nllc; ' \
            'printf "%s\\n" "${COMPREPLY[@]}"'
        return subprocess.run(["bash", "-c", script, "bash", *words], capture_output=True, text=True,
                              check=True).stdout.split()

    @unittest.skipUnless(shutil.which("bash"), "no bash")
    def test_bash(self):
        self.assertEqual(self.complete("nllc", "re"), ["replay"])
        self.assertEqual(self.complete("nllc", "check", "--ow"), ["--owners"])
        self.assertEqual(self.complete("nllc", "check", "--deal", ""), ["round", "blocks"])
        self.assertEqual(self.complete("nllc", "page", "a"), [])

    def test_every_word_is_in_each(self):
        """The words that the wrapper answers are those of the completions and of the man page."""
        words = {"check", "values", "replay", "rust", "page", "schedule", "facts", "mir", "json", "explain", "help", "version"}
        for name in ("nllc.bash", "_nllc", "nllc.fish", "nllc.1"):
            text = (ROOT / "tools/installed" / name).read_text()
            self.assertEqual([word for word in sorted(words) if word not in text], [], name)
        listed = subprocess.run([str(ROOT / "nllc.sh"), "help"], capture_output=True, text=True, check=False,
                                env={**os.environ, "NLLC": "/bin/true"}).stdout
        self.assertEqual([word for word in sorted(words - {"replay"}) if word not in listed], [])

    @unittest.skipUnless(shutil.which("man"), "no man")
    def test_the_man_page_has_no_warning(self):
        done = subprocess.run(["man", "--warnings", "-E", "UTF-8", "-l", "-Tutf8", "-Z", str(ROOT / "tools/installed/nllc.1")],
                              stdout=subprocess.DEVNULL, stderr=subprocess.PIPE, text=True, check=False)
        self.assertEqual(done.stderr, "")


if __name__ == "__main__":
    unittest.main()
