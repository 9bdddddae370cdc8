"""How `nllc.sh --prove` proves, tells how far it is, and ends; and what reads the lines of `rt all`."""

import io
import os
import shutil
import signal
import subprocess
import sys
import time
import unittest
import unittest.mock

from support import ROOT, InRepository, printed
import prove
import proving

# An `rt` that proves libraries, and makes a program.
PROVES = """#!/bin/sh
[ "$1" != version ] || {{ echo a kit; exit; }}
echo "$@" in "${{PWD#{root}/}}" >> {said}
mkdir -p out; echo "fn f: proved"; echo "logic=proved functions=1"
if [ "$1" = lib ]; then
    mkdir -p out/rlib out/incremental; touch out/rlib/stamp out/incremental/found
else
    printf '#!/bin/sh\\necho proved "$@"\\n' > out/nllc && chmod +x out/nllc
fi
"""
FAILS = """#!/bin/sh
echo "logic=not-proved functions=1"; exit 1
"""
# An `rt` of which a check with more than one process is killed.
KILLED = """#!/bin/sh
echo "$@" >> {said}
[ "$3" = 1 ] || exit 247
"""
WAITS = "#!/bin/sh\nmkdir -p out/incremental && touch out/incremental/found\necho $$ > {said}\nexec sleep 60\n"


def is_running(number):
    """Whether the process of this number is at work; one that has ended and isn't waited for isn't."""
    try:
        with open(f"/proc/{number}/stat") as file:
            return file.read().rpartition(")")[2].split()[0] != "Z"
    except OSError:
        return False


class Proving(InRepository):
    def setUp(self):
        super().setUp()
        for file in ("low/src/lib.rt", "beside/src/lib.rt", "nllc/src/main.rt"):
            self.write(f"crates/{file}", "fn main() {}\n")
        self.write("crates.txt", "low:\nbeside: low\nnllc: low\n")
        (self.root / "tools").mkdir()
        for name in ("nllc.sh", "tools/prove.py", "tools/rooms.py", "tools/shares.py", "tools/proving.py", "tools/crates.py"):
            shutil.copy(ROOT / name, self.root / name)

    def start_with(self, rt, *words):
        """Starts the script with this `rt`."""
        return self.start(self.path_with(rt), *words, start_new_session=True)

    def run_without_rt(self, *words):
        """The status where the PATH has no more than what the script needs beside `rt`."""
        few = self.room / "few"
        few.mkdir()
        for name in ("dirname", "readlink", "find"):
            (few / name).symlink_to(shutil.which(name))
        running = self.start(str(few), *words, start_new_session=True)
        running.communicate(timeout=300)
        return running.returncode

    def run_with(self, rt, *words):
        running = self.start_with(rt, *words)
        out, told = running.communicate(timeout=300)
        return running.returncode, out, told.replace(str(self.root), "")

    def test_what_the_program_stands_on_is_proved_and_then_it_is_built(self):
        status, _, told = self.run_with(PROVES, "--prove")
        self.assertEqual(status, 0, told)
        self.assertEqual(told.splitlines()[1:], [
            "nllc.sh: 1 of 2 proved: low", "nllc.sh: 2 of 2 proved: nllc", "nllc.sh: building the program",
            "nllc.sh: proved and built: /crates/nllc/out/nllc"])
        jobs = self.said.read_text().split()[2]
        self.assertEqual(self.said.read_text().splitlines(), [
            f"lib --jobs {jobs} in out/rooms/low/crates/low", f"lib --jobs {jobs} in crates/low",
            f"run --jobs {jobs} -- --help in crates/nllc"])
        self.assertIn("== low\nfn f: proved", (self.root / "out/prove.log").read_text())
        self.assertTrue((self.root / "crates/low/out/incremental/found").exists())
        self.assertFalse((self.root / "out/rooms").exists())

    def test_the_proved_program_answers_until_a_source_is_newer(self):
        self.run_with(PROVES, "--prove")
        self.assertEqual(self.run_with(FAILS, "check", "a"), (0, "proved check a\n", ""))
        time.sleep(0.01)
        (self.root / "crates/nllc/src/main.rt").write_text("fn main() { }\n")
        self.assertEqual(self.run_without_rt("check", "a"), 127)

    def test_what_changed_while_it_was_proved_is_newer(self):
        self.run_with(PROVES.replace("printf", "touch src/main.rt; sleep 0.05; printf"), "--prove")
        self.assertEqual(self.run_without_rt("check", "a"), 127)

    def test_where_nothing_can_be_written(self):
        (self.root / "out").write_text("")
        status, out, told = self.run_with(PROVES, "--prove")
        self.assertEqual((status, out), (3, ""))
        self.assertEqual(told.splitlines()[1:], ["nllc.sh: /out can't be used: File exists"])

    def test_the_kit_is_written_down(self):
        self.run_with(PROVES, "--prove")
        self.assertEqual((self.root / "crates/nllc/out/nllc.kit").read_text(), "a kit\n")
        self.assertIn("kit: a kit\n", self.run_with(FAILS, "--version")[1])

    def test_the_crate_that_fails_is_told(self):
        status, _, told = self.run_with(FAILS, "--prove")
        self.assertEqual(status, 1)
        self.assertEqual(told.splitlines()[-1], "nllc.sh: not proved: low; see /out/prove.log")

    def test_a_killed_check_is_tried_again_with_fewer_at_a_time(self):
        _, _, told = self.run_with(KILLED, "--prove")
        said = self.said.read_text().splitlines()
        self.assertEqual(said[-3:], ["lib --jobs 1", "lib --jobs 1", "run --jobs 1 -- --help"])
        self.assertEqual(told.count("1 of 2 proved: low"), 1, told)

    def test_a_crate_is_told_once(self):
        progress = prove.Progress(2)
        _, _, said = printed(lambda: [progress.told(crate) for crate in ("low", "low", "nllc")])
        self.assertEqual(said, "nllc.sh: 1 of 2 proved: low\nnllc.sh: 2 of 2 proved: nllc\n")

    def test_after_a_killed_check_half_as_many_run_at_a_time(self):
        numbers = []

        def once(_, number, *__):
            numbers.append(number)
            return 1, True

        with unittest.mock.patch.object(proving, "prove_once", once):
            self.assertEqual(proving.prove("", 5, None, io.StringIO()), 1)
        self.assertEqual(numbers, [5, 2, 1])

    def test_a_signal_ends_it_and_rt(self):
        for number, status in ((signal.SIGINT, 130), (signal.SIGTERM, 143)):
            self.said.unlink(missing_ok=True)
            running = self.start_with(WAITS, "--prove")
            while not (self.said.exists() and self.said.read_text().strip()):
                time.sleep(0.02)
            os.kill(running.pid, number)
            told = running.communicate(timeout=300)[1]
            self.assertEqual(running.returncode, status, told)
            self.assertFalse(is_running(int(self.said.read_text())))
            self.assertTrue((self.root / "crates/low/out/incremental/found").exists())
            self.assertFalse((self.root / "out/rooms").exists())


class Words(unittest.TestCase):
    """Words start no proof: those that ask for help get it, and others are refused."""

    def run_with(self, *words):
        ran = subprocess.run([sys.executable, ROOT / "tools/prove.py", *words], capture_output=True, text=True, timeout=60)
        return ran.returncode, ran.stdout, ran.stderr

    def test_help(self):
        for word in ("--help", "-h"):
            status, out, err = self.run_with(word)
            self.assertEqual((status, err), (0, ""))
            self.assertIn("nllc.sh --prove", out)

    def test_other_words(self):
        for words in (("nll_core",), ("--help", "nll_core")):
            status, out, err = self.run_with(*words)
            self.assertEqual((status, out), (2, ""))
            self.assertEqual(err, "tools/prove.py takes no arguments but --help\n")


class Reading(unittest.TestCase):
    def told(self, *lines):
        found = []
        reader = proving.Reader(lambda *crate: found.append(crate))
        for line in lines:
            reader.read(line)
        return found, reader.killed

    def test_a_crate_is_told_at_its_verdict_and_once(self):
        lines = ["== low", "fn low::f: proved", "logic=proved functions=1"]
        self.assertEqual(self.told(*lines), ([("low", True, True)], False))
        self.assertEqual(self.told(*lines, "rt: more", "== summary", "low: ok")[0], [("low", True, True)])

    def test_one_of_which_nothing_is_printed_is_kept_from_before(self):
        self.assertEqual(self.told("== low", "== summary")[0], [("low", True, False)])

    def test_one_with_no_verdict_is_not_proved(self):
        self.assertEqual(self.told("== low", "error: no", "== summary")[0], [("low", False, True)])
        self.assertEqual(self.told("== low", "logic=not-proved functions=1")[0], [("low", False, True)])

    def test_a_killed_check_is_seen(self):
        self.assertTrue(self.told("== low", "fn", "== summary", "low: failed (-9)")[1])
        self.assertFalse(self.told("== low", "fn", "== summary", "low: failed (1)")[1])


if __name__ == "__main__":
    unittest.main()
