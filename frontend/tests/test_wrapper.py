"""What `nllc.sh` says of itself on top of the program's own words, with a small script as the program."""

import glob
import os
import shutil
import subprocess

from paths import ROOT
from rooms import Room

PROGRAM = """\
[ "$1" = check ] || [ "$1" = values ] || [ "$1" = replay ] || [ "$1" = --help ] || { echo usage: nllc >&2; exit 2; }
echo "own words: $*"
for file; do :; done
[ "$file" != /dev/stdin ] || cat
"""
# Prints its words and its cut file; the last word is its status.
OF_STATUS = """\
for file; do case $file in --cut=*) cut=$(cat "${file#--cut=}") ;; esac; done
echo "$* has $cut"
exit "$file"
"""
OWN = ("rust FILE.rs", "facts FILE.rs", "page FILE", "schedule FILE", "explain FILE", "version", "--prove")


class Wrapper(Room):
    """The script in a folder of its own, beside which a test puts programs."""

    def setUp(self):
        super().setUp()
        for name in ("crates/nllc/out", "crates/nllc/src", "crates/nllc/specs", "crates/nllc/proofs", "out"):
            os.makedirs(os.path.join(self.room, name))
        shutil.copy(os.path.join(ROOT, "nllc.sh"), self.room)
        os.symlink(os.path.join(ROOT, "frontend"), os.path.join(self.room, "frontend"))
        self.write("crates.txt", "")

    def program(self, name, body=PROGRAM):
        return super().program(name, body)

    def run_script(self, *words, script="nllc.sh", **more):
        environment = {name: value for name, value in os.environ.items() if name != "NLLC"}
        return subprocess.run([self.path(script), *words], check=False, encoding="utf-8",
                              **{"stdout": subprocess.PIPE, "stderr": subprocess.PIPE, "env": environment, **more})


class Words(Wrapper):
    def setUp(self):
        super().setUp()
        self.program("crates/nllc/out/nllc")

    def test_help(self):
        for words in (("--help",), ("-h",), ("help",), ("--help", "check")):
            with self.subTest(words=words):
                done = self.run_script(*words)
                self.assertEqual((done.returncode, done.stderr), (0, ""))
                own, _, program = done.stdout.partition("\n\n")
                self.assertEqual([name for name in OWN if name in own], list(OWN))
                self.assertEqual(program, "own words: --help\n")

    def test_help_of_one_word(self):
        own, _, statuses = self.run_script("help", "check").stdout.partition("\n\n")
        self.assertEqual(own, "own words: check --help")
        self.assertRegex(statuses, r"\AStatus 0: .*1: .*2: .*3: .*\n\Z")
        self.assertEqual(self.run_script("check", "--help").stdout, "own words: check --help\n")
        for word in ("rust", "facts", "page", "schedule"):
            done = self.run_script("help", word)
            self.assertEqual((done.returncode, done.stderr), (0, ""))
            self.assertTrue(done.stdout.startswith(f"usage: nllc.sh {word} "), done.stdout)
        done = self.run_script("help", "chek")
        self.assertEqual((done.returncode, done.stdout), (2, ""))
        self.assertEqual(done.stderr, "nllc.sh: there is no command chek; nllc.sh help names all\n")

    def test_no_words(self):
        done = self.run_script()
        self.assertEqual((done.returncode, done.stdout), (2, ""))
        self.assertEqual([name for name in OWN if name in done.stderr], list(OWN))
        self.assertTrue(done.stderr.endswith("\nusage: nllc\n"))

    def test_a_word_that_is_none(self):
        done = self.run_script("chek", "F")
        self.assertEqual((done.returncode, done.stdout), (2, ""))
        self.assertEqual(done.stderr, "usage: nllc\nnllc.sh: there is no command chek; further commands are rust, facts, "
                                      "mir, page, json, schedule, explain, help and version\n")

    def test_a_word_too_many(self):
        for word in ("--version", "version", "--prove", "--built", "--which"):
            done = self.run_script(word, "x")
            self.assertEqual((done.returncode, done.stdout, done.stderr),
                             (2, "", f"nllc.sh: {word} takes no argument\n"))

    def test_nowhere_to_write(self):
        for words in (("--help",), ("--version",), ("help",), ("--which",), ("--built",)):
            with open("/dev/full", "w", encoding="utf-8") as full:
                done = self.run_script(*words, stdout=full)
            self.assertEqual((done.returncode, done.stderr), (3, "nllc.sh: standard output can't be written\n"), words)

    def test_which_program(self):
        done = self.run_script("--which")
        self.assertEqual((done.returncode, done.stdout, done.stderr),
                         (0, f"proved {self.room}/crates/nllc/out/nllc\n", ""))

    def test_words_of_the_program(self):
        for words in (("check", "F"), ("values", "value.facts"), ("check", "--owners", "2", "F"),
                      ("check", "F", "--owners=2"), ("replay", "F", "--schedule", "S.rs", "--owners", "2"),
                      ("check", "--", "--owners"), ("values", "a file")):
            done = self.run_script(*words)
            self.assertEqual((done.returncode, done.stdout, done.stderr), (0, f"own words: {' '.join(words)}\n", ""))

    def test_wrong_values(self):
        """What the program certainly refuses comes back with a line that says what is wrong."""
        self.program("crates/nllc/out/nllc", "echo usage: nllc >&2\nexit 2")
        for words, said in ((("check", "F", "--owners", "65"), "--owners takes a number from 1 to 64, not 65"),
                            (("values", "F", "--owners=0"), "--owners takes a number from 1 to 64, not 0"),
                            (("check", "F", "--owners"), "--owners needs a value"),
                            (("check", "F", "--mail=post"), "--mail takes queue or ring, not post"),
                            (("check", "F", "--owners", "2", "--owners=3"), "--owners is given twice"),
                            (("check", "F", "--cut", "C", "--deal", "round"), "--deal and --cut don't go together"),
                            (("check", "F", "--schedule", "S"), "check has no --schedule"),
                            (("replay", "F"), "replay needs one FILE, and --schedule FILE"),
                            (("replay", "F", "--schedule", "S", "--mail", "ring"), "replay has no --mail")):
            with self.subTest(words=words):
                done = self.run_script(*words)
                self.assertEqual((done.returncode, done.stdout, done.stderr),
                                 (2, "", f"usage: nllc\nnllc.sh {words[0]}: {said}\n"))

    def test_a_hyphen_is_standard_input(self):
        for words in (("check", "-"), ("values", "--owners", "2", "-")):
            done = self.run_script(*words, input="a text")
            self.assertEqual(done.stdout, f"own words: {' '.join(words[:-1])} /dev/stdin\na text")

    def test_a_hyphen_is_standard_input_for_each_option_with_a_file(self):
        for words, told in ((("check", "F", "--cut", "-"), "check F --cut /dev/stdin"),
                            (("values", "--cut=-", "F"), "values --cut=/dev/stdin F"),
                            (("replay", "F", "--schedule", "-"), "replay F --schedule /dev/stdin"),
                            (("replay", "--schedule=-", "--", "F"), "replay --schedule=/dev/stdin -- F"),
                            (("check", "--", "-"), "check -- /dev/stdin"),
                            (("check", "--", "--cut=-"), "check -- --cut=-")):
            done = self.run_script(*words, input="")
            self.assertEqual((done.returncode, done.stdout), (0, f"own words: {told}\n"))

    def test_several_texts_have_the_highest_status_and_the_options(self):
        """An earlier text has the higher status; each gets the options, and the whole cut file of standard input."""
        self.program("crates/nllc/out/nllc", OF_STATUS)
        self.write("cut", "in a file")
        cut, given = self.path("cut"), "/dev/stdin"
        for options, told, has in (((), "", ""), (("--owners", "2", "--mail=ring"), "--owners=2 --mail=ring ", ""),
                                   (("--cut", cut), f"--cut={cut} ", "in a file"),
                                   (("--cut", "-", "--owners=2"), f"--cut={given} --owners=2 ", "on standard input"),
                                   (("--cut=-",), f"--cut={given} ", "on standard input")):
            for texts, status in (("310", 3), ("0210", 2), ("100", 1), ("00", 0)):
                with self.subTest(options=options, texts=texts):
                    done = self.run_script("check", *options, *texts, input="on standard input")
                    self.assertEqual((done.returncode, done.stderr), (status, ""))
                    self.assertEqual(done.stdout, "".join(f"{text}: check {told}{text} has {has}\n" for text in texts))

    def test_its_name_is_the_one_that_was_called(self):
        os.symlink(self.path("nllc.sh"), self.path("nllc"))
        done = self.run_script("--version", "x", script="nllc")
        self.assertEqual(done.stderr, "nllc: --version takes no argument\n")
        self.assertTrue(self.run_script("page", "--help", script="nllc").stdout.startswith("usage: nllc page "))

    def test_the_program_of_the_variable(self):
        self.program("other", "echo other: $*")
        done = self.run_script("check", "F", env=os.environ | {"NLLC": self.path("other")})
        self.assertEqual((done.stdout, done.stderr), ("other: check F\n", ""))
        done = self.run_script("check", "F", env=os.environ | {"NLLC": self.path("nllc.sh")})
        self.assertEqual(done.stdout, "own words: check F\n")
        done = self.run_script("check", "F", env=os.environ | {"NLLC": "/none"})
        self.assertEqual((done.returncode, done.stderr),
                         (127, "nllc.sh: there is no program /none, which the variable NLLC names\n"))

    def test_no_python(self):
        few = self.path("few")
        os.makedirs(few)
        done = self.run_script("rust", "F.rs", env={"PATH": few})
        self.assertEqual((done.returncode, done.stdout, done.stderr),
                         (127, "", "nllc.sh: python3, 3.10 or later, isn't on the PATH\n"))


class Current(Wrapper):
    """Which program runs, by the times of files."""

    def setUp(self):
        super().setUp()
        self.program("out/nllc-unproved")

    def test_newer_sources(self):
        self.program("crates/nllc/out/nllc")
        for name in ("crates/nllc/src/new.rt", "crates/nllc/specs/New.antt", "crates.txt"):
            self.assertEqual(self.run_script("--built").stdout, self.path("crates/nllc/out/nllc") + "\n")
            self.write(name, "")
            later = os.stat(self.path(name)).st_mtime + 2
            os.utime(self.path(name), (later, later))
            self.assertEqual(self.run_script("--built").returncode, 1)
            os.remove(self.path(name))
        self.write("crates.txt", "")

    def test_a_newer_proof_changes_no_program(self):
        self.write("crates/nllc/proofs/New.antt", "")
        later = os.stat(self.path("crates/nllc/proofs/New.antt")).st_mtime + 2
        os.utime(self.path("crates/nllc/proofs/New.antt"), (later, later))
        self.assertEqual(self.run_script("--built").stdout, self.path("out/nllc-unproved") + "\n")

    def test_it_looks_at_all_code_and_definitions(self):
        """No file of the repository is deeper than those that the script looks at."""
        crates = os.path.join(ROOT, "crates")
        for part, end, most in (("src", ".rt", 1), ("specs", ".antt", 0)):
            deep = [path for path in glob.glob(os.path.join(crates, "*", part, "**", "*" + end), recursive=True)
                    if path.partition(f"{os.sep}{part}{os.sep}")[2].count(os.sep) > most]
            self.assertEqual(deep, [])

    def test_once_an_hour_it_says_that_the_build_is_not_proved(self):
        line = f"nllc.sh: this build isn't proved, and is slow on large texts; {self.path('nllc.sh')} --prove makes the " \
            "proved one\n"
        self.assertEqual([self.run_script("check", "F").stderr for _ in range(3)], [line, "", ""])
        earlier = os.stat(self.path("out/told")).st_mtime - 3700
        os.utime(self.path("out/told"), (earlier, earlier))
        self.assertEqual(self.run_script("check", "F").stderr, line)
