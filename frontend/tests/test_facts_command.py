"""The commands with a real rustc: fresh texts are the golden ones, bad inputs are one line each.

Where there is no rustc, or another than the stored dumps are of, these tests are skipped.
"""

import os
import shutil
import signal
import subprocess
import time
import unittest

import facts_support as support
import rooms

FACTS = (os.path.join(support.FRONTEND, "run"), "facts")
RUST = os.path.join(support.ROOT, "nllc.sh")


VERSION = support.rustc_release()
needs_rustc = unittest.skipUnless(VERSION, "no rustc")
needs_known = unittest.skipUnless(VERSION.startswith(support.KNOWN), f"no rustc {support.KNOWN}x")


class Room(rooms.Room):
    """A folder for each test, and what a program leaves there."""

    def left(self):
        return sorted(os.path.relpath(os.path.join(place, name), self.room)
                      for place, _, names in os.walk(self.room) for name in names)

    def refused(self, done, words):
        """The last line says it, the status is 2, and no text was left."""
        self.assertEqual(done.returncode, 2, done.stderr)
        self.assertEqual(done.stdout, "")
        self.assertIn(words, done.stderr.strip().split("\n")[-1])
        self.assertFalse([name for name in self.left() if not name.endswith((".rs", ".toml"))])


@needs_known
class Fresh(Room):
    def facts(self, source, *words, out="o"):
        return support.run(*FACTS, support.source_path(source), *words, "-o", self.path(out), cwd=support.HERE)

    def test_fresh_texts_are_the_golden_ones(self):
        for source in support.SOURCES:
            with self.subTest(source=source):
                done = self.facts(source, out=source)
                self.assertEqual(done.returncode, 0, done.stderr)
                golden = support.golden_texts(source)
                self.assertEqual(sorted(os.listdir(self.path(source))), sorted(golden))
                for name, text in golden.items():
                    self.assertEqual(self.read(source, name), text, name)

    def test_one_function_by_name_and_by_line(self):
        for wanted in ("running", "15"):
            done = self.facts("rfc2094", wanted)
            self.assertIn("running: 74 points", done.stdout, done.stderr)
            self.assertEqual(os.listdir(self.path("o")), ["running.facts"])

    def test_method_by_type(self):
        done = self.facts("small", "Pair::next")
        self.assertIn("impl0-next.facts", done.stdout, done.stderr)

    def test_rustc_refuses_borrows_alone(self):
        done = self.facts("differ")
        self.assertEqual(done.returncode, 0)
        self.assertIn("lifetime may not live long enough", done.stderr)


@needs_rustc
class Refused(Room):
    def convert(self, text, *words, **options):
        return support.run(*FACTS, self.write("a.rs", text), *words, "-o", self.path("o"), **options)

    def test_what_is_refused(self):
        for text, words, said in (
                ("fn f(", (), "rustc refuses"),
                ("pub struct S;\n", (), "has no function with a body"),
                ("nll-facts 1\npoints 1\nend\n", (), "is a facts text, not a Rust file"),
                ("nll-mir 1\n", (), "is a MIR text, not a Rust file"),
                ("fn f() {}\ntrait T { fn g(&self); }\n", ("g",), "no function `g` has facts (one without a body has none, "
                 "nor one whose types rustc refuses); these do: f"),
                ("mod a { pub fn f() {} }\nmod b { pub fn f() {} }\n", ("f",), "`f` fits several functions: a::f (line 1), "
                 "b::f (line 2); give one"),
                ("fn f() {}\n", ("--", "-Znone-such"), "doesn't accept its arguments"),
                ("fn f() {}\n", ("-p", "one"), "is a file, and -p is for projects")):
            with self.subTest(text=text, words=words):
                self.refused(self.convert(text, *words), said)

    def test_what_is_no_file(self):
        for words, said in (((self.path("none.rs"),), "none.rs isn't a readable file; give the path of a Rust file"),
                            ((self.room,), "is in no Cargo project: give a Rust file, or the folder of a package"),
                            ((os.path.join(support.ROOT, "examples", "shelf"), "--edition", "2024"),
                             "a project states its own edition: leave out --edition")):
            self.refused(support.run(*FACTS, *words, "-o", self.path("o")), said)

    def test_types_that_do_not_fit(self):
        done = self.convert('fn f() -> u8 {\n    "a"\n}\n')
        self.assertIn("mismatched types", done.stderr)
        self.refused(done, "rustc refuses")

    def test_one_function_of_several_is_wrong(self):
        text = 'fn f() -> u8 {\n    "a"\n}\nfn g(x: &u8) -> &u8 {\n    x\n}\n'
        self.answered_in_part(self.convert(text))
        self.assertEqual(self.convert(text, "g").returncode, 0)

    def test_a_module_of_another_file(self):
        self.write("m.rs", 'pub fn f() -> u8 {\n    "a"\n}\n')
        self.answered_in_part(self.convert("mod m;\nfn g(x: &u8) -> &u8 {\n    x\n}\n"))

    def answered_in_part(self, done):
        """The other function has a text; rustc's errors are shown, and the status says that they are there."""
        self.assertEqual(done.returncode, 2)
        self.assertEqual(os.listdir(self.path("o")), ["g.facts"])
        self.assertIn("mismatched types", done.stderr)
        self.assertRegex(done.stderr, r"rustc refuses (line 2|\S+/m\.rs:2) before it checks borrows")

    def test_another_rustc(self):
        for rustc, said in ((self.path("rustc"), "there is no rustc: install one"),
                            (shutil.which("true"), "true reports success but has compiled nothing: is it rustc?")):
            self.refused(self.convert("fn f() {}\n", env=os.environ | {"RUSTC": rustc}), said)

    def test_folder_that_cannot_be_made(self):
        done = support.run(*FACTS, self.write("a.rs", "fn f() {}\n"), "-o", self.path("a.rs", "o"))
        self.assertEqual(done.returncode, 3)
        self.assertIn("can't be made", done.stderr)


class Killed(Room):
    """However a run is ended while rustc works, nothing of it is left: no process and no folder."""

    def sleeping(self):
        done = subprocess.run(["ps", "-eo", "args"], stdout=subprocess.PIPE, check=True, encoding="utf-8")
        return [line for line in done.stdout.splitlines() if line == f"sleep {self.seconds}"]

    def wait_until(self, holds):
        end = time.monotonic() + 30
        while not holds() and time.monotonic() < end:
            time.sleep(0.05)
        self.assertTrue(holds(), (self.sleeping(), self.left()))

    def test_a_killed_run(self):
        self.seconds = f"61.{os.getpid()}{time.monotonic_ns()}"
        rustc = self.program("rustc", f"exec sleep {self.seconds}")
        path, rooms = self.write("a.rs", "fn f() {}\n"), self.path("rooms")
        os.mkdir(rooms)
        for number, status in ((signal.SIGKILL, -9), (signal.SIGTERM, 130), (signal.SIGINT, 130), (signal.SIGHUP, 130)):
            with self.subTest(number=number):
                run = subprocess.Popen([RUST, "rust", path, "-o", self.path("o")], stdout=subprocess.PIPE,
                                       stderr=subprocess.PIPE, preexec_fn=hears_all,
                                       env=os.environ | {"RUSTC": rustc, "TMPDIR": rooms})
                self.wait_until(lambda: len(self.sleeping()) == 2 and os.listdir(rooms))
                run.send_signal(number)
                run.communicate(timeout=30)
                self.assertEqual(run.returncode, status)
                self.wait_until(lambda: not self.sleeping() and not os.listdir(rooms))


def hears_all():
    """A run hears these signals also where the tests ignore them."""
    for number in (signal.SIGINT, signal.SIGTERM, signal.SIGHUP):
        signal.signal(number, signal.SIG_DFL)


@needs_known
class OneCommand(Room):
    """`nllc.sh rust`, with the slow reference as `nllc`."""

    def setUp(self):
        super().setUp()
        self.environment = os.environ | {"NLLC": self.slow()}

    def rust(self, *words, **options):
        return subprocess.run([RUST, "rust", *words, "-o", self.path("o")], check=False,
                              **{"stdout": subprocess.PIPE, "stderr": subprocess.PIPE, "cwd": support.HERE, "encoding": "utf-8",
                                 "env": self.environment, **options})

    def line(self, source, code):
        with open(os.path.join(support.HERE, support.source_path(source)), encoding="utf-8") as file:
            return file.read().split("\n").index(code) + 1

    def test_fault_in_two_lines(self):
        done = self.rust(support.source_path("differ"), "longer")
        self.assertEqual(done.returncode, 1, done.stderr)
        into, out = self.line("differ", "        r = y;"), self.line("differ", "    r // holds: r")
        self.assertEqual(done.stdout.splitlines(), [
            "longer: 1 fault",
            f"  sources/differ.rs:{out}:5: `'b` must outlive `'a`, but the signature doesn't declare it: the value "
            "returned here requires it",
            f"      data that lives for `'b` flows into `'a` at line {into} (assigned: `r = y`) and line {out} "
            "(returned: `r`)",
            "      help: consider adding the following bound: `'b: 'a`",
            f"pages: {self.path('o', 'index.html')}"])
        self.assertTrue(os.path.isfile(self.path("o", "longer.html")))

    LOANS = """\
fn show(_: &u8) {}
pub fn wrong() {
    let mut list = vec![1];
    let first = &list[0];
    list.push(2);
    show(first);
}
"""
    KEEPS = """\
pub fn keeps<'a>(list: &mut Vec<&'a str>, text: &'a str) {
    let mut keep = |part: &'a str| list.push(part);
    keep(text);
}
"""

    def test_a_macro_of_the_same_file_and_a_loan_of_the_same_line(self):
        path = self.write("a.rs", """macro_rules! push { ($v:expr) => { $v.push(1) } }
pub fn first(v: &mut Vec<u8>) -> u8 { let a = &v[0]; push!(v); *a }
pub fn second(v: &mut Vec<u8>) -> u8 {
    let a = &v[0];
    push!(v);
    *a
}
pub fn third(v: &mut Vec<u8>) -> u8 { let a = &v[0]; v.push(1); *a }
""")
        said = self.rust(path).stdout
        lines = [line.strip() for line in said.splitlines() if "macro" in line or "has borrowed" in line or "help" in line]
        ways_out = "help: end the borrow before; or clone what is needed; or keep an index or a key in place of the reference"
        self.assertEqual(lines, [
            f"{path}:1:36: E0502: `$v.push(1)` borrows `*v` as mutable, which line 2 has borrowed",
            "in this macro invocation: line 2 (`push!(v)`)", ways_out,
            f"{path}:1:36: E0502: `$v.push(1)` borrows `*v` as mutable, which line 4 has borrowed",
            "in this macro invocation: line 5 (`push!(v)`)", ways_out,
            f"{path}:8:54: E0502: `v.push(1)` borrows `*v` as mutable, which line 8:48 has borrowed", ways_out])

    def test_a_use_in_the_line_of_the_error(self):
        """Columns tell the borrow, the conflict and the use apart; rustc's label tells a move apart."""
        path = self.write("a.rs", """pub fn first(v: &mut Vec<u8>) -> u8 { let a = &v[0]; v.push(1); *a }
pub fn second(v: &mut Vec<u8>) { for x in v.iter() { v.push(*x); } }
pub fn third() { let r; { let x = 5; r = &x; } println!("{}", r); }
pub fn fourth() { let s = String::new(); let t = s; println!("{}", s); }
pub fn fifth(s: String) { let t = s;
    println!("{}", s);
}
""")
        said = self.rust(path).stdout
        lines = [line.strip() for line in said.splitlines() if "since" in line or "moved" in line or "moves" in line
                 or "macro" in line]
        live = "is live: its region `'r3` holds line"
        self.assertEqual(lines, [
            f"the loan of line 1:48 (`v`, borrowed by an index) {live} 1:54, since line 1:65 uses it (`*a`)",
            f"the loan of line 2:43 (`v`, borrowed by its type's `Deref`) {live} 2:54, since line 2:43 uses it in a later "
            "iteration of the loop (`v.iter()`)",
            "the loan of line 3:42 (`&x`) is live: its region `'r2` holds line 3, since line 3:63 uses it (`r`)",
            f"{path}:4:68: E0382: `s` is used here, and line 4:50 may have moved it",
            "line 4:50 (`s`) moves it, and a path leads from there to here on which it gets no new value",
            f"{path}:6:20: E0382: `s` is used here, and line 5 may have moved it",
            "line 5 (`pub fn fifth(s: String) { let t = s;`) moves it, and a path leads from there to here on which it gets "
            "no new value"])

    def test_loan_in_two_lines_and_step_by_step(self):
        path = self.write("a.rs", self.LOANS)
        done = self.rust(path, "wrong", "--explain")
        self.assertEqual(done.returncode, 1, done.stderr)
        self.assertEqual(done.stdout.splitlines()[:3], [
            "wrong: 1 loan error",
            f"  {path}:5:5: E0502: `list.push(2)` borrows `list` as mutable, which line 4 has borrowed",
            "      the loan of line 4 (`list`, borrowed by an index) is live: its region `'r2` holds line 5, since line 6 "
            "uses it (`show(first);`)"])
        self.assertIn("error[E0502]", done.stderr)
        self.assertRegex(done.stdout, r"why `'r2` holds point \d+, ")
        self.assertRegex(done.stdout, r"`'r\d+` is live at point \d+: .* \(line 6\) uses it\n")

    def test_standard_input(self):
        done = self.rust("-", input=self.LOANS)
        self.assertEqual(done.returncode, 1, done.stderr)
        self.assertIn(f"  {self.path('o', 'stdin.rs')}:5:5: E0502: ", done.stdout)
        self.assertTrue(os.path.isfile(self.path("o", "wrong.html")))

    def test_right_functions(self):
        done = self.rust(self.write("a.rs", self.KEEPS))
        self.assertEqual((done.returncode, done.stderr), (0, ""))
        self.assertTrue(done.stdout.startswith("no fault: keeps\n"), done.stdout)

    def test_a_fault_of_a_closure_is_one_of_the_function(self):
        path = self.write("a.rs", "pub fn f(mut list: Vec<u8>) {\n    let mut add = || {\n"
                          "        let one = &mut list;\n        list.push(1);\n        one.push(2);\n"
                          "    };\n    add();\n}\npub fn g() {}\n")
        lines = self.rust(path).stdout.splitlines()
        self.assertEqual((lines[0], lines[4]), ("closure 1 of f: 1 loan error", "no fault: g"))
        self.assertIn(f"{path}:4:9: E0499", lines[1])

    def test_both_answers(self):
        done = self.rust(support.source_path("differ"), "get_default")
        self.assertEqual(done.returncode, 4, done.stderr)
        self.assertRegex(done.stdout, r"differ.rs:55:13: rustc 1\.\d+\.\d+: E0499: .*; nllc: no fault there\n"
                         r" +problem case 3 of RFC 2094: the loan of line 52 ")

    def test_errors_that_nothing_judges(self):
        path = self.write("a.rs", "pub fn f(text: &Vec<String>) -> String {\n    text[0]\n}\n"
                          "pub fn g<T: Fn()>(run: T) -> Box<dyn Fn()> {\n    Box::new(run)\n}\npub fn h() {}\n")
        done = self.rust(path)
        lines = done.stdout.splitlines()
        self.assertEqual((done.returncode, lines[0], lines[3]), (4, "f: refused by rustc", "g: refused by rustc"))
        self.assertRegex(lines[1], r"  \S+a.rs:2:5: rustc 1\.\d+\.\d+: E0507: cannot move out of index of `Vec<String>`$")
        self.assertRegex(lines[4], r"  \S+a.rs:5:5: rustc 1\.\d+\.\d+: E0310: the parameter type `T` may not live long "
                         r"enough$")
        self.assertEqual(lines[6], "no fault: h")

    def test_moves(self):
        path = self.write("a.rs", "pub fn f(text: String) -> String {\n    drop(text);\n    text\n}\npub fn g() {}\n")
        done = self.rust(path)
        self.assertEqual(done.returncode, 1)
        self.assertEqual(done.stdout.splitlines()[:5], [
            "f: 1 move error", f"  {path}:3:5: E0382: `text` is used here, and line 2 may have moved it",
            "      line 2 (`drop(text);`) moves it, and a path leads from there to here on which it gets no new value",
            "      help: consider cloning the value if the performance cost is acceptable: `drop(text.clone());`",
            "no fault: g"])

    def test_faults_come_before_what_nothing_judges(self):
        done = self.rust(self.write("a.rs", "pub fn f<'a, 'b>(x: &'a u8, _y: &'b u8) -> &'b u8 {\n    x\n}\n"
                                    "pub fn g(text: &Vec<String>) -> String {\n    text[0]\n}\n"))
        self.assertEqual(done.returncode, 1)
        self.assertIn("g: refused by rustc\n", done.stdout)

    def test_errors_of_constants(self):
        done = self.rust(self.write("a.rs", "pub const GONE: u8 = {\n    let mut one = 1;\n    let held = &one;\n"
                                    "    one = 2;\n    *held\n};\npub const RIGHT: u8 = 1;\npub fn f() {}\n"))
        lines = done.stdout.splitlines()
        self.assertEqual((done.returncode, lines[0], lines[4]), (1, "GONE: 1 loan error", "no fault: f"))
        self.assertRegex(lines[1], r"a.rs:4:5: E0506: `one` is assigned to|`one = 2` assigns to `one`")

    def test_a_type_error_beside(self):
        path = self.write("a.rs", 'fn f() -> u8 {\n    "a"\n}\nfn g(x: &u8) -> &u8 {\n    x\n}\n')
        done = self.rust(path)
        self.assertEqual(done.returncode, 2)
        self.assertIn("no fault: g\n", done.stdout)
        self.assertIn("rustc refuses line 2 before it checks borrows", done.stderr)

    def test_where_output_goes(self):
        done = subprocess.run([RUST, "rust", os.path.join(support.HERE, support.source_path("differ")),
                               "last"], capture_output=True, check=False, cwd=self.room,
                              encoding="utf-8", env=self.environment)
        self.assertEqual(done.stdout.splitlines()[-1], "pages: out/rust/differ/index.html", done.stderr)
        self.assertEqual([name for name in self.left() if not name.startswith("out/rust/")], ["nllc"])
        self.assertEqual(self.read("out", "rust", ".gitignore"), "*\n")

    def test_any_locale(self):
        env = self.environment | {"PYTHONIOENCODING": "ascii", "LC_ALL": "C", "PYTHONUTF8": "0", "PYTHONCOERCECLOCALE": "0"}
        done = self.rust(support.source_path("differ"), "longer", "--explain", encoding="ascii", env=env)
        self.assertEqual(done.returncode, 1, done.stderr)
        self.assertIn(" -> ", done.stdout)

    def test_nowhere_to_write(self):
        with open("/dev/full", "w", encoding="utf-8") as full:
            done = self.rust(support.source_path("differ"), "last", stdout=full)
        self.assertEqual((done.returncode, done.stderr), (3, "nllc.sh rust: standard output can't be "
                                                          "written: No space left on device\n"))

    def test_several_functions_before_and_behind_options(self):
        path = self.write("a.rs", "pub fn f() {}\npub fn g() {}\npub fn h() {}\n")
        for words in ((path, "f", "g"), (path, "f", "--all-points", "g")):
            done = self.rust(*words)
            self.assertEqual((done.returncode, done.stdout.splitlines()[0]), (0, "no fault: f, g"), done.stderr)

    def test_refusal(self):
        done = self.rust("none.rs")
        self.assertEqual(done.returncode, 2)
        self.assertEqual(done.stderr, "nllc.sh rust: none.rs isn't a readable file; "
                         "give the path of a Rust file\n")
