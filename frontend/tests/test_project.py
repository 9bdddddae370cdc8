"""`nllc.sh rust FOLDER` and `cargo nllc`: small Cargo projects with a real cargo, and the quick solver as `nllc`."""

import os
import subprocess

import facts_support as support
from test_facts_command import RUST, Room, needs_known

QUICK = os.path.join(support.HERE, "quick_nllc.py")
DIFFER = os.path.join(support.HERE, support.source_path("differ"))


class Project(Room):
    """A folder of a project, and the commands in it."""

    def manifest(self, folder, package, *more):
        self.write(os.path.join(folder, "Cargo.toml"),
                   "\n".join([f'[package]\nname = "{package}"\nversion = "0.1.0"', *more, ""]))

    def run_in(self, folder, *words, **variables):
        return subprocess.run(words, cwd=self.path(folder), capture_output=True, check=False, encoding="utf-8",
                              env=os.environ | {"NLLC": QUICK, "CARGO_NET_OFFLINE": "true"} | variables)

    def rust(self, folder, *words, **variables):
        return self.run_in(folder, RUST, "rust", *words, **variables)

    def lines(self, done):
        """What is printed but for the pages."""
        return [line for line in done.stdout.splitlines() if not line.startswith("pages: ")]


@needs_known
class OnePackage(Project):
    def test_a_project_says_what_a_file_says(self):
        """Lines, columns, ways, second lines, and rustc's plain run beside it; loans and faults in the status."""
        with open(DIFFER, encoding="utf-8") as file:
            self.write("a/src/lib.rs", file.read())
        self.manifest("a", "a", 'edition = "2021"')
        project, file = self.rust("a", "."), self.rust("a", "src/lib.rs")
        self.assertEqual((project.returncode, file.returncode), (1, 1), project.stderr)
        self.assertEqual(self.lines(project), self.lines(file))
        self.assertIn("nllc: no fault there", project.stdout)
        self.assertEqual(sorted(name for name in self.left() if name.startswith("a/out/rust/a/")),
                         sorted(name.replace("/lib/", "/a/") for name in self.left() if "a/out/rust/lib/" in name))

    def test_edition_features_and_build_script_are_the_project_s_own(self):
        self.manifest("a", "a", 'edition = "2015"', 'build = "build.rs"', "[features]", "more = []")
        self.write("a/build.rs", 'fn main() {\n    println!("cargo:rustc-cfg=built");\n}\n')
        self.write("a/src/lib.rs", "#![allow(unexpected_cfgs)]\nmod m;\npub fn async(x: &u8) -> &u8 {\n    x\n}\n"
                   "#[cfg(feature = \"more\")]\npub fn more() {}\n#[cfg(built)]\npub fn built() {}\n")
        self.write("a/src/m.rs", "pub fn f(x: &mut u8) {\n    *x += 1\n}\n")
        done = self.rust("a", ".")
        self.assertEqual((done.returncode, self.lines(done)), (0, ["no fault: async, built, m::f"]), done.stderr)
        done = self.rust("a", "src", "--", "--features", "more")
        self.assertEqual(self.lines(done), ["no fault: async, more, built, m::f"])

    def test_an_error_of_another_kind(self):
        self.manifest("a", "a")
        self.write("a/src/lib.rs", 'pub fn f() -> u8 {\n    "a"\n}\npub fn g() {}\n')
        done = self.rust("a", ".")
        self.assertEqual((done.returncode, self.lines(done)), (2, ["no fault: g"]))
        self.assertIn("mismatched types", done.stderr)
        self.assertIn("rustc refuses src/lib.rs:2 before it checks borrows", done.stderr)

    def test_a_dependency_that_is_not_there(self):
        self.manifest("a", "a", "[dependencies]", 'none = { path = "../none" }')
        self.write("a/src/lib.rs", "")
        done = self.rust("a", ".")
        self.assertEqual((done.returncode, done.stdout), (2, ""))
        self.assertIn("/a: fix the errors above", done.stderr)


@needs_known
class Workspace(Project):
    LOANS = "pub fn worse(mut x: u8) -> u8 {\n    let y = &x;\n    x = 3;\n    *y\n}\n"
    BAD = "pub fn bad<'a>(x: &'a u8) -> &'static u8 {\n    x\n}\n"

    def setUp(self):
        super().setUp()
        self.write("ws/Cargo.toml", '[workspace]\nmembers = ["one", "two"]\nresolver = "2"\n')
        self.manifest("ws/one", "one")
        self.write("ws/one/src/lib.rs", "pub fn f(x: &u8) -> &u8 {\n    x\n}\n")
        self.manifest("ws/two", "two", "[dependencies]", 'one = { path = "../one" }')
        self.write("ws/two/src/main.rs", "fn main() {\n    one::f(&3);\n}\n" + self.BAD + self.LOANS)

    def test_all_packages(self):
        done = self.rust("", "ws", "-o", "o")
        self.assertEqual(done.returncode, 1, done.stderr)
        self.assertEqual(self.lines(done), [
            "two::bad: 1 fault",
            "  ws/two/src/main.rs:5:5: `'a` must outlive `'static`, but the signature doesn't declare it: the value returned here "
            "requires it",
            "      data that lives for `'a` flows into `'static` at line 5 (returned: `x`)",
            "      help: ask for `'static` in the signature; or pass an owned value",
            "two::worse: 1 loan error",
            "  ws/two/src/main.rs:9:5: E0506: `x = 3` assigns to `x`, which line 8 has borrowed",
            "      the loan of line 8 (`&x`) is live: its region `'r2` holds line 9, since line 10 uses it "
            "(`*y`)",
            "      help: move the use in line 10 above line 9; or clone what is needed; or keep an index or a key in place "
            "of the reference",
            "no fault: one::f, two::main"])
        self.assertEqual([name for name in self.left() if name.startswith("o/") and name.endswith(".facts")],
                         [f"o/{name}.facts" for name in ("one-f", "two-bad", "two-main", "two-worse")])
        with open(self.path("o", "index.html"), encoding="utf-8") as file:
            index = file.read()
        for name in ("one-f", "two-bad", "two-main", "two-worse"):
            self.assertIn(f'href="./{name}.html"', index)

    def test_one_package_and_one_function(self):
        done = self.rust("ws", ".", "-p", "one", "-o", "o")
        self.assertEqual((done.returncode, self.lines(done)), (0, ["no fault: f"]), done.stderr)
        for word in ("bad", "two::bad", "two/src/main.rs:5"):
            done = self.rust("ws", ".", word, "-o", "o")
            self.assertEqual((done.returncode, len(self.lines(done))), (1, 4), done.stderr)

    def test_dependencies_are_checked_once_and_the_package_each_time(self):
        first, second = (self.rust("ws", ".", "-p", "two", "-o", "o") for _ in range(2))
        self.assertEqual((first.returncode, first.stdout), (1, second.stdout), first.stderr)
        self.assertRegex(first.stderr, "Checking one")
        self.assertNotRegex(second.stderr, "Checking one")
        self.assertRegex(second.stderr, "could not compile `two`")
        for _ in range(2):
            done = self.rust("ws", ".", "-p", "one", "-o", "o")
            self.assertEqual(self.lines(done), ["no fault: f"])
        self.assertTrue(any(name.startswith("ws/target/nllc/") for name in self.left()))

    def test_a_package_whose_dependency_does_not_compile(self):
        self.write("ws/one/src/lib.rs", "pub fn f(x: &u8) -> &u8 {\n    x\n}\n" + self.LOANS)
        done = self.rust("ws", ".", "-o", "o")
        self.assertEqual((done.returncode, self.lines(done)[0]), (1, "worse: 1 loan error"), done.stderr)
        self.assertIn("\nnllc.sh rust: no answer for two: another crate doesn't compile, which it needs; fix that first\n",
                      done.stderr)
        done = self.rust("ws/one", ".", "-o", "o")
        self.assertNotIn("no answer", done.stderr)

    def test_cargo_nllc(self):
        path = os.pathsep.join([support.FRONTEND, os.environ["PATH"]])
        done = self.run_in("ws/one/src", "cargo", "nllc", PATH=path)
        self.assertEqual((done.returncode, done.stdout),
                         (0, "no fault: f\npages: out/rust/one/index.html\n"), done.stderr)
        done = self.run_in("ws", "cargo", "nllc", "-p", "two", "bad", "-o", "o", PATH=path)
        self.assertEqual((done.returncode, self.lines(done)[0]), (1, "bad: 1 fault"), done.stderr)
        done = self.run_in("ws", "cargo", "nllc", "--help", PATH=path)
        self.assertIn("usage: cargo nllc [FUNCTION ..]", done.stdout)
        done = self.run_in("ws", "cargo", "nllc", "--workspace", PATH=path)
        self.assertEqual((done.returncode, done.stderr.splitlines()[-1]), (
            2, "cargo nllc: error: unrecognized arguments: --workspace; options of cargo check go after --"))
