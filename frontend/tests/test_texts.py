"""What the wrapper adds to the program's commands: several texts, wrong words, and why a text is refused."""

import os
import re
import subprocess
import sys

from paths import FRONTEND
from rooms import REFERENCE, Room

from nllc_tools.commands.explain import refused
from nllc_tools.commands.several import advice, read_words

RUN = [sys.executable, os.path.join(FRONTEND, "run")]
HEAD = "nll-facts 1\npoints 3\n"
BODY = "nll-mir 1\nlet _0: int\nblocks 2\nblock bb0\n"
TYPES = "nll-mir 1\nregion 'r\nstruct Pair <'a +, T +> (&'a T, int)\nlet _0: int\nlet _1: Pair<'r, int>\n"
USED = TYPES + "let _2: (int, &'r int)\nblocks 2\nblock bb0\n"
DEEP = "&'r " * 4096 + "int"                # 4,097 nodes
WIDE = "(" + ", ".join(["int"] * 70) + ")"  # 71 nodes
TWICE = f"nll-mir 1\nregion 'r\nstruct D <T +> (({', '.join(['T'] * 70)}))\nlet _0: D<{WIDE}>\n"   # a field of 1 + 70 * 71


class Texts(Room):
    """Each test has a folder of its own; `nllc` is a script there that runs the reference, and refuses strange words."""

    def setUp(self):
        super().setUp()
        program = self.program("nllc", 'for word; do\n    case $word in --owners* | --d* | --j* | --m* | --s*) '
                               'echo "usage: nllc" >&2; exit 2 ;; esac\ndone\n[ "$#" -gt 1 ] || { echo "usage: nllc" >&2; exit 2; }\n'
                               f'exec "{sys.executable}" "{REFERENCE}" "$@"')
        self.environment = {**os.environ, "NLLC": program}

    def run_words(self, *words, **more):
        return subprocess.run([*RUN, *words], capture_output=True, check=False, encoding="utf-8", cwd=self.room,
                              env=self.environment, **more)


class Answering(Texts):
    def setUp(self):
        super().setUp()
        self.write("ok", "nll-facts 1\npoints 1\nend\n")
        self.write("fault", "nll-facts 1\npoints 1\nuniversal 'a\nreturn 0\nconstraint 'a 'static 0\nend\n")
        self.write("wrong", "nll-facts 1\npoints 1\n")
        self.write("f.rs", "fn f() {}\n")

    def test_several_texts(self):
        done = self.run_words("words", "check", "ok", "fault")
        self.assertEqual((done.returncode, done.stdout, done.stderr),
                         (1, "ok: ok\nfault: fault 'a must outlive 'static\n", ""))
        done = self.run_words("words", "values", "ok", "fault")
        self.assertEqual((done.returncode, done.stdout), (0, "ok: 'static: 0 end('static)\nfault: 'static: 0 end('static)\n"
                                                          "fault: 'a: 0 end('static) end('a)\n"))

    def test_one_of_several_is_refused(self):
        done = self.run_words("words", "check", "wrong", "f.rs", "ok", "none")
        self.assertEqual((done.returncode, done.stdout), (2, "ok: ok\n"))
        self.assertEqual(done.stderr.splitlines(), ["wrong: nllc: line 2: end", "nllc.sh: f.rs is a Rust file: nllc.sh rust "
                                                    "f.rs answers it", "none: nllc: cannot read none"])

    def test_a_rust_file(self):
        done = self.run_words("words", "check", "f.rs")
        self.assertEqual((done.returncode, done.stdout, done.stderr),
                         (2, "", "nllc.sh: f.rs is a Rust file: nllc.sh rust f.rs answers it\n"))
        self.write("text.rs", "nll-facts 1\npoints 1\nend\n")
        self.assertEqual(self.run_words("words", "check", "text.rs").stdout, "ok\n")

    def test_wrong_words(self):
        for words, said in (
                (("check", "--jsn", "ok"), "there is no option --jsn; nllc.sh help check names those there are"),
                (("check", "--owners", "65", "ok"), "--owners takes a number from 1 to 64, not 65"),
                (("check", "--owners=0", "ok"), "--owners takes a number from 1 to 64, not 0"),
                (("check", "--owners", "2", "--owners", "2", "ok"), "--owners is given twice"),
                (("check", "ok", "--owners"), "--owners needs a value"),
                (("check", "--deal", "x", "ok"), "--deal takes round or blocks, not x"),
                (("check", "--deal", "round", "--cut", "c", "ok"), "--deal and --cut don't go together"),
                (("check",), "check needs a FILE; - is standard input"),
                (("replay", "ok"), "replay needs one FILE, and --schedule FILE"),
                (("check", "ok", "--schedule", "s"), "check has no --schedule")):
            with self.subTest(words=words):
                self.assertEqual(advice(words[0], read_words(words[1:])), said)
        done = self.run_words("words", "check", "--jsn", "ok")
        self.assertEqual((done.returncode, done.stdout, done.stderr), (
            2, "", "usage: nllc\nnllc.sh check: there is no option --jsn; nllc.sh help check names those there are\n"))


class Explain(Texts):
    ROWS = (
        (HEAD + "region 'x\nnext 1 3\nend\n", "4:8: range: `3` is no point: points are 0 to 2\n    next 1 3"),
        ("nll-facts 1\npoints 0\n", "2:8: range: `0` is too few: at least one of the points is needed\n    points 0"),
        (HEAD + "region 'x\nregion 'x\n", "4:8: duplicate: `'x` is declared already, in line 3\n    region 'x"),
        (HEAD + "region 'static\n", "3:8: duplicate: `'static` is declared already, from the start\n    region 'static"),
        (HEAD + "  base 'y 0\n", "3:8: unknown: `'y` is no region that an earlier line declares\n    base 'y 0"),
        (HEAD + "outlives 'static 'b\n", "3:18: unknown: `'b` is no region that an earlier line declares\n    outlives 'static 'b"),
        (HEAD + "base 'x\n", "3:1: syntax: `base` lines are written base 'x P\n    base 'x"),
        (HEAD + "end;\n", "3:4: syntax: `;` is part of no token\n    end;"),
        (HEAD + "points 3\n", "3:1: syntax: `points` is out of order: one `points` line, then `universal`, `outlives` and "
         "`region` lines, then all others, then `end`\n    points 3"),
        (HEAD + "bas 'x 0\n", "3:1: syntax: `bas` begins no line; a line begins with points, universal, outlives, region, next, "
         "return, base, constraint, end\n    bas 'x 0"),
        (HEAD, "2: end: the text stops before its `end` line\n    points 3"),
        ("fn f\n", "1: header: line 1 has to be `nll-facts 1`, `nll-facts 2`, `nll-mir 1` or `nll-mir 2`\n    fn f"),
        ("nll-mir 1\nlet _1: int\n", "2:5: range: `_1` isn't the next variable, which is _0\n    let _1: int"),
        ("nll-mir 1\nlet _0: Foo\n", "2:9: unknown: `Foo` is no struct that an earlier line declares\n    let _0: Foo"),
        (BODY + "goto bb2\n", "5:6: range: `bb2` is no block: blocks are bb0 to bb1\n    goto bb2"),
        (BODY + "read _1\n", "5:6: unknown: `_1` is no variable that a `let` line declares\n    read _1"),
        (BODY + "_0 = &'r _0\n", "5:7: unknown: `'r` is no region that an earlier line declares\n    _0 = &'r _0"),
        (BODY + "return\nblock bb0\n", "6:7: range: `bb0` isn't the next block, which is bb1\n    block bb0"),
        (BODY + "return\nend\n", "6:1: range: `end` comes too early: of 2 blocks there are 1\n    end"),
        (TYPES + "let _2: Pair<int>\n", "6:9: shape: `Pair` takes <'a, T>, in this order; here it has 1 type\n"
         "    let _2: Pair<int>"),
        (TYPES + "let _2: (int, Pair<int, 'r>)\n", "6:15: shape: `Pair` takes <'a, T>, in this order; here it has 1 region and "
         "1 type\n    let _2: (int, Pair<int, 'r>)"),
        (TYPES + "let _2: Pair\n", "6:9: shape: `Pair` takes <'a, T>, in this order; here it has none\n    let _2: Pair"),
        (TYPES + "struct One <T +> (int, T<int>)\n", "6:24: shape: `T` takes no arguments; here it has 1 type\n"
         "    struct One <T +> (int, T<int>)"),
        (USED + "_0 = copy _1\n", "9:6: shape: `copy` doesn't fit: the operand is of type Pair<int>, and the place of int\n"
         "    _0 = copy _1"),
        (USED + "_2.1 = &'r mut _0\n", "9:8: shape: `&` doesn't fit: the borrow is of type &mut int, and the place of &int\n"
         "    _2.1 = &'r mut _0"),
        (USED + "read _1.0.0\n", "9:11: shape: `0` asks for a part 0, and `_1.0` is &int\n    read _1.0.0"),
        (USED + "_0 = copy _0.*\n", "9:14: shape: `*` asks for a reference, and `_0` is int\n    _0 = copy _0.*"),
        (USED + "_2 = make (int, &'r int) (const)\n", "9:6: shape: `make` has 1 operands, and the type (int, &int) has 2 parts\n"
         "    _2 = make (int, &'r int) (const)"),
        (USED + "_2 = make (int, &'r int) (const, const)\n", "9:34: shape: `const` doesn't fit: the operand is of type int, and "
         "part 1 of (int, &int) of &int\n    _2 = make (int, &'r int) (const, const)"),
        (USED + "_0 = make int ()\n", "9:6: shape: `make` has 0 operands, and the type int has no parts\n    _0 = make int ()"),
        (USED + "_0 = make () ()\n", "9:6: shape: `make` doesn't fit: what is made is of type (), and the place of int\n"
         "    _0 = make () ()"),
        (USED + "switch copy _1 bb0\n", "9:8: shape: `copy` doesn't fit: the operand is of type Pair<int>, and what a switch "
         "takes of int\n    switch copy _1 bb0"),
        (USED + "_0 = call F (const: int, copy _0: (int)): int -> bb1\n", "9:26: shape: `copy` doesn't fit: the operand is of type "
         "int, and the type after it of (int)\n    _0 = call F (const: int, copy _0: (int)): int -> bb1"),
        ("nll-mir 2\nlet _0: int\nblocks 1\nblock bb0\n_0 = call where (): fn(int) -> int -> bb0 unwind bb0\n", "5:1: shape: `_0` "
         "doesn't fit: the place is of type int, and the result of fn(int) -> int\n"
         "    _0 = call where (): fn(int) -> int -> bb0 unwind bb0"),
        (f"nll-mir 1\nregion 'r\nlet _0: {DEEP}\n", "3:9: type size: `&` begins a type of 4,097 nodes, and a type may have 4,096\n"
         f"    {f'let _0: {DEEP}'[:200]}"),
        (TWICE + "blocks 1\nblock bb0\nread _0.0\n", "7:9: type size: `0` leads to a type of 4,971 nodes, and a type may have 4,096\n"
         "    read _0.0"),
        (TWICE + f"blocks 1\nblock bb0\n_0 = make D<{WIDE}> (const)\n", "7:6: type size: `make` makes a part 0 with a type of more "
         f"than 4,096 nodes\n    {f'_0 = make D<{WIDE}> (const)'[:200]}"),
        ("nll-facts 1\npoints 1048577\n", "2:8: limit points: `1048577` is too many: there may be 1,048,576 points\n    points 1048577"),
        (HEAD + "universal 'a\n", "3:11: limit universals: `'a` is one too many: there may be 256 universal regions, 'static included\n"
         "    universal 'a"),
        (HEAD + "region 'a\n", "3:8: limit regions: `'a` is one too many: there may be 65,536 regions\n    region 'a"),
        (HEAD + "next 0 1\n", "3:1: limit edges: `next` adds one too many: there may be 4,194,304 edges\n    next 0 1"),
        (HEAD + "constraint 'static 'static 1\n", "3:1: limit constraints: `constraint` adds one too many: there may be 1,048,576 "
         "constraints\n    constraint 'static 'static 1"),
        (BODY + "nop\n", "5:1: limit points: `nop` adds one too many: there may be 1,048,576 points\n    nop"),
        (BODY + "goto bb1\n", "5:1: limit edges: `goto` adds one too many: there may be 4,194,304 edges\n    goto bb1"),
        ("nll-mir 1\nlet _0: int\n", "2:5: limit variables: `_0` is one too many: there may be 65,536 variables\n    let _0: int"),
        ("nll-mir 1\nstruct S ()\n", "2:8: limit structs: `S` is one too many: there may be 1,024 structs\n    struct S ()"),
        (HEAD, "1: limit text: the text has more than 67,108,864 bytes\n    nll-facts 1"),
    )

    def test_the_token_and_why(self):
        for text, said in self.ROWS:
            with self.subTest(text=text):
                number, kind = re.match(r"(\d+)(?::\d+)?: ([a-z -]+):", said).groups()
                self.assertEqual(refused("F", text.encode(), int(number), kind), [f"F:{line}" if at == 0 else line for
                                                                                  at, line in enumerate(said.split("\n"))])

    def test_by_what_the_program_says(self):
        path = self.write("text", self.ROWS[0][0])
        done = self.run_words("explain", path)
        self.assertEqual((done.returncode, done.stdout, done.stderr), (2, f"{path}:{self.ROWS[0][1]}\n", ""))

    def test_by_what_the_program_says_of_types_and_limits(self):
        lines = [f"universal 'a{n}" for n in range(256)]
        path = self.write("many", "\n".join([HEAD.strip(), *lines]))
        self.assertEqual(self.run_words("explain", path).stdout, f"{path}:258:11: limit universals: `'a255` is one too many: there "
                         "may be 256 universal regions, 'static included\n    universal 'a255\n")
        path = self.write("types", USED + "_0 = copy _1\n")
        self.assertEqual(self.run_words("explain", path).stdout, f"{path}:9:6: shape: `copy` doesn't fit: the operand is of type "
                         "Pair<int>, and the place of int\n    _0 = copy _1\n")
        path = self.write("deep", f"nll-mir 1\nregion 'r\nlet _0: {DEEP}\n")
        self.assertIn(":3:9: type size: `&` begins a type of 4,097 nodes", self.run_words("explain", path).stdout)

    def test_constraints_of_no_line(self):
        self.environment["NLLC"] = self.program("full", "echo 'nllc: limit constraints' >&2\nexit 2")
        done = self.run_words("explain", self.write("body", BODY))
        self.assertEqual((done.returncode, done.stdout), (2, f"{self.room}/body: limit constraints: all lines together ask for more "
                                                          "constraints than the 1,048,576 that there may be\n"))

    def test_bytes(self):
        path = self.write("bytes", HEAD.encode() + b"next \xff 1\n")
        self.assertEqual(self.run_words("explain", path).stdout,
                         f"{path}:3:6: not utf-8: the byte 0xff isn't UTF-8 there\n    next � 1\n")

    def test_texts_that_are_right(self):
        done = self.run_words("explain", "-", input="nll-facts 1\npoints 1\nend\n")
        self.assertEqual((done.returncode, done.stdout, done.stderr), (0, "stdin: ok\n", ""))
        path = self.write("fault", "nll-facts 1\npoints 1\nuniversal 'a\nreturn 0\nconstraint 'a 'static 0\nend\n")
        done = self.run_words("explain", path)
        self.assertEqual((done.returncode, done.stdout), (1, f"{path}: fault 'a must outlive 'static\n"))

    def test_what_is_no_text(self):
        done = self.run_words("explain", "none")
        self.assertEqual((done.returncode, done.stdout, done.stderr),
                         (2, "", "nllc.sh explain: none can't be read: No such file or directory\n"))
        done = self.run_words("explain", self.write("f.rs", "fn f() {}\n"))
        self.assertEqual((done.returncode, done.stdout), (2, ""))
        self.assertIn("f.rs is a Rust file: nllc.sh rust ", done.stderr)
