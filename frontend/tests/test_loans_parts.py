"""The parts by which loans are found and told, on small made-up inputs."""

import json
import unittest

import page_support
from rooms import Room
from nllc_tools.base.sentences import plain
from nllc_tools.judge import differences
from nllc_tools.judge.as_rustc import blame, causes, lifetimes, loan_faults
from nllc_tools.judge.content import Content, Fault
from nllc_tools.judge.findings import findings, loan_findings
from nllc_tools.model import chains
from nllc_tools.model.facts import Constraint
from nllc_tools.rustc.compiler import crate_name
from nllc_tools.rustc.dumps import Dump
from nllc_tools.rustc.error_owners import own_errors
from nllc_tools.rustc.errors import Error, read_error
from nllc_tools.rustc.mir.accesses import accesses
from nllc_tools.rustc.mir.body import Body, Local
from nllc_tools.rustc.mir.body_reader import reason_of
from nllc_tools.rustc.mir.destructors import destroyed_by, path_to
from nllc_tools.rustc.mir.desugarings import Desugarings, declarations
from nllc_tools.rustc.mir.spans import Span
from nllc_tools.rustc.mir.statement_reader import read_line, read_place
from nllc_tools.rustc.mir.statements import Place, Step
from nllc_tools.rustc.mir.type_reader import read_type
from nllc_tools.model.said import Place as SourcePlace
from nllc_tools.texts.source import Source, snippet, whole_line
from nllc_tools.views.terminal import finding_lines
import nllc_tools.base.streams  # noqa: F401 (the codec `plain`)
from quick_solver import quick_values


class Places(unittest.TestCase):
    def test_forms(self):
        for text, words, has_lifetimes in (
                ("_3", ("_3",), False),
                ("(*_1)", ("_1", "*"), False),
                ("((*_1).0: &mut Vec<(u8, u8)>)", ("_1", "*", "0"), True),
                ("((_1 as Some).0: fn(u8) -> u8)[_5][0 of 1]", ("_1", "as Some", "0", "[]", "[]"), False),
                ("(_1 as Some)", ("_1", "as Some"), False),
                ("(_1.0: Word<'_>)[1..3]", ("_1", "0", "[]"), True)):
            with self.subTest(place=text):
                place = read_place(text)
                self.assertEqual((place.words, place.has_lifetimes), (words, has_lifetimes))

    def test_no_place(self):
        for text in ("const 1_u8", "(", "(const 1_u8, move _3)", ""):
            self.assertIsNone(read_place(text), text)

    def test_overlap(self):
        whole, one, other = map(read_place, ("_1", "(_1.0: u8)", "(_1.1: u8)"))
        self.assertTrue(whole.overlaps(one) and one.overlaps(one.onward(Step("deref"))))
        self.assertFalse(one.overlaps(other))
        self.assertFalse(one.overlaps(read_place("(_2.0: u8)")))
        self.assertTrue(read_place("_1[_2]").overlaps(read_place("_1[_2]")))


class Destructors(unittest.TestCase):
    def owners(self, text, kind):
        path = path_to(read_place(text), read_type(kind))
        return path.owners, path.is_behind

    def test_types_whose_fields_a_place_goes_through(self):
        for text, kind, owners, is_behind in (
                ("_1", "S", (), False),
                ("(_1.0: T)", "m::S<'_, u8>", ("m::S",), False),
                ("(*((_1.0: T<'_>).1: &mut u8))", "S", ("S", "T"), True),
                ("((*_1).0: T)", "Box<S<(u8, u8)>, A>", ("S",), False),
                ("((*_1).0: T)", "&mut S", ("S",), True),
                ("(_1[_2].0: T)", "[S<[u8; 2]>; 3]", ("S",), False),
                ("((_1 as Some).0: T)", "Option<T>", ("Option",), False)):
            with self.subTest(text=text, kind=kind):
                self.assertEqual(self.owners(text, kind), (owners, is_behind))

    def test_whether_one_of_them_has_a_destructor(self):
        path = path_to(read_place("((_1.0: m::T<u8>).1: u8)"), read_type("S"))
        self.assertTrue(path.is_seen_by({"m::T"}))
        self.assertFalse(path.is_seen_by({"T"}))

    def test_whose_destructor_a_function_is(self):
        body = Body("f::<impl at a.rs:1:2: 1:19>::drop", locals={1: Local("&mut In<'_>")})
        self.assertEqual(destroyed_by(body, "impl Drop for In<'_>"), {"In", "f::In"})
        self.assertEqual(destroyed_by(body, "impl In<'_>"), set())
        self.assertEqual(destroyed_by(body, None), set())


def line_of(text):
    return read_line(text, " -> [" in text or " -> bb" in text or text == "return")


class Accesses(unittest.TestCase):
    def ways(self, text):
        return [(access.way, access.place and access.place.local) for access in accesses(line_of(text))]

    def test_statements(self):
        for statement, ways in {
            "_1 = const 3_u8": [("assigns", 1)],
            "_3 = &mut (*_1)": [("mut", 1), ("assigns", 3)],
            "_3 = &(*_1)": [("shared", 1), ("assigns", 3)],
            "_3 = &raw mut (*_1)": [("mut", 1), ("assigns", 3)],
            "_3 = &raw const _1": [("shared", 1), ("assigns", 3)],
            "_3 = &fake shallow _1": [("looks", 1), ("assigns", 3)],
            "(_1.0: u8) = Add(copy (_1.0: u8), move _2)": [("reads", 1), ("moves", 2), ("assigns", 1)],
            '_0 = f(move _1, const "move _7") -> [return: bb1, unwind: bb2]':
                [("moves", 1), ("assigns", 0)],
            "switchInt(copy _3) -> [0: bb3, otherwise: bb2]": [("reads", 3)],
            "_4 = discriminant((*_1))": [("reads", 1), ("assigns", 4)],
            "_5 = &raw const (fake) (*_1)": [("reads", 1), ("assigns", 5)],
            "_2 = f::<{closure@a.rs:1:2: 3:4}>(copy _1, String::new) -> bb1": [("reads", 1), ("assigns", 2)],
            "_2 = String::new as fn() -> String (PointerCoercion(ReifyFnPointer(Safe), Implicit))": [("assigns", 2)],
            "_5 = yield(move _6) -> [resume: bb2, drop: bb5]": [("moves", 6), ("assigns", 5)],
            'asm!("mov {}, {}", in(reg) move _1, out(reg) _2) -> [return: bb1, unwind unreachable]': [("moves", 1)],
            'assert(move _5, "index {} of {}", copy _2, move _6) -> [success: bb1, unwind: bb2]':
                [("moves", 5), ("reads", 2), ("moves", 6)],
            "strange(_1)": [],
            "FakeRead(ForMatchedPlace(None), _2)": [("reads", 2)],
            "PlaceMention((*_2))": [("reads", 2)],
            "StorageDead(_5)": [("ends", 5)],
            "StorageLive(_5)": [],
            "drop((_5.1: T)) -> [return: bb1, unwind: bb2]": [("drops", 5)],
            "return": [("leaves", None)],
            "goto -> bb1": [],
        }.items():
            self.assertEqual(self.ways(statement), ways, statement)

    def test_what_disturbs_a_loan(self):
        read, write = (next(accesses(line_of(text))) for text in ("_3 = copy _1", "_1 = const 3_u8"))
        self.assertFalse(read.disturbs("shared", Place(1)))
        self.assertTrue(read.disturbs("mut", Place(1)))
        self.assertTrue(write.disturbs("shared", read_place("(_1.0: u8)")))
        self.assertFalse(write.disturbs("mut", Place(2)))


class RustcsWords(Room):
    def test_reasons(self):
        found = reason_of("| '?7: '?8 due to Return(Normal) at Single(bb5[2]) (a.rs:21:5: 21:9 (#0)")
        self.assertEqual((found.sup, found.sub, found.category, str(found.location)),
                         (7, 8, "Return", "bb5[2]"))
        self.assertEqual(found.span, Span("a.rs", 21, 21, 5, 9))
        found = reason_of("| '?1: '?8 due to BoringNoLocation at All(a.rs:1:2: 1:3) (a.rs:1:2: 1:3 (#0)")
        self.assertEqual((found.category, found.location), ("BoringNoLocation", None))
        self.assertIsNone(reason_of("| '?1 live at {bb0[0]}"))

    def test_the_name_of_a_crate(self):
        for text, name in (('#![no_std]\n#![crate_name = "other"]\n', "other"), ("fn f() {}\n", "input")):
            self.assertEqual(crate_name(self.write("a.rs", text)), name)

    def test_errors_in_macros(self):
        inner = '{"file_name": "/rustc/none/macros.rs", "line_start": 1, "column_start": 1, ' \
                '"is_primary": true, "label": "is gone", "expansion": {"span": {"file_name": "a.rs", ' \
                '"line_start": 7, "column_start": 5, "line_end": 7, "column_end": 9, "expansion": null}}}'
        [error] = read_error('{"level": "error", "rendered": "x", "message": "m", "code": {"code": "E0716"}, '
                             f'"spans": [{inner}]}}')
        self.assertEqual((error.places, error.column, error.words()), ([("a.rs", 7)], 5, "E0716: m"))
        self.assertEqual(error.labels, [(Span("a.rs", 7, 7, 5, 9), "is gone")])
        self.assertEqual((error.within, error.where()), (None, "a.rs:7:5"))

    def test_errors_in_macros_of_another_file_of_the_crate(self):
        used = {"file_name": "a.rs", "line_start": 7, "column_start": 5, "line_end": 7, "column_end": 9, "expansion": None}
        inner = {"file_name": "macros.rs", "line_start": 2, "column_start": 3, "line_end": 2, "column_end": 4,
                 "is_primary": True, "label": "is gone", "expansion": {"span": used}}
        said = {"level": "error", "rendered": "error\n  --> macros.rs:2:3\n", "message": "m", "code": None, "spans": [inner]}
        [error] = read_error(json.dumps(said), "sub")
        self.assertEqual((error.places, error.column), ([("a.rs", 7)], 5))
        self.assertEqual((error.within, error.where()), (Span("macros.rs", 2, 2, 3, 4), "sub/macros.rs:2:3"))

    def test_whose_errors(self):
        outer = Dump("f", "f", "", "", Span("a.rs", 1, 9, 1, 2))
        closure = Dump("f::{closure#0}", "f-0", "", "", Span("a.rs", 3, 5, 9, 6))
        dumps = [outer, closure]
        errors = [Error("", [("a.rs", line)], column, code)
                  for line, column, code in ((2, 5, "E0499"), (4, 9, "E0502"), (3, 9, "E0505"),
                                             (4, 9, "E0597"), (2, 5, "E0382"), (12, 1, "E0499"))]
        self.assertEqual([e.code for e in own_errors(outer, dumps, errors)],
                         ["E0499", "E0505", "E0597", "E0382"])
        self.assertEqual([e.code for e in own_errors(closure, dumps, errors)], ["E0502", "E0597"])

    def test_whose_errors_of_functions_in_functions(self):
        outer = Dump("f", "f", "", "", Span("a.rs", 1, 9, 1, 2))
        inner = Dump("f::g", "f-g", "", "", Span("a.rs", 3, 5, 5, 6))
        errors = [Error("", [("a.rs", line)], 9, code) for line, code in ((2, "E0499"), (4, "E0384"), (4, "E0597"))]
        self.assertEqual([e.code for e in own_errors(outer, [outer, inner], errors)], ["E0499"])
        self.assertEqual([e.code for e in own_errors(inner, [outer, inner], errors)], ["E0384", "E0597"])


TEXT = ("region 'x", "region 'y", "next 0 1", "next 1 2", "next 2 3", "return 3",
        "base 'y 1", "base 'y 2", "constraint 'x 'y 1",
        "# loan 0: 'x at 0, 1:9-1:11, mut of a", "# against 2, 2:5-2:6, assigns: 0", "# uses 'y: 2",
        "# point 0: line 1: y = &mut a", "# point 1: line 2: a = 1", "# point 2: line 2: a = 1")
SOURCE = Source("a.rs", 1, ["let y = &a;", "    a = 1;", "    show(y); // it"])


class Loans(unittest.TestCase):
    def content(self, *lines):
        facts = page_support.facts_of(4, *lines)
        values = quick_values(facts)
        return Content(facts, values, [], "TEXT", SOURCE, "", "", list(loan_faults.loan_faults(facts, values)))

    def test_in_force(self):
        [fault] = self.content(*TEXT).loans
        self.assertEqual((fault.code, fault.place[:2], fault.cause.use), ("E0506", (2, 5), 2))
        self.assertEqual([step.constraint for step in fault.cause.steps], [(1, 2, 1)])

    def test_killed(self):
        self.assertEqual(self.content(*TEXT, "# killed 0: 1").loans, [])

    def test_against_where_it_is_not_in_force(self):
        self.assertEqual(self.content(*TEXT[:-5], "# loan 0: 'x at 0, 1:9-1:11, mut of a",
                                      "# against 3, 3:5-3:6, assigns: 0").loans, [])

    def test_the_killing_point_itself(self):
        self.assertEqual(len(self.content(*TEXT, "# killed 0: 2").loans), 1)

    def test_second_phase(self):
        late = "# against 2, 2:1-2:9, late after 1: 0"
        lines = [line for line in TEXT if not line.startswith("# against")]
        self.assertEqual([one.code for one in self.content(*lines, late).loans], ["E0499"])
        [fault] = self.content(*lines, "# against 1, 2:5-2:6, mut: 0", late).loans
        self.assertEqual((fault.code, fault.against.point), ("E0499", 1))

    def test_second_phases_of_a_place_whose_first_phase_is_told(self):
        lines = [line for line in TEXT if not line.startswith("# against")]
        for begun, late, count in (("mut of a", "a after 1", 1), ("mut of a", "a after 0", 2), ("unique of a", "a after 0", 2),
                                   ("mut of a.0", "a after 0", 2), ("mut of a'", "a' after 0", 2)):
            found = self.content(*lines, f"# against 1, 2:5-2:6, {begun}: 0", f"# against 2, 2:1-2:9, late of {late}: 0").loans
            self.assertEqual(len(found), count, (begun, late))

    def test_a_use_in_another_line_than_its_statement(self):
        for line in ("# called 2, 3:5-3:9", "# captured 2 'y, 3:5-3:9"):
            [one] = findings.all_of(self.content(*TEXT, line))
            self.assertIn("since line 3 uses it (`show(y);`)", plain(one.cause))
        [one] = findings.all_of(self.content(*TEXT, "# captured 2 'x, 3:5-3:9"))
        self.assertIn("since the same line uses it", plain(one.cause))

    def test_a_call_that_never_returns_uses_nothing_later(self):
        lines = ("region 'x", "next 0 1", "next 1 2", "next 1 3", "next 2 4", "next 3 5", "return 4", "return 5",
                 "# loan 0: 'x at 0, 1:9-1:11, mut of a", "# against 1, 2:5-2:6, assigns: 0", "# uses 'x: 5",
                 "# drops 'x: 2", *(f"base 'x {point}" for point in range(6)), "# point 0: line 1: y = &mut a (bb0[0])",
                 "# point 3: line 2: nop (bb2[0])", "# point 2: line 3: drop(y) (bb1[0])", "# point 5: line 3: show (bb2[1])")
        for text, use in (("f() -> bb1", 5), ("f() -> [return: bb1, unwind: bb9]", 2)):
            facts = page_support.facts_of(6, *lines, f"# point 1: line 2: {text} (bb0[1])")
            [fault] = loan_faults.loan_faults(facts, quick_values(facts))
            self.assertEqual(fault.cause.use, use)

    def test_an_earlier_turn(self):
        [fault] = self.content("region 'x", "next 0 1", "next 1 0", "next 1 2", "return 2", "base 'x 0",
                               "base 'x 1", "# loan 0: 'x at 0, 1:9-1:11, mut of a",
                               "# against 0, 1:9-1:11, mut: 0", "# point 0: line 1: y = &mut a").loans
        told = loan_findings.of_loan(self.content(), fault)
        self.assertEqual(plain(told.head), "`&a` borrows `a` as mutable, which it has borrowed as "
                         "mutable in an earlier iteration of the loop")

    def test_what_a_loan_must_outlive(self):
        lines = ("universal 'a", "universal 'r7", "universal 'c", "region 'x", "return 0", "# loan 0: 'x at 0, 1:9-1:11, mut of a")
        for more, name in ((("constraint 'x 'a 0",), "a"), (("constraint 'x 'a 0", "constraint 'x 'r7 0"), "a"),
                           (("constraint 'x 'a 0", "constraint 'x 'c 0"), "c"),
                           (("outlives 'a 'c", "constraint 'x 'a 0", "constraint 'x 'c 0"), "a"),
                           (("constraint 'x 'a 0", "constraint 'a 'static 0"), "static")):
            facts = page_support.facts_of(1, *lines, *more)
            values = quick_values(facts)
            region = facts.names.index("x")
            self.assertEqual(facts.names[causes.why(facts, values, region, 0).region], name, more)

    def test_what_rustc_names_of_a_loan_once_more(self):
        here, there = "# rustc 2:5: E0506: cannot assign", "# rustc 3:1: E0515: cannot return"
        label = "# label 1:9-1:11: `a` is borrowed here"
        self.assertEqual(list(differences.further(self.content(*TEXT, here, label))), [])
        self.assertEqual(list(differences.further(self.content(*TEXT, there, label))), [])
        [found] = differences.further(self.content(*TEXT, here, label, there, label))
        self.assertEqual(found.error[:3], (3, 1, "E0515: cannot return"))

    def test_closures_that_borrow_uniquely(self):
        for kind, way, code in (("unique", "unique", "E0524"), ("mut", "unique", "E0500"),
                                ("shared", "unique", "E0500"), ("unique", "mut", "E0501"),
                                ("unique", "shared", "E0501"), ("mut", "shared", "E0502"),
                                ("shared", "mut", "E0502"), ("mut", "mut", "E0499")):
            lines = [line.replace(", mut of", f", {kind} of").replace("assigns", way) for line in TEXT]
            self.assertEqual([one.code for one in self.content(*lines).loans], [code], (kind, way))

    def test_a_text_of_another_function(self):
        self.assertEqual(self.content(*TEXT[:8], "# loan 0: 'z at 0, 1:9-1:11, mut of a",
                                      "# loan 1: 'x at 9, 1:9-1:11, mut of a").loans, [])

    def test_two_lines(self):
        content = self.content(*TEXT)
        [one] = findings.all_of(content)
        self.assertEqual(finding_lines.lines(content.path, one), [
            "a.rs:2:5: E0506: `a` is assigned to, and line 1 has borrowed it as mutable",
            "    the loan of line 1 (`&a`) is live: its region `'x` holds line 2, since the same line "
            "uses it",
            "    help: end the borrow before; or clone what is needed; or keep an index or a key in place of the reference"])


class Blame(unittest.TestCase):
    def facts(self, *words):
        said = [f"# asked 'a 'b at 0, 1:{n}-1:{n + 1}: {word}" for n, word in enumerate(words, 1)]
        return page_support.facts_of(2, "universal 'a", "universal 'b", "next 0 1", *said)

    def best(self, *words):
        facts = self.facts(*words)
        found = blame.reasons(facts, Constraint(1, 2, 1))
        return min(found, key=blame.Blamed.rank, default=None)

    def test_ranks(self):
        self.assertEqual(self.best("step", "assignment", "return").word, "return")
        self.assertEqual(self.best("generic", "argument", "step").word, "argument")
        self.assertEqual(self.best("step").place.column, 1)
        self.assertIsNone(self.best())


class Lifetimes(unittest.TestCase):
    NAMELESS = "a lifetime of the signature without a name; "

    def told(self, remark):
        facts = page_support.facts_of(1, f"# region 'r1: line 1: {remark}", "universal 'r1")
        own = lifetimes.Lifetimes(Content(facts, None, [], "TEXT", SOURCE, "", ""))
        return plain(own.name(1)), plain(own.places(1))

    def test_with_and_without_names(self):
        self.assertEqual(self.told("'a of the signature; the type of x: &'a u8"), ("`'r1`", ""))
        self.assertEqual(self.told(self.NAMELESS + "the type of x: &'r1 u8"), ("the lifetime in the type of `x`", ""))
        self.assertEqual(self.told(self.NAMELESS + "the type of x: &'r1 mut Vec<&'r2 u8>"),
                         ("`'r1`", "the type of `x` is `&'r1 mut Vec<&'r2 u8>`"))
        self.assertEqual(self.told(self.NAMELESS + "the type of the result: &'r1 u8"), ("the lifetime `'r1`", ""))

    def test_names_of_rustc(self):
        source = Source("a.rs", 1, ["fn f(list: &mut Vec<&u8>, one: &u8, all: &mut Names<'_>) {", "    list.push(one);", "}"])
        facts = page_support.facts_of(
            2, "# region 'r1: line 1: a lifetime of the signature without a name", "universal 'r1",
            "# region 'r2: line 1: a lifetime of the signature without a name", "universal 'r2", "next 0 1", "return 1",
            "constraint 'r1 'r2 0", "# asked 'r1 'r2, 2:5-2:19: argument", "# blamed 'r1 'r2, 2:5-2:19: argument",
            "# rustc 2:5: lifetime may not live long enough",
            "# label 2:5-2:19: argument requires that `'1` must outlive `'2`",
            "# label 1:32-1:33: let's call the lifetime of this reference `'1`", "# label 1:37-1:40: has type `Names<'2>`",
            "# note: mutable references are invariant over their type parameter",
            "# help: consider this: `fn f<'a>()`")
        values = quick_values(facts)
        [one] = findings.all_of(Content(facts, values, [Fault(1, 2, chains.chain(facts, values, 1, 2))], "TEXT", source, "", ""))
        self.assertEqual(plain(one.head), "`'1` must outlive `'2`, but the signature doesn't declare it: "
                         "this call requires it")
        self.assertEqual([plain(line) for line in one.more],
                         ["line 1 with names: `fn f(list: &mut Vec<&u8>, one: &'1 u8, all: &mut Names<'_>) {`; "
                          "the type of `all` is `Names<'2>`",
                          "invariant: mutable references are invariant over their type parameter",
                          "help: consider this: `fn f<'a>()`"])

    def test_several_at_one_place(self):
        facts = page_support.facts_of(
            2, "universal 'a", "universal 'b", "universal 'c", "next 0 1", "return 1", "constraint 'a 'b 0",
            "constraint 'a 'c 0", "# asked 'a 'b, 2:5-2:19: argument", "# asked 'a 'c, 2:5-2:19: argument",
            "# rustc 2:5: lifetime may not live long enough", "# label 2:5-2:19: argument requires that `'a` must outlive `'c`")
        values = quick_values(facts)
        faults = [Fault(1, sub, chains.chain(facts, values, 1, sub)) for sub in (2, 3)]
        [one] = findings.all_of(Content(facts, values, faults, "TEXT", SOURCE, "", ""))
        self.assertEqual(plain(one.head), "`'a` must outlive `'c` and `'b`, but the signature doesn't "
                         "declare it: this call requires it")

    def test_names_in_a_line(self):
        place = SourcePlace(1, 8, 1, 10)
        self.assertEqual(lifetimes.named_line(Source("a.rs", 1, ["f(x: A<'_>, y: A)"]), 1,
                                              [(place, "'1"), (SourcePlace(1, 16, 1, 17), "'2")]), "f(x: A<'1>, y: A<'2>)")


class Desugared(unittest.TestCase):
    """Constraints of `for`, `await` and `?`, and of macros that the file declares."""

    TEXT = ["macro_rules! twice {", "    ($x:expr) => { $x + $x };", "}", "fn f() { for x in all() {} g().await; h()? }"]

    def has(self, line, column, end, category="Boring", expansion=4):
        own = Desugarings("a.rs", self.TEXT, declarations("\n".join(self.TEXT)))
        return own.has(reason_of(f"| '?1: '?2 due to {category} at Single(bb0[0]) "
                                 f"(a.rs:{line}:{column}: {line}:{end} (#{expansion})"))

    def test_which_are(self):
        self.assertTrue(self.has(4, 19, 24))
        self.assertTrue(self.has(4, 28, 37, "Return(Normal)"))
        self.assertFalse(self.has(4, 39, 43, "Return(Normal)"))
        self.assertTrue(self.has(4, 39, 43))
        self.assertFalse(self.has(4, 19, 24, expansion=0))
        self.assertFalse(self.has(2, 20, 27))

    def test_declarations_of_macros(self):
        self.assertEqual(declarations("\n".join(self.TEXT)), [((1, 1), (3, 1))])
        self.assertEqual(declarations("fn f() { macro_rules! m { () => {} } m!() }"), [((1, 10), (1, 36))])


class AnyLocale(unittest.TestCase):
    def test_letters_that_an_encoding_lacks(self):
        self.assertEqual("1 → 2 … ü 中".encode("ascii", "plain"), b"1 -> 2 .. \\xfc \\u4e2d")
        self.assertEqual("ü →".encode("latin-1", "plain"), b"\xfc ->")


class Snippets(unittest.TestCase):
    def test_words_of_a_place(self):
        for source, numbers, words in ((SOURCE, (1, 9, 1, 11), "&a"), (SOURCE, (2, 5, 3, 8), "a = 1; .."),
                                       (SOURCE, (9, 1, 9, 2), ""), (None, (1, 1, 1, 2), "")):
            self.assertEqual(snippet(source, SourcePlace(*numbers)), words)
        self.assertEqual(snippet(SOURCE, None), "")

    def test_a_whole_line(self):
        self.assertEqual(whole_line(SOURCE, 3), "show(y);")
        self.assertEqual(whole_line(Source("", 1, ["x" * 80]), 1), "x" * 47 + " ..")
        self.assertEqual(whole_line(SOURCE, 4), "")
