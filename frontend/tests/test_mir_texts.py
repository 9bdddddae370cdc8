"""The MIR texts of sources/forms.rs, made of rustc's stored dump: a line for each form.

What is expected was written by hand, by the source and docs/FORMATS.md; regions are numbered in the order of the line.
"""

import os
import shutil
import tempfile
import unittest
from dataclasses import replace

import facts_support as support
import mir_support as mir
from nllc_tools.rustc.unsaid import NOT_READ
from nllc_tools.texts.mir.functions import text_of

# For each function lines of its text.
LINES = {
    "reborrow": ["universal 'a", "outlives 'b 'a", "let _1: &'1 mut &'2 mut int", "_3 = &'1 mut _1.*.*"],
    "fields": ["struct Pair <'p1 =, 'p2 +> (&'p1 int, &'p2 mut Vec<'p1>)", "_3 = &'1 mut _1.*.1.*", "_4 = copy _1.*.0",
               "_2 = call push(move _3: &'1 mut Vec<'2>, move _4: &'2 int): int -> bb1 unwind bb2"],
    "make_pair": ["_0 = call Pair(move _3: &'1 int, move _4: &'2 mut Vec<'1>): Pair<'1, '2> where '1: '2 -> bb1"],
    "variants": ["struct Shape <'p1 +> (int, &'p1 int, &'p1 int, &'p1 int)", "_3 = copy _1.0",
                 "switch move _3 bb2 bb3 bb4 bb1", "_5 = copy _1.3", "_4 = call constant(): &'1 int -> bb7"],
    "named": ["_0 = call Named(move _2: &'1 int, const: int): Shape<'1> -> bb1"],
    "last": ["struct Node <'p1 +> (int, Option<'p1>)", "_10 = &'1 mut _1.*.1", "_7 = &'1 mut _8.*.0"],
    "dropped": ["struct Loud <'p1 +> drop (&'p1 int)", "drop _2 -> bb11 unwind bb15"],
    "maybe_dropped": ["_6 = call forget(move _7: Loud<'1>): int -> bb3 unwind bb7", "drop _3 -> bb6 unwind bb9"],
    "first_of": ["_3 = copy _1.*.0", "_13 = &'1 _1.*.0", "_6 = call Lt(copy _4: int, copy _5: int): int -> bb2"],
    "tuple": ["_5 = call array(move _6: &'1 int, move _7: &'1 int): (&'1 int) -> bb2",
              "_0 = make (&'1 int, int, (&'2 int)) (move _3, move _4, move _5)"],
    "captures": ["struct Closure0 <'p1 =, 'p2 =, 'p3 =, 'p4 => (&'p1 mut Vec<'p2>, &'p3 &'p4 int)", "_5 = &'1 _1"],
    "pointers": ["struct MutPointer <'p1 => (&'static &'p1 int)",
                 "_3 = call raw(copy _1.*: &'1 int): MutPointer<'1> -> bb1", "_5 = &'1 _3.0.*", "_6 = &'1 _2.*"],
    "object": ["_2 = call Unsize(move _3: Box<'1>): Box_2<'2> where '1: '2 -> bb3"],
    "function": ["_3 = call pointer(move _4: int, move _5: &'1 int): &'1 int -> bb1 unwind bb2"],
    "constants": ["_2 = call constant(): &'1 &'2 int where '2: 'static -> bb1"],
    "annotated": ["assert 'a : 'r4"],
    "sums": ["_17 = call AddWithOverflow(copy _2: int, copy _15: int): int -> bb10", "_12 = copy _9.0",
             "_9 = call next(move _10: &'1 mut Iter<'2>): Option<'3> where '2: '3 -> bb4 unwind bb12"],
    "replaced": ["_5 = call drop(copy _1.*: Loud<'1>): int -> bb2 unwind bb3", "_1.* = move _3"],
    "boxed": ["struct Box <'p1 +> ((&'p1 int, int))", "_3 = copy _1.0", "_0 = &'1 _3.0.*"],
    "known": ["universal 'a", "universal 'b", "outlives 'a 'b"],
    "uses_statics": ["struct Opaque0 <'p1 => drop ()", "_9 = call drop(move _10: Opaque0<'1>): int -> bb4 unwind bb8"],
    "hidden": ["_0 = call hide(move _8: &'1 int, move _9: int): Opaque0<'2> where '1: '3 -> bb6"],
    "wrapped": ["_0 = call map(move _3: int): Option<'1> where '1: '2, '2: '1, '3: '2 -> bb1 unwind bb2"],
    "Maybe::taken": ["_3 = &'1 _1.*", "read _3", "read _3.*"],
    "Loud::next": ["struct Kept <'p1 +> (&'p1 int)", "_2 = call Kept(move _3: &'1 int): Kept<'1> -> bb1"],
    "holder": ["_0 = call Holder(move _2: Option<'static>): int -> bb2"],
    "never": ["_2 = call panic_fmt(move _3: Arguments<'1>): int -> bb5"],
    "causes": ["struct Cause (int, &'static int)", "struct Vec ()", "struct Causes (Vec)", "_5 = &'1 _1.*.0",
               "_8 = &'1 _2.1.*.1"],
    "all_causes": ["let _1: &'1 int", "_4 = &'1 _1.*"],
    "hidden_word": ["_0 = call hide(copy _1: &'1 int, move _2: int): int where '1: '2 -> bb1"],
    "asks": ["struct Asks <'p1 - > ()", "_1 = call ReifyFnPointer(const: int): fn(&'1 int) -> int -> bb1",
             "_0 = call Asks(move _1: fn(&'1 int) -> int): Asks<'1> -> bb2"],
    "asked": ["struct Asks <'p1 - > (fn(&'p1 int) -> int)", "_8 = copy _1.0",
              "_7 = call pointer(move _8: fn(&'1 int) -> int, move _9: &'1 int): int -> bb2 unwind bb5",
              "_0 = make (Asks<'1>, int) (move _11, move _12)"],
    "narrowed": ["outlives 'long 'short", "_0 = move _1"],
    "casts": ["_3 = call ClosureFnPointer(move _4: int): int -> bb1", "_9 = call IntToInt(move _10: int): int -> bb4",
              "_7 = call Unsize(move _8: &'1 (&'2 int)): &'3 (&'4 int) where '1: '3, '2: '4, '4: '2 -> bb3",
              "_12 = call PtrToPtr(move _13: int): int -> bb5"],
    "repeated": ["_0 = call array(move _2: &'1 int): (&'1 int) -> bb1"],
    "rest_of": ["_12 = &'1 mut _1.*.0", "_13 = &'1 mut _1.*",
                "struct Option <'p1 +, 'p2 =, 'p3 +, 'p4 => ()"],
    "of_union": ["struct Either <'p1 +> (int, &'p1 int)", "_0 = copy _1.1"],
    "two_phases": ["_4 = &'1 mut _1.*", "_7 = &'1 _1.*", "_8 = call PtrMetadata(copy _2: &'1 (&'2 int)): int -> bb2",
                   "switch move _9 bb4 bb6", "_5 = copy _2.*.0"],
    "for_all": ["_5 = call call(move _6: &'1 int, move _7: (&'2 int, &'3 int)): &'4 int where '2: '4 -> bb3 unwind bb7"],
    "item_of": ["_0 = call next(move _2: &'1 mut int): int -> bb1 unwind bb3", "drop _1 -> bb2 unwind bb4"],
    "counted": ["let _1: (&'1 int)", "_0 = copy _1.0"],
    "by_object": ["struct Fn <'p1 +> ()", "_0 = call call(move _3: &'1 Fn<'2>, move _4: (&'3 int)): int -> bb1 unwind bb2"],
    "changed": ["_13.* = move _14", "_4 = &'1 mut _1.*.1", "_5 = &'1 mut _1.*.2",
                "_14 = call Both(move _15: &'1 int, move _16: &'1 int): Shape<'1> -> bb2",
                "_0 = call Div(move _8: int, move _9: int): int -> bb12"],
    "WORD::{constant#0}::{closure#0}": ["_4 = call static(): &'static EagerStorage<'static> -> bb1"],
    "enough": ["_0 = call hide(move _9: int): Result<'1> where '1: '2, '3: '4, '5: '3, '4: '3, '2: '1 -> bb5"],
    "with_length": ["_0 = call hide(move _2: Closure0<'1, '2>, move _3: int): (Opaque0<'3>, int) where '3: '2, '2: '3 -> bb3"],
    "kept_by_a_closure": ["_3 = call closure(move _4: &'1 mut Option<'2>, move _5: &'3 &'4 int): Closure0<'1, '2, '3, '4> "
                          "where '4: '2, '4: '5, '6: '2, '6: '5 -> bb2"],
    "nested::{closure#0}": ["_3 = call closure(copy _1.0: &'1 int): Closure0_2<'1, '2> where '3: '2, '1: '2 -> bb1",
                            "struct Closure0 <'p1 =, 'p2 =, 'p3 => (&'p1 int)"],
}

# What `nllc check` says of a text; of all others it is `ok`. What a closure needs is asked of the function around it.
FAULTS = {"wrong": [("a", "b")], "captures::{closure#0}": [("r4", "r2")],
          "iterated::{closure#0}": [("r1", "r2")], "opaque::{closure#0}": [("r1", "r2")],
          "nested::{closure#0}": [("r3", "r1"), ("r3", "r2")], "nested::{closure#0}::{closure#0}": [("r2", "r1")],
          "WORD::{constant#0}::{closure#0}": [("r2", "static")], "WORD::{constant#0}::{closure#1}": [("r2", "static")],
          "kept_by_a_closure::{closure#0}": [("r4", "r2")],
          "enough::{closure#0}": [("r1", "r2")], "with_length::{closure#0}": [("r2", "r1")],
          "of_thread::{closure#0}": [("r1", "r2"), ("r4", "r1"), ("r4", "r2")]}
WITHOUT = {"waits::{closure#0}": "a coroutine", "two_parts": "captures that rustc doesn't print"}


class Forms(unittest.TestCase):
    def test_lines(self):
        for function, wanted in LINES.items():
            lines = [mir.shortened(line) for line in mir.lines_of(function)]
            for line in wanted:
                with self.subTest(function=function, line=line):
                    self.assertIn(mir.shortened(line), lines)

    def test_without_a_text(self):
        found = {name: one.reason for name, one in mir.made().items() if not one.text}
        self.assertEqual(found, WITHOUT)

    def test_remarks(self):
        text = mir.made()["boxed"].text
        for remark in ("# function: boxed", "# source: sources/forms.rs", "# _1 is place, of line 131", "# line 133",
                       "#   .0 is what it points to"):
            self.assertIn(remark, text.splitlines())

    def test_a_line_for_each_of_rustc(self):
        """A text has one point for each location of rustc, in order."""
        for name, one in mir.made().items():
            if one.text:
                with self.subTest(function=name):
                    more = problem_of(one).points - locations(one.dump)
                    self.assertIn(more, (0, 1), "one more is the stop behind a call that never returns")


def problem_of(made):
    """The problem of a text, by the slow reader, which knows nothing of this translation."""
    return support.reference.Body(support.reference.said_in(made.text.encode()))


def locations(dump):
    with open(os.path.join(dump.facts, "cfg_edge.facts"), encoding="utf-8") as file:
        return len({field.partition("(")[2] for line in file for field in line.strip().split("\t")})


class Answers(unittest.TestCase):
    def test_faults(self):
        for name, one in mir.made().items():
            if one.text:
                with self.subTest(function=name):
                    problem = problem_of(one)
                    found = [(a.decode(), b.decode()) for a, b in
                             support.reference.faults(problem, support.reference.solve(problem))]
                    self.assertEqual(found, FAULTS.get(name, []))


class BadDumps(unittest.TestCase):
    """A dump of another form gives a reason, and no text."""

    def changed(self, change):
        dump = mir.made()["fields"].dump
        with tempfile.TemporaryDirectory() as room:
            path = os.path.join(room, os.path.basename(dump.mir))
            shutil.copy(f"{dump.mir.removesuffix('.mir')}.regioncx.all.dot", room)
            with open(dump.mir, "rb") as file:
                text = change(file.read().decode())
            with open(path, "wb") as file:
                file.write(text if isinstance(text, bytes) else text.encode())
            return text_of(replace(dump, mir=path), mir.known())

    def test_cut(self):
        for at in ("bb1: {", "return;", "}\n}"):
            with self.subTest(at=at):
                made = self.changed(lambda text: text[:text.rindex(at)])
                self.assertEqual((made.text, made.reason), ("", "a dump that isn't whole"))

    def test_another_form(self):
        for what, change in (("another title", "strange\n".__add__), ("nothing", lambda text: ""),
                             ("a title alone", lambda text: text[:text.index("fn ")]),
                             ("another encoding", lambda text: text.encode("utf-16"))):
            with self.subTest(what=what):
                made = self.changed(change)
                self.assertEqual((made.text, made.reason), ("", NOT_READ))

    def test_another_form_of_a_line(self):
        """What isn't read isn't left out: a text that lacks it would say something else."""
        for old, new in (("due to", "because of"), ("live at {", "lives at {"), ("| Inference Constraints", "| Asked"),
                         ("    bb0: {", "    block 0: {"), ("// bb0[1]: ", "// bb0[2]: "), ("StorageLive(_3)", "StorageLive(_33)"),
                         ("move _3, move _4)", "move _3, move _44)"), ("        StorageLive(_4); ", "        StorageLive(_4)"),
                         ("-> [return: bb1, unwind: bb2]", "-> [return: bb1, unwind: bb22]")):
            with self.subTest(old=old, new=new):
                made = self.changed(lambda text: text.replace(old, new, 1) if old in text else "")
                self.assertEqual((made.text, made.reason), ("", NOT_READ))

    def test_a_line_that_is_not_understood(self):
        for old, new, reason in (("StorageLive(_3)", "Retag(_3)", "a statement that isn't understood"),
                                 ("unwind: bb2]", "unwind:: bb2]", "a terminator that isn't understood"),
                                 ("        resume; ", "        leave; ", "a terminator that isn't understood"),
                                 ("        resume; ", "        drop(_3) -> [return: bb1, drop: bb2]; ", "a coroutine"),
                                 ("_0 = copy ((*_1)", "_0 = Strange((copy ((*_1)", "a type that isn't understood"),
                                 ("_0 = copy ((*_1).0: &'?10 str)", "_0 = Strange(copy ((*_1).0: &'?10 str))",
                                  "a value that isn't understood")):
            with self.subTest(new=new):
                made = self.changed(lambda text: text.replace(old, new, 1) if old in text else "")
                self.assertEqual((made.text, made.reason), ("", reason))

    def test_a_type_that_is_not_understood(self):
        made = self.changed(lambda text: text.replace("&'?11 str", "strange(&'?11 str)"))
        self.assertEqual((made.text, made.reason), ("", "a type that isn't understood"))

    def test_without_regions(self):
        """As a dump without -Zverbose-internals is."""
        made = self.changed(lambda text: text.replace("&'?", "&'"))
        self.assertEqual((made.text, bool(made.reason)), ("", True))
