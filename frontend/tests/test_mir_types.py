"""Types, places and lines of rustc's MIR dumps are read; what is expected was written by hand."""

import unittest

import facts_support  # noqa: F401 (it puts the frontend on the path)
from nllc_tools.rustc.mir.statement_reader import read_statement, read_terminator
from nllc_tools.rustc.mir.statements import Assign, Call, Constant, Drop, Foreign, Jump, Leave, Place, Read, Step, Storage
from nllc_tools.rustc.mir.type_reader import read_type
from nllc_tools.rustc.mir.types import PLAIN, UNIT, Type
from nllc_tools.rustc.unsaid import NotSaid

STR = Type("plain", "str")
U8 = Type("plain", "u8")


def reference(region, inside=STR, form="ref"):
    return Type(form, "", (region, inside))


class Types(unittest.TestCase):
    CASES = {
        "u8": U8,
        "!": PLAIN,
        "()": UNIT,
        "&'?5 str": reference(5),
        "&'?5 mut &'?0 str": reference(5, reference(0), "mut"),
        "(u8, &'?3 str)": Type("tuple", "", (U8, reference(3))),
        "(u8,)": Type("tuple", "", (U8,)),
        "[&'?2 str]": Type("slice", "", (reference(2),)),
        "[u8; ValTree(Leaf(0x0000000000000002): usize)]": Type("slice", "", (U8,)),
        "*const u8": Type("pointer", "", (U8,)),
        "*mut &'?7 str": Type("mut pointer", "", (reference(7),)),
        "std::option::Option<&'?4 str>": Type("adt", "std::option::Option", (reference(4),)),
        "Pair<'?1, '?2>": Type("adt", "Pair", (1, 2)),
        "<I as std::iter::Iterator>::Item": Type("alias", "<Iterator>::Item", (Type("plain", "I"),)),
        "(dyn std::fmt::Debug + '?9)": Type("dyn", "std::fmt::Debug", (9,)),
        "std::boxed::Box<(dyn std::ops::Fn<(&'?1 str,), Output = u8> + '?2)>": Type("adt", "std::boxed::Box", (
            Type("dyn", "std::ops::Fn", (Type("tuple", "", (reference(1),)), U8, 2)),)),
        "fn(u8) -> &'?3 str": Type("fn", "", (U8, reference(3))),
        "for<Region(BrNamed(DefId(0:9 ~ input[95fa]::f::'_)))> fn(&'^0.Named(DefId(0:9 ~ input[95fa]::f::'_)) str)":
            Type("fn", "", (reference("^0"), UNIT)),
        "{f::{closure#0} closure_kind_ty=i8 closure_sig_as_fn_ptr_ty=extern \"rust-call\" fn((u8,)) upvar_tys=(&'?6 str,)}":
            Type("closure", "f::{closure#0}", (Type("tuple", "", (reference(6),)),
                                               Type("fn", "", (Type("tuple", "", (U8,)), UNIT)))),
        "Opaque(DefId(0:7 ~ input[95fa]::f::{opaque#0}), ['?4, T])":
            Type("alias", "DefId(0:7 ~ input[95fa]::f::{opaque#0})", (4, Type("plain", "T"))),
        "&mut {closure@a.rs:1:2: 3:4}": reference("^", Type("closure", "{closure@a.rs:1:2: 3:4}"), "mut"),
        "Filter<Iter<'_, u8>, {async block@a.rs:1:2: 3:4}>": Type("adt", "Filter", (
            Type("adt", "Iter", ("'_", U8)), Type("closure", "{async block@a.rs:1:2: 3:4}"))),
        "impl Fn(u8) -> u8": Type("plain", "impl Fn(u8) -> u8"),
    }

    def test_types(self):
        for text, wanted in self.CASES.items():
            with self.subTest(type=text):
                self.assertEqual(read_type(text), wanted)

    def test_regions_in_order(self):
        self.assertEqual(read_type("(&'?3 Pair<'?1, '?2>, fn(&'?1 str))").regions(), [3, 1, 2, 1])

    def test_what_is_no_type(self):
        for text in ("", "&'?5", "(u8", "Vec<u8", "u8 u8", "{f::{closure#0} strange}"):
            with self.subTest(type=text), self.assertRaises(NotSaid):
                read_type(text)


class Lines(unittest.TestCase):
    FIELD = Step("field", "Some", 0, reference(5))
    STATEMENTS = {
        "StorageLive(_3)": Storage(True, 3),
        "StorageDead(_13)": Storage(False, 13),
        "FakeRead(ForMatchedPlace(None), _2)": Read(Place(2)),
        "PlaceMention((*_1))": Read(Place(1, (Step("deref"),))),
        "_2 = copy _1": Assign(Place(2), "use", (Place(1),)),
        "_2 = move ((_1 as Some).0: &'?5 str)": Assign(Place(2), "use", (Place(1, (FIELD,), True),)),
        "(*_2)[_3] = const ConstValue(Scalar(0x01): u8)": Assign(
            Place(2, (Step("deref"), Step("index"))), "use", (Constant("value", U8),)),
        "_2 = &'?4 mut (*_1)": Assign(Place(2), "mut", (Place(1, (Step("deref"),)),), region=4),
        "_2 = &'?4 fake shallow _1": Assign(Place(2), "fake", (Place(1),), region=4),
        "_2 = &raw const (*_1)": Assign(Place(2), "raw", (Place(1, (Step("deref"),)),), word="const"),
        "_2 = &/*tls*/ words::WORD::{constant#0}::VALUE": Assign(Place(2), "static"),
        "_2 = discriminant(_1)": Assign(Place(2), "pair", (Place(1),), word="discriminant"),
        "_3 = Lt(move _1, copy _2)": Assign(Place(3), "pair", (Place(1, (), True), Place(2)), word="Lt"),
        "_2 = move _1 as &'?4 [u8] (PointerCoercion(Unsize, Implicit))": Assign(
            Place(2), "cast", (Place(1, (), True),), reference(4, Type("slice", "", (U8,))), "Unsize"),
        "_3 = (copy _1, copy _2)": Assign(Place(3), "tuple", (Place(1), Place(2))),
        "_3 = [copy _1; 4]": Assign(Place(3), "repeat", (Place(1),)),
        "_3 = std::option::Option::<&'?4 str>::Some(move _1)": Assign(
            Place(3), "make", (Place(1, (), True),), Type("adt", "std::option::Option::Some", (reference(4),))),
        "_3 = Pair::<'?1, '?2> { first: copy _1, second: copy _2 }": Assign(
            Place(3), "make", (Place(1), Place(2)), Type("adt", "Pair", (1, 2))),
        "_3 = {closure@a.rs:1:2: 3:4} { text: copy _1 }": Assign(
            Place(3), "make", (Place(1),), word="{closure@a.rs:1:2: 3:4}"),
        "_2 = &mut _1": Assign(Place(2), "mut", (Place(1),), region="^"),
        "_2 = copy _1[1..3]": Assign(Place(2), "use", (Place(1, (Step("part"),)),)),
        "_2 = [const 'a', const \"(\"]": Assign(Place(2), "array", (Constant('""'), Constant('""'))),
    }
    TERMINATORS = {
        "return": Leave(True),
        "resume": Leave(True),
        "unreachable": Leave(False),
        "goto -> bb3": Jump((3,)),
        "falseEdge -> [real: bb4, imaginary: bb3]": Jump((4, 3)),
        "switchInt(move _5) -> [0: bb4, otherwise: bb3]": Jump((4, 3), (Place(5, (), True),)),
        'assert(!copy _5, "an overflow -> of {}", copy _1) -> [success: bb2, unwind: bb7]': Jump((2, 7), (Place(5), Place(1))),
        "drop(_3) -> [return: bb1, unwind: bb2]": Drop(Place(3), (1, 2)),
        "drop(_1) -> [return: bb1, unwind: bb3, drop: bb2]": Drop(Place(1), (1, 3, 2), True),
        "drop((*_3)) -> [return: bb1, unwind terminate(cleanup)]": Drop(Place(3, (Step("deref"),)), (1,)),
        "_3 = move _2(copy _1) -> [return: bb1, unwind continue]": Call(
            Place(3), Place(2, (), True), (Place(1),), 1, None),
        "_3 = ConstValue(ZeroSized: fn(u8) -> ! {stops})(copy _1) -> unwind bb4": Call(
            Place(3), Constant("value", Type("function", "stops", (Type("path"), Type("fn", "", (U8, PLAIN))))),
            (Place(1),), None, 4),
    }

    def test_statements(self):
        for text, wanted in self.STATEMENTS.items():
            with self.subTest(statement=text):
                self.assertEqual(read_statement(text), wanted)

    def test_terminators(self):
        for text, wanted in self.TERMINATORS.items():
            with self.subTest(terminator=text):
                self.assertEqual(read_terminator(text), wanted)

    def test_what_has_no_form(self):
        for text in ("_3 = ", "strange(_1)", "_1 = copy x", "_1 = Strange(move", "_1 = Some(strange _2)"):
            with self.subTest(statement=text), self.assertRaises(NotSaid):
                read_statement(text)
        with self.assertRaises(NotSaid):
            read_terminator("strange -> bb1")

    def test_what_no_text_says(self):
        for text, reason, operands in (("_3 = yield(move _1) -> [resume: bb1, drop: bb2]", "a coroutine", (Place(1, (), True),)),
                                       ('asm!("nop") -> bb1', "assembler", ())):
            with self.subTest(terminator=text):
                found = read_terminator(text)
                self.assertEqual((type(found), found.reason.reason, found.operands), (Foreign, reason, operands))
