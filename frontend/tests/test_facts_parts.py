"""The parts of the facts tool on small made-up inputs."""

import os
import unittest
from types import SimpleNamespace

import facts_support as support
from rooms import Room
from nllc_tools.base.files import free_path, write_whole
from nllc_tools.base.refusal import Refusal
from nllc_tools.commands.page import main as page
from nllc_tools.model.liveness import bases
from nllc_tools.model.problem import Problem
from nllc_tools.model.remarks import Remark
from nllc_tools.model.regions import Regions, name_regions
from nllc_tools.rustc.dumps import Dump, file_name, type_name
from nllc_tools.rustc.functions import Found, choose
from nllc_tools.rustc.mir.body import Body, Local
from nllc_tools.rustc.mir.spans import Span
from nllc_tools.rustc.tables import Location, Reader, Spot, Subsets, Tables, read_tables
from nllc_tools.rustc.units import Unit
from nllc_tools.texts.facts.wording import Wording


def tables(**given):
    """Tables that are empty but for some."""
    rows = {name: [] for name in Tables.__dataclass_fields__}
    rows["subset_base"] = Subsets(set(), set())
    return Tables(**(rows | given))


def chain(length):
    """The edges of one block."""
    spots = [Spot(Location(0, i), mid) for i in range(length) for mid in (False, True)]
    return list(zip(spots, spots[1:]))


def mid(index):
    return Spot(Location(0, index), True)


class Liveness(unittest.TestCase):
    def live(self, **given):
        return sorted({location.index for _, location in bases(tables(cfg_edge=chain(6), **given))})

    def test_from_definition_to_last_use(self):
        self.assertEqual(self.live(use_of_var_derefs_origin=[(1, 5)], var_defined_at=[(1, mid(1))],
                                   var_used_at=[(1, mid(2)), (1, mid(4))]), [2, 3, 4])

    def test_a_point_that_uses_and_defines_is_a_use(self):
        self.assertEqual(self.live(use_of_var_derefs_origin=[(1, 5)], var_defined_at=[(1, mid(2))],
                                   var_used_at=[(1, mid(2))]), [0, 1, 2])

    def drops(self, **given):
        return self.live(drop_of_var_derefs_origin=[(1, 5)], var_dropped_at=[(1, mid(4))],
                         path_is_var=[(7, 1)], **given)

    def test_drops(self):
        """Of what is there, was moved, was moved in part, and was never there."""
        assigned = {"path_assigned_at_base": [(7, mid(1))]}
        for given, live in ((assigned, [2, 3, 4]), (assigned | {"path_moved_at_base": [(7, mid(3))]}, []),
                            (assigned | {"child_path": [(8, 7), (9, 7)], "path_moved_at_base": [(8, mid(3))]}, [2, 3, 4]),
                            ({}, [])):
            self.assertEqual(self.drops(**given), live, given)


class Merging(unittest.TestCase):
    def test_equal_regions_have_the_universal_name(self):
        regions = Regions(tables(universal_region=[0, 1, 2], subset_base=Subsets(
            {(1, 4), (4, 1), (4, 6), (6, 4), (5, 6)}, set())))
        self.assertEqual([regions.find(region) for region in (1, 4, 5, 6)], [1, 1, 5, 1])

    def test_universal_regions_stay_apart(self):
        regions = Regions(tables(universal_region=[0, 1, 2],
                                 subset_base=Subsets({(1, 2), (2, 1)}, set())))
        self.assertEqual([regions.find(1), regions.find(2)], [1, 2])

    def test_names_do_not_clash(self):
        body = Body("f", names={1: "a", 2: "r5", 3: "_", 4: "a"})
        self.assertEqual(name_regions(body, [1, 2, 3, 4, 5]),
                         {1: "a", 2: "r5", 3: "r3", 4: "r4", 5: "r5_"})


class Names(unittest.TestCase):
    def test_type_of_an_impl(self):
        for header, name in {
            "impl S": "S",
            "impl<'a, T: Fn() -> u8> module::S<'a, T>": "S",
            "unsafe impl<T> Send for Box<S<T>> where T: Send": "Box",
            "impl Iterator for &S": "S",
            "Debug": "derive(Debug)",
            "serde::Serialize": "derive(Serialize)",
            "&mut *self": None,
        }.items():
            self.assertEqual(type_name(header), name, header)

    def test_file_names(self):
        self.assertEqual(file_name("{impl#1}-get-{closure#0}"), "impl1-get-closure0")
        self.assertEqual(free_path("o", "f", ["o/f.facts", "o/f-2.facts"]), "o/f-3.facts")


class Chosen(unittest.TestCase):
    """Functions by what a person calls them."""

    ONE, TWO = Unit("", "one"), Unit("", "two", "root")
    FOUND = [Found(name, unit, Dump(name, name, "", "", Span(file, *lines))) for name, unit, file, lines in (
        ("one::f", ONE, "a.rs", (1, 9)), ("one::f::{closure#0}", ONE, "a.rs", (3, 4)),
        ("one::S::g", ONE, "a.rs", (11, 12)), ("two::f", TWO, "b.rs", (1, 2)))]

    def chosen(self, *words):
        return [one.name for one in choose(self.FOUND, words)]

    def test_smallest_function_around_a_line(self):
        self.assertEqual(self.chosen("3"), ["one::f::{closure#0}"])
        self.assertEqual(self.chosen("5", "5"), ["one::f"])
        self.assertEqual(self.chosen("a.rs:2", "root/b.rs:2"), ["one::f", "two::f"])
        self.refused("no function with facts has line 10 of a.rs", "a.rs:10")
        self.refused("several files have a function at line 2: give FILE:2", "2")

    def test_names(self):
        self.assertEqual(self.chosen("S::g", "two::f"), ["one::S::g", "two::f"])
        self.refused(r"`f` fits several functions: one::f \(line 1\), two::f \(line 1\); give one", "f")
        self.refused("no function `h` has facts .*; these do: one::f, one::f::{closure#0}, one::S::g, two::f", "h")

    def test_one_function_that_is_checked_in_two_ways(self):
        twice = [*self.FOUND, self.FOUND[0]._replace(unit=Unit("", "one"))]
        self.assertEqual(len(choose(twice, ["one::f"])), 2)

    def refused(self, words, *wanted):
        with self.assertRaisesRegex(Refusal, words):
            self.chosen(*wanted)


class Words(unittest.TestCase):
    def wording(self, local, origins):
        given = tables(universal_region=[0], use_of_var_derefs_origin=[(1, r) for r in origins])
        body = Body("f", locals={1: local})
        names = {region: f"r{region}" for region in origins}
        return Wording(SimpleNamespace(body=body, tables=given, regions=Regions(given), names=names))

    def test_regions_in_a_type(self):
        wording = self.wording(Local("&mut Vec<&S<'_>>", "x"), [3, 4, 5])
        self.assertEqual(wording.type_of(1, 4), "the type of x: &'r3 mut Vec<&'r4 S<'r5>>")

    def test_regions_without_a_place(self):
        wording = self.wording(Local("&dyn Debug", "x"), [3, 4])
        self.assertEqual(wording.type_of(1, 4), "region 2 of 2 in the type of x: &dyn Debug")

    def test_bound_regions_have_no_place(self):
        wording = self.wording(Local("(for<'a> fn(&'a str), &u8)"), [3])
        self.assertEqual(wording.type_of(1, 3),
                         "the type of the temporary _1: (for<'a> fn(&'a str), &'r3 u8)")

    def test_variables_in_strings_stay(self):
        wording = self.wording(Local("&u8", "x"), [3])
        self.assertEqual(wording.with_variables('_1 = "_1 \\" _1" _12 _1'),
                         'x = "_1 \\" _1" _12 x')


class Strange(Room):
    """Tables of another form are refused."""

    def test_missing_table(self):
        with self.assertRaisesRegex(Refusal, "rustc 1.95 is known to work"):
            read_tables(self.room)

    def test_row_of_another_form(self):
        for name in Tables.__dataclass_fields__:
            self.write(f"{name}.facts", '"a"\t"b"\n')
        with self.assertRaisesRegex(Refusal, "another form"):
            read_tables(self.room)

    def test_everywhere_and_located(self):
        self.write("subset_base.facts", '"\'?3"\t"\'?4"\t"Mid(bb0[1])"\n' '"\'?5"\t"\'?6"\t"Start(bb0[0])"\n'
                   '"\'?5"\t"\'?6"\t"Mid(bb0[0])"\n')
        subsets = Reader(self.room).subsets()
        self.assertEqual(subsets.everywhere, {(5, 6)})
        self.assertEqual(subsets.located, {(3, 4, mid(1))})


class Limits(unittest.TestCase):
    def problem(self, universals):
        named = [(f"a{n}", Remark(None, "")) for n in range(universals)]
        return Problem("f", "", [Remark(None, "")], named, [], [], [[]], [], [], [])

    def test_named_lifetimes(self):
        self.problem(255).check_limits()
        with self.assertRaisesRegex(Refusal, "f: 257 named lifetimes, and nllc takes at most 256; split"):
            self.problem(256).check_limits()


class Writing(Room):
    def test_nothing_half_written(self):
        path = self.path("f.facts")
        with self.assertRaises(UnicodeEncodeError):
            write_whole(path, "points 1\n\udc80")
        self.assertEqual(os.listdir(self.room), [])
        write_whole(path, "points 1\n")
        self.assertEqual(os.listdir(self.room), ["f.facts"])


class Pages(Room):
    """A page is made of each text, with the values of the slow reference."""

    def test_pages_of_the_golden_texts(self):
        self.slow()
        for source in support.SOURCES:
            folder = os.path.join(support.GOLDEN, source)
            for name in sorted(os.listdir(folder)):
                with self.subTest(text=f"{source}/{name}"):
                    self.assertEqual(self.called(page, [os.path.join(folder, name), "-o", self.room], NLLC="nllc")[0], 0)
