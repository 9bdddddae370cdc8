"""Compares liveness and values with those that rustc prints in its MIR dump.

Where variables are live is the same, but for the one point at which a statement mentions a region.
Each value is a part of rustc's, whose constraints hold at all points; what is beyond would be a
mistake of the conversion.
"""

import re
import tempfile
import unittest
from collections import defaultdict

import facts_support as support
from nllc_tools.model.liveness import bases
from nllc_tools.model.points import number_points
from nllc_tools.rustc.compiler import CRATE
from nllc_tools.rustc.dumps import find_dumps
from nllc_tools.rustc.mir.body import locations
from nllc_tools.rustc.mir.body_reader import read_body
from nllc_tools.rustc.tables import read_tables

VALUE = re.compile(r"\| '\?(\d+) \| U\d+ \| \{(.*)\}")
UNIVERSAL = re.compile(r"'\?(\d+)")


def stored_functions():
    """Each function of the stored dumps, with its source."""
    for source in support.SOURCES:
        with tempfile.TemporaryDirectory() as folder:
            support.unpack(source, folder)
            for dump in find_dumps(f"{folder}/facts", f"{folder}/mir", CRATE):
                if dump.is_function:
                    yield source, dump


class SameLiveness(unittest.TestCase):
    def test_bases(self):
        compared = 0
        for source, dump in stored_functions():
            with self.subTest(text=f"{source}/{dump.file_name}"):
                compared += self.compare(read_tables(dump.facts), dump.mir)
        self.assertGreater(compared, 500)

    def compare(self, tables, mir):
        own, printed, mentioned = defaultdict(set), read_body(mir), defaultdict(set)
        for region, location in bases(tables):
            own[region].add(location)
        for sup, sub, spot in tables.subset_base.located:
            mentioned[sup].add(spot.location)
            mentioned[sub].add(spot.location)
        for region in {*own, *printed.live} - set(tables.universal_region):
            self.assertLessEqual(own[region], printed.live_at(region), region)
            self.assertLessEqual(printed.live_at(region) - own[region], mentioned[region], region)
        return sum(map(len, own.values()))


class WithinRustc(unittest.TestCase):
    def test_values(self):
        compared = 0
        for source, dump in stored_functions():
            with self.subTest(text=f"{source}/{dump.file_name}"):
                compared += self.compare(dump, support.golden_text(source, dump.file_name))
        self.assertGreater(compared, 150)

    def compare(self, dump, text):
        numbers = number_points(read_tables(dump.facts), read_body(dump.mir)).number
        inferred = rustc_values(dump.mir, numbers)
        problem = support.said(text)
        values = support.reference.solve(problem)
        own = {f"r{number}": number for number in inferred}
        names = read_body(dump.mir).names
        own.update({name: number for number, name in names.items()})
        for name in problem.names():
            points, ends = inferred[own[name.decode()]]
            value = values[name]
            self.assertLessEqual({e for e in value if e < problem.points}, points, name)
            held = {own[problem.universals[e - problem.points].decode()]
                    for e in value if e >= problem.points}
            self.assertLessEqual(held, ends, name)
        return len(problem.names())


def rustc_values(mir, numbers):
    """For each of rustc's regions its points by number, and the universal regions it holds."""
    values = {}
    with open(mir, encoding="utf-8") as file:
        for found in filter(None, map(VALUE.fullmatch, file.read().split("\n"))):
            points = {numbers[location] for location in locations(found[2])}
            values[int(found[1])] = points, {int(end) for end in UNIVERSAL.findall(found[2])}
    return values
