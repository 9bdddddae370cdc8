"""A function's problem and values by two ways: by its MIR text and nllc's rules, and by rustc's facts.

Regions are told by rustc's numbers, each by one of those that it equals everywhere, as in a facts text; points by the
order of rustc's locations; the end of a universal region is its number below 0, less one.
"""

import os
import subprocess
from collections import defaultdict
from dataclasses import dataclass, field

from nllc_tools.base import walks
from nllc_tools.commands.rules import numbers_of
from nllc_tools.model.facts import ALL, Facts
from nllc_tools.model.points import Points
from nllc_tools.model.problem import Problem as FactsProblem
from nllc_tools.model.regions import Regions
from nllc_tools.model.typed_function import TypedFunction
from nllc_tools.rustc.mir.function import Function
from nllc_tools.rustc.tables import Tables
from nllc_tools.texts.facts.conversion import problem_of
from nllc_tools.texts.facts.writer import facts_text

STATIC = 0


@dataclass
class Problem:
    """Base elements, constraints as a larger region, a smaller one and a point, or ALL, and values.

    The asserts are the constraints at all points once more, between regions that are told by their own numbers.
    """

    bases: set[tuple[int, int]] = field(default_factory=set)
    constraints: set[tuple[int, int, int]] = field(default_factory=set)
    asserts: set[tuple[int, int]] = field(default_factory=set)
    values: dict[int, frozenset[int]] = field(default_factory=dict)


@dataclass
class Both:
    """A function by both ways."""

    function: Function
    tables: Tables
    points: Points
    regions: Regions
    known: set[int]
    rules: Problem
    facts: Problem


class Answering:
    """Has nllc answer texts that stand in a folder."""

    def __init__(self, nllc: str, room: str):
        self.nllc, self.room = nllc, room

    def values(self, text: str, ending: str) -> dict[str, list[str]]:
        """For each region of a text, with its `'`, the elements that nllc prints."""
        path = os.path.join(self.room, f"{os.getpid()}.{ending}")
        with open(path, "w", encoding="utf-8") as file:
            file.write(text)
        done = subprocess.run([self.nllc, "values", path], stdin=subprocess.DEVNULL, capture_output=True, check=False,
                              text=True, timeout=300)
        if done.returncode:
            raise ValueError(f"nllc refuses a text: {done.stderr.strip()}")
        lines = (line.partition(":") for line in done.stdout.split("\n") if line)
        return {name: elements.split() for name, _, elements in lines}


class Reading:
    """What rustc left of a function, and the problem of its facts text."""

    def __init__(self, dump):
        self.function = Function(dump)
        typed = TypedFunction(dump)
        self.tables, self.points, self.regions = typed.tables, typed.points, typed.regions
        self.facts, self.text, self.numbers = facts_problem(typed)

    def add_values(self, text: str, answering: Answering) -> dict[int, frozenset[int]]:
        """Has nllc find the values of both texts; gives those of the MIR text."""
        self.facts.values = values_by_facts(answering.values(facts_text(self.text), "facts"), self.numbers)
        return values_by_rules(answering.values(text, "mir"), self.function, self.regions, self.points)


def both_of(reading: Reading, said: Facts) -> Both:
    """Both problems of a function, by what the rules make of its MIR text."""
    rules, known = rules_problem(said, reading.function, reading.regions, len(reading.points.locations))
    facts = reading.facts
    rules.constraints = between(rules.constraints, known)
    facts.constraints = between(facts.constraints, known)
    facts.bases = {(region, point) for region, point in facts.bases if region in known}
    return Both(reading.function, reading.tables, reading.points, reading.regions, known, rules, facts)


def differing(rules: dict[int, frozenset[int]], facts: dict[int, frozenset[int]]) -> list[int]:
    """The regions whose values differ; that of 'static says nothing, since it outlives each region."""
    return [region for region, value in sorted(rules.items())
            if region != STATIC and value != facts.get(region, frozenset())]


def known(regions: Regions, number):
    """The region that is known for those that equal one of rustc's; a name that has no number stays."""
    return number if isinstance(number, str) else regions.find(number)


def rules_problem(facts: Facts, function: Function, regions: Regions, count: int) -> tuple[Problem, set[int]]:
    """What the rules make of a MIR text, and the regions in it; a point behind those of rustc is the text's own stop."""
    own = list(map(numbers_of(function), facts.names))
    numbers = [known(regions, one) for one in own]
    universals = {STATIC, *regions.universals}
    problem = Problem()
    for region, base in zip(numbers, facts.bases):
        if isinstance(region, int) and region not in universals:
            problem.bases |= {(region, point) for point in base if point < count}
    for sup, sub, at in facts.constraints:
        if numbers[sup] not in (numbers[sub], STATIC) and at < count:
            problem.constraints.add((numbers[sup], numbers[sub], at))
        if at == ALL:
            problem.asserts.add((own[sup], own[sub]))
    return problem, {one for one in numbers if isinstance(one, int)} | {STATIC}


def values_by_rules(said: dict[str, list[str]], function: Function, regions: Regions, points: Points) -> dict:
    """The values of a MIR text: its points are `bb1/2`, of blocks that are cut further than rustc's."""
    names = [name.removeprefix("'") for name in said]
    numbers = {name: known(regions, number) for name, number in zip(names, map(numbers_of(function), names))}
    order = {label: number for number, label in enumerate(said["'static"]) if label.startswith("bb")}
    found: dict[int, frozenset[int]] = {}
    for name, elements in zip(names, said.values()):
        if isinstance(numbers[name], int):
            own = {-1 - numbers[one[5:-1]] if one.startswith("end(") else order[one] for one in elements}
            found[numbers[name]] = found.get(numbers[name], frozenset()) | frozenset(
                one for one in own if one < len(points.locations))
    return found


def values_by_facts(said: dict[str, list[str]], numbers: dict[str, int]) -> dict:
    return {numbers[name.removeprefix("'")]: frozenset(
        -1 - numbers[one[5:-1]] if one.startswith("end(") else int(one) for one in elements)
        for name, elements in said.items()}


def facts_problem(typed: TypedFunction) -> tuple[Problem, FactsProblem, dict[str, int]]:
    """The problem of the facts text, whose constraints at all points are told as such; what the text is written of; and
    rustc's numbers of the text's names.
    """
    text, tables, regions = problem_of(typed), typed.tables, typed.regions
    numbers = {name: region for region, name in typed.names.items()}
    everywhere = {(regions.find(a), regions.find(b)) for a, b in tables.subset_base.everywhere}
    problem = Problem()
    problem.bases = {(numbers[name], point) for name, live in text.bases for point in live}
    problem.constraints = {(a, b, at) for a, b, at in typed.constraints if a != STATIC and (a, b) not in everywhere}
    problem.constraints |= {(a, b, ALL) for a, b in everywhere if a not in (b, STATIC)}
    problem.asserts = {(a, b) for a, b in tables.subset_base.everywhere if a not in (b, STATIC)}
    return problem, text, numbers


def between(constraints: set[tuple], known: set[int]) -> set[tuple[int, int, int]]:
    """The constraints between regions that both ways know: chains at one point through others are one constraint.

    A region that one line alone speaks of has no base elements; so its value is what is asked of it there, and a chain
    through it asks the same as its ends.
    """
    onwards: dict[int, dict] = defaultdict(lambda: defaultdict(set))
    for sup, sub, at in constraints:
        onwards[at][sup].add(sub)
    found = set()
    for at, following in onwards.items():
        for begin in following:
            if begin in known:
                found |= {(begin, end, at) for end in reached(following, begin, known) if end != begin}
    return found


def reached(following: dict, begin, stops: set) -> set:
    """The stops to which chains lead that go through no stop."""
    return walks.reached(following.get(begin, ()), lambda one: () if one in stops else following.get(one, ())) & stops


def closed(constraints: set[tuple[int, int, int]], points: set[int]) -> set[tuple[int, int, int]]:
    """All that follows by chains from the constraints at these points, and at all points."""
    everywhere: dict[int, set] = defaultdict(set)
    at_point: dict[int, dict] = defaultdict(lambda: defaultdict(set))
    for sup, sub, at in constraints:
        if at == ALL:
            everywhere[sup].add(sub)
        elif at in points:
            at_point[at][sup].add(sub)
    found = set()
    for at in points:
        own = at_point[at] if at != ALL else {}
        following = {sup: own.get(sup, set()) | everywhere.get(sup, set()) for sup in {*own, *everywhere}}
        for begin in following:
            found |= {(begin, end, at)
                      for end in walks.reached(following[begin], lambda one, onward=following: onward.get(one, ()))}
    return found
