"""Answers a Rust file by MIR texts: the problems that nllc's rules make of them, in the words of facts texts.

Points, loans and remarks stay those of the facts texts; base elements and constraints are of the rules. So a function is
answered, and shown, as it is without its MIR text.
"""

import os
import re
from typing import Callable, Union

from nllc_tools.commands.texts import problem_of
from nllc_tools.model.facts import ALL, Facts
from nllc_tools.model.problem import Problem
from nllc_tools.model.remarks import Remark
from nllc_tools.model.typed_function import TypedFunction
from nllc_tools.rustc.dumps import Dump
from nllc_tools.rustc.mir.function import Function
from nllc_tools.rustc.mir.types import STATIC
from nllc_tools.texts.mir.functions import Made
from nllc_tools.texts.mir.text import names_of

NUMBERED = re.compile(r"r(\d+)")
MADE_HERE = Remark(None, "of a signature, new at each call")
STOP = Remark(None, "stop, after a call that never returns")


def problem_by_rules(made: Made, told: Problem) -> Problem:
    """The problem of a MIR text, with what is told of the function."""
    function, known = Function(made.dump), class_names(made.dump)
    facts, by = problem_of(os.path.basename(made.dump.mir), made.text.encode())
    number = numbers_of(function)

    def name(region: int) -> str:
        found = number(facts.names[region])
        return found if isinstance(found, str) else known(found)

    names = [name(region) for region in range(len(facts.names))]
    universals = {own for own, _ in told.universals} | {"static"}
    remarks = dict(told.regions)
    others = [own for own in dict.fromkeys(names) if own not in universals]
    bases: dict[str, set[int]] = {own: set() for own in others}
    for own, base in zip(names, facts.bases):
        if own in bases:
            bases[own] |= set(base)
    return Problem(
        function=told.function, source=told.source, outlives=told.outlives, universals=told.universals,
        points=[*told.points, *[STOP] * (facts.points - len(told.points))],
        regions=[(own, remarks.get(own, MADE_HERE)) for own in others],
        successors=[sorted(successors) for successors in facts.successors], returns=list(facts.returns),
        bases=[(own, sorted(base)) for own, base in bases.items() if base],
        constraints=sorted(asked_by(facts, names), key=lambda one: (one[2], *one[:2])),
        beside=told.beside, way=f"nllc's rules, of the function's MIR text. {by}")


def asked_by(facts: Facts, names: list[str]) -> set[tuple[str, str, int]]:
    """The constraints; one at all points is at each."""
    found = set()
    for sup, sub, at in facts.constraints:
        if names[sup] != names[sub]:
            points = range(facts.points) if at == ALL else (at,)
            found |= {(names[sup], names[sub], point) for point in points}
    return found


def class_names(dump: Dump) -> Callable[[int], str]:
    """How a facts text calls rustc's regions."""
    function = TypedFunction(dump)
    find, names = function.regions.find, function.names
    return lambda region: names.get(find(region), f"r{find(region)}")


def numbers_of(function: Function) -> Callable[[str], Union[int, str]]:
    """rustc's numbers of the regions of a MIR text; of one that the text made, its name."""
    own = {name: number for number, name in names_of(function).items()} | {"static": STATIC}

    def number(name: str) -> Union[int, str]:
        numbered = NUMBERED.fullmatch(name)
        return own.get(name, int(numbered[1]) if numbered else name)

    return number
