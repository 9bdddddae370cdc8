"""Why a loan is in force: the region that rustc names for it, and the use."""

import re
from bisect import bisect_left
from functools import partial
from typing import Callable, Optional

from nllc_tools.base.walks import backwards, shortest
from nllc_tools.judge.faults import Cause
from nllc_tools.model import chains
from nllc_tools.model.facts import ALL, Facts
from nllc_tools.model.values import Values

STATIC = 0
NUMBERED = r"r\d+|_+"      # how regions are called that have no name
UNWIND = r"\bunwind: (bb\d+)|\) -> (bb\d+)$"   # a call that never returns has the second form


def why(facts: Facts, values: Values, region: int, point: int) -> Cause:
    """The nearest region for whose sake this one holds the point."""
    came_by: dict[int, Optional[chains.Step]] = {region: None}
    nearest = [region]
    for sup in nearest:
        if facts.is_universal(sup):
            goal = upper_bound(facts, values, region, sup)
            steps = steps_to(came_by, sup) if goal == sup else chains.chain(facts, values, region, goal)
            return Cause(goal, None, False, steps)
        if point in facts.bases[sup] and not ends_in(facts, values, sup):
            return used(facts, sup, point, steps_to(came_by, sup))
        for constraint in facts.by_sup.get(sup, ()):
            sub = constraint.sub
            if sub not in came_by and values.has(sub, point):
                onward = chains.ways_to(facts, values.set_of(sub), [point])
                if constraint.at == ALL or constraint.at in onward:
                    came_by[sub] = chains.step_by(constraint, onward)
                    nearest.append(sub)
    ends = ends_in(facts, values, region)
    return Cause(ends[0], None, False, chains.chain(facts, values, region, ends[0])) if ends \
        else used(facts, region, point, [])


def ends_in(facts: Facts, values: Values, region: int) -> list[int]:
    """The universal regions whose ends a region holds, so that a use says nothing of it."""
    elements = values.elements(region)
    return [element - facts.points for element in elements[bisect_left(elements, facts.points):]]


def upper_bound(facts: Facts, values: Values, region: int, nearest: int) -> int:
    """The universal region that rustc names of those that a region must outlive: one that outlives all of them.

    Where it knows none, it takes the last one that has a name, else the first.
    """
    ends = ends_in(facts, values, region) or [nearest]
    bound = ends[0]
    for one in ends[1:] if bound != STATIC else ():
        if (bound, one) not in facts.outlives \
                and ((one, bound) in facts.outlives or not re.fullmatch(NUMBERED, facts.names[one])):
            bound = one
    return bound


def steps_to(came_by: dict[int, Optional[chains.Step]], region: int) -> list[chains.Step]:
    """The steps from the region to the loan's."""
    return backwards(came_by, region, lambda step: step.constraint.sup)


def used(facts: Facts, region: int, point: int, steps: list[chains.Step]) -> Cause:
    """The cause with the nearest point, from this one on, that uses or drops a variable of it.

    Ways on which a panic goes out are looked at where no other leads to one, as rustc does.
    """
    beside, name, live = facts.remarks.beside, facts.names[region], facts.bases[region]
    uses = beside.uses.get(name, set())
    either = live & (uses | beside.drops.get(name, set()))
    onwards: list[Callable[[int], list[int]]] = [partial(without_unwinding, facts), facts.successors.__getitem__]
    for onward in onwards:
        came_by = shortest([point], lambda here: ((one, here) for one in onward(here) if one in live))
        for use in filter(either.__contains__, came_by):
            place = beside.called.get((use, None)) or beside.captured.get((use, name)) or beside.used.get(use)
            return Cause(region, use, use not in uses, steps, place)
    return Cause(region, None, False, steps)


def without_unwinding(facts: Facts, point: int) -> list[int]:
    """The points that follow where nothing panics."""
    found = re.search(UNWIND, facts.remarks.point(point).statement())
    if not found:
        return facts.successors[point]
    return [one for one in facts.successors[point] if block_of(facts, one) != (found[1] or found[2])]


def block_of(facts: Facts, point: int) -> str:
    """The block of a point; nothing where no remark says it."""
    spot = facts.remarks.point(point).spot()
    return spot[0] if spot else ""
