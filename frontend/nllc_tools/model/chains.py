"""How an end came into the value of a region: a shortest chain of constraints and walks.

A region x that isn't b holds the end of b because of a constraint (x: y) @ P such that a walk
inside y leads from P to a return point, and y holds the end too; or because of a constraint
(x: y) @ all, where y holds the end; and so on, until y is b, which holds its end from the start. The
chain goes from b to x. Of all chains it has the fewest constraints, and of those the fewest points.

Whether a region holds an element is asked of the values alone.
"""

import heapq
from collections import deque
from typing import AbstractSet, Iterable, NamedTuple, Optional, Sequence

from nllc_tools.base.grouping import grouped
from nllc_tools.base.walks import backwards
from nllc_tools.model.facts import ALL, Constraint, Facts
from nllc_tools.model.values import Values


class Step(NamedTuple):
    """A constraint, and a shortest walk inside its smaller region from its point to a return point;
    no walk where it holds at all points.
    """

    constraint: Constraint
    walk: list[int]


# For each point from which a walk comes to a goal: of how many points, and which point is next.
Ways = dict[int, tuple[int, Optional[int]]]


class WrongValues(Exception):
    """Values that don't follow from the text."""


def chain(facts: Facts, values: Values, region: int, universal: int) -> list[Step]:
    """The steps that bring the end of the universal region to the region."""
    return chains(facts, values, [region], universal)[region]


def chains(facts: Facts, values: Values, regions: Sequence[int], universal: int) -> dict[int, list[Step]]:
    """For each of the regions the steps that bring the end of the universal region to it."""
    came_by = search(facts, values, set(regions), universal)
    missing = [region for region in regions if region not in came_by]
    if missing:
        raise WrongValues(f"no constraints bring end('{facts.names[universal]}) to "
                          f"'{facts.names[missing[0]]}")
    return {region: backwards(came_by, region, lambda step: step.constraint.sub)[::-1] for region in regions}


def search(facts: Facts, values: Values, wanted: AbstractSet[int], universal: int) -> dict[int, Step]:
    """For each region to which the end comes the last step of a shortest chain there."""
    end = facts.end_of(universal)
    by_sub = grouped((constraint.sub, constraint) for constraint in facts.constraints)
    best = {universal: (0, 0)}
    came_by: dict[int, Step] = {}
    heap = [(0, 0, universal)]
    left = set(wanted)
    while heap and left:
        steps, points, sub = heapq.heappop(heap)
        left.discard(sub)
        if (steps, points) > best[sub]:
            continue
        onward = ways_to(facts, values.set_of(sub), facts.returns)
        for constraint in by_sub.get(sub, ()):
            is_everywhere = constraint.at == ALL
            walk_points = length(onward, constraint.at)
            cost = (steps + 1, points + walk_points)
            so_far = best.get(constraint.sup)
            if (is_everywhere or walk_points) and values.has(constraint.sup, end) and (so_far is None or cost < so_far):
                best[constraint.sup] = cost
                came_by[constraint.sup] = step_by(constraint, onward)
                heapq.heappush(heap, (*cost, constraint.sup))
    return came_by


def step_by(constraint: Constraint, onward: Ways) -> Step:
    """The step of a constraint, by the ways from its points."""
    return Step(constraint, [] if constraint.at == ALL else walk(onward, constraint.at))


def ways_to(facts: Facts, inside: AbstractSet[int], goals: Iterable[int]) -> Ways:
    """For each point from which a walk inside the set comes to a goal: how far, what is next."""
    onward: Ways = {point: (1, None) for point in sorted(goals) if point in inside}
    todo = deque(onward)
    while todo:
        point = todo.popleft()
        for before in facts.predecessors[point]:
            if before in inside and before not in onward:
                onward[before] = (onward[point][0] + 1, point)
                todo.append(before)
    return onward


def length(onward: Ways, point: int) -> int:
    """The number of points of a shortest walk, or 0 where there is none."""
    return onward[point][0] if point in onward else 0


def walk(onward: Ways, point: Optional[int]) -> list[int]:
    points = []
    while point is not None:
        points.append(point)
        point = onward[point][1]
    return points


def check(facts: Facts, values: Values, region: int, universal: int, steps: Iterable[Step]) -> None:
    """Raises WrongValues unless each step is one of the text and its elements are in the values."""
    end = facts.end_of(universal)
    holder = universal
    for number, (constraint, points) in enumerate(steps, 1):
        right = (constraint in facts.stated and constraint.sub == holder
                 and is_way(facts, constraint, points)
                 and all(values.has(constraint.sub, e) for e in [*points, end])
                 and all(values.has(constraint.sup, e) for e in [*points, end]))
        if not right:
            raise WrongValues(f"step {number} of the chain isn't in the values")
        holder = constraint.sup
    if holder != region:
        raise WrongValues("the chain doesn't end where the fault is")


def is_way(facts: Facts, constraint: Constraint, points: Sequence[int]) -> bool:
    """Whether these are the points of a walk from the constraint's point to a return point, or none at all."""
    if constraint.at == ALL:
        return not points
    return ([*points[:1]] == [constraint.at] and points[-1] in facts.returns
            and all(q in facts.successors[p] for p, q in zip(points, points[1:])))
