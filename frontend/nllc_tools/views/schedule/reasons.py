"""Why an owner's region got an element, and what a growth that was received leads to.

A region gets an element because it is a base element, or because of a constraint (a: b) @ P: a walk inside
what the owner knew of b, by growths of lower ranks, leads from P to it. Of a constraint (a: b) @ all the walk
is the element alone, where the owner knew it of b.
"""

from typing import AbstractSet, Iterator, NamedTuple, Optional, Sequence

from nllc_tools.base.walks import backwards, shortest
from nllc_tools.model.facts import ALL, Facts
from nllc_tools.texts.schedule_states import Broken, Growth, Run, Seat, State


class Asked(NamedTuple):
    """A constraint by its number, and a shortest walk from its point to the element."""

    constraint: int
    walk: list[int]


class Reading(NamedTuple):
    """A constraint that reads the region of a growth which was received: what the walk of it reaches, what
    of this is new, and the walk's first element that isn't known, or None where it can go no further."""

    constraint: int
    reached: list[int]
    new: list[int]
    hole: Optional[int]


def is_base(facts: Facts, growth: Growth) -> bool:
    """Whether a growth needs no constraint."""
    is_own = growth.element < facts.points or growth.element == facts.end_of(growth.region)
    return facts.is_universal(growth.region) and is_own or growth.element in facts.bases[growth.region]


def reasons(facts: Facts, seat: Seat, growth: Growth) -> list[Asked]:
    """The constraints that ask for a growth of an owner, each with its walk; none for a base element."""
    if is_base(facts, growth):
        return []
    found = []
    for number, constraint in enumerate(facts.constraints):
        if constraint.sup == growth.region:
            came_by = walks(facts, constraint.at, known_before(seat, constraint.sub, growth.rank))
            if growth.element in came_by:
                before = backwards(came_by, growth.element, lambda element: element)
                found.append(Asked(number, [*before[::-1], growth.element]))
    if not found:
        raise Broken(f"nothing requires element {growth.element} of region {growth.region}")
    return found


def known_before(seat: Seat, region: int, rank: int) -> set[int]:
    """The elements of a region that an owner knows by growths of lower ranks."""
    return {one.element for growths in (seat.log, *seat.received.values()) for one in growths
            if one.region == region and one.rank < rank}


def steps(facts: Facts, element: int) -> Sequence[int]:
    """The elements that follow: successors of a point, and behind a return each end."""
    if element >= facts.points:
        return []
    ends = map(facts.end_of, range(facts.universals)) if element in facts.returns else ()
    return [*facts.successors[element], *ends]


def walks(facts: Facts, at: int, inside: AbstractSet[int]) -> dict[int, Optional[int]]:
    """For each element that is reached from a point inside a set the one before it; at all points each is."""
    if at == ALL:
        return dict.fromkeys(inside)
    if at not in inside:
        return {}
    return shortest([at], lambda element: ((following, element) for following in steps(facts, element) if following in inside))


def readings(facts: Facts, run: Run, before: State, after: State, growth: Growth) -> Iterator[Reading]:
    """What each constraint of the owner that reads the region of the growth that it received comes to."""
    owner = after.event.owner
    new = after.seats[owner]
    grown = {(one.region, one.element) for one in new.log[len(before.seats[owner].log):]}
    for number, (sup, sub, at) in enumerate(facts.constraints):
        if sub == growth.region and run.cut[sup] == owner:
            inside = new.holds.get(sub, set())
            reached = sorted(walks(facts, at, inside))
            more = [element for element in reached if (sup, element) in grown]
            yield Reading(number, reached, more, hole(facts, at, inside, reached))


def hole(facts: Facts, at: int, inside: AbstractSet[int], reached: Sequence[int]) -> Optional[int]:
    """The first element behind those that are reached which isn't in the set; None where there is none."""
    if at == ALL or at not in inside:
        return None if at == ALL else at
    return next((f for e in reached for f in steps(facts, e) if f not in inside and f < facts.points), None)
