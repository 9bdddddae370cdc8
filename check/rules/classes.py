"""The classes of differences between both ways, each told by a test on rustc's dump itself (docs/RULES.md)."""

from typing import NamedTuple

from nllc_tools.base.grouping import grouped
from nllc_tools.model.liveness import bases, locations_of, neighbours, spread

from sides import Both, closed, differing

UNEXPLAINED = "unexplained"
BEFORE_ELABORATION = "drops before elaboration"
BOUND_OF_ALIAS = "bounds of impl Trait"


class Difference(NamedTuple):
    """A base element or constraint that one way alone has, or a value that differs; and its class."""

    kind: str
    region: int
    what: str
    class_of: str


def differences(both: Both) -> list[Difference]:
    """All that differs. A value that does belongs to the classes of what the problems differ in."""
    found = [*base_differences(both), *constraint_differences(both)]
    classes = sorted({one.class_of for one in found})
    for region in differing(both.rules.values, both.facts.values):
        value, other = both.rules.values[region], both.facts.values.get(region, frozenset())
        more, less = len(value - other), len(other - value)
        found.append(Difference("value", region, f"{more} elements by the rules alone, {less} by the facts alone",
                                " and ".join(classes) if classes else UNEXPLAINED))
    return found


def base_differences(both: Both) -> list[Difference]:
    by_rules, by_facts = both.rules.bases - both.facts.bases, both.facts.bases - both.rules.bases
    if not by_rules and not by_facts:
        return []
    tests = ((BOUND_OF_ALIAS, of_bounds(both)), (BEFORE_ELABORATION, of_drops(both)))
    found = []
    for region, point in sorted(by_rules):
        name = next((name for name, test in tests if (region, point) in test), UNEXPLAINED)
        found.append(Difference("base", region, f"{point} by the rules alone", name))
    for region, point in sorted(by_facts):
        found.append(Difference("base", region, f"{point} by the facts alone", UNEXPLAINED))
    return found


def numbered(both: Both, found) -> set[tuple[int, int]]:
    return {(both.regions.find(region), both.points.number[location]) for region, location in found}


def of_bounds(both: Both) -> set[tuple[int, int]]:
    """Where a variable is live, and rustc says that a region of its type isn't: a bound names those that are."""
    body = both.function.body
    return numbered(both, ((region, location) for region, location in bases(both.tables)
                           if location not in body.live_at(region)))


def of_drops(both: Both) -> set[tuple[int, int]]:
    """Where a variable is live for a drop, whether anything is left in it or not."""
    before, _ = neighbours(both.tables)
    dropped, defined = grouped(both.tables.var_dropped_at), grouped(both.tables.var_defined_at)
    found: set[tuple[int, int]] = set()
    for local, type in both.function.locals.items():
        passed = set(defined[local])
        live = locations_of(spread(before, dropped[local], lambda spot: spot not in passed))
        found |= numbered(both, ((region, location) for region in type.regions() for location in live))
    return found


def constraint_differences(both: Both) -> list[Difference]:
    rules, facts = both.rules.constraints, both.facts.constraints
    found = [Difference("constraint", sup, f"{sub} at all points by one way alone", UNEXPLAINED)
             for sup, sub in sorted(both.rules.asserts ^ both.facts.asserts)]
    points = {at for _, _, at in rules ^ facts}
    if not points:
        return found
    of_rules, of_facts = closed(rules, points), closed(facts, points)
    for way, more in (("rules", rules - facts - of_facts), ("facts", facts - rules - of_rules)):
        found += [Difference("constraint", sup, f"{sub} at {at} by the {way} alone", UNEXPLAINED)
                  for sup, sub, at in sorted(more)]
    return found
