"""The least values of a facts text in milliseconds: a worklist over sets of bits.

The tests that compare it with the slow reference stand in test_loans_golden.
"""

from collections import deque

from nllc_tools.base import nllc
from nllc_tools.model.facts import ALL
from nllc_tools.model.faults import faults
from nllc_tools.model.values import Values
from nllc_tools.texts.facts.reader import read_facts


def reached(facts, inside, at):
    """The points of a walk inside a set from one of its points, as bits."""
    if not inside >> at & 1:
        return 0
    found, todo = 1 << at, [at]
    while todo:
        for point in facts.successors[todo.pop()]:
            if inside >> point & 1 and not found >> point & 1:
                found |= 1 << point
                todo.append(point)
    return found


def solve(facts):
    """The value of each region, as bits."""
    points = (1 << facts.points) - 1
    returns = sum(1 << point for point in facts.returns)
    values = [sum(1 << point for point in base) for base in facts.bases]
    for universal in range(facts.universals):
        values[universal] |= points | 1 << facts.end_of(universal)
    by_sub = {}
    for constraint in facts.constraints:
        by_sub.setdefault(constraint.sub, []).append(constraint)
    todo = deque(range(len(values)))
    while todo:
        sub = todo.popleft()
        for sup, _, at in by_sub.get(sub, ()):
            if at == ALL:
                more = values[sub]
            else:
                walk = reached(facts, values[sub] & points, at)
                more = walk | (values[sub] & ~points if walk & returns else 0)
            if more & ~values[sup]:
                values[sup] |= more
                todo.append(sup)
    return values


def quick_values(facts):
    return Values([[n for n in range(value.bit_length()) if value >> n & 1] for value in solve(facts)])


def quick_report(text):
    """What `nllc` would say of a text."""
    facts = read_facts(text, "TEXT")
    values = quick_values(facts)
    elements = [*map(str, range(facts.points)), *(f"end('{name})" for name in facts.names)]
    lines = [" ".join([f"'{name}:", *(elements[one] for one in values.elements(region))])
             for region, name in enumerate(facts.names)]
    found = [(facts.names[long], facts.names[short]) for long, short in faults(facts, values)]
    return nllc.Report("".join(f"{line}\n" for line in lines), found, "quick", nllc.UNKNOWN)
