"""Reads the report of `nllc values` (docs/FORMATS.md, "The report")."""

import re
from typing import Sequence

from nllc_tools.base.refusal import Refusal
from nllc_tools.model.facts import Facts
from nllc_tools.model.values import Values

LINE = re.compile(r"'([A-Za-z0-9_]+):((?: [0-9]+| bb[0-9]+/[0-9]+| end\('[A-Za-z0-9_]+\))*)")


def read_values(report: str, facts: Facts, source: str) -> Values:
    """The values that a report gives, where it is one of these facts; `source` names it."""
    ends = {f"end('{name})": facts.end_of(number)
            for number, name in enumerate(facts.names[:facts.universals])}
    points = {str(point): point for point in range(facts.points)}
    elements = points | ends | {name: point for point, name in facts.point_names.items()}
    rows = []
    for number, line in enumerate(report.splitlines(), 1):
        found = LINE.fullmatch(line)
        if not found:
            raise Refusal(f"{source}, line {number}: no line of a report; "
                          f"`nllc values FACTS > FILE` writes one")
        if number > len(facts.names) or found[1] != facts.names[number - 1]:
            raise foreign(source)
        rows.append([elements.get(word, -1) for word in found[2].split()])
    if len(rows) != len(facts.names) or not all(fits(facts, region, row) for region, row in enumerate(rows)):
        raise foreign(source)
    return Values(rows)


def foreign(source: str) -> Refusal:
    return Refusal(f"{source} isn't the report of this facts text; `nllc values FACTS > FILE` "
                   "writes it anew")


def fits(facts: Facts, region: int, row: Sequence[int]) -> bool:
    """Whether a row may be the value of the region, by its form and its first elements."""
    last = facts.points + facts.universals - 1
    held = set(row)
    if row != sorted(held) or row and not 0 <= row[0] <= row[-1] <= last:
        return False
    if facts.is_universal(region):
        return facts.end_of(region) in held and held.issuperset(range(facts.points))
    return facts.bases[region] <= held
