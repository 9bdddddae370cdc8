"""The statements that may ask for a constraint, and their lines."""

from typing import Iterable, Optional

from nllc_tools.base.sentences import Code, Sentence
from nllc_tools.model.chains import Step
from nllc_tools.model.facts import ALL, Constraint, Facts

MOST_ORIGINS = 3    # of more statements none is named


def origins(facts: Facts, constraint: Constraint) -> list[int]:
    """The points whose statements may ask for the constraint.

    What a statement asks stands at each point after it. So these are the points before the
    constraint's, behind all of which it stands.
    """
    sup, sub, at = constraint
    if at == ALL:
        return []
    spot = facts.remarks.point(at).spot()
    if spot and spot[2] == "mid":
        return [at]
    before = sorted(facts.predecessors[at])
    return [p for p in before if all((sup, sub, q) in facts.stated for q in facts.successors[p])] or before or [at]


def statement(facts: Facts, point: int) -> Sentence:
    """`STATEMENT` (line L), as far as a remark says it; else the point's number."""
    remark = facts.remarks.point(point)
    place = f"line {remark.line}" if remark.line is not None else f"point {facts.point_name(point)}"
    return [Code(words), f" ({place})"] if (words := remark.statement()) else [place]


def arising(facts: Facts, steps: Iterable[Step]) -> list[int]:
    """The lines of the source at which the constraints of a chain arise, ascending, each once."""
    found = (origins(facts, step.constraint) for step in steps if not is_everywhere(facts, step.constraint))
    points = (point for several in found if len(several) <= MOST_ORIGINS for point in several)
    return sorted({line for point in points if (line := facts.remarks.point(point).line) is not None})


def entry(facts: Facts, steps: list[Step]) -> Optional[int]:
    """The line at which the fault's own region comes into the chain, or the next that is known."""
    return next((line for step in reversed(steps) for line in arising(facts, [step])), None)


def is_everywhere(facts: Facts, constraint: Constraint) -> bool:
    """Whether the text has it at all points, or at every point, so that no statement asks for it."""
    return constraint.at == ALL or facts.points > 1 and facts.spread[constraint.sup, constraint.sub] == facts.points
