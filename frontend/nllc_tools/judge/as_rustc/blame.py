"""Which constraint of a chain is named for it: the one that rustc would name (`model.blame`)."""

from typing import Iterator, Optional

from nllc_tools.base.walks import reached
from nllc_tools.judge import asking_statements
from nllc_tools.judge.faults import Cause, Fault
from nllc_tools.model.blame import blamed
from nllc_tools.model.chains import Step
from nllc_tools.model.facts import ALL, Constraint, Facts
from nllc_tools.model.said import Blamed

SILENT = 6      # the rank of a step of which the text has no reason


def of_fault(facts: Facts, fault: Fault) -> Optional[Blamed]:
    """What rustc names of a fault, by the text, or else by the chain."""
    pair = facts.names[fault.sup], facts.names[fault.sub]
    return facts.remarks.beside.blamed.get(pair) or of_chain(facts, fault.steps)


def of_loan(facts: Facts, number: int, cause: Cause) -> Optional[Blamed]:
    """What rustc names where a loan would have to outlive the function."""
    if not facts.is_universal(cause.region):
        return None
    return facts.remarks.beside.blamed.get((str(number), facts.names[cause.region])) or of_chain(facts, cause.steps)


def reasons(facts: Facts, constraint: Constraint) -> list[Blamed]:
    """Why the constraint is asked: at the statements before its point, or everywhere; of one at all points
    each reason of its regions."""
    points = [None, *asking_statements.origins(facts, constraint)]
    found = facts.remarks.beside.asked.get((facts.names[constraint.sup], facts.names[constraint.sub]), ())
    return [Blamed(one.place, one.word) for one in found if constraint.at == ALL or one.point in points]


def of_step(facts: Facts, step: Step) -> Optional[Blamed]:
    """The best reason of a step, or None."""
    found = reasons(facts, step.constraint)
    return min(found, key=Blamed.rank) if found else None


def of_chain(facts: Facts, steps: list[Step]) -> Optional[Blamed]:
    """The reason that is named, of a chain whose first step is next to what is to be outlived."""
    found = [reason for step in reversed(steps) if (reason := of_step(facts, step))]
    return found[blamed([one.word for one in found], [one.rank() for one in found], lambda: not is_asked_otherwise(
        facts, steps[-1].constraint.sup, steps[0].constraint.sub))] if found else None


def is_asked_otherwise(facts: Facts, region: int, goal: int) -> bool:
    """Whether the region must outlive the other one by constraints that aren't of the result's `impl`."""
    asked = facts.remarks.beside.asked

    def onward(one: int) -> Iterator[int]:
        for constraint in facts.by_sup.get(one, ()):
            pair = facts.names[constraint.sup], facts.names[constraint.sub]
            if {reason.word for reason in asked.get(pair, ())} != {"opaque"}:
                yield constraint.sub

    return goal in reached([region], onward)
