"""Which error of rustc is which fault: by place and code, else by the loan or the lifetimes that both are of."""

import re
from typing import NamedTuple, Optional

from nllc_tools.judge.faults import AnyFault, Fault, LoanFault
from nllc_tools.model.facts import Facts
from nllc_tools.model.said import Error, Gone, Place

PAIR = r"`('\w+)` must outlive `('\w+)`"
RETURNED = r"return data with lifetime `('\w+)` but it is returning data with lifetime `('\w+)`"
FAR = 3     # the level at which a fault and an error are of the same loan or lifetimes, and no more
DIFFERENT = 4


class Pair(NamedTuple):
    """Two lifetimes, as rustc calls them; the first one would have to outlive the second."""

    longer: str
    shorter: str


def counterpart(facts: Facts, fault: AnyFault, place: Optional[Place]) -> Optional[Error]:
    """The error of rustc that a fault at a place is, the nearest one; None where there is none.

    Several functions that use a macro may have errors at one place in it: of these it is the one of the same loan.
    """
    errors = facts.remarks.beside.rustc
    levels = [nearness(facts, fault, place, error) for error in errors]
    alike = [error for error, level in zip(errors, levels) if level == min(levels) < DIFFERENT]
    if isinstance(fault, LoanFault) and alike:
        alike.sort(key=lambda error: not is_of_same(facts, fault, error))
        return alike[min(fault.turn, len(alike) - 1)]
    return alike[0] if alike else None


def nearness(facts: Facts, fault: AnyFault, place: Optional[Place], error: Error) -> int:
    """How near an error is to a fault at a place: 0 for its place and code."""
    if isinstance(fault, Gone):
        return 0 if error == facts.remarks.beside.error_of(fault) else DIFFERENT
    if not error.is_judged():
        return DIFFERENT
    code = fault.code if isinstance(fault, LoanFault) else ""
    is_same_code = error.code() == code if code else error.is_of_lifetimes()
    if place and (error.line, error.column) == place[:2]:
        return 0 if is_same_code else 1
    if place and is_same_code and error.line == place.line and (code or not place.column):
        return 2
    return FAR if is_of_same(facts, fault, error) else DIFFERENT


def is_of_same(facts: Facts, fault: AnyFault, error: Error) -> bool:
    """Whether an error is of the same loan, or of the same lifetimes."""
    if isinstance(fault, LoanFault):
        places = [place for place in (fault.loan.place, fault.loan.home) if place]
        return not error.is_of_lifetimes() and any(
            label.place[:2] == place[:2] or label.place[2:] == place[2:]
            for label in error.labels for place in places)
    return isinstance(fault, Fault) and error.is_of_lifetimes() and are_same(facts, fault, pair_of(error))


def pair_of(error: Error) -> Optional[Pair]:
    """The lifetimes of an error; None where it names none."""
    for label in error.labels:
        if found := re.search(PAIR, label.words):
            return Pair(found[1], found[2])
        if found := re.search(RETURNED, label.words):
            return Pair(found[2], found[1])
    return None


def are_same(facts: Facts, fault: Fault, pair: Optional[Pair]) -> bool:
    return pair is None or is_called(facts, fault.sup, pair.longer) and is_called(facts, fault.sub, pair.shorter)


def is_called(facts: Facts, region: int, name: str) -> bool:
    """Whether rustc's name is that of a region; rustc has numbers for regions that have none."""
    own = facts.names[region]
    is_nameless = "without a name" in facts.remarks.region(own).text
    return is_nameless if name[1:].isdigit() else name == f"'{own}"
