"""The places of what a macro of another file makes: rustc's error says where the macro is used."""

import re
from typing import Iterator, Optional

from nllc_tools.judge.faults import LoanFault
from nllc_tools.model.facts import Facts
from nllc_tools.model.said import Error

MADE = r"borrow (of `.*` )?occurs here|is borrowed here"
LATER = r"later (used|stored|captured|borrowed)|might be used here|in later iteration"


def placed(facts: Facts, found: list[LoanFault]) -> Iterator[LoanFault]:
    """The faults, with the places of rustc's errors in place of those whose column isn't known."""
    left = without_known(facts.remarks.beside.rustc, found)
    for one in found:
        error = None if one.place and one.place.column else nearest(facts, one, left)
        if error:
            left.remove(error)
            place = error.place()
            against = one.against._replace(place=one.against.place or place)
            one = one._replace(place=place, loan=one.loan._replace(place=one.loan.place or place), against=against)
        yield with_place_of_use(facts, with_place_of_loan(facts, one))


def without_known(errors: list[Error], found: list[LoanFault]) -> list[Error]:
    """The errors without one for each fault whose place is known; of several that begin there the one that ends there, too."""
    left = list(errors)
    for place in (one.place for one in found if one.place and one.place.column):
        there = [error for error in left if (error.line, error.column) == place[:2]]
        if there:
            left.remove(next((error for error in there if error.place() == place), there[0]))
    return left


def with_place_of_loan(facts: Facts, one: LoanFault) -> LoanFault:
    """The fault with the place of its loan, where a macro makes that."""
    if one.loan.place is not None or one.place is None:
        return one
    place = next((label.place for error in one.errors_in(facts.remarks.beside) for label in error.labels
                  if re.search(MADE, label.words) and label.place[:2] != one.place[:2]), None)
    return one._replace(loan=one.loan._replace(place=place))


def with_place_of_use(facts: Facts, one: LoanFault) -> LoanFault:
    """The fault with the place of the later use, where that is in such a macro."""
    if one.cause.use is None or one.place is None or one.cause.line(facts) is not None:
        return one
    errors = (error for error in facts.remarks.beside.rustc if (error.line, error.column) == one.place[:2])
    place = next((label.place for error in errors for label in error.labels if re.search(LATER, label.words)), None)
    return one._replace(cause=one.cause._replace(place=place))


def nearest(facts: Facts, one: LoanFault, errors: list[Error]) -> Optional[Error]:
    """The error of the same code on the line, else one that names the line of what goes against the loan, or the only one."""
    fitting = [error for error in errors if error.code() == one.code]
    end = facts.remarks.point(one.against.point).line
    near = [error for error in fitting if one.place and error.line == one.place.line] \
        or [error for error in fitting if end in [label.place.line for label in error.labels]]
    return near[0] if near else fitting[0] if len(fitting) == 1 else None
