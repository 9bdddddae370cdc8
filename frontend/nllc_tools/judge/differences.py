"""Where rustc of today refuses a function and `nllc` doesn't: both answers side by side."""

from typing import NamedTuple, Optional

from nllc_tools.base.grouping import grouped
from nllc_tools.base.sentences import Code, Sentence
from nllc_tools.base.walks import backwards, shortest
from nllc_tools.judge.as_rustc.causes import ends_in
from nllc_tools.judge.as_rustc.counterparts import DIFFERENT, FAR, is_called, nearness, pair_of
from nllc_tools.judge.content import Content
from nllc_tools.judge.findings import findings, loan_findings
from nllc_tools.judge.names import is_inner
from nllc_tools.model.said import Error, Loan

FURTHER = ["rustc reports the loan or lifetime of an error above once more here; nllc has no fault on this path, since it "
           "applies a constraint from its statement on"]
OUTSIDE = -1    # from where a walk goes to its first regions


class Difference(NamedTuple):
    """An error of rustc, and why `nllc` has no fault there."""

    error: Error
    why: Sentence


def levels_of(content: Content) -> list[list[int]]:
    """For each finding how near it is to each error that is judged."""
    return [[nearness(content.facts, one.fault, one.place, error) for error in judged(content)] for one in findings.all_of(content)]


def judged(content: Content) -> list[Error]:
    return [error for error in content.beside.rustc if error.is_judged()]


def differences(content: Content) -> list[Difference]:
    """rustc's errors that are none of this function's faults."""
    levels = levels_of(content)
    return [Difference(error, reason(content, error)) for number, error in enumerate(judged(content))
            if all(of_fault[number] == DIFFERENT for of_fault in levels)]


def further(content: Content) -> list[Difference]:
    """rustc's errors that are of the same loan or lifetimes as a fault, which is another error of rustc."""
    levels = levels_of(content)
    near = [[of_fault for of_fault in levels if of_fault[number] <= FAR] for number in range(len(judged(content)))]
    return [Difference(error, FURTHER) for number, error in enumerate(judged(content))
            if near[number] and all(min(of_fault) < of_fault[number] for of_fault in near[number])]


def refused(content: Content) -> list[Error]:
    """rustc's errors that aren't judged here: of other kinds, and of moves of which the text says nothing."""
    moves = [content.beside.error_of(one) for one in content.beside.gone]
    return [error for error in content.beside.rustc if not error.is_judged() and error not in moves]


def reason(content: Content, error: Error) -> Sentence:
    """Why `nllc` has no fault there."""
    if error.is_of_lifetimes():
        return ["nllc applies a constraint from its statement on, inside the smaller region; rustc applies it in the "
                "whole function"]
    loan = handed_out(content, error)
    if loan:
        return ["problem case 3 of RFC 2094: the loan of ", *loan_findings.where_made(content, loan), " (", Code(f"'{loan.region}"),
                ") is returned on another path alone; rustc treats it as live on this one, too"]
    return ["the loan isn't live there, since nllc applies a constraint from its statement on; rustc applies it in the "
            "whole function"]


def handed_out(content: Content, error: Error) -> Optional[Loan]:
    """A loan that the place of an error goes against, whose region outlives the function."""
    facts, loans = content.facts, content.beside.loans
    found = (loans[number] for against in content.beside.against if against.place and against.place[:2] == (error.line, error.column)
             for number in against.loans if number in loans)
    return next((loan for loan in found if ends_in(facts, content.values, facts.names.index(loan.region))), None)


def passed_by(content: Content, error: Error) -> Optional[int]:
    """The region of a variable by way of which a lifetime would come to another, as rustc has it; None without one."""
    facts = content.facts
    there = (pair_of(one) for one in content.beside.rustc if (one.line, one.column) == (error.line, error.column))
    pair = next(filter(None, there), None)
    if not pair:
        return None
    first, last = ([region for region in range(facts.universals) if is_called(facts, region, name)] for name in pair)
    onward = grouped((one.sup, one.sub) for one in facts.constraints) | {OUTSIDE: first}
    came_by = shortest([OUTSIDE], lambda region: ((sub, region) for sub in onward.get(region, ())))
    way = backwards(came_by, next((region for region in came_by if region in last), OUTSIDE), lambda region: region)
    return next((region for region in way[::-1] if not facts.is_universal(region) and not is_inner(facts, region)), None)
