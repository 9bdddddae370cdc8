"""What is said at lines of the source: where a loan is made, what goes against it and what uses it later; where a
lifetime comes in and where another one is wanted; where rustc refuses and `nllc` doesn't."""

from typing import Iterator, NamedTuple, Optional

from nllc_tools.base.grouping import grouped
from nllc_tools.judge import asking_statements
from nllc_tools.judge.as_rustc import blame
from nllc_tools.judge.content import Content
from nllc_tools.judge.differences import Difference, differences, handed_out, refused
from nllc_tools.judge.faults import AnyFault, Fault, LoanFault
from nllc_tools.judge.findings import loan_findings, move_findings
from nllc_tools.judge.findings.finding import DEEDS
from nllc_tools.judge.findings.lifetime_findings import names_of
from nllc_tools.model.facts import Facts
from nllc_tools.model.said import Gone, Place


class Label(NamedTuple):
    """Words of a kind at a line, and where in it, if that is known."""

    line: int
    kind: str
    words: str
    place: Optional[Place] = None


CONFLICTS = {"moves": "moved here", "assigns": "assigned here", "reads": "used here", "looks": "looked at here"}


def labels_of(content: Content) -> dict[int, list[Label]]:
    """The labels by line, each once, in the order in which they are to be read."""
    faults: list[AnyFault] = [*content.loans, *content.faults, *content.beside.gone]
    found = [label for fault in faults for label in of(content, fault)]
    found += [label for one in differences(content) for label in of_difference(content, one)]
    found += [Label(one.line, "rustc", f"rustc: {one.code() or 'refused'} here") for one in refused(content)]
    return grouped((label.line, label) for label in dict.fromkeys(found))


def of(content: Content, fault: AnyFault) -> Iterator[Label]:
    """The labels of a fault, a loan error, or an error of a move or an assignment."""
    if isinstance(fault, Gone):
        return of_gone(content.facts, fault)
    return of_loan(content, fault) if isinstance(fault, LoanFault) else of_fault(content, fault)


def of_loan(content: Content, fault: LoanFault) -> Iterator[Label]:
    facts, cause, way = content.facts, fault.cause, fault.against.way
    yield from at(facts, fault.loan.place, fault.loan.at, "made", "borrowed here")
    place = loan_findings.place_of_loan(content, fault) if fault.is_end() else fault.against.place
    said = loan_findings.GONE.get(fault.code, "gone here") if fault.is_end() else CONFLICTS.get(way, "conflicts here")
    yield from at(facts, place, fault.against.point, "against", said)
    if facts.is_universal(cause.region) and fault.code not in loan_findings.GONE:
        for named in filter(None, (blame.of_step(facts, step) for step in cause.steps)):
            if named.place and named.word != "step":    # where what is borrowed is taken out of the function
                yield Label(named.place.line, "later", f"{DEEDS.get(named.word, 'needed')} here", named.place)
    elif cause.use is not None:
        again = "in the next iteration" if loan_findings.is_later_turn(facts, fault) else "here later"
        yield from at(facts, cause.place, cause.use, "later", f"{'dropped' if cause.is_drop else 'used'} {again}")


def of_fault(content: Content, fault: Fault) -> Iterator[Label]:
    """The first and the last line of the chain."""
    facts, steps = content.facts, fault.steps[::-1]
    places = [named.place for step in steps if (named := blame.of_step(facts, step)) and named.place and named.word != "step"]
    ends = [Label(place.line, "", "", place) for place in places] or \
        [Label(line, "", "") for step in steps for line in asking_statements.arising(facts, [step])]
    if not ends:
        return
    first, last = ends[0], ends[-1]
    sup, sub = map("".join, names_of(content, fault))
    if first.line == last.line:
        yield last._replace(kind="against", words=f"{sup} must outlive {sub} here")
    else:
        yield first._replace(kind="made", words=f"{sup} enters here")
        yield last._replace(kind="against", words=f"{sub} is required here")


def of_gone(facts: Facts, one: Gone) -> Iterator[Label]:
    words = move_findings.BY_CODE[one.code]
    for point in one.since if words.earlier else ():
        yield from at(facts, None, point, "made", words.earlier)
    yield Label(one.place.line, "against", words.itself)


def of_difference(content: Content, one: Difference) -> Iterator[Label]:
    """rustc's own labels, where the text has them."""
    error, loan = one.error, handed_out(content, one.error)
    if loan:
        yield from at(content.facts, loan.place, loan.at, "made", "borrowed here")
    yield Label(error.line, "rustc", f"rustc: {error.code() or 'refused'} here")
    made = loan.place.line if loan and loan.place else None
    for label in error.labels:
        if label.words and not label.words.endswith("defined here") and label.place.line not in (error.line, made):
            yield Label(label.place.line, "rustc", "rustc: " + label.words.replace("`", ""), label.place)


def at(facts: Facts, place: Optional[Place], point: int, kind: str, said: str) -> Iterator[Label]:
    """The label at a place, else at the line of a point; none where neither is known."""
    line = place.line if place else facts.remarks.point(point).line
    if line is not None:
        yield Label(line, kind, said, place)
