"""Which loans are in force where something goes against them, and why.

A loan is in force at a point if a path leads there from the borrow, inside the value of the loan's
region, and past no point that kills the loan.
"""

from typing import Callable, Collection, Iterable, Iterator, NamedTuple, Optional

from nllc_tools.base.grouping import grouped
from nllc_tools.base.walks import reached
from nllc_tools.judge.as_rustc import blame, macro_places
from nllc_tools.judge.as_rustc.causes import block_of, why
from nllc_tools.judge.faults import Cause, LoanFault
from nllc_tools.model.facts import Facts
from nllc_tools.model.said import Against, Beside, Blamed, Loan, Place
from nllc_tools.model.values import Values

BORROWING = ("mut", "unique", "late", "shared")
CODES = {"moves": "E0505", "assigns": "E0506", "reads": "E0503", "looks": "E0503"}


class Mark(NamedTuple):
    """By what it is known again that rustc has told something: how that is, of what, and where."""

    kind: str
    what: str
    place: Optional[tuple[int, ...]] = None


def loan_faults(facts: Facts, values: Values) -> list[LoanFault]:
    """All, in the order of the source; of several loans at one place the first."""
    beside = facts.remarks.beside
    numbers = {name: number for number, name in enumerate(facts.names)}
    against = grouped((number, one) for one in beside.against for number in one.loans)
    found = []
    for number, loan in sorted(beside.loans.items()):
        if loan.region not in numbers or loan.at >= facts.points:
            continue
        region, its = numbers[loan.region], against.get(number, [])
        force = in_force(facts.successors.__getitem__, values.set_of(region), loan.at, beside.killed.get(number, ()))
        points = {one.point for one in its} & force
        for one in its:
            if one.point in points and one.begun not in points:
                here = again(facts, values, region) if one.point == loan.at else None
                found.append(fault(facts, number, loan, one, why(facts, values, region, one.point if here is None else here)))
    told = each_once(beside, sorted(first_of_each_access(found), key=order))
    return sorted(macro_places.placed(facts, list(told)), key=order)


def order(one: LoanFault) -> tuple[Place, int, int]:
    return one.place or Place(0, 0, 0, 0), one.against.point, one.number


def in_force(successors: Callable[[int], Iterable[int]], inside: Collection[int], at: int, killed: Collection[int]) -> set[int]:
    """The points at which a loan is in force that is made at a point."""
    def onward(point: int) -> Iterable[int]:
        return filter(inside.__contains__, () if point in killed else successors(point))

    return reached(filter(inside.__contains__, successors(at)), onward)


def again(facts: Facts, values: Values, region: int) -> Optional[int]:
    """The first point of a loop in the region's value: there rustc asks why a loan is in force that a borrow makes again."""
    loops = {block_of(facts, point) for point in range(facts.points)
             if facts.remarks.point(point).text.startswith("falseUnwind")} - {""}
    return next((point for point in values.elements(region) if loops and block_of(facts, point) in loops), None)


def first_of_each_access(found: list[LoanFault]) -> Iterator[LoanFault]:
    """Of the loans that one access goes against the first, as rustc does; all of those that outlive the function."""
    seen = set()
    for one in found:
        access = one.against.point, one.against.way, one.against.what
        if one.against.way == "leaves" or not one.against.what or access not in seen:
            yield one
        seen.add(access)


def each_once(beside: Beside, found: list[LoanFault]) -> Iterator[LoanFault]:
    """Without what rustc wouldn't say again: of the same loan's end, of the same access, of a borrow's second phase."""
    # Of the ends of a variable that can't be borrowed as mutable, rustc says no more there.
    told = {Mark("access", error.named(), (error.line, error.column)) for error in beside.rustc if error.code() == "E0596"}
    turns: dict[tuple[Optional[Place], str], list[int]] = {}
    first_phases = points_of_first_phases(beside, found)
    for one in found:
        point, what = one.against.point, one.against.what
        if one.against.way == "late" and first_phases.get(what, point) < point:
            continue
        marks = marks_of_end(one) if one.is_end() else marks_of_access(one)
        turn = turns.setdefault((one.place, one.code), [])
        if told.isdisjoint(marks) or is_further_use(beside, one, turn):
            yield one._replace(turn=len(turn))
            turn.append(point)
        told |= marks
        if one.place and not one.is_end():
            told.add(Mark("access", what, one.place[:2]))


def is_further_use(beside: Beside, one: LoanFault, points: list[int]) -> bool:
    """Whether rustc has more errors of that code and place than those of these points: by further uses of a macro."""
    return not one.is_end() and one.against.point not in points and 0 < len(points) < len(one.errors_in(beside))


def points_of_first_phases(beside: Beside, found: list[LoanFault]) -> dict[str, int]:
    """For each place the first point at which a borrow in two phases of it begins against a loan.

    A place whose types have lifetimes is to rustc another one wherever it is written.
    """
    begun = {one.begun for one in beside.against}
    points: dict[str, int] = {}
    for against in (one.against for one in found):
        if against.way == "mut" and against.point in begun and against.what and not against.what.endswith("'"):
            points[against.what] = min(against.point, points.get(against.what, against.point))
    return points


def marks_of_access(one: LoanFault) -> set[Mark]:
    """The place that is accessed, and where that stands; of one whose types have lifetimes, rustc doesn't know
    again what it has told with another code."""
    what = one.against.what
    return {Mark(one.code if what.endswith("'") else "", what, one.place and one.place[:2])}


def marks_of_end(one: LoanFault) -> set[Mark]:
    """By what a loan's end is known again: the loan, or the variable and where it is borrowed; an access to it there, too."""
    loan, marks = one.loan, {Mark("loan", str(one.number))}
    place = loan.home if loan.by_closure and loan.home and one.code != "E0373" else loan.place
    variable = one.against.what.split(".")[0] if loan.is_of_temporary() else loan.what.lstrip("*")
    if place:
        marks |= {Mark("end", variable, place)} | (set() if loan.by_closure else {Mark("access", variable, place[:2])})
    return marks


def fault(facts: Facts, number: int, loan: Loan, against: Against, cause: Cause) -> LoanFault:
    if cause.use is not None:
        cause = cause._replace(place=facts.remarks.beside.called.get((cause.use, number), cause.place))
    found = LoanFault(CODES.get(against.way, ""), against.place, number, loan, against, cause)
    if loan.kind == "fake":
        found = found._replace(code="E0510")
    elif against.way in BORROWING:
        found = found._replace(code=code_of_borrows(loan, against))
    elif found.is_end():
        found = end_of_loan(facts, found, blame.of_loan(facts, number, cause))
    return found._replace(place=found.place or next_line(facts, loan.at if found.is_end() else against.point))


def code_of_borrows(loan: Loan, against: Against) -> str:
    """rustc's code of two borrows that don't go together; closures that borrow uniquely have their own."""
    if against.way == "unique":
        return "E0524" if loan.kind == "unique" else "E0500"
    if loan.kind == "unique":
        return "E0501"
    return "E0499" if loan.kind == "mut" and against.way != "shared" else "E0502"


def next_line(facts: Facts, start: int) -> Optional[Place]:
    """The first line that is known from a point on, for what a macro of another file makes."""
    known = (facts.remarks.point(point).line for point in range(start, facts.points))
    return next((Place(line, 0, line, 0) for line in known if line is not None), None)


def is_of_capture(facts: Facts, region: int) -> bool:
    """Whether a closure's lifetime is one without a name in what it captures."""
    name = facts.names[region]
    return "of the function around this closure" in facts.remarks.region(name).text and name.startswith("r")


def end_of_loan(facts: Facts, one: LoanFault, named: Optional[Blamed]) -> LoanFault:
    """With rustc's code and place where what is borrowed goes away; `named` is what it names of a universal region."""
    loan, category = one.loan, named.word if named and not named.is_of_closure else ""
    home = loan.home if loan.by_closure and loan.home else loan.place
    if named and category == "assignment" and is_of_capture(facts, one.cause.region):
        return one._replace(code="E0521", place=named.place)
    if one.against.way == "destroys":
        return one._replace(code="E0713", place=home)
    if loan.by_closure and category in ("return", "argument", "opaque"):
        return one._replace(code="E0373", place=loan.place)
    if named and category in ("return", "yield"):
        return one._replace(code="E0515", place=named.place)
    if loan.is_of_temporary():
        return one._replace(code="E0716", place=loan.home)
    return one._replace(code="E0597", place=home)
