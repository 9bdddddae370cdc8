"""A loan and what conflicts with it, in the words of the source."""

import re
from typing import Optional

from nllc_tools.base.sentences import Code, Sentence, joined
from nllc_tools.judge.as_rustc.counterparts import counterpart
from nllc_tools.judge.as_rustc.lifetimes import Lifetimes
from nllc_tools.judge.content import Content
from nllc_tools.judge.faults import LoanFault
from nllc_tools.judge.findings import advice
from nllc_tools.judge.findings.finding import Finding, notes, stops_of, within
from nllc_tools.model import chains
from nllc_tools.model.facts import Facts
from nllc_tools.model.said import Error, Loan, Place
from nllc_tools.texts.source import borrowed, snippet, whole_line

# What is done to a place that is lent, and what it suffers; all else borrows it.
ACTS = {"moves": "moves", "assigns": "assigns to", "reads": "uses", "looks": "looks at"}
SUFFERED = {"moves": "moved", "assigns": "assigned to", "reads": "used", "looks": "looked at"}
# By rustc's code, what to do; of what is borrowed and goes away, the label of where it goes.
BY_CODE: dict[str, Sentence] = {
    "E0515": ["return the value itself (", Code("clone"), ", ", Code("to_owned"),
              "); or take what is borrowed as an argument"],
    "E0373": ["write ", Code("move"), " before the closure or block, so that it takes what it uses along"],
    "E0716": ["give the temporary a name, by a ", Code("let"), " of its own before it is borrowed"],
    "E0597": ["declare what is borrowed before what borrows it, so that it lives longer; or end the borrow sooner"],
    "E0713": ["end the borrow before the value is dropped; or take the field out of the value first"],
    "E0510": ["change it in the arm, after the guard"],
}
GONE = {"E0515": "returned here", "E0373": "outlives the function here", "E0716": "gone at the end of this"}
PATH = r"\**[A-Za-z_]\w*(?:\.\w+)*"

DESTRUCTOR = r"here, drop of `(.*)` needs exclusive access to `(.*)`, because the type `(.*)` implements"
EARLIER = "an earlier iteration of the loop"

# What takes a borrow that is made at a statement, by the statements of MIR.
MADE = r"(_\d+) = &"
CALL = r"= (.*)\((?:.*, )?(?:move|copy) {}\b.*\) -> "
TRAIT = r" as (?:[\w:]+::)?(\w+)(?:<.*>)?>::\w+$"
OPERATORS: dict[str, Sentence] = {"Deref": ["its type's ", Code("Deref")], "DerefMut": ["its type's ", Code("DerefMut")],
                                  "Index": ["an index"], "IndexMut": ["an index"]}
MOST_STATEMENTS = 12


def of_loan(content: Content, fault: LoanFault) -> Finding:
    """A loan that something goes against."""
    place = place_of_loan(content, fault)
    error = counterpart(content.facts, fault, place)
    lifetimes = Lifetimes(content, fault, error)
    lasting = lifetimes.places(fault.cause.region) if content.facts.is_universal(fault.cause.region) else []
    head = loan_head(content, fault, error if error and error.code() == fault.code else None)
    return Finding(place, fault.code, head, loan_cause(content, fault, lifetimes), fault,
                   [*filter(None, (lasting, *notes(content, error, advised(content, fault))))], within(place, error))


def advised(content: Content, fault: LoanFault) -> Sentence:
    """What to do about it: by rustc's code, or else the usual ways out."""
    return BY_CODE.get(fault.code) or advice.of_loan(content, fault)


def place_of_loan(content: Content, fault: LoanFault) -> Optional[Place]:
    """rustc's place: of what a closure uses, the variable without the `&` before it."""
    loan = fault.loan
    is_use = loan.by_closure and loan.home and fault.place == loan.home
    return borrowed(content.source, fault.place) if is_use else fault.place


def loan_head(content: Content, fault: LoanFault, error: Optional[Error]) -> Sentence:
    """What is wrong, at rustc's place; `error` is that of the same code."""
    # What is borrowed, as rustc calls it, or else the variable; nothing where it has no name.
    what: Sentence = [Code(error.named())] if error and error.named() else \
        [] if fault.loan.is_of_temporary() else [variable(fault.loan)]
    if fault.is_end():
        return ending_head(content, fault, what, error)
    loan, way, code = fault.loan, fault.against.way, snippet(content.source, fault.against.place)
    is_path = re.fullmatch(PATH, code)
    does: Sentence = [Code(code) if code else "this"]
    if is_path:
        does += [f" is {SUFFERED.get(way, 'borrowed')}{as_mutable(way)}, and "]
    else:
        does += [f" {ACTS.get(way, 'borrows')} ", *what, f"{as_mutable(way)}, which "] if what else \
            [f" {ACTS.get(way, 'borrows')}{as_mutable(way)} what "]
    if loan.kind == "fake":
        return [*does, "the ", Code("match"), " is looking at", *([" it"] if is_path else [])]
    is_earlier = loan.at == fault.against.point     # the borrow itself goes against the loan that it made before
    if is_earlier and not is_path:
        return [*does, f"it has borrowed{as_mutable(loan.kind)} in {EARLIER}"]
    by = [EARLIER] if is_earlier else where_made(content, loan, fault.place)
    return [*does, *by, f" has borrowed{' it' if is_path else ''}{as_mutable(loan.kind)}"]


def variable(loan: Loan) -> Code:
    return Code(loan.what.lstrip("*"))


def as_mutable(way: str) -> str:
    return " as mutable" if way in ("mut", "unique", "late") else ""


def taker(content: Content, loan: Loan) -> str:
    """What takes along what it uses."""
    return "async block" if snippet(content.source, loan.place).startswith("async") else "closure"


def ending_head(content: Content, fault: LoanFault, what: Sentence, error: Optional[Error]) -> Sentence:
    """What is borrowed goes away too early."""
    loan = fault.loan
    if loan.is_of_temporary():
        code = snippet(content.source, fault.place)
        what = ["the temporary ", Code(code)] if code and fault.code == "E0716" else ["a temporary value"]
    if fault.code == "E0515":
        what = what if loan.is_of_temporary() else [variable(loan)]
        return ["this returns a borrow of ", *what, ", which ends with the function"]
    if fault.code == "E0373":
        return [f"the {taker(content, loan)} may outlive the function, and it borrows ", variable(loan), " from it"]
    if fault.code == "E0713":
        return destructor_head(loan, error)
    if fault.code == "E0521":
        return ["this keeps a borrow of ", variable(loan), " outside of the closure, at whose end it is gone"]
    end = line_of(content.facts, fault)
    return [*what, f" is gone{f' at line {end}' if end is not None else ' there'}, and is still borrowed"]


def destructor_head(loan: Loan, error: Optional[Error]) -> Sentence:
    """Whose destructor may look at what is borrowed."""
    for label in error.labels if error else ():
        if said := re.search(DESTRUCTOR, label.words):
            return [Code(said[2]), " may still be borrowed when ", Code(said[1]), " is dropped, and the destructor of its type ",
                    Code(said[3]), " may use it"]
    return ["this borrow may still be in use when the destructor of ", variable(loan), " runs"]


def loan_cause(content: Content, fault: LoanFault, lifetimes: Lifetimes) -> Sentence:
    """Why the loan is in force there."""
    loan, facts = fault.loan, content.facts
    here, beside = line_of(facts, fault), use_beside(facts, fault)
    column = f":{fault.place.column}" if beside and fault.place and not fault.is_end() else ""
    return ["the loan of ", *where_made(content, loan, fault.place), *made_by(content, loan), " is live: its region ",
            Code(f"'{loan.region}"), " holds ", f"line {here}{column}" if here is not None else f"point {fault.against.point}",
            ", since ", *since(content, fault, lifetimes)]


def made_by(content: Content, loan: Loan) -> Sentence:
    """What stands where a loan is made; where no `&` does, what borrows there."""
    code = snippet(content.source, loan.place)
    by: Sentence = []
    if code and loan.by_closure:
        by = [f", a {taker(content, loan)} that uses ", variable(loan)]
    elif re.fullmatch(PATH, code) and (caller := borrower(content.facts, loan)):
        by = [", borrowed by ", *caller]
    return [" (", Code(code), *by, ")"] if code else []


def borrower(facts: Facts, loan: Loan) -> Sentence:
    """What a borrow that no `&` makes is for: the call that takes it."""
    made = re.match(MADE, facts.remarks.point(loan.at).text)
    point = loan.at
    for _ in range(MOST_STATEMENTS if made else 0):
        if len(facts.successors[point]) != 1:
            break
        [point] = facts.successors[point]
        if made and (call := re.search(CALL.format(re.escape(made[1])), facts.remarks.point(point).text)):
            return caller_words(call[1])
    return []


def caller_words(callee: str) -> Sentence:
    """`*`, an index, or the name of what is called."""
    trait = re.search(TRAIT, callee)
    if trait and trait[1] in OPERATORS:
        return OPERATORS[trait[1]]
    name = re.search(r"(\w+)$", re.sub(r"::<.*>", "", callee))
    return ["the call of ", Code(name[1])] if name else []


def since(content: Content, fault: LoanFault, lifetimes: Optional[Lifetimes] = None) -> Sentence:
    facts, cause = content.facts, fault.cause
    if facts.is_universal(cause.region):
        stops = stops_of(content, cause.steps[::-1])
        by = [", by ", *joined(stops)] if stops else []
        return ["it must outlive ", *(lifetimes or Lifetimes(content)).name(cause.region), *by]
    if cause.use is None:
        return ["it is in the type of a variable that is used later"]
    line, beside = cause.line(facts), use_beside(facts, fault)
    deed = [*(drop_words(facts, cause.use) if cause.is_drop else [" uses it"]),
            " in a later iteration of the loop" if is_later_turn(facts, fault) else ""]
    if line is None:
        return [f"point {cause.use}", *deed]
    if line == line_of(facts, fault) and not beside:
        return ["the same line", *deed]
    code = snippet(content.source, cause.place) if beside else whole_line(content.source, line)
    return [f"line {line}{f':{beside.column}' if beside else ''}", *deed,
            *([" (", Code(code), ")"] if code and code != "}" else [])]


def use_beside(facts: Facts, fault: LoanFault) -> Optional[Place]:
    """The place of the use, where that is in the line of what goes against the loan, at another place that is known."""
    place, here = fault.cause.place, fault.place
    is_beside = place and here and place.column > 0 and here.column > 0 \
        and place.line == line_of(facts, fault) and place[:2] != here[:2]
    return place if is_beside else None


def drop_words(facts: Facts, point: int) -> Sentence:
    """That a variable which holds the loan is dropped, with its name if it has one."""
    found = re.match(r"drop\(([^\W_]\w*)", facts.remarks.point(point).text)
    return [" drops ", Code(found[1]), ", which holds it"] if found else [" drops what holds it"]


def is_later_turn(facts: Facts, fault: LoanFault) -> bool:
    """Whether the use stands before what goes against the loan, and a loop leads back to it."""
    use, line, point = fault.cause.use, fault.cause.line(facts), fault.against.point
    here = facts.remarks.point(point).line
    return use is not None and line is not None and here is not None and (line, use) < (here, point) \
        and use in chains.ways_to(facts, set(range(facts.points)), [point])


def where_made(content: Content, loan: Loan, here: Optional[Place] = None) -> Sentence:
    """The line of a borrow, with its column where this place is of the same line; of one that a macro makes, no more
    than that."""
    line = loan.place.line if loan.place else content.facts.remarks.point(loan.at).line
    column = f":{loan.place.column}" if loan.place and here and here.line == line and loan.place.column else ""
    return [f"line {line}{column}"] if line is not None else ["a macro"]


def line_of(facts: Facts, fault: LoanFault) -> Optional[int]:
    """The line of what goes against the loan."""
    place = None if fault.is_end() else fault.against.place
    return place.line if place else facts.remarks.point(fault.against.point).line
