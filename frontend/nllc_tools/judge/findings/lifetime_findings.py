"""A lifetime that would have to outlive another one, in the words of the source."""

from typing import Iterable, NamedTuple, Optional

from nllc_tools.base.grouping import grouped
from nllc_tools.base.sentences import Sentence, joined
from nllc_tools.judge import asking_statements
from nllc_tools.judge.as_rustc import blame
from nllc_tools.judge.as_rustc.counterparts import are_same, counterpart, pair_of
from nllc_tools.judge.as_rustc.lifetimes import Lifetimes
from nllc_tools.judge.content import Content
from nllc_tools.judge.faults import Fault
from nllc_tools.judge.findings import advice
from nllc_tools.judge.findings.finding import HELP, Finding, notes, stops_of, within
from nllc_tools.model.said import Error, Place

# What asks for a constraint of a category at its place.
ASKERS = {"return": "the value returned here", "yield": "the value yielded here", "constant": "this constant",
          "annotation": "the type written here", "generic": "the type written here",
          "cast": "this cast", "object": "this trait object", "argument": "this call",
          "bound": "a bound of this type", "assignment": "this assignment", "use": "this use",
          "capture": "what the closure captures here", "predicate": "a bound of the function called here",
          "opaque": "the impl type of the result"}


class Placed(NamedTuple):
    """A fault with its place, and rustc's error of it."""

    fault: Fault
    place: Optional[Place]
    error: Optional[Error]


def placed(content: Content, fault: Fault) -> Placed:
    """At rustc's place; of a text that doesn't say it, at that of an error of rustc on the line at which the chain begins, or
    at that line alone. So it is with what a macro of another file makes."""
    facts, named = content.facts, blame.of_fault(content.facts, fault)
    place = named.place if named else None
    if not place and (line := asking_statements.entry(facts, fault.steps)) is not None:
        place = Place(line, 0, line, 0)
        error = counterpart(facts, fault, place)
        place = error.place() if error and error.line == line else place
    return Placed(fault, place, counterpart(facts, fault, place))


def names_of(content: Content, fault: Fault) -> list[Sentence]:
    """What both lifetimes of a fault are called."""
    lifetimes = Lifetimes(content, fault, placed(content, fault).error)
    return [lifetimes.name(fault.sup), lifetimes.name(fault.sub)]


def of_fault(content: Content, fault: Fault) -> Finding:
    """A lifetime that would have to outlive another."""
    return of_placed(content, placed(content, fault))


def of_placed(content: Content, one: Placed, further: Iterable[Placed] = ()) -> Finding:
    """The same; and, at the same place, further ones."""
    fault, place, error = one
    lifetimes, shorter = Lifetimes(content, fault, error), [fault.sub, *(other.fault.sub for other in further)]
    named = blame.of_fault(content.facts, fault)
    asker = f": {ASKERS[named.word]} requires it" if named and named.word in ASKERS else ""
    head = [*lifetimes.name(fault.sup), " must outlive ", *joined([lifetimes.name(sub) for sub in shorter]),
            ", but the signature doesn't declare it", asker]
    stops = stops_of(content, fault.steps[::-1])
    way = ["data that lives for ", *lifetimes.name(fault.sup), " flows into ", *lifetimes.name(fault.sub), " at ",
           *joined(stops)] if stops else ["no line of the source is known for the constraints that require it"]
    more = [lifetimes.places(fault.sup, *shorter), *notes(content, error, advice.of_fault(content, fault))]
    return Finding(place, "", head, way, fault, [*filter(None, more)], within(place, error))


def of_faults(content: Content) -> list[Finding]:
    """The faults, each place and longer lifetime once; rustc's own pair comes first. What rustc doesn't say beside
    another one is told with that."""
    groups = grouped(((one.fault.sup, one.place[:2] if one.place else one.fault.sub), one)
                     for one in (placed(content, fault) for fault in content.faults))
    its = [sorted(group, key=lambda one: not is_of_rustc(content, one.fault)) for group in groups.values()]
    told = [of_placed(content, first, further) for first, *further in its]
    kept = grouped((home, number) for number, home in enumerate(homes([first for first, *_ in its])))
    return [with_others(told[home], [told[number].cause for number in numbers if number != home])
            for home, numbers in sorted(kept.items())]


def homes(faults: list[Placed]) -> list[int]:
    """For each fault the one with which it is told: those that rustc has no error of, or the same one, with another.

    Of the lifetimes that one would have to outlive rustc names the first alone, and of two that would have to be equal
    it says once that one has to be named in a type.
    """
    found: list[int] = []
    for number, one in enumerate(faults):
        found.append(next((at for at, other in enumerate(faults) if other.error and (
            other.fault.sup == one.fault.sup if one.error is None
            else at in found and one.error is other.error and one.error.code() == "E0621"
            and other.fault[:2] == (one.fault.sub, one.fault.sup))), number))
    return found


def with_others(finding: Finding, causes: list[Sentence]) -> Finding:
    """With how further faults come about before what rustc advises."""
    more = finding.more
    at = next((number for number, said in enumerate(more) if said[0] == HELP), len(more))
    return finding._replace(more=[*more[:at], *(["also, ", *cause] for cause in causes), *more[at:]])


def is_of_rustc(content: Content, fault: Fault) -> bool:
    """Whether an error of rustc is of the very lifetimes of a fault."""
    return any(error.is_of_lifetimes() and pair_of(error) and are_same(content.facts, fault, pair_of(error))
               for error in content.beside.rustc)
