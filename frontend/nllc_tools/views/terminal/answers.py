"""What `nllc.sh rust` prints of functions."""

import re
from dataclasses import dataclass
from typing import Iterator, NamedTuple, Optional

from nllc_tools.base.sentences import plain, some, visible
from nllc_tools.judge.findings.finding import where
from nllc_tools.judge.summary import Mark, Summary, mark_of
from nllc_tools.judge.verdicts import counted
from nllc_tools.model.said import Error as OwnError
from nllc_tools.rustc.compiler import version
from nllc_tools.rustc.errors import Error
from nllc_tools.rustc.functions import Checked
from nllc_tools.views.terminal import finding_lines

MOST_NAMES = 20
INNER = r"::\{(?:closure|constant)#"
UNJUDGED = dict.fromkeys(("E0309", "E0310", "E0311"), "how long a type parameter lives")
OTHERS = "another reason than loans and lifetimes"


@dataclass(frozen=True)
class Answer:
    """What became of one function: what is told of it, or why nothing is."""

    status: int
    failure: str = ""
    said: Optional[Summary] = None


Shown = tuple[Mark, int]    # an error of rustc that is shown: of several with the same words at one place its number


class Remark(NamedTuple):
    """What is said of an error of rustc that is no fault: in words that follow it, and why."""

    error: OwnError
    more: str
    why: str


def outermost(function: str) -> str:
    """The function in which a closure or a constant stands."""
    return re.split(INNER, function)[0]


def tell_silent(silent: list[tuple[bool, str]]) -> None:
    """The functions of which nothing is told; closures only where there is nothing else."""
    names = list(dict.fromkeys([name for is_closure, name in silent if not is_closure] or [name for _, name in silent]))
    if names:
        print(f"no fault: {some(names, MOST_NAMES)}")


def tell_all(checked: Checked, answers: list[Answer]) -> None:
    """The lines of all functions that have any, the names of the others, and what else rustc refuses."""
    summaries = [answer.said for answer in answers if answer.said]
    places = {place for said in summaries for place in places_of(said)}
    shown: set[Shown] = set()
    silent, loud = [], set()
    for function, answer in zip(checked.functions, answers):
        lines = told(answer.said, places, checked.errors, shown) if answer.said else [answer.failure]
        if lines:
            print(f"{answer.said.name}: {verdict(answer.said)}" if answer.said else f"{function.name}: no answer")
            loud.add(outermost(function.name))
        elif answer.said:
            silent.append((function.dump.is_closure, function.name, answer.said.name))
        for line in lines:
            print(f"  {line}")
    tell_silent([(is_closure, name) for is_closure, function, name in silent if outermost(function) not in loud])
    told_of = {said.mark_of(error) for said in summaries for error in said.errors}
    for error in checked.errors:
        if error.places and mark_of(error) not in told_of:
            print(f"{error.where()}: {version()}: {error.words()}\n"
                  f"    not inside a function, so it has no answer here")


def verdict(said: Summary) -> str:
    return "refused by rustc" if said.refused and not said.count() else counted(said.faults, said.loans, said.moves)


def told(said: Summary, places: set[Mark], errors: list[Error], shown: set[Shown]) -> list[str]:
    """A function's lines; `places` are those of all functions' faults, the errors are rustc's.

    An error of rustc that is of a closure and of the function around it is shown once; of several with the same words
    at one place each is.
    """
    lines = [line for one in said.findings for line in finding_lines.lines(said.path, one.finding)] + said.lines
    for remarks in remarks_of(said):
        for at, one in enumerate(remarks):
            mark = said.mark_of(one.error)
            numbered = mark, sum(other.error[:3] == one.error[:3] for other in remarks[:at])
            if numbered not in shown and (mark._replace(words="") not in places or not one.error.is_judged()):
                shown.add(numbered)
                lines += of_rustc(said.source, one)
    for place in places_of(said, False):
        if not is_named(errors, place):
            lines.append(f"{place.path}:{place.line}:{place.column}: {version()} reports no error there")
    return [visible(line) for line in lines]


def places_of(said: Summary, is_of_rustc: Optional[bool] = None) -> list[Mark]:
    """The places of a function's findings; or of those of which rustc has an error, or has none."""
    return [Mark(said.source, *one.finding.place[:2]) for one in said.findings
            if one.finding.place and is_of_rustc in (None, one.is_of_rustc)]


def remarks_of(said: Summary) -> Iterator[list[Remark]]:
    """rustc's errors that are no faults, by kinds."""
    yield [Remark(one.error, "; nllc: no fault there", plain(one.why)) for one in said.differences]
    yield [Remark(one.error, "", plain(one.why)) for one in said.further]
    yield [Remark(error, "", f"rustc refuses this for {UNJUDGED.get(error.code(), OTHERS)}, which nllc doesn't check")
           for error in said.refused]


def of_rustc(source: str, one: Remark) -> list[str]:
    """An error of rustc at its place, which may be within a macro of another file, and a sentence on it."""
    error, used = one.error, f"{source}:{one.error.line}:{one.error.column}"
    macro = [f"    in this macro invocation: {used}"] if error.within else []
    return [f"{where(*error.within) if error.within else used}: {version()}: {error.words}{one.more}", f"    {one.why}", *macro]


def is_named(errors: list[Error], spot: Mark) -> bool:
    """Whether rustc names an error there; of a place of which the line alone is known, on the line."""
    return any((error.path, error.line) == spot[:2] and spot.column in (0, error.column) for error in errors)
