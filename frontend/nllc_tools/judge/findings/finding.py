"""A finding: a place, what is wrong there, how it comes about, and what else is said of it."""

from typing import Iterable, NamedTuple, Optional

from nllc_tools.base.sentences import Code, Sentence, ticked
from nllc_tools.judge import asking_statements
from nllc_tools.judge.as_rustc import blame
from nllc_tools.judge.content import Content
from nllc_tools.judge.faults import AnyFault
from nllc_tools.model.chains import Step
from nllc_tools.model.said import Blamed, Error, Place, Within
from nllc_tools.texts.source import snippet, whole_line

# What a constraint of a category does with what stands at its place.
DEEDS = {"return": "returned", "yield": "yielded", "constant": "used as a constant",
         "annotation": "written as a type", "generic": "written as a type", "cast": "cast",
         "object": "made a trait object", "argument": "given as an argument", "bound": "bound by its type",
         "assignment": "assigned", "use": "used", "capture": "captured by a closure",
         "predicate": "required by a bound", "opaque": "returned as an impl type"}
MOST_HELPS = 2
HELP = "help: "
INVOCATION = "in this macro invocation"


class Finding(NamedTuple):
    """Where it is, rustc's code, what it is, how it comes about, the fault that is told, and what else is said.

    `within` is the place in a macro of another file that rustc names for it.
    """

    place: Optional[Place]
    code: str
    head: Sentence
    cause: Sentence
    fault: AnyFault
    more: list[Sentence] = []
    within: Optional[Within] = None


def notes(content: Content, error: Optional[Error], advised: Sentence) -> list[Sentence]:
    """Why no other lifetime will do, and what rustc advises; where it advises nothing, what is advised here."""
    helps = [ticked(one) for one in error.helps[:MOST_HELPS]] if error else []
    said = [[HELP, *one] for one in helps or [advised]]
    if error:
        why = [["invariant: ", *ticked("; ".join(error.notes))]] if error.notes else []
        return why + used_macro(content, error) + said
    return said


def used_macro(content: Content, error: Error) -> list[Sentence]:
    """Where a macro is used, in whose lines an error is: of the same file, or of one that made the whole function."""
    told: list[Sentence] = [[f"{INVOCATION}: {where(*error.invoked)}"]] if error.invoked else []
    return told + [[f"{INVOCATION}: line {label.place.line} (", Code(snippet(content.source, label.place)), ")"]
                   for label in error.labels if label.words == INVOCATION]


def within(place: Optional[Place], error: Optional[Error]) -> Optional[Within]:
    """The place in a macro of another file that rustc names for that of a finding."""
    return error.within if error and place and (error.line, error.column) == place[:2] else None


def where(path: str, place: Optional[Place]) -> str:
    """`a.rs:3:5`, as far as it is known."""
    line, column = place[:2] if place else (0, 0)
    return ":".join(str(part) for part in (path, line, column) if part)


def stops_of(content: Content, steps: Iterable[Step]) -> list[Sentence]:
    """The lines of the source by which a chain of constraints goes, each with what is asked there.

    Plain steps are left out. Of a text that doesn't say why constraints are asked, it's the lines of its points.
    """
    steps = list(steps)
    found: dict[int, Blamed] = {}
    for named in (blame.of_step(content.facts, step) for step in steps):
        if named and named.place:
            best = found.get(named.place.line, named)
            found[named.place.line] = min(best, named, key=Blamed.rank)
    if not content.beside.asked:
        lines = (line for step in steps for line in asking_statements.arising(content.facts, [step]))
        return [at_line(line, whole_line(content.source, line)) for line in lines]
    is_plain = all(one.word == "step" for one in found.values())
    return [at_line(line, snippet(content.source, one.place), DEEDS.get(one.word, ""))
            for line, one in found.items() if is_plain or one.word != "step"]


def at_line(line: int, code: str, deed: str = "") -> Sentence:
    """A line with what stands there, and what is done with it."""
    return [f"line {line}", *([f" ({deed}: " if deed else " (", Code(code), ")"] if code else [])]
