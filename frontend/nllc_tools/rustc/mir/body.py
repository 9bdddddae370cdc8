"""The MIR of one function, as rustc dumps it.

What is taken from a dump is what a person reads: statements, variables, types, lines of the source. All
that the problem itself needs is in the fact tables, save which terminators leave the function.
"""

import re
from dataclasses import dataclass, field
from functools import lru_cache
from itertools import chain
from typing import Iterator, NamedTuple, Optional, Sequence, Union

from nllc_tools.rustc.mir.spans import Span, span_of
from nllc_tools.rustc.mir.statement_reader import read_line
from nllc_tools.rustc.mir.statements import Assign, Call, Constant, Foreign, Leave, Line, Place
from nllc_tools.rustc.mir.type_reader import type_or_plain
from nllc_tools.rustc.mir.types import Type
from nllc_tools.rustc.tables import Location
from nllc_tools.rustc.unsaid import NotSaid

CONSTANT = "+ span: "
RUN = re.compile(r"bb(\d+)\[(\d+)(?:\.\.=(\d+))?\]")
DEREF = ("*",)


class Reason(NamedTuple):
    """A constraint as rustc prints it: its category with what stands behind, and where it arises.

    Without a location it holds everywhere. What a macro or the language itself puts there is expanded.
    """

    sup: int
    sub: int
    category: str
    detail: str
    location: Optional[Location]
    span: Optional[Span]
    is_expanded: bool = False


class Statement(NamedTuple):
    """A statement or terminator as rustc prints it, and what it remarks below: constants, captures."""

    text: str
    span: Optional[Span]
    remarks: Sequence[str] = ()

    @property
    def constant(self) -> Optional[Span]:
        """Where its first constant stands, such as a function's name."""
        return next((span_of(remark.removeprefix(CONSTANT)) for remark in self.remarks if remark.startswith(CONSTANT)), None)


@dataclass
class Local:
    """A variable of MIR: its type as rustc prints it, its name in the source, where it is declared."""

    type: str
    name: Optional[str] = None
    span: Optional[Span] = None
    is_mutable: bool = False


@dataclass
class Body:
    """The dump of one function, and why it can't be taken for whole. What is captured is known by the words of its place."""

    path: str
    is_function: bool = False
    locals: dict[int, Local] = field(default_factory=dict)
    statements: dict[Location, Statement] = field(default_factory=dict)
    names: dict[int, str] = field(default_factory=dict)
    external: set[int] = field(default_factory=set)
    reasons: list[Reason] = field(default_factory=list)
    needs: list[tuple[int, int]] = field(default_factory=list)
    live: dict[int, str] = field(default_factory=dict)
    captured: dict[tuple[str, ...], str] = field(default_factory=dict)
    lines: dict[Location, Line] = field(default_factory=dict)
    unread: list[NotSaid] = field(default_factory=list)

    def live_at(self, region: int) -> frozenset[Location]:
        """At which locations a region is live, as the dump says it."""
        return locations(self.live.get(region, ""))

    def line(self, location: Location) -> Line:
        """What the statement or terminator says, which is read once that is asked for."""
        if location not in self.lines:
            self.lines[location] = read_line(self.statements[location].text, self.is_end(location))
        return self.lines[location]

    def is_end(self, location: Location) -> bool:
        """Whether it is the terminator of its block."""
        return Location(location.block, location.index + 1) not in self.statements

    def ends(self) -> Iterator[tuple[Location, Line]]:
        """The terminators, in order."""
        return ((location, self.line(location)) for location in sorted(filter(self.is_end, self.statements)))

    def exits(self) -> list[Location]:
        """Those behind which the caller goes on: it has the result, catches a panic, or drops a coroutine.

        (`return`; `resume` ends each way on which a panic goes out of the function.)
        """
        return [location for location, line in self.ends() if isinstance(line, Leave) and line.is_return]

    def type_of(self, local: int) -> Type:
        """The type of a variable, as far as it is understood."""
        return type_or_plain(self.locals[local].type)

    def name_of(self, place: Place) -> Optional[str]:
        """The name of the variable of which a place is a part; in a closure, of what it has captured, too."""
        root = self.locals.get(place.local)
        if root and root.name:
            return root.name
        words = place.words
        return next((name for captured, name in self.captured.items() if captured == words[:len(captured)]), None)

    def function_span(self, location: Location) -> Optional[Span]:
        """Where the function stands that is called there: its name, or else the temporary that has it."""
        line, said = self.line(location), self.statements[location]
        if isinstance(line, Call) and isinstance(line.function, Place) and not line.function.steps:
            local = self.locals.get(line.function.local)
            return local.span if local and not local.name else said.span
        return said.constant if isinstance(line, (Call, Foreign)) else None

    def spans(self) -> Iterator[Span]:
        """The places in the source that the dump names."""
        things: Iterator[Union[Local, Statement]] = chain(self.locals.values(), self.statements.values())
        return (thing.span for thing in things if thing.span is not None)


def methods_on_results(body: Body) -> Iterator[tuple[Location, Span]]:
    """The assignments to a variable on which the block that has them calls a function at its end, and where that stands."""
    for end, call in body.ends():
        method = body.statements[end].constant
        receiver = call.operands[0] if method and isinstance(call, Call) and call.operands else None
        if method and isinstance(receiver, Place) and not receiver.steps:
            before = (Location(end.block, index) for index in range(end.index))
            given = [(one, line) for one in before if isinstance(line := body.line(one), Assign) and not line.place.steps]
            lent = {line.source.local for _, line in given if line.place.local == receiver.local and reborrows(line)}
            yield from ((one, method) for one, line in given
                        if line.place.local in {receiver.local, *lent} and not is_constant(line))


def is_constant(line: Assign) -> bool:
    """Whether the value is a constant, or a cast of one."""
    return line.kind in ("use", "cast") and isinstance(line.operands[0], Constant)


def reborrows(line: Assign) -> bool:
    """Whether a line borrows anew all that a variable leads to."""
    return line.kind in ("ref", "mut") and line.source.words[1:] == DEREF


@lru_cache(1024)    # regions of several variables are live where others are
def locations(text: str) -> frozenset[Location]:
    """What `bb0[1..=2], bb1[0]` says."""
    return frozenset(Location(int(run[1]), index) for run in RUN.finditer(text)
                     for index in range(int(run[2]), int(run[3] or run[2]) + 1))
