"""Where a closure uses what it borrows from the function around it."""

from __future__ import annotations

import os
import re
from bisect import bisect_left
from functools import lru_cache
from typing import Collection, Iterator, NamedTuple, Optional

from nllc_tools.rustc.dumps import Dump
from nllc_tools.rustc.mir.body import Body
from nllc_tools.rustc.mir.body_reader import read_body
from nllc_tools.rustc.mir.spans import Span
from nllc_tools.rustc.mir.statements import Assign, Place, places_of, target_of
from nllc_tools.rustc.tables import Location

BEGIN = re.compile(r"@.*?:(\d+):(\d+): \d+:\d+")
TAIL = ".-------.nll.0.mir"


class Capture(NamedTuple):
    """That a closure takes a variable: where the closure stands; where it uses that, as far as is known, whether only what is
    behind a reference in it, and whether it is an async one."""

    home: Optional[Span] = None
    use: Optional[Span] = None
    is_behind: bool = False
    is_async: bool = False


class Made(NamedTuple):
    """A closure or coroutine that a statement makes, and where that stands."""

    closure: Assign
    span: Optional[Span]

    def takes(self) -> list[Optional[Place]]:
        """The places that it takes; None for what is no place."""
        return [one if isinstance(one, Place) else None for one in self.closure.operands]

    def index_of(self, place: Place) -> Optional[int]:
        """Which of what it takes is a place."""
        return next((index for index, one in enumerate(self.takes()) if one is not None and one.is_same(place)), None)

    def home_in(self, span: Span) -> Span:
        """Where it begins in a place, which is behind the parentheses around it."""
        begin = BEGIN.search(self.closure.word)
        spot = (int(begin[1]), int(begin[2])) if begin else span.begin
        return span._replace(first=spot[0], column=spot[1]) if span.has(spot) else span


class Taken(NamedTuple):
    """A statement that takes a variable into a closure or borrows it for one, and the use in there."""

    location: Location
    variable: int
    use: Optional[Span]


def made_at(body: Body, location: Location) -> Optional[Made]:
    """The closure that a statement makes, if it does."""
    line = body.line(location) if " = {" in body.statements[location].text else None
    if isinstance(line, Assign) and line.kind == "make" and line.type is None:
        return Made(line, body.statements[location].span)
    return None


def capture_of(dump: Dump, body: Body, variable: Optional[int], uses: Collection[Location]) -> Optional[Capture]:
    """The capture for which the borrow in a variable is made; None where it is made for no closure."""
    for location in uses:
        if variable is not None and body.locals[variable].name is None and (made := made_at(body, location)):
            return capture_at(dump.mir, made, Place(variable))
    return None


def captures(dump: Dump, body: Body) -> Iterator[Taken]:
    """Each statement that takes a variable into a closure or borrows it for one, with the use in there."""
    closures = {location: made for location in sorted(body.statements) if (made := made_at(body, location))}
    borrows = {line.place.local: (location, line.source.local) for location in (body.statements if closures else ())
               if isinstance(line := body.line(location), Assign) and is_plain_borrow(line)}
    for location, made in closures.items():
        for taken in filter(None, made.takes()):
            use = capture_at(dump.mir, made, taken).use
            yield Taken(location, taken.local, use)
            if taken.local in borrows:
                yield Taken(*borrows[taken.local], use)


def is_plain_borrow(line: Assign) -> bool:
    """Whether a line borrows into a variable, and through no more than a dereference of a variable."""
    return line.kind in ("ref", "mut") and not line.place.steps and "*" not in line.source.words[2:]


def capture_at(mir: str, made: Made, place: Place) -> Capture:
    """What a closure takes by an operand."""
    return use_inside(mir, made.closure.word, made.index_of(place))._replace(home=made.span and made.home_in(made.span))


def use_inside(mir: str, closure: str, index: Optional[int]) -> Capture:
    """The first statement of the closure that names its field of this number; of one in it, what that uses."""
    for path in closures_of(mir):
        inner = read_body(path)
        own = inner.locals.get(1)
        is_async = own is not None and closure.replace("{", "{async ", 1) in own.type
        if own and (closure in own.type or is_async) and os.path.isfile(path) and index is not None:
            named = {one: found for one in sorted(inner.statements) if (found := list(behind_field(inner, one, index)))}
            uses = [deeper(path, inner, one, any(found)) for one, found in named.items()]
            return Capture(None, uses[0].use if uses else None, bool(uses) and all(use.is_behind for use in uses), is_async)
    return Capture()


def behind_field(closure: Body, location: Location, index: int) -> Iterator[bool]:
    """Of each place of a line that goes through the closure's field whether it goes on behind a reference to a reference."""
    for place in places_of(closure.line(location)) if f".{index}: " in closure.statements[location].text else ():
        own, *behind = place.words[2 if place.words[1:2] == ("*",) else 1:] or ("",)
        if place.local == 1 and own == str(index):
            yield behind[:2] == ["*", "*"]


def closures_of(mir: str) -> Iterator[str]:
    """The dumps of the closures inside the function of a dump."""
    folder, name = os.path.split(mir)
    begin, names = f"{name.removesuffix(TAIL)}-{{closure#", dumps_in(folder)
    at = bisect_left(names, begin)
    while at < len(names) and names[at].startswith(begin):
        yield os.path.join(folder, names[at])
        at += 1


@lru_cache(4)   # a crate has ten thousand functions
def dumps_in(folder: str) -> list[str]:
    """The names of all dumps of a folder, ascending."""
    return sorted(name for name in os.listdir(folder) if name.endswith(TAIL))


def closure_with(body: Body, place: Place) -> Optional[Made]:
    """The first closure that takes a place."""
    all_made = (made_at(body, location) for location in body.statements)
    return next((made for made in all_made if made and made.index_of(place) is not None), None)


def deeper(mir: str, body: Body, location: Location, is_behind: bool) -> Capture:
    """Where a statement of a closure stands; where it borrows for a closure inside, the use in there."""
    target = target_of(body.line(location))
    there = closure_with(body, target) if target is not None and not target.steps else None
    inner = capture_at(mir, there, target) if there and target is not None else Capture()
    return Capture(None, inner.use or body.statements[location].span, inner.is_behind or is_behind)
