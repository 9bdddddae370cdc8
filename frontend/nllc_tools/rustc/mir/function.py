"""Reads one function of rustc: its variables, its lines, its regions, and what it asks of them."""

from __future__ import annotations

from collections import Counter
from typing import Callable, Collection, Iterable, Iterator

from nllc_tools.base import walks
from nllc_tools.base.grouping import grouped
from nllc_tools.rustc.dumps import Dump
from nllc_tools.rustc.mir.body import Body, Reason
from nllc_tools.rustc.mir.body_reader import read_body
from nllc_tools.rustc.mir.constants import captures, named_constants, with_types
from nllc_tools.rustc.mir.statements import Assign, Constant, Drop, Foreign, Line, Storage, operands_of, places_of
from nllc_tools.rustc.mir.type_reader import read_type
from nllc_tools.rustc.mir.types import STATIC
from nllc_tools.rustc.tables import Location, Reader as Tables
from nllc_tools.rustc.unsaid import NOT_READ, NotSaid

BOUNDS = ("Predicate", "TypeAnnotation", "BoringNoLocation")
OF_TYPES = ("Boring", "ClosureUpvar", "Assignment")


class Function:
    """A function as rustc dumps it; regions are rustc's numbers. Raises NotSaid where a line or type isn't understood.

    The visible regions are those that a text names: of variables, of borrows, that lines write, that are asked of everywhere.
    So are those that several lines speak of. What is left is rustc's own, of one line: of the types that it gives to places, of
    signatures made fresh.
    """

    def __init__(self, dump: Dump):
        self.name, self.body, tables = dump.name, read_body(dump.mir), Tables(dump.facts)
        for reason in self.body.unread:
            raise reason
        self.locals = {number: read_type(local.type) for number, local in sorted(self.body.locals.items())}
        self.lines = {location: line_of(self.body, location) for location in self.body.statements}
        self.refuse_unsaid()
        self.universals = tables.column("universal_region", tables.region)
        self.outlives = tables.pairs("known_placeholder_subset", tables.region, tables.region)
        self.drops = grouped(tables.pairs("drop_of_var_derefs_origin", tables.variable, tables.region))
        self.asked = grouped((reason.location, reason) for reason in self.body.reasons)
        self.visible = set(self.visible_regions())

    def refuse_unsaid(self) -> None:
        """Refuses a variable that has no type, and a closure that captures several parts of one, of which rustc prints one."""
        used = {place.local for line in self.lines.values() for place in places_of(line)}
        used |= {line.local for line in self.lines.values() if isinstance(line, Storage)}
        for local in sorted(used - self.locals.keys()):
            raise NotSaid(NOT_READ, f"_{local} isn't declared")
        for location, line in self.lines.items():
            count = captures(self.body.statements[location].remarks)
            if count is not None and isinstance(line, Assign) and len(line.operands) != count:
                raise NotSaid("captures that rustc doesn't print")

    def visible_regions(self) -> Iterator[int]:
        yield from self.universals
        for type in self.locals.values():
            yield from type.regions()
        for line in self.lines.values():
            yield from written_regions(line)
        yield from (one for reason in self.asked.get(None, ()) for one in (reason.sup, reason.sub))
        places = {(one, location) for location, reasons in self.asked.items() for reason in reasons
                  for one in (reason.sup, reason.sub)}
        yield from (one for one, count in Counter(one for one, _ in places).items() if count > 1)

    def paths(self, location: Location) -> Paths:
        return Paths(self, location)


def line_of(body: Body, location: Location) -> Line:
    """A statement or terminator, with the types of its constants; refuses what no text says."""
    line, remarks = body.line(location), body.statements[location].remarks
    if isinstance(line, Foreign):
        raise line.reason
    if isinstance(line, Drop) and line.is_of_coroutine:
        raise NotSaid("a coroutine")
    return with_types(line, named_constants(remarks))


def written_regions(line: Line) -> Iterator[int]:
    """The regions that a line writes, save those of the types of places."""
    if isinstance(line, Assign):
        if line.is_borrow() and isinstance(line.region, int):
            yield line.region
        if line.type is not None:
            yield from line.type.regions()
    for constant in constants_of(line):
        if constant.type is not None:
            yield from constant.type.regions()


def constants_of(line: Line) -> Iterator[Constant]:
    return (operand for operand in operands_of(line) if isinstance(operand, Constant))


class Paths:
    """What rustc asks at a line: chains of constraints whose inner regions are rustc's own there."""

    def __init__(self, function: Function, location: Location):
        self.visible = function.visible
        self.span = function.body.statements[location].span
        self.reasons = function.asked.get(location, ())
        self.onwards = onwards(self.reasons)

    def reached(self, begin: int, stops: Collection[int] = ()) -> set[int]:
        """The regions that a chain leads to, which may go on through rustc's own that aren't stops."""
        return reached(self.onwards, begin, lambda one: one in self.visible or one in stops)

    def leads(self, begin: int, end: int) -> bool:
        """Whether any chain leads from one region to another."""
        return end in reached(self.onwards, begin, lambda one: False)

    def pairs(self, left_out: Callable[[Reason], bool] = lambda reason: False) -> set[tuple[int, int]]:
        """The visible regions at the ends of all chains, without those that need a constraint that is left out."""
        kept = onwards(reason for reason in self.reasons if not left_out(reason))
        return {(begin, end) for begin in self.visible.intersection(kept)
                for end in self.visible & reached(kept, begin, self.visible.__contains__)
                if end != begin and begin != STATIC}

    def needing(self, is_needed: Callable[[Reason], bool]) -> set[tuple[int, int]]:
        """The pairs for which each chain needs such a constraint."""
        if not any(map(is_needed, self.reasons)):
            return set()
        return self.pairs() - self.pairs(is_needed)

    def bounds(self) -> set[tuple[int, int]]:
        """What bounds ask: predicates, types that are to be well-formed, or that the source writes."""
        return self.needing(lambda reason: reason.category in BOUNDS)

    def needs(self) -> set[tuple[int, int]]:
        """What a closure asks of the function around it, beside bounds: that stands where its own code does."""
        return self.needing(lambda reason: reason.category not in OF_TYPES or reason.span != self.span)


def onwards(reasons: Iterable[Reason]) -> dict[int, list[int]]:
    """What each region is asked to outlive."""
    return grouped((reason.sup, reason.sub) for reason in reasons)


def reached(onwards: dict[int, list[int]], begin: int, is_end: Callable[[int], bool]) -> set[int]:
    """What a region leads to, which goes on through those that are no ends."""
    return walks.reached(onwards.get(begin, ()), lambda one: () if is_end(one) else onwards.get(one, ()))
