"""The loans of a function: what is borrowed, what goes against it, as rustc's tables have it."""

from dataclasses import dataclass, field
from functools import cached_property
from typing import NamedTuple, Optional

from nllc_tools.base.grouping import grouped
from nllc_tools.base.refusal import Refusal
from nllc_tools.rustc.dumps import Dump
from nllc_tools.rustc.mir.accesses import WRITES, Access, accesses
from nllc_tools.rustc.mir.body import Body
from nllc_tools.rustc.mir.captures import capture_at, capture_of, made_at
from nllc_tools.rustc.mir.destructors import Path, path_to
from nllc_tools.rustc.mir.spans import Span
from nllc_tools.rustc.mir.statements import Assign, Drop, Foreign, Place, target_of
from nllc_tools.rustc.tables import Location, Tables

KINDS = {"ref": "shared", "mut": "mut", "fake": "fake"}

# How what is borrowed goes away.
ENDING = ("ends", "drops", "leaves")


@dataclass(frozen=True)
class Loan:
    """A borrow. `home` is where a temporary is made, or where a closure uses what it borrows.

    A closure borrows uniquely what it writes through a variable that isn't `mut` itself, and a variable of which it
    uses only what is behind it. To rustc what an async closure borrows is as if it were borrowed where it stands.
    """

    region: int
    location: Location
    kind: str
    place: Place
    target: Optional[int]
    span: Optional[Span]
    path: Path
    home: Optional[Span] = None
    is_capture: bool = False
    is_unique: bool = False
    killed: list[Location] = field(default_factory=list)


class Way(NamedTuple):
    """How a statement goes against a loan, by which place; of a second phase, where the first one begins."""

    word: str
    place: Optional[Place] = None
    begun: Optional[Location] = None


class Against(NamedTuple):
    """A statement that goes against loans, and how."""

    location: Location
    way: Way
    span: Optional[Span]
    loans: list[int]


class Loans:
    """All loans of one function."""

    def __init__(self, dump: Dump, tables: Tables, body: Body):
        self.dump, self.body = dump, body
        self.destructors = dump.destructors
        self.uses = grouped({(variable, spot.location): None for variable, spot in tables.var_used_at})
        self.loans = {number: self.loan(dump, region, spot.location)
                      for region, number, spot in tables.loan_issued_at}
        for number, spot in tables.loan_killed_at:
            self.loans[number].killed.append(spot.location)
        self.resumed = {Location(line.resumes, 0) for _, line in body.ends()
                        if isinstance(line, Foreign) and line.resumes is not None}
        self.invalid = {(spot.location, number) for spot, number in tables.loan_invalidated_at}
        self.issued = {loan.location: loan for loan in self.loans.values()}
        self.by_target = {loan.target: loan for loan in self.loans.values()
                          if loan.kind == "mut" and loan.target is not None}

    def loan(self, dump: Dump, region: int, location: Location) -> Loan:
        line, span = self.body.line(location), self.body.statements[location].span
        if not isinstance(line, Assign) or not line.is_borrow():
            raise Refusal(f"{self.body.path}: rustc's facts have a borrow where its MIR dump has none; "
                          "rustc 1.95 is known to work")
        kind, place = KINDS[line.kind], line.source
        variable = None if line.place.steps else line.place.local
        capture = None if variable is None else capture_of(dump, self.body, variable, self.uses.get(variable, ()))
        root = self.body.locals.get(place.local)
        of_closure = capture if capture is not None and not capture.is_async else None
        home = of_closure.use if of_closure else root.span if root and not root.name else None
        path, outer = path_to(place, self.body.type_of(place.local)), self.body.type_of(place.local)
        is_unique = capture is not None and kind == "mut" and root is not None \
            and (not root.is_mutable or capture.is_behind and path.type.form == "mut") \
            and not any(type.is_closure() for type in outer.nested())   # what that has borrowed is as if it were `mut`
        return Loan(region, location, kind, place, variable, capture.home if capture else span, path, home,
                    of_closure is not None, is_unique)

    @cached_property
    def against(self) -> list[Against]:
        """What goes against which loans, in the order of the points."""
        found: dict[tuple[Location, Way], list[int]] = {}
        for location, number in sorted(self.invalid):
            way = self.way(location, self.loans[number])
            if way and not self.is_mere_reservation(location, number):
                found.setdefault((location, way), []).append(number)
        return [Against(location, way, self.span(location, way), numbers)
                for (location, way), numbers in found.items()]

    def span(self, location: Location, way: Way) -> Optional[Span]:
        """Where a statement goes against loans: of what a closure takes the closure, of its copies the use in it."""
        span, issued = self.body.statements[location].span, self.issued.get(location)
        if issued and issued.is_capture:
            return issued.span
        if way.word in ("moves", "reads") and way.place and (made := made_at(self.body, location)):
            capture = capture_at(self.dump.mir, made, way.place)
            return capture.home if way.word == "moves" else capture.use or span
        return span

    def ending(self) -> dict[int, Loan]:
        """The loans of what goes away while they may be in force."""
        return {number: self.loans[number] for one in self.against if one.way.word in (*ENDING, "destroys")
                for number in one.loans}

    def is_mere_reservation(self, location: Location, number: int) -> bool:
        """Whether a borrow in two phases begins there, against a loan that may only read.

        rustc's tables have that too, but the second phase alone goes against such a loan.
        """
        first = self.issued.get(location)
        if first is None or first.kind != "mut" or first.target is None or self.loans[number].kind == "mut":
            return False
        uses = self.uses[first.target]
        return not self.body.locals[first.target].name and len(uses) == 1 and (uses[0], number) in self.invalid

    def is_replaced(self, location: Location) -> bool:
        """Whether what is dropped there gets a new value at once: that is one assignment."""
        dropped = self.body.line(location)
        following = Location(dropped.blocks[0], 0) if isinstance(dropped, Drop) and dropped.blocks else None
        target = target_of(self.body.line(following)) if following in self.body.statements else None
        return isinstance(dropped, Drop) and target is not None and target.is_same(dropped.place)

    def way(self, location: Location, loan: Loan) -> Optional[Way]:
        """How the statement goes against the loan, if it does.

        rustc's tables have it that a coroutine which goes on goes against all loans of its
        variables. That is so of those that may be moved meanwhile, which stable Rust doesn't have.
        """
        found = list(accesses(self.body.line(location)))
        direct = next((one for one in found if one.disturbs(loan.kind, loan.place)), None)
        if direct and direct.way == "moves" and loan.kind == "fake":
            return None     # rustc leaves that to its check of moves
        if direct:
            return Way(self.more_exactly(direct.way, location, loan), direct.place)
        begun = (self.by_target.get(one.place.local) for one in found if one.place)
        first = next((one for one in begun if one and one is not loan and one.place.overlaps(loan.place)), None)
        if first:
            return Way("late", first.place, first.location)
        if location in self.resumed:
            return None
        union = self.access_of_union(found, loan)
        return Way(union.way, union.place) if union else Way("reads", loan.place)

    def access_of_union(self, found: list[Access], loan: Loan) -> Optional[Access]:
        """The access by which a statement goes against a loan of another field of the same union."""
        return next((one for one in found if one.place and one.place.local == loan.place.local
                     and (one.way in WRITES or loan.kind == "mut")), None)

    def more_exactly(self, way: str, location: Location, loan: Loan) -> str:
        if way == "drops" and self.is_replaced(location):
            return "assigns"
        if way in ENDING and self.is_seen_by_destructor(way, loan):
            return "destroys"
        made = self.issued.get(location)
        return "unique" if way == "mut" and made and made.is_unique else way

    def is_seen_by_destructor(self, way: str, loan: Loan) -> bool:
        """Whether the destructor of a type looks at what is borrowed, when what is around it goes away.

        What stands behind a reference goes on when the reference is gone: then a destructor alone, be it
        of another crate, can go against the borrow.
        """
        return loan.path.is_seen_by(self.destructors) or (way == "drops" and loan.path.is_behind)
