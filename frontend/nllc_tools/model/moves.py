"""How rustc's errors of moves and assignments come about: by its own tables of what is moved, assigned and accessed.

E0382: a place is accessed that may be moved out of, E0381: that may have no value yet; E0384: a variable that isn't
`mut` gets a value where it may have one. Only what rustc says, too, is told.
"""

import re
from typing import Container, Iterable, Iterator, NamedTuple, Optional

from nllc_tools.base.walks import backwards, shortest
from nllc_tools.model.liveness import MovePaths, neighbours
from nllc_tools.rustc.error_kinds import MOVES
from nllc_tools.rustc.errors import Error
from nllc_tools.rustc.mir.body import Body
from nllc_tools.rustc.mir.captures import closure_with, made_at
from nllc_tools.rustc.mir.statements import Assign, Storage
from nllc_tools.rustc.tables import Location, Spot, Tables

NAMED = re.compile(r"`(\w+)[^`]*`")


class Gone(NamedTuple):
    """An access: where, rustc's code, the variable, the statements since which it is wrong, a walk from the first."""

    location: Location
    code: str
    variable: int
    since: list[Location]
    walk: list[Location]


class Moved(MovePaths):
    """The paths of a function, also where they are accessed."""

    def __init__(self, tables: Tables, body: Body):
        super().__init__(tables)
        self.body = body
        self.before, _ = neighbours(tables)
        self.accessed = tables.path_accessed_at_base

    def of(self, errors: Iterable[Error]) -> Iterator[tuple[Error, Gone]]:
        """Each error of moves and assignments of which the tables have it, with that.

        Of several errors at one place, which a macro has, each is another statement's.
        """
        taken: set[Location] = set()
        for error in errors:
            found = self.of_one(error, taken) if error.code in MOVES else None
            if found:
                taken.add(found.location)
                yield error, found

    def of_one(self, error: Error, taken: Container[Location]) -> Optional[Gone]:
        rows = [(path, spot) for path, spots in self.assigned.items() for spot in spots] if error.code == "E0384" else self.accessed
        rows = sorted(rows, key=lambda row: row[1])
        there = [row for row in rows if self.begins_at(row[1].location, error)]
        for path, spot in there or [row for row in rows if self.is_of_macro(*row, error)]:
            found = self.assigned_before(path, spot) if error.code == "E0384" else self.gone_at(path, spot)
            if found and found.code == error.code and found.location not in taken:
                return found
        return None

    def is_of_macro(self, path: int, spot: Spot, error: Error) -> bool:
        """Whether a macro of another file has the statement, and the variable is the one that the error names."""
        span, local = self.body.statements[spot.location].span, self.body.locals.get(self.root_of(path))
        named = NAMED.search(error.message)
        return span is not None and span.file != error.places[0][0] \
            and local is not None and local.name is not None and named is not None and named[1] == local.name

    def root_of(self, path: int) -> int:
        """The variable of which a path is a part."""
        *_, root = self.with_ancestors(path)
        return self.variable.get(root, 0)

    def begins_at(self, location: Location, error: Error) -> bool:
        """Whether a statement, or the closure that it makes or borrows for, begins where the error is."""
        line, span = self.body.line(location), self.body.statements[location].span
        file = error.places[0][0]
        if span is None or (span.file, span.first) > (file, error.line):
            return False
        target = line.place if isinstance(line, Assign) and line.is_borrow() else None
        made = made_at(self.body, location) or (target and closure_with(self.body, target))
        begins = (span, made.home_in(span)) if made else (span,)
        return any((one.file, *one.begin) == (file, error.line, error.column) for one in begins)

    def gone_at(self, path: int, spot: Spot) -> Optional[Gone]:
        """The moves, or the missing value, by which an access to a path is wrong."""
        for part in self.with_parts(path):
            came_by = self.back(spot, self.spots(self.assigned, part))
            moves = self.spots(self.moved, part)
            moved = [one for one in came_by if one in moves]
            real = [one for one in moved if self.is_move(one)]
            if moved:
                return self.gone(path, spot, "E0382" if real else "E0381", real, came_by, moved[0])
        return None

    def assigned_before(self, path: int, spot: Spot) -> Optional[Gone]:
        """The earlier assignments of a variable that isn't `mut`."""
        local = self.body.locals.get(self.variable.get(path, -1))
        came_by = self.back(spot, set())
        earlier = [one for one in came_by if one in self.assigned[path]]
        if local is None or local.is_mutable or not earlier:
            return None
        return self.gone(path, spot, "E0384", earlier, came_by, earlier[0])

    def gone(self, path: int, spot: Spot, code: str, since: list[Spot], came_by: dict[Spot, Optional[Spot]],
             nearest: Spot) -> Gone:
        walk = [nearest, *backwards(came_by, nearest, lambda following: following)]
        return Gone(spot.location, code, self.root_of(path), locations(since), locations(walk))

    def back(self, spot: Spot, stops: set[Spot]) -> dict[Spot, Optional[Spot]]:
        """The spots from which a walk leads to this one past no stop, nearest first, each with the next one."""
        def onward(here: Spot) -> list[Spot]:
            return [before for before in self.before[here] if before not in stops]

        return shortest(onward(spot), lambda here: ((before, here) for before in onward(here)))

    def is_move(self, spot: Spot) -> bool:
        line = self.body.line(spot.location)
        return spot.is_mid and not (isinstance(line, Storage) and not line.is_live)


def locations(spots: list[Spot]) -> list[Location]:
    """Where these are, each once."""
    return list(dict.fromkeys(spot.location for spot in spots))
