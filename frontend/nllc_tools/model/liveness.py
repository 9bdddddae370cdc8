"""At which points each variable is live, from rustc's tables of uses, definitions and drops.

A variable is use-live at a point if a path leads from there to a use of it, and no earlier point of
the path, the first included, defines it. It is drop-live at a point if the same holds with a drop,
and some part of it may be initialised all along the path: MIR at this stage also drops what was
moved out of, and such a drop does nothing. (RFC 2094, "Liveness"; the rules are Polonius's.)
"""

from typing import Callable, Iterable, Iterator

from nllc_tools.base.grouping import grouped
from nllc_tools.base.walks import reached
from nllc_tools.rustc.tables import Location, Spot, Tables

Neighbours = dict[Spot, list[Spot]]


def bases(tables: Tables) -> Iterator[tuple[int, Location]]:
    """The pairs of a region and a location before which it is live; a pair may come repeatedly."""
    for regions, locations in live_variables(tables):
        yield from ((region, location) for region in regions for location in locations)


def live_variables(tables: Tables) -> Iterator[tuple[list[int], set[Location]]]:
    """For each variable the regions of its type, and the locations before which it is live; first by uses, then by drops."""
    before, after = neighbours(tables)
    used, defined = grouped(tables.var_used_at), grouped(tables.var_defined_at)
    for variable, regions in grouped(tables.use_of_var_derefs_origin).items():
        ends = set(defined[variable])
        yield regions, locations_of(spread(before, used[variable], lambda spot: spot not in ends))
    dropped, paths = grouped(tables.var_dropped_at), MovePaths(tables)
    for variable, regions in grouped(tables.drop_of_var_derefs_origin).items():
        filled = paths.maybe_initialised(variable, after)
        drops = [spot for spot in dropped[variable] if not filled.isdisjoint(before[spot])]
        yield regions, locations_of(spread(before, drops, lambda spot: spot in filled and spot not in defined[variable]))


def locations_of(live: Iterable[Spot]) -> set[Location]:
    """The locations before which something is live at these spots."""
    return {spot.location for spot in live if not spot.is_mid}


def neighbours(tables: Tables) -> tuple[Neighbours, Neighbours]:
    """For each spot those before it, and those after it."""
    return grouped((end, begin) for begin, end in tables.cfg_edge), grouped(tables.cfg_edge)


def spread(neighbours: Neighbours, begin: Iterable[Spot], passes: Callable[[Spot], bool]) -> set[Spot]:
    """The first spots, and all that they lead to through spots that pass."""
    return reached(begin, lambda spot: filter(passes, neighbours[spot]))


class MovePaths:
    """The move paths of a function (a variable, its fields, their fields), and where they are assigned and moved out of."""

    def __init__(self, tables: Tables):
        self.variable, self.parent = dict(tables.path_is_var), dict(tables.child_path)
        self.root = {variable: path for path, variable in tables.path_is_var}
        self.children = grouped((parent, child) for child, parent in tables.child_path)
        self.assigned, self.moved = grouped(tables.path_assigned_at_base), grouped(tables.path_moved_at_base)

    def with_ancestors(self, path: int) -> Iterator[int]:
        """The path, what it is a part of, and so on up to the variable."""
        yield path
        while path in self.parent:
            path = self.parent[path]
            yield path

    def with_parts(self, path: int) -> Iterator[int]:
        """The path, and all that are parts of it."""
        yield path
        for child in self.children[path]:
            yield from self.with_parts(child)

    def spots(self, table: dict[int, list[Spot]], path: int) -> set[Spot]:
        """Where a table has the path, or what it is a part of."""
        return {spot for one in self.with_ancestors(path) for spot in table[one]}

    def maybe_initialised(self, variable: int, after: Neighbours) -> set[Spot]:
        """The spots behind which some part of the variable may be initialised."""
        filled: set[Spot] = set()
        for part in self.with_parts(self.root[variable]) if variable in self.root else ():
            moved = self.spots(self.moved, part)
            filled |= spread(after, self.spots(self.assigned, part), lambda spot: spot not in moved)
        return filled
