"""Numbers the points of a function, and says which follow which and which leave it.

A point is a location of MIR, a statement or a terminator: "at the point" means just before it runs.
So of rustc's two points of a location `Start` is the point here, and what happens at `Mid` is what
the statement does. An edge from `Mid` of P to `Start` of Q is `next P Q`.
"""

from dataclasses import dataclass

from nllc_tools.base.refusal import Refusal
from nllc_tools.rustc.mir.body import Body
from nllc_tools.rustc.tables import Location, Tables


@dataclass(frozen=True)
class Points:
    """The points in block order: the number of each location, edges and exits by number."""

    locations: list[Location]
    number: dict[Location, int]
    successors: list[list[int]]
    returns: list[int]


def number_points(tables: Tables, body: Body) -> Points:
    """The points of the function; refuses where tables and dump aren't of the same one."""
    locations = sorted({spot.location for edge in tables.cfg_edge for spot in edge})
    if locations != sorted(body.statements):
        raise Refusal(f"{body.path}: rustc's facts and its MIR dump name different statements; "
                      f"rustc 1.95 is known to work")
    number = {location: n for n, location in enumerate(locations)}
    successors: list[list[int]] = [[] for _ in locations]
    for begin, end in tables.cfg_edge:
        if begin.is_mid and number[end.location] not in successors[number[begin.location]]:
            successors[number[begin.location]].append(number[end.location])
    return Points(locations, number, successors, [number[location] for location in body.exits()])
