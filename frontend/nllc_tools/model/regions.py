"""Which regions of rustc's a facts text has, and what they are called.

rustc makes far more regions than a function has types: many are equal everywhere by two constraints
at all points, one each way. Such regions have the same value, so one name stands for all of them.
"""

from typing import Iterable

from nllc_tools.rustc.mir.body import Body
from nllc_tools.rustc.tables import Tables

STATIC = 0


class Regions:
    """The classes of equal regions; a class is known by one of its regions.

    That is the universal region in it, the first where there are several, else the lowest number.
    Universal regions stay apart even where they are equal.
    """

    def __init__(self, tables: Tables):
        self.universals = sorted({STATIC, *tables.universal_region})
        self.leader: dict[int, int] = {}
        everywhere = tables.subset_base.everywhere
        for sup, sub in sorted(everywhere):
            if (sub, sup) in everywhere:
                self.merge(sup, sub)

    def merge(self, one: int, other: int) -> None:
        low, high = sorted((self.find(one), self.find(other)))
        if low != high and not self.is_universal(high):  # universal ones have the lowest numbers
            self.leader[high] = low

    def is_universal(self, region: int) -> bool:
        return region <= self.universals[-1]

    def find(self, region: int) -> int:
        """The region by which the class of this one is known."""
        while region in self.leader:
            region = self.leader[region]
        return region


def name_regions(body: Body, regions: Iterable[int]) -> dict[int, str]:
    """The name of each region, without the `'`: its own, or `r5` for rustc's `'?5`."""
    names: dict[int, str] = {}
    own = dict(body.names) | {STATIC: "static"}
    given = set(own.values())
    taken: set[str] = set()
    for region in regions:
        name = own.get(region, "_")
        if name.strip("_") == "" or name in taken:
            name = f"r{region}"
            while name in given:
                name += "_"
        taken.add(name)
        names[region] = name
    return names
