"""The problem that a facts text says, regions and points by number."""

from collections import Counter
from dataclasses import dataclass, field
from functools import cached_property
from typing import NamedTuple

from nllc_tools.base.grouping import grouped
from nllc_tools.model.remarks import Remarks

# Stands in place of a point where a constraint holds at all points; it is below each point.
ALL = -1


class Constraint(NamedTuple):
    """`(sup: sub) @ at`: sup holds all that is reached from the point inside sub, or all of sub."""

    sup: int
    sub: int
    at: int


@dataclass
class Facts:
    """A problem. Regions are numbers in the order of their lines, `'static` is 0."""

    points: int = 0
    names: list[str] = field(default_factory=lambda: ["static"])
    universals: int = 1
    outlives: set[tuple[int, int]] = field(default_factory=set)
    successors: list[list[int]] = field(default_factory=list)
    predecessors: list[list[int]] = field(default_factory=list)
    returns: set[int] = field(default_factory=set)
    bases: list[set[int]] = field(default_factory=lambda: [set()])
    constraints: list[Constraint] = field(default_factory=list)
    remarks: Remarks = field(default_factory=Remarks)
    point_names: dict[int, str] = field(default_factory=dict)     # of points that aren't named by their numbers

    @cached_property
    def live(self) -> dict[int, list[int]]:
        """For each point with base lines their regions."""
        return grouped((point, region) for region, points in enumerate(self.bases)
                       for point in points)

    @cached_property
    def asked(self) -> dict[int, list[tuple[int, int]]]:
        """For each point with constraints their pairs of regions."""
        return grouped((c.at, (c.sup, c.sub)) for c in self.constraints)

    @cached_property
    def stated(self) -> frozenset[Constraint]:
        """The constraints as a set."""
        return frozenset(self.constraints)

    @cached_property
    def by_sup(self) -> dict[int, list[Constraint]]:
        """For each region the constraints at whose larger side it stands."""
        return grouped((c.sup, c) for c in self.constraints)

    @cached_property
    def spread(self) -> Counter[tuple[int, int]]:
        """For each pair of regions with constraints at points the number of these."""
        return Counter((c.sup, c.sub) for c in self.constraints if c.at != ALL)

    def end_of(self, universal: int) -> int:
        """The element that stands for what comes after the return, as long as this region lasts."""
        return self.points + universal

    def is_universal(self, region: int) -> bool:
        return region < self.universals

    def point_name(self, point: int) -> str:
        return self.point_names.get(point, str(point))

    def place_name(self, at: int) -> str:
        """Where a constraint holds: the name of a point, or `all`."""
        return "all" if at == ALL else self.point_name(at)
