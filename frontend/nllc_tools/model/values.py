"""The values of regions."""

from typing import Sequence


class Values:
    """The value of each region, as the report gives it."""

    def __init__(self, rows: Sequence[Sequence[int]]):
        self.rows = rows
        self.sets: dict[int, frozenset[int]] = {}

    def elements(self, region: int) -> Sequence[int]:
        """The elements of the region, ascending."""
        return self.rows[region]

    def set_of(self, region: int) -> frozenset[int]:
        if region not in self.sets:
            self.sets[region] = frozenset(self.rows[region])
        return self.sets[region]

    def has(self, region: int, element: int) -> bool:
        return element in self.set_of(region)
