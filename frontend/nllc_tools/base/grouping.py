"""Pairs as lists by their first, and numbers as runs."""

from collections import defaultdict
from typing import Iterable, TypeVar

Key = TypeVar("Key")
Value = TypeVar("Value")


def grouped(pairs: Iterable[tuple[Key, Value]]) -> dict[Key, list[Value]]:
    """For each thing that stands first the things that stand beside it; of another thing there are none."""
    table: dict[Key, list[Value]] = defaultdict(list)
    for key, value in pairs:
        table[key].append(value)
    return table


def spans(elements: Iterable[int]) -> list[list[int]]:
    """Ascending numbers as pairs of the first and the last of each run."""
    runs: list[list[int]] = []
    for element in elements:
        if runs and runs[-1][1] == element - 1:
            runs[-1][1] = element
        else:
            runs.append([element, element])
    return runs
