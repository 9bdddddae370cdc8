"""Walks: what a relation leads to, and shortest ways there."""

from collections import deque
from typing import Callable, Iterable, Mapping, Optional, TypeVar

Thing = TypeVar("Thing")
Step = TypeVar("Step")


def reached(begins: Iterable[Thing], onward: Callable[[Thing], Iterable[Thing]]) -> set[Thing]:
    """These things, and all that they lead to."""
    found = set(begins)
    todo = list(found)
    while todo:
        new = set(onward(todo.pop())) - found
        found |= new
        todo += new
    return found


def shortest(begins: Iterable[Thing], onward: Callable[[Thing], Iterable[tuple[Thing, Step]]]) -> dict[Thing, Optional[Step]]:
    """For each thing that a walk comes to, the nearest first, the last step of a shortest one, of several the first.

    It is None for those with which walks begin.
    """
    came_by: dict[Thing, Optional[Step]] = dict.fromkeys(begins)
    todo = deque(came_by)
    while todo:
        for one, step in onward(todo.popleft()):
            if one not in came_by:
                came_by[one] = step
                todo.append(one)
    return came_by


def backwards(came_by: Mapping[Thing, Optional[Step]], end: Thing, before: Callable[[Step], Thing]) -> list[Step]:
    """The steps of the walk to an end, the last one first; none where no walk comes there."""
    steps = []
    while (step := came_by.get(end)) is not None:
        steps.append(step)
        end = before(step)
    return steps
