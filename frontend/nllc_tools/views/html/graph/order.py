"""In which order the boxes of a layer stand; and walks in depth."""

from bisect import bisect_right
from typing import Callable, Iterable, NamedTuple, Sequence

ORDER_SWEEPS = 10

Edge = tuple[int, int]
Table = Sequence[Sequence[int]]     # for each number those that stand beside it


class Walk(NamedTuple):
    """A walk in depth: the numbers in the order in which it comes to them, and in which it leaves them; the edges by
    which it comes to a number that it hasn't left.
    """

    came: list[int]
    left: list[int]
    back: set[Edge]


def walk_in_depth(roots: Iterable[int], after: Callable[[int], Iterable[int]]) -> Walk:
    is_left: dict[int, bool] = {}
    left, back = [], set()
    for root in roots:
        way = [] if root in is_left else [(root, iter(after(root)))]
        is_left.setdefault(root, False)
        while way:
            number, rest = way[-1]
            following = next(rest, None)
            if following is None:
                is_left[number] = True
                left.append(number)
                way.pop()
            elif following not in is_left:
                is_left[following] = False
                way.append((following, iter(after(following))))
            elif not is_left[following]:
                back.add((number, following))
    return Walk(list(is_left), left, back)


def neighbours(paths: Iterable[Sequence[int]], count: int) -> tuple[Table, Table]:
    """For each number those above it and those below it along the edges."""
    edges = [edge for path in paths for edge in zip(path, path[1:])]
    return table_of(count, ((b, a) for a, b in edges)), table_of(count, edges)


def table_of(count: int, edges: Iterable[Edge]) -> list[list[int]]:
    """For each number those to which edges lead from it."""
    table: list[list[int]] = [[] for _ in range(count)]
    for a, b in edges:
        table[a].append(b)
    return table


def ordered(layers: Table, paths: Iterable[Sequence[int]], count: int) -> list[list[int]]:
    """The layers in orders with few crossings: the best that some sweeps come by."""
    above, below = neighbours(paths, count)
    best = found = by_first_visit(layers, below)
    fewest = crossings(best, below)
    for sweep in range(ORDER_SWEEPS):
        if not fewest:
            break
        found = swept(found, below, True) if sweep % 2 else swept(found, above)
        now = crossings(found, below)
        if now < fewest:
            best, fewest = found, now
    return best


def by_first_visit(layers: Table, below: Table) -> list[list[int]]:
    """The layers in the order in which a walk in depth comes to their members."""
    came = walk_in_depth([number for layer in layers for number in layer], below.__getitem__).came
    visit = {number: at for at, number in enumerate(came)}
    return [sorted(layer, key=visit.__getitem__) for layer in layers]


def swept(layers: Table, towards: Table, is_upwards: bool = False) -> list[list[int]]:
    """Each layer sorted by the average place of its members' neighbours in the layer just passed."""
    place = {number: at for layer in layers for at, number in enumerate(layer)}
    found = []
    for layer in reversed(layers) if is_upwards else layers:
        wish = {number: sum(place[n] for n in near) / len(near) if (near := towards[number]) else place[number]
                for number in layer}
        found.append(sorted(layer, key=wish.__getitem__))
        place.update((number, at) for at, number in enumerate(found[-1]))
    return found[::-1] if is_upwards else found


def crossings(layers: Table, below: Table) -> int:
    """How many pairs of edges cross between neighbouring layers."""
    total = 0
    for upper, lower in zip(layers, layers[1:]):
        place = {number: at for at, number in enumerate(lower)}
        total += inversions([at for number in upper for at in sorted(place[b] for b in below[number])])
    return total


def inversions(numbers: Iterable[int]) -> int:
    """The pairs of numbers that stand in the wrong order."""
    total = 0
    seen: list[int] = []
    for number in numbers:
        at = bisect_right(seen, number)
        total += len(seen) - at
        seen.insert(at, number)
    return total
