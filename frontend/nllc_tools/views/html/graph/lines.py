"""Straight lines of points, and the rows in which a page shows them."""

import re
from typing import Iterable, NamedTuple, Sequence, Union

from nllc_tools.model.facts import Facts
from nllc_tools.views.html.graph.order import table_of

# Statements of MIR that do nothing to a reference.
MARK = re.compile(r"(?:StorageLive|StorageDead|FakeRead|PlaceMention|nop|Coverage)\b")
MOST_IN_ROW = 4
MOST_BLOCKS = 3     # of a title; of more blocks it names the first and the last

Line = list[int]    # of points


class Row(NamedTuple):
    """Points of one statement, one after the other, and its words."""

    points: list[int]
    text: str


class Title(NamedTuple):
    """The blocks of a line, and its points."""

    blocks: str
    points: str


def straight_lines(successors: Sequence[Sequence[int]]) -> list[Line]:
    """All points in lines: inside a line each point has one successor, and that one no other predecessor.

    The lines stand in the order of their first points; the first one begins at point 0.
    """
    predecessors = table_of(len(successors), ((after, point) for point, its in enumerate(successors) for after in its))
    begins = [point == 0 or len(before) != 1 or len(successors[before[0]]) != 1 or before == [point]
              for point, before in enumerate(predecessors)]
    left = set(range(len(successors)))
    lines = []
    for point in sorted(left, key=lambda point: not begins[point]):     # one that begins none is on a circle without a way in
        line = []
        while point in left:
            left.remove(point)
            line.append(point)
            after = successors[point]
            if len(after) == 1 and not begins[after[0]]:
                point = after[0]
        lines += [line] if line else []
    return sorted(lines)


def rows(facts: Facts, line: Iterable[int]) -> list[Row]:
    """The line's points by statement.

    The two points that rustc has for each statement share a row; so do the statements that only
    mark storage and the like, where several of one line of the source follow each other.
    """
    found: list[list[int]] = []
    last = None
    for point in line:
        kind = row_kind(facts, point)
        if kind is None or kind != last or len(found[-1]) == MOST_IN_ROW:
            found.append([])
        found[-1].append(point)
        last = kind
    return [Row(points, words_of_all(facts, points)) for points in found]


def row_kind(facts: Facts, point: int) -> Union[int, tuple[str, str], None]:
    """What points of one row have in common, or None for a point that has a row of its own."""
    remark = facts.remarks.point(point)
    spot = remark.spot()
    if MARK.match(remark.text):
        return remark.line
    return spot[:2] if spot and spot[2] else None


def words_of_all(facts: Facts, points: list[int]) -> str:
    """The statements of a row, of two points of one statement that one."""
    statements = [words_of(facts, point) for point in points]
    return ", ".join(statements if len(set(statements)) > 1 else statements[:1])


def words_of(facts: Facts, point: int) -> str:
    """The point's statement; where no remark says it, what the facts say there."""
    return facts.remarks.point(point).statement() or ("return" if point in facts.returns else "")


def title(facts: Facts, line: Line) -> Title:
    """The blocks of a line, where remarks say them, and its points; where their names have the block, the blocks alone."""
    found = list(dict.fromkeys(block for point in line if (block := block_of(facts, point))))
    blocks = ", ".join(found) if len(found) <= MOST_BLOCKS else f"{found[0]} … {found[-1]}"
    if blocks and facts.point_names:
        return Title(blocks, "")
    is_run = all(b == a + 1 for a, b in zip(line, line[1:]))
    ends = dict.fromkeys((facts.point_name(line[0]), facts.point_name(line[-1])))
    return Title(blocks, ("–" if is_run else " … ").join(ends))


def block_of(facts: Facts, point: int) -> str:
    """The block of a point, where a remark says it; else nothing."""
    spot = facts.remarks.point(point).spot()
    return spot[0] if spot else ""
