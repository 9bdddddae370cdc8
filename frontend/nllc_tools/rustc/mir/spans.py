"""Places in the source, as rustc writes them."""

from __future__ import annotations

import re
from functools import lru_cache
from typing import NamedTuple, Optional

SPAN = re.compile(r"(?P<file>.+):(?P<line>\d+):(?P<column>\d+): (?P<last>\d+):(?P<end>\d+)"
                  r"(?: \(#\d+\))?")

Spot = tuple[int, int]      # a line and a column


class Span(NamedTuple):
    """Where something stands in the source: the file as rustc writes it, lines, columns."""

    file: str
    first: int
    last: int
    column: int = 0
    end: int = 0    # the column behind it

    @property
    def begin(self) -> Spot:
        """The first character."""
        return self.first, self.column

    @property
    def stop(self) -> Spot:
        """The character behind the last one."""
        return self.last, self.end

    def has(self, spot: Spot) -> bool:
        """Whether a character of its file is one of its own."""
        return self.begin <= spot < self.stop

    def is_inside(self, outer: Span) -> bool:
        """Whether the other place has each character of this one."""
        return self.file == outer.file and outer.begin <= self.begin and self.stop <= outer.stop

    def overlaps(self, other: Span) -> bool:
        """Whether both have a character."""
        return self.file == other.file and self.begin < other.stop and other.begin < self.stop


def extent(places: list[Span]) -> Optional[Span]:
    """From the first to the last character of these places of one file."""
    if not places:
        return None
    first, column = min(span.begin for span in places)
    last, end = max(span.stop for span in places)
    return Span(places[0].file, first, last, column, end)


@lru_cache(4096)    # a statement's is that of its constraints, too
def span_of(text: str) -> Optional[Span]:
    found = SPAN.fullmatch(text)
    if not found:
        return None
    return Span(found["file"], *map(int, found.group("line", "last", "column", "end")))
