"""What is said of the points and regions of a function."""

import re
from dataclasses import dataclass, field
from functools import lru_cache
from typing import NamedTuple, Optional

from nllc_tools.model.said import Beside

# Where rustc's MIR has a statement: `(bb1[2])`, or of its two points `(bb1[2], start)` and
# `(bb1[2], mid)`.
SPOT = re.compile(r"\s*\((bb\d+)\[(\d+)\](?:,\s*(start|mid))?\)$")

Spot = tuple[str, str, Optional[str]]


class Remark(NamedTuple):
    """What a text says of one point or region: the line, where it is known, and words."""

    line: Optional[int]
    text: str

    def spot(self) -> Optional[Spot]:
        """Block, place in it and half of a point, where the words end with them; else None."""
        return cut(self.text)[1]

    def statement(self) -> str:
        """The words without the place."""
        return cut(self.text)[0]


@lru_cache(4096)    # a page asks for each many times
def cut(text: str) -> tuple[str, Optional[Spot]]:
    """The words of a remark without the place with which they end, and that place."""
    found = SPOT.search(text)
    return (text[:found.start()], (found[1], found[2], found[3])) if found else (text, None)


NOTHING = Remark(None, "")


@dataclass
class Remarks:
    """All remarks of a text; of two of the same thing the first counts."""

    function: str = ""
    source: str = ""
    way: str = ""           # by what the text was made, where it isn't rustc's facts
    points: dict[int, Remark] = field(default_factory=dict)
    regions: dict[str, Remark] = field(default_factory=dict)
    beside: Beside = field(default_factory=Beside)

    def point(self, point: int) -> Remark:
        return self.points.get(point, NOTHING)

    def region(self, name: str) -> Remark:
        return self.regions.get(name, NOTHING)

    def has_lines(self) -> bool:
        return any(remark.line is not None for remark in self.points.values())
