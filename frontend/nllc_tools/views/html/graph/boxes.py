"""The boxes of a graph: their sizes and what stands in them."""

import re
from dataclasses import dataclass
from functools import cached_property
from typing import Sequence

from nllc_tools.base.sentences import visible
from nllc_tools.model.facts import Facts
from nllc_tools.views.html.writing import text as escape
from nllc_tools.views.html.graph import lines
from nllc_tools.views.html.graph.layout import Shape, Size, Spot

CELL = 11           # the side of a point's cell
PITCH = 13          # from one cell to the next
HEAD = 18           # the height of a box's title
PAD = 6
ROW = 20            # the height of a statement's row
LETTER = 6.65       # the width of a letter of a statement
TITLE_LETTER = 6.9  # of a letter of a title
MOST_LETTERS = 27   # of a statement, where boxes stand side by side
MOST_ALONE = 44     # and where they don't
TARGETS = re.compile(r" -> (?:\[.*\]|bb\d+)$")


def columns(count: int) -> int:
    """How many cells stand side by side in a folded box."""
    return min(count, max(4, min(16, int((2.2 * count) ** 0.5))))


def title_width(facts: Facts, line: lines.Line) -> float:
    block, numbers = lines.title(facts, line)
    return 2 * PAD + TITLE_LETTER * (len(block) + len(numbers) + 1)


def folded_size(facts: Facts, line: lines.Line) -> Size:
    wide = columns(len(line))
    high = -(-len(line) // wide)
    return Size(max(wide * PITCH - 2 + 2 * PAD, title_width(facts, line)), HEAD + high * PITCH - 2 + PAD)


def folded_cells(facts: Facts, line: lines.Line) -> str:
    wide = columns(len(line))
    return "".join(cell(facts, point, Spot(PAD + at % wide * PITCH, HEAD + at // wide * PITCH))
                   for at, point in enumerate(line))


def room_for_words(shape: Shape) -> int:
    """How many letters of a statement are shown."""
    widest = max(sum(number < shape.boxes for number in layer) for layer in shape.layers)
    return MOST_ALONE if widest == 1 else MOST_LETTERS


def row_words(row: lines.Row, most: int) -> str:
    """The statement, shortened: where it goes on to is what the edges show."""
    text = TARGETS.sub("", visible(row.text))
    return text if len(text) <= most else text[:most - 1] + "…"


@dataclass(frozen=True)
class Rows:
    """The rows of an unfolded box, of whose statements so many letters are shown."""

    facts: Facts
    line: lines.Line
    rows: Sequence[lines.Row]
    most: int

    def name(self, row: lines.Row) -> str:
        return self.facts.point_name(row.points[0])

    @cached_property
    def number_letters(self) -> int:
        """How many letters the longest name of a row's point has."""
        return max(len(self.name(row)) for row in self.rows)

    @cached_property
    def left(self) -> int:
        """Where the words begin, behind the cells."""
        return PAD + max(len(row.points) for row in self.rows) * PITCH

    @cached_property
    def size(self) -> Size:
        letters = max(len(row_words(row, self.most)) for row in self.rows)
        return Size(max(PAD + self.left + (self.number_letters + 1 + letters) * LETTER + 4,
                        title_width(self.facts, self.line)), HEAD + len(self.rows) * ROW + 2)

    def cells(self) -> str:
        """What stands in the box; a line parts the rows of different blocks."""
        width, parts = self.size.width, []
        blocks = [lines.block_of(self.facts, row.points[0]) for row in self.rows]
        for at, row in enumerate(self.rows):
            top = HEAD + at * ROW
            if at and blocks[at] != blocks[at - 1]:
                parts.append(f'<path class="rule" d="M1 {top:g}h{width - 2:g}"/>')
            parts.append(f'<rect class="band" data-p="{row.points[0]}" x="1" y="{top:g}" width="{width - 2:g}" height="{ROW}"/>')
            parts += [cell(self.facts, point, Spot(PAD + place * PITCH, top + (ROW - CELL) / 2))
                      for place, point in enumerate(row.points)]
            parts.append(self.words(row, top))
        return "".join(parts)

    def words(self, row: lines.Row, top: int) -> str:
        """The statement; where it is shortened the whole one, if the pointer is on it."""
        shown = row_words(row, self.most)
        whole = "" if shown == visible(row.text) else f"<title>{escape(row.text)}</title>"
        return (f'<text class="words" data-row="{row.points[0]}" x="{self.left + 3:g}" y="{top + 14:g}">'
                f'<tspan class="number">{self.name(row):>{self.number_letters}}</tspan> {escape(shown)}{whole}</text>')


def cell(facts: Facts, point: int, at: Spot) -> str:
    mark = f'<path class="mark" d="M{at.x + 3:g} {at.y + 3.5:g}h5l-2.5 4.5z"/>' if point in facts.returns else ""
    words = lines.words_of(facts, point)
    label = f"point {facts.point_name(point)}" + (f": {words}" if words else "")
    return (f'<g class="cell" data-p="{point}" role="button" tabindex="-1"><title>{escape(label)}</title>'
            f'<rect x="{at.x:g}" y="{at.y:g}" width="{CELL}" height="{CELL}" rx="2.5"/>{mark}</g>')
