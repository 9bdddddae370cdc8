"""The source of a page with the points of each line, the list of all points, and the ends."""

from itertools import groupby
from typing import Iterable, NamedTuple, Optional, Sequence

from nllc_tools.base.grouping import grouped
from nllc_tools.base.sentences import plural, some
from nllc_tools.judge import asking_statements
from nllc_tools.judge.content import Content
from nllc_tools.judge.labels import Label, labels_of
from nllc_tools.model.facts import Facts
from nllc_tools.model.region_names import tick
from nllc_tools.texts.source import Source, is_mir, pieces
from nllc_tools.views.html.graph import lines
from nllc_tools.views.html.writing import text

MOST_NAMES = 4      # of regions, or of pairs of them, at a point
MOST_IN_PART = 100  # rows, where no remark names blocks


class Block(NamedTuple):
    """Rows of points of one block."""

    name: str
    rows: list[lines.Row]


def tabs(content: Content) -> str:
    """The tabs of source and points: the source comes first where points have lines."""
    named = bool(content.source) and content.facts.remarks.has_lines()
    return (tab("source", "Source", named) if content.source else "") + tab("points", "Points", not named)


def tab(name: str, title: str, is_chosen: bool) -> str:
    return (f'<button type="button" role="tab" id="tab-{name}" aria-controls="{name}" '
            f'aria-selected="{str(is_chosen).lower()}">{title}</button>')


def source_list(content: Content, is_large: bool = False) -> str:
    facts, source = content.facts, content.source
    if not source:
        return ""
    rows = grouped((facts.remarks.point(row.points[0]).line, row) for row in lines.rows(facts, range(facts.points)))
    labels = labels_of(content)
    asking = {*labels, *(line for fault in content.faults for line in asking_statements.arising(facts, fault.steps))}
    return "".join(source_line(facts, number, code_part(source, line, labels.get(number, ())),
                               rows.get(number, []), number in asking, is_large)
                   for number, line in enumerate(source.lines, source.first))


def source_line(facts: Facts, number: int, code: str, rows: Sequence[lines.Row], asks: bool, is_large: bool) -> str:
    """A line of the source; with points it opens, and shows them."""
    begin = f'class="{"line asks" if asks else "line"}" id="line-{number}">'
    head = f'<span class="no">{number}</span>{strip(rows)}<code>{code}</code>'
    if not rows:
        return f"<div {begin}{head}</div>"
    inside = "" if is_large else "".join(point_row(facts, row) for row in rows)
    return f'<details {begin}<summary>{head}</summary><div class="rows">{inside}</div></details>'


def strip(rows: Sequence[lines.Row]) -> str:
    """A strip with a part for each point of a line."""
    points = [point for row in rows for point in row.points]
    parts = "".join(f'<i data-p="{point}"></i>' for point in points)
    title = f' title="{plural(len(points), "point")}"' if points else ""
    return f'<span class="strip"{title}>{parts}</span>'


def code_part(source: Source, line: str, labels: Iterable[Label]) -> str:
    """The words of a line by kind, marked where a label has a place, and behind them the labels."""
    marked: dict[int, str] = {}
    for label in labels:
        place = label.place
        if place and place.column and place.last == place.line:
            marked.update((column, label.kind) for column in range(place.column - 1, place.end - 1))
    shown, at = [], 0
    for kind, piece in pieces(line, is_mir(source)):
        parts = [(mark, "".join(letter for _, letter in its))
                 for mark, its in groupby(enumerate(piece, at), lambda one: marked.get(one[0]))] if marked else [(None, piece)]
        shown += [piece_part(kind, part, mark) for mark, part in parts]
        at += len(piece)
    shown += [f'<span class="label {label.kind}">{text(label.words)}</span>' for label in labels]
    return "".join(shown)


def piece_part(kind: str, piece: str, mark: Optional[str]) -> str:
    named = " ".join(filter(None, (kind, mark and f"at {mark}")))
    return f'<span class="{named}">{text(piece)}</span>' if named else text(piece)


def point_list(facts: Facts, found: Optional[Sequence[Block]] = None, is_large: bool = False) -> str:
    """The points by blocks, which fold; of a large text the script makes the rows of those that are opened."""
    return "".join(block_part(facts, number, block, is_large) for number, block in enumerate(found or blocks(facts)))


def blocks(facts: Facts) -> list[Block]:
    """The rows by block; without blocks in the remarks by hundreds of points."""
    found: list[Block] = []
    for row in lines.rows(facts, range(facts.points)):
        name = lines.block_of(facts, row.points[0])
        if not found or found[-1].name != name or not name and len(found[-1].rows) == MOST_IN_PART:
            found.append(Block(name, []))
        found[-1].rows.append(row)
    return found


def block_part(facts: Facts, number: int, block: Block, is_large: bool) -> str:
    ends = dict.fromkeys(map(facts.point_name, (block.rows[0].points[0], block.rows[-1].points[-1])))
    own = "" if block.name and facts.point_names else f'<span class="of">{"–".join(ends)}</span>'
    inside = "" if is_large else "".join(point_row(facts, row, place_mark(facts, row.points[0])) for row in block.rows)
    return (f'<details class="block" data-block="{number}"{"" if is_large and number else " open"}>'
            f'<summary>{text(block.name)}{" " if block.name else ""}{own}</summary>{inside}</details>')


def place_mark(facts: Facts, point: int) -> str:
    """The line of a point."""
    line = facts.remarks.point(point).line
    return "" if line is None else f'<span class="at">line {line}</span>'


def point_row(facts: Facts, row: lines.Row, behind: str = "") -> str:
    """The buttons of a statement's points, and its words; what stands behind them comes last."""
    buttons = "".join(f'<button type="button" class="point" data-p="{point}" tabindex="-1">{facts.point_name(point)}</button>'
                      for point in row.points)
    words = f"<code>{text(row.text)}</code>" if facts.remarks.point(row.points[0]).text else \
        f'<code class="said">{text(said_at(facts, row.points[0]))}</code>'
    return f'<div class="row"><span class="numbers">{buttons}</span>{words}{return_mark(facts, row)}{behind}</div>'


def return_mark(facts: Facts, row: lines.Row) -> str:
    """Says that the function may return there, where the statement itself doesn't."""
    told = facts.remarks.point(row.points[0]).statement() in ("return", "resume")
    if told or facts.returns.isdisjoint(row.points):
        return ""
    return '<span class="returns" title="the function may return here">returns</span>'


def said_at(facts: Facts, point: int) -> str:
    """What the text says of a point whose statement it doesn't give."""
    asked = [f"({tick(facts, sup)}: {tick(facts, sub)})" for sup, sub in facts.asked.get(point, ())]
    live = [tick(facts, region) for region in facts.live.get(point, ())]
    return ";  ".join(([some(asked, MOST_NAMES)] if asked else []) + ([f"live: {some(live, MOST_NAMES)}"] if live else []))


def end_list(facts: Facts) -> str:
    return "".join(f'<button type="button" class="end" data-p="{facts.end_of(region)}" '
                   f'tabindex="-1">end(&#x27;{text(facts.names[region])})</button>' for region in range(facts.universals))
