"""The graph as SVG: boxes of points, folded to cells or with a row for each statement."""

from collections import Counter
from dataclasses import dataclass
from functools import cached_property
from typing import Callable, NamedTuple, Sequence

from nllc_tools.base.grouping import grouped
from nllc_tools.base.walks import reached
from nllc_tools.judge.chain_sentences import unwinds
from nllc_tools.model.facts import Facts
from nllc_tools.views.html.writing import text as escape
from nllc_tools.views.html.graph import lines
from nllc_tools.views.html.graph.boxes import (CELL, HEAD, LETTER, PAD, PITCH, ROW, Rows, columns, folded_cells, folded_size,
                                               room_for_words)
from nllc_tools.views.html.graph.layout import Drawing, Shape, Size, Spot, curves, place, shape_of
from nllc_tools.views.html.graph.lines import Line
from nllc_tools.views.html.graph.order import Edge

STUB = 14           # the length of a stub's arrow
STUB_PITCH = 13     # from one stub to the next
MANY = 3            # so many edges to code that doesn't return are drawn as stubs
LABEL = "control-flow graph"


@dataclass
class Graph:
    """What is drawn: lines of points as boxes, edges, and edges that are only begun."""

    facts: Facts
    lines: list[Line]
    edges: list[Edge]           # by the numbers of boxes
    stubs: dict[int, list[int]]     # a point to the points to which it has an edge that is only begun
    returning: list[bool]       # whether the function can still return from the box

    @cached_property
    def shape(self) -> Shape:
        return shape_of(len(self.lines), self.edges)

    def ends(self, edge: Edge) -> str:
        """The points between which the edge goes."""
        return f"{self.lines[edge[0]][-1]}-{self.lines[edge[1]][0]}"

    def placed(self, sizes: Sequence[Size]) -> Drawing:
        """Where boxes of these sizes stand, with room for stubs beside them."""
        wide = STUB + LETTER * max(len(str(self.facts.points)), *map(len, self.facts.point_names.values()), 0)
        room = [wide if any(point in self.stubs for point in line) else 0 for line in self.lines]
        return place(self.shape, [size._replace(free=free) for size, free in zip(sizes, room)])


class Arrow(NamedTuple):
    """The line of an edge, and its head."""

    way: str
    head: str


def graph_of(facts: Facts) -> Graph:
    returning = reaches_return(facts)
    stubs = stubs_of(facts, returning)
    successors = [[q for q in following if q not in stubs.get(p, ())]
                  for p, following in enumerate(facts.successors)]
    found = lines.straight_lines(successors)
    box_of = {point: box for box, line in enumerate(found) for point in line}
    edges = sorted({(box, box_of[q]) for box, line in enumerate(found) for q in successors[line[-1]]})
    return Graph(facts, found, edges, stubs, [returning[line[0]] for line in found])


def stubs_of(facts: Facts, returning: Sequence[bool]) -> dict[int, list[int]]:
    """The edges to code that doesn't return, where several lead to the same point."""
    leaving = [(p, q) for p, following in enumerate(facts.successors) for q in following
               if returning[p] and not returning[q]]
    into = Counter(q for _, q in leaving)
    return grouped((p, q) for p, q in leaving if into[q] >= MANY)


def reaches_return(facts: Facts) -> list[bool]:
    """For each point whether a return can be reached; where none can from anywhere, all count as if
    it could.

    A point from which the function unwinds is a return point for `nllc`, and none here.
    """
    found = reached((point for point in facts.returns if not unwinds(facts, point)), facts.predecessors.__getitem__)
    return [not found or point in found for point in range(facts.points)]


def folded(graph: Graph) -> str:
    """The drawing in which a straight line is a block of cells."""
    sizes = [folded_size(graph.facts, line) for line in graph.lines]
    return svg("folded", graph, sizes, lambda box: (
        folded_cells(graph.facts, graph.lines[box]) + folded_stubs(graph, graph.lines[box], sizes[box])))


def unfolded(graph: Graph) -> str:
    """The drawing in which each statement has a row."""
    most = room_for_words(graph.shape)
    inner = [Rows(graph.facts, line, lines.rows(graph.facts, line), most) for line in graph.lines]
    return svg("statements", graph, [its.size for its in inner],
               lambda box: inner[box].cells() + row_stubs(graph, inner[box]))


def many(graph: Graph) -> tuple[str, dict[str, object]]:
    """The drawing of many points, and what the script needs to put cells into the boxes that are in sight.

    All frames are one path, and so are all edges of a kind: a browser opens that at once.
    """
    sizes = [folded_size(graph.facts, line) for line in graph.lines]
    drawing = graph.placed(sizes)
    arrows = {edge: arrow(route, edge in graph.shape.turned) for edge, route in drawing.routes.items()}
    frames = "".join(f"M{x:.0f} {y:.0f}h{w:.0f}v{h:.0f}h-{w:.0f}z" for (x, y), (w, h, _) in zip(drawing.corners, sizes))
    parts = [drawing.opening("folded many", LABEL), f'<path class="frame" d="{frames}"/>',
             '<path class="frame lit" d=""/><g class="edges">']
    for kind, is_turned in (("edge", False), ("edge back", True)):
        ways = "".join(one.way for edge, one in arrows.items() if (edge in graph.shape.turned) == is_turned)
        parts.append(f'<g class="{kind}"><path class="way" d="{ways}"/></g>')
    heads = "".join(one.head for one in arrows.values())
    parts.append(f'<path class="head" d="{heads}"/></g><g class="inside"></g></svg>')
    return "".join(parts), {
        "cell": CELL, "pitch": PITCH, "top": HEAD, "pad": PAD,
        "boxes": [[round(x), round(y), round(w), round(h), columns(len(line)), lines.title(graph.facts, line), line]
                  for (x, y), (w, h, _), line in zip(drawing.corners, sizes, graph.lines)],
        "edges": {graph.ends(edge): one for edge, one in arrows.items()},
        "stubs": {str(point): found for point, found in graph.stubs.items()},
    }


def folded_stubs(graph: Graph, line: Line, size: Size) -> str:
    """A stub for each point to which several of the line's points lead; the last stands lowest."""
    sources = grouped((target, point) for point in line for target in graph.stubs.get(point, ()))
    shown = list(sources.items())[:max(1, int((size.height - 4) // STUB_PITCH))]
    return "".join(stub(graph.facts, points, target, Spot(size.width, size.height - 9 - STUB_PITCH * at))
                   for at, (target, points) in enumerate(reversed(shown)))


def row_stubs(graph: Graph, box: Rows) -> str:
    return "".join(stub(graph.facts, [point], target, Spot(box.size.width, HEAD + at * ROW + ROW / 2))
                   for at, row in enumerate(box.rows) for point in row.points
                   for target in graph.stubs.get(point, ())[:1])


def svg(name: str, graph: Graph, sizes: Sequence[Size], inside: Callable[[int], str]) -> str:
    drawing = graph.placed(sizes)
    parts = [drawing.opening(name, LABEL), '<g class="edges">']
    parts += [edge_group(graph, edge, arrow(route, edge in graph.shape.turned), edge in graph.shape.turned)
              for edge, route in drawing.routes.items()]
    parts += [edge_group(graph, (box, box), loop(drawing.corners[box], sizes[box]), True)
              for box, other in graph.edges if box == other]
    parts += ["</g>", *(box_group(graph, box, drawing.corners[box], size, inside(box)) for box, size in enumerate(sizes)), "</svg>"]
    return "".join(parts)


def box_group(graph: Graph, box: int, at: Spot, size: Size, inside: str) -> str:
    block, numbers = lines.title(graph.facts, graph.lines[box])
    label = f'<tspan class="block">{escape(block)}</tspan> ' if block else ""
    return (f'<g class="box{aside(graph, box)}" transform="translate({at.x:.1f} {at.y:.1f})">'
            f'<rect class="frame" width="{size.width:.1f}" height="{size.height:.1f}" rx="5"/>'
            f'<text class="title" x="{PAD}" y="13">{label}<tspan class="points">{escape(numbers)}</tspan></text>'
            f"{inside}</g>")


def aside(graph: Graph, *boxes: int) -> str:
    """The class of what leads to no return."""
    return "" if all(graph.returning[box] for box in boxes) else " aside"


def stub(facts: Facts, points: Sequence[int], target: int, at: Spot) -> str:
    """A short arrow to the right with the name of the point to which these points lead."""
    ways = " ".join(f"{point}-{target}" for point in points)
    name = facts.point_name(target)
    return (f'<g class="stub" data-go="{target}" data-edge="{ways}"><title>from {", ".join(map(facts.point_name, points))} '
            f"to point {name}, from which the function doesn’t return</title>"
            f'<path d="M{at.x:.1f} {at.y:.1f}h10m-3.5 -3.5l3.5 3.5l-3.5 3.5"/>'
            f'<text x="{at.x + 14:.1f}" y="{at.y + 3.5:.1f}">{name}</text></g>')


def arrow(route: Sequence[Spot], is_turned: bool) -> Arrow:
    """A smooth line down through the route, and an arrow where the edge ends."""
    begin, end = route[0], route[-1]
    if is_turned:
        way = f"M{begin.x:.1f} {begin.y + 5:.1f} {curves(route, 0.5)}"
        return Arrow(way, f"M{begin.x - 3.5:.1f} {begin.y + 6:.1f}l3.5 -5l3.5 5z")
    way = f"M{begin.x:.1f} {begin.y:.1f} {curves([*route[:-1], Spot(end.x, end.y - 5)], 0.5)}"
    return Arrow(way, f"M{end.x - 3.5:.1f} {end.y - 6:.1f}l3.5 5l3.5 -5z")


def loop(corner: Spot, size: Size) -> Arrow:
    """An edge from a box to itself, at its right."""
    x, top, bottom = corner.x + size.width, corner.y + 9, corner.y + size.height - 6
    return Arrow(f"M{x:.1f} {bottom:.1f}c20 0 20 {top - bottom:.1f} 5 {top - bottom:.1f}",
                 f"M{x + 6:.1f} {top - 3.5:.1f}l-5 3.5l5 3.5z")


def edge_group(graph: Graph, edge: Edge, drawn: Arrow, is_turned: bool) -> str:
    return (f'<g class="edge{" back" if is_turned else ""}{aside(graph, *edge)}" data-edge="{graph.ends(edge)}">'
            f'<path class="way" d="{drawn.way}"/><path class="head" d="{drawn.head}"/></g>')
