"""Where the boxes of a graph stand: in layers from top to bottom, with few crossings.

The steps are those of Sugiyama's method: edges that go back are turned round, each box gets a layer
below those that lead to it, an edge over several layers gets a place in each of them, the places of
a layer are put in an order with few crossings, and then get coordinates.
"""

from dataclasses import dataclass
from typing import Iterable, NamedTuple, Sequence

from nllc_tools.base.grouping import grouped
from nllc_tools.base.walks import reached
from nllc_tools.views.html.graph.order import Edge, Table, neighbours, ordered, table_of, walk_in_depth

GAP_X = 22
GAP_Y = 28
MARGIN = 16
PLACE_SWEEPS = 17  # the last one goes down, so that what has one box above it stands below that


class Spot(NamedTuple):
    x: float
    y: float


class Size(NamedTuple):
    """That of a box, and the room to be left free at its right."""

    width: float
    height: float
    free: float = 0


class Span(NamedTuple):
    """From where to where a layer is, downwards."""

    top: float
    bottom: float


OF_EDGE = Size(6, 0)    # what an edge takes in a layer that it goes through


@dataclass(frozen=True)
class Shape:
    """The order of a graph's boxes, without sizes; numbers past the boxes are edges' places."""

    boxes: int
    layers: Table
    paths: dict[Edge, list[int]]    # the numbers that an edge goes through, from top to bottom
    turned: set[Edge]               # edges that are drawn from bottom to top


@dataclass(frozen=True)
class Drawing:
    """Coordinates: the left upper corner of each box, and the points through which each edge goes."""

    width: float
    height: float
    corners: list[Spot]
    routes: dict[Edge, list[Spot]]

    def opening(self, name: str, label: str) -> str:
        """The element of SVG in which it stands."""
        return (f'<svg class="graph {name}" viewBox="0 0 {self.width:.0f} {self.height:.0f}" '
                f'width="{self.width:.0f}" height="{self.height:.0f}" role="group" aria-label="{label}">')


def curves(route: Sequence[Spot], straight: float = 0) -> str:
    """A smooth line down through a route; a part that goes less than so far aside is straight."""
    path = []
    for (x, y), (to_x, to_y) in zip(route, route[1:]):
        bend = (to_y - y) / 2
        path.append(f"V{to_y:.1f}" if abs(to_x - x) < straight else
                    f"C{x:.1f} {y + bend:.1f} {to_x:.1f} {to_y - bend:.1f} {to_x:.1f} {to_y:.1f}")
    return " ".join(path)


def shape_of(boxes: int, edges: Iterable[Edge]) -> Shape:
    """The order of the boxes 0 to `boxes` - 1, which these distinct edges join."""
    edges = [edge for edge in edges if edge[0] != edge[1]]
    turned = walk_in_depth(range(boxes), table_of(boxes, edges).__getitem__).back
    down = [(b, a) if (a, b) in turned else (a, b) for a, b in edges]
    layer = layers_of(boxes, down)
    layers: list[list[int]] = [[] for _ in range(max(layer) + 1)]
    for box in range(boxes):
        layers[layer[box]].append(box)
    paths = {}
    count = boxes
    for edge, (top, bottom) in zip(edges, down):
        between = range(layer[top] + 1, layer[bottom])
        paths[edge] = [top, *range(count, count + len(between)), bottom]
        for place, number in enumerate(between, count):
            layers[number].append(place)
        count += len(between)
    return Shape(boxes, ordered(layers, paths.values(), count), paths, turned)


def layers_of(boxes: int, down: list[Edge]) -> list[int]:
    """Each box one layer below the lowest that leads to it; roots just above what follows."""
    after = table_of(boxes, down)
    layer = [0] * boxes
    for box in reversed(walk_in_depth(range(boxes), after.__getitem__).left):
        for b in after[box]:
            layer[b] = max(layer[b], layer[box] + 1)
    for box in {*range(1, boxes)} - {b for _, b in down}:
        if after[box]:
            layer[box] = min(layer[b] for b in after[box]) - 1
    return apart(boxes, down, layer)


def apart(boxes: int, down: list[Edge], layer: list[int]) -> list[int]:
    """The layers with all that hangs together with box 0 first, and the rest below it."""
    beside = table_of(boxes, [*down, *((b, a) for a, b in down)])
    first = reached([0], beside.__getitem__)
    depth = max(layer[box] for box in first) + 1
    return [at if box in first else at + depth for box, at in enumerate(layer)]


def place(shape: Shape, sizes: Sequence[Size]) -> Drawing:
    """Coordinates for boxes of these sizes."""
    sizes = [*sizes, *[OF_EDGE] * (sum(map(len, shape.layers)) - shape.boxes)]
    middle = middles(shape, sizes)
    spans = spans_of(shape, sizes, middle)
    of = {number: span for layer, span in zip(shape.layers, spans) for number in layer}
    leaving, coming = ports_of(shape, sizes, middle, 0, 1), ports_of(shape, sizes, middle, -1, -2)
    routes = {edge: [Spot(leaving[edge], of[path[0]].top + sizes[path[0]].height),
                     *(Spot(middle[n], y) for n in path[1:-1] for y in of[n]),
                     Spot(coming[edge], of[path[-1]].top)] for edge, path in shape.paths.items()}
    return Drawing(max(at + size.width / 2 + size.free for at, size in zip(middle, sizes)) + MARGIN,
                   spans[-1].bottom + MARGIN,
                   [Spot(middle[box] - sizes[box].width / 2, of[box].top) for box in range(shape.boxes)], routes)


def spans_of(shape: Shape, sizes: Sequence[Size], middle: Sequence[float]) -> list[Span]:
    """Where each layer begins and ends; gaps grow with the edges that slant there."""
    _, below = neighbours(shape.paths.values(), len(middle))
    found = []
    top: float = MARGIN
    for layer in shape.layers:
        found.append(Span(top, top + max((sizes[n].height for n in layer), default=0)))
        slanting = sum(abs(middle[n] - middle[b]) > 40 for n in layer for b in below[n])
        top = found[-1].bottom + GAP_Y + min(4 * slanting, 48)
    return found


def middles(shape: Shape, sizes: Sequence[Size]) -> list[float]:
    """The middle of each place: near those of its neighbours, in the order of its layer."""
    above, below = neighbours(shape.paths.values(), len(sizes))
    middle = [0.0] * len(sizes)
    offsets = [offsets_of([sizes[n] for n in layer]) for layer in shape.layers]
    for layer, its in zip(shape.layers, offsets):
        spread(layer, middle, its, [float(at) for at in range(len(layer))], [1.0] * len(layer))
    # The wish of a box counts less than an edge's, and one without neighbours little.
    downwards, upwards = ([(layer, its, [near[n] for n in layer],
                            [(1.0 if near[n] else 0.1) * (4.0 if n >= shape.boxes else 1.0) for n in layer])
                           for layer, its in zip(shape.layers, offsets)] for near in (above, below))
    sweeps = 0
    earlier: list[float] = []
    while sweeps < PLACE_SWEEPS:
        # Where a sweep down and one up have moved nothing, none will, and one more down is the last.
        sweeps = PLACE_SWEEPS if sweeps % 2 == 0 and middle == earlier else sweeps + 1
        earlier = list(middle) if sweeps % 2 else earlier
        for layer, its, near, weights in downwards if sweeps % 2 else upwards[::-1]:
            wishes = [sum([middle[n] for n in towards]) / len(towards) if towards else middle[number]
                      for number, towards in zip(layer, near)]
            spread(layer, middle, its, wishes, weights)
    left = min(at - size.width / 2 for at, size in zip(middle, sizes))
    return [at - left + MARGIN for at in middle]


def offsets_of(sizes: Sequence[Size]) -> list[float]:
    """How far the middles of a layer are from its first one where they stand as close as they may."""
    offsets = [0.0]
    for before, size in zip(sizes, sizes[1:]):
        offsets.append(offsets[-1] + ((before.width + size.width) / 2 + before.free + GAP_X))
    return offsets


def spread(layer: Sequence[int], middle: list[float], offsets: Sequence[float], wishes: Sequence[float],
           weights: Sequence[float]) -> None:
    """Sets the middles of a layer as near to the wishes as its order allows (least squares)."""
    if len(layer) == 1:
        middle[layer[0]] = wishes[0]
        return
    groups: list[tuple[float, float, int]] = []  # mean, weight and size of runs that stand as close as they may
    for wish, weight, offset in zip(wishes, weights, offsets):
        mean, size = wish - offset, 1
        while groups and groups[-1][0] > mean:
            other, other_weight, other_size = groups.pop()
            mean = (mean * weight + other * other_weight) / (weight + other_weight)
            weight += other_weight
            size += other_size
        groups.append((mean, weight, size))
    means = [mean for mean, _, size in groups for _ in range(size)]
    for number, mean, offset in zip(layer, means, offsets):
        middle[number] = mean + offset


def ports_of(shape: Shape, sizes: Sequence[Size], middle: Sequence[float], end: int, beside: int) -> dict[Edge, float]:
    """Where edges are at the boxes at an end of their paths: side by side, in the order of what is beside that end."""
    by_box = grouped((path[end], (middle[path[beside]], edge)) for edge, path in shape.paths.items())
    ports = {}
    for box, ends in by_box.items():
        room = min(12.0, (sizes[box].width - 12) / len(ends))
        for at, (_, edge) in enumerate(sorted(ends)):
            ports[edge] = middle[box] + (at - (len(ends) - 1) / 2) * room
    return ports
