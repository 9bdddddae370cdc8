"""The regions of a page as a graph: an arrow leads from a region to each that it must outlive.

Regions that must outlive one another in a circle stand in one box. On each arrow stands where its constraints
arise: lines of the source, or points.
"""

from dataclasses import dataclass
from typing import Sequence, Union

from nllc_tools.base.grouping import grouped
from nllc_tools.base.sentences import visible
from nllc_tools.base.walks import reached
from nllc_tools.judge import asking_statements, chain_sentences
from nllc_tools.model.facts import ALL, Constraint, Facts
from nllc_tools.views.html.writing import text
from nllc_tools.views.html.graph.layout import Size, Spot, curves, place, shape_of
from nllc_tools.views.html.graph.order import walk_in_depth

LETTER = 6.95
PAD = 8
ROW = 18
LABEL = 16          # the height of an arrow's label
MOST_BOXES = 250    # of more boxes nobody sees anything
MOST_PLACES = 3     # of more places on one arrow the first are shown
MOST_ROWS = 6       # of constraints inside a box

Pairs = dict[tuple[int, int], list[int]]    # a region, and one that it must outlive: the points of their constraints


@dataclass(frozen=True)
class Box:
    """Regions that must outlive one another, and the constraints among them in words."""

    facts: Facts
    regions: list[int]
    told: list[str]

    def size(self) -> Size:
        letters = max([len(self.facts.names[region]) + 1 for region in self.regions] + [len(visible(line)) for line in self.told])
        return Size(2 * PAD + letters * LETTER, PAD + (len(self.regions) + len(self.told)) * ROW)

    def svg(self, at: Spot) -> str:
        kind = "knots of-signature" if any(map(self.facts.is_universal, self.regions)) else "knots"
        width, height, _ = self.size()
        rows = [self.row(region, PAD / 2 + number * ROW, width) for number, region in enumerate(self.regions)]
        rows += [f'<text class="asked" x="{PAD}" y="{PAD / 2 + number * ROW + 13:g}">{text(line)}</text>'
                 for number, line in enumerate(self.told, len(rows))]
        return (f'<g class="{kind}" transform="translate({at.x:.1f} {at.y:.1f})">'
                f'<rect class="frame" width="{width:.1f}" height="{height:.1f}" rx="6"/>{"".join(rows)}</g>')

    def row(self, region: int, top: float, width: float) -> str:
        name, what = f"'{self.facts.names[region]}", chain_sentences.region_words(self.facts, region)
        label = f"{name}: {what}" if what else name
        return (f'<g class="knot" data-r="{region}" role="button" tabindex="0"><title>{text(label)}</title>'
                f'<rect x="2" y="{top:g}" width="{width - 4:.1f}" height="{ROW}" rx="4"/>'
                f'<text x="{PAD}" y="{top + 13:g}">{text(name)}</text></g>')


@dataclass(frozen=True)
class Label:
    """The words on an arrow, shortly and in full."""

    short: str
    full: str

    def size(self) -> Size:
        return Size(len(self.short) * 6.4 + 8, LABEL)

    def svg(self, at: Spot) -> str:
        width = self.size().width
        return (f'<g class="place"><title>{text(self.full)}</title>'
                f'<rect x="{at.x:.1f}" y="{at.y:.1f}" width="{width:.1f}" height="{LABEL}" rx="3"/>'
                f'<text x="{at.x + width / 2:.1f}" y="{at.y + 12:.1f}" text-anchor="middle">{text(self.short)}</text></g>')


def region_graph(facts: Facts) -> str:
    """The picture, or a sentence where there is none."""
    pairs = pairs_of(facts)
    groups = groups_of(pairs)
    if 0 < len(groups) <= MOST_BOXES:
        return picture(facts, groups, pairs)
    said = f"{len(groups):,} groups of regions must outlive one another, too many for a picture." if groups else \
        "No region must outlive another one."
    return f'<p class="graph outlives none">{said}</p>'


def pairs_of(facts: Facts) -> Pairs:
    """The points of each pair of different regions with constraints, ascending; all points stand first."""
    return grouped(((sup, sub), at) for sup, sub, at in sorted(facts.constraints) if sup != sub)


def groups_of(pairs: Pairs) -> list[list[int]]:
    """The strongly connected regions, in their order."""
    after, before = grouped(pairs), grouped((sub, sup) for sup, sub in pairs)
    group: dict[int, int] = {}
    for root in reversed(walk_in_depth(sorted({*after, *before}), lambda one: after.get(one, ())).left):
        if root not in group:
            its = reached([root], lambda one: (other for other in before.get(one, ()) if other not in group))
            group |= dict.fromkeys(its, root)
    return list(grouped((root, region) for region, root in sorted(group.items())).values())


def place_words(facts: Facts, sup: int, sub: int, points: Sequence[int]) -> Label:
    """Where the constraints of a pair arise."""
    if points[0] == ALL:
        return Label("everywhere", "at all points")
    if len(points) == facts.points > 1:
        return Label("everywhere", "at every point")
    lines: set[int] = set()
    unplaced = set()
    for at in points:
        origins = asking_statements.origins(facts, Constraint(sup, sub, at))
        known = [facts.remarks.point(point).line for point in origins]
        if len(origins) <= asking_statements.MOST_ORIGINS and None not in known:
            lines.update(line for line in known if line is not None)
        else:
            unplaced.add(at)
    named = [f"line {line}" for line in sorted(lines)]
    named += [f"point {facts.point_name(at)}" for at in sorted(unplaced)]
    return Label(first_of(named, MOST_PLACES), ", ".join(named))


def first_of(words: Sequence[str], most: int) -> str:
    """The first of the words, and how many more there are."""
    return ", ".join(words[:most]) + (f" +{len(words) - most}" if len(words) > most else "")


def picture(facts: Facts, groups: list[list[int]], pairs: Pairs) -> str:
    home = {region: number for number, group in enumerate(groups) for region in group}
    arrows = grouped(((home[sup], home[sub]), (sup, sub)) for sup, sub in pairs)
    told = {pair: place_words(facts, *pair, points) for pair, points in pairs.items()}
    drawn: list[Union[Box, Label]] = [
        Box(facts, regions, inside_words(facts, {pair: told[pair] for pair in arrows.pop((number, number), [])}))
        for number, regions in enumerate(groups)]
    drawn += [label_of(facts, {pair: told[pair] for pair in its}) for its in arrows.values()]
    edges = [edge for number, (a, b) in enumerate(arrows, len(groups)) for edge in ((a, number), (number, b))]
    drawing = place(shape_of(len(drawn), edges), [one.size() for one in drawn])
    return "".join([drawing.opening("outlives", "which region must outlive which"),
                    *(arrow(route, edge[1] < len(groups)) for edge, route in drawing.routes.items()),
                    *(one.svg(corner) for one, corner in zip(drawn, drawing.corners)), "</svg>"])


def inside_words(facts: Facts, told: dict[tuple[int, int], Label]) -> list[str]:
    """The constraints among the regions of a box."""
    words = [f"'{facts.names[sup]}: '{facts.names[sub]}  {where.short}" for (sup, sub), where in told.items()]
    return words[:MOST_ROWS] + ([f"and {len(words) - MOST_ROWS} more"] if len(words) > MOST_ROWS else [])


def label_of(facts: Facts, told: dict[tuple[int, int], Label]) -> Label:
    """The words of an arrow."""
    full = "; ".join(f"'{facts.names[sup]} must outlive '{facts.names[sub]}: {where.full}" for (sup, sub), where in told.items())
    return Label(first_of(list(dict.fromkeys(where.short for where in told.values())), 2), full)


def arrow(route: Sequence[Spot], has_head: bool) -> str:
    """A smooth line down through the route, with a head where it comes to a box of regions."""
    (begin_x, begin_y), (x, y) = route[0], route[-1]
    head = f'<path class="head" d="M{x - 3.5:.1f} {y - 6:.1f}l3.5 6l3.5 -6z"/>' if has_head else ""
    return f'<g class="edge"><path class="way" d="M{begin_x:.1f} {begin_y:.1f} {curves(route)}"/>{head}</g>'
