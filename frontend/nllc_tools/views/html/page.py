"""Puts the page together: templates, and the parts that depend on the text."""

import os
from typing import Optional, Sequence

from nllc_tools.base.grouping import spans
from nllc_tools.base.sentences import plural, visible
from nllc_tools.judge.content import Content
from nllc_tools.judge.differences import differences, handed_out, passed_by
from nllc_tools.judge.names import name_of
from nllc_tools.judge.verdicts import verdict_of
from nllc_tools.views.html.graph import drawing, lines
from nllc_tools.views.html.graph.region_graph import region_graph
from nllc_tools.views.html.index_rows import row_mark, row_of
from nllc_tools.views.html.parts.answers_part import both
from nllc_tools.views.html.parts.finding_list import finding_list
from nllc_tools.views.html.parts.point_list import Block, blocks, end_list, point_list, source_list, tabs
from nllc_tools.views.html.parts.region_list import region_list, region_words
from nllc_tools.views.html.writing import STANDINGS, about, back, badge, compact, fill, icon, script_data, text

SCRIPTS = ("values.js", "show.js", "words.js", "large.js", "choose.js", "graph.js", "keys.js", "start.js")

FEW_ROWS = 60       # up to so many statements, the graph is first shown with them
MOST_ROWS = 3000    # of a larger text the script makes the rows and boxes that are looked at


def page(content: Content) -> str:
    """The whole page, as one text."""
    facts, name, verdict = content.facts, name_of(content), verdict_of(content)
    graph = drawing.graph_of(facts)
    found = blocks(facts)
    rows = sum(len(block.rows) for block in found)
    is_large = rows > MOST_ROWS
    folded, large = drawing.many(graph) if is_large else (drawing.folded(graph), None)
    of_rustc = "" if verdict.rustc is None else f'<p class="of-rustc">rustc: {text(verdict.rustc)}</p>'
    return fill("page.html", {
        "title": text(title_of(content)),
        "icon": icon(verdict.kind),
        "back": back(content.index),
        "row": row_mark(row_of(content, name)),
        "css": compact("look.css", "code.css", "page.css"),
        "js": compact(*SCRIPTS),
        "name": text(name),
        "about": about(content.path or content.facts_path, plural(facts.points, "point"), plural(len(facts.names), "region"),
                       plural(len(facts.constraints), "constraint")),
        "verdict": badge(verdict.kind, verdict.words) + of_rustc,
        "provenance": f"Values from <code>{text(content.origin)}</code>, {STANDINGS[content.standing]}."
                      + (f" {text(content.problem)}" if content.problem else ""),
        "faults": finding_list(content) + both(content),
        "regions": region_list(content),
        "tabs": tabs(content),
        "source": source_list(content, is_large),
        "points": point_list(facts, found, is_large),
        "folded": folded,
        "statements": "" if is_large else drawing.unfolded(graph),
        "outlives": region_graph(facts),
        "view": "statements" if rows <= FEW_ROWS else "folded",
        "ends": end_list(facts),
        "data": script_data(data(content, found, large)),
    })


def title_of(content: Content) -> str:
    """What a tab says: the name, and the file."""
    name, file = name_of(content), os.path.basename(content.path)
    return f"{name} ({file})" if content.path and file != name else name


def data(content: Content, found: Sequence[Block], large: Optional[dict[str, object]]) -> dict[str, object]:
    """What the script reads; of a large text also the rows and boxes that it makes itself."""
    facts, points = content.facts, range(content.facts.points)
    more: dict[str, object] = {}
    if large is not None:
        more |= {"large": large, "blocks": [[row.points for row in block.rows] for block in found]}
    if facts.point_names:
        more["names"] = list(map(facts.point_name, points))
    return more | {
        "start": start(content),
        "points": facts.points,
        "universals": facts.universals,
        "regions": [region_data(content, region) for region in range(len(facts.names))],
        "constraints": facts.constraints,
        "next": facts.successors,
        "returns": sorted(facts.returns),
        "texts": [visible(lines.words_of(facts, point)) for point in points],
        "lines": [facts.remarks.point(point).line for point in points],
    }


def start(content: Content) -> dict[str, int]:
    """What is lit at first: the first step of a fault, the region of a loan, or that of a variable."""
    if content.faults:
        return {"step": 0}
    number = content.facts.names.index
    regions: list[Optional[int]] = [number(fault.loan.region) for fault in content.loans]
    for one in [] if regions else differences(content):
        loan = handed_out(content, one.error)
        regions.append(number(loan.region) if loan else passed_by(content, one.error))
    return next(({"region": region} for region in regions if region is not None), {})


def region_data(content: Content, region: int) -> dict[str, object]:
    facts = content.facts
    return {"name": facts.names[region], "what": visible(region_words(facts, region)),
            "line": facts.remarks.region(facts.names[region]).line,
            "holds": spans(content.values.elements(region)), "base": spans(sorted(facts.bases[region]))}
