#!/usr/bin/env python3
"""Makes the drawings of docs/LEARNING.md: graphs of MIR texts with a region lit, and a walk inside a region.

    tools/drawings.py [FOLDER]      writes them to FOLDER, docs/pictures otherwise

What is lit is what check/reference/reference.py, the slow program, prints for the text.
"""

import argparse
import pathlib
import re
import subprocess
import sys

ROOT = pathlib.Path(__file__).resolve().parents[1]
WIDTH, ROW, GAP, STEP = 270, 24, 44, 320      # of a box, of a row in it, between boxes, from column to column
LIT, LINE, WALK, PLAIN = "#ffe08a", "#555", "#d9480f", "#ffffff"

# Each drawing: the example, lines that are put into it, the region, where blocks stand (column, row of boxes), and
# the walk that is shown, whose last point may be one that it doesn't enter.
DRAWINGS = {
    "running-p": ("running", (), "'p", {"bb0": (0, 0), "bb1": (1, 1), "bb2": (0, 2)}, (), ""),
    "running-foo": ("running", (), "'foo", {"bb0": (0, 0), "bb1": (1, 1), "bb2": (0, 2)},
                    ("bb0/1", "bb1/0"), "bb1/1"),
    "running-all": ("running", ("assert 'foo : 'p", "assert 'bar : 'p"), "'foo",
                    {"bb0": (0, 0), "bb1": (1, 1), "bb2": (0, 2)}, (), ""),
    "lookup-found": ("lookup", (), "'found", {"bb0": (0, 0), "bb1": (0, 1), "bb2": (0, 2), "bb3": (1, 2),
                                              "bb4": (1, 3), "bb5": (1, 4)}, (), ""),
}


def text_of(example, more):
    """The example's text, in version 2 with these `assert` lines where there are some."""
    lines = (ROOT / "examples" / f"{example}.mir").read_text().splitlines()
    if more:
        lines[lines.index("nll-mir 1")] = "nll-mir 2"
        at = next(at for at, line in enumerate(lines) if line.startswith("let "))
        lines[at:at] = more
    return "\n".join(lines) + "\n"


def blocks_of(text):
    """The statements of each block."""
    found = {}
    for line in text.splitlines():
        if line.startswith("block "):
            found[line[6:]] = []
        elif found and line != "end" and line.strip() and not line.startswith("#"):
            found[list(found)[-1]].append(line)
    return found


def value_of(text, region):
    """The elements of a region's least value."""
    done = subprocess.run([sys.executable, "check/reference/reference.py", "values", "/dev/stdin"], input=text,
                          cwd=ROOT, capture_output=True, text=True, check=True)
    return dict(line.split(":", 1) for line in done.stdout.splitlines())[region].split()


def shape(kind, content="", **words):
    said = "".join(f' {name.replace("_", "-")}="{value}"' for name, value in words.items())
    return f"<{kind}{said}>{content}</{kind}>" if content else f"<{kind}{said}/>"


def label(x, y, content, **words):
    safe = content.replace("&", "&amp;").replace("<", "&lt;").replace(">", "&gt;")
    return shape("text", safe, x=x, y=y, font_family="monospace", font_size=13, **words)


def places(blocks, layout):
    """Where each row of boxes begins, and where each box stands."""
    tall = {row: max(len(blocks[name]) for name, (_, at) in layout.items() if at == row)
            for row in {at for _, at in layout.values()}}
    tops, y = {}, 40
    for row in sorted(tall):
        tops[row], y = y, y + tall[row] * ROW + GAP
    return {name: (20 + column * STEP, tops[row]) for name, (column, row) in layout.items()}, y


def edges(blocks, at):
    """Lines from the end of each block to the blocks where it goes on."""
    for name, statements in blocks.items():
        x, y = at[name]
        for target in dict.fromkeys(re.findall(r"\bbb\d+\b", statements[-1])):
            to_x, to_y = at[target]
            begin = x + WIDTH / 2 + (20 if to_x > x else -20 if to_x < x else 0)
            end = to_x + WIDTH / 2 + (20 if to_x < x else 0)
            yield shape("line", x1=begin, y1=y + len(statements) * ROW, x2=end, y2=to_y - 5, stroke=LINE,
                        stroke_width=1.5, marker_end="url(#arrow)")


def rows(name, statements, at, lit):
    x, y = at
    for place, statement in enumerate(statements):
        point = f"{name}/{place}"
        top = y + place * ROW
        yield shape("rect", x=x, y=top, width=WIDTH, height=ROW, fill=LIT if point in lit else PLAIN, stroke=LINE)
        shown = statement if len(statement) < 25 else statement[:22] + ".."
        yield label(x + 8, top + 16, f"{point:6} {shown}", xml__space="preserve", fill="#111")


def walk_marks(walk, end, at):
    """A line from point to point, and a cross where it would leave the region."""
    where = {}
    for point in (*walk, *filter(None, [end])):
        name, _, place = point.partition("/")
        x, y = at[name]
        where[point] = (x - 8, y + int(place) * ROW + ROW / 2)
    points = [where[point] for point in walk]
    if points:
        yield shape("polyline", points=" ".join(f"{x},{y}" for x, y in points), fill="none", stroke=WALK, stroke_width=3)
        yield from (shape("circle", cx=x, cy=y, r=5, fill=WALK) for x, y in points)
    if end:
        x, y = where[end]
        yield shape("path", d=f"M{x - 5},{y - 5} L{x + 5},{y + 5} M{x - 5},{y + 5} L{x + 5},{y - 5}", stroke=WALK,
                    stroke_width=3)


def drawing(name):
    """The text of a drawing."""
    example, more, region, layout, walk, end = DRAWINGS[name]
    text = text_of(example, more)
    blocks, lit = blocks_of(text), value_of(text, region)
    at, height = places(blocks, layout)
    width = max(x for x, _ in at.values()) + WIDTH + 20
    head = label(20, 24, f"{region}: {' '.join(lit)}", font_weight="bold", fill="#111")
    arrow = shape("defs", shape("marker", shape("path", d="M0,0 L8,4 L0,8 z", fill=LINE), id="arrow", markerWidth=8,
                                markerHeight=8, refX=7, refY=4, orient="auto"))
    parts = [arrow, shape("rect", width="100%", height="100%", fill=PLAIN), head, *edges(blocks, at),
             *(part for block, statements in blocks.items() for part in rows(block, statements, at[block], lit)),
             *walk_marks(walk, end, at)]
    content = "\n".join(["", *parts, ""]).replace("xml--space", "xml:space")
    return shape("svg", content, xmlns="http://www.w3.org/2000/svg", width=width, height=height - GAP + 20,
                 role="img") + "\n"


def main(words):
    parser = argparse.ArgumentParser(description=__doc__, formatter_class=argparse.RawDescriptionHelpFormatter)
    parser.add_argument("folder", metavar="FOLDER", nargs="?", type=pathlib.Path, default=ROOT / "docs" / "pictures")
    folder = parser.parse_args(words).folder
    folder.mkdir(parents=True, exist_ok=True)
    for name in DRAWINGS:
        (folder / f"{name}.svg").write_text(drawing(name))
    return 0


if __name__ == "__main__":
    sys.exit(main(sys.argv[1:]))
