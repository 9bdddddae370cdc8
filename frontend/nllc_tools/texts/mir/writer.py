"""Writes a MIR text (docs/FORMATS.md), with remarks for a person."""

from typing import Iterator

from nllc_tools.rustc.mir.types import STATIC
from nllc_tools.texts.mir.text import NEXT, STOP, Point, Text


def mir_text(text: Text) -> str:
    return "\n".join(lines(text)) + "\n"


def lines(text: Text) -> Iterator[str]:
    function, body = text.function, text.function.body
    is_second = bool(text.asserts) or text.has_functions or any(
        "- >" in line or " -," in line or " - ?" in line for line in text.structs if line.startswith("struct"))
    yield f"nll-mir {2 if is_second else 1}"
    yield f"# function: {function.name}"
    source = next((local.span.file for local in body.locals.values() if local.span), "")
    yield f"# source: {source}"
    yield from (f"# nearest form at {one}" for one in text.nearest)
    yield from (f"universal '{name}" for name in text.universals.values())
    for sup, sub in sorted(set(function.outlives)):
        if sup != sub and {sup, sub} <= {STATIC, *text.universals} and sup != STATIC:
            yield f"outlives '{text.universals[sup]} '{text.universals.get(sub, 'static')}"
    yield from (f"region '{name}" for name in text.regions)
    yield from (f"assert {sup} : {sub}" for sup, sub in text.asserts)
    yield from text.structs
    for number, line in enumerate(text.lets):
        local = body.locals.get(number)
        if local and local.name:
            yield f"# _{number} is {local.name}" + (f", of line {local.span.first}" if local.span else "")
        yield line
    yield from body_lines(text)
    yield "end"


def body_lines(text: Text) -> Iterator[str]:
    """The blocks: those of rustc, cut behind each call that is a statement there."""
    blocks = list(cut(text.points))
    starts = {block[0].location.block: number for number, block in enumerate(blocks) if block[0].location.index == 0}
    has_stop = any(STOP in (point.exits or ()) for point in text.points)
    yield f"blocks {len(blocks) + has_stop}"
    line = None
    for number, block in enumerate(blocks):
        begin = block[0].location
        yield f"block bb{number}" if begin.index else f"# rustc's bb{begin.block}\nblock bb{number}"
        for point in block:
            span = text.function.body.statements[point.location].span
            if span is not None and span.first != line:
                line = span.first
                yield f"# line {line}"
            targets = [number + 1 if exit == NEXT else len(blocks) if exit == STOP else starts[exit] for exit in point.exits or ()]
            yield point.text % tuple(f"bb{target}" for target in targets) if targets else point.text
    if has_stop:
        yield f"block bb{len(blocks)}\nstop"


def cut(points: list[Point]) -> Iterator[list[Point]]:
    """The points by blocks of the text."""
    block: list[Point] = []
    for point in points:
        block.append(point)
        if point.exits is not None:
            yield block
            block = []
    if block:
        yield block
