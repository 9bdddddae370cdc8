"""Writes a problem as a facts text, version 1 (docs/FORMATS.md), with remarks for a person.

    # function: NAME                    # point N: line L: TEXT
    # source: PATH                      # region 'NAME: line L: TEXT
    # way: BY WHAT, where it isn't rustc's facts

`line L: ` is left out where the line isn't known. `remark_writer` makes the other remarks, which stand
before the last line.
"""

from typing import Iterator

from nllc_tools.base.refusal import Refusal
from nllc_tools.model.problem import Problem
from nllc_tools.model.remarks import Remark

MOST_BYTES = 67_108_864


def facts_text(problem: Problem) -> str:
    """The text."""
    text = "\n".join(lines(problem)) + "\n"
    if len(text.encode()) > MOST_BYTES:
        raise Refusal(f"{problem.function}: a text of more than {MOST_BYTES} bytes, and nllc takes "
                      f"no more; split the function into smaller ones")
    return text


def lines(problem: Problem) -> Iterator[str]:
    yield "nll-facts 1"
    yield f"# function: {problem.function}"
    yield f"# source: {problem.source}"
    if problem.way:
        yield f"# way: {problem.way}"
    yield f"points {len(problem.points)}"
    for number, remark in enumerate(problem.points):
        yield f"# point {number}: {words(remark)}"
    for name, remark in problem.universals:
        yield f"# region '{name}: {words(remark)}"
        yield f"universal '{name}"
    yield from (f"outlives '{sup} '{sub}" for sup, sub in problem.outlives)
    for name, remark in problem.regions:
        yield f"# region '{name}: {words(remark)}"
        yield f"region '{name}"
    for point, successors in enumerate(problem.successors):
        yield from (f"next {point} {successor}" for successor in successors)
    yield from (f"return {point}" for point in problem.returns)
    for name, live in problem.bases:
        yield from (f"base '{name} {point}" for point in live)
    yield from (f"constraint '{sup} '{sub} {at}" for sup, sub, at in problem.constraints)
    yield from (f"# {' '.join(line.split())}" for line in problem.beside)
    yield "end"


def words(remark: Remark) -> str:
    """The remark on one line."""
    text = " ".join(remark.text.split())
    return text if remark.line is None else f"line {remark.line}: {text}"
