"""Makes the problem of one function out of what rustc left of it."""

import os
from typing import Iterable, Mapping, Sequence

from nllc_tools.model.problem import Named, Problem
from nllc_tools.model.regions import STATIC
from nllc_tools.model.remarks import NOTHING, Remark
from nllc_tools.model.typed_function import TypedFunction
from nllc_tools.rustc.dumps import Dump
from nllc_tools.rustc.errors import Error
from nllc_tools.texts.facts.remark_writer import RemarkWriter
from nllc_tools.texts.facts.wording import Wording, origins


def convert(dump: Dump, root: str = "", errors: Iterable[Error] = ()) -> Problem:
    """The problem of a function; rustc's paths are relative to the root, its errors are told."""
    function = TypedFunction(dump)
    wording = Wording(function)
    source = os.path.join(root, wording.source)
    points = [wording.statement(location) for location in function.points.locations]
    return problem_of(function, source, points, origins(wording),
                      RemarkWriter(function, wording.source, source).lines(list(errors)))


def problem_of(function: TypedFunction, source: str = "", points: Sequence[Remark] = (), said: Mapping[int, Remark] = {},
               beside: Sequence[str] = ()) -> Problem:
    """The problem of a function, with what is said of its points and regions, and beside."""
    names, universals = function.names, function.universals

    def with_remark(region: int) -> Named:
        return names[region], said.get(region, Remark(None, "a type that the function writes"))

    problem = Problem(
        function=function.dump.name,
        source=source,
        points=list(points) or [NOTHING] * len(function.points.locations),
        universals=[with_remark(region) for region in universals if region != STATIC],
        outlives=[(names[sup], names[sub]) for sup, sub in sorted(function.tables.known_placeholder_subset)
                  if sup != STATIC and sup != sub and {sup, sub} <= set(universals)],
        regions=[with_remark(region) for region in function.others],
        successors=function.points.successors,
        returns=function.points.returns,
        bases=[(names[region], live) for region, live in function.live_points().items()],
        constraints=[(names[sup], names[sub], at) for sup, sub, at in function.constraints],
        beside=list(beside),
    )
    problem.check_limits()
    return problem
