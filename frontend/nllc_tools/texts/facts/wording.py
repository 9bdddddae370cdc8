"""Puts statements, types and regions into words, with the source's names where there are any."""

import re
from collections import Counter, defaultdict
from typing import Optional

from nllc_tools.base.grouping import grouped
from nllc_tools.model.regions import STATIC
from nllc_tools.model.remarks import Remark
from nllc_tools.model.typed_function import TypedFunction
from nllc_tools.rustc.mir.spans import Span
from nllc_tools.rustc.tables import Location

QUOTED = re.compile(r'("(?:[^"\\]|\\.)*")')
VARIABLE = re.compile(r"(?<!\w)_(\d+)(?!\w)")
BORROW = re.compile(r"((?:_(\d+)|.*?) = &)(?!raw )")
HOLE = re.compile(r"&(?!')|'_(?!\w)")
LONGEST = 120
# Of several lines that these span, they run at the last.
CLOSING = ("StorageDead", "drop", "return", "resume")


class Wording:
    """The words for one function."""

    def __init__(self, function: TypedFunction):
        self.function, self.body = function, function.body
        result = self.body.locals.get(0)
        spans = [result.span] if result and result.span else self.body.spans()
        self.source = next((span.file for span in spans), "")    # with the function's head, where the type of its result stands
        self.origins = grouped(function.tables.use_of_var_derefs_origin)
        self.borrows = self.regions_of_borrows()
        counted = Counter(local.name for local in self.body.locals.values())
        self.called = {n: local.name for n, local in self.body.locals.items()
                       if local.name and counted[local.name] == 1 and not VARIABLE.fullmatch(local.name)}

    def regions_of_borrows(self) -> dict[Location, int]:
        """The region of each borrow: of loans, and of `_3 = &..` behind a shared reference.

        rustc counts no loan of what a shared reference leads to. But the borrow's region is the one
        that must outlive the outer region in the type of `_3`.
        """
        found = {}
        for sup, sub, spot in sorted(self.function.tables.subset_base.located):
            target = BORROW.match(self.body.statements[spot.location].text)
            own = self.origins.get(int(target[2])) if target and target[2] else None
            if own and own[0] == sub:
                found[spot.location] = sup
        return found | {spot.location: region for region, _, spot in self.function.tables.loan_issued_at}

    def line(self, span: Optional[Span]) -> Optional[int]:
        return span.first if span and span.file == self.source else None

    def name(self, region: int) -> str:
        """The region's name, which is that of its class."""
        name = self.function.names.get(self.function.regions.find(region), f"?{region}")
        return f"'{name}"

    def statement(self, location: Location) -> Remark:
        """The statement with names for variables and for the region of a borrow, and its place."""
        text = self.body.statements[location].text
        if location in self.borrows:
            name = self.name(self.borrows[location])
            text = BORROW.sub(lambda found: f"{found[1]}{name} ", text, 1)
        return Remark(self.line_of(location), f"{self.with_variables(text)} ({location})")

    def line_of(self, location: Location) -> Optional[int]:
        """The line of a statement; a `goto` that spans several, a whole loop or `if`, has none."""
        text, span, _ = self.body.statements[location]
        if span is None or span.first == span.last:
            return self.line(span)
        if text.startswith("goto"):
            return None
        closes = text.startswith(CLOSING) or text.endswith(" = const ()")
        return self.line(span._replace(first=span.last) if closes else span)

    def with_variables(self, text: str) -> str:
        """The text with `x` for `_3`, save in strings."""
        def named(found: re.Match[str]) -> str:
            return self.called.get(int(found[1]), found[0])

        pieces = QUOTED.split(text) if '"' in text else [text]
        return "".join(piece if number % 2 else VARIABLE.sub(named, piece) for number, piece in enumerate(pieces))

    def variable(self, number: int) -> str:
        if number in self.called:
            return self.called[number]
        if number == 0:
            return "the result"
        name = self.body.locals[number].name if number in self.body.locals else None
        return f"{name} (_{number})" if name else f"the temporary _{number}"

    def type_of(self, number: int, region: int) -> str:
        """Which region of a variable's type this is; the type has names where it has room."""
        local, own, variable = self.body.locals.get(number), self.origins[number], self.variable(number)
        if local is None or not local.type:
            return f"the type of {variable}"
        if len(HOLE.findall(local.type)) == len(own):
            names = map(self.name, own)
            written = HOLE.sub(lambda hole: f"&{next(names)} " if hole[0] == "&" else next(names), local.type)
            return f"the type of {variable}: {written}"
        which = f"region {own.index(region) + 1} of {len(own)} in " if len(own) > 1 else ""
        return f"{which}the type of {variable}: {local.type}"

    def universal(self, region: int) -> str:
        """Where a universal region comes from."""
        if region in self.body.external:
            return f"{self.name(region)} of the function around this closure"
        if self.body.names.get(region, "").strip("_"):
            return f"{self.name(region)} of the signature"
        return "a lifetime of the signature without a name"


def origins(wording: Wording) -> dict[int, Remark]:
    """For each class of regions where it comes from: the first line that is known, and all places in words."""
    find, tables, body = wording.function.regions.find, wording.function.tables, wording.body
    found: dict[int, dict[str, Optional[int]]] = defaultdict(dict)
    for region in wording.function.regions.universals:
        if region != STATIC:
            found[find(region)].setdefault(wording.universal(region), None)
    for variable, region in tables.use_of_var_derefs_origin:
        local = body.locals.get(variable)
        found[find(region)].setdefault(wording.type_of(variable, region), wording.line(local.span) if local else None)
    for location, region in wording.borrows.items():
        borrowed = wording.with_variables(body.statements[location].text.partition(" = ")[2])
        found[find(region)].setdefault(f"the borrow {shortened(borrowed)}", wording.line(body.statements[location].span))
    for sup, sub, spot in sorted(tables.subset_base.located):
        for region in (find(sup), find(sub)):
            if region not in found:
                line, text = wording.statement(spot.location)
                found[region][f"in the statement {shortened(text)}"] = line
    return {region: Remark(next((line for line in said.values() if line is not None), None), "; ".join(said))
            for region, said in found.items()}


def shortened(text: str) -> str:
    return text if len(text) <= LONGEST else text[:LONGEST - 3] + "..."
