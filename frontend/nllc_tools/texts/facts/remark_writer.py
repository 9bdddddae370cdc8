"""What a text says beside its problem: loans, why constraints are asked, uses, needs, rustc's word.

`nllc` skips all of it. It is what faults are told by, in the words of the source.
"""

import os
from collections import defaultdict
from functools import cache
from typing import Iterable, Iterator, Optional

from nllc_tools.base.grouping import grouped
from nllc_tools.model.blame import Blame, Chain, word_of
from nllc_tools.model.loans import Loan, Loans
from nllc_tools.model.moves import Moved
from nllc_tools.model.regions import STATIC
from nllc_tools.model.typed_function import TypedFunction
from nllc_tools.rustc.error_kinds import MOVES
from nllc_tools.rustc.errors import INVOCATION, Error
from nllc_tools.rustc.mir.body import Local, methods_on_results
from nllc_tools.rustc.mir.captures import captures
from nllc_tools.rustc.mir.desugarings import desugarings_of
from nllc_tools.rustc.mir.spans import Span
from nllc_tools.rustc.mir.statements import Place
from nllc_tools.rustc.tables import Location


class RemarkWriter:
    """Makes the lines of one function, whose source rustc calls by one path, and this process by another."""

    def __init__(self, function: TypedFunction, source: str, path: str):
        self.dump, self.tables, self.body = function.dump, function.tables, function.body
        self.number, self.regions, self.names = function.points.number, function.regions, function.names
        self.source, self.desugarings = source, desugarings_of(source, path)
        self.loans = Loans(function.dump, function.tables, function.body)
        self.blame = Blame(function.body, self.desugarings)

    def lines(self, errors: list[Error]) -> list[str]:
        return [*self.loan_lines(), *self.reason_lines(), *self.blame_lines(), *self.use_lines(),
                *(self.used_lines() if errors else ()), *self.called_lines(), *self.received_lines(),
                *self.captured_lines(), *self.need_lines(), *self.gone_lines(errors), *self.rustc_lines(errors)]

    def name(self, region: int) -> Optional[str]:
        """The name of the region's class with its `'`, where the text has it."""
        found = self.names.get(self.regions.find(region))
        return f"'{found}" if found else None

    def place(self, span: Optional[Span]) -> str:
        return place_words(span) if span and span.file == self.source else "elsewhere"

    def numbers(self, locations: Iterable[Location]) -> str:
        return " ".join(str(n) for n in sorted({self.number[one] for one in locations}))

    def loan_lines(self) -> Iterator[str]:
        yield f"loans: {len(self.loans.loans)}"
        for number, loan in sorted(self.loans.loans.items()):
            yield f"loan {number}: {self.loan(loan)}"
            if loan.killed:
                yield f"killed {number}: {self.numbers(loan.killed)}"
        for location, way, span, loans in self.loans.against:
            what = f" of {self.path(way.place)}" if way.place else ""
            after = f" after {self.number[way.begun]}" if way.begun else ""
            numbers = " ".join(map(str, loans))
            yield f"against {self.number[location]}, {self.place(span)}, {way.word}{what}{after}: {numbers}"

    def path(self, place: Place) -> str:
        """`list.*.0`: a variable, by its name if it has one, and the steps from it."""
        root = self.body.locals.get(place.local)
        name = root.name if root and root.name else f"_{place.local}"
        steps = [step.replace(" ", "-") for step in place.words[1:]]
        return ".".join([name, *steps]) + ("'" if place.has_lifetimes else "")

    def loan(self, loan: Loan) -> str:
        """`'r4 at 5, 8:16-8:22, mut of list`, and where else it stands."""
        what = self.body.name_of(loan.place) or "a temporary"
        deref = "*" if "*" in loan.place.words else ""
        kind = "unique" if loan.is_unique else loan.kind
        by = ", by a closure" if loan.is_capture else ""
        home = f", {self.place(loan.home)}" if loan.home else ""
        return (f"{self.name(loan.region)} at {self.number[loan.location]}, "
                f"{self.place(loan.span)}, {kind} of {deref}{what}{by}{home}")

    def reason_lines(self) -> Iterator[str]:
        """Why each constraint is asked, at the point of its statement or everywhere."""
        said: dict[str, None] = {}
        inside = cache(self.inside)
        for reason in self.body.reasons:
            sup, sub = self.name(reason.sup), self.name(reason.sub)
            if not sup or not sub or sup == sub:
                continue
            at = "" if reason.location is None else f" at {self.number[reason.location]}"
            for one in (*inside(reason.sub)[::-1], reason):
                word = word_of(one)
                if word:
                    said[f"asked {sup} {sub}{at}, {self.place(one.span)}: {word}"] = None
        return iter(said)

    def inside(self, region: int) -> Chain:
        """The chain from a region to the universal one that it equals everywhere, for which a text has one name."""
        find = self.regions.find
        goal = find(region)
        if goal == region or not self.regions.is_universal(goal):
            return []
        return self.blame.shortest(region, [goal], lambda one: find(one.sup) == find(one.sub)).get(goal, [])

    def blame_lines(self) -> Iterator[str]:
        """Which constraint rustc names where a universal region, or a loan, would have to outlive another one."""
        universals = [region for region in self.regions.universals if self.name(region)]
        known = set(self.tables.known_placeholder_subset)
        begins = [(self.name(region), region) for region in universals if region != STATIC]
        begins += [(str(number), loan.region) for number, loan in sorted(self.loans.ending().items())]
        for name, begin in begins:
            goals = [goal for goal in universals if goal != begin and (begin, goal) not in known]
            for goal, chain in sorted(self.blame.chains(begin, goals).items()):
                named = self.blame.named(chain)
                whose = " of a closure" if self.blame.is_of_closure(named) else ""
                yield f"blamed {name} {self.name(goal)}, {self.place(named.span)}: {word_of(named) or 'step'}{whose}"

    def use_lines(self) -> Iterator[str]:
        """At which points variables of a region's types are used, and at which dropped."""
        for word, origins, events in (
                ("uses", self.tables.use_of_var_derefs_origin, self.tables.var_used_at),
                ("drops", self.tables.drop_of_var_derefs_origin, self.tables.var_dropped_at)):
            at = grouped((variable, spot.location) for variable, spot in events)
            found: dict[int, set[Location]] = defaultdict(set)
            for variable, region in origins:
                found[self.regions.find(region)].update(at.get(variable, ()))
            yield from (f"{word} {self.name(region)}: {self.numbers(locations)}" for region, locations in sorted(found.items())
                        if locations and not self.regions.is_universal(region))

    def used_lines(self) -> Iterator[str]:
        """Where a statement stands that uses a variable with lifetimes, in a line of something that goes against loans.

        That is read where there is something to tell.
        """
        lines = {span.last for one in self.loans.against for span in (one.span, self.body.statements[one.location].span)
                 if span and span.file == self.source}
        variables = {variable for variable, _ in self.tables.use_of_var_derefs_origin} if lines else ()
        used = {spot.location for variable, spot in self.tables.var_used_at if variable in variables}
        for location in sorted(used):
            span = self.body.statements[location].span
            if span and span.file == self.source and span.first == span.last and span.last in lines:
                yield f"used {self.number[location]}, {self.place(span)}"

    def is_told(self, location: Location, place: Optional[Span]) -> bool:
        """Whether a place of a statement at a point is in the source, and in another line than that in which it begins."""
        begin = self.body.statements[location].span
        return place is not None and begin is not None and location in self.number and place.file == self.source \
            and place.first != begin.first

    def called_lines(self) -> Iterator[str]:
        """Where the function stands that a statement over several lines calls, if that is in another line."""
        for location, statement in sorted(self.body.statements.items()):
            span = statement.span
            function = self.body.function_span(location) if span and span.first != span.last else None
            if self.is_told(location, function):
                yield f"called {self.number[location]}, {self.place(function)}"

    def received_lines(self) -> Iterator[str]:
        """Where a method stands, in another line, that is called on a variable whose value comes from the tail of a block.

        That is so for the loans of the tail: the use that rustc names then is that of the method.
        """
        for location, function in methods_on_results(self.body):
            if self.is_told(location, function) and self.desugarings.before(function) == ".":
                span = self.body.statements[location].span
                made = [str(number) for number, loan in sorted(self.loans.loans.items())
                        if loan.location != location and loan.target is not None
                        and is_declared_within(self.body.locals.get(loan.target), span)]
                if made:
                    yield f"called {self.number[location]} by {' '.join(made)}, {self.place(function)}"

    def captured_lines(self) -> Iterator[str]:
        """Where a closure over several lines uses what it takes of a region, if that is in another line than its begin."""
        regions = grouped(self.tables.use_of_var_derefs_origin)
        for location, variable, use in captures(self.dump, self.body):
            if self.is_told(location, use):
                names = {name for region in regions.get(variable, ()) if (name := self.name(region))}
                yield from (f"captured {self.number[location]} {name}, {self.place(use)}" for name in sorted(names))

    def need_lines(self) -> Iterator[str]:
        """What a closure or coroutine needs of lifetimes of the function around it."""
        for sup, sub in self.body.needs:
            if sup in self.body.external and self.name(sup) and self.name(sub):
                yield f"needs {self.name(sup)} {self.name(sub)}"

    def gone_lines(self, errors: list[Error]) -> Iterator[str]:
        """What is accessed or assigned where it mustn't be, since when, and a walk to there."""
        moved = Moved(self.tables, self.body) if any(error.code in MOVES for error in errors) else None
        for error, one in moved.of(errors) if moved else ():
            name = self.path(Place(one.variable))
            walk = " ".join(str(self.number[location]) for location in one.walk)
            yield (f"gone {self.number[one.location]}, {error.line}:{error.column}, {one.code} of {name}, "
                   f"by {walk}: {self.numbers(one.since)}").rstrip()

    def rustc_lines(self, errors: Iterable[Error]) -> Iterator[str]:
        """The errors, and below each the places that it names."""
        for error in errors:
            yield f"rustc {error.line}:{error.column}: {error.words()}"
            for span, text in error.labels:
                if span.file == self.source:
                    yield f"label {place_words(span)}: {text}".rstrip(": ")
            if error.within:
                yield f"within {os.path.join(error.root, error.within.file)}, {place_words(error.within)}"
            yield from (f"invoked {os.path.join(error.root, span.file)}, {place_words(span)}" for span, text in error.labels
                        if text == INVOCATION and span.file != self.source)
            yield from (f"note: {note}" for note in error.notes)
            yield from (f"help: {one}" for one in error.helps)


def is_declared_within(local: Optional[Local], place: Optional[Span]) -> bool:
    """Whether a variable is declared within a place, or around it."""
    return local is not None and local.span is not None and place is not None and place.overlaps(local.span)


def place_words(span: Span) -> str:
    """`8:16-8:22`: where the first character stands, and the one behind the last."""
    return f"{span.first}:{span.column}-{span.last}:{span.end}"
