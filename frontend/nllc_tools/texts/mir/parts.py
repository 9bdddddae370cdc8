"""What the lines of a MIR text are made of: names, places, operands, calls."""

from typing import Iterable, Iterator, Optional

from nllc_tools.model.types.definitions import Definitions, behind
from nllc_tools.model.types.structs import DISCRIMINANT, Field, Structs, fields_of, step_of
from nllc_tools.rustc.mir.function import Function
from nllc_tools.rustc.mir.statements import Assign, Operand, Place, places_of
from nllc_tools.rustc.mir.types import PLAIN, STATIC, Region, Type
from nllc_tools.rustc.tables import Location
from nllc_tools.rustc.unsaid import NotSaid
from nllc_tools.texts.mir.text import NEXT, Point, Used, Walked, names_of

BY_A_PART = "a place that the profile can't write, by the part that it can"
Bounds = set[tuple[int, int]]


class Parts:
    """Makes the parts of lines: names, places, operands, calls."""

    def __init__(self, function: Function, definitions: Definitions):
        self.function = function
        self.definitions = definitions
        fields, structured = fields_of(definitions, function.locals,
                                       (place for line in function.lines.values() for place in places_of(line)))
        self.structs = Structs(definitions, [*fields, *self.discriminants()], structured)
        self.names = names_of(function)
        self.used: set[int] = set()
        self.fresh: list[str] = []
        self.points: list[Point] = []
        self.nearest: list[str] = []
        self.spare = len(function.locals)
        self.location = Location(0, 0)

    def discriminants(self) -> Iterator[Field]:
        for line in self.function.lines.values():
            if isinstance(line, Assign) and line.word == "discriminant":
                type = self.function.locals[line.source.local]
                for step in line.source.steps:
                    type = behind(self.definitions, type, step) or PLAIN
                yield Field(type.shape(), *DISCRIMINANT, None)

    # Names

    def name(self, region: Region) -> str:
        """A region's name with its `'`; a number below 0 is that of one that was made here."""
        if isinstance(region, str):
            raise NotSaid("a region that is bound inside a type", region)
        if region < 0:
            return f"'{self.fresh[-1 - region]}"
        if region == STATIC:
            return "'static"
        self.used.add(region)
        return f"'{self.names[region]}" if region in self.names else f"'r{region}"

    def new_region(self) -> int:
        self.fresh.append(f"new{len(self.fresh) + 1}")
        return -len(self.fresh)

    def spell(self, type: Type) -> str:
        return self.structs.spell(type, self.name)

    def approximate(self, words: str) -> None:
        self.nearest.append(f"{self.location}: {words}")

    # Places and operands

    def walk(self, place: Place) -> Walked:
        type = self.function.locals[place.local]
        text: Optional[str] = f"_{place.local}"
        prefix, prefix_type, is_crossed = f"_{place.local}", type, False
        derefs: list[Type] = []
        for step in place.steps:
            following = behind(self.definitions, type, step)
            if following is None:
                raise NotSaid("a place whose type isn't known", f"{step.kind} of {type.form} {type.name}")
            is_pointer = step.kind == "deref" and not type.is_box()
            if is_pointer:
                derefs.append(type)
            if self.structs.is_int(type):
                is_crossed |= is_pointer
            elif text is not None:
                words = step_of(self.structs, type, step)
                text = None if words is None else text + words
            type = following
            if text is not None:
                prefix, prefix_type = text, type
        return Walked(type, text, prefix, prefix_type, derefs, is_crossed)

    def operand(self, operand: Operand) -> Used:
        if isinstance(operand, Place):
            walked = self.walk(operand)
            word = "move" if operand.is_moved else "copy"
            return Used(walked.type, None if walked.text is None else f"{word} {walked.text}", walked)
        type = operand.type or PLAIN
        return Used(type, "const" if self.structs.is_int(type) else None)

    def are_ints(self, *types: Type) -> bool:
        return all(map(self.structs.is_int, types))

    # Lines

    def add(self, text: str, exits: Optional[tuple[int, ...]] = None) -> None:
        self.points.append(Point(text, exits, self.location))

    def add_call(self, text: str, where: Bounds = set(), exits: tuple[int, ...] = (NEXT,)) -> None:
        """Adds a call, with what it asks of regions and where it goes on."""
        bounds = sorted(f"{self.name(a)}: {self.name(b)}" for a, b in where if a != STATIC and a != b)
        asked = f" where {', '.join(bounds)}" if bounds else ""
        self.add(f"{text}{asked} -> %s" + (" unwind %s" if len(exits) > 1 else ""), exits)

    def call(self, target: Walked, word: str, operands: Iterable[tuple[Used, Type]], result: Type,
             where: Bounds = set(), exits: tuple[int, ...] = (NEXT,)) -> None:
        """A call: each operand with the type that it is to have, and the result's."""
        where, listed = set(where), []
        for used, wanted in operands:
            self.must_fit(used.type, wanted, f"{word}: ")
            if used.words is not None:
                listed.append(f"{used.words}: {self.spell(wanted)}")
                continue
            where |= self.definitions.wants(used.type, wanted)
            if used.place:
                listed.append(self.prefix(used.place))
            else:
                where |= self.asked_of_constant(used.type)
        self.must_fit(result, target.type, f"{word}: ")
        goal, spelled = target.text, self.spell(result)
        if goal is None:
            where |= self.definitions.wants(result, target.type)
            listed.append(self.prefix(target))
            goal, spelled = f"_{self.spare}", "int"
        self.add_call(f"{goal} = call {word}({', '.join(listed)}): {spelled}", where, exits)

    def asked_of_constant(self, type: Type) -> Bounds:
        """What the definition of a constant asks of the regions of its type, of which rustc writes new ones."""
        own, paths = {*type.regions(), STATIC}, self.function.paths(self.location)
        return {(region, other) for region in own for other in paths.reached(region) if other in own}

    def prefix(self, place: Walked) -> str:
        """The use of the part of a place that the text can write."""
        self.approximate(BY_A_PART)
        return self.copied(place)

    def copied(self, place: Walked) -> str:
        return f"copy {place.prefix}: {self.spell(place.prefix_type)}"

    def fits(self, type: Type, other: Type) -> bool:
        if self.structs.is_int(type) or self.structs.is_int(other):
            return self.are_ints(type, other)
        return type.shape() == other.shape()

    def must_fit(self, type: Type, other: Type, what: str = "") -> None:
        if not self.fits(type, other):
            raise unfit(type, other, what)


def unfit(type: Type, other: Type, what: str = "") -> NotSaid:
    return NotSaid("types that don't fit", f"{what}{type.form} {type.name}, {other.form} {other.name}")
