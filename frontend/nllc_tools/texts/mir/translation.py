"""Makes the MIR text of a function: its lines in the profile's forms, one point for each of rustc's.

What the profile has no statement for is a `call` that ends a block of the text; so blocks are more than rustc's, and points
are the same, in the same order.
"""

from typing import Iterator, NamedTuple

from nllc_tools.model.types.definitions import Definitions, has_opaque, is_opaque, made_type
from nllc_tools.model.types.structs import DISCRIMINANT
from nllc_tools.rustc.mir.function import Function, Paths
from nllc_tools.rustc.mir.statements import Assign, Call, Drop, Jump, Leave, Line, Nothing, Place, Read, Storage
from nllc_tools.rustc.mir.types import STATIC, Type
from nllc_tools.rustc.unsaid import NotSaid
from nllc_tools.texts.mir.calls import Calls, word_of
from nllc_tools.texts.mir.parts import BY_A_PART, Bounds
from nllc_tools.texts.mir.text import Text, Used, Walked

COERCIONS = ("Unsize", "ReifyFnPointer", "ClosureFnPointer", "UnsafeFnPointer", "Subtype")


class Value(NamedTuple):
    """What a line assigns to a place, what it is made of, and what rustc asks there."""

    line: Assign
    target: Walked
    operands: list[Used]
    paths: Paths

    def types(self) -> tuple[Type, ...]:
        return tuple(used.type for used in self.operands)

    def as_they_are(self) -> list[tuple[Used, Type]]:
        """The operands with their own types."""
        return [(used, used.type) for used in self.operands]


def translate(function: Function, definitions: Definitions) -> Text:
    return Translator(function, definitions).text()


class Translator(Calls):
    """Translates the lines of one function."""

    def text(self) -> Text:
        for location in sorted(self.function.lines):
            self.location = location
            self.line(self.function.lines[location], self.function.paths(location))
        lets = [f"let _{number}: {self.spell(type)}" for number, type in self.function.locals.items()]
        lets.append(f"let _{self.spare}: int")
        if list(self.function.locals) != list(range(self.spare)):
            raise NotSaid("variables that aren't numbered in order")
        asserts = [(self.name(a), self.name(b)) for a, b in sorted(
            {(reason.sup, reason.sub) for reason in self.function.asked.get(None, ())}) if a != b and a != STATIC]
        others = [self.name(one)[1:] for one in sorted(self.used - set(self.function.universals))] + self.fresh
        universals = {one: self.name(one)[1:] for one in self.universals()}
        return Text(self.function, self.structs.lines, lets, self.points, universals, others, asserts,
                    self.structs.has_functions, self.nearest)

    def universals(self) -> list[int]:
        """The universal regions; rustc's own one of the body, the last, is left out where nothing speaks of it."""
        *others, last = self.function.universals
        is_body = others and last not in self.names and last not in self.used
        return [one for one in (others if is_body else [*others, last]) if one != STATIC]

    def line(self, line: Line, paths: Paths) -> None:
        if isinstance(line, Storage):
            self.add(f"{'live' if line.is_live else 'dead'} _{line.local}")
        elif isinstance(line, Nothing):
            self.add("nop")
        elif isinstance(line, Read):
            self.read(line.place)
        elif isinstance(line, Assign):
            self.assign(line, paths)
        elif isinstance(line, Jump):
            self.jump(line)
        elif isinstance(line, Drop):
            self.drop(line)
        elif isinstance(line, Call):
            self.called(line, paths)
        elif isinstance(line, Leave):
            self.add("return" if line.is_return else "stop", ())

    def read(self, place: Place) -> None:
        walked = self.walk(place)
        if walked.text is None:
            self.approximate(BY_A_PART)
        self.add(f"read {walked.prefix}")

    def jump(self, line: Jump) -> None:
        if not line.blocks:
            self.add("stop", ())
        elif not line.operands and len(line.blocks) == 1:
            self.add("goto %s", line.blocks)
        else:
            used = self.operand(line.operands[0]) if line.operands else None
            if used and not (used.words and self.structs.is_int(used.type)):
                raise NotSaid("a branch by what isn't a number", used.type.name)
            self.add(f"switch {used.words if used else 'const'}{' %s' * len(line.blocks)}", line.blocks)

    def drop(self, line: Drop) -> None:
        if line.place.steps:
            walked = self.walk(line.place)
            self.approximate("the drop of a part, as a use of it")
            self.add_call(f"_{self.spare} = call drop({self.copied(walked)}): int", exits=line.blocks)
        elif line.blocks:
            self.add_call(f"drop _{line.place.local}", exits=line.blocks)
        else:
            self.add("stop", ())

    def assign(self, line: Assign, paths: Paths) -> None:
        kinds = {"use": self.use, "ref": self.borrow, "mut": self.borrow, "fake": self.borrow, "raw": self.raw,
                 "cast": self.cast, "pair": self.pair, "tuple": self.make_tuple, "array": self.array, "repeat": self.array,
                 "make": self.make, "static": self.static}
        value = Value(line, self.walk(line.place), list(map(self.operand, line.operands)), paths)
        (self.hide if self.hides(value) else kinds[line.kind])(value)

    def hides(self, value: Value) -> bool:
        """Whether the place's type has an `impl Trait` where the value's has another type, which it hides."""
        (line, target, *_), types = value, value.types()
        if not has_opaque(target.type):
            return False
        if line.kind in ("use", "tuple"):
            return not self.fits(types[0] if line.kind == "use" else Type("tuple", "", types), target.type)
        if is_opaque(target.type):
            return line.kind in ("ref", "mut") or not self.are_ints(target.type, *types)
        return line.kind == "make" and line.type is not None and \
            line.type._replace(form="", name="").shape() != target.type._replace(form="", name="").shape()

    def hide(self, value: Value) -> None:
        self.approximate("a value that an `impl Trait` hides, by what rustc asks of both types")
        self.call(value.target, "hide", value.as_they_are(), value.target.type, value.paths.pairs())

    def use(self, value: Value) -> None:
        target, (used,) = value.target, value.operands
        self.must_fit(used.type, target.type)
        if used.words is not None and target.text is not None:
            self.add(f"{target.text} = {used.words}")
        elif used.place is None:
            self.call(target, "constant", [(used, used.type)], used.type, value.paths.bounds())
        else:
            self.call(target, "copy", [(used, used.type)], used.type)

    def borrow(self, value: Value) -> None:
        line, target, borrowed = value.line, value.target, self.walk(value.line.source)
        mut = "mut " if line.kind == "mut" else ""
        type = Type("mut" if mut else "ref", "", (line.region, borrowed.type))
        if not self.fits(type, target.type):
            raise NotSaid("types that don't fit", f"a borrow of {borrowed.type.form} {borrowed.type.name}")
        if borrowed.text is not None and target.text is not None and not borrowed.is_crossed:
            self.add(f"{target.text} = &{self.name(line.region)} {mut}{borrowed.text}")
            return
        self.approximate("a borrow by a call, with what it rests on")
        if target.text is None:
            raise NotSaid("a borrow into a place that the profile can't write")
        where: Bounds = {(one, line.region) for one in rests_on(borrowed.derefs) if isinstance(line.region, int)}
        self.add_call(f"{target.text} = call borrow({self.copied(borrowed)}): {self.spell(type)}", where)

    def static(self, value: Value) -> None:
        """A reference to a static, one of each thread: all regions of its type are 'static."""
        self.call(value.target, "static", [], value.target.type.shape())

    def raw(self, value: Value) -> None:
        form = "mut pointer" if value.line.word == "mut" else "pointer"
        self.call(value.target, "raw", value.as_they_are(), Type(form, "", value.types()))

    def cast(self, value: Value) -> None:
        line, target = value.line, value.target
        if line.type is None:
            raise NotSaid("a cast to a type that isn't said", line.word)
        where = value.paths.pairs() if line.word in COERCIONS else set()
        self.call(target, line.word, value.as_they_are(), line.type, where - self.definitions.wants(line.type, target.type))

    def pair(self, value: Value) -> None:
        line, target = value.line, value.target
        of = self.walk(line.source) if line.word == "discriminant" else None
        if of and of.text is not None:
            index = None if self.structs.is_int(of.type) else self.structs.index(of.type, DISCRIMINANT)
            if target.text is not None:
                self.add(f"{target.text} = copy {of.text}" + ("" if index is None else f".{index}"))
                return
        places = [(used, used.type) for used in value.operands if used.place]
        is_plain = self.are_ints(target.type, *(type for _, type in places)) and target.text
        if is_plain and len(places) < 2:
            self.add(f"{target.text} = {places[0][0].words if places else 'const'}")
        else:
            self.call(target, line.word, places, target.type)

    def make_tuple(self, value: Value) -> None:
        target, made = value.target, Type("tuple", "", value.types())
        words = [used.words for used in value.operands if used.words is not None]
        if not self.fits(made, target.type) or not target.text or len(words) < len(value.operands):
            self.call(target, "tuple", value.as_they_are(), made)
        elif self.structs.is_int(made):
            self.plain(value)
        else:
            self.add(f"{target.text} = make {self.spell(made)} ({', '.join(words)})")

    def plain(self, value: Value) -> None:
        """A value without regions: what it is made of is used."""
        words = [used.words for used in value.operands if used.words != "const"]
        if not words:
            self.add(f"{value.target.text} = const")
        elif len(words) == 1 and words[0] is not None:
            self.add(f"{value.target.text} = {words[0]}")
        else:
            self.call(value.target, "make", value.as_they_are(), value.target.type)

    def array(self, value: Value) -> None:
        target = value.target
        if target.type.form != "slice":
            raise NotSaid("types that don't fit", "an array")
        if self.structs.is_int(target.type) and target.text:
            self.plain(value)
        else:
            self.call(target, "array", [(used, target.type.types[0]) for used in value.operands], target.type)

    def make(self, value: Value) -> None:
        line, target = value.line, value.target
        if line.type is not None and "::" not in line.type.name and line.type.name != target.type.name:
            raise NotSaid("a value that isn't understood", line.type.name)
        if self.are_ints(target.type, *value.types()) and target.text:
            self.plain(value)
        elif line.type is None:
            self.closure(value)
        elif (made := made_type(line.type, target.type)) is None:
            raise NotSaid("types that don't fit", f"{line.type.name} made for {target.type.name}")
        else:
            type, variant = made
            fields = list(self.fields(value, type, variant))
            self.call(target, variant or word_of(type.name), fields, type, value.paths.bounds())

    def closure(self, value: Value) -> None:
        type, paths = value.target.type, value.paths
        if len(type.captures) != len(value.operands):
            raise NotSaid("types that don't fit", f"a closure, {type.form} {type.name}")
        self.call(value.target, "closure", zip(value.operands, type.captures), type, paths.bounds() | paths.needs())

    def fields(self, value: Value, type: Type, variant: str) -> Iterator[tuple[Used, Type]]:
        """The operands with the types of the fields that they fill; a constant may fill one whose type isn't known."""
        for number, used in enumerate(value.operands):
            wanted = self.definitions.field(type, variant, number, used.type)
            if wanted is not None:
                yield used, wanted
            elif used.place:
                raise NotSaid("a field whose type isn't known", f"{type.name} {variant}.{number}")


def rests_on(derefs: list[Type]) -> Iterator[int]:
    """The regions on which a reborrow rests: up to the first shared reference or pointer, from the outside."""
    for type in reversed(derefs):
        if type.form not in ("ref", "mut") or not isinstance(type.region, int):
            return
        yield type.region
        if type.form == "ref":
            return
