"""Spells types in a MIR text, and declares the structs that they need.

`int` stands for each type without regions. References and tuples are what they are; an array or slice is a tuple of one
part. Each other type is a struct of its own, told by its shape: its parameters are the regions of the type in order.
"""

import re
from typing import Callable, Iterable, Iterator, NamedTuple, Optional

from nllc_tools.model.types.definitions import Definitions, behind
from nllc_tools.rustc.mir.statements import Place, Step
from nllc_tools.rustc.mir.types import STATIC, Region, Type
from nllc_tools.rustc.unsaid import NotSaid

Named = Callable[[Region], str]
DISCRIMINANT = ("", -1)
INSIDE = ("*", 0)
WRITTEN = {"ref": "&{} {}", "mut": "&{} mut {}", "pointer": "*const {}", "mut pointer": "*mut {}", "slice": "[{}]"}


class Field(NamedTuple):
    """A field that lines speak of: the struct's shape, the variant, the number, and the field's type as it is written."""

    base: Type
    variant: str
    number: int
    type: Optional[Type]


class Structs:
    """The structs of one text."""

    def __init__(self, definitions: Definitions, fields: Iterable[Field], structured: set[Type]):
        self.definitions = definitions
        self.structured = structured
        self.wanted: dict[Type, dict[tuple[str, int], Optional[Type]]] = {}
        for field in fields:
            self.wanted.setdefault(field.base, {}).setdefault((field.variant, field.number), field.type)
        self.names: dict[Type, str] = {}
        self.broken: set[tuple[Type, str, int]] = set()
        self.under_way: list[Type] = []
        self.lines: list[str] = []
        self.has_functions = False

    def is_int(self, type: Type) -> bool:
        """Whether nothing in it has a region."""
        return not type.regions() and not (self.structured and has_one(type, self.structured))

    def spell(self, type: Type, name: Named) -> str:
        """The type as a text writes it."""
        if self.is_int(type):
            return "int"
        if type.form in ("ref", "mut"):
            mut = "mut " if type.form == "mut" else ""
            return f"&{name(type.region)} {mut}{self.spell(type.types[0], name)}"
        if type.form == "pointer":
            return f"&'static {self.spell(type.types[0], name)}"
        if type.form in ("tuple", "slice"):
            return f"({', '.join(self.spell(part, name) for part in type.types)})"
        if type.form == "fn" and not type.bound():
            self.has_functions = True
            *inputs, output = (self.spell(part, name) for part in type.types)
            return f"fn({', '.join(inputs)}) -> {output}"
        own = self.declare(type.shape())
        regions = [name(region) for region, sign in self.definitions.positions(type) if sign != "0"]
        return f"{own}<{', '.join(regions)}>" if regions else own

    def declare(self, shape: Type) -> str:
        """The name of the struct of a shape, which is declared before it is named."""
        if shape not in self.names:
            last = shape.name.rpartition("::")[2]
            word = re.sub(r"\W+", "", last.title() if "{" in shape.name else last) or shape.form.title().replace(" ", "")
            self.names[shape] = self.free(word[:1].upper() + word[1:] if word[:1].isalpha() else f"T{word}")
            self.under_way.append(shape)
            self.lines += self.declaration(shape)
            self.under_way.pop()
        return self.names[shape]

    def free(self, word: str) -> str:
        taken = set(self.names.values())
        return next(found for found in (word, *(f"{word}_{number}" for number in range(2, len(taken) + 2))) if found not in taken)

    def declaration(self, shape: Type) -> list[str]:
        count = len(shape.regions())
        numbered = shape.with_list(list(range(1, count + 1)))
        fields = ", ".join(self.fields(shape, numbered))
        dropped = self.definitions.evidence.drops.get(shape, set())
        parameters = []
        for number, sign in self.definitions.positions(numbered):
            mark = " ?" if dropped and number - 1 not in dropped else ""
            if sign != "0":
                parameters.append(f"'p{number} {sign}{mark}")
        listed = f" <{', '.join(parameters)}>".replace("->", "- >") if parameters else ""
        drop = "drop " if dropped else ""
        own = self.names[shape]
        return [f"# {own} is {written(numbered)}", *self.told(shape), f"struct {own}{listed} {drop}({fields})"]

    def told(self, shape: Type) -> Iterator[str]:
        """Which fields the numbers of an enum's are."""
        for index, key in enumerate(self.keys(shape)):
            if key == INSIDE:
                yield f"#   .{index} is what it points to"
            elif key[0]:
                yield f"#   .{index} is field {key[1]} of {key[0]}"
            elif key == DISCRIMINANT:
                yield f"#   .{index} is the variant"

    def keys(self, shape: Type) -> list[tuple[str, int]]:
        """The fields in order: those of a struct by their numbers, an enum's discriminant before its variants' fields."""
        wanted = self.wanted.get(shape, {})
        if shape.is_closure():
            return [("", number) for number in range(len(shape.captures))]
        if shape.form == "mut pointer" or INSIDE in wanted:
            return [INSIDE, *sorted(key for key in wanted if key != INSIDE)]
        if any(variant for variant, _ in wanted) or DISCRIMINANT in wanted:
            return [DISCRIMINANT, *sorted(key for key in wanted if key != DISCRIMINANT)]
        return [("", number) for number in range(1 + max((number for _, number in wanted), default=-1))]

    def field_type(self, type: Type, key: tuple[str, int]) -> Optional[Type]:
        """The type of a field; None where no line speaks of it, and of a discriminant."""
        if key == INSIDE:
            return type.types[0]
        wanted = self.wanted.get(type.shape(), {})
        if key == DISCRIMINANT or key not in wanted and not type.is_closure():
            return None
        return self.definitions.field(type, *key, wanted.get(key))

    def fields(self, shape: Type, numbered: Type) -> Iterator[str]:
        for key in self.keys(shape):
            type = self.field_type(numbered, key)
            pointer = "&'static " if shape.form == "mut pointer" and key == INSIDE else ""
            yield "int" if type is None else pointer + self.field_spelled(shape, key, type)

    def field_spelled(self, shape: Type, key: tuple[str, int], type: Type) -> str:
        """The type of a field; one in which a struct that isn't yet declared stands can't be written."""
        if self.leads_back(type):
            self.broken.add((shape, *key))
            return "int"
        return self.spell(type, lambda region: "'static" if region == STATIC else f"'p{region}")

    def leads_back(self, type: Type) -> bool:
        """Whether a struct that is being declared is needed for the type."""
        todo, seen = [type.shape()], set()
        while todo:
            one = todo.pop()
            if one in seen or self.is_int(one):
                continue
            seen.add(one)
            if one in self.under_way:
                return True
            if one not in self.names:
                todo += self.needed(one)
            todo += [part.shape() for part in one.types if one.form in ("ref", "mut", "pointer", "tuple", "slice", "fn")]
        return False

    def needed(self, shape: Type) -> Iterator[Type]:
        """The shapes of the fields of a struct that isn't declared yet."""
        types = (self.field_type(shape, key) for key in self.keys(shape))
        return (type.shape() for type in types if type is not None)

    def index(self, base: Type, key: tuple[str, int]) -> Optional[int]:
        """The number by which a text names a field; None where the text can't."""
        shape = base.shape()
        if shape in self.names or not self.is_int(base):
            self.declare(shape)
        if (shape, *key) in self.broken:
            return None
        return self.keys(shape).index(key)


def written(type: Type) -> str:
    """A type as Rust writes it, more or less, for a remark; its regions are the struct's parameters."""
    parts = [f"'p{part}" if isinstance(part, int) else f"'{part}" if isinstance(part, str) else written(part)
             for part in type.parts]
    if type.form in WRITTEN:
        return WRITTEN[type.form].format(*parts)
    if type.form == "fn":
        return f"fn({', '.join(parts[:-1])}) -> {parts[-1]}"
    listed, name = ", ".join(parts), type.name or "a type"
    return f"({listed})" if type.form == "tuple" else f"{name}<{listed}>" if parts else name


def step_of(structs: Structs, base: Type, step: Step) -> Optional[str]:
    """How a text writes a step from a place of a type; None where it can't."""
    if step.kind == "deref":
        if base.form != "mut pointer" and not base.is_box():
            return ".*"
        index = structs.index(base, INSIDE)
        return None if index is None else f".{index}" if base.is_box() else f".{index}.*"
    if step.kind != "field":
        return ".0" if step.kind == "index" else ""
    number = step.field if base.form == "tuple" else structs.index(base, (step.variant, step.field))
    return None if number is None else f".{number}"


def fields_of(definitions: Definitions, locals: dict[int, Type], places: Iterator[Place]) -> tuple[list[Field], set[Type]]:
    """The fields that places go through, and the shapes without regions behind which there are some."""
    fields: dict[Field, None] = {}
    chains: list[list[Type]] = []
    for place in places:
        types = [locals[place.local]]
        for step in place.steps:
            type = types[-1]
            next_type = behind(definitions, type, step)
            if next_type is None:
                raise NotSaid("a field whose type isn't known", f"{type.form} {type.name} {step.variant}.{step.field}")
            if step.type is not None and type.form not in ("tuple", "closure", "coroutine"):
                fields[Field(type.shape(), step.variant, step.field, step.type.shape())] = None
            if step.kind == "deref" and type.is_box():
                fields[Field(type.shape(), *INSIDE, None)] = None
            types.append(next_type)
        if any(not type.regions() for type in types[:-1]):
            chains.append(types)
    return list(fields), behind_which(chains)


def behind_which(chains: list[list[Type]]) -> set[Type]:
    """The shapes without regions from which steps lead to regions, or to a type in which there is such a shape."""
    found: set[Type] = set()
    more = True
    while more:
        more = False
        for types in chains:
            last = max((at for at, type in enumerate(types) if type.regions() or has_one(type, found)), default=0)
            new = {type for type in types[:last] if not type.regions()} - found
            found |= new
            more |= bool(new)
    return found


def has_one(type: Type, shapes: set[Type]) -> bool:
    """Whether one of the shapes is the type, or a part of it."""
    return not shapes.isdisjoint(type.nested())
