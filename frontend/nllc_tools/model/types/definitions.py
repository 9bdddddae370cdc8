"""What rustc's dumps don't print of types: signs of arguments, types of fields, what a drop may look at.

rustc prints no definition of a struct. So what a text declares is read off what rustc asks: a sign, a field's type and a
mark are those by which all lines of a crate agree. One line would agree with itself; the others check it.
"""

from dataclasses import dataclass, field
from typing import Iterator, Optional, Sequence

from nllc_tools.rustc.mir import statements
from nllc_tools.rustc.mir.statements import Step
from nllc_tools.rustc.mir.types import PLAIN, STATIC, Type

FORWARD, BACK, BOTH = 1, 2, 3
SIGNS = {FORWARD: "+", BACK: "-", BOTH: "=", 0: "0"}
# Of the last part of a type, and of those before it; what the signature of a function doesn't name is invariant.
OWN_SIGNS = {"ref": "++", "mut": "+=", "pointer": "++", "tuple": "++", "slice": "++", "fn": "-+", "function": "=+", "dyn": "=+"}
TIMES = {("+", "+"): "+", ("+", "-"): "-", ("-", "+"): "-", ("-", "-"): "+"}

# A parameter: the name of a type, and the number of the argument.
Key = tuple[str, int]
FieldKey = tuple[Type, str, int, Type]


def times(outer: str, inner: str) -> str:
    if "0" in (outer, inner):
        return "0"
    return TIMES.get((outer, inner), "=")


def is_opaque(type: Type) -> bool:
    """Whether it is an `impl Trait` of a result."""
    return type.form == "alias" and "{opaque#" in type.name


def has_opaque(type: Type) -> bool:
    """Whether an `impl Trait` of a result is the type, or a part of it."""
    return any(map(is_opaque, type.nested()))


def own_signs(type: Type) -> Sequence[Optional[str]]:
    """The signs of a type's parts; None where it is for a definition to say."""
    count = len(type.parts)
    if type.form == "adt" or is_opaque(type):
        return [None] * count
    signs = OWN_SIGNS.get(type.form, "==")
    return (signs[0] * (count - 1) + signs[1])[:count]


@dataclass
class Evidence:
    """What lines of functions say; of several functions' the least counts.

    signs: of a sign and parameters, which of both ways was asked wherever regions meet behind them.
    fields: of a type's shape, a variant, a number and the field's shape, for each region of the field the numbers of those
    of the type that it may be; -1 is 'static. (A field has several shapes where bounds of functions say what a projection
    in it stands for.)
    drops: of a type's shape the numbers of the regions that a drop looks at.
    """

    signs: dict[tuple[str, tuple[Key, ...]], int] = field(default_factory=dict)
    fields: dict[FieldKey, list[frozenset[int]]] = field(default_factory=dict)
    drops: dict[Type, set[int]] = field(default_factory=dict)

    def add(self, other: "Evidence") -> None:
        for keys, ways in other.signs.items():
            self.signs[keys] = self.signs.get(keys, BOTH) & ways
        for key, found in other.fields.items():
            self.add_field(key, found)
        for shape, regions in other.drops.items():
            self.drops.setdefault(shape, set()).update(regions)

    def add_field(self, key: FieldKey, found: list[frozenset[int]]) -> None:
        known = self.fields.get(key)
        self.fields[key] = found if known is None else [old & new or old for old, new in zip(known, found)]


class Definitions:
    """What the evidence comes to."""

    def __init__(self, evidence: Evidence):
        self.evidence = evidence
        self.signs: dict[Key, str] = {}
        self.settle()

    def settle(self) -> None:
        """The signs: first of parameters that stand alone, then of those that the others leave."""
        ways: dict[Key, int] = {}
        left = dict(self.evidence.signs)
        for _ in range(4):
            rest = {}
            for (sign, keys), seen in left.items():
                unknown = [key for key in keys if key not in self.signs]
                outer = sign
                for key in keys:
                    outer = times(outer, self.signs.get(key, "+"))
                if len(unknown) != 1 or outer not in "+-":
                    rest[sign, keys] = seen
                    continue
                if outer == "-":
                    seen = {FORWARD: BACK, BACK: FORWARD}.get(seen, seen)
                ways[unknown[0]] = ways.get(unknown[0], BOTH) & seen
            self.signs.update({key: SIGNS[way] for key, way in ways.items() if key not in self.signs})
            left = rest

    def sign(self, type: Type, number: int) -> str:
        own = own_signs(type)[number]
        return own if own is not None else self.signs.get((type.name, number), "+")

    def positions(self, type: Type, outer: str = "+") -> Iterator[tuple[int, str]]:
        """The regions of a type with their signs, in order."""
        for number, part in enumerate(type.parts):
            sign = times(outer, self.sign(type, number))
            if isinstance(part, Type):
                yield from self.positions(part, sign)
            elif isinstance(part, int):
                yield part, sign

    def wants(self, less: Type, more: Type) -> set[tuple[int, int]]:
        """The pairs that the subtyping of two types of one shape asks."""
        found: set[tuple[int, int]] = set()
        for (a, sign), (b, _) in zip(self.positions(less), self.positions(more)):
            found |= {(a, b)} if sign in "+=" else set()
            found |= {(b, a)} if sign in "-=" else set()
        return {(a, b) for a, b in found if a != b}

    def field(self, base: Type, variant: str, number: int, written: Optional[Type]) -> Optional[Type]:
        """The type of a field by the regions of the type that it is of; of that of a struct a use writes the shape."""
        if base.form == "tuple" or base.is_closure():
            own = base.captures if base.is_closure() else base.types
            return own[number] if number < len(own) else None
        if written is None or not written.regions():
            return written and written.shape()
        found = self.evidence.fields.get((base.shape(), variant, number, written.shape()))
        if not found or not all(found):
            return None
        regions = base.regions()
        return written.with_list([regions[min(one)] if min(one) >= 0 else STATIC for one in found])


def behind(definitions: Definitions, base: Type, step: Step) -> Optional[Type]:
    """The type of a place one step further; None where it isn't known."""
    if step.kind == "field":
        return definitions.field(base, step.variant, step.field, step.type)
    if step.kind == "index":
        return statements.behind(base, step) or PLAIN
    return statements.behind(base, step)


def made_type(written: Type, target: Type) -> Optional[tuple[Type, str]]:
    """The type that a value is made of, and its variant, by what rustc writes and by the place's type."""
    names, own = written.name.split("::"), target.name.split("::")
    is_struct = len(names) <= len(own) and own[len(own) - len(names):] == names
    variant = "" if is_struct else names[-1]
    regions = written.regions()
    if len(regions) != len(target.regions()):
        return None
    return target.with_list(regions), variant
