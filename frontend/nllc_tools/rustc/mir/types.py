"""A type of MIR.

It is a tree whose leaves are regions, types without parts, and nothing else: what rustc says of constants in types is
skipped. A region is a number, `'?5` is 5; one that a `for<..>` binds is a word, `'^0` is `^0`, and so is one that a dump names.
"""

from __future__ import annotations

from typing import Callable, Iterator, NamedTuple, Sequence, Union

Region = Union[int, str]
Part = Union[Region, "Type"]

STATIC = 0


class Type(NamedTuple):
    """A type: its form, its name where the form alone doesn't say what it is, and its regions and types in order.

    The forms: ref, mut, pointer, mut pointer, tuple, slice (an array, too), adt, closure, coroutine, fn, function (one
    that has a name), dyn, alias (a projection that stays one, or an opaque type), plain (without parts). The last part
    of a fn or function is its result, of a dyn its region; the name of a function has its path. The first type of a reference,
    a pointer, a slice or a `Box` is what it leads to, that of a closure the tuple of what it captures.
    """

    form: str
    name: str = ""
    parts: tuple[Part, ...] = ()

    @property
    def types(self) -> tuple[Type, ...]:
        """Those of its parts that are types."""
        return tuple(part for part in self.parts if isinstance(part, Type))

    @property
    def region(self) -> Region:
        """The first of its parts that is a region: that of a reference."""
        return next((part for part in self.parts if not isinstance(part, Type)), STATIC)

    @property
    def captures(self) -> tuple[Type, ...]:
        """What a closure or coroutine captures."""
        return self.types[0].types if self.is_closure() and self.types else ()

    @property
    def has_lifetimes(self) -> bool:
        """Whether it has regions but `'static`, those that aren't printed among them."""
        return any(region != STATIC for region in self.leaves())

    def is_pointer(self) -> bool:
        """Whether it is a reference or a pointer."""
        return self.form in ("ref", "mut", "pointer", "mut pointer")

    def is_box(self) -> bool:
        return self.form == "adt" and self.name.rpartition("::")[2] == "Box"

    def is_closure(self) -> bool:
        return self.form in ("closure", "coroutine")

    def leaves(self) -> Iterator[Region]:
        """All regions in it, in order, as often as they stand there."""
        for part in self.parts:
            if isinstance(part, Type):
                yield from part.leaves()
            else:
                yield part

    def nested(self) -> Iterator[Type]:
        """The type, and all types in it."""
        yield self
        for part in self.types:
            yield from part.nested()

    def regions(self) -> list[int]:
        """The regions in it that it doesn't bind."""
        return [region for region in self.leaves() if isinstance(region, int)]

    def bound(self) -> set[str]:
        """The regions in it that a `for<..>` binds."""
        return {region for region in self.leaves() if isinstance(region, str)}

    def shape(self) -> Type:
        """The type with its regions forgotten."""
        return self.with_regions(lambda region: STATIC if isinstance(region, int) else region)

    def has_shape_of(self, other: Type) -> bool:
        """Whether the two differ in regions alone, those that they bind too."""
        return (self.form, self.name, len(self.parts)) == (other.form, other.name, len(other.parts)) and all(
            a.has_shape_of(b) if isinstance(a, Type) and isinstance(b, Type) else isinstance(a, Type) == isinstance(b, Type)
            for a, b in zip(self.parts, other.parts))

    def with_regions(self, new: Callable[[Region], Region]) -> Type:
        """The type with other regions."""
        if not self.parts:
            return self
        return Type(self.form, self.name, tuple(
            part.with_regions(new) if isinstance(part, Type) else new(part) for part in self.parts))

    def with_list(self, regions: Sequence[Region]) -> Type:
        """The type with these regions in order; those that it binds stay."""
        left = iter(regions)
        return self.with_regions(lambda region: next(left) if isinstance(region, int) else region)


UNIT = Type("tuple")
PLAIN = Type("plain")
